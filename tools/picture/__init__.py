"""What tools/ladder draws: captures read and listed, divided into links, and drawn as a page."""
