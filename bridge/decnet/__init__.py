"""One DECnet Phase IV end node: frames, addresses, NSP links, a live end, kept files, and the programs around them."""
