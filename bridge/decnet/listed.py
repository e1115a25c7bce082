"""What a listing of `dapcap` has."""
import re

NUMBERS, HALF = 4096, 2048  # segment numbers, and how many of them are ahead of one


def messages_by_way(listing):
    """The lines of DAP messages in each direction, link after link, and each link's in the order in which they were sent: the
    listing has a message where it is whole."""
    streams, highest = {}, {}
    for line in listing:
        words = line.split()
        if not line.startswith("  "):
            stream = (words[1], *(word for word in words if word.startswith(("dst=", "src="))))
        elif words[0] == "message":
            last = highest.get(stream, 0)
            ahead = (int(re.match(r"seg=(\d+)", words[1])[1]) - last) % NUMBERS
            sequence = last + (ahead if ahead <= HALF else ahead - NUMBERS)
            highest[stream] = max(sequence, last)
        else:
            streams.setdefault(stream, {}).setdefault(sequence, []).append(line)
    return {way: [line for stream, by_sequence in streams.items() if stream[0] == way
                  for sequence in sorted(by_sequence) for line in by_sequence[sequence]] for way in "><"}
