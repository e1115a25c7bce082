"""How many bytes of files a serving bridge holds, and how many it may."""
from decnet import log
from decnet.kept import FILE, RECORD

# A record of N bytes has at most 2 N + 15 in the listing (two spaces, a number of ten digits, a space, two digits a byte or
# `-`, LF), and at least N + 3 in what is sent to store it (type, flags, an empty record number). The line of a file has less
# than five times the bytes of the Attributes and the Access that make it, but for what the name of a version has besides.
LISTED = 5
NUMBERED = 2 * len(";32767")  # what it has at most, in hex
NEARLY = 16  # with less than this part of the space left it counts as full: else each record would need a count


class Count:
    """The answer to `files`, of which only the size is kept."""

    def __init__(self, then):
        self.then, self.size = then, 0

    def take(self, line):
        self.size += len(line) + 1

    def end(self):
        self.then(self.size)


class Space:
    """The bytes of all files as `files` lists them, and as they are kept. What links send to be stored is counted as the
    most that it can come to; where that is more than there may be, the files are counted."""

    def __init__(self, end, most, has_versions=False):
        self.end, self.most = end, most
        self.more = NUMBERED if has_versions else 0  # of the name of a file
        self.used = 0  # at most
        self.later = 0  # of it what came since a count was begun
        self.is_counting = self.is_full = False

    def noted(self, lines):
        """Lines with their numbers that the live end is told at the start, of files and packets, are counted."""
        for number, line in lines:
            self.used += self.listed(line)
            yield number, line

    def listed(self, line):
        """The most that a line can come to. A packet has an NSP header, which is more than the rest of a name."""
        if not line.startswith((FILE, RECORD)):
            return LISTED * (len(line) // 2)
        return len(line) + 1 + (self.more if line.startswith(FILE) else 0)

    def take(self, size):
        """A segment with bytes that may be stored came. A second file of one takes an Access Complete, which is more than the rest
        of a name."""
        most = LISTED * size + self.more
        self.used += most
        self.later += most
        if self.used > self.most and not self.is_full:
            self.count()

    def count(self):
        """Counts the files, as they are when the live end has done what it was told."""
        if not self.is_counting:
            self.is_counting, self.later = True, 0
            self.end.tell("files", Count(self.counted))

    def counted(self, size):
        self.is_counting, self.used = False, size + self.later
        was_full, self.is_full = self.is_full, size > self.most - self.most // NEARLY
        if self.is_full and not was_full:
            log.say(f"the files have {size} bytes, and --space allows {self.most}: nothing more is stored")
        elif was_full and not self.is_full:
            log.say(f"the files have {size} bytes: there is space again")

    def link_closed(self):
        """What a link made may be gone with it."""
        if self.is_full:
            self.count()
