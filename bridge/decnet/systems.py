"""What a Configuration message says of a system, in words. All of it is from memory; a few bits in the middle may be
others."""

SYSCAP = (
    "preallocation", "sequential files", "relative files", "direct files", "indexed files, one key",
    "sequential file transfer", "random access by record number", "random access by block", "random access by key",
    "random access by hash code", "random access by record file address", "indexed files, several keys",
    "switching of access mode", "appending", "command files, by Access", "data compression", "several streams",
    "status return", "blocking up to a response", "unrestricted blocking", "lengths of two bytes", "checksums",
    "key definitions", "allocation", "summary", "directory list", "dates and times", "protection",
    "access control lists", "spooling by FOP", "command files by FOP", "deletion by FOP", "default file specification",
    "sequential record access", "recovery of a transfer", "BITCNT", "warnings", "rename", "wildcards", "go or no-go",
    "names", "segmented messages", "attributes changed on close", "attributes changed on open")


def abilities(syscap):
    """The bits of SYSCAP in words."""
    bits = [bit for bit in range(syscap.bit_length()) if syscap >> bit & 1]
    return [SYSCAP[bit] if bit < len(SYSCAP) else f"bit {bit}" for bit in bits]
