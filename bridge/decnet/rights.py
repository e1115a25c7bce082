"""The rights of a user. A file of users has them in words, which a live end is told as they stand.

What a word allows is the live end's own. The bits are for who writes the FAC of an Access: the conversations of a probe, the
requests of people, and tests. A test compares them with what a live end does by each word.
"""
FAC = {"put": 1, "get": 2, "del": 4, "upd": 8}
ALL = "get,put,upd,del"
NONE = "-"


def are_rights(text):
    """Whether a text is some of the words, with commas between them."""
    return all(word in FAC for word in text.split(","))


def each_once(text):
    """The words in their order, each of them once."""
    return ",".join(dict.fromkeys(text.split(",")))


def fac_of(text):
    """The FAC that asks for these rights."""
    return 0 if text == NONE else sum(FAC[word] for word in set(text.split(",")))
