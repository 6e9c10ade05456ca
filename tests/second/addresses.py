"""Request 2 (document 02): a base counts bytes, while sub-addresses, lengths and places in the memory count words."""

WORD_BYTES = 2


def word_address(base, sub_address):
    """Where a block begins in the memory: only the base is halved."""
    return base // WORD_BYTES + sub_address


def is_odd(base):
    """Whether a base points into the middle of a word. Its half does not tell, so this is asked of the base itself."""
    return base % WORD_BYTES != 0


def base_of(place):
    """The base of the block at this word, as the loader sends it."""
    return WORD_BYTES * place
