"""Records of `trace_pins`, where the bits come one by one, and the device writes into the memory between any two.

Select, word and release look as those of `trace`: the bits of a word come in from the highest on, and a release's value
is the number of zero bits that come in before it. PUT is that of `trace_apart`. BITS has the highest bits of its word
come in, as many as its value says, but at most 16.
"""

from itertools import cycle

from .apart_records import FILLER
from .checks import number, word_bits
from .trace_records import WORD, record, release, select

BITS = 6


def clock(count, word=FILLER):
    return record(BITS, count, word)


# Pieces: each is a record with some bits of a message, and goes with the number of bits before it.

def piece(bits):
    """A whole word's bits are a record of WORD. Otherwise ones fill the word up, which must not come in."""
    if len(bits) == 16:
        return record(WORD, 0, number(bits))
    return clock(len(bits), number([*bits, *[1] * (16 - len(bits))]))


def cut(bits, sizes):
    """The pieces of these sizes, up to the last bit."""
    start = 0
    for size in sizes:
        if start >= len(bits):
            return
        yield start, piece(bits[start:start + size])
        start += size


def cut_words(message, *sizes):
    """The pieces of a message, with these sizes in turn."""
    return cut(word_bits(message), cycle(sizes))


def place_at(place, start):
    """Where the word with the bit behind so many stands in the memory, if this is the place of word 3. The token's
    words have no place of their own."""
    return place + max(start // 16 - 2, 0)


# When the device writes: before a piece in a word, or before one that begins a word.

def inside(start):
    return start % 16 != 0


def first(start):
    return start % 16 == 0


def always(start):
    return True


def sent_in_pieces(pieces):
    """The records of one whole message, or of one with an unfinished word."""
    return select() + b"".join(part for _, part in pieces) + release()


def sent_and_written(device, place, pieces, when=always):
    """The same, and the device writing before pieces: at the place of the word to which the next bit belongs, if this
    is the place of word 3."""
    return sent_in_pieces(
        (start, (device.write(place_at(place, start)) if when(start) else b"") + part) for start, part in pieces
    )
