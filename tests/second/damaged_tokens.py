"""Tokens with flipped bits, above all with each set of wrong marks (request 6, document 02)."""

from itertools import product

from .tokens import with_check

# The bits of (word 1, word 2) that belong to each mark.
PREFIX = (0xC000, 0xC000)
COMMAND_SPARE = (0x00C0, 0x0030)
RESPONSE_SPARE = (0x03F0, 0x3FF0)
CHECK = (0x0000, 0x000F)

# Which of prefix, spare and CRC-4 may be wrong together; the first is the good token's.
SETS = tuple(product((False, True), repeat=3))


def flipped(token, flips):
    return token[0] ^ flips[0], token[1] ^ flips[1]


def inside(flips, mask):
    """Whether a flipped bit belongs to a mask."""
    return bool(flips[0] & mask[0] or flips[1] & mask[1])


def one_bit_flips(mask=(0xFFFF, 0xFFFF)):
    """Each single bit of a mask over both words."""
    places = [(1 << place, 0) for place in range(16)] + [(0, 1 << place) for place in range(16)]
    return [flips for flips in places if inside(flips, mask)]


def drawn_flips(draw, mask):
    """One or more bits of a mask."""
    while True:
        flips = draw.word() & mask[0], draw.word() & mask[1]
        if flips != (0, 0):
            return flips


def flipped_in_each(draw, token, masks):
    """The token with one or more bits of each mask flipped."""
    for mask in masks:
        token = flipped(token, drawn_flips(draw, mask))
    return token


def wrong_mark(draw, token, mask):
    """The token with a wrong mark, but its CRC-4 made right again."""
    return with_check(*flipped_in_each(draw, token, [mask]))


def words_with(mask):
    """The masks to flip bits of, so that the mark is wrong in no word, in word 1, in word 2, and in both."""
    first, second = (mask[0], 0), (0, mask[1])
    return [], [first], [second], [first, second]


def each_wrong_set(draw, token, spare):
    """A good token with each set of wrong marks; prefix and spare are wrong in either word and in both."""
    ways = product(words_with(PREFIX), words_with(spare), ([], [CHECK]))
    for prefixes, spares, checks in [*ways][1:]:  # in the first nothing is wrong
        damaged = with_check(*flipped_in_each(draw, token, prefixes + spares))
        yield flipped_in_each(draw, damaged, checks)


def test_sets(what, found):
    """Raises AssertionError where a set of wrong marks does not occur."""
    lacking = set(SETS) - set(found)
    if lacking:
        raise AssertionError(f"{what}: no token with these of prefix, spare and CRC-4 wrong: {sorted(lacking)}")
