"""The records of crates/marks/stdin: tokens to be read as command or as response, with each set of wrong marks.

A record has 5 bytes: a letter, then word 1 and word 2, the high byte of each first. The last one is unfinished.
"""

from functools import lru_cache
from itertools import product
from typing import NamedTuple

from . import known
from .damaged_tokens import COMMAND_SPARE, RESPONSE_SPARE, flipped, one_bit_flips
from .draw import Draw
from .tokens import with_check
from .vector_records import each_wrong_set_of_both, every_code_tokens, every_response_token

SEED = 18

COMMAND, RESPONSE = b"CR"

# Letters that look like known ones, and numbers that count the kinds.
UNKNOWN = b"cr0\x01\x02\xFF"


class Kind(NamedTuple):
    known: list  # tokens
    spare: tuple  # the bits of (word 1, word 2) that belong to it


KINDS = {
    COMMAND: Kind(known.COMMAND_WORDS, COMMAND_SPARE),
    RESPONSE: Kind(known.RESPONSE_WORDS, RESPONSE_SPARE),
}


def packed(letter, words):
    return bytes([letter]) + b"".join(word.to_bytes(2, "big") for word in words)


# One byte short of a good command token.
UNFINISHED = packed(COMMAND, known.COMMAND_WORDS[0])[:-1]


# Makers of records, each a letter and two words.

def read_as_each_kind(tokens):
    return product(KINDS, tokens)


def known_tokens():
    return read_as_each_kind([(0x0000, 0x0000), (0xFFFF, 0xFFFF), *known.COMMAND_WORDS, *known.RESPONSE_WORDS])


def single_flips():
    for letter, kind in KINDS.items():
        for token, flips in product(kind.known, one_bit_flips()):
            yield letter, flipped(token, flips)


def wrong_sets(draw):
    return read_as_each_kind(each_wrong_set_of_both(draw))


def further_tokens(draw):
    """Good ones with other fields."""
    return read_as_each_kind([*every_code_tokens(draw), *every_response_token()])


def drawn_words(draw):
    for _ in range(150):
        pair = draw.words(2)
        yield from read_as_each_kind([pair, with_check(*pair)])


def unknown_letters():
    return product(UNKNOWN, [known.COMMAND_WORDS[0], known.RESPONSE_WORDS[0]])


@lru_cache(maxsize=None)
def all_records():
    """The whole ones. Unknown letters stand behind each group, so that known ones come behind them."""
    draw = Draw(SEED)
    groups = known_tokens(), single_flips(), wrong_sets(draw), further_tokens(draw), drawn_words(draw)
    return [record for group in groups for record in (*group, *unknown_letters())]
