"""The records of crates/token_vectors/stdin: payloads, tokens, tokens to build, rows to look up."""

from functools import lru_cache
from itertools import product

from . import known, vector_answers
from .checks import crc16
from .damaged_tokens import (
    CHECK, COMMAND_SPARE, PREFIX, RESPONSE_SPARE, drawn_flips, each_wrong_set, flipped, one_bit_flips, test_sets,
    wrong_mark,
)
from .draw import Draw
from .tokens import (
    FIRST_CODES, NO_COMMAND, PORT_COMMANDS, ROWS, command_token, command_wrong, response_token, response_wrong,
    with_check,
)

SEED = 1
MOST_WORDS = 130


def one_bit(length, place, word):
    words = [0] * length
    words[word] = 1 << place
    return words


def one_bit_payload(draw, length):
    return one_bit(length, draw.below(16), draw.below(length))


def with_check_word(words):
    return words + [crc16(words)]


def payloads(draw):
    for words, _ in known.CHECKS:
        yield words
        yield with_check_word(words)
    # Small values at each place in a word.
    yield from ([value << place] for place in (0, 4, 8, 12) for value in range(16))
    # Each single bit of one to nine words: up to two fours of words, and up to three left over.
    for length in range(1, 10):
        yield from (one_bit(length, place, word) for word in range(length) for place in range(16))
    for length in range(MOST_WORDS + 1):
        yield [0] * length
        yield [0xFFFF] * length
        yield from (draw.words(length) for _ in range(9))
    for length in range(1, MOST_WORDS + 1):
        yield from (one_bit_payload(draw, length) for _ in range(3))
    for length in range(MOST_WORDS):
        yield from (with_check_word(draw.words(length)) for _ in range(4))


def token_and_damaged(draw, token, spare):
    yield token
    yield flipped(token, draw.pick(one_bit_flips()))
    yield flipped(token, drawn_flips(draw, CHECK))
    yield wrong_mark(draw, token, spare)
    yield wrong_mark(draw, token, PREFIX)


def token_and_each_flip(token, spare):
    """All single flips; those of prefix and spare also with the CRC-4 made right again."""
    yield token
    yield from (flipped(token, flips) for flips in one_bit_flips())
    for flips in one_bit_flips(PREFIX) + one_bit_flips(spare):
        yield with_check(*flipped(token, flips))


def row_tokens(draw, codes):
    """Tokens at the limits of each code's row, drawn ones inside it, and drawn ones of any fields."""
    for code in codes:
        least, most, last = ROWS[code]
        yield command_token(code, least, 0)
        yield command_token(code, most, last)
        for _ in range(8):
            yield command_token(code, draw.between(least, most), draw.between(0, last))
            yield command_token(code, draw.below(64), draw.below(256))


def every_code_tokens(draw):
    for code in range(64):
        yield command_token(code, draw.below(64), draw.below(256))


def every_response_token():
    for *flags, module_state in product((0, 1), (0, 1), (0, 1), (0, 1), range(16)):
        yield response_token(*flags, module_state)


def mixed_tokens(commands, responses):
    """One word of a command token and one of a response token, with a right CRC-4."""
    for command, response in product(commands, responses):
        yield with_check(command[0], response[1])
        yield with_check(response[0], command[1])


def each_wrong_set_of_both(draw):
    """Each set of wrong marks, of known tokens and of drawn responses: three known ones are few."""
    for token in known.COMMAND_WORDS:
        yield from each_wrong_set(draw, token, COMMAND_SPARE)
    every = [*every_response_token()]
    for token in [*known.RESPONSE_WORDS, *(draw.pick(every) for _ in range(9))]:
        yield from each_wrong_set(draw, token, RESPONSE_SPARE)


def tokens(draw):
    yield from [(0x0000, 0x0000), (0xFFFF, 0xFFFF)]
    for token in known.COMMAND_WORDS:
        yield from token_and_each_flip(token, COMMAND_SPARE)
    for token in known.RESPONSE_WORDS:
        yield from token_and_each_flip(token, RESPONSE_SPARE)
    yield from mixed_tokens(known.COMMAND_WORDS, known.RESPONSE_WORDS)
    for token in [*row_tokens(draw, FIRST_CODES), *every_code_tokens(draw)]:
        yield from token_and_damaged(draw, token, COMMAND_SPARE)
    for token in every_response_token():
        yield from token_and_damaged(draw, token, RESPONSE_SPARE)
    for _ in range(300):
        pair = draw.words(2)
        yield pair
        yield with_check(*pair)
    # Behind the drawn ones, so that those keep their places.
    for token in row_tokens(draw, PORT_COMMANDS):
        yield from token_and_damaged(draw, token, COMMAND_SPARE)
    yield from each_wrong_set_of_both(draw)


def commands_to_build(draw):
    # 0x010D, 0x0101 and 0x0100 look allowed where only their low byte is taken.
    codes = (0, 0x0D, 62, 63, 64, 255, 256, 0x010D, 65535)
    lengths = (0, 1, 63, 64, 255, 256, 0x0101, 65535)
    sub_addresses = (0, 1, 63, 64, 255, 256, 65535)
    yield from product(codes, lengths, sub_addresses)
    for _ in range(300):
        yield draw.below(64), draw.below(64), draw.below(256)
    for _ in range(100):
        yield draw.below(80), draw.below(80), draw.below(320)
    for _ in range(50):
        yield draw.words(3)
    # Behind the drawn ones, so that those keep their places; 0x0124 looks as ACTIVATE where only its low byte is taken.
    yield from product((*PORT_COMMANDS, NO_COMMAND, 0x0124), (0, 1, 64), (0, 1, 256))


def responses_to_build(draw):
    module_states = [*range(18), 31, 32, 127, 128, 240, 255]
    yield from product(range(16), module_states)
    # Now with other bits in the places that do not count.
    for flags, module_state in product(range(16), module_states):
        yield draw.word() & 0xFFF0 | flags, draw.word() & 0xFF00 | module_state


def rows_to_look_up(draw):
    yield from ([code] for code in range(256))
    # Now with other bits in the high byte, which does not count.
    yield from ([draw.word() & 0xFF00 | code] for code in ROWS)


MAKERS = {
    vector_answers.PAYLOAD: payloads,
    vector_answers.TOKEN: tokens,
    vector_answers.BUILD_COMMAND: commands_to_build,
    vector_answers.BUILD_RESPONSE: responses_to_build,
    vector_answers.ROW: rows_to_look_up,
}


@lru_cache(maxsize=None)
def records():
    """All records, as pairs of kind and words."""
    # A seed for each kind: a change of one kind leaves the others as they are.
    return [
        (kind, list(words))
        for kind, maker in MAKERS.items()
        for words in maker(Draw(SEED + kind))
    ]


def record_bytes(kind, words):
    return bytes([kind, len(words)]) + b"".join(word.to_bytes(2, "big") for word in words)


def stdin():
    """(number of records, content) of crates/token_vectors/stdin."""
    return len(records()), b"".join(record_bytes(*record) for record in records())


def stdout():
    """(number of records, content) of crates/token_vectors/stdout."""
    lines = [vector_answers.line(*record) + "\n" for record in records()]
    return len(lines), "".join(lines).encode("ascii")


def self_test():
    """Raises AssertionError where a set of wrong marks is missing, of a kind of token."""
    read = [words for kind, words in records() if kind == vector_answers.TOKEN]
    test_sets("command tokens", [command_wrong(*words) for words in read])
    test_sets("response tokens", [response_wrong(*words) for words in read])
