"""Drawn traces: mostly valid messages, one in four damaged, and some refused records."""

from .addresses import base_of
from .draw import Draw
from .trace_listed import BASES, refused_inside, refused_outside, unknown_kinds
from .trace_records import (
    config_read, config_write, module, read, readback, record, release, reset, select, synch, tick,
    words, write,
)
from .tokens import FIRST_CODES, command_token

TRACES = 180
SEED = 20000


def weighted(draw, choices):
    """One of the things in a list of (weight, thing)."""
    place = draw.below(sum(weight for weight, _ in choices))
    for weight, thing in choices:
        if place < weight:
            return thing
        place -= weight


# Fields, small ones more often, so that commands meet each other's words.

def length(draw):
    return weighted(draw, [(8, draw.below(7)), (2, draw.below(64)), (1, 0), (1, 63)])


def sub_address(draw):
    return weighted(draw, [(6, draw.below(12)), (2, draw.below(256)), (1, draw.between(190, 255))])


def base(draw):
    """In bytes; some are odd."""
    small, any_inside = base_of(draw.below(12)), base_of(draw.below(200))
    return weighted(draw, [(6, small), (2, any_inside), (1, small + 1), (1, any_inside + 1), (1, draw.pick(BASES))])


def time(draw):
    high = draw.pick((0, 0x7FFFFFFF, 0xFFFFFFFF, draw.number()))
    return high << 32 | draw.pick((0, 0xFFFFFFFF, draw.number()))


# Messages.

def any_token(draw):
    """A good token of any code, with a few words behind it."""
    code = draw.pick((draw.below(64), draw.pick(FIRST_CODES)))
    return [*command_token(code, length(draw), draw.below(256)), *draw.words(draw.below(4))]


def drawn_write(draw):
    return write(sub_address(draw), draw.words(length(draw)))


def drawn_read(draw):
    return read(length(draw), sub_address(draw), draw.word())


MESSAGES = [
    (12, drawn_write),
    (12, drawn_read),
    (5, lambda draw: readback(draw.word())),
    (3, lambda draw: config_write(base(draw))),
    (3, lambda draw: config_read(base(draw))),
    (3, lambda draw: tick(draw.below(64))),
    (1, lambda draw: tick(draw.below(256))),
    (2, lambda draw: synch(time(draw))),
    (2, lambda draw: reset()),
    (1, any_token),
    (1, lambda draw: []),
]


# Damage: each gives the words, and the number of left-over bits.

def flipped(draw, message):
    if not message:
        return message, draw.between(1, 15)
    # Often in the token, which is a small part of a long message.
    place = draw.pick((draw.below(len(message)), draw.below(min(2, len(message)))))
    changed = list(message)
    changed[place] ^= 1 << draw.below(16)
    return changed, 0


def cut(draw, message):
    kept = draw.below(16 * len(message) + 1)
    return message[:kept // 16], kept % 16


def longer(draw, message):
    number = weighted(draw, [(6, draw.between(1, 4)), (1, draw.between(60, 80))])
    return [*message, *draw.words(number)], draw.pick((0, draw.below(16)))


def with_left_bits(draw, message):
    return message, draw.between(1, 15)


def mostly_whole(draw, message):
    """The message, one in four damaged."""
    if draw.below(4):
        return message, 0
    return draw.pick((flipped, flipped, cut, longer, with_left_bits))(draw, message)


def drawn_message(draw):
    return mostly_whole(draw, weighted(draw, MESSAGES)(draw))


# Records.

def one_of(draw, records):
    """One whole record of several."""
    place = 4 * draw.below(len(records) // 4)
    return records[place:place + 4]


def strange(draw, refused):
    """Seldom one or two records that the card or the program refuses."""
    if draw.below(12):
        return b""
    return b"".join(
        one_of(draw, draw.pick((refused, refused, unknown_kinds())))
        for _ in range(draw.between(1, 2))
    )


def around_message(draw):
    """One message with what stands before it and, seldom, inside it."""
    message, left = drawn_message(draw)
    place = draw.below(len(message) + 1)
    before = module(draw.below(32)) if not draw.below(6) else b""
    return b"".join((
        before, strange(draw, refused_outside()), select(), words(message[:place]),
        strange(draw, refused_inside()), words(message[place:]), release(left),
    ))


def ending(draw):
    """Mostly nothing; else an open message, or an unfinished record."""
    unfinished = record(draw.below(6))[:draw.between(1, 3)]
    opened = select() + words(drawn_write(draw))
    return weighted(draw, [(6, b""), (1, unfinished), (1, opened), (1, opened + unfinished)])


def drawn_trace(number):
    draw = Draw(SEED + number)
    messages = draw.between(10, 40)
    return b"".join(around_message(draw) for _ in range(messages)) + ending(draw)


def drawn_traces():
    return [drawn_trace(number) for number in range(TRACES)]
