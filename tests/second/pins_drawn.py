"""Drawn messages of `trace_pins`, most of them READs, cut into drawn pieces; the device writes between these."""

from .apart_drawn import between, drawn_messages
from .checks import word_bits
from .draw import Draw
from .pins_records import clock, cut, place_at
from .trace_drawn import MESSAGES, drawn_read, drawn_write, length, sub_address, weighted
from .trace_records import read, record, release, select, words, write

DRAWN = 190
SEED = 50000

UNKNOWN = (record(0), record(4), record(7))
REFUSED_INSIDE = (*UNKNOWN, select(), release(16), release(255))
REFUSED_OUTSIDE = (*UNKNOWN, words([0x4EC1]), clock(1), clock(16), release(), release(3))

OTHERS = [(weight, make) for weight, make in MESSAGES if make is not drawn_write]


def short_read(draw):
    """Of few words, so that many messages need not many records."""
    return read(draw.between(1, 5), sub_address(draw), draw.word())


def message_by(device):
    """What draws a message. A WRITE has words of the device, so that no two in the memory are alike."""
    def device_write(draw):
        return write(sub_address(draw), [device.word() for _ in range(length(draw))])

    def any_message(draw):
        makers = [(3, short_read), (2, drawn_read), (1, device_write), (2, weighted(draw, OTHERS))]
        return weighted(draw, makers)(draw)
    return any_message


def drawn_sizes(draw):
    """Words, whole or cut in two, and now and then a piece that moves those behind it, or one without a bit."""
    while True:
        size = draw.between(1, 15)
        yield from draw.pick((*[(16,)] * 5, *[(size, 16 - size)] * 3, (size,), (0,)))


def ending_zeros(bits):
    """Up to 15, as many as a release may have."""
    ending = bits[-15:]
    return len(ending) if 1 not in ending else ending[::-1].index(1)


def played(draw, device, place, message, left):
    """A message, whose word 3 may be read from this place. Some of the zeros at its end come with the release."""
    bits = word_bits(message) + draw.pick(([0] * left, [draw.below(2) for _ in range(left)]))
    zeros = draw.between(0, ending_zeros(bits))
    records = between(draw, device, place, REFUSED_OUTSIDE) + select()
    for start, part in cut(bits[:len(bits) - zeros], drawn_sizes(draw)):
        records += between(draw, device, place_at(place, start), REFUSED_INSIDE) + part
    return records + between(draw, device, place_at(place, len(bits)), REFUSED_INSIDE) + release(zeros)


def drawn_records(device):
    draw = Draw(SEED)
    messages = drawn_messages(draw, DRAWN, message_by(device))
    return b"".join(played(draw, device, *message) for message in messages)
