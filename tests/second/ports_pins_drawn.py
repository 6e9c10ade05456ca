"""Drawn records of `ports_at_pins`: messages of both ports, alone and at once, in drawn pieces, mostly short; some
switch the other port off and on. Between the pieces the device writes, and seldom a record is refused."""

from .checks import word_bits
from .draw import Draw
from .pins_drawn import drawn_sizes, ending_zeros
from .pins_records import clock, cut
from .ports_drawn import AROUND, INSIDE, PORT_MESSAGES, shuffled
from .ports_listed import NO_PORTS
from .ports_pins_listed import UNKNOWN_KINDS
from .ports_records import PORTS, on, other, settled
from .trace_drawn import mostly_whole, weighted
from .trace_records import MEMORY_WORDS, module, parts, read, record, release, select, words

SECTIONS_DRAWN = 100
SEED = 70003

# Short READs of the first words, where the device writes, and what else may be around messages of the other port.
READS = [(12, lambda draw: read(draw.between(1, 3), draw.below(3), draw.word())), *AROUND]


def refused_anywhere(draw):
    """A record that is always refused: of a port that is not there, of an unknown kind, or with too high a value."""
    calls = select(), words([0x4DC1]), release(draw.below(18)), clock(draw.between(1, 20))
    no_port = on(draw.pick(NO_PORTS), draw.pick(calls))
    unknown = record(draw.pick(UNKNOWN_KINDS), draw.below(256), draw.word())
    return draw.pick((no_port, no_port, unknown, on(draw.pick(PORTS), release(draw.between(16, 255))), module(32)))


def between(draw, device, port):
    """What comes between two records of a message: now and then the device writes, mostly where the READs are, and
    seldom a record is refused."""
    place = draw.pick((draw.below(4), draw.below(4), draw.below(12), draw.below(MEMORY_WORDS)))
    written = b"" if draw.below(4) else device.write(place)
    refused = draw.pick((on(port, select()), module(draw.below(40)), refused_anywhere(draw)))
    return written + (b"" if draw.below(30) else refused)


def drawn_message(draw, device, port, choices):
    """The records of one message. Some of the zeros at its end come with the release."""
    message, left = mostly_whole(draw, weighted(draw, choices)(draw))
    bits = word_bits(message) + draw.pick(([0] * left, [draw.below(2) for _ in range(left)]))
    zeros = draw.between(0, ending_zeros(bits))
    records = on(port, select())
    for _, part in cut(bits[:len(bits) - zeros], drawn_sizes(draw)):
        records += between(draw, device, port) + on(port, part)
    return records + between(draw, device, port) + on(port, release(zeros))


# Sections of a run; after each no message is open.

def alone(draw, device):
    """A message of any length, of one port."""
    return drawn_message(draw, device, draw.pick(PORTS), PORT_MESSAGES)


def both(draw, device):
    return shuffled(draw, [drawn_message(draw, device, port, READS + INSIDE) for port in PORTS])


def inside(draw, device):
    """A message of one port, and whole ones of the other inside it, wherever they fall."""
    port = draw.pick(PORTS)
    records = parts(drawn_message(draw, device, port, READS))
    for _ in range(draw.between(1, 2)):
        at = draw.between(1, len(records) - 1)
        records[at:at] = [drawn_message(draw, device, other(port), INSIDE)]
    return b"".join(records)


def no_message(draw, device):
    """A record outside all messages: mostly the module call or the device's, else a refused one."""
    closed = on(draw.pick(PORTS), draw.pick((words([0x4DC1]), clock(draw.below(20)), release(draw.below(18)))))
    written = device.write(draw.below(MEMORY_WORDS))
    return draw.pick((module(draw.below(40)), module(draw.below(32)), written, closed, closed, refused_anywhere(draw)))


def settling(draw, device):
    """Both ports are active again, and both bases 0."""
    return settled()


SECTIONS = [(1, alone), (5, both), (10, inside), (3, no_message), (3, settling)]


def drawn_records(device):
    draw = Draw(SEED)
    return b"".join(weighted(draw, SECTIONS)(draw, device) for _ in range(SECTIONS_DRAWN))
