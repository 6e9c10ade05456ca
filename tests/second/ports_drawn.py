"""Drawn traces of `ports`: messages of both ports, alone and at once, mostly whole; some switch the other port off and
on. Now and then there is a module record, or one that is refused."""

from .draw import Draw
from .ports_listed import NO_PORTS, UNKNOWN
from .ports_records import PORTS, on, other
from .trace_drawn import MESSAGES, base, mostly_whole, one_of, time, weighted
from .trace_records import (
    activate, config_read, config_write, deactivate, module, parts, read, readback, record, release, reset, select,
    synch, tick, words, write,
)

TRACES = 160
SEED = 60000

# A port that is off can only come back by an ACTIVATE of the other one, so there are more of these.
PORT_MESSAGES = [*MESSAGES, (6, lambda draw: deactivate()), (12, lambda draw: activate())]

# Messages around those of the other port, and these: what they share, or switch. Sub-addresses are small, so that they
# meet each other's words.
AROUND = [
    (4, lambda draw: read(draw.between(1, 10), draw.below(6), draw.word())),
    (3, lambda draw: write(draw.below(6), draw.words(draw.between(0, 5)))),
    (1, lambda draw: config_write(base(draw))),
    (1, lambda draw: config_read(base(draw))),
    (2, lambda draw: tick(draw.below(64))),
    (1, lambda draw: readback(draw.word())),
    (1, lambda draw: deactivate()),
]
INSIDE = [
    (5, lambda draw: write(draw.below(6), draw.words(draw.between(1, 8)))),
    (2, lambda draw: config_write(base(draw))),
    (2, lambda draw: config_read(base(draw))),
    (1, lambda draw: reset()),
    (1, lambda draw: tick(draw.below(64))),
    (1, lambda draw: synch(time(draw))),
    (2, lambda draw: deactivate()),
    (3, lambda draw: activate()),
]


def refused_anywhere(draw):
    """A record that is always refused: of a port that is not there, of an unknown kind, or with too high a value."""
    no_port = on(draw.pick(NO_PORTS), draw.pick((select(), words([0x4DC1]), release(), release(16))))
    return draw.pick((no_port, no_port, one_of(draw, UNKNOWN), on(draw.pick(PORTS), release(16)), module(32)))


def disturbed(draw, port):
    """Seldom a record that is out of place, or always refused."""
    if draw.below(30):
        return b""
    return draw.pick((on(port, select()), module(draw.below(40)), refused_anywhere(draw), refused_anywhere(draw)))


def drawn_message(draw, port, choices=PORT_MESSAGES):
    """The records of one message."""
    message, left = mostly_whole(draw, weighted(draw, choices)(draw))
    opened = on(port, select()) + b"".join(on(port, words([word])) + disturbed(draw, port) for word in message)
    return opened + on(port, release(left))


def drawn_messages(draw, port, most):
    return b"".join(drawn_message(draw, port) for _ in range(draw.between(1, most)))


def shuffled(draw, streams):
    """The records of the streams, each in its order: in turn by single records, or in longer runs."""
    rest, records = [parts(stream) for stream in streams], b""
    most = draw.pick((1, 3, 12))
    while any(rest):
        stream = draw.pick([stream for stream in rest if stream])
        run = draw.between(1, most)
        records += b"".join(stream[:run])
        del stream[:run]
    return records


# Sections of a trace; after each no message is open.

def alone(draw):
    return drawn_messages(draw, draw.pick(PORTS), 2)


def both(draw):
    return shuffled(draw, [drawn_messages(draw, port, 2) for port in PORTS])


def inside(draw):
    """A message of one port, and whole ones of the other inside it, wherever they fall."""
    port = draw.pick(PORTS)
    records = parts(drawn_message(draw, port, AROUND))
    for _ in range(draw.between(1, 3)):
        at = draw.between(1, len(records) - 1)
        records[at:at] = [drawn_message(draw, other(port), INSIDE)]
    return b"".join(records)


def no_message(draw):
    """A record outside all messages: mostly the module call, else a refused one."""
    closed = on(draw.pick(PORTS), draw.pick((words([0x4DC1]), release(), release(16))))
    called = module(draw.below(32))
    return draw.pick((called, called, module(draw.between(32, 255)), closed, refused_anywhere(draw)))


SECTIONS = [(2, alone), (3, both), (10, inside), (2, no_message)]


def ending(draw):
    """Mostly nothing; else open messages, or an unfinished record."""
    unfinished = on(draw.pick(PORTS), record(draw.below(6)))[:draw.between(1, 3)]
    opened = b"".join(parts(shuffled(draw, [drawn_message(draw, port) for port in PORTS]))[:draw.between(1, 9)])
    return weighted(draw, [(6, b""), (1, unfinished), (1, opened), (1, opened + unfinished)])


def drawn_trace(number):
    draw = Draw(SEED + number)
    sections = draw.between(6, 16)
    return b"".join(weighted(draw, SECTIONS)(draw) for _ in range(sections)) + ending(draw)


def drawn_traces():
    return [drawn_trace(number) for number in range(TRACES)]
