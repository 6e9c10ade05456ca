"""Listed cases of `ports`: refused records, and the ends of traces. Each function gives the traces of one case, in
which the port is the one that the case is about. Then all listed traces."""

from itertools import cycle, product

from .ports_records import PORTS, on, other, places, sent_on, settled, with_inside
from .ports_shared import SHARED
from .ports_switched import FILLER, SWITCHED, all_shown, prepared, shown, switched_off, switched_on
from .trace_listed import BLOCK, SETTING
from .trace_records import (
    MODULE, RELEASE, SELECT, WORD, activate, deactivate, module, read, readback, record, release, select, tick,
    words, write,
)

NO_PORTS = range(2, 16)

# Kinds that no operation has: without one, with one of them that has no port, and the highest.
UNKNOWN_KINDS = (0, 5, 6, 15, 16, 20, 21, 31, 32, 36, 52, 64, 84, 128, 244, 245, 255)


def refused_port(port):
    """A port that is not there, with each operation and other bytes."""
    calls = select() + words([0x4DC1]) + release() + release(16) + record(SELECT, 0xFF, FILLER) + record(WORD, 0xFF)
    return on(port, calls)


REFUSED_PORTS = b"".join(refused_port(port) for port in NO_PORTS)
UNKNOWN = b"".join(record(kind, 1, 0x40C0) for kind in UNKNOWN_KINDS)


def states(port):
    """Records that lead from both ports active and idle to each state, and back again from there."""
    peer, opened, closed = other(port), on(port, select() + words(tick(1))), on(port, release())
    return [
        (switched_off(port) + opened + on(peer, select()), on(peer, release()) + closed + switched_on(port)),
        (b"", b""),
        (opened, closed),
        (opened + on(peer, select()), closed + on(peer, release())),
        (switched_off(port), switched_on(port)),
        (opened + switched_off(port) + switched_on(port), closed),
        (switched_off(port) + opened, closed + switched_on(port)),
        (switched_off(port) + opened + switched_on(port), closed),
        (switched_off(port) + on(peer, select() + words(tick(2))), on(peer, release()) + switched_on(port)),
        (opened + switched_off(port), closed + switched_on(port)),
    ]


def module_in_every_state(port):
    """The module call with each port idle, open, dropped, off, and selected while off: Open where one is selected, live
    or not, and before Argument. What it set is in the next tokens."""
    records = module(0x0C)
    for to, back in states(port):
        for value in (0x00, 0x1F, 0x13, 0x20, 0xFF, 0x09):
            records += to + module(value) + back + sent_on(port, [0x40C0]) + sent_on(other(port), [0x40C0])
    return [records]


def open_and_closed(port):
    """Select, word and release of both ports in every state: Open or Closed, each by its own port, live or not, and
    before Argument. The messages go on unharmed."""
    records = b""
    for to, back in states(port):
        for at in (port, other(port)):
            records += to + on(at, words([0x40C0]) + release(16) + release(255)) + back
            records += to + on(at, record(SELECT, 0xFF, FILLER)) + on(at, release(16)) + back
            # Open by now where it was not before; a release ends that.
            records += on(at, release() + words([0x40C0]) + release(3) + release(16)) + settled()
        records += shown(port) + shown(other(port))
    return [records]


def no_such_port(port):
    """Ports 2 to 15 in every state: Argument for each operation, and never Open or Closed. The messages go on."""
    return [b"".join(to + REFUSED_PORTS + back + shown(port) + shown(other(port)) for to, back in states(port))]


def no_such_port_inside(port):
    """Ports 2 to 15 and unknown kinds at each place of a message: they change nothing."""
    traces = []
    for message in (write(0, BLOCK), read(3, 0, FILLER), deactivate()):
        for refused in (refused_port(2) + refused_port(15), UNKNOWN):
            records = prepared(port)
            records += with_inside(port, message, {at: refused for at in places(message)}) + shown(port)
            traces.append(records + sent_on(port, activate()) + all_shown(other(port)))
    return traces


def unknown_kinds(port):
    """Kinds without an operation, or with the module's and a port, in every state: Record."""
    return [b"".join(to + UNKNOWN + back + shown(port) for to, back in states(port))]


def every_kind(port):
    """All kinds in turn, upward and downward."""
    kinds = range(256) if port else reversed(range(256))
    return [b"".join(record(kind, 3, 0x40C0) for kind in kinds) + on(0, release()) + on(1, release())]


def refused_inside_and_on(port):
    """Select and module call are refused at each place of a live message and of one without effect, and so is a release
    above 15: the message goes on as it was."""
    traces = []
    refused = on(port, select()) + module(3) + module(32) + on(port, release(16))
    for message in (write(0, BLOCK), read(3, 0, FILLER), readback(FILLER)):
        inside = {at: refused for at in places(message)}
        records = prepared(port) + with_inside(port, message, inside) + shown(port) + switched_off(port)
        records += with_inside(port, message, inside) + switched_on(port) + shown(port)
        inside[1] += switched_off(port)
        traces.append(records + with_inside(port, message, inside) + switched_on(port) + all_shown(port))
    return traces


def other_bytes(port):
    """Bytes that a kind does not use are ignored."""
    message = write(3, BLOCK)
    records = record(MODULE, 0x15, FILLER) + on(port, record(SELECT, 0xFF, FILLER))
    records += on(port, b"".join(record(WORD, 0xF0 + place, word) for place, word in enumerate(message)))
    return [records + on(port, record(RELEASE, 0, FILLER)) + sent_on(other(port), read(3, 3))]


REFUSED = (
    module_in_every_state, open_and_closed, no_such_port, no_such_port_inside, unknown_kinds, every_kind,
    refused_inside_and_on, other_bytes,
)


# The ends of traces.

def unfinished(port):
    """A last record of 1, 2 or 3 bytes, of each operation, and in every state: Record, whatever its kind."""
    calls = on(port, select()), on(port, words([0x40C0])), on(port, release()), module(3), record(0), refused_port(2)
    lengths = (1, 2, 3)
    traces = [to + call[:length] for (to, _), call, length in zip(states(port), cycle(calls), cycle(lengths))]
    return traces + [call[:length] for call, length in product(calls, lengths)]


def open_at_end(port):
    """Messages that are never released do nothing: of one port, of both, and without effect."""
    whole = on(port, select() + words(deactivate()))
    traces = [whole, whole + shown(other(port)), whole + on(other(port), select() + words(deactivate()))]
    for message in (tick(9), write(0, BLOCK), SETTING["IC"]):
        opened = on(port, select() + words(message))
        traces += [opened + sent_on(other(port), read(3, 0)), opened + switched_off(port) + shown(other(port))]
    return [*traces, sent_on(port, deactivate()) + on(other(port), select() + words(tick(9)))]


CASES = (*SWITCHED, *SHARED, *REFUSED)
ENDS = (unfinished, open_at_end)


def listed_traces():
    """All listed traces, in a fixed order: no record at all, and each case for each port."""
    return [b""] + [trace for case in (*CASES, *ENDS) for port in PORTS for trace in case(port)]


def one_after_the_other():
    """One trace with each case, by the first of its traces for one of the ports in turn. Between two of them both ports
    are made active and both bases 0. In the end a message is open, and a record unfinished."""
    traces = [case(port)[0] for case, port in zip(CASES, cycle(PORTS))]
    return settled().join(traces) + on(1, select() + words(tick(9)) + record(WORD)[:3])
