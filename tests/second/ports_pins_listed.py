"""Listed cases of `ports_at_pins`: refused records. Each function gives the records of one case, in which the port is
the one that the case is about; at the end no message is open. Then all listed records."""

from itertools import cycle

from .apart_listed import PLACE
from .pins_listed import no_message_open
from .pins_records import clock
from .ports_listed import NO_PORTS, refused_port, states
from .ports_pins_records import OF_A_PORT, WITHOUT_PORT, at_pins, both_kept, ended, inside_words, kept, opened
from .ports_pins_shared import SHARED
from .ports_pins_switched import SWITCHED
from .ports_records import KINDS_OF_A_PORT, PORTS, on, other, sent_on, settled
from .ports_switched import FILLER, switched_off, switched_on
from .trace_records import MODULE, RELEASE, SELECT, WORD, deactivate, module, read, record, release, select, tick, write

# The kinds without an operation, or with one that has no port.
UNKNOWN_KINDS = tuple(
    kind for kind in range(256) if kind % KINDS_OF_A_PORT not in OF_A_PORT and kind not in WITHOUT_PORT
)


def states_inside_words(port):
    """Records that lead to each state with unfinished words, and back again."""
    peer, message = other(port), tick(1)
    closed, others_closed = on(port, release()), on(peer, release())
    return [
        (opened(port, message, 9), closed),
        (opened(port, message, 25) + opened(peer, message, 7), closed + others_closed),
        (opened(port, message, 25) + switched_off(port), closed + switched_on(port)),
        (opened(port, message, 3) + switched_off(port) + switched_on(port), closed),
        (switched_off(port) + opened(port, message, 30), closed + switched_on(port)),
        (switched_off(port) + opened(peer, message, 5), others_closed + switched_on(port)),
    ]


def module_in_every_state(device, port):
    """The module call with each port idle, open, dropped, off, and selected while off, inside words too: Open where one
    is selected, and before Argument. What it set is in the next tokens, and the words go on."""
    records = module(0x0C)
    for (to, back), value in zip(states(port) + states_inside_words(port), cycle((0x1F, 0x13, 0x09))):
        records += to + module(value) + module(0x20) + back
        records += b"".join(on(at, select() + clock(16, 0x40C0) + release()) for at in PORTS)
    return records + module(0xFF) + module(0)


def open_and_closed(device, port):
    """Bits, select and release of both ports in every state inside words: Open or Closed, each by its own port, live or
    not, and before Argument."""
    peer, records = other(port), b""
    for to, back in states_inside_words(port):
        records += to + on(port, select() + clock(1, 0x4EC1) + release(16)) + back
        records += to + on(peer, release(16) + clock(5) + select() + release(255)) + back
        # A select that was not refused is ended here; behind that none is open.
        records += b"".join(on(at, release() + clock(1) + clock(255) + release(3) + release(16)) for at in PORTS)
    return records


def no_message_is_open(device, port):
    """Bits, words and releases where no message is open, while the other port is inside a word, which goes on."""
    peer = other(port)
    records = opened(peer, tick(3), 21) + at_pins(port, no_message_open(device))
    return records + ended(peer, tick(3), 21) + kept(peer)


def bits_at_no_port(port):
    """A port that is not there, with kind 6, a release with bits, and the other operations."""
    return refused_port(port) + on(port, clock(1) + clock(16, 0x4EC1) + clock(255) + release(5) + release(15))


def no_such_port(device, port):
    """Ports 2 to 15 outside messages, inside words, and inside those without effect: Argument for each operation, and
    never Open or Closed. The words go on."""
    message, some = read(1, PLACE, FILLER), b"".join(bits_at_no_port(at) for at in NO_PORTS[port::5])
    records = b"".join(bits_at_no_port(at) for at in NO_PORTS[port::2]) + inside_words(port, message, {41: some})
    records += switched_off(port) + inside_words(port, message, {25: some}) + switched_on(port)
    return records + both_kept(port)


def unknown_kinds(device, port):
    """Kinds that have no operation, or the module's or the device's and a port: Record, idle and inside words."""
    refused = b"".join(record(kind, 1, 0x40C0) for kind in UNKNOWN_KINDS)
    some = b"".join(record(kind, 7, FILLER) for kind in UNKNOWN_KINDS[port::9])
    records = refused if port else b""  # of the ports alike
    return records + inside_words(port, read(1, PLACE, FILLER), {7: some, 32: some, 47: some}) + both_kept(port)


def refused_inside_words(device, port):
    """Select, module call and releases above 15 inside the words of both ports: they are refused, and the words go on,
    of live messages and of one without effect."""
    peer, message = other(port), read(1, PLACE, FILLER)
    refused = on(port, select() + release(16) + release(255)) + on(peer, select() + release(31))
    refused += module(3) + module(32)
    inside = {at: refused for at in (1, 16, 23, 32, 39, 48, 50)}
    records = opened(peer, tick(6), 29) + inside_words(port, message, inside)
    records += ended(peer, tick(6), 29) + both_kept(port)
    inside[23] += switched_off(port)
    records += inside_words(port, message, inside) + on(peer, select() + release())
    return records + switched_on(port) + both_kept(port)


def other_bytes(device, port):
    """Bytes that a kind does not use are ignored."""
    message = write(PLACE, [device.word()])
    records = record(MODULE, 0, FILLER) + on(port, record(SELECT, 0xFF, FILLER))
    records += on(port, b"".join(record(WORD, 0xF0 + place, word) for place, word in enumerate(message)))
    return records + on(port, record(RELEASE, 0, FILLER)) + sent_on(other(port), read(1, PLACE))


REFUSED = (
    module_in_every_state, open_and_closed, no_message_is_open, no_such_port, unknown_kinds, refused_inside_words,
    other_bytes,
)

CASES = (*SWITCHED, *SHARED, *REFUSED)


def listed_records(device):
    """All listed cases, each for both ports, in a fixed order; between two of them both statuses are made clean."""
    return b"".join(case(device, 0) + case(device, 1) + settled() for case in CASES)


def left_open(port):
    """The end of the run: both ports have a message open, this one inside a word, and a record is unfinished."""
    records = opened(port, tick(9), 25) + opened(other(port), deactivate(), 32) + on(port, clock(3))
    return records + on(port, record(WORD))[:3]
