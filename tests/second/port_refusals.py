"""What `port_refusals` answers to its stored records: single calls of the card with two ports, and of its pins, each
with its refusal number and what it left."""

from typing import NamedTuple

from . import refused_calls
from .call_answers import ARGUMENT, CLOSED, MOST_SIZE, OPEN, SIZE, STATE, met, none_each_and_pairs, refusal
from .card import CLEAN, Card, Message, judge, tell
from .checks import bits, crc16
from .known import agree
from .port_refusal_records import PinCall, PortCall, all_records, as_card, packed
from .ports_records import PORTS, other
from .refused_calls import MOST_MEMORY, MOST_RECEIVED
from .refused_records import AT_PINS, LENDING, MODULE, NOTHING, RELEASE, SELECT, TAKE, TELL

# Larger numbers of module state, and of left-over bits, are taken as this one.
MOST_BYTE = 255

LEAST_RECORDS, MOST_RECORDS = 1_500, 4_500

# Records and their lines, worked by hand: first of the card, then of the pins. 8005 hex is 32773, and 8780
# is 34688; the CRC-16 of four words 7 is 1638, of five 38213.
BY_HAND = """\
0107 0004 0005 0000 0000 0300 0004 0000 | P 0 32773 1 1 0 0 0 0 0 1 0 0 0 0 0 0 5 0 1638
010B 0004 0000 0000 0001 0301 0004 0000 | P 0 34688 1 0 0 0 0 0 0 1 1 0 1 0 0 0 0 0 1638
012B 0004 0000 0000 0001 0301 0004 0000 | P 0 0 1 0 0 0 0 0 0 1 1 1 1 0 0 0 0 0 1638
0107 0004 0000 0043 0000 0400 0004 0000 | P 0 0 1 1 0 67 0 0 0 1 0 0 0 0 0 0 0 0 1638
0107 0004 0000 0002 0000 0500 0004 0003 | P 0 0 1 0 0 0 0 0 1 1 0 0 0 0 0 0 0 0 1638
0107 0004 0000 0000 0000 0500 0004 0001 | P 0 0 1 0 0 0 1 0 0 1 0 0 0 0 0 0 0 0 1638
0106 0004 0000 0002 0000 0500 0004 0003 | P 0 0 0 0 0 0 0 0 0 1 0 0 0 0 0 0 0 0 1638
0102 0004 0000 0002 0003 0100 0000 0000 | P 0 0 0 1 1 0 0 0 0 1 0 0 3 0 0 0 0 0 0
010C 0004 0000 0000 0000 0502 0005 0010 | P 2 0 0 1 0 0 0 0 0 0 1 0 0 0 0 0 0 0 38213
0107 0004 0000 0000 0000 0302 0005 0000 | P 1 0 1 1 0 0 0 0 0 1 0 0 0 0 0 0 0 0 38213
0103 0004 0000 0000 0000 0502 0004 0010 | P 5 0 1 0 0 0 0 0 0 1 0 0 0 0 0 0 0 0 1638
010B 0004 0000 0000 0000 0500 0004 0010 | P 4 0 1 0 0 0 0 0 0 1 1 0 0 0 0 0 0 0 1638
0129 0004 0006 0000 0000 0200 0010 0000 | P 3 0 1 0 0 0 0 0 0 0 1 1 0 0 0 0 6 0 0
0103 0004 0006 0000 0000 0200 0009 0000 | P 0 0 1 0 0 0 0 0 0 1 0 0 0 0 0 0 9 1 0
0207 0004 0000 0000 0000 0300 0004 0000 | Q 0 1 1 1 0 0 1 1 0 0 0 0 0
0207 0004 0000 4200 0F00 0300 0004 0000 | Q 0 0 1 1 0 67 0 1 0 0 0 0 0
0217 0004 0000 0100 0500 0300 0004 0000 | Q 0 0 1 1 1 1 5 1 0 0 0 0 0
0207 0004 0000 0000 0010 0300 0004 0000 | Q 2 0 1 1 0 0 0 1 0 0 0 16 0
0203 0004 0000 0102 0709 0101 0000 0000 | Q 0 0 1 0 0 1 7 1 1 0 0 0 0
0207 0004 0000 0200 0709 0400 0004 0000 | Q 0 0 1 0 0 0 7 1 0 0 0 9 0
020F 0004 0000 0000 0000 0303 0004 0000 | Q 5 0 1 1 0 0 0 1 1 0 0 0 0
"""


class Own(NamedTuple):
    """What a port has in a given state, and after a call."""

    active: int
    selected: int
    dropped: int
    words: int
    bits: int = 0  # in its shifter
    status: tuple = CLEAN


def own(record, port):
    names = ("active", "selected", "dropped", "words", "bits")
    return Own(*(getattr(record, f"{name}{port}", 0) for name in names))


def module_state(record):
    return min(record.module_state, MOST_BYTE)


def lent_words(record):
    """The memory's words. With the module call the number is the module state to set."""
    return 0 if as_card(record) == MODULE else min(record.given, MOST_MEMORY)


def is_port(record):
    return record.port in PORTS


def left_bits(record):
    """What a release takes as left-over bits: at the pins the count of the port's shifter."""
    return record.left if type(record) is PortCall else own(record, record.port).bits


# Refusals.

def state_fault(record):
    """A number out of its range, and since request 5 two inactive ports."""
    ports = [own(record, port) for port in PORTS]
    out_of_range = any(port.words > MOST_RECEIVED or port.bits > 15 for port in ports)
    size = not 1 <= record.size <= MOST_SIZE
    return size or out_of_range or record.module_state > 15 or not any(port.active for port in ports)


def selected_fault(record):
    """Whether a message is open that must not be, and whether one is lacking. At a port that is not there none can be
    either. The module call has no port, and is refused where either port is selected, live or not."""
    call = as_card(record)
    if call == MODULE:
        return any(own(record, port).selected for port in PORTS), False
    is_open = is_port(record) and own(record, record.port).selected
    return call == SELECT and is_open, call in LENDING and is_port(record) and not is_open


def argument_fault(record):
    call = as_card(record)
    if call == MODULE:
        return record.given > 15
    return not is_port(record) or call == RELEASE and left_bits(record) > 15


def faults(record):
    """What a call may be refused for, and whether it is."""
    is_open, is_closed = selected_fault(record)
    return {
        STATE: state_fault(record),
        SIZE: as_card(record) in LENDING and lent_words(record) != record.size,
        OPEN: is_open,
        CLOSED: is_closed,
        ARGUMENT: argument_fault(record),
    }


# What a call that is not refused leaves of its port, and the word or bit that it gives.

def is_live(port):
    return port.active and port.selected and not port.dropped


def told(record, port):
    """The word told for a live message, of which all words that came are zeros."""
    card = Card(record.size, module_state=record.module_state)
    word, _ = tell(card, Message((0,) * port.words, (0,) * port.words), [7] * lent_words(record))
    return word


def selected(port):
    return Own(port.active, 1, int(not port.active), 0)


def with_word(port):
    return port._replace(words=min(port.words + 1, MOST_RECEIVED))


def released(record, port):
    """A message without effect is only ended, and one of no bits too."""
    ended = port._replace(selected=0, dropped=0, words=0)
    if not is_live(port) or not port.words and not left_bits(record):
        return ended
    return ended._replace(status=judge(Card(record.size), (0,) * port.words, left_bits(record)))


def clocked(record, port):
    """The bit sent, and the port after it. The word of the bits before is 0, and so are the words that came."""
    sent = bits(told(record, port), 16)[0] if not port.bits else 0
    if port.bits < 15:
        return sent, port._replace(bits=port.bits + 1)
    return sent, with_word(port)._replace(bits=0)


def given_and_left(record):
    """The word or bit that a call gives, and its port after it."""
    call, port = as_card(record), own(record, record.port)
    if call == SELECT:
        return 0, selected(port)
    if call == RELEASE:
        return 0, released(record, port)
    if not is_live(port):
        return 0, port
    if type(record) is PinCall:
        return clocked(record, port)
    return (told(record, port), port) if call == TELL else (0, with_word(port))


class Answer(NamedTuple):
    number: int
    given: int  # the word told, or the bit sent
    ports: tuple
    module_state: int
    stf: int


def answer(record):
    number = refusal(faults(record))
    ports = [own(record, port) for port in PORTS]
    if number:
        return Answer(number, 0, tuple(ports), module_state(record), 0)
    if as_card(record) == MODULE:
        return Answer(0, 0, tuple(ports), record.given, 1)
    given, ports[record.port] = given_and_left(record)
    return Answer(0, given, tuple(ports), record.module_state, 0)


def line(record):
    """No call here writes into the memory: a message whose words are zeros is never accepted."""
    number, given, ports, state, stf = answer(record)
    if type(record) is PinCall:
        left = [number for port in ports for number in port[:5]]
        return " ".join(map(str, ["Q", number, given, *left, state]))
    left = [number for port in ports for number in (*port[:4], *port.status)]
    return " ".join(map(str, ["P", number, given, *left, state, stf, crc16([7] * lent_words(record))]))


# The stored files; each maker gives the number of records or lines, and the content.

def stdin():
    pieces = [packed(record) for record in all_records()]
    return len(pieces), b"".join(pieces)


def stdout():
    lines = [line(record) + "\n" for record in all_records()]
    return len(lines), "".join(lines).encode()


# The test of this program against what is worked by hand, and against the card with one port, and that no refusal is
# missing.

# What each call may refuse, by document 01's table and request 5.
REFUSALS = {
    (PortCall, SELECT): {STATE, OPEN, ARGUMENT},
    (PortCall, MODULE): {STATE, OPEN, ARGUMENT},
    (PortCall, TELL): {STATE, SIZE, CLOSED, ARGUMENT},
    (PortCall, TAKE): {STATE, SIZE, CLOSED, ARGUMENT},
    (PortCall, RELEASE): {STATE, SIZE, CLOSED, ARGUMENT},
    (PinCall, SELECT): {STATE, OPEN, ARGUMENT},
    (PinCall, MODULE): {STATE, OPEN, ARGUMENT},
    (PinCall, TAKE): {STATE, SIZE, CLOSED, ARGUMENT},
    (PinCall, RELEASE): {STATE, SIZE, CLOSED, ARGUMENT},
}

# These two meet only where something else than the port is an argument.
NEVER_OPEN_THERE = [{OPEN, ARGUMENT}, {CLOSED, ARGUMENT}]
WITH_ARGUMENTS = [(PortCall, MODULE), (PinCall, MODULE), (PortCall, RELEASE)]


def unpacked(part):
    """The record of these bytes."""
    flags = [part[1] >> place & 1 for place in range(6)]
    size, state, third, fourth, call, given, left = (int.from_bytes(part[at:at + 2], "big") for at in range(2, 16, 2))
    if part[0] == 1:
        return PortCall(*flags, size, state, third, fourth, *divmod(call, 256), given, left)
    return PinCall(*flags, size, state, *divmod(third, 256), *divmod(fourth, 256), *divmod(call, 256), given, part[0])


def test_by_hand():
    for text in BY_HAND.splitlines():
        numbers, wanted = text.split(" | ")
        agree(f"line of {numbers}", line(unpacked(bytes.fromhex(numbers))), wanted)


def test_packed(record):
    """Another record has other bytes."""
    agree("record of its bytes", unpacked(packed(record)), record)


def test_room(record):
    """The program has room for the memory that a record lends."""
    if as_card(record) != MODULE and record.given > MOST_MEMORY:
        raise AssertionError(f"too much memory: {record}")


def of_one_port(record):
    """Whether port 0 is called and live or not selected, and port 1 active and idle."""
    idle = own(record, 1)
    near = own(record, 0)
    lawful = idle.active and not idle.selected and idle.words <= MOST_RECEIVED and idle.bits <= 15
    return lawful and record.port == 0 and near.active and not near.dropped


def test_one_port(record):
    """Port 0 alone is answered as the card with one port."""
    number, given, (near, _), state, _ = answer(record)
    first = min(record.module_state, MOST_BYTE), record.size, record.words0, record.selected0, NOTHING
    if type(record) is PortCall:
        found = refused_calls.card(*first, as_card(record), record.given, record.left)[:5]
        agree(f"answer of one port to {record}", (number, near.selected, near.words, state, given), found)
    else:
        call = next(at_pins for at_pins, call in AT_PINS.items() if call == as_card(record))
        found = refused_calls.pins(*first, call, record.given, record.bits0)[:3]
        agree(f"answer of one port to {record}", (number, near.selected, near.bits), found)


def exchanged(record):
    """The record with port 0 and port 1 exchanged."""
    names = [name[:-1] for name in record._fields if name.endswith("0")]
    numbers = {f"{name}{port}": getattr(record, f"{name}{other(port)}") for name in names for port in PORTS}
    return record._replace(port=other(record.port) if is_port(record) else record.port, **numbers)


def test_ports_alike(record):
    found = answer(exchanged(record))
    wanted = answer(record)
    agree(f"answer with the ports exchanged to {record}", found, wanted._replace(ports=wanted.ports[::-1]))


def test_refusals(kind, records):
    """Each refusal is met, alone and with each other one, on each port, and so is a call that is not refused."""
    for port in PORTS:
        found = [met(faults(record)) for record in records if record.port == port or not is_port(record)]
        never = [] if kind in WITH_ARGUMENTS else NEVER_OPEN_THERE
        wanted = [numbers for numbers in none_each_and_pairs(REFUSALS[kind]) if numbers not in never]
        lacking = [sorted(numbers) for numbers in wanted if numbers not in found]
        agree(f"refusals of {kind[0].__name__} {kind[1]} that do not meet", lacking, [])
        agree(f"refusals of {kind[0].__name__} {kind[1]}", set().union(*found), REFUSALS[kind])


def self_test():
    """Raises AssertionError where a line is not as worked by hand, or as with one port, or a refusal is not met."""
    test_by_hand()
    kinds = {}
    for record in all_records():
        test_packed(record)
        test_room(record)
        test_ports_alike(record)
        if of_one_port(record):
            test_one_port(record)
        kinds.setdefault((type(record), as_card(record)), []).append(record)
    agree("calls of two ports", kinds.keys(), REFUSALS.keys())
    for kind, records in kinds.items():
        test_refusals(kind, records)
    if not LEAST_RECORDS <= len(all_records()) <= MOST_RECORDS:
        raise AssertionError(f"{len(all_records())} single calls of two ports")
