"""The records of crates/port_refusals/stdin: single calls of the card with two ports (request 5 of document 02), and of
its pins, with given arguments and states, refused ones above all.

A record has 16 bytes: the operation, x (1 byte), and seven numbers of 2 bytes each, high byte first. x has the first
six numbers of a type below as bits, from the lowest. Call and port are one number, 256 times the call, and the port;
and so are at the pins the words that came at both ports, and the bits in both shifters. All else is as at power-up. The
memory is full of 7, and given is the number of its words, but with MODULE the module state to set.
"""

from collections import namedtuple
from functools import lru_cache
from itertools import combinations, product

from .draw import Draw
from .ports_records import PORTS, other
from .refused_records import (
    AT_PINS, CLOCK, LENDING, MODULE, RELEASE, SELECT, TAKE, TELL, alone, each_once, gathered, near,
    packed_call,
)

FLAGS = "active0 active1 selected0 selected1 dropped0 dropped1"
PortCall = namedtuple("PortCall", FLAGS + " size module_state words0 words1 call port given left")
PinCall = namedtuple("PinCall", FLAGS + " size module_state words0 words1 bits0 bits1 call port given operation")

AT_CARD = {call: call for call in (SELECT, MODULE, TELL, TAKE, RELEASE)}
CARD_OPERATION, PINS_OPERATION = 1, 2

# Numbers of the last call of each, the release, and of the pins' operation, that count as these do.
OTHER_CALLS, OTHER_OPERATIONS = (0, 6, 7, 128, 255), (0, 3, 128, 255)

# Size and words of a card that calls are not refused for; the called port has other words than the other one.
SIZE, WORDS, OTHER_WORDS = 4, 1, 2

# Some numbers that end in a byte which looks allowed.
SIZES = (0, 1, 32767, 32768, 32769, 65535)
WORD_NUMBERS = (0, 1, 2, 66, 67, 68, 255)
MODULE_STATES = (0, 15, 16, 255, 256, 271, 65535)
LEFT_NUMBERS = (0, 1, 15, 16, 255, 256, 271, 65535)
PORT_NUMBERS = (0, 1, 2, 3, 16, 128, 254, 255)
BIT_NUMBERS = (0, 1, 7, 14, 15, 16, 17, 255)


def number_of_flags(record):
    """x."""
    return sum(flag << place for place, flag in enumerate(record[:6]))


def packed(record):
    called = 256 * record.call + record.port
    if type(record) is PortCall:
        numbers = record.words0, record.words1, called, record.given, record.left
        return packed_call(CARD_OPERATION, number_of_flags(record), (record.size, record.module_state, *numbers))
    pairs = 256 * record.words0 + record.words1, 256 * record.bits0 + record.bits1
    numbers = record.size, record.module_state, *pairs, called, record.given, 0
    return packed_call(record.operation, number_of_flags(record), numbers)


def as_card(record):
    """The card's call that is refused alike: any other one is a release."""
    calls = AT_CARD if type(record) is PortCall else AT_PINS
    return calls.get(record.call, RELEASE)


def of(port, **numbers):
    """These numbers of a port, by their names with the port behind."""
    return {f"{name}{port}": number for name, number in numbers.items()}


def called(lawful, port):
    """The call for this port, with its words, and with a message where the call asks for one."""
    is_open = int(as_card(lawful) in LENDING)
    near_one, far_one = of(port, words=WORDS, selected=is_open), of(other(port), words=OTHER_WORDS)
    return lawful._replace(port=port, **near_one, **far_one)


def card_calls():
    """One call of each kind for each port that is not refused."""
    lawful = [PortCall(1, 1, 0, 0, 0, 0, SIZE, 3, 0, 0, call, 0, SIZE, 0) for call in AT_CARD]
    return [called(record, port) for record in lawful for port in PORTS]


def pin_calls(near_bits=7, far_bits=9):
    """The same at the pins, with bits in both shifters."""
    lawful = [PinCall(1, 1, 0, 0, 0, 0, SIZE, 3, 0, 0, 0, 0, call, 0, SIZE, PINS_OPERATION) for call in AT_PINS]
    return [
        called(record, port)._replace(**of(port, bits=near_bits), **of(other(port), bits=far_bits))
        for record in lawful for port in PORTS
    ]


def all_calls():
    return card_calls() + pin_calls()


# All states of the two ports, those that no run has too.

def every_state():
    """Each port active or not, selected or not, and with its message dropped or not; at the pins with a first bit, a
    later one and the last one of a word. So there is each state with two inactive ports, and a module call with each
    port selected."""
    calls = card_calls() + pin_calls(0, 9) + pin_calls(15, 0)
    flags = FLAGS.split()
    return [
        lawful._replace(**dict(zip(flags, values))) for lawful in calls for values in product((0, 1), repeat=len(flags))
    ]


# Numbers at their edges and just beyond.

def edges_of_states():
    """Size, words of either port, and module state."""
    records = []
    for lawful in all_calls():
        records += alone(lawful, size=SIZES, module_state=MODULE_STATES, words0=WORD_NUMBERS, words1=WORD_NUMBERS)
    for lawful in card_calls():
        records += alone(lawful, words0=(257, 65535), words1=(257, 65535))  # the pins' are bytes
    return records


def edges_of_shifters():
    """The bits in either shifter, whichever port is called, and for a port that is not there."""
    records = []
    for lawful in pin_calls():
        records += alone(lawful, bits0=BIT_NUMBERS, bits1=BIT_NUMBERS)
        records += alone(lawful._replace(port=2), bits0=(15, 16), bits1=(15, 16))
    return records


def memories():
    """The lent memory one short, one long, none, and as long as the card's size for other sizes. The program has none
    for the large ones."""
    records = []
    for lawful in all_calls():
        if as_card(lawful) in LENDING:
            records += alone(lawful, given=(0, SIZE - 1, SIZE + 1, 300))
            records += [lawful._replace(size=size, given=size) for size in (1, 2, 256, 299, 300)]
            records += [lawful._replace(size=size, given=300) for size in (299, 301, 32767, 32768)]
    return records


def arguments():
    """Ports, module states to set, and left-over bits. The module call has no port."""
    records = []
    for lawful in all_calls():
        records += alone(lawful, port=PORT_NUMBERS)
        if as_card(lawful) == MODULE:
            records += alone(lawful, given=MODULE_STATES)
        if type(lawful) is PortCall:
            records += alone(lawful, left=LEFT_NUMBERS)  # only the release looks at them
    return records


def other_numbers():
    """Calls and operations without a meaning of their own."""
    records = []
    for release in card_calls()[-len(PORTS):] + pin_calls()[-len(PORTS):]:
        records += alone(release, call=OTHER_CALLS, given=(SIZE + 1,))
    for lawful in pin_calls():
        records += alone(lawful, operation=OTHER_OPERATIONS)
    return records


# Two faults at once, and more.

def state_faults(record):
    """Numbers of a state that are refused, each alone."""
    found = [{"size": 0}, {"size": 32769}, {"module_state": 16}, {"words0": 68}, {"words1": 68}]
    found.append({"active0": 0, "active1": 0})
    return found + ([{"bits0": 16}, {"bits1": 16}] if type(record) is PinCall else [])


def later_faults(record):
    """Size, Open or Closed, and Argument, as far as the call may have them."""
    call, selected = as_card(record), f"selected{record.port}"
    found = [{selected: 1 - getattr(record, selected)}]
    if call == MODULE:
        return [*found, {f"selected{other(record.port)}": 1}, {"given": 16}]
    if call in LENDING:
        found += [{"given": SIZE - 1}, {"given": SIZE + 1}]
    if call == RELEASE and type(record) is PortCall:
        found.append({"left": 16})
    return [*found, {"port": 2}, {"port": 255}]


def orders():
    """Calls with two faults, and with three, on each port."""
    records = []
    for lawful in all_calls():
        later = later_faults(lawful)
        found = [*product(state_faults(lawful), later), *combinations(later, 2), *combinations(later, 3)]
        found += [(first, *two) for first in ({"module_state": 16}, {"size": 0}) for two in combinations(later, 2)]
        for several in found:
            records.append(lawful._replace(**{name: value for fault in several for name, value in fault.items()}))
    return records


# What calls give and leave that are not refused.

def words_told():
    """Tell and take with each word of the response token and behind it, and module states in it."""
    calls = [lawful for lawful in card_calls() if as_card(lawful) in (TELL, TAKE)]
    return [
        lawful._replace(module_state=state, **of(lawful.port, words=words))
        for lawful, words, state in product(calls, (0, 1, 2, 3, 66, 67), (0, 5, 15))
    ]


def verdicts():
    """Release with words and left-over bits: of a live message, of one dropped, and of a port that is off."""
    calls = [lawful for lawful in card_calls() if lawful.call == RELEASE]
    return [
        lawful._replace(left=left, **of(lawful.port, words=words, active=active, dropped=dropped))
        for lawful, words, left in product(calls, (0, 1, 2, 3, 66, 67), (0, 1, 15))
        for active, dropped in ((1, 0), (1, 1), (0, 1), (0, 0))
    ]


def bits_clocked():
    """A clock with each number of bits in the shifter and of words that came: the word is told with its first bit, and
    counts with its sixteenth."""
    calls = [lawful for lawful in pin_calls() if lawful.call == CLOCK]
    return [
        lawful._replace(**of(lawful.port, words=words, bits=bits, dropped=dropped))
        for lawful, words, bits, dropped in product(calls, (0, 1, 2, 66, 67), (0, 1, 8, 14, 15), (0, 1))
    ]


# Drawn records.

def drawn(draw):
    """A call of each kind with drawn numbers, most of them inside their ranges."""
    flags = [draw.pick((1, 1, 1, 0)) for _ in range(2)] + [draw.below(2) for _ in range(2)]
    flags += [draw.pick((0, 0, 1)) for _ in range(2)]
    size, port = draw.between(1, 299), draw.pick((0, 0, 0, 1, 1, 1, draw.below(256)))
    state = *flags, size, near(draw, draw.below(16)), near(draw, draw.below(68)), near(draw, draw.below(68))
    for call in (draw.pick((SELECT, MODULE)), draw.pick(LENDING)):
        given = near(draw, size) if call in LENDING else draw.below(18)
        yield PortCall(*state, call, port, given, near(draw, draw.below(16)))
    for call in (draw.pick((1, 2)), draw.pick((CLOCK, 4))):
        given = near(draw, size) if call in (CLOCK, 4) else draw.below(18)
        yield PinCall(*state, *(near(draw, draw.below(16)) for _ in PORTS), call, port, given, PINS_OPERATION)


@lru_cache(maxsize=None)
def all_records():
    groups = (
        every_state, edges_of_states, edges_of_shifters, memories, arguments, other_numbers, orders, words_told,
        verdicts, bits_clocked,
    )
    return each_once(gathered(groups, drawn, Draw(14), 60))
