"""What `refused_calls` answers to its stored records: single calls, each with its refusal number and what it left."""

from functools import lru_cache
from itertools import combinations, product
from typing import NamedTuple

from . import load_calls, load_records, refused_records
from .call_answers import ARGUMENT, CLOSED, COUNT, MOST_SIZE, OPEN, ROOM, SIZE, STATE, TURN, check, refusal
from .card import CLEAN, Card, Message, release, take, tell, with_module
from .checks import crc16
from .damaged_tokens import test_sets
from .refused_records import (
    AT_PINS, BIT, CLEAR, CLOCK, DONE, LEFT_OVER, LENDING, MODULE, NOT_TOLD, NOTED, NOTES, RELEASE, SELECT, TAKE, TAKEN,
    TELL, TOLD, UNSURE, Ask, Build, CardCall, Give, PinCall, PowerUp, Read, Shift, Start, Verdict, kind_of_call,
    message_words,
)
from .sure import read_back
from .tokens import READ, READBACK, WRITE, command_token, read_command, response_wrong
from .trace_records import with_answer, with_payload

MOST_RECEIVED = 67

# The running check of the words told behind the token, in a given state.
GIVEN_CHECK = 0

# What the program has room for.
MOST_WORDS, MOST_MEMORY = 100, 300


# Answers: the refusal number, and what the call gave and left.

def given_words(count, first, second, further):
    return [first, second, *[further] * MOST_WORDS][:count]


def power_up(size):
    number = refusal({SIZE: not 1 <= size <= MOST_SIZE})
    return number, 0 if number else size


def has_no_block(code):
    return code in (READ, READBACK)


def build_faults(code, length, sub_address, block, room):
    wanted = 0 if has_no_block(code) else length
    argument = code > 63 or length > 63 or sub_address > 255 or block != wanted
    return {ARGUMENT: argument, ROOM: room < message_words(length)}


def build(code, length, sub_address, block, room):
    number = refusal(build_faults(code, length, sub_address, block, room))
    if number:
        return number, 0, check([0xFFFF] * room)
    if has_no_block(code):
        message = with_answer(code, length, sub_address, 0)
    else:
        message = with_payload(code, sub_address, [place + 1 for place in range(block)])
    return 0, len(message), check(message + [0xFFFF] * (room - len(message)))


def read(length, count, *words):
    number = refusal({ARGUMENT: length > 63, COUNT: count != message_words(length)})
    if number:
        return number, 0, 0, 0, 0, 0, 0
    words = given_words(count, *words)
    wrong = response_wrong(*words[:2])
    if any(wrong):
        return 0, 0, 0, *map(int, wrong), 0
    # Length 0 has neither payload nor check: nothing can disagree.
    good = length == 0 or crc16(words[2:-1]) == words[-1]
    return 0, 1, int(good), 0, 0, 0, length if good else 0


def start(length, sub_address):
    return (refusal({ARGUMENT: length > 63 or sub_address > 255}),)


def sure_state(turn, length, sub_address):
    return length > 63 or sub_address > 255 or turn > UNSURE


def ask(turn, length, sub_address, block, room):
    number = refusal({STATE: sure_state(turn, length, sub_address), TURN: turn not in (0, 2, 4)})
    if number:
        return number, 0, turn, check([0xFFFF] * room)
    message = (WRITE, length, sub_address) if turn == 2 else (READBACK, 2, 0)
    # State and Turn come before Argument and Room, so the builder's refusal is the first one that is left.
    number, count, left = build(*message, block, room)
    return number, count, turn if number else turn + 1, left


def turn_after(turn, token, words):
    """The turn after these words were given back, where the message between the READBACKs has this token."""
    if turn == 3:
        return 4  # not judged
    found = read_back(words)
    if turn == 1:
        return 2 if found and read_command(*found[1]) else UNSURE
    return DONE if found == (CLEAN, token) else UNSURE


def give_words(turn, length, sub_address, words):
    wanted = message_words(length if turn == 3 else 2)
    state = sure_state(turn, length, sub_address)
    number = refusal({STATE: state, TURN: turn not in (1, 3, 5), COUNT: len(words) != wanted})
    if number:
        return number, turn
    return 0, turn_after(turn, command_token(WRITE, length, sub_address), words)


def give(turn, length, sub_address, count, *words):
    return give_words(turn, length, sub_address, given_words(count, *words))


def verdict(turn, length, sub_address):
    number = refusal({STATE: sure_state(turn, length, sub_address)})
    return number, int(not number and turn == DONE), int(not number and turn == UNSURE)


def card_faults(module_state, size, count, is_open, call, given, left):
    lent = call in LENDING
    return {
        STATE: not 1 <= size <= MOST_SIZE or count > MOST_RECEIVED or module_state > 15,
        SIZE: lent and given != size,
        OPEN: not lent and is_open,
        CLOSED: lent and not is_open,
        ARGUMENT: call == MODULE and given > 15 or call == RELEASE and left > 15,
    }


class State(NamedTuple):
    """A card with its message. In a given state the message may be closed and have words and a note all the same, and
    the note may have a word that is not told."""

    card: Card
    message: Message
    is_open: int
    not_told: int = 0


def given_state(module_state, size, count, is_open, note):
    """The words told are zeros as well, whose check is GIVEN_CHECK."""
    message = Message((0,) * count, (0,) * count, NOTED if note == TOLD else None)
    return State(Card(size, module_state=module_state), message, is_open, NOTED if note == NOT_TOLD else 0)


def note_numbers(state):
    """Whether a word is told, and the note's word."""
    note = state.message.note
    return (0, state.not_told) if note is None else (1, note)


def called(state, call, given, left):
    """The state after a call that is not refused, and the word that it gave. A new state has no word that is not told:
    only the module call leaves it."""
    before, message, is_open, _ = state
    memory = [7] * given if call in LENDING else None
    if call == SELECT:
        return State(before, Message(), 1), 0
    if call == MODULE:
        return state._replace(card=with_module(before, 1 << 4 | given)), 0
    if call == TELL:
        word, message = tell(before, message, memory)
        return State(before, message, is_open), word
    if call == TAKE:
        return State(before, take(before, message, TAKEN, memory), is_open), 0
    after, _ = release(before, message, left, memory)
    return State(after, Message(), 0), 0


def card(module_state, size, count, is_open, note, call, given, left):
    number = refusal(card_faults(module_state, size, count, is_open, call, given, left))
    state = given_state(module_state, size, count, is_open, note)
    if number:
        return number, is_open, count, module_state, 0, *note_numbers(state), GIVEN_CHECK
    state, word = called(state, call, given, left)
    words = min(len(state.message.words), MOST_RECEIVED)  # further ones are counted as 67
    check_told = crc16(state.message.told[2:])
    return 0, state.is_open, words, state.card.module_state, word, *note_numbers(state), check_told


def shift(count, taken, sending, call, next_word):
    number = refusal({STATE: count > 15})
    if number:
        return number, count, 0
    return 0, {BIT: (count + 1) % 16, CLEAR: 0, LEFT_OVER: count}[call], count if call == LEFT_OVER else 0


def clocked(state, given, shifted):
    """The state after one clock: a word is told with its first bit and taken with its last."""
    call = {0: TELL, 15: TAKE}.get(shifted)
    return called(state, call, given, 0)[0] if call else state


def pins(module_state, size, count, is_open, note, pin_call, given, shifted):
    call = AT_PINS[pin_call]
    faults = card_faults(module_state, size, count, is_open, call, given, shifted)
    # The shifter belongs to the state of every call here; its count is what release takes as left-over bits.
    number = refusal({**faults, STATE: faults[STATE] or shifted > 15})
    state = given_state(module_state, size, count, is_open, note)
    if number:
        return number, is_open, shifted, *note_numbers(state)
    if pin_call == CLOCK:
        state = clocked(state, given, shifted)
    else:
        state, _ = called(state, call, given, shifted)
    return 0, state.is_open, {SELECT: 0, TAKE: (shifted + 1) % 16}.get(call, shifted), *note_numbers(state)


ANSWERS = {
    PowerUp: ("P", power_up), Build: ("B", build), Read: ("A", read), Start: ("S", start), Ask: ("Q", ask),
    Give: ("G", give), Verdict: ("V", verdict), CardCall: ("C", card), Shift: ("F", shift), PinCall: ("N", pins),
    **load_calls.ANSWERS,
}


def answer(record):
    _, answered = ANSWERS[type(record)]
    return answered(*record)


def line(record):
    letter, _ = ANSWERS[type(record)]
    return " ".join([letter, *map(str, answer(record))])


@lru_cache(maxsize=None)
def all_records():
    """The loader's come behind the others, and request 6's behind them, so that those before keep their places."""
    records = refused_records.all_records() + load_records.all_records()
    return refused_records.each_once(records + refused_records.answers_with_bad_tokens())


def packed(record):
    makers = load_records if type(record) in load_records.OPERATIONS else refused_records
    return makers.packed(record)


def stdin():
    return len(all_records()), b"".join(map(packed, all_records()))


def stdout():
    lines = [line(record) + "\n" for record in all_records()]
    return len(lines), "".join(lines).encode()


# The test that no refusal is missing.

# What each kind of call may refuse, by document 01's table and request 1.
REFUSALS = {
    (PowerUp, 0): {SIZE},
    (Build, 0): {ARGUMENT, ROOM},
    (Read, 0): {ARGUMENT, COUNT},
    (Start, 0): {ARGUMENT},
    (Ask, 0): {STATE, TURN, ARGUMENT, ROOM},
    (Give, 0): {STATE, TURN, COUNT},
    (Verdict, 0): {STATE},
    (CardCall, SELECT): {STATE, OPEN},
    (CardCall, MODULE): {STATE, OPEN, ARGUMENT},
    (CardCall, TELL): {STATE, SIZE, CLOSED},
    (CardCall, TAKE): {STATE, SIZE, CLOSED},
    (CardCall, RELEASE): {STATE, SIZE, CLOSED, ARGUMENT},
    **{(Shift, call): {STATE} for call in (BIT, CLEAR, LEFT_OVER)},
    (PinCall, 1): {STATE, OPEN},
    (PinCall, 2): {STATE, OPEN, ARGUMENT},
    (PinCall, CLOCK): {STATE, SIZE, CLOSED},
    (PinCall, 4): {STATE, SIZE, CLOSED},  # a shifter's count above 15 is State, so no left-over bits are refused
    **load_calls.REFUSALS,
}


def pairs_met(records):
    """The pairs of refusals that meet in a record: it has two numbers unlike a call that is not refused, each of which
    is refused alone, and the first of both is its answer (it may not be where one undoes the other)."""
    found = set()
    for lawful, record in product([record for record in records if not answer(record)[0]], records):
        unlike = [name for name in record._fields if getattr(lawful, name) != getattr(record, name)]
        if len(unlike) == 2:
            numbers = {answer(lawful._replace(**{name: getattr(record, name)}))[0] for name in unlike}
            if 0 not in numbers and answer(record)[0] == refusal(dict.fromkeys(numbers, True)):
                found.add(frozenset(numbers))
    return found


def test_refusals(kind, records):
    """Each refusal is met, also with each other one, and so is a call that is not refused."""
    met = {answer(record)[0] for record in records}
    if met != {0, *REFUSALS[kind]}:
        raise AssertionError(f"{kind}: only wanted, or only met: {sorted(met ^ {0, *REFUSALS[kind]})}")
    lacking = set(map(frozenset, combinations(REFUSALS[kind], 2))) - pairs_met(records)
    if lacking:
        raise AssertionError(f"{kind}: no record with both of {sorted(map(sorted, lacking))}")


def test_wrong_marks(records):
    """Answers with each set of wrong marks are read."""
    answers = [answer(record) for record in records]
    test_sets("answers", [tuple(wrong) for number, _, _, *wrong, _ in answers if not number])


def test_room(record):
    """The program has room for what a record lends."""
    operation, call = kind_of_call(record)
    words = [getattr(record, name) for name in ("block", "room", "count") if name in record._fields]
    if operation in (Build, Ask, Read, Give) and max(words) > MOST_WORDS:
        raise AssertionError(f"too many words: {record}")
    lent = call in LENDING if operation == CardCall else operation == PinCall and AT_PINS[call] in LENDING
    if lent and record.given > MOST_MEMORY:
        raise AssertionError(f"too much memory: {record}")


# Where the note's two numbers stand in an answer.
NOTE_AT = {CardCall: 5, PinCall: 3}


def test_note(record):
    """A refused call leaves the note. In others a word told changes nothing but the note and the running check behind
    it, and one that is not told nothing but the note's word, where the call leaves it."""
    at = NOTE_AT[type(record)]
    without, told, not_told = (answer(record._replace(note=note)) for note in NOTES)
    still_told, still_not_told = ((*without[:at], flag, NOTED, *without[at + 2:]) for flag in (1, 0))
    if without[0]:
        right = (told, not_told) == (still_told, still_not_told)
    else:
        right = told[:at] == without[:at] and not_told in (without, still_not_told)
    if not right:
        raise AssertionError(f"another answer by the note: {record}")


def test_running_check(record):
    """Only a word that is told and taken behind the token moves it: the words told otherwise are zeros there."""
    number, *_, found = answer(record)
    counted = not number and record.call == TAKE and record.count >= 2 and record.note == TOLD
    if found != (crc16([NOTED]) if counted else GIVEN_CHECK):
        raise AssertionError(f"another check of the words told: {record}")


def self_test():
    """Raises AssertionError where a refusal or a set of wrong marks is not met, or a record is too large, or a note or
    the running check does what it must not, or two operations have one letter, or the loader's lack something."""
    kinds = {}
    for record in all_records():
        test_room(record)
        if type(record) in NOTE_AT:
            test_note(record)
        if type(record) == CardCall:
            test_running_check(record)
        kinds.setdefault(kind_of_call(record), []).append(record)
    letters = [letter for letter, _ in ANSWERS.values()]
    if len({*letters}) != len(letters):
        raise AssertionError(f"a letter for two operations: {letters}")
    if kinds.keys() != REFUSALS.keys():
        raise AssertionError(f"only wanted, or only met: {kinds.keys() ^ REFUSALS.keys()}")
    for kind, records in kinds.items():
        test_refusals(kind, records)
    test_wrong_marks(kinds[Read, 0])
    load_calls.self_test()
