"""What `retry_refusals` answers to its stored records: single calls of request 7 (document 02), each with its refusal
number and what it left."""

from itertools import product

from . import refused_calls
from .call_answers import ARGUMENT, COUNT, ROOM, STATE, TURN, check, met, none_each_and_pairs
from .checks import crc16
from .known import agree
from .load_records import ASKING, GIVING
from .refused_records import DONE, UNSURE
from .retry import (
    MOST_ROUNDS, SHORT_ROUNDS, State, ask, ask_faults, ended, give, give_faults, most_words, out_of_range, short_start,
    start, sure_start, verdict, words, words_of_message,
)
from .retry_refusal_records import (
    COMMANDS, COUNTED, FLIPPED_TOKEN, GOOD, MOST_LENT, NUMBERS, OPERATIONS, OTHER_SUB_ADDRESS, WITH_AR, WITH_IC,
    WITH_ME, WITH_STATE, AnyStart, Ask, Give, ShortStart, SureStart, Verdict, Words, all_records, packed, state_of,
)
from .tokens import WRITE, command_token, read_command, response_token

RECORD_BYTES = 16

# What a record has in the places that it does not use, one record after the other.
UNUSED = (0x00, 0xFF)

# Records and their lines, worked by hand. WRITE's code is 13, CONFIG WRITE's 32, READ's 14, READBACK's 10 and TICK's 8.
# A buffer of no words has the check 0000.
BY_HAND = """\
00 FFFFFFFFFFFFFF 0003 0010 0002 FFFF | S 0 13 3 16 2 0 0 0
00 00000000000000 003F 00FF 0008 0000 | S 0 13 63 255 8 0 0 0
00 00000000000000 0040 0000 0001 0000 | S 5 0 0 0 0 0 0 0
00 00000000000000 0000 0100 0001 0000 | S 5 0 0 0 0 0 0 0
00 00000000000000 0000 0000 0000 0000 | S 5 0 0 0 0 0 0 0
00 00000000000000 0000 0000 0009 0000 | S 5 0 0 0 0 0 0 0
01 00000000000000 0001 0000 0009 FFFF | O 0 13 1 0 1 0 0 0
01 00000000000000 0001 0100 0001 0000 | O 5 0 0 0 0 0 0 0
02 00000000000000 0002 0000 0008 0020 | C 0 32 2 0 8 0 0 0
02 00000000000000 0007 0009 0001 0000 | C 0 0 7 9 1 0 0 0
02 00000000000000 0002 0000 0001 000A | C 5 0 0 0 0 0 0 0
02 00000000000000 0000 0001 0001 0008 | C 5 0 0 0 0 0 0 0
02 00000000000000 0000 0001 0001 0040 | C 5 0 0 0 0 0 0 0
03 0D010002000102 0001 0000 0000 0000 | A 6 0 13 1 0 2 0 1 2 0000
03 0D010002000102 0002 0000 0000 0000 | A 5 0 13 1 0 2 0 1 2 0000
03 0D010002000103 0002 0000 0000 0000 | A 7 0 13 1 0 2 0 1 3 0000
03 0D010002010103 0002 0000 0000 0000 | A 2 0 13 1 0 2 1 1 3 0000
03 0E010002000102 0001 0000 0000 0000 | A 5 0 14 1 0 2 0 1 2 0000
03 0E010002000102 0000 0000 0000 0000 | A 6 0 14 1 0 2 0 1 2 0000
04 0D010001000005 0005 0000 0001 0000 | G 0 13 1 0 1 0 0 6
04 0D010001000005 0005 0000 0000 0000 | G 0 13 1 0 1 0 1 7
04 0D010002000001 0005 0000 0100 0000 | G 0 13 1 0 2 0 0 2
04 0D010002000001 0005 0000 0000 0000 | G 0 13 1 0 2 1 0 0
04 0D010002000101 0005 0000 0000 0000 | G 0 13 1 0 2 1 1 7
04 0D010002010005 0005 0000 0000 0000 | G 0 13 1 0 2 1 1 7
04 0D010002000005 0005 0000 0002 0000 | G 0 13 1 0 2 0 1 0
04 0D010002000005 0005 0000 0003 0000 | G 0 13 1 0 2 0 1 0
04 0D010002000005 0005 0000 0004 0000 | G 0 13 1 0 2 0 1 0
04 0D010002000005 0005 0000 0005 0000 | G 0 13 1 0 2 0 1 0
04 0D010002000005 0005 0000 0006 0000 | G 0 13 1 0 2 0 1 0
04 0D010002000005 0005 0000 0007 0000 | G 0 13 1 0 2 0 0 6
04 0D010002000001 0005 0000 0004 0000 | G 0 13 1 0 2 0 0 2
04 0D010002000001 0005 0000 0005 0000 | G 0 13 1 0 2 1 0 0
04 0D010002000001 0005 0000 0006 0000 | G 0 13 1 0 2 0 0 2
04 0D010002000003 0004 0000 0000 0000 | G 0 13 1 0 2 0 0 4
04 0D010002000003 0005 0000 0000 0000 | G 8 13 1 0 2 0 0 3
04 0D010002000004 0006 0000 0000 0000 | G 7 13 1 0 2 0 0 4
04 08010002000004 0006 0000 0000 0000 | G 2 8 1 0 2 0 0 4
05 0D010002000000 0000 0000 0000 0000 | V 0 0 0 0
05 0D010002000100 0000 0000 0000 0000 | V 0 0 0 1
05 0D010002000106 0000 0000 0000 0000 | V 0 1 0 0
05 0D010002010107 0000 0000 0000 0000 | V 0 0 1 0
05 0D010002010007 0000 0000 0000 0000 | V 2 0 0 0
05 0D010002FF0100 0000 0000 0000 0000 | V 2 0 0 0
06 0D3F0008000807 0000 0000 0000 0000 | W 0 608
06 0D000008000807 0000 0000 0000 0000 | W 0 96
06 0D010008030203 0000 0000 0000 0000 | W 0 52
06 0D010008050306 0000 0000 0000 0000 | W 2 0
06 0D010008000008 0000 0000 0000 0000 | W 2 0
"""

# For WRITE of one word at sub-address 0: the token that a kind of answer shows, and the fields of a good one. Document
# 01 has the first. In the last, bit 6 of word 2 is set too: x^6 leaves x^3 + x^2 by x^4 + x + 1, so A becomes 6.
TOKENS_BY_HAND = [
    (GOOD, (0x4DC1, 0x403A), (WRITE, 1, 0)),
    (FLIPPED_TOKEN, (0x4DC1, 0x403B), None),
    (OTHER_SUB_ADDRESS, (0x4DC1, 0x4076), (WRITE, 1, 1)),
]


# The words that a record lends.

def lent(count):
    return min(count, MOST_LENT)


def token_shown(state, answer):
    """That of the state's command, or with one bit of its CRC-4 flipped, which is no good token, or the good one of the
    same command at another sub-address, whose word 1 is the same."""
    sub_address = state.sub_address ^ (answer == OTHER_SUB_ADDRESS)
    first, second = command_token(state.code, state.length, sub_address) or (0, 0)
    return first, second ^ (answer == FLIPPED_TOKEN)


def readback_answer(state, answer):
    """What a card sends to READBACK that took the state's command last, with clean status; or with one status bit set,
    or with what is not the command's token."""
    token = token_shown(state, answer)
    status = (int(answer == bit) for bit in (WITH_ME, WITH_AR, WITH_IC))
    return [*response_token(0, *status, 0), *token, crc16(token)]


def given_back(record):
    counted = [*range(1, MOST_LENT + 1)]
    first = [] if record.answer == COUNTED else readback_answer(state_of(record), record.answer)
    return [*first, *counted[len(first):]][:lent(record.count)]


# Answers: the refusal number, and what the call gave and left.

def sure_started(record):
    number, state = sure_start(record.length, record.sub_address, record.rounds)
    return number, *state


def short_started(record):
    number, state = short_start(record.length, record.sub_address)
    return number, *state


def any_started(record):
    number, state = start(record.code, record.length, record.sub_address, record.rounds)
    return number, *state


def asked(record):
    number, count, state, left = ask(state_of(record), lent(record.block), lent(record.room))
    return number, count, *state, left


def given(record):
    number, state = give(state_of(record), given_back(record))
    return number, *state


ANSWERS = {
    SureStart: ("S", sure_started), ShortStart: ("O", short_started), AnyStart: ("C", any_started), Ask: ("A", asked),
    Give: ("G", given), Verdict: ("V", lambda record: verdict(state_of(record))),
    Words: ("W", lambda record: words(state_of(record))),
}


def answer(record):
    _, answered = ANSWERS[type(record)]
    return answered(record)


def line(record):
    letter, _ = ANSWERS[type(record)]
    return " ".join([letter, *map(str, answer(record))])


# The stored files; each maker gives the number of records or lines, and the content.

def not_answered():
    """A record whose operation is none, which ends the run, and one behind it."""
    lawful = packed(Verdict(WRITE, 1, 0, 2, 0, 1, 0), 0)
    return [bytes([len(OPERATIONS)]) + lawful[1:], lawful]


def stdin():
    pieces = [packed(record, UNUSED[at % 2]) for at, record in enumerate(all_records())] + not_answered()
    return len(pieces), b"".join(pieces)


def stdout():
    lines = [line(record) + "\n" for record in all_records()]
    return len(lines), "".join(lines).encode()


# The test of this program against what is worked by hand, and that the answers agree with each other.

def unpacked(part):
    """The record of these 16 bytes."""
    kind = OPERATIONS[part[0]]
    fields = dict(zip(State._fields, part[1:8])) if kind in WITH_STATE else {}
    numbers = [int.from_bytes(part[at:at + 2], "big") for at in range(8, RECORD_BYTES, 2)]
    fields.update((name, number) for name, number in zip(NUMBERS[kind], numbers) if name)
    return kind(**fields)


def with_types(records):
    """Two types with equal numbers are equal as tuples."""
    return [(type(record), record) for record in records]


def test_files():
    _, content = stdin()
    parts = [content[at:at + RECORD_BYTES] for at in range(0, len(content), RECORD_BYTES)]
    found = [unpacked(part) for part in parts[:len(all_records())]]
    agree("records of the stored bytes", with_types(found), with_types(all_records()))
    for text in BY_HAND.splitlines():
        numbers, wanted = text.split(" | ")
        agree(f"line of {numbers}", line(unpacked(bytes.fromhex(numbers))), wanted)


def test_tokens():
    for kind, token, fields in TOKENS_BY_HAND:
        agree(f"token shown by answer {kind}", token_shown(State(WRITE, 1, 0, 2), kind), token)
        agree(f"command fields of {token}", read_command(*token), fields)


# The numbers that a start takes, by document 01 and request 7; 10 and 8 are the codes of READBACK and TICK.
TAKEN = {"length": range(64), "sub_address": range(256), "rounds": range(1, 9), "code": {*range(64)} - {10, 8}}


def not_taken(record):
    """The names of a start's numbers for which it is refused."""
    return {name for name in record._fields if getattr(record, name) not in TAKEN[name]}


def test_start(record):
    """It is refused exactly where it has such a number, and else begins with its numbers and no round ended."""
    code, rounds = getattr(record, "code", WRITE), getattr(record, "rounds", SHORT_ROUNDS)
    begun = State(code, record.length, record.sub_address, rounds)
    agree(f"answer to {record}", answer(record), (ARGUMENT, *State()) if not_taken(record) else (0, *begun))


def state_after(record):
    """The state that a call leaves, and None where it has none to leave."""
    if type(record) in (Verdict, Words):
        return None
    first = 2 if type(record) is Ask else 1
    return State(*answer(record)[first:first + len(State._fields)])


def test_refused(record):
    """A refused call leaves the state and the buffer that it was given, and gives zeros."""
    _, *rest = answer(record)
    if type(record) in (Ask, Give):
        agree(f"state after {record}", state_after(record), state_of(record))
    if type(record) is Ask:
        agree(f"buffer after {record}", rest[-1], check([0xFFFF] * lent(record.room)))
    if type(record) is not Give:
        answered = rest[:1] if type(record) is Ask else rest
        agree(f"answer to {record}", {*answered}, {0})


def test_words(record):
    """The words grow by those that an ask lays out and by nothing else, and stay within the bound."""
    _, before = words(state_of(record))
    after = state_after(record)
    if after:
        laid = answer(record)[1] if type(record) is Ask else 0
        agree(f"words after {record}", words(after), (0, before + laid))
    agree(f"{before} words are within the bound of {record}", before <= most_words(state_of(record)), True)


# The turns that give a READBACK back: where it leads when it passes, and the kinds of answer with which it does not.
PASSED = {1: 2, 5: DONE}
NOT_PASSED = {1: (COUNTED, FLIPPED_TOKEN), 5: (COUNTED, WITH_ME, WITH_AR, WITH_IC, FLIPPED_TOKEN, OTHER_SUB_ADDRESS)}


def test_passed(record):
    """The first READBACK passes with every good command token, whatever the status; the last one only with the
    command's own and a clean status."""
    passes = record.answer not in NOT_PASSED[record.turn]
    agree(f"{record} passes", state_after(record).turn == PASSED[record.turn], passes)


def test_not_refused(record):
    """It leaves a state in its range, and a state says at most one thing."""
    after = state_after(record)
    if after:
        agree(f"state after {record} is out of its range", out_of_range(after), False)
    if type(record) in WITH_STATE:
        test_words(record)
        agree(f"things said by {record}", sum(verdict(after or state_of(record))) <= 1, True)
    if type(record) is Give and record.turn in PASSED:
        test_passed(record)


# The test of the states' range.

def next_states(state):
    """By an ask as its turn wants it, and by a give that passes and one that does not; a refused call leaves it."""
    yield state_after(Ask(*state, state.length if state.turn == 2 else 0, MOST_LENT))
    for kind in (GOOD, COUNTED):
        yield state_after(Give(*state, words_of_message(state), kind))


def reached(first):
    """The states to which calls lead from this one, and itself."""
    found, new = set(), {first}
    while new:
        found |= new
        new = {after for state in new for after in next_states(state)} - found
    return found


def test_range():
    """A state is in its range exactly where calls lead to it from a start."""
    for most in range(1, MOST_ROUNDS + 1):
        counts = range(MOST_ROUNDS + 2)
        states = (State(WRITE, 1, 0, most, *numbers) for numbers in product(counts, counts, range(UNSURE + 2)))
        in_range = {state for state in states if not out_of_range(state)}
        agree(f"states of {most} rounds in their range", in_range, reached(State(WRITE, 1, 0, most)))


# The test that nothing is missing.

# What each call may refuse, by document 01's table and request 7.
REFUSALS = {
    SureStart: {ARGUMENT}, ShortStart: {ARGUMENT}, AnyStart: {ARGUMENT}, Ask: {STATE, TURN, ARGUMENT, ROOM},
    Give: {STATE, TURN, COUNT}, Verdict: {STATE}, Words: {STATE},
}


def faults(record):
    """What a call may be refused for, and whether it is."""
    if type(record) is Ask:
        return ask_faults(state_of(record), lent(record.block), lent(record.room))
    if type(record) is Give:
        return give_faults(state_of(record), lent(record.count))
    if type(record) in WITH_STATE:
        return {STATE: out_of_range(state_of(record))}
    return {ARGUMENT: bool(not_taken(record))}


def test_refusals(kind, records):
    """Each refusal is met, alone and with each other one, and so is a call that is not refused; each number of these is
    answered, and no other."""
    found = [met(faults(record)) for record in records]
    lacking = [sorted(numbers) for numbers in none_each_and_pairs(REFUSALS[kind]) if numbers not in found]
    agree(f"refusals of {kind.__name__} that do not meet", lacking, [])
    agree(f"numbers answered by {kind.__name__}", {answer(record)[0] for record in records}, {0, *REFUSALS[kind]})


TURNS = {Ask: ASKING, Give: GIVING, Verdict: range(UNSURE + 1), Words: range(UNSURE + 1)}


def missing_in_starts(kind, records):
    """What should occur and does not: each number refused alone, and each number of rounds and each command taken."""
    refused = [not_taken(record) for record in records]
    yield from (name for name in kind._fields if {name} not in refused)
    lawful = [record for record in records if not answer(record)[0]]
    for name, wanted in (("rounds", range(1, MOST_ROUNDS + 1)), ("code", COMMANDS)):
        if name in kind._fields:
            yield from {*wanted} - {getattr(record, name) for record in lawful}


def missing(kind, records):
    """What should occur in calls with a state, and does not."""
    lawful = [record for record in records if not answer(record)[0]]
    yield from {*TURNS[kind]} - {record.turn for record in lawful}
    yield from {*COMMANDS} - {record.code for record in lawful}
    yield from {*range(1, MOST_ROUNDS + 1)} - {record.most for record in lawful}
    # One less than all rounds ended, all and one more, at each turn that the call may have.
    near = {(record.turn, ended(state_of(record)) - record.most) for record in records}
    yield from {(turn, past) for turn in TURNS[kind] for past in (-1, 0, 1)} - near
    if kind is Give:
        ends = {(record.turn, state_after(record).turn) for record in lawful}
        yield from {(1, 2), (1, 0), (1, UNSURE), (3, 4), (5, DONE), (5, 0), (5, UNSURE)} ^ ends
        # Each kind of answer, and one number that is none.
        kinds = range(OTHER_SUB_ADDRESS + 2)
        yield from {*product(PASSED, kinds)} - {(record.turn, record.answer) for record in lawful}
    if kind is Verdict:
        yield from {(0, 0, 0), (1, 0, 0), (0, 1, 0), (0, 0, 1)} ^ {answer(record)[1:] for record in lawful}


# The test of one round, with the calls of document 01's sure write, whose answers get the form of those here.

def own_numbers(record):
    """The sure write's own state."""
    return record.turn, record.length, record.sub_address


def led_to(record, turn):
    """The state of one round where the sure write's call leads to this turn. A new Unsure is counted, as early with the
    first READBACK and as late with the last."""
    state = state_of(record)
    if turn == UNSURE != state.turn:
        state = state._replace(early=int(state.turn == 1), late=int(state.turn == 5))
    return state._replace(turn=turn)


def sure_write_start(record):
    number, = refused_calls.start(record.length, record.sub_address)
    return number, *(State() if number else State(WRITE, record.length, record.sub_address, 1))


def sure_write_ask(record):
    number, count, turn, left = refused_calls.ask(*own_numbers(record), lent(record.block), lent(record.room))
    return number, count, *led_to(record, turn), left


def sure_write_give(record):
    number, turn = refused_calls.give_words(*own_numbers(record), given_back(record))
    return number, *led_to(record, turn)


def sure_write_verdict(record):
    """It never says "again"."""
    return *refused_calls.verdict(*own_numbers(record)), 0


SURE_WRITE = {
    SureStart: sure_write_start, ShortStart: sure_write_start, Ask: sure_write_ask, Give: sure_write_give,
    Verdict: sure_write_verdict,
}


def of_one_round(record):
    """Whether it is WRITE's in one round, which has ended exactly where it is Unsure. Turn and length may be out of
    their ranges: the sure write refuses that too."""
    if type(record) not in WITH_STATE:
        return getattr(record, "rounds", SHORT_ROUNDS) == 1
    is_ended = record.turn == UNSURE
    return record.code == WRITE and record.most == 1 and ended(state_of(record)) == is_ended


def test_one_round(kind, records):
    """Each call of one round is answered as the sure write's own, at each turn and with each refusal."""
    compared = [record for record in records if of_one_round(record)]
    for record in compared:
        agree(f"answer to {record}", answer(record), SURE_WRITE[kind](record))
    numbers = {answer(record)[0] for record in compared}
    agree(f"numbers answered by {kind.__name__} of one round", numbers, {0, *REFUSALS[kind]})
    if kind in WITH_STATE:
        turns = {record.turn for record in compared if not answer(record)[0]}
        agree(f"turns of {kind.__name__} of one round", turns, {*TURNS[kind]})


def self_test():
    """Raises AssertionError where a line is not as worked by hand, a call does to its state what it must not, one round
    is not the sure write, or a refusal or something else is missing."""
    test_files()
    test_tokens()
    test_range()
    kinds = {}
    for record in all_records():
        test = test_refused if answer(record)[0] else test_not_refused
        test(record)
        if type(record) not in WITH_STATE:
            test_start(record)
        kinds.setdefault(type(record), []).append(record)
    agree("calls of rounds", kinds.keys(), REFUSALS.keys())
    for kind, records in kinds.items():
        test_refusals(kind, records)
        lacking = missing if kind in WITH_STATE else missing_in_starts
        agree(f"missing of {kind.__name__}", [*lacking(kind, records)], [])
    for kind in SURE_WRITE:
        test_one_round(kind, kinds[kind])
