"""The records of crates/retry_refusals/stdin: single calls of request 7 (document 02) with given arguments and states,
refused ones above all.

A record has 16 bytes: the operation, the seven parts of a state (1 byte each), and four numbers (2 bytes each, high
byte first). A type below has the parts and the numbers that it uses; what it does not use is 0 in one record and full
of ones in the next. Words are given by their number, of which no more than MOST_LENT are taken: the block's are 1, 2, 3
and so on, the buffer (room) is full of 0xFFFF, and those given back are 1, 2, 3 and so on too, but where answer is not
0 the first five are an answer to READBACK. It shows the token of the state's command: with ME, AR or IC where answer is
2, 3 or 4; with the lowest bit of its second word flipped where it is 5, which is no good token; where it is 6, the good
token of the same code and length at the sub-address with its lowest bit flipped; and else such as makes the command
Done. Where the state's numbers fit no token, zeros stand for it.
"""

from collections import namedtuple
from functools import lru_cache
from itertools import product

from .draw import Draw
from .load_records import ASKING, GIVING
from .refused_records import DONE, UNSURE, alone, around, each_once, gathered, message_words, near, pairs
from .retry import MOST_ROUNDS, READBACK_WORDS, State, words_of_message
from .tokens import NO_COMMAND, READ, READBACK, ROWS, TICK, WRITE

PARTS = "code length sub_address most early late turn"
SureStart = namedtuple("SureStart", "length sub_address rounds")
ShortStart = namedtuple("ShortStart", "length sub_address")
AnyStart = namedtuple("AnyStart", "length sub_address rounds code")
Ask = namedtuple("Ask", PARTS + " block room")
Give = namedtuple("Give", PARTS + " count answer")
Verdict = namedtuple("Verdict", PARTS)
Words = namedtuple("Words", PARTS)

# For each operation, from 0 on, what its four numbers are.
NUMBERS = {
    SureStart: ("length", "sub_address", "rounds", None),
    ShortStart: ("length", "sub_address", None, None),
    AnyStart: ("length", "sub_address", "rounds", "code"),
    Ask: ("block", "room", None, None),
    Give: ("count", None, "answer", None),
    Verdict: (None, None, None, None),
    Words: (None, None, None, None),
}
OPERATIONS = (*NUMBERS,)
WITH_STATE = (Ask, Give, Verdict, Words)

MOST_LENT = 70

# What is given back: words counted on, and the kinds of answer to READBACK. Every other number is as GOOD.
COUNTED, GOOD, WITH_ME, WITH_AR, WITH_IC, FLIPPED_TOKEN, OTHER_SUB_ADDRESS = range(7)
ANSWERS = (GOOD, WITH_ME, WITH_AR, WITH_IC, FLIPPED_TOKEN, OTHER_SUB_ADDRESS)

SEED = 71
DRAWS = 60

# Some that end in a byte which looks allowed.
EDGES = (0, 1, 8, 9, 62, 63, 64, 255, 256, 0x0101, 65535)

COMMANDS = (*(code for code in ROWS if code not in (READBACK, TICK)), NO_COMMAND, 63)
NO_COMMANDS = (READBACK, TICK, 64, 64 + WRITE, 255)


def state_of(record):
    return State(*(getattr(record, name) for name in State._fields))


def packed(record, unused):
    """The bytes of a record, with this byte where it uses nothing."""
    kind = type(record)
    parts = bytes(state_of(record)) if kind in WITH_STATE else bytes([unused] * len(State._fields))
    both = unused << 8 | unused
    numbers = [both if name is None else getattr(record, name) for name in NUMBERS[kind]]
    return bytes([OPERATIONS.index(kind)]) + parts + b"".join(number.to_bytes(2, "big") for number in numbers)


# Calls that are not refused.

def state_at(turn, code=WRITE, length=3, most=3):
    """A state in its range: one round early, and one late, where there are so many."""
    if turn == UNSURE:
        return State(code, length, 5, most, most // 2, most - most // 2, turn)
    return State(code, length, 5, most, int(most > 1), int(most > 2), turn)


def asked(turn, *numbers, **named):
    state = state_at(turn, *numbers, **named)
    has_block = turn == 2 and state.code != READ
    return Ask(*state, state.length if has_block else 0, words_of_message(state))


def given(turn, *numbers, answer=COUNTED, **named):
    state = state_at(turn, *numbers, **named)
    return Give(*state, words_of_message(state), answer)


def lawful_calls():
    """Each call in each of its turns, and what a state says where it says something."""
    calls = [*(asked(turn) for turn in ASKING), *(given(turn, answer=GOOD) for turn in GIVING)]
    return calls + [kind(*state_at(turn)) for kind in (Verdict, Words) for turn in (0, DONE, UNSURE)]


# Listed records. A group begins with calls that are not refused, and moves numbers to their edges and just beyond.

def sure_starts():
    lawful = SureStart(3, 5, 2)
    records = alone(lawful, length=EDGES, sub_address=EDGES, rounds=(*range(11), *EDGES, 0x0108))
    records += [SureStart(*numbers) for numbers in product((0, 63, 64), (0, 255, 256), (0, 1, 8, 9))]
    return records + pairs(lawful, length=64, sub_address=256, rounds=9)


def short_starts():
    records = alone(ShortStart(3, 5), length=EDGES, sub_address=EDGES)
    return records + [ShortStart(*numbers) for numbers in product((0, 63, 64), (0, 255, 256))]


def any_starts():
    lawful = AnyStart(3, 5, 2, WRITE)
    codes = (*COMMANDS, *NO_COMMANDS, 0x0100 + WRITE, 0x0100, 65535)
    records = alone(lawful, length=EDGES, sub_address=EDGES, rounds=(*range(11), *EDGES))
    # Any length and sub-address, also such as no card takes with the code.
    starts = ((2, 0, 1), (63, 255, 8), (0, 0, 8), (2, 0, 0), (2, 0, 9))
    records += [AnyStart(*numbers, code) for numbers, code in product(starts, codes)]
    return records + pairs(lawful, length=64, sub_address=256, rounds=0, code=64)


def edges_of_states():
    """Each part of a state at its edges and beyond, in each call."""
    records = []
    for lawful in lawful_calls():
        records += alone(lawful, length=(0, 63, 64, 255), sub_address=(0, 255), most=(0, 1, 2, 4, 8, 9, 255))
        records += alone(lawful, turn=(8, 9, 128, 255), early=(0, 2, 3, 255), late=(0, 2, 3, 255))
    return records


def codes_of_states():
    """Each code, in each call."""
    records = []
    for code in (*COMMANDS, *NO_COMMANDS):
        records += [Verdict(*state_at(turn, code)) for turn in (0, DONE, UNSURE)]
        records += [Words(*state_at(turn, code)) for turn in (0, 3)]
        records += [asked(turn, code) for turn in ASKING]
        records += [given(turn, code, answer=GOOD) for turn in GIVING]
    return records


def out_of_turn():
    """Each ask and give at each turn, with the numbers of its own turn and those of the other message."""
    records = []
    for turn, most in product(range(UNSURE + 1), (1, 3)):
        state = state_at(turn, most=most)
        records += [Ask(*state, *numbers) for numbers in ((0, READBACK_WORDS), (3, message_words(3)))]
        records += [Give(*state, *numbers) for numbers in product((READBACK_WORDS, message_words(3)), (COUNTED, GOOD))]
    return records


def ended_rounds():
    """As many rounds ended as there are, one less and one more, all early, all late and both, at each turn."""
    records = []
    for most, turn, past in product((2, MOST_ROUNDS), range(UNSURE + 1), (-1, 0, 1)):
        count = most + past
        for early in (0, count // 2, count):
            counts = {"early": early, "late": count - early, "turn": turn, "most": most}
            records += [call._replace(**counts) for call in (Verdict(*state_at(0)), Words(*state_at(0)))]
            records += [asked(turn)._replace(**counts)] if turn in ASKING else []
            records += [given(turn, answer=GOOD)._replace(**counts)] if turn in GIVING else []
    return records


def great_counts():
    """Rounds whose sum is too great, and allowed where only its low byte is taken."""
    counts = ((200, 100), (255, 255), (255, 1), (1, 255), (128, 128), (200, 58), (255, 4), (3, 0), (0, 3))
    return [lawful._replace(early=early, late=late) for (early, late), lawful in product(counts, lawful_calls())]


def every_count_of_words():
    """The words laid out with all early and late rounds that there can be, and with every length's message."""
    records = []
    for early, late in product(range(MOST_ROUNDS + 1), repeat=2):
        if early + late < MOST_ROUNDS:
            records += [Words(WRITE, 63, 255, MOST_ROUNDS, early, late, turn) for turn in (0, 3, DONE)]
        if early + late == MOST_ROUNDS:
            records += [Words(WRITE, length, 255, MOST_ROUNDS, early, late, UNSURE) for length in (0, 63)]
    for length, turn in product((0, 1, 2, 62, 63), range(UNSURE + 1)):
        records += [Words(*state_at(turn, code, length)) for code in (WRITE, READ)]
    return records


def blocks_and_rooms():
    """Blocks and buffers as long as they have to be, one word shorter and longer, empty, and longer than any."""
    records = []
    calls = [asked(2, *numbers) for numbers in product((WRITE, READ, NO_COMMAND), (0, 1, 2, 62, 63))]
    for lawful in [*calls, asked(0), asked(4), asked(4, READ)]:
        blocks = [number for number in around(lawful.block) if number >= 0]
        records += alone(lawful, block=(*blocks, lawful.length), room=around(lawful.room))
        records += pairs(lawful, block=lawful.block + 1, room=lawful.room - 1)
    for lawful in (asked(0), asked(2), asked(2, length=63), asked(2, READ, 63), asked(4)):
        # More words than are lent count as the most: no block has so many, and every message has room there.
        records += alone(lawful, block=(0, 69, 70, 71, 256, 65535), room=(0, 1, 69, 70, 71, 0x0100, 65535))
    return records


def counts_given():
    """As many words as the message has, one less and one more, none, and more than any; each kind of answer, and what
    is no kind."""
    records = []
    for code, length, turn in product((WRITE, READ), (0, 2, 3, 63), GIVING):
        lawful = given(turn, code, length)
        numbers = product(around(lawful.count), (COUNTED, GOOD))
        records += [lawful._replace(count=count, answer=answer) for count, answer in numbers]
    for lawful in (given(turn) for turn in GIVING):
        records += alone(lawful, count=(0, 1, 4, 5, 6, 70, 71, 256 + 5, 65535), answer=(*ANSWERS, 7, 256, 65535))
        records += [lawful._replace(length=length, answer=GOOD) for length in (64, 255)]
    return records


def rounds_given():
    """A READBACK with each number of early and late rounds before, and each answer: the last round, and others."""
    records = []
    for turn, most, answer in product((1, 5), (1, 3, MOST_ROUNDS), (COUNTED, *ANSWERS)):
        for early, late in product(range(most), repeat=2):
            if early + late in (most - 1, most - 2):
                records.append(Give(WRITE, 3, 5, most, early, late, turn, READBACK_WORDS, answer))
    return records


def one_round():
    """One round at each turn and beyond, with calls as the turn asks for and not, to compare with the sure write's."""
    records = []
    for turn, length in product((*range(UNSURE + 2), 255), (0, 3, 63, 64)):
        ask, give = asked(turn, length=length, most=1), given(turn, length=length, most=1, answer=GOOD)
        records += alone(ask, block=(ask.block + 1,), room=(ask.room - 1,)) + alone(give, count=(give.count - 1,))
        records.append(Verdict(*state_of(ask)))
    return records


def two_faults():
    """Two at once, which shows their order."""
    records = []
    for turn in ASKING:
        lawful = asked(turn)
        records += pairs(lawful, turn=turn + 1, code=TICK, block=lawful.block + 1, room=1)
        records += pairs(lawful, turn=UNSURE, most=2, block=4, room=0)
        records += pairs(lawful, turn=DONE, most=9, block=4, room=0)
    for turn in GIVING:
        lawful = given(turn, answer=GOOD)
        records += pairs(lawful, turn=turn - 1, code=READBACK, count=lawful.count + 1)
        records += pairs(lawful, turn=DONE, early=2, count=0)
    return records


# Drawn records.

def drawn_state(draw, turns):
    """Mostly in its range."""
    most, turn = draw.between(1, MOST_ROUNDS), draw.pick(turns)
    count = most if turn == UNSURE else draw.below(most)
    early = draw.below(count + 1)
    code = draw.pick([WRITE, WRITE, draw.pick(COMMANDS), draw.below(64)])
    late, length = near(draw, count - early), near(draw, draw.pick([draw.below(64), draw.below(4)]))
    return State(code, length, draw.below(256), most, early, late, turn)


def drawn_numbers(draw):
    """Length, sub-address, rounds and code of a start, mostly allowed."""
    rounds = near(draw, draw.between(1, MOST_ROUNDS))
    return near(draw, draw.below(64)), near(draw, draw.below(256)), rounds, draw.pick([WRITE, draw.below(66)])


def drawn(draw):
    yield SureStart(*drawn_numbers(draw)[:3])
    yield ShortStart(*drawn_numbers(draw)[:2])
    yield AnyStart(*drawn_numbers(draw))
    state = drawn_state(draw, (*ASKING, 2, draw.below(9)))
    block = state.length if state.turn == 2 and state.code != READ else 0
    yield Ask(*state, near(draw, block), near(draw, words_of_message(state)))
    state = drawn_state(draw, (*GIVING, draw.below(9)))
    yield Give(*state, near(draw, words_of_message(state)), draw.below(OTHER_SUB_ADDRESS + 2))
    for kind in (Verdict, Words):
        yield kind(*drawn_state(draw, range(UNSURE + 2)))
        yield kind(*(draw.below(256) for _ in State._fields))


@lru_cache(maxsize=None)
def all_records():
    groups = (
        sure_starts, short_starts, any_starts, edges_of_states, codes_of_states, out_of_turn, ended_rounds,
        great_counts, every_count_of_words, blocks_and_rooms, counts_given, rounds_given, one_round, two_faults,
    )
    return each_once(gathered(groups, drawn, Draw(SEED), DRAWS))
