"""What `refused_calls` answers to the loader's records: the calls of request 1 (document 02), one at a time."""

from itertools import product
from typing import NamedTuple

from .addresses import base_of
from .call_answers import ARGUMENT, COUNT, MOST_SIZE, ROOM, SIZE, STATE, TURN, check, refusal
from .load_records import (
    ASKING, GIVING, LENGTHS, LISTED, STAGES, WORDS, ListStart, LoadAsk, LoadGive, LoadStart, WhichCard, all_records,
    block_words, last_place, list_sizes, turn_words,
)
from .trace_records import config_write, readback, write
from .unit_records import BLOCK, MOST_CARDS

# A card's verdict: its kind, and where it is stopped the place and the words of the block.
NOT_YET, LOADED, STOPPED = range(3)
BEFORE = (STOPPED, 9, 9)

# The most cards in the program's list: a larger number is taken as this one.
LIST_ROOM = 255

# The most that a record may have of the other numbers: what the program has room for.
MOST = {"lent": 200, "room": 100, "count": 100}


class Load(NamedTuple):
    """The loader's state."""

    cards: int
    length: int
    card: int
    place: int
    stage: int
    turn: int


def state_of(stage, turn, cards, length, card, place, *_):
    return Load(cards, length, card, place, stage, turn)


def over(load):
    return load.card == load.cards


def faults(load):
    """What may be out of its range in a state, and whether it is."""
    found = {"cards": load.cards > MOST_CARDS, "length": load.length > MOST_SIZE, "card": load.card > load.cards}
    if load.card < load.cards:
        found["place behind the table"] = load.place >= load.length
        found["place inside a block"] = load.place % BLOCK != 0
        found["stage"] = load.stage not in STAGES
        found["turn"] = load.turn not in (*ASKING, *GIVING)
    if over(load):
        found.update({f"{name} when over": getattr(load, name) != 0 for name in ("place", "stage", "turn")})
    return found


def wrong(load):
    return {name for name, is_wrong in faults(load).items() if is_wrong}


# Answers.

def started(number, cards, length):
    """The state after a start, and what the cards begin with."""
    if number:
        return Load(0, 0, 0, 0, 0, 0), NOT_YET
    if cards == 0 or length == 0:
        return Load(cards, 0, cards, 0, 0, 0), LOADED
    return Load(cards, length, 0, 0, 0, 0), NOT_YET


def wrong_size(size):
    return not 1 <= size <= MOST_SIZE


def start_refusal(cards, least, most, length):
    if cards == 0:
        return 0
    size = wrong_size(least) or wrong_size(most)  # on plain numbers, the least may be above the most
    return refusal({SIZE: size, ARGUMENT: cards > MOST_CARDS or length > least})


def start(cards, least, most, length):
    number = start_refusal(cards, least, most, length)
    load, verdict = started(number, cards, length)
    return number, *load, verdict


def list_refusal(sizes, length):
    argument = len(sizes) > MOST_CARDS or any(length > size for size in sizes)
    return refusal({SIZE: any(map(wrong_size, sizes)), ARGUMENT: argument})


def taken_sizes(listed, *sizes):
    return list_sizes(min(listed, LIST_ROOM), *sizes)


def list_start(listed, first, middle, last, length):
    sizes = taken_sizes(listed, first, middle, last)
    number = list_refusal(sizes, length)
    load, verdict = started(number, len(sizes), length)
    if not sizes:
        return number, *load, 0, 0
    kind = STOPPED if number else verdict  # of the first card and of the last
    return number, *load, kind, kind


def which_card(*state):
    load = state_of(*state)
    card_number = refusal({STATE: wrong(load), TURN: over(load)})
    over_number = refusal({STATE: wrong(load)})
    return card_number, 0 if card_number else load.card, over_number, int(not over_number and over(load))


def turn_faults(load, turns):
    return {STATE: wrong(load), TURN: over(load) or load.turn not in turns}


def message(load, table):
    if load.turn != 2:
        return readback()
    if load.stage == WORDS:
        return write(0, table[load.place:load.place + BLOCK])
    return config_write(base_of(load.place))


def words_of_turn(load):
    return turn_words(load.stage, load.turn, load.length, load.place)


def ask(*numbers):
    load, (lent, room) = state_of(*numbers), numbers[-2:]
    argument, no_room = lent != load.length, room < words_of_turn(load)
    number = refusal({**turn_faults(load, ASKING), ARGUMENT: argument, ROOM: no_room})
    words = [] if number else message(load, list(range(1, lent + 1)))
    return number, len(words), load.turn + (not number), check(words + [0xFFFF] * (room - len(words)))


def give_refusal(load, listed, count):
    argument, wrong_count = listed != load.cards, count != words_of_turn(load)
    return refusal({**turn_faults(load, GIVING), ARGUMENT: argument, COUNT: wrong_count})


def after_zeros(load):
    """The state after an answer of zeros, and the verdict of its card: no READBACK passes with them."""
    if load.turn == 3:
        return load._replace(turn=4), (NOT_YET, 0, 0)  # not judged
    stopped = (STOPPED, load.place, block_words(load.length, load.place))
    return load._replace(card=load.card + 1, place=0, stage=0, turn=0), stopped


def give(*numbers):
    load, (listed, count) = state_of(*numbers), numbers[-2:]
    listed = min(listed, LIST_ROOM)
    number = give_refusal(load, listed, count)
    after, verdict = (load, BEFORE) if number else after_zeros(load)
    if load.card >= listed:
        verdict = (0, 0, 0)  # the list has no such card
    return number, after.card, after.place, after.stage, after.turn, *verdict, 0  # no other card's verdict changes


ANSWERS = {
    LoadStart: ("L", start), WhichCard: ("O", which_card), LoadAsk: ("K", ask), LoadGive: ("J", give),
    ListStart: ("H", list_start),
}

REFUSALS = {
    (LoadStart, 0): {SIZE, ARGUMENT},
    (WhichCard, 0): {STATE, TURN},
    (LoadAsk, 0): {STATE, TURN, ARGUMENT, ROOM},
    (LoadGive, 0): {STATE, TURN, ARGUMENT, COUNT},
    (ListStart, 0): {SIZE, ARGUMENT},
}


# The test that nothing is missing, and that the answers agree with each other.

def of_kind(kind):
    return [record for record in all_records() if type(record) is kind]


def answer(record):
    _, answered = ANSWERS[type(record)]
    return answered(*record)


def not_refused(kind):
    return [record for record in of_kind(kind) if not answer(record)[0]]


def last_blocks(records):
    """The lengths of the tables whose last block is written in a record."""
    return {load.length for load in records if load.stage == WORDS and load.place == last_place(load.length)}


def missing():
    """What should occur and does not."""
    names = {*faults(Load(1, 1, 0, 0, 0, 0)), *faults(Load(1, 1, 1, 0, 0, 0))}
    for kind, turns in ((WhichCard, ASKING + GIVING), (LoadAsk, ASKING), (LoadGive, GIVING)):
        alone = [wrong(state_of(*record)) for record in of_kind(kind)]
        yield from (f"{kind.__name__}: {name} alone" for name in names if {name} not in alone)
        yield from set(product(STAGES, turns)) - {(record.stage, record.turn) for record in not_refused(kind)}
    for kind, turn in ((LoadAsk, 2), (LoadGive, 3)):
        yield from {*LENGTHS[1:]} - last_blocks(record for record in not_refused(kind) if record.turn == turn)
    for kind in (LoadStart, ListStart):
        yield from {*LENGTHS} - {record.length for record in not_refused(kind)}
    for kind in (LoadGive, ListStart):
        yield from {*LISTED} - {record.listed for record in of_kind(kind)}


def state_after(record):
    _, *left = answer(record)
    if type(record) in (LoadStart, ListStart):
        return Load(*left[:6])
    before = state_of(*record)
    if type(record) is LoadAsk:
        return before._replace(turn=left[1])
    card, place, stage, turn = left[:4]
    return before._replace(card=card, place=place, stage=stage, turn=turn)


def demand(right, what, record):
    # Not an assert statement: python -O would leave it out.
    if not right:
        raise AssertionError(f"{what}: {record}")


def test_list_start(record):
    """A list is refused as its smallest and its largest size are (an empty one as no card), and starts alike."""
    sizes = taken_sizes(*record[:-1])
    alike = start(len(sizes), min(sizes, default=0), max(sizes, default=0), record.length)
    demand(list_start(*record)[:7] == alike[:7], "not as the plain numbers", record)


def test_long_list(record):
    """A list longer than the program's is answered as one that is as long."""
    if record.listed > LIST_ROOM:
        demand(answer(record) == answer(record._replace(listed=LIST_ROOM)), "not as the longest list", record)


def self_test():
    """Raises AssertionError where something is missing, or too large, or a call leaves a state that is none."""
    for record in all_records():
        numbers = record._asdict().items()
        demand(all(number <= MOST.get(name, number) for name, number in numbers), "too large", record)
    for record in of_kind(ListStart):
        test_list_start(record)
    for record in of_kind(LoadGive) + of_kind(ListStart):
        test_long_list(record)
    for kind in (LoadStart, LoadAsk, LoadGive, ListStart):
        for record in not_refused(kind):
            demand(not wrong(state_after(record)), "a state out of its range after", record)
    lacking = list(missing())
    if lacking:
        raise AssertionError(f"missing: {lacking}")
