"""The loader's records of crates/refused_calls/stdin, behind those of refused_records: the calls of request 1.

A type below has its numbers in the record's order; stage and turn are x together, 16 * stage + turn. The lent table's
words are 1, 2, 3 and so on, the buffer (room) is full of 0xFFFF, and the words given back are all 0. Where a list of
cards is lent, listed is their number, and each has a verdict left from an earlier load. With ListStart their sizes are
first and last, and middle between them; a single card has first.
"""

from collections import namedtuple
from functools import lru_cache
from itertools import product

from .draw import Draw
from .refused_records import alone, each_once, gathered, message_words, near, packed_call, pairs
from .unit_records import BLOCK

LoadStart = namedtuple("LoadStart", "cards least most length")
WhichCard = namedtuple("WhichCard", "stage turn cards length card place")
LoadAsk = namedtuple("LoadAsk", "stage turn cards length card place lent room")
LoadGive = namedtuple("LoadGive", "stage turn cards length card place listed count")
ListStart = namedtuple("ListStart", "listed first middle last length")

OPERATIONS = {LoadStart: 11, WhichCard: 12, LoadAsk: 13, LoadGive: 14, ListStart: 15}

# A stage sets the base of a block or writes its words. In its turns three messages are asked for and given back.
STAGES = BASE, WORDS = range(2)
ASKING, GIVING = (0, 2, 4), (1, 3, 5)

# No word, one, a block with one word less and one more, two blocks and one word more, and the most words that the program lends.
LENGTHS = (0, 1, 62, 63, 64, 126, 127, 200)

# No card, some, the most cards and one more, the most of the program's list, and two numbers taken as that.
LISTED = (0, 1, 2, 32, 33, 255, 256, 65535)

NO_SIZES = (0, 32769, 65535)


def packed(record):
    numbers = record._asdict()
    x = 16 * numbers.pop("stage", 0) + numbers.pop("turn", 0)
    return packed_call(OPERATIONS[type(record)], x, numbers.values())


def block_words(length, place):
    return min(BLOCK, length - place)


def turn_words(stage, turn, length, place):
    """The number of words of the turn's message: only WRITE has the block, the others have a payload of two."""
    is_write = stage == WORDS and turn in (2, 3)
    return message_words(block_words(length, place) if is_write else 2)


def last_place(length):
    return (length - 1) // BLOCK * BLOCK


def list_sizes(listed, first, middle, last):
    return [first, *[middle] * (listed - 2), last][:listed]


# Calls with the second of three cards, whose other numbers are right for the turn.

def which_card(stage, turn, length=127, place=63):
    return WhichCard(stage, turn, 3, length, 1, place)


def asked(stage, turn, length=127, place=63):
    return LoadAsk(*which_card(stage, turn, length, place), length, turn_words(stage, turn, length, place))


def given(stage, turn, length=127, place=63):
    return LoadGive(*which_card(stage, turn, length, place), 3, turn_words(stage, turn, length, place))


# Listed records, in groups as those of refused_records.

def starts():
    records = [LoadStart(3, max(length, 1), 300, length) for length in LENGTHS]
    lawful = LoadStart(2, 100, 200, 64)
    # 0x0102 looks allowed where only its low byte is taken.
    records += alone(lawful, cards=(0, 1, 32, 33, 0x0102), length=(0, 100, 101, 65535), least=(0,), most=(32768, 32769))
    records += alone(LoadStart(32, 32768, 32768, 32768), length=(32767, 32769), most=(32769,))
    records += [LoadStart(2, 32769, 32769, length) for length in (0, 32768, 32769)]
    # What is refused is refused without a table too.
    records += alone(LoadStart(2, 100, 200, 0), cards=(33,), least=(0,), most=(32769,))
    return records + pairs(lawful, cards=33, least=0, most=32769, length=101)


def starts_turned_round():
    """The smallest size above the largest: no list has such sizes, but plain numbers may, and each is looked at."""
    records = [LoadStart(2, *sizes, sizes[0]) for sizes in ((40000, 5), (32769, 32768), (65535, 0), (1, 0))]
    # Both are sizes: only the smallest bounds the table.
    return records + alone(LoadStart(2, 200, 100, 150), length=(100, 200, 201), most=(0,), least=(32768, 32769))


def starts_without_cards():
    """Nothing is refused, whatever the sizes and the table."""
    records = alone(LoadStart(0, 100, 200, 0), length=(100, 101), least=(0,), most=(0, 32769))
    sizes = ((0, 0), (0, 65535), (65535, 0), (65535, 65535), (40000, 5), (32769, 32769))
    return records + [LoadStart(0, *both, length) for both in sizes for length in (0, 1, 65535)]


def list_numbers():
    """Each number of cards with a table that fits, some with one that does not, and with an empty one."""
    records = [ListStart(listed, 70, 80, 75, 70) for listed in LISTED]
    return records + [ListStart(listed, 70, 80, 75, length) for listed in (0, 1, 32, 33) for length in (71, 0)]


def list_tables():
    """Tables as long as the smallest card, wherever it stands in the list, and one word longer."""
    records = [ListStart(2, length, 300, length + 1, length) for length in LENGTHS[1:]]
    for sizes in ((64, 65, 66), (65, 64, 66), (66, 65, 64)):
        records += [ListStart(32, *sizes, length) for length in (64, 65)]
    return records + alone(ListStart(32, 32768, 32768, 32768, 32768), length=(32769, 65535))


def list_wrong_sizes():
    """At the beginning, in the middle and at the end of a list, and where the list has no such card."""
    records = [ListStart(0, 0, 0, 0, 65535)]
    for size in NO_SIZES:
        records += alone(ListStart(3, 70, 80, 75, 64), first=(size,), middle=(size,), last=(size,))
    for listed in (1, 2, 33, 255, 256, 65535):
        records += alone(ListStart(listed, 70, 80, 75, 64), first=(0,), middle=(0,), last=(32769,))
    return records


def list_orders():
    return pairs(ListStart(3, 70, 80, 75, 64), listed=33, first=0, last=32769, length=71)


def each_turn(call):
    """Both stages with each turn, then turns and stages that there are not."""
    strange = ((BASE, 6), (WORDS, 15), (2, 0), (15, 15))
    return [call(*place) for place in (*product(STAGES, range(6)), *strange)]


def when_over(lawful):
    """The call when all is over."""
    return lawful._replace(card=lawful.cards, place=0, stage=0, turn=0)


def without_cards(lawful):
    return when_over(lawful._replace(cards=0, length=0))


def wrong_states(lawful):
    """Each number of the state out of its range, while a card is served and when all is over."""
    records = alone(lawful, cards=(33,), length=(63, 32769), card=(4,), place=(62, 189))
    return records + alone(when_over(lawful), place=(63,), stage=(1,), turn=(1,))


def which_cards():
    lawful = which_card(BASE, 0)
    records = each_turn(which_card) + wrong_states(lawful)
    records += alone(lawful, cards=(2, 32), length=(0, 64, 32768), card=(0, 2, 3), place=(0, 64, 126))
    records += [WhichCard(WORDS, 2, 32, 32768, card, 32760) for card in (0, 31)]
    records += alone(when_over(lawful), length=(0, 32768, 32769), turn=(2,))
    records += [without_cards(lawful), *(when_over(lawful._replace(cards=cards)) for cards in (32, 33))]
    # At the first turn of a card, the card's number alone has to change for all to be over.
    return records + pairs(which_card(BASE, 0, 127, 0), card=3, length=32769, stage=2, turn=6)


def blocks():
    """The length of each table and the place of its last block, and a whole block that is not the last."""
    return [(length, last_place(length)) for length in LENGTHS[1:]] + [(127, 0)]


def all_asked():
    records = each_turn(asked) + wrong_states(asked(WORDS, 2)) + [without_cards(asked(BASE, 0, 0))]
    records += [asked(BASE, 2, 200, place) for place in range(0, 200, BLOCK)]
    for block in blocks():
        words = asked(WORDS, 2, *block)
        records += [words, words._replace(room=words.room - 1)]
    for lawful in [asked(stage, turn) for stage in STAGES for turn in ASKING]:
        records += alone(lawful, lent=(126,), room=(lawful.room - 1,))
    for lawful in (asked(BASE, 0), asked(WORDS, 2)):
        records += alone(lawful, lent=(0, 128), room=(0, lawful.room + 1))
        records += pairs(lawful, turn=lawful.turn + 1, cards=33, lent=126, room=lawful.room - 1)
    records += alone(asked(WORDS, 2), cards=(32,), length=(64, 32768))
    return records + pairs(asked(BASE, 0, 127, 0), card=3, length=32769, lent=126, room=4)


def given_lists():
    """As many cards listed as the state has, with the first and the last one served; other numbers."""
    served = [(listed, listed - 1) for listed in LISTED[1:]] + [(2, 0), (32, 0)]
    records = [given(WORDS, 5)._replace(cards=listed, card=card, listed=listed) for listed, card in served]
    records += alone(given(BASE, 3)._replace(cards=32, card=31, listed=32), listed=LISTED)
    # What the program shows of the last card of its longest list, and of the next.
    records += [given(BASE, 1)._replace(card=card, listed=listed) for listed in LISTED[-3:] for card in (254, 255)]
    return records + [without_cards(given(BASE, 1))._replace(listed=listed) for listed in (0, 1)]


def all_given():
    records = each_turn(given) + wrong_states(given(WORDS, 3)) + given_lists()
    # Nothing is lent here, so that a table may be the longest.
    for block in (*blocks(), (32768, 32697), (32768, 32760)):
        records += [given(BASE, 1, *block), given(WORDS, 3, *block)]
    records += alone(given(WORDS, 3, 200, 189), count=(13, 15, 66))
    for lawful in [given(stage, turn) for stage in STAGES for turn in GIVING]:
        records += alone(lawful, listed=(2,), count=(lawful.count - 1,))
    for lawful in (given(BASE, 1), given(WORDS, 3)):
        records += alone(lawful, listed=(0, 4), count=(0, lawful.count + 1, 100))
        records += pairs(lawful, turn=lawful.turn + 1, cards=33, listed=2, count=lawful.count - 1)
    return records + pairs(given(BASE, 1, 127, 0), turn=0, length=32769, listed=256, count=4)


# Drawn records.

def drawn(draw):
    """Calls with drawn numbers, most of them inside their ranges and as their other numbers ask."""
    cards, length = draw.between(1, 32), draw.between(1, 199)
    state = (cards, length, draw.below(cards), draw.pick(range(0, length, BLOCK)))
    stage, turn = draw.below(2), draw.pick(ASKING)
    words = turn_words(stage, turn, length, state[-1])
    yield WhichCard(stage, near(draw, turn + 1), *state)
    yield LoadAsk(stage, near(draw, turn), *state, near(draw, length), near(draw, words))
    yield LoadGive(stage, near(draw, turn + 1), *state, near(draw, cards), near(draw, words))
    sizes = [length + draw.below(3) for _ in range(3)]
    yield LoadStart(near(draw, cards), min(sizes), max(sizes), near(draw, length))
    yield ListStart(near(draw, cards), *sizes, near(draw, length))


@lru_cache(maxsize=None)
def all_records():
    groups = (
        starts, starts_turned_round, starts_without_cards, which_cards, all_asked, all_given, list_numbers, list_tables,
        list_wrong_sizes, list_orders,
    )
    return each_once(gathered(groups, drawn, Draw(15), 4))
