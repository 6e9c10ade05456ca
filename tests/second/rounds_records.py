"""The cases of crates/rounds/stdin: sure writes of up to so many rounds (request 7, document 02), with damage.

All are for one card. Numbers of 2 bytes have their high byte first. A case has the length, the sub-address and the
rounds (1 byte each), the block's words (2 each, as many as the length says even where it is refused), the number of its
damages (2), and the damages, which look as those of a sure write. Each is for one message, in the order sent, counted
on from round to round: a round whose first READBACK does not pass takes one damage, any other takes three. Messages
behind the last damage are undamaged, and damages behind the last message are skipped.
"""

from functools import lru_cache
from itertools import product
from typing import NamedTuple

from .draw import Draw
from .refused_records import message_words
from .retry import MOST_ROUNDS, READBACK_WORDS, SHORT_ROUNDS
from .sure_records import CUT, FLIPPED, MEMORY, NOWHERE, UNDAMAGED, UNSEEN, drawn_damage, numbered_block, packed_damage
from .unit_records import LOST, two_bytes

# The number of rounds that asks for the short form.
SHORT_FORM = 0

READBACK_BITS = 16 * READBACK_WORDS

SEED = 70
DRAWN = 600

# What may befall a round so that it is Unsure: its damages, one for each message sent.
EARLY = (LOST,)
NOT_WRITTEN = (UNDAMAGED, LOST, UNDAMAGED)
SPOILT = (UNDAMAGED, (CUT, 0, 40, NOWHERE), UNDAMAGED)  # the card refuses the WRITE, and says so
NOT_HEARD = (UNDAMAGED, UNDAMAGED, LOST)  # written, but the last READBACK does not say so
WAYS = (EARLY, NOT_WRITTEN, SPOILT, NOT_HEARD)
LATE_WAYS = WAYS[1:]


class Case(NamedTuple):
    sub_address: int
    block: list
    rounds: int
    damages: tuple = ()


class Shape(NamedTuple):
    """A listed case. It gets its block by its place in the list: other words for each, so that a lost write shows."""

    length: int
    rounds: int
    sub_address: int = 0
    damages: tuple = ()


def packed(case):
    damages = b"".join(packed_damage(damage) for damage in case.damages)
    first = bytes([len(case.block), case.sub_address, case.rounds])
    return first + two_bytes([*case.block, len(case.damages)]) + damages


def all_of(ways):
    """The damages of these rounds in turn."""
    return tuple(damage for way in ways for damage in way)


# Listed cases.

def edges():
    """Each length with each number of rounds, some refused; those have damages to skip as well."""
    lengths, rounds = (0, 1, 2, 62, 63, 64, 255), (SHORT_FORM, 1, 2, 3, 8, 9, 10, 255)
    shapes = [Shape(*numbers) for numbers in product(lengths, rounds)]
    # A number above 255 of them shows that both bytes count.
    refused = [Shape(64, 2, 1, EARLY), Shape(3, 9, 1, EARLY * 30), Shape(255, 255, 255, EARLY * 300)]
    return shapes + [*refused, Shape(3, 2, 1), Shape(64, SHORT_FORM, 255), Shape(0, 9, 255)]


def places():
    """Blocks inside the memory, ending with it, and beyond it, where no round is Done though nothing is damaged."""
    shapes = []
    for length in (0, 1, 2, 62, 63):
        ends = {MEMORY - length, MEMORY - length + 1, 0, 192, 193, 255}
        for sub_address, rounds in product(sorted(ends & {*range(MEMORY)}), (SHORT_FORM, 3)):
            shapes.append(Shape(length, rounds, sub_address))
    return shapes + [Shape(2, rounds, 255) for rounds in (2, MOST_ROUNDS)] + [Shape(63, MOST_ROUNDS, 194)]


def every_order():
    """Up to three Unsure rounds in every order, with no round left and with one; and with the most rounds, so that it
    is Done before the last. All have the same token, which the card still holds where it took the WRITE and not the
    READBACK behind it."""
    shapes = []
    for count in (1, 2, 3):
        for ways in product(WAYS, repeat=count):
            shapes += [Shape(2, rounds, 7, all_of(ways)) for rounds in (count, count + 1)]
    shapes += [Shape(2, MOST_ROUNDS, 7, all_of(ways)) for ways in product(WAYS, repeat=2)]
    return shapes + [Shape(2, SHORT_FORM, 7, way) for way in WAYS]


def many_rounds():
    """Four rounds to eight in one way: all of them, and all but one, so that it is Done in the last possible round. And
    with each number of Unsure rounds before it, one way after the other."""
    shapes = []
    for way, rounds, length in product(WAYS, range(4, MOST_ROUNDS + 1), (0, 3)):
        shapes += [Shape(length, rounds, 9, way * count) for count in (rounds, rounds - 1)]
    in_turn = [(WAYS * 2)[:count] for count in range(MOST_ROUNDS + 1)]
    return shapes + [Shape(63, MOST_ROUNDS, 193, all_of(ways)) for ways in in_turn]


def all_late():
    """Every round late: the most words that there can be, and for length 0 one word less in each round."""
    shapes = []
    for length, rounds in product((0, 1, 2, 62, 63), range(1, MOST_ROUNDS + 1)):
        ways = [LATE_WAYS[(length + number) % len(LATE_WAYS)] for number in range(rounds)]
        shapes.append(Shape(length, rounds, 11, all_of(ways)))
    return shapes


def passed_though_refused():
    """The first READBACK lacks its last bit: the card refuses it, but with one of the two fills it passes. Whatever was
    the last token before, and whether the WRITE is lost or not."""
    shapes = []
    for fill, before, then in product((0, 1), ((), *WAYS), (LOST, UNDAMAGED)):
        damages = (*before, (CUT, fill, 79, NOWHERE), then, UNDAMAGED)
        rounds = 2 if before else 1
        shapes += [Shape(1, rounds, 1, damages), Shape(1, rounds + 1, 1, damages)]
    return shapes


def numbers_of_damages():
    """Fewer damages than messages, as many, and more: the next case is read behind all of them."""
    calm = (UNDAMAGED,) * 3
    return [
        *(Shape(1, 2, 3, NOT_HEARD[:count]) for count in range(4)),
        *(Shape(1, rounds, 3, calm + EARLY * 27) for rounds in (SHORT_FORM, 1, 2, MOST_ROUNDS)),
        *(Shape(1, rounds, 3, EARLY * 30) for rounds in (SHORT_FORM, 1, 2, MOST_ROUNDS)),
        *(Shape(1, rounds, 3, EARLY + calm + EARLY * 300) for rounds in (2, 3)),
        Shape(1, MOST_ROUNDS, 3, NOT_WRITTEN * 10),
    ]


def each_damage():
    """Each message of the first round of two, damaged in each way, and by what is no kind and no fill: any other kind
    is a flip, and any fill but 1 is 0."""
    cuts = [(CUT, fill, there, NOWHERE) for fill, there in product((0, 1), (0, 1, 15, 16, 32, 64, 79, 80))]
    places = ((0, NOWHERE), (NOWHERE, 0), (31, 31), (64, NOWHERE), (NOWHERE, 79), (80, 80))
    flips = [(FLIPPED, 0, *two) for two in places]
    others = [(3, 0, 40, NOWHERE), (255, 1, NOWHERE, 40), (CUT, 2, 79, NOWHERE), (UNSEEN, 255, 0, 0), (UNSEEN, 1, 0, 0)]
    damages = [*cuts, *flips, *others]
    return [Shape(2, 2, 13, (UNDAMAGED,) * at + (damage,)) for at, damage in product(range(3), damages)]


def listed_cases():
    groups = (
        edges, places, every_order, many_rounds, all_late, passed_though_refused, numbers_of_damages, each_damage,
    )
    shapes = [shape for group in groups for shape in group()]
    return [
        Case(shape.sub_address, numbered_block(shape.length, number), shape.rounds, shape.damages)
        for number, shape in enumerate(shapes, 1)
    ]


# Drawn cases.

def drawn_anywhere(draw, write_bits, rounds):
    """Damages for some of the first messages. Which message it will be depends on the rounds before, so the number of
    its bits is a guess, and a place may be outside."""
    bit_counts = [READBACK_BITS] * 3 + [write_bits, 2 * write_bits]
    seldom = draw.pick([1, 2, 3, 6])
    return [
        UNDAMAGED if draw.below(seldom) else drawn_damage(draw, draw.pick(bit_counts))
        for _ in range(draw.below(3 * rounds + 1))
    ]


def drawn_round(draw, write_bits):
    """Damages of one round that is mostly Unsure, and mostly late."""
    last_bit_cut = (CUT, draw.below(2), READBACK_BITS - 1, NOWHERE)
    first = draw.pick([UNDAMAGED] * 6 + [last_bit_cut, drawn_damage(draw, READBACK_BITS)])
    if first[0] == UNSEEN:
        return [first]
    damaged = drawn_damage(draw, write_bits), drawn_damage(draw, READBACK_BITS)
    others = draw.pick([(damaged[0], UNDAMAGED), (UNDAMAGED, damaged[1]), damaged, (UNDAMAGED, LOST)])
    return [first, *others]


def drawn_rounds(draw, write_bits, rounds):
    """Damages of some rounds, or all."""
    count = draw.pick([rounds, draw.below(rounds + 1)])
    return [damage for _ in range(count) for damage in drawn_round(draw, write_bits)]


def drawn_sub_address(draw, length):
    """Mostly inside the memory, and now and then about where a block ends with it."""
    about_the_end = MEMORY - length + draw.pick([-1, 0, 1])
    inside = draw.below(MEMORY - length)
    return min(draw.pick([draw.below(MEMORY), draw.below(8), inside, inside, about_the_end]), MEMORY - 1)


def drawn_case(draw):
    """Most are lawful."""
    length = draw.pick([0, 1, 2, draw.below(8), draw.below(64)])
    rounds = draw.pick([SHORT_FORM, 1, 2, 3, *[draw.between(1, MOST_ROUNDS)] * 4])
    sub_address = drawn_sub_address(draw, length)
    drawn = draw.pick([drawn_anywhere, drawn_rounds])
    damages = drawn(draw, 16 * message_words(length), rounds or SHORT_ROUNDS)
    if not draw.below(30):
        rounds = draw.between(MOST_ROUNDS + 1, 255)
    if not draw.below(30):
        length = draw.between(64, 255)
    return Case(sub_address, draw.words(length), rounds, tuple(damages))


@lru_cache(maxsize=None)
def drawn_cases():
    draw = Draw(SEED)
    return [drawn_case(draw) for _ in range(DRAWN)]


@lru_cache(maxsize=None)
def all_cases():
    return listed_cases() + drawn_cases()
