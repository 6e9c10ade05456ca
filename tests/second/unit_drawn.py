"""Drawn units: some tables of drawn lengths into some cards, with several damages wherever they fall."""

from .draw import Draw
from .sure_records import UNDAMAGED, drawn_damage
from .unit_listed import LENGTHS
from .unit_records import Table, Unit, not_stopped

UNITS = 70
SEED = 30000
MOST_DAMAGES = 70


def drawn_length(draw):
    return draw.pick([draw.pick(LENGTHS), draw.below(12), draw.between(64, 250)])


def drawn_damages(draw, length, card_count):
    """For some of the load's first messages. Which message it will be depends on the stops before, so the number of its
    bits is a guess."""
    count = draw.below(min(len(not_stopped(length)) * card_count, MOST_DAMAGES) + 1)
    seldom = draw.pick([4, 12, 40])
    return [
        UNDAMAGED if draw.below(seldom) else drawn_damage(draw, draw.pick([80, 80, 80, 1056]))
        for _ in range(count)
    ]


def drawn_sizes(draw, least):
    sizes = [least + draw.pick([0, 1, draw.below(50)]) for _ in range(draw.pick([1, 2, 3, draw.between(4, 9)]))]
    # Now and then one card is too small for the longest table.
    if not draw.below(6):
        sizes[draw.below(len(sizes))] = draw.between(1, least)
    return sizes


def drawn_unit(number):
    draw = Draw(SEED + number)
    lengths = [drawn_length(draw) for _ in range(draw.between(1, 4))]
    sizes = drawn_sizes(draw, max(*lengths, 1))
    return Unit(sizes, [Table(draw.words(length), drawn_damages(draw, length, len(sizes))) for length in lengths])


def drawn_units():
    return [drawn_unit(number) for number in range(UNITS)]
