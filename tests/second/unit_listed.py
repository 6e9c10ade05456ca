"""Listed units: each group moves a length, a size, a number of cards or a damage to its edges."""

from itertools import product

from .checks import crc16
from .draw import Draw
from .sure_records import CUT, FLIPPED, NOWHERE, UNDAMAGED, UNSEEN
from .unit_records import (
    BLOCK, LOST, MESSAGES, MOST_CARDS, MOST_WORDS, ROOM, Table, Unit, not_stopped, one_damaged, stopped,
)

# The edges of the first blocks.
LENGTHS = (0, 1, 62, 63, 64, 126, 127)

# Sizes that no card has.
NO_SIZES = (0, MOST_WORDS + 1, 0xFFFF)


def table(draw, length, damages=()):
    """Drawn words, so that each table has others at every place, and a lost WRITE shows."""
    return Table(draw.words(length), damages)


# No damage, or next to none.

def lengths(draw):
    """Each length into memories that it fills and into larger ones, twice, and with other lengths between."""
    units = []
    for length in LENGTHS:
        least = max(length, 1)
        units.append(Unit([least], [table(draw, length), table(draw, length)]))
        units.append(Unit([least + 1], [table(draw, part) for part in (length, 1, length, 0)]))
        units.append(Unit([least + 70, least, 200], [table(draw, part) for part in (least, length)]))
    return units


def plain_words(draw):
    """Words that look like a dead line, and a table that the memory holds already, its WRITE lost."""
    words = draw.words(70)
    tables = [Table([0] * 70), Table([0xFFFF] * 70), Table(words), Table(words), Table(words, stopped(1, 4))]
    return [Unit([70, 71], tables)]


def one_word_lost(draw):
    """A last word that is the check of those before it: where WRITE loses its check word, it is just too short."""
    words = draw.words(BLOCK + 1)
    words.append(crc16(words[BLOCK:]))
    tables = [Table(words, one_damaged(1, 4, (CUT, fill, 64, NOWHERE))) for fill in (0, 1)]
    return [Unit([len(words)], tables)]


def no_cards(draw):
    """There is nothing to do for any table, nor for cards without one."""
    tables = [table(draw, 0), table(draw, 300, [LOST] * 3), table(draw, 1)]
    return [Unit([], []), Unit([], tables), Unit([7], []), Unit([0], []), Unit([], [table(draw, 0)])]


def most_tables(draw):
    """As many as their number can say, nearly all of them empty."""
    return [Unit([2], [table(draw, int(number % 50 == 49)) for number in range(255)])]


# One damaged message, and the cards behind it.

def edge_places(bit_count):
    """The places at the edges of token, payload and check of a message, and just behind its last bit."""
    listed = {0, 1, 15, 16, 31, 32, 79, 80}
    last = {bit_count - back for back in (17, 16, 15, 2, 1, 0, -1)}
    return sorted(place for place in listed | last if place <= bit_count + 1)


def edge_damages(bit_count):
    places = edge_places(bit_count)
    unseen = [(UNSEEN, fill, NOWHERE, NOWHERE) for fill in (0, 1)]
    cuts = [(CUT, fill, place, NOWHERE) for place in places for fill in (0, 1)]
    there = [(FLIPPED, 0, place, NOWHERE) for place in places]
    back = [(FLIPPED, 0, NOWHERE, place) for place in places]
    last = bit_count - 1
    both = [(FLIPPED, 0, *two) for two in ((0, 0), (31, 32), (32, 31), (0, last), (last, last))]
    return unseen + cuts + there + back + both


def at_the_edges(draw):
    """Each edge damage of each message. Its block is the second one, for the base to differ from the one before, and
    for WRITE the first one too, which is longer."""
    units = []
    for block, message in ((1, 0), (1, 1), (1, 2), (1, 3), (1, 4), (1, 5), (0, 4)):
        bit_count = 16 * (BLOCK + 3) if block == 0 else 80
        # Two words in the second block: all messages have 80 bits there.
        tables = [table(draw, BLOCK + 2, one_damaged(block, message, damage)) for damage in edge_damages(bit_count)]
        units.append(Unit([BLOCK + 2, BLOCK + 5], tables))
    return units


def each_message(draw):
    """Each message lost, in the first block, the middle ones and the short last one, with cards before and behind."""
    length = 3 * BLOCK + 11
    places = product(range(4), range(MESSAGES))
    tables = [table(draw, length, not_stopped(length) + stopped(*place)) for place in places]
    return [Unit([length + 50, length + 1, length], tables)]


def strange_numbers(draw):
    """Kinds and fills that have no name, and places behind the last bit."""
    damages = [(kind, 1, *places) for kind in (2, 3, 128, 255) for places in ((7, NOWHERE), (NOWHERE, 7), (80, 80))]
    damages += [(kind, fill, 79, 7) for kind in (UNSEEN, CUT) for fill in (2, 3, 128, 254, 255)]
    damages += [(CUT, 1, place, 0) for place in (80, 81, 0x8000, 0xFFFF)]
    tables = [table(draw, 2, one_damaged(0, message, damage)) for damage in damages for message in range(MESSAGES)]
    return [Unit([3], tables)]


# Several damaged messages.

def triples(draw):
    """All ways to damage three messages, those of the base and those of the block. Where the first READBACK does not
    pass, the other two damages are for the next card."""
    basic = [UNDAMAGED, LOST, (CUT, 0, 79, 0), (CUT, 1, 79, 0), (FLIPPED, 0, 5, NOWHERE), (FLIPPED, 0, NOWHERE, 5)]
    units = []
    for before in (0, 3):
        damages = [[UNDAMAGED] * before + list(three) for three in product(basic, repeat=3)]
        units.append(Unit([2, 4], [table(draw, 2, three) for three in damages]))
    return units


def after_a_stop(draw):
    """A load stopped by each message, then one by each message, then an undamaged one: what the first left in the card
    must not help the second, whose base is another."""
    tables = []
    for first, second in product(range(MESSAGES), repeat=2):
        tables.append(table(draw, BLOCK + 2, stopped(1, first)))
        tables.append(table(draw, 2, stopped(0, second)))
        tables.append(table(draw, 2))
    return [Unit([BLOCK + 2], tables)]


def older_token(draw):
    """The first load leaves CONFIG WRITE as the last token, and a base that is not 0. In the second the card refuses a
    READBACK that the controller passes, being cut in the last bits, and its CONFIG WRITE gets lost or is refused: only
    the status tells that the token read back is the older one, and the base not 0."""
    tables = []
    for place, fill, during in product((77, 78, 79), (0, 1), (LOST, (FLIPPED, 0, 40, NOWHERE))):
        tables.append(table(draw, BLOCK + 2, stopped(1, 2)))
        tables.append(table(draw, 2, [(CUT, fill, place, NOWHERE), during]))
    return [Unit([BLOCK + 2], [*tables, table(draw, 2)])]


def more_damages_than_messages(draw):
    unused = [LOST] * 40
    tables = [table(draw, 0, unused), table(draw, 2, [UNDAMAGED] * 6 + unused), table(draw, 2, unused)]
    return [Unit([2], tables), Unit([2, 3], [*tables, table(draw, 2)])]


def card_counts(draw):
    """Each number of cards, all of them but the last one stopped, by each message in turn."""
    stops = [stopped(0, number % MESSAGES) for number in range(MOST_CARDS)]
    counts = range(1, MOST_CARDS + 1)
    return [Unit([1] * count, [table(draw, 1, sum(stops[:count - 1], []))]) for count in counts]


def many_cards(draw):
    """The most cards: none stopped; each at another message, some at none; all at the first; all at the last."""
    length = 2 * BLOCK + 1
    places = list(product(range(3), range(MESSAGES)))
    elsewhere = []
    for number in range(MOST_CARDS):
        at = number % (len(places) + 1)
        elsewhere += stopped(*places[at]) if at < len(places) else not_stopped(length)
    loads = [(), elsewhere, MOST_CARDS * [LOST], MOST_CARDS * stopped(2, 5), ()]
    sizes = [length + 3 * (number * 5 % 7) for number in range(MOST_CARDS)]
    return [
        Unit(sizes, [table(draw, length, damages) for damages in loads]),
        Unit([1] * MOST_CARDS, [table(draw, 1), table(draw, 1, stopped(0, 1) * 20)]),
        # These just fill the room.
        Unit([ROOM // MOST_CARDS] * MOST_CARDS, [table(draw, 1, stopped(0, 2) * 2)]),
    ]


# Refused starts.

def wrong_sizes():
    """Lists with a size that no card has: alone, first, in the middle, last, beside cards that just fill the room, and
    beyond the most cards."""
    lists = []
    for size in NO_SIZES:
        lists += [[size], [size, 5], [5, size, 5], [5] * 31 + [size], [MOST_WORDS, size, MOST_WORDS]]
        lists += [[size] + [5] * 32, [5] * 32 + [size], [5] * 39 + [size], [size] * 33]
    return lists


def too_many():
    return [[5] * 33, [5] * 255, [MOST_WORDS] * 33]


def refused(draw):
    """Each with tables that fit, and one that does not."""
    return [
        Unit(sizes, [table(draw, 0), table(draw, 5, [LOST]), table(draw, 6, [UNDAMAGED, LOST])])
        for sizes in wrong_sizes() + too_many()
    ]


def too_long(draw):
    """Tables as long as the smallest card, wherever it stands in the list, and one word longer."""
    units = []
    for sizes in ([5, 6, 7], [6, 5, 7], [7, 6, 5], [1, 1], [5] * 32, [40] * 31 + [39], [64], [63]):
        least = min(sizes)
        # Loads follow a refused one and a stopped one, and their answers must not be what was said before.
        loads = [(least, ()), (least + 1, ()), (least, [LOST]), (least + 1, [LOST]), (max(sizes) + 1, ()), (least, ())]
        units.append(Unit(sizes, [table(draw, *load) for load in loads]))
    return units


# Long tables.

def long_tables(draw):
    """Stops in high blocks, each followed by another card or another load."""
    stops = stopped(47, 5) + stopped(0, 2)
    return [
        Unit([2000, 2500], [table(draw, 2000, not_stopped(2000) + stopped(20, 4)), table(draw, 1954)]),
        Unit([5000, 3000, 4000], [table(draw, 3000, stops)]),
        Unit([10000], [table(draw, 10000, stopped(158, 3)), table(draw, 64)]),
    ]


def full_table(draw):
    """The longest table, and one word more. The cards just fill the room; the first one stops at once."""
    tables = [table(draw, MOST_WORDS, [LOST]), table(draw, MOST_WORDS + 1)]
    return [Unit([MOST_WORDS, MOST_WORDS], tables)]


def without_room():
    """One word more than the room, where a start would be refused too. The run ends before the table, and so before
    the unit behind it."""
    return [Unit([MOST_WORDS, 0, MOST_WORDS, 1], [Table([7])]), Unit([3], [Table([7])])]


def listed_units():
    draw = Draw(14)
    groups = (
        lengths, plain_words, one_word_lost, no_cards, most_tables, at_the_edges, each_message, strange_numbers,
        triples, after_a_stop, older_token, more_damages_than_messages, card_counts, many_cards, refused, too_long,
        long_tables, full_table,
    )
    return [unit for group in groups for unit in group(draw)]
