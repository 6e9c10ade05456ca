"""The units of crates/unit/stdin: lists of cards, and tables to be loaded into them one after the other, with damage.

Numbers of 2 bytes have their high byte first. A unit has the number of its cards (1 byte), their listed sizes (2 each),
the number of its tables (1) and the tables. A table has its length (2), its words (2 each), the number of its damages
(2), and the damages, which look as those of a sure write. Each is for one message of the load, in the order sent, and
the messages are counted on from card to card.
"""

from typing import NamedTuple

from .sure_records import NOWHERE, UNDAMAGED, UNSEEN, packed_damage

MOST_CARDS = 32
MOST_WORDS = 32768  # of one card
ROOM = 65536  # of the program, in words of all cards of a unit
BLOCK = 63

# The messages of a block: READBACK, CONFIG WRITE and READBACK for its base, then READBACK, WRITE and READBACK.
MESSAGES = 6

# How many of them are sent where this one is lost: behind a first READBACK that does not pass nothing is sent.
SENT_WITH_LOST = (1, 3, 3, 4, 6, 6)

LOST = (UNSEEN, 0, NOWHERE, NOWHERE)


class Table(NamedTuple):
    words: list
    damages: list = ()


class Unit(NamedTuple):
    """A list of cards by their sizes, and the tables in the order of their loads."""

    sizes: list
    tables: list


def two_bytes(numbers):
    return b"".join(number.to_bytes(2, "big") for number in numbers)


def packed_table(table):
    damages = b"".join(packed_damage(damage) for damage in table.damages)
    return two_bytes([len(table.words), *table.words, len(table.damages)]) + damages


def packed(unit):
    tables = b"".join(packed_table(table) for table in unit.tables)
    return bytes([len(unit.sizes)]) + two_bytes(unit.sizes) + bytes([len(unit.tables)]) + tables


# The damages of one card's messages.

def one_damaged(block, message, damage):
    """Only this message of this block, both counted from 0."""
    return [UNDAMAGED] * (MESSAGES * block + message) + [damage]


def stopped(block, message):
    """This message of this block is lost. There are as many as the card's messages: another card's may follow."""
    damages = one_damaged(block, message, LOST)
    sent = MESSAGES * block + SENT_WITH_LOST[message]
    return damages + [UNDAMAGED] * (sent - len(damages))


def not_stopped(length):
    """All messages of a table of this length are undamaged."""
    block_count = -(-length // BLOCK)
    return [UNDAMAGED] * (MESSAGES * block_count)
