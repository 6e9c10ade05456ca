"""Command and response tokens, and the table of commands."""

from typing import NamedTuple

from .checks import crc4

RESET = 0x00
SYNCH = 0x07
TICK = 0x08
READBACK = 0x0A
WRITE = 0x0D
READ = 0x0E
CONFIG_WRITE = 0x20
CONFIG_READ = 0x21
ACTIVATE = 0x24
DEACTIVATE = 0x25

# Request 5 (document 02) has brought these two; the others stand in document 01.
PORT_COMMANDS = (ACTIVATE, DEACTIVATE)

# The tests' code that no row has.
NO_COMMAND = 0x26

# code: (least length, most length, last sub-address)
ROWS = {
    RESET: (0, 0, 0),
    SYNCH: (4, 4, 0),
    TICK: (0, 0, 63),
    READBACK: (2, 2, 0),
    WRITE: (0, 63, 255),
    READ: (0, 63, 255),
    CONFIG_WRITE: (2, 2, 0),
    CONFIG_READ: (2, 2, 0),
    ACTIVATE: (0, 0, 0),
    DEACTIVATE: (0, 0, 0),
}

# Drawn codes are drawn from these, so that a request's rows leave what was drawn before.
FIRST_CODES = tuple(code for code in ROWS if code not in PORT_COMMANDS)


def field(word, high, low):
    """Bits high to low of a word."""
    return word >> low & (1 << high - low + 1) - 1


def with_check(word1, word2):
    """The two words with bits 3-0 of word 2 made the CRC-4 they ask for."""
    return word1, word2 & 0xFFF0 | crc4(word1, word2)


class Marks(NamedTuple):
    """A truth for each mark of a token."""

    prefix: bool  # bits 15-14 of both words
    spare: bool  # every other fixed bit
    check: bool  # the CRC-4, bits 3-0 of word 2


def check_right(word1, word2):
    return field(word2, 3, 0) == crc4(word1, word2)


def prefix_right(word1, word2, prefix):
    return field(word1, 15, 14) == prefix and field(word2, 15, 14) == prefix


def wrong(right):
    """Which marks are wrong, all that apply, from which are right."""
    return Marks(*(not mark for mark in right))


def command_token(code, length, sub_address):
    """The command token, or None for the refusal Argument."""
    if code > 63 or length > 63 or sub_address > 255:
        return None
    word1 = 0b01 << 14 | code << 8 | 0b11 << 6 | length
    word2 = 0b01 << 14 | sub_address << 6 | 0b11 << 4
    return with_check(word1, word2)


def command_marks(word1, word2):
    """Which marks of a command token are right."""
    spare = field(word1, 7, 6) == 0b11 and field(word2, 5, 4) == 0b11
    return Marks(prefix_right(word1, word2, 0b01), spare, check_right(word1, word2))


def command_wrong(word1, word2):
    """Request 6 (document 02): which marks of a command token are wrong."""
    return wrong(command_marks(word1, word2))


def read_command(word1, word2):
    """(code, length, sub-address) of a good command token, else None."""
    if not all(command_marks(word1, word2)):
        return None
    return field(word1, 13, 8), field(word1, 5, 0), field(word2, 13, 6)


def response_token(stf, me, ar, ic, module_state):
    """The response token, or None for the refusal Argument."""
    if module_state > 15:
        return None
    word1 = 0b10 << 14 | stf << 13 | me << 12 | ar << 11 | ic << 10 | module_state
    return with_check(word1, 0x878 << 4)


def response_marks(word1, word2):
    """Which marks of a response token are right."""
    # Every fixed bit below the prefix counts as spare, those of word 2 too.
    spare = field(word1, 9, 4) == 0 and field(word2, 13, 4) == 0x078
    return Marks(prefix_right(word1, word2, 0b10), spare, check_right(word1, word2))


def response_wrong(word1, word2):
    """Request 6: which marks of a response token are wrong."""
    return wrong(response_marks(word1, word2))


def read_response(word1, word2):
    """(STF, ME, AR, IC, module state) of a good response token, else None."""
    if not all(response_marks(word1, word2)):
        return None
    flags = tuple(field(word1, place, place) for place in (13, 12, 11, 10))
    return flags + (field(word1, 3, 0),)
