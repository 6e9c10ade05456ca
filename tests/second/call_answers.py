"""What the answers to calls and records have in common: the refusal numbers, their order and which of them should meet,
and a buffer's check."""

from itertools import combinations

from .checks import crc16

SIZE, STATE, OPEN, CLOSED, ARGUMENT, ROOM, TURN, COUNT, RECORD = range(1, 10)
ORDER = (STATE, SIZE, OPEN, CLOSED, TURN, ARGUMENT, COUNT, ROOM)

MOST_SIZE = 32768


def refusal(faults):
    """The number of the first fault in document 01's order, 0 where there is none."""
    return next((number for number in ORDER if faults.get(number)), 0)


def met(faults):
    """The numbers of all faults that there are."""
    return {number for number, is_met in faults.items() if is_met}


def none_each_and_pairs(numbers):
    """The sets of refusals that a call's records should meet: none, each one alone, and each two together."""
    return [set(), *({number} for number in numbers), *({*two} for two in combinations(numbers, 2))]


def check(buffer):
    """The CRC-16 of the buffer's words, from the last to the first."""
    # A message ends in the check of its own payload: from the first word its CRC-16 would not depend on the payload.
    return f"{crc16(buffer[::-1]):04X}"
