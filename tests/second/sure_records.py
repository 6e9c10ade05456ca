"""The records of crates/sure_writes/stdin: sure writes with damage, and those that prepare the card for them.

All are for one card. A record begins with 20 bytes, with the high byte of each number first. A sure write has length,
sub-address and a damage of 6 bytes for each message; then come the block's words. A record whose first byte is PREPARE,
which is no length, has the module value (1 byte), the write base (4), the read base (4), and 10 zeros. Bases are in
bytes.
"""

from functools import lru_cache
from typing import NamedTuple

from .addresses import base_of, is_odd, word_address
from .draw import Draw
from .trace_records import readback, write

MEMORY = 256
PREPARE = 0x40
NOWHERE = 0xFFFF

# A damage: its kind, the bit read where the card is not heard, and two places.
UNSEEN, CUT, FLIPPED = range(3)
UNDAMAGED = (FLIPPED, 0, NOWHERE, NOWHERE)
CALM = (UNDAMAGED, UNDAMAGED, UNDAMAGED)


class SureWrite(NamedTuple):
    sub_address: int
    block: list
    damages: tuple = CALM


class Prepare(NamedTuple):
    """Bit 4 of the module value is STF, bits 3-0 are the module state."""

    module: int
    write_base: int
    read_base: int


def packed_damage(damage):
    kind, fill, there, back = damage
    return bytes([kind, fill]) + there.to_bytes(2, "big") + back.to_bytes(2, "big")


def packed(record):
    if isinstance(record, Prepare):
        bases = (base.to_bytes(4, "big") for base in (record.write_base, record.read_base))
        return b"".join([bytes([PREPARE, record.module]), *bases, bytes(10)])
    parts = [bytes([len(record.block), record.sub_address])]
    parts += [packed_damage(damage) for damage in record.damages]
    parts += [word.to_bytes(2, "big") for word in record.block]
    return b"".join(parts)


# Listed records.

def kinds_of_play():
    """The kinds of play of crates/delivery/proofs/Examples.antt."""
    unseen = (UNSEEN, 0, NOWHERE, NOWHERE)
    cut = (CUT, 0, 79, NOWHERE)
    # The WRITE is accepted and nothing follows: its token stays the last token, and the status is clean.
    written_before = (UNDAMAGED, UNDAMAGED, unseen)
    plays = [
        CALM,
        (UNDAMAGED, (CUT, 0, 40, NOWHERE), UNDAMAGED),
        (UNDAMAGED, (FLIPPED, 0, 40, NOWHERE), UNDAMAGED),
        (UNDAMAGED, UNDAMAGED, (FLIPPED, 0, NOWHERE, 3)),
        (UNDAMAGED, UNDAMAGED, cut),
        written_before,
        (UNDAMAGED, unseen, UNDAMAGED),
        written_before,
        ((UNSEEN, 1, NOWHERE, NOWHERE), unseen, UNDAMAGED),
        written_before,
        (cut, unseen, UNDAMAGED),
    ]
    # Each with another block under the same token, so that a lost WRITE shows in the memory.
    return [SureWrite(1, [7 + number], play) for number, play in enumerate(plays)]


def odd_bases():
    """An odd write base, by which nothing is ever Done: the kinds of play, and each way to damage each message alone.
    The latter also by the even base before it, of which only the lowest bit differs."""
    unseen, cut = (UNSEEN, 1, NOWHERE, NOWHERE), (CUT, 0, 40, NOWHERE)
    damages = [unseen, cut, (FLIPPED, 0, 40, NOWHERE), (FLIPPED, 0, NOWHERE, 3)]
    plays = [CALM, *((*CALM[:at], damage, *CALM[at + 1:]) for at in range(3) for damage in damages)]
    records = [Prepare(0x1D, 81, 10), *kinds_of_play()]
    for base in (80, 81):
        records.append(Prepare(0x12, base, 80))
        records += [SureWrite(3, numbered_block(2, base + number), play) for number, play in enumerate(plays)]
    return records


def edges():
    """Blocks that end with the memory, and one word beyond, by each base from which a sub-address leads there, and by
    odd ones, by which none is inside."""
    records = []
    for number, base in enumerate((0, 2, 3, 4, 200, 201, 386, 387, 508, 510, 511, 512, 513, 514)):
        # The read base is another one, with which all of these would be inside, or all refused: it is odd, and far.
        read_base = 0 if is_odd(base) or base > 400 else 2001
        records.append(Prepare(3 * number % 32, base, read_base))
        for length in (0, 1, 2, 63):
            for end in (MEMORY, MEMORY + 1):
                sub_address = end - length - word_address(base, 0)
                if 0 <= sub_address <= 255:
                    records.append(SureWrite(sub_address, numbered_block(length, len(records))))
    return records


def far_bases():
    """Blocks that would be inside the memory if the base, its half or the sum, in words or in bytes, were taken modulo
    2^16 or 2^32."""
    records = []
    for base in (0x10000, 0x1FFFE, 0x20000, 0xFFFFFFFE, 0xFFFFFFFF):
        records.append(Prepare(0x1F, base, 0))
        for sub_address in (0, 1, 2, 255):
            for length in (0, 1):
                records.append(SureWrite(sub_address, numbered_block(length, len(records))))
    return records


def numbered_block(length, number):
    """A block of other words for each number."""
    return [64 * number + place for place in range(length)]


def listed_records():
    at_power_up = [*kinds_of_play(), SureWrite(0, []), SureWrite(255, [])]
    # The read base is odd, which is nothing to a WRITE.
    return [*at_power_up, Prepare(0x1D, 80, 11), *kinds_of_play(), *odd_bases(), *edges(), *far_bases()]


# Drawn records.

def drawn_damage(draw, bit_count):
    kind = draw.pick([UNSEEN, CUT, CUT, FLIPPED, FLIPPED, FLIPPED])
    if kind == CUT:
        return CUT, draw.below(2), draw.below(bit_count + 1), NOWHERE
    places = [draw.pick([NOWHERE, draw.below(bit_count)]) for _ in range(2)]
    return (kind, draw.below(2), *places)


def drawn_write(draw):
    sub_address = draw.pick([draw.below(256), draw.below(8)])
    block = draw.words(draw.pick([0, 1, 2, draw.below(64)]))
    messages = (readback(), write(sub_address, block), readback())
    damages = [draw.pick([UNDAMAGED, UNDAMAGED, drawn_damage(draw, 16 * len(words))]) for words in messages]
    return SureWrite(sub_address, block, tuple(damages))


def bases(draw, first):
    """The bases to choose from. With the fourth one the first block just fits, if it does with any, and with the next
    two it just does not, one being odd."""
    fitting = base_of(max(MEMORY - first.sub_address - len(first.block), 0))
    small, middle, odd = base_of(draw.between(1, 8)), base_of(draw.between(9, 99)), base_of(draw.below(99)) + 1
    return [0, small, middle, fitting, fitting + 1, fitting + 2, 510, 512, odd, 0x20000, 0xFFFFFFFE]


def drawn_records(count):
    """So many times a prepared card, and sure writes with it."""
    draw = Draw(3)
    records = []
    for number in range(count):
        first = drawn_write(draw)
        choices = bases(draw, first)
        # There are 11 bases and 32 module values, so in turn each base meets other values.
        write_base = choices[number % len(choices)]
        records += [Prepare(number % 32, write_base, draw.pick(choices)), first]
        # Few sure writes with a base where almost none is inside the memory.
        mostly_inside = write_base < 256 and not is_odd(write_base)
        records += [drawn_write(draw) for _ in range(13 if mostly_inside else 2)]
    return records


@lru_cache(maxsize=None)
def all_records():
    return listed_records() + drawn_records(64)
