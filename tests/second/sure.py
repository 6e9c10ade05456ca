"""The sure write with damage: the controller's side, the line, and what `sure_writes` says to its stored records."""

from functools import lru_cache
from itertools import product
from typing import NamedTuple

from .addresses import is_odd, word_address
from .card import CLEAN, Card, whole_message, with_module
from .checks import crc16, number, word_bits
from .sure_records import CALM, CUT, FLIPPED, MEMORY, UNDAMAGED, UNSEEN, Prepare, all_records, packed
from .tokens import read_command, read_response
from .trace_records import config_read, config_write, readback, write

DONE, UNSURE, PREPARED = "D", "U", "P"


class End(NamedTuple):
    """What a record led to: the verdict, the card and memory after it, whether the first READBACK passed though the
    card had refused it, and whether the card took the message between the READBACKs."""

    verdict: str
    card: Card
    memory: list
    refused: bool = False
    taken: bool = False


# The line.

def words_of(line):
    return [number(line[start:start + 16]) for start in range(0, len(line) // 16 * 16, 16)]


def flipped(line, place):
    return [bit ^ (place == at) for at, bit in enumerate(line)]


def heard(card, memory, line):
    """What the card sends for a line, a bit for each bit, and the card and memory after it."""
    words = words_of(line)
    sent, card, memory = whole_message(card, words, len(line) % 16, [memory] * (len(words) + 1))
    return word_bits(sent)[:len(line)], card, memory


def crossed(card, memory, words, damage):
    """The words that the controller reads for those that it sent, and the card and memory after them."""
    kind, fill, there, back = damage
    line, got = word_bits(words), []
    if kind == CUT:
        got, card, memory = heard(card, memory, line[:there])
    elif kind != UNSEEN:  # FLIPPED, and every number that is no kind
        got, card, memory = heard(card, memory, flipped(line, there))
        got = flipped(got, back)
    return words_of(got + [int(fill == 1)] * (len(line) - len(got))), card, memory


def harmless(bit_count, damage):
    """Whether a damage leaves a message of so many bits as it is."""
    kind, _, there, back = damage
    return kind != UNSEEN and there >= bit_count and (kind == CUT or back >= bit_count)


class Line:
    """The line with the damages to come, one for each message; those behind the last damage are undamaged."""

    def __init__(self, damages):
        self.damages = iter(damages)
        self.carried = []  # for each message sent, its number of bits and its damage

    def cross(self, card, memory, words):
        damage = next(self.damages, UNDAMAGED)
        self.carried.append((16 * len(words), damage))
        return crossed(card, memory, words, damage)


# The controller.

def read_back(words):
    """The status bits and the payload of a good answer to READBACK, else None."""
    fields = read_response(*words[:2])
    if fields is None or crc16(words[2:4]) != words[4]:
        return None
    return fields[1:4], tuple(words[2:4])


def between_readbacks(line, card, memory, message):
    """How READBACK, the message and READBACK end."""
    words, card, memory = line.cross(card, memory, readback())
    first = read_back(words)
    if first is None or read_command(*first[1]) is None:
        return End(UNSURE, card, memory)
    refused = card.status != CLEAN
    token = tuple(message[:2])
    _, card, memory = line.cross(card, memory, message)
    # Clean with this token only by taking the message: before it the READBACK's was the last, or the status not clean.
    taken = (card.status, card.last_token) == (CLEAN, token)
    words, card, memory = line.cross(card, memory, readback())
    done = read_back(words) == (CLEAN, token)
    return End(DONE if done else UNSURE, card, memory, refused, taken)


def sure_write(card, memory, record):
    return between_readbacks(Line(record.damages), card, memory, write(record.sub_address, record.block))


def prepare(card, memory, record):
    card = with_module(card, record.module)
    for message in (config_write(record.write_base), config_read(record.read_base)):
        _, card, memory = crossed(card, memory, message, UNDAMAGED)
    return End(PREPARED, card, memory)


# The stored records, all with one card.

@lru_cache(maxsize=None)
def plays():
    """For each record: the record, the card and memory before it, and its end."""
    card, memory = Card(MEMORY), [0] * MEMORY
    found = []
    for record in all_records():
        end = (prepare if isinstance(record, Prepare) else sure_write)(card, memory, record)
        found.append((record, card, memory, end))
        card, memory = end.card, end.memory
    return found


def stdin():
    return len(all_records()), b"".join(packed(record) for record in all_records())


def line(end):
    return PREPARED if end.verdict == PREPARED else f"{end.verdict} {crc16(end.memory):04x}"


def stdout():
    lines = [line(end) + "\n" for *_, end in plays()]
    return len(lines), "".join(lines).encode()


# The test of what the verdicts mean.

def test_prepared(record, memory, end):
    card = end.card
    found = Prepare(card.stf << 4 | card.module_state, card.write_base, card.read_base)
    if found != record or end.memory != memory:
        raise AssertionError(f"{record} prepares a card with {found}")


def test_verdict(record, card, memory, end):
    """Demand 3, and that an undamaged sure write of a block inside the memory is Done. With an odd write base no block
    is inside: it is never Done, and the memory is old."""
    start = word_address(card.write_base, record.sub_address)
    behind = start + len(record.block)
    inside = behind <= MEMORY and not is_odd(card.write_base)
    written = inside and end.memory == [*memory[:start], *record.block, *memory[behind:]]
    if not written and (end.verdict == DONE or end.memory != memory):
        raise AssertionError(f"{end.verdict} is not true: {record} with {card}")
    if inside and record.damages == CALM and end.verdict != DONE:
        raise AssertionError(f"undamaged and inside, but not Done: {record} with {card}")


def how_prepared(card):
    """Whether none, some or all of the numbers that a record prepares differ from power-up."""
    numbers = (card.write_base, card.read_base, card.stf, card.module_state)
    return "all" if all(numbers) else "some" if any(numbers) else "none"


def test_every_end(found):
    """Each verdict with a memory that changed and one that did not, on a card as at power-up and one prepared whole."""
    ends = [*product((DONE, UNSURE), (False,), (True, False)), (UNSURE, True, False)]
    wanted = {(how, *end) for how, end in product(("none", "all"), ends)}
    if not wanted <= found:
        raise AssertionError(f"no sure write with these ends: {sorted(wanted - found)}")


def lone_damage(record):
    """Which message of a sure write is damaged, and how, where one is; CALM where none is, and None for several."""
    found = [(at, min(damage[0], FLIPPED)) for at, damage in enumerate(record.damages) if damage != UNDAMAGED]
    return CALM if not found else found[0] if len(found) == 1 else None


def test_odd_bases(found):
    """With an odd write base, nothing damaged and each message alone in each way."""
    wanted = {CALM, *product(range(3), (UNSEEN, CUT, FLIPPED))}
    if not wanted <= found:
        raise AssertionError(f"no sure write with an odd base and these damages: {wanted - found}")


def self_test():
    """Raises AssertionError where a verdict does not mean what it has to, or one of the ends or damages is missing."""
    found, with_odd = set(), set()
    for record, card, memory, end in plays():
        if isinstance(record, Prepare):
            test_prepared(record, memory, end)
        else:
            test_verdict(record, card, memory, end)
            found.add((how_prepared(card), end.verdict, end.refused, end.memory != memory))
            if is_odd(card.write_base):
                with_odd.add(lone_damage(record))
    test_every_end(found)
    test_odd_bases(with_odd)
