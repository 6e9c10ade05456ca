"""The loader of request 1 (document 02), with bases in bytes by request 2, and what `unit` says to its stored units."""

from collections import Counter
from functools import lru_cache
from itertools import product, takewhile
from typing import NamedTuple

from .addresses import base_of
from .card import Card
from .checks import crc16
from .sure import DONE, UNSURE, Line, between_readbacks, harmless
from .sure_records import CUT, FLIPPED, UNSEEN
from .trace_records import config_write, write
from .unit_drawn import drawn_units
from .unit_listed import LENGTHS, listed_units, without_room
from .unit_records import BLOCK, MESSAGES, MOST_CARDS, MOST_WORDS, ROOM, Table, packed

SIZE, ARGUMENT = 1, 5
BASE, WORDS = "base", "block"
LEAST_LOADS, MOST_BYTES = 200, 400_000


class Went(NamedTuple):
    """How the load of one card went."""

    stopped: tuple  # the place and the length of the block where it stopped, None where it is Loaded
    ends: list  # of its base settings and blocks in turn, as many as it reached
    carried: list  # what the line carried for it
    card: Card
    memory: list


class Play(NamedTuple):
    """A table, the unit's sizes and its cards with their memories before it, and what came of it."""

    table: Table
    sizes: list
    kept: list
    refusal: int  # None where the load is begun
    went: list


# The loader.

def lawful(size):
    return 1 <= size <= MOST_WORDS


def refusal(sizes, words):
    """The number of a refused start, else None."""
    if not all(lawful(size) for size in sizes):
        return SIZE
    if len(sizes) > MOST_CARDS:
        return ARGUMENT
    # Without a card there is no smallest one that the table could be longer than.
    return ARGUMENT if any(len(words) > size for size in sizes) else None


def stages(words):
    """What a load sends between READBACKs: for each block its base and then its words, with its place and length."""
    for place in range(0, len(words), BLOCK):
        block = words[place:place + BLOCK]
        yield place, len(block), config_write(base_of(place))
        yield place, len(block), write(0, block)


def load_card(line, card, memory, words):
    ends = []
    for place, length, message in stages(words):
        end = between_readbacks(line, card, memory, message)
        ends.append(end)
        card, memory = end.card, end.memory
        if end.verdict == UNSURE:
            return Went((place, length), ends, line.carried, card, memory)
    return Went(None, ends, line.carried, card, memory)


def load(kept, table):
    """How the load of each card goes."""
    damages = iter(table.damages)  # the same for all lines: each card's messages take those that the others left
    return [load_card(Line(damages), card, memory, table.words) for card, memory in kept]


# The stored units.

@lru_cache(maxsize=None)
def all_units():
    # The ones without room are last, since nothing is read behind them.
    return listed_units() + drawn_units() + without_room()


def has_room(unit):
    """Too many cards are never loaded, so they need no room."""
    return len(unit.sizes) > MOST_CARDS or sum(size for size in unit.sizes if lawful(size)) <= ROOM


def first_memory(number, size):
    return [(31 * place + 1009 * number + 7) % 65536 for place in range(size)]


def power_up(sizes):
    """The cards with their memories; none where every start is refused."""
    if refusal(sizes, []):
        return []
    return [(Card(size), first_memory(number, size)) for number, size in enumerate(sizes)]


def unit_plays(unit):
    """The unit's tables one after the other, with the same cards."""
    kept = power_up(unit.sizes)
    for table in unit.tables:
        number = refusal(unit.sizes, table.words)
        went = [] if number else load(kept, table)
        yield Play(table, unit.sizes, kept, number, went)
        if not number:
            kept = [(one.card, one.memory) for one in went]


@lru_cache(maxsize=None)
def plays():
    return [play for unit in takewhile(has_room, all_units()) for play in unit_plays(unit)]


def stdin():
    return len(all_units()), b"".join(packed(unit) for unit in all_units())


def answer(went):
    check = f"{crc16(went.memory):04X}"
    return "S {:04X} {:02X} {}".format(*went.stopped, check) if went.stopped else f"L {check}"


def answers(play):
    return [f"E {play.refusal}"] if play.refusal else [answer(went) for went in play.went]


def stdout():
    lines = [line for play in plays() for line in answers(play)]
    if not all(has_room(unit) for unit in all_units()):
        lines.append("X")
    return len(lines), "".join(line + "\n" for line in lines).encode()


# The test of what the answers mean.

def demand(right, what, play):
    # Not an assert statement: python -O would leave it out.
    if not right:
        raise AssertionError(f"{what}: {len(play.table.words)} words into {play.sizes}, damages {play.table.damages}")


def partly(words, count, memory):
    """The memory with so many of the table's words from word 0 on."""
    return [*words[:count], *memory[count:]]


def test_memory(play, before, went):
    """Loaded: the table, then as before. Stopped: the blocks before the named one whole, and that one old or new."""
    words = play.table.words
    place, length = went.stopped or (len(words), 0)
    allowed = [partly(words, count, before) for count in (place, place + length)]
    demand(went.memory in allowed, "a memory that the answer does not allow", play)


def test_verdicts(play, went):
    """Loaded exactly where every base setting and block was Done, else stopped at the block of the first Unsure."""
    count = len(play.table.words)
    *earlier, last = [DONE, *(end.verdict for end in went.ends)]
    demand(earlier.count(DONE) == len(earlier), "not stopped at the first Unsure", play)
    if went.stopped:
        place = (len(went.ends) - 1) // 2 * BLOCK
        right = last == UNSURE and went.stopped == (place, min(BLOCK, count - place))
    else:
        right = last == DONE and len(went.ends) == 2 * -(-count // BLOCK)
    demand(right, "another answer than the verdicts ask for", play)


def test_taken(play, before, went):
    """Where it is stopped, memory and base are those that the card took."""
    place, length = went.stopped
    base_taken, block_taken = (went.ends[-1].taken, False) if stage_of(went) == BASE else (True, went.ends[-1].taken)
    count = place + length if block_taken else place
    demand(went.memory == partly(play.table.words, count, before), "another memory than the one taken", play)
    demand(went.card.write_base == base_of(place) or not base_taken, "another base than the one taken", play)


def test_undamaged(play, went):
    """A card whose messages are undamaged is Loaded, whatever befell it in earlier loads or other cards in this."""
    undamaged = all(harmless(*message) for message in went.carried)
    demand(not (undamaged and went.stopped), "undamaged, but stopped", play)


def test_play(play):
    demand(len(play.went) == (0 if play.refusal else len(play.sizes)), "not an answer for each card", play)
    for (_, before), went in zip(play.kept, play.went):
        test_memory(play, before, went)
        test_verdicts(play, went)
        test_undamaged(play, went)
        if went.stopped:
            test_taken(play, before, went)


# The statistic, and the test that nothing is missing in it.

def stage_of(went):
    """The stage where a load stopped: base settings and blocks take turns."""
    return BASE if len(went.ends) % 2 else WORDS


def kind_of(went):
    if not went.stopped:
        return "Loaded"
    return f"Stopped at {stage_of(went)} {'new' if went.ends[-1].taken else 'old'}"


KINDS = ("Loaded", *(f"Stopped at {stage} {age}" for stage, age in product((BASE, WORDS), ("old", "new"))))


def loads():
    """The plays that are not refused."""
    return [play for play in plays() if not play.refusal]


def all_went():
    return [(play, went) for play in loads() for went in play.went]


def fills(play, went):
    """The length of a table, and whether it fills the memory."""
    count = len(play.table.words)
    return count, count == len(went.memory)


def stopped_by(went):
    """Which of a block's messages stopped the load, and the kind of its damage, where no other message of the stage was
    damaged; else None."""
    first = len(went.ends) * 3 - 3  # every stage before was Done, so it had three messages
    messages = enumerate(went.carried[first:], first)
    found = [(at % MESSAGES, min(damage[0], FLIPPED)) for at, (bits, damage) in messages if not harmless(bits, damage)]
    return found[0] if went.stopped and len(found) == 1 else None


def missing():
    """What should occur and does not."""
    lengths = {*product(LENGTHS, (True, False)), (MOST_WORDS, True)} - {(0, True)}  # no card has a memory of no words
    yield from lengths - {fills(play, went) for play, went in all_went() if not went.stopped}
    yield from set(range(MOST_CARDS + 1)) - {len(play.sizes) for play in loads()}
    yield from {SIZE, ARGUMENT} - {play.refusal for play in plays()}
    yield from {True, False} - {has_room(unit) for unit in all_units()}
    yield from set(KINDS) - {kind_of(went) for _, went in all_went()}
    # The first READBACK passed though the card had refused it.
    yield from {BASE, WORDS} - {stage_of(went) for _, went in all_went() if went.stopped and went.ends[-1].refused}
    yield from set(product(range(MESSAGES), (UNSEEN, CUT, FLIPPED))) - {stopped_by(went) for _, went in all_went()}


def statistic():
    kinds = Counter(kind_of(went) for _, went in all_went())
    refusals = Counter(play.refusal for play in plays())
    carried = [bits for _, went in all_went() for bits, _ in went.carried]
    numbers = [f"{len(loads())} loads", f"{len(all_went())} cards", *(f"{kinds[kind]} {kind}" for kind in KINDS)]
    numbers += [f"{refusals[SIZE]} refused with Size", f"{refusals[ARGUMENT]} refused with Argument"]
    return ", ".join([*numbers, f"{len(carried)} messages", f"{sum(carried)} bits"])


def self_test():
    """Raises AssertionError where an answer does not mean what it has to, or something is missing."""
    for play in plays():
        test_play(play)
    lacking = list(missing())
    if lacking or len(loads()) < LEAST_LOADS or len(stdin()[1]) > MOST_BYTES:
        raise AssertionError(f"{len(loads())} loads in {len(stdin()[1])} bytes, missing: {lacking}")
