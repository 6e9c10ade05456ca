"""The program `trace_apart`: the card's next word told apart from the word taken, by request 3 (document 02), and its
stored records."""

from functools import lru_cache
from itertools import product
from typing import NamedTuple

from . import apart_records, example
from .apart_drawn import drawn_records
from .apart_listed import listed_records
from .apart_records import PUT, TELL, Device
from .bench import answered, common_faults, released, selected, written
from .call_answers import CLOSED, SIZE
from .card import take, tell
from .known import agree
from .trace_records import RELEASE, SELECT, WORD, parts

LEAST_DRAWN, MOST_RECORDS = 400, 40_000

# The lines of the drawn records, without their words, and whether a word is told after them. Outside a message, where
# Closed is given, none ever is.
WANTED = {
    *product(("S", "W", "R 000", "R 100", "R 010", "R 001", "R 101", "E 4"), (False,)),
    *product(("P", "E 1", "E 3", "E 5", "E 9"), (False, True)),
    ("N", True),
}


class Step(NamedTuple):
    """A record's bytes, its line without the note, and the note after it."""

    part: bytes
    line: str
    note: str


def lent(bench, record):
    """What tell and take are lent: with a value, a word less than the memory has."""
    return bench.memory[:-1] if record.value else bench.memory


# What a record does that is not refused: its line, and the bench after it.

def taken(bench, record):
    message = take(bench.card, bench.message, record.word, lent(bench, record))
    return f"W {record.word:04X}", bench._replace(message=message)


def told(bench, record):
    word, message = tell(bench.card, bench.message, lent(bench, record))
    return f"N {word:04X}", bench._replace(message=message)


KINDS = {SELECT: selected, WORD: taken, RELEASE: released, TELL: told, PUT: written}


def faults(bench, record):
    lending = {SIZE: len(lent(bench, record)) != bench.card.size, CLOSED: bench.message is None}
    return {**common_faults(bench, record), WORD: lending, TELL: lending}


def noted(bench):
    return "-" if bench.message is None or bench.message.note is None else f"{bench.message.note:04X}"


def play(records):
    """The step of each record, and the time in the end."""
    steps = []
    for part, line, bench in answered(records, KINDS, faults):
        steps.append(Step(part, line, noted(bench)))
    return steps, bench.card.time


# The stored files.

@lru_cache(maxsize=None)
def all_records():
    device = Device()  # one for all, so that its words differ in all of them
    return listed_records(device), drawn_records(device)


def stdin():
    records = b"".join(all_records())
    return len(parts(records)), records


@lru_cache(maxsize=None)
def whole_play():
    return play(stdin()[1])


def stdout():
    steps, time = whole_play()
    lines = [*(f"{step.line} {step.note}\n" for step in steps), f"T {time:016X}\n"]
    return len(lines), "".join(lines).encode()


# The test of what request 3 says, and that nothing is missing. The first three say of a step, by its place, that the
# others say the same without it.

def refused(steps, at):
    """A refused call leaves the state as given, the note too."""
    return steps[at].line[0] == "E"


def told_just_before(steps, at):
    """A word taken without one told counts as told just before: the only telling, with the take next to it."""
    first = at == 0 or steps[at - 1].note == "-"
    return first and steps[at].line[0] == "N" and steps[at + 1].line[0] == "W"


def told_again(steps, at):
    """Of two tellings the second counts."""
    following = (steps[place].line[0] for place in range(at + 1, len(steps)))
    return steps[at].line[0] == "N" and next(letter for letter in following if letter in "NWR") == "N"


def test_without(needless):
    steps, time = whole_play()
    kept = [step for at, step in enumerate(steps) if not needless(steps, at)]
    played, time_played = play(b"".join(step.part for step in kept))
    # Only the lines: between two tellings the notes differ.
    if len(kept) == len(steps) or time_played != time or [step.line for step in played] != [step.line for step in kept]:
        raise AssertionError(f"needless, but not the same without: {needless.__doc__}")


def test_example():
    """Document 01's example by the pair: the words told are those that it answers."""
    records = b"".join((apart_records.tell() if part[0] == WORD else b"") + part for part in parts(example.RECORDS))
    told_words = [step.line[-4:] for step in play(records)[0] if step.line[0] == "N"]
    answered = [line[-4:] for line in example.OUTPUT.splitlines() if line[0] == "W"]
    agree("words told in the example", told_words, answered)


def kind_of(step):
    return step.line if step.line[0] in "RE" else step.line[0], step.note != "-"


def test_drawn():
    """Every line occurs with the drawn records, with and without a word told."""
    steps, _ = whole_play()
    drawn = steps[len(parts(all_records()[0])):]
    found = {kind_of(step) for step in drawn}
    if found != WANTED:
        raise AssertionError(f"only wanted, or only drawn: {sorted(found ^ WANTED)}")
    messages = [step.line[0] for step in drawn].count("R")
    if messages < LEAST_DRAWN or len(steps) > MOST_RECORDS:
        raise AssertionError(f"{messages} drawn messages, {len(steps)} records")


def self_test():
    """Raises AssertionError where a sentence of request 3 is not met, the example differs, or something is missing."""
    for needless in (refused, told_just_before, told_again):
        test_without(needless)
    test_example()
    test_drawn()
