"""The trace program of document 01, section "Trace program", and its stored traces."""

import re
from functools import lru_cache
from pathlib import Path

from . import example, pins
from .call_answers import ARGUMENT, CLOSED, OPEN, RECORD
from .card import Card, exchanged, whole_message, with_module
from .trace_drawn import TRACES, drawn_traces
from .trace_listed import (
    damaged_writes, dropped_writes, first_failing_step, listed_traces, most_words, odd_configs, port_commands,
    readbacks, short_messages,
)
from .trace_records import (
    MEMORY_WORDS, MODULE, MOST_LEFT, RECORD_BYTES, RELEASE, SELECT, WORD, Record, parts, record_of,
)

EXAMPLES = Path(__file__).resolve().parents[2] / "examples"
MOST_MODULE = 31
MOST_AT_PINS = 20_000

# The kind of a record that is unfinished, or whose kind is unknown.
NO_KIND = 0

# Open and Closed come before Argument. A release inside and a module record outside are refused only above a limit.
REFUSED_INSIDE = {SELECT: OPEN, MODULE: OPEN, RELEASE: ARGUMENT, NO_KIND: RECORD}
REFUSED_OUTSIDE = {WORD: CLOSED, RELEASE: CLOSED, MODULE: ARGUMENT, NO_KIND: RECORD}


def known_record(part):
    """The record of these bytes, or one without a kind."""
    if len(part) < RECORD_BYTES or part[0] not in (SELECT, WORD, RELEASE, MODULE):
        return Record(NO_KIND)
    return record_of(part)


def ends_message(record):
    return record.kind == RELEASE and record.value <= MOST_LEFT


def groups(records):
    """The records of each message from its select on together, and each record outside a message alone."""
    found, inside = [], False
    for record in records:
        if inside:
            found[-1].append(record)
            inside = not ends_message(record)
        else:
            found.append([record])
            inside = record.kind == SELECT
    return found


def inside_lines(records, sent):
    """The lines of the records between select and release."""
    answers = iter(sent)
    for kind, _, word in records:
        if kind == WORD:
            yield f"W {word:04X} {next(answers):04X}"
        else:
            yield f"E {REFUSED_INSIDE[kind]}"


def message_lines(card, memory, records):
    """The lines of a message, and the card and memory after it."""
    _, *inside = records
    words = [record.word for record in inside if record.kind == WORD]
    # No record changes the memory inside a message, so it is the same in every call.
    if not ends_message(records[-1]):
        sent, _ = exchanged(card, words, [memory] * len(words))
        return ["S", *inside_lines(inside, sent)], card, memory
    *inside, release = inside
    sent, card, memory = whole_message(card, words, release.value, [memory] * (len(words) + 1))
    return ["S", *inside_lines(inside, sent), "R {}{}{}".format(*card.status)], card, memory


def outside_line(card, record):
    """The line of a record outside a message, and the card after it."""
    if record.kind == MODULE and record.value <= MOST_MODULE:
        return "M", with_module(card, record.value)
    return f"E {REFUSED_OUTSIDE[record.kind]}", card


def replay(records):
    """The whole output of the trace program for these input bytes."""
    card, memory, lines = Card(MEMORY_WORDS), [0] * MEMORY_WORDS, []
    for group in groups(map(known_record, parts(records))):
        if group[0].kind == SELECT:
            added, card, memory = message_lines(card, memory, group)
            lines += added
        else:
            line, card = outside_line(card, group[0])
            lines.append(line)
    return "".join(line + "\n" for line in [*lines, f"T {card.time:016X}"])


# The stored files; each maker gives the number of records, lines or traces, and the content.

def example_stdin():
    return len(example.RECORDS) // RECORD_BYTES, example.RECORDS


def example_stdout():
    return example.OUTPUT.count("\n"), example.OUTPUT.encode()


def whole_words():
    """The example, and messages of every shape. Of kinds 1 to 3 only: `trace` answers them as `trace_pins` does."""
    makers = (short_messages, readbacks, dropped_writes, damaged_writes, first_failing_step, most_words, odd_configs)
    return b"".join([example.RECORDS, *(make() for make in makers)])


def pins_stdin():
    """Whole words with up to 15 left-over bits, and then words in pieces, in whose midst the device writes."""
    records = whole_words() + b"".join(pins.all_records())
    return len(records) // RECORD_BYTES, records


def pins_stdout():
    output = pins.output(pins_stdin()[1])
    return output.count("\n"), output.encode()


@lru_cache(maxsize=None)
def all_traces():
    # The last ones stand behind the drawn ones, so that those keep their places.
    return listed_traces() + drawn_traces() + port_commands()


@lru_cache(maxsize=None)
def all_outputs():
    return [replay(records) for records in all_traces()]


def vectors_stdin():
    parts = [len(records).to_bytes(4, "big") + records for records in all_traces()]
    return len(parts), b"".join(parts)


def vectors_stdout():
    parts = [f"# {number}\n{output}" for number, output in enumerate(all_outputs(), 1)]
    return len(parts), "".join(parts).encode()


def shown(name):
    """The output for an example's records, which its file has as hex digits with comments."""
    text = (EXAMPLES / f"{name}.hex").read_text()
    output = replay(bytes.fromhex(re.sub("#.*", "", text)))
    return output.count("\n"), output.encode()


def test_pins():
    """Bit by bit, whole words give the same lines."""
    if pins.output(whole_words()) != replay(whole_words()):
        raise AssertionError("another output at the pins")
    if pins_stdin()[0] > MOST_AT_PINS:
        raise AssertionError(f"{pins_stdin()[0]} records at the pins")


def self_test():
    """Raises AssertionError where the example differs, or the pins do, or a drawn line is missing."""
    if replay(example.RECORDS) != example.OUTPUT:
        raise AssertionError("the example of document 01 gives another output")
    test_pins()
    first = len(listed_traces())
    drawn = all_outputs()[first:first + TRACES]
    lines = {line for output in drawn for line in output.splitlines() if line[0] in "RE"}
    wanted = {"R 000", "R 100", "R 010", "R 001", "R 101", "E 3", "E 4", "E 5", "E 9"}
    if lines != wanted:
        raise AssertionError(f"only wanted, or only drawn: {sorted(lines ^ wanted)}")
