"""A card with its memory, to which the records of a program go one by one: what `trace_apart` and `trace_pins` have in
common."""

from typing import NamedTuple

from .apart_records import PUT
from .call_answers import ARGUMENT, CLOSED, OPEN, RECORD, refusal
from .card import Card, Message, release
from .trace_records import MEMORY_WORDS, MOST_LEFT, RELEASE, SELECT, parts, record_of


class Bench(NamedTuple):
    """The card with its memory; the message is None where none is open."""

    card: Card
    memory: list
    message: Message = None
    came: tuple = ()  # the bits of a word that is unfinished at the pins


# What a record does that is not refused: its line, and the bench after it.

def selected(bench, record):
    return "S", bench._replace(message=Message(), came=())


def released(bench, record):
    card, memory = release(bench.card, bench.message, record.value, bench.memory)
    return "R {}{}{}".format(*card.status), bench._replace(card=card, memory=memory, message=None)


def written(bench, record):
    memory = list(bench.memory)
    memory[record.value] = record.word
    return f"P {record.word:04X}", bench._replace(memory=memory)


def common_faults(bench, record):
    """For these kinds, what a record may be refused for, and whether it is. No card here has a state out of its
    range."""
    closed = bench.message is None
    return {
        SELECT: {OPEN: not closed},
        RELEASE: {CLOSED: closed, ARGUMENT: record.value > MOST_LEFT},
        PUT: {},
    }


def answered(records, kinds, faults):
    """The bytes of each record, its line, and the bench after it, from power-up on. kinds has what a record of each
    kind does, and faults says for each kind what the record may be refused for."""
    bench = Bench(Card(MEMORY_WORDS), [0] * MEMORY_WORDS)
    for part in parts(records):
        record = record_of(part)
        number = refusal(faults(bench, record)[record.kind]) if record.kind in kinds else RECORD
        line, bench = (f"E {number}", bench) if number else kinds[record.kind](bench, record)
        yield part, line, bench
