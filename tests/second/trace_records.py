"""Records of the trace program, and the messages that they carry."""

from typing import NamedTuple

from .checks import crc16
from .tokens import (
    ACTIVATE, CONFIG_READ, CONFIG_WRITE, DEACTIVATE, READ, READBACK, RESET, SYNCH, TICK, WRITE, command_token,
)

SELECT, WORD, RELEASE, MODULE = 1, 2, 3, 4

RECORD_BYTES = 4

# The memory of the trace programs, and the most left-over bits that a release is not refused for.
MEMORY_WORDS = 256
MOST_LEFT = 15


class Record(NamedTuple):
    kind: int
    value: int = 0
    word: int = 0


def parts(records):
    """The bytes of each record, fewer than four where the last one is unfinished."""
    return [records[start:start + RECORD_BYTES] for start in range(0, len(records), RECORD_BYTES)]


def record_of(part):
    """The record of these four bytes."""
    kind, value, high, low = part
    return Record(kind, value, high << 8 | low)


def record(kind, value=0, word=0):
    return bytes([kind, value, word >> 8, word & 0xFF])


def select():
    return record(SELECT)


def words(message):
    return b"".join(record(WORD, 0, word) for word in message)


def release(left=0):
    return record(RELEASE, left)


def module(value):
    return record(MODULE, value)


def sent(message, left=0):
    """The records of one whole message."""
    return select() + words(message) + release(left)


def all_sent(*messages):
    return b"".join(sent(message) for message in messages)


# The words of a message.

def with_payload(code, sub_address, payload):
    """A command whose payload and check the controller sends."""
    check = [crc16(payload)] if payload else []
    return [*command_token(code, len(payload), sub_address), *payload, *check]


def with_answer(code, length, sub_address, filler):
    """A command whose payload and check the card sends."""
    places = length + 1 if length else 0
    return [*command_token(code, length, sub_address), *[filler] * places]


def reset():
    return with_payload(RESET, 0, [])


def synch(time):
    return with_payload(SYNCH, 0, [time >> shift & 0xFFFF for shift in (48, 32, 16, 0)])


def tick(index):
    return with_payload(TICK, index, [])


def readback(filler=0):
    return with_answer(READBACK, 2, 0, filler)


def write(sub_address, payload):
    return with_payload(WRITE, sub_address, payload)


def read(length, sub_address, filler=0):
    return with_answer(READ, length, sub_address, filler)


def config_write(base):
    return with_payload(CONFIG_WRITE, 0, [base >> 16, base & 0xFFFF])


def config_read(base):
    return with_payload(CONFIG_READ, 0, [base >> 16, base & 0xFFFF])


def activate():
    return with_payload(ACTIVATE, 0, [])


def deactivate():
    return with_payload(DEACTIVATE, 0, [])
