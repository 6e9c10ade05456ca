"""What `ports` says to its records: which of them are refused, and which make a message, is known from the records
alone; the card then answers message by message."""

from typing import NamedTuple

from .call_answers import ARGUMENT, CLOSED, OPEN, RECORD, refusal
from .ports_card import Span, module_set, power_up, released, words_sent
from .ports_records import KINDS_OF_A_PORT, PORTS
from .trace_records import MEMORY_WORDS, MODULE, MOST_LEFT, RECORD_BYTES, RELEASE, SELECT, WORD, parts, record_of

MOST_MODULE = 31


class Call(NamedTuple):
    operation: int
    port: int
    value: int
    word: int


class Play(NamedTuple):
    """A trace that was played: its calls, for each its refusal number or 0, its messages, and the card before each
    record and after the last one."""

    calls: list
    numbers: list
    spans: list
    moments: list


def call_of(part):
    """The call that a record makes, or None where it is unfinished, or of an unknown kind."""
    if len(part) < RECORD_BYTES:
        return None
    kind, value, word = record_of(part)
    port, operation = divmod(kind, KINDS_OF_A_PORT)
    if operation in (SELECT, WORD, RELEASE) or kind == MODULE:
        return Call(operation, port, value, word)
    return None


def faults(selected, call):
    """What a call may be refused for, and whether it is. selected has the ports with an open message, be it live or
    not. No message can be open, or lacking, at a port that is not there."""
    no_port = call.port not in PORTS
    is_open = call.port in selected
    closed = not is_open and not no_port
    return {
        SELECT: {OPEN: is_open, ARGUMENT: no_port},
        WORD: {CLOSED: closed, ARGUMENT: no_port},
        RELEASE: {CLOSED: closed, ARGUMENT: no_port or call.value > MOST_LEFT},
        MODULE: {OPEN: bool(selected), ARGUMENT: call.value > MOST_MODULE},
    }[call.operation]


def added(span, at, call):
    """The message with a word, or with its release."""
    if call.operation == RELEASE:
        return span._replace(release=at, left=call.value)
    return span._replace(words=(*span.words, call.word), places=(*span.places, at))


def sorted_out(calls):
    """The refusal number of each call, or 0, and the messages; those that stay open come last."""
    selected, numbers, ended = {}, [], []
    for at, call in enumerate(calls):
        number = RECORD if call is None else refusal(faults({*selected}, call))
        numbers.append(number)
        if number or call.operation == MODULE:
            continue
        if call.operation == SELECT:
            selected[call.port] = Span(call.port, at)
        else:
            selected[call.port] = added(selected[call.port], at, call)
        if call.operation == RELEASE:
            ended.append(selected.pop(call.port))
    return numbers, [*ended, *selected.values()]


def moments_of(calls, numbers, spans):
    """The card before each record and after the last one. Only releases and module records change it."""
    ended = {span.release: span for span in spans}
    moments = [power_up(MEMORY_WORDS)]
    for at, (call, number) in enumerate(zip(calls, numbers)):
        now = moments[-1]
        if at in ended:
            now = released(moments, ended[at])
        elif not number and call.operation == MODULE:
            now = module_set(now, call.value)
        moments.append(now)
    return moments


def play(records):
    calls = [call_of(part) for part in parts(records)]
    numbers, spans = sorted_out(calls)
    return Play(calls, numbers, spans, moments_of(calls, numbers, spans))


# The lines.

def letter(operation, port):
    letters = {SELECT: "S", WORD: "W", RELEASE: "R", MODULE: "M"}[operation]
    return letters.lower() if port else letters


def what_is_sent(played):
    """For the place of each word, the word sent back."""
    sent = {}
    for span in played.spans:
        sent.update(zip(span.places, words_sent(played.moments, span)))
    return sent


def line(played, sent, at):
    """The line of the record at this place."""
    if played.numbers[at]:
        return f"E {played.numbers[at]}"
    operation, port, _, word = played.calls[at]
    if operation == WORD:
        return f"{letter(operation, port)} {word:04X} {sent[at]:04X}"
    if operation == RELEASE:
        return "{} {}{}{}".format(letter(operation, port), *played.moments[at + 1].ports[port].status)
    return letter(operation, port)


def all_lines(played, sent, line_of):
    """A line for each record, and one for the time."""
    lines = [line_of(played, sent, at) for at in range(len(played.calls))]
    return [*lines, f"T {played.moments[-1].card.time:016X}"]


def lines_of(played):
    return all_lines(played, what_is_sent(played), line)


def text_of(lines):
    return "".join(line + "\n" for line in lines)


def output(records):
    """The whole output of the program for these input bytes."""
    return text_of(lines_of(play(records)))
