"""What `ports_at_pins` says to its records. Each port has its own bit shifter: a word is told with its first bit, by
the memory of that record, and counts with its sixteenth. Which bits make a message is known from the records alone; a
bit of a message that is no longer live goes out as 0 and does not count."""

from typing import NamedTuple

from . import ports_play
from .apart_records import PUT
from .bench import written
from .call_answers import RECORD, refusal
from .card import exchanged, tell
from .checks import bits, number, word_bits
from .pins_records import BITS
from .ports_card import Span, card_at_select, is_live, module_set, power_up, released
from .ports_play import Call, call_of
from .ports_records import KINDS_OF_A_PORT
from .trace_records import MEMORY_WORDS, MODULE, RECORD_BYTES, RELEASE, SELECT, WORD, parts, record_of


class Message(NamedTuple):
    """A message at the pins, with the place of the record in which each bit came."""

    port: int
    select: int
    bits: tuple = ()
    places: tuple = ()
    release: int = None  # None where it is still open at the end


class Play(NamedTuple):
    """A trace that was played: its calls, for each its refusal number or 0, its messages in bits and in words, and the
    card before each record and after the last one."""

    calls: list
    numbers: list
    messages: list
    spans: list
    moments: list


def known_call(part):
    """The call that a record makes, or None where its kind is unknown."""
    kind, value, word = record_of(part)
    port, operation = divmod(kind, KINDS_OF_A_PORT)
    if kind == PUT or operation == BITS:
        return Call(operation, port, value, word)
    return call_of(part)


def faults(selected, call):
    """What a call may be refused for, and whether it is. Bits are refused as a word is; where there is none, as with
    the device's writing, nothing is."""
    if call.operation == PUT or call.operation == BITS and not call.value:
        return {}
    return ports_play.faults(selected, call._replace(operation=WORD) if call.operation == BITS else call)


def coming(call):
    """The bits that come in with a record."""
    if call.operation == RELEASE:
        return [0] * call.value
    return bits(call.word, 16)[:{WORD: 16, BITS: call.value}.get(call.operation, 0)]


def with_bits(message, at, more):
    return message._replace(bits=(*message.bits, *more), places=(*message.places, *[at] * len(more)))


def sorted_out(calls):
    """The refusal number of each call, or 0, and the messages; those that stay open come last."""
    selected, numbers, ended = {}, [], []
    for at, call in enumerate(calls):
        numbers.append(RECORD if call is None else refusal(faults({*selected}, call)))
        if numbers[-1]:
            continue
        if call.operation == SELECT:
            selected[call.port] = Message(call.port, at)
        elif call.port in selected:
            selected[call.port] = with_bits(selected[call.port], at, coming(call))
        if call.operation == RELEASE:
            ended.append(selected.pop(call.port)._replace(release=at))
    return numbers, [*ended, *selected.values()]


def in_words(message):
    """The message with its words, each at the place of its first bit; the bits of an unfinished one are left over."""
    left = len(message.bits) % 16
    whole = len(message.bits) - left
    words = tuple(number(message.bits[start:start + 16]) for start in range(0, whole, 16))
    return Span(message.port, message.select, words, message.places[:whole:16], message.release, left)


def moment_after(moments, call, span):
    """The card after a call that is not refused; span is the message that it ends, if it does."""
    now = moments[-1]
    if span:
        return released(moments, span)
    if call.operation == MODULE:
        return module_set(now, call.value)
    if call.operation == PUT:
        _, now = written(now, call)
    return now


def moments_of(calls, numbers, spans):
    """The card before each record and after the last one."""
    ended = {span.release: span for span in spans}
    moments = [power_up(MEMORY_WORDS)]
    for at, (call, refused) in enumerate(zip(calls, numbers)):
        moments.append(moments[-1] if refused else moment_after(moments, call, ended.get(at)))
    return moments


def play(records):
    """An unfinished last record is none."""
    calls = [known_call(part) for part in parts(records) if len(part) == RECORD_BYTES]
    numbers, messages = sorted_out(calls)
    spans = [in_words(message) for message in messages]
    return Play(calls, numbers, messages, spans, moments_of(calls, numbers, spans))


# What goes out.

def live_bits(moments, message):
    """How many of the message's bits came while it was live."""
    live = {at: is_live(moments, message, at) for at in {*message.places}}
    return [live[at] for at in message.places].count(True)


def bits_sent(moments, message):
    """What goes out while the bits of a message come in: those of the words told, each by the memory with its first
    bit, and zeros once it is not live."""
    live = live_bits(moments, message)
    card = card_at_select(moments, message)
    span = in_words(message._replace(bits=message.bits[:live], places=message.places[:live]))
    memories = [moments[at].memory for at in message.places[:live:16]]  # of each word begun
    sent, after = exchanged(card, span.words, memories)
    if span.left:
        unfinished, _ = tell(card, after, memories[-1])
        sent.append(unfinished)
    return word_bits(sent)[:live] + [0] * (len(message.bits) - live)


def what_is_sent(played):
    """For the place of each record with bits, those sent back meanwhile, as a number."""
    sent = {}
    for message in played.messages:
        for at, bit in zip(message.places, bits_sent(played.moments, message)):
            sent[at] = 2 * sent.get(at, 0) + bit
    return sent


def line(played, sent, at):
    """The line of the record at this place. Kind 6 without a bit has one for a port that is not there, too."""
    call = played.calls[at]
    if played.numbers[at] or call.operation not in (PUT, BITS):
        return ports_play.line(played, sent, at)
    if call.operation == PUT:
        return f"P {call.word:04X}"
    return f"{'b' if call.port == 1 else 'B'} {sent.get(at, 0):04X}"


def lines_of(played):
    return ports_play.all_lines(played, what_is_sent(played), line)


def output(records):
    """The whole output of the program for these input bytes."""
    return ports_play.text_of(lines_of(play(records)))
