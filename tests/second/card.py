"""The card of document 01, section "The card", with the byte addresses of request 2 and the pair of request 3: a
message's words are kept as they came in and as they were told, and judged together at release."""

from functools import lru_cache
from typing import NamedTuple

from .addresses import is_odd, word_address
from .checks import crc16
from .tokens import (
    CONFIG_READ, CONFIG_WRITE, READ, READBACK, RESET, ROWS, SYNCH, TICK, WRITE,
    command_token, command_wrong, field, read_command, response_token,
)

# The status bits in the order ME, AR, IC.
CLEAN, ME, AR, IC = (0, 0, 0), (1, 0, 0), (0, 1, 0), (0, 0, 1)

CHECKED = (SYNCH, WRITE, CONFIG_WRITE, CONFIG_READ)


class Card(NamedTuple):
    """The card between two messages; Card(size) is the card at power-up."""

    size: int
    time: int = 0
    write_base: int = 0
    read_base: int = 0
    status: tuple = CLEAN
    stf: int = 0
    module_state: int = 0
    last_token: tuple = command_token(RESET, 0, 0)


def with_module(card, value):
    """The card after the module call: bit 4 of the value is STF, bits 3-0 are the module state."""
    return card._replace(stf=field(value, 4, 4), module_state=field(value, 3, 0))


class Message(NamedTuple):
    """An open message; Message() is the one at select."""

    words: tuple = ()  # all whole words that came
    told: tuple = ()  # the word told for each of them
    note: int = None  # the word told for the next one, None where none is told


# Request 3 (document 02): the next word out, apart from the word in.

def tell(card, message, memory):
    """The next word out, and the message with the note of it; an earlier telling no longer counts."""
    word = next_word(card, message, memory)
    return word, message._replace(note=word)


def take(card, message, word, memory):
    """The message with the word that came in, and without a note."""
    if message.note is None:
        _, message = tell(card, message, memory)  # it counts as told just before
    return Message((*message.words, word), (*message.told, message.note))


def release(card, message, left, memory):
    """The card and the memory after the message; the card has the status bits that it set. left is the number of
    left-over bits."""
    words = message.words
    if not words and not left:
        return card, memory
    status = judge(card, words, left)
    if status != CLEAN:
        return card._replace(status=status), memory
    return card_after(card, words), memory_after(card, words, memory)


# The exchange in one call: tell, then take, on one memory.

def exchanged(card, words, memories):
    """The words sent for these, and the message after them. memories has the memory in the call of each word."""
    message, sent = Message(), []
    for word, memory in zip(words, memories):
        told, message = tell(card, message, memory)
        message = take(card, message, word, memory)
        sent.append(told)
    return sent, message


def whole_message(card, words, left, memories):
    """The words sent in a message, and the card and the memory after it.

    memories has the memory in the call of each word and, last, at release. A word is sent for each of them, one more
    than came: the first bits of the last one go out while the left-over bits come in.
    """
    memory = memories[-1]
    sent, message = exchanged(card, words, memories)
    last, message = tell(card, message, memory)
    return [*sent, last], *release(card, message, left, memory)


# Judgement, steps 1 to 5. Each gives the status bits that it sets, or CLEAN, and is asked where those before it passed.

def good_token(card, words, left):
    """Step 1."""
    prefix, spare, check = command_wrong(*words[:2])
    return int(check), 0, int(prefix or spare)


def as_row_asks(card, words, left):
    """Step 2."""
    code, length, sub_address = command(words)
    if code not in ROWS:
        return IC
    least, most, last = ROWS[code]
    if not least <= length <= most:
        return IC
    if sub_address > last:
        return AR if code == TICK else IC
    return CLEAN


def inside_memory(card, words, left):
    """Step 3."""
    code, length, _ = command(words)
    if code not in (WRITE, READ):
        return CLEAN
    return AR if is_odd(base(card, words)) or start(card, words) + length > card.size else CLEAN


def whole_words(card, words, left):
    """Step 4."""
    _, length, _ = command(words)
    wanted = length + 3 if length else 2
    return CLEAN if len(words) == wanted and not left else ME


def good_payload(card, words, left):
    """Step 5."""
    code, length, _ = command(words)
    if code not in CHECKED or not length:
        return CLEAN
    *payload, check = words[2:]
    return CLEAN if crc16(payload) == check else ME


TOKEN_STEPS = (good_token, as_row_asks, inside_memory)
STEPS = (*TOKEN_STEPS, whole_words, good_payload)


def first_failing(steps, card, words, left):
    """The status bits of the first failing step, CLEAN where all pass."""
    for step in steps:
        status = step(card, words, left)
        if status != CLEAN:
            return status
    return CLEAN


def judge(card, words, left):
    """The status bits that a message of at least one bit sets, CLEAN where it is accepted."""
    if len(words) < 2:
        return ME  # there is no whole token: step 4 alone
    return first_failing(STEPS, card, words, left)


# Parts of a message whose token is good.

def command(words):
    return read_command(*words[:2])


def base(card, words):
    """The base of READ or WRITE, in bytes."""
    code, *_ = command(words)
    return card.read_base if code == READ else card.write_base


def start(card, words):
    """Where the words of READ or WRITE begin in the memory."""
    *_, sub_address = command(words)
    return word_address(base(card, words), sub_address)


# Words sent.

def next_word(card, message, memory):
    """The word sent while the next one comes in. Words 1 and 2 depend on no word that came, those behind them on the
    first two. READ's are in this memory, and its check is over the words told; READBACK's check is over the token."""
    words = message.words
    if len(words) < 2:
        return response_token(card.stf, *card.status, card.module_state)[len(words)]
    code, length, place = answering(card, words[:2])
    number = len(words) - 2
    if code is None or number > length:
        return 0
    if number == length:
        # READ of length 0 has no check word; the CRC-16 of nothing is the 0x0000 that stands there.
        return crc16(message.told[2:] if code == READ else card.last_token)
    return memory[place + number] if code == READ else card.last_token[number]


@lru_cache(maxsize=1)  # the same for every word of a message
def answering(card, token):
    """Code, length and place of a READ or READBACK whose token passes steps 1 to 3; all other tokens have no code."""
    if first_failing(TOKEN_STEPS, card, token, 0) == CLEAN:
        code, length, _ = command(token)
        if code in (READ, READBACK):
            return code, length, start(card, token)
    return None, 0, 0


# Step 6: what an accepted message does.

def join(words):
    """The words as one number, first word highest."""
    return sum(word << 16 * place for place, word in enumerate(reversed(words)))


def effect(card, code, sub_address, payload):
    """What a command changes in the card beside status and last token."""
    if code == RESET:
        return {"write_base": 0, "read_base": 0}
    if code == SYNCH:
        return {"time": join(payload)}
    if code == TICK:
        return {"time": (card.time + 2 ** sub_address) % 2 ** 64}
    if code == CONFIG_WRITE:
        return {"write_base": join(payload)}
    if code == CONFIG_READ:
        return {"read_base": join(payload)}
    return {}


def card_after(card, words):
    code, length, sub_address = command(words)
    changes = effect(card, code, sub_address, words[2:2 + length])
    return card._replace(status=CLEAN, last_token=tuple(words[:2]), **changes)


def memory_after(card, words, memory):
    code, length, _ = command(words)
    if code != WRITE:
        return memory
    place = start(card, words)
    return [*memory[:place], *words[2:2 + length], *memory[place + length:]]
