"""Drawn messages of `trace_apart`, most of them READs, with drawn tellings; the device writes between the calls."""

from .addresses import word_address
from .apart_records import PART, take, tell
from .card import join
from .draw import Draw
from .tokens import CONFIG_READ, RESET, read_command
from .trace_drawn import MESSAGES, drawn_read, mostly_whole, weighted
from .trace_records import MEMORY_WORDS, record, release, reset, select, sent

DRAWN = 480
SEED = 40000

REFUSED = (tell(PART), take(0x4EC1, PART), tell(0x80), record(0), record(6))
REFUSED_INSIDE = (*REFUSED, select(), release(16), release(255))
REFUSED_OUTSIDE = (*REFUSED, tell(), take(0x4EC1), release(), release(3))


def fields(message):
    """Code, length and sub-address of a whole message; one without words has none, and reads nothing."""
    return read_command(*message[:2]) if message else (None, 0, 0)


def base_after(base, message):
    """The read base after a message that is accepted."""
    code, *_ = fields(message)
    return join(message[2:4]) if code == CONFIG_READ else 0 if code == RESET else base


def tellings(draw):
    return [tell()] * draw.pick((0, 0, 1, 1, 1, 2, 2, 3))


def calls(draw, message, left):
    """The calls of a message from the first word on, each with the number of words taken before it."""
    for number, word in enumerate(message):
        for call in (*tellings(draw), take(word)):
            yield number, call
    for call in (*tellings(draw), release(left)):
        yield len(message), call


def between(draw, device, place, refused):
    """What comes between two calls: often the device writes, mostly at this place, and seldom a call is refused."""
    near = draw.pick((place, place, place, place + draw.between(-2, 4), draw.below(MEMORY_WORDS)))
    written = b"" if draw.below(3) else device.write(near % MEMORY_WORDS)
    return written + (b"" if draw.below(25) else draw.pick(refused))


def played(draw, device, place, message, left):
    """A message, whose word 3 may be read from this place."""
    records = between(draw, device, place, REFUSED_OUTSIDE) + select()
    for number, call in calls(draw, message, left):
        records += between(draw, device, place + max(number - 2, 0), REFUSED_INSIDE) + call
    return records


def drawn_messages(draw, number, make):
    """So many messages that make draws, mostly whole: the place from which word 3 may be read, the words, and the
    number of left-over bits."""
    base = 0
    for _ in range(number):
        whole = make(draw)
        message, left = mostly_whole(draw, whole)
        *_, sub_address = fields(whole)
        yield word_address(base, sub_address), message, left
        if (message, left) == (whole, 0):
            base = base_after(base, whole)


def any_message(draw):
    return draw.pick((drawn_read, weighted(draw, MESSAGES)))(draw)


def drawn_records(device):
    draw = Draw(SEED)
    records = sent(reset()) + device.fill(0, MEMORY_WORDS)
    for place, message, left in drawn_messages(draw, DRAWN, any_message):
        records += played(draw, device, place, message, left)
    return records
