"""Listed cases of `ports_at_pins`: words of both ports at once, what the ports share, and the ends of messages. Each
function gives the records of one case, in which the port is the one that the case is about. All messages are
released."""

from itertools import product

from .apart_listed import PLACE
from .checks import word_bits
from .pins_listed import ABOVE, CHECKED_BY_8000, CUTS, UNFINISHED, reads
from .pins_records import always, clock, cut
from .ports_pins_records import (
    at_pins, bit_by_bit, both_kept, clocked, ended, in_pieces, inside_bits, inside_words, kept, opened, woven_from,
)
from .ports_records import on, other, sent_on, woven
from .ports_switched import FILLER, all_shown, based, before, prepared, switched_off, switched_on
from .trace_listed import SETTING
from .trace_records import (
    activate, config_read, config_write, deactivate, read, readback, release, reset, select, tick, words, write,
)

TOKEN = 32  # its bits


# Messages of both at once.

def woven_bit_by_bit(device, port):
    """Two messages, one bit of each in turn: each has its own words, and READ those that the memory has with their
    first bit."""
    peer, records = other(port), b""
    pairs = (
        (read(1, PLACE, FILLER), write(PLACE, [device.word()])), (read(1, PLACE), read(1, PLACE + 1, FILLER)),
        (deactivate(), read(1, PLACE, FILLER)),
    )
    for message, others in pairs:
        records += woven(bit_by_bit(port, message), bit_by_bit(peer, others)) + sent_on(port, activate())
    return records + both_kept(port) + sent_on(port, read(2, PLACE))


def woven_in_pieces(device, port):
    """The same in pieces of other sizes, words and single bits too: the ports' words begin and end apart."""
    peer, records = other(port), b""
    for own, others in (((16,), (16,)), ((5, 11), (16,)), ((3,), (7,)), ((15, 1), (1, 15)), ((1,), (16,))):
        message = write(PLACE, [device.word(), device.word()])
        records += woven(in_pieces(port, read(2, PLACE, FILLER), *own), in_pieces(peer, message, *others))
    return records + both_kept(port)


def begun_later(device, port):
    """The other port's message begins with a later bit of this one's, and both send words of the memory."""
    records = b""
    for number in (2, 9, 17):
        stream = in_pieces(other(port), read(1, PLACE + number), 3)
        records += woven_from(in_pieces(port, read(1, PLACE, FILLER), 3), number, stream)
    return records + both_kept(port)


def messages_inside_words(device, port):
    """Whole messages of the other port between the bits of a word, and such with left-over bits or none: neither its
    select nor its release moves the word of this port."""
    peer, message = other(port), read(2, PLACE, FILLER)
    whole = {at: in_pieces(peer, tick(at), 5, 11) for at in range(3, 64, 13)}
    cut_off = {at: on(peer, select() + clock(at % 15 + 1) + release(at % 3)) for at in range(2, 80, 8)}
    empty = {at: on(peer, select() + release()) for at in range(1, 80, 9)}
    records = b"".join(inside_words(port, message, inside) for inside in (whole, cut_off, empty))
    return records + both_kept(port)


def beside_an_unfinished_word(device, port):
    """The other port stands inside a word while this one has whole messages, and goes on behind them: its message is
    accepted, with the word told before."""
    peer, message, records = other(port), read(1, PLACE, FILLER), b""
    for number in (1, 16, 25, 33, 47, 63):
        whole = in_pieces(port, write(PLACE, [device.word()]), 9, 7)
        records += opened(peer, message, number) + device.write(PLACE) + whole + ended(peer, message, number)
    return records + both_kept(port)


# What the ports share.

def bases_moved_inside_words(device, port):
    """The other port moves the bases inside words of this one's READ and WRITE: both go by those of their select, and
    the next message by the new ones."""
    peer, records = other(port), prepared(port)
    moves = (sent_on(peer, config_write(2), config_read(12)), sent_on(peer, reset()))
    cases = [(read(2, 1, FILLER), (37, 55)), (write(1, [0x0A0A, 0x0B0B]), (9, 75))]
    for (message, stops), move in product(cases, moves):
        for at in stops:
            records += based(port) + inside_words(port, message, {at: move}) + sent_on(port, read(2, 1, FILLER))
    return records + all_shown(port)


def judged_inside_words(device, port):
    """The read base is odd at select and even at release, or the other way round; a CONFIG has one of the other port
    inside a word, which sets the other base: that one stays as it is by then."""
    peer, records = other(port), prepared(port)
    for first, second in ((3, 4), (4, 3)):
        move = sent_on(peer, config_read(second))
        records += sent_on(port, config_read(first)) + inside_words(port, read(1, 0, FILLER), {41: move})
    for message, others in ((config_write(4), config_read(6)), (config_read(6), config_write(4))):
        records += based(port) + inside_words(port, message, {39: in_pieces(peer, others, 16)}) + all_shown(port)
    return records


def read_and_written_by_the_device(device, port):
    """The device writes before and inside the words of this port's READ, while the other port has none, an unfinished
    word, or is off: the word told with the first bit counts."""
    peer, records = other(port), at_pins(port, reads(device, (1,), CUTS, always))
    records += opened(peer, tick(3), 21) + at_pins(port, reads(device, (2,), CUTS[:2], always))
    records += ended(peer, tick(3), 21) + switched_off(peer)
    return records + at_pins(port, reads(device, (1,), CUTS[2:], always)) + switched_on(peer) + kept(peer)


def read_and_written_by_the_other(device, port):
    """The other port's WRITE, whole or its release alone, before and inside the words of this one's READ: the word told
    with the first bit counts, and the check is over the words told."""
    peer, message, records = other(port), read(2, PLACE, FILLER), b""
    for at in (31, 32, 33, 47, 55, 64):
        block = write(PLACE, [device.word(), device.word()])
        records += inside_words(port, message, {at: in_pieces(peer, block, 16)})
        block = write(PLACE, [device.word(), device.word()])
        records += on(peer, select() + words(block)) + inside_words(port, message, {at: on(peer, release())})
    return records + sent_on(port, message)


def reset_inside_words(device, port):
    """RESET of one port, whole or its release alone, while the other one is inside a word: it leaves that word, the
    message, its status and its last token."""
    peer, records = other(port), b""
    for at, setting in zip((3, 25, 40, 70), SETTING.values()):
        records += before(port, setting, at % 64) + sent_on(peer, SETTING["AR"])
        records += inside_words(port, readback(FILLER), {at: in_pieces(peer, reset(), 9, 7)})
        records += on(peer, select() + words(reset()))
        records += inside_words(port, readback(FILLER), {at: on(peer, release())}) + kept(peer)
    return records


# The ends of messages.

def left_over_bits(device, port):
    """1 to 15 bits left over, by kind 6, by the release's value and by both, while the other port is inside a word:
    each port's release counts its own bits, and the other one's message is accepted."""
    peer, own, records = other(port), on(port, select() + words(tick(3))), b""
    for left in UNFINISHED:
        records += opened(peer, tick(4), 16 + left) + own + clocked(port, left) + on(port, release())
        records += own + on(port, release(left)) + ended(peer, tick(4), 16 + left)
    for left in (2, 9, 15):
        records += own + clocked(port, left // 2) + on(port, release(left - left // 2))
    return records + both_kept(port)


def ended_by_release(device, port):
    """The release's zeros end a word, by which WRITE and TICK are accepted; and the same without effect. A release
    above 15 clocks no bit."""
    block, records = write(PLACE, [CHECKED_BY_8000]), b""
    for number in (1, 8, 15):
        cut_off, rest = opened(port, block, 48 + number), on(port, release(16 - number))
        records += cut_off + on(port, release(16) + release(255)) + rest + sent_on(port, read(1, PLACE))
        records += device.write(PLACE) + switched_off(port) + cut_off + rest + switched_on(port)
        records += cut_off + switched_off(port) + rest + switched_on(port) + sent_on(port, read(1, PLACE))
    records += opened(port, tick(0), 30) + on(port, release(2)) + opened(port, tick(0), 30) + on(port, release(3))
    return records + kept(port)


def cleared_at_select(device, port):
    """A select behind a message with left-over bits begins with a first bit, and what it sends is told then: behind a
    live one, a dropped one, and one selected while off, be the port on again before its release or behind it."""
    message, records = read(1, PLACE, FILLER), b""
    for number in (1, 8, 15):
        cut_off, closed = opened(port, message, TOKEN + number), on(port, release())
        anew = device.write(PLACE) + in_pieces(port, message, 16 - number, number)
        records += cut_off + closed + anew + cut_off + switched_off(port) + closed + switched_on(port) + anew
        records += switched_off(port) + cut_off + closed + switched_on(port) + anew
        records += switched_off(port) + cut_off + switched_on(port) + closed + anew
    return records + kept(port)


def no_bits(device, port):
    """Kind 6 without a bit: in a message of no bits, at the beginning of a word, which it does not tell, and inside
    one; of a port that is off, idle, or not there. With more than 16 it has 16."""
    peer, message = other(port), read(1, PLACE, FILLER)
    empty = b"".join(on(at, clock(0)) for at in range(16))
    records = sent_on(port, SETTING["ME"]) + on(port, select() + clock(0) + clock(0) + release()) + kept(port) + empty
    records += inside_words(port, message, {at: clocked(port, 0) + device.write(PLACE) for at in (0, 16, 32, 40, 48)})
    records += switched_off(port) + on(port, clock(0) + select()) + empty + on(port, release()) + switched_on(port)
    for value in (16, *ABOVE):
        stream = select() + b"".join(clock(value, word) for word in message) + release()
        records += woven(on(port, stream), on(peer, stream))
    return records


def long_messages(device, port):
    """Messages of 72 words, of which 5 bits come first: one with the other port's bits between, and one dropped inside
    a late word. None is counted in the next message."""
    bits = word_bits([*read(63, PLACE, FILLER), *[0x4EC1] * 6])
    pieces = b"".join(part for _, part in cut(bits, (5, *[16] * 72)))
    records = on(port, select()) + woven(on(port, pieces), bit_by_bit(other(port), tick(1))) + on(port, release(2))
    records += kept(port) + inside_bits(port, bits, {16 * 66 + 9: switched_off(port)}) + switched_on(port)
    return records + kept(port)


SHARED = (
    woven_bit_by_bit, woven_in_pieces, begun_later, messages_inside_words, beside_an_unfinished_word,
    bases_moved_inside_words, judged_inside_words, read_and_written_by_the_device, read_and_written_by_the_other,
    reset_inside_words, left_over_bits, ended_by_release, cleared_at_select, no_bits, long_messages,
)
