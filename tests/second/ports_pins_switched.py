"""Listed cases of `ports_at_pins`: ports switched off and on, inside words too. Each function gives the records of one
case, in which the port is the one that the case is about. All messages are released."""

from itertools import combinations_with_replacement, cycle

from .apart_listed import PLACE
from .checks import word_bits
from .pins_records import clock
from .ports_pins_records import (
    bit_by_bit, both_kept, clocked, in_pieces, inside_bits, inside_words, kept, put, woven_from,
)
from .ports_records import on, other, sent_on, woven
from .ports_switched import EACH, FILLER, all_shown, before, prepared, switched_off, switched_on
from .trace_listed import BLOCK, SETTING
from .trace_records import activate, deactivate, read, release, select, tick, words, write


# A message that is open when its port is switched off.

def switched_off_at_each_bit(device, port):
    """READ of a word of ones is open when its port is switched off, behind each bit of that word, and some of the other
    ones: zeros go out from the next bit on, and the release only ends it."""
    message, records = read(1, PLACE, FILLER), sent_on(port, tick(11)) + put(PLACE, 0xFFFF)
    for at in (0, 8, 15, 16, 31, *range(32, 49), 56, 64):
        records += inside_words(port, message, {at: switched_off(port)}) + switched_on(port)
    return records + both_kept(port)


def switched_off_bit_by_bit(device, port):
    """The same, one bit in each record, with the DEACTIVATE's in turn: it is released inside READ's word."""
    streams = bit_by_bit(port, read(1, PLACE, FILLER)), bit_by_bit(other(port), deactivate())
    return put(PLACE, 0xFFFF) + woven_from(streams[0], 8, streams[1]) + switched_on(port) + both_kept(port)


def commands_switched_off(device, port):
    """Each command is switched off inside its last word, and comes to its end: nothing acts, and the port keeps its
    status and its last token."""
    records = prepared(port) + before(port, SETTING["AR"], 14)
    for message, back in zip(EACH, cycle((1, 7, 15))):
        inside = {16 * len(message) - back: switched_off(port)}
        records += inside_words(port, message, inside) + switched_on(port)
    return records + both_kept(port) + all_shown(port)


def off_and_on(port, message, off, again):
    """A message inside which its port is switched off, and on again behind the same bit or a later one."""
    first, second = switched_off(port), switched_on(port)
    return inside_words(port, message, {off: first + second} if off == again else {off: first, again: second})


def on_again_before_release(device, port):
    """Switched off inside a word and on again before the release: zeros up to the release, and no effect. The next
    message is live from its first bit on."""
    records = prepared(port) + sent_on(port, SETTING["ME"])
    for off, again in combinations_with_replacement((0, 7, 37, 60), 2):
        records += off_and_on(port, write(0, BLOCK[:1]), off, again)
    records += kept(port)
    for off, again in ((33, 39), (35, 50), (40, 40)):
        records += off_and_on(port, read(1, 0, FILLER), off, again) + kept(port)
    return records + kept(other(port)) + all_shown(port)


def selected_while_off(device, port):
    """Selected while its port is off, whole, in pieces and cut; switched off once more inside a word; and switched on
    behind some bits: zeros go out up to the release, and nothing acts."""
    records = prepared(port) + sent_on(port, tick(12), SETTING["IC"]) + switched_off(port)
    for message in (read(1, 0, FILLER), write(0, BLOCK), deactivate(), SETTING["ME and IC"]):
        records += in_pieces(port, message, 5, 11) + on(port, select() + words(message[:1]) + clock(3) + release(4))
    records += inside_words(port, deactivate(), {21: switched_off(port)})
    records += kept(other(port)) + switched_on(port) + kept(port)
    for at in (0, 9, 16, 33, 64):
        records += switched_off(port) + inside_words(port, read(1, 0, FILLER), {at: switched_on(port)})
    return records + kept(port) + all_shown(port)


def left_over_without_effect(device, port):
    """Bits left over in a message that is dropped, before, around and behind its switching off, and in one selected
    while off: its release only ends it, with any number up to 15, and the port keeps its status."""
    records = b""
    for left, setting in ((1, SETTING["IC"]), (8, SETTING["none"]), (15, SETTING["ME"])):
        off, own = switched_off(port), on(port, select() + words(tick(2)))
        records += before(port, setting, 13) + own + clocked(port, left) + off + on(port, release()) + switched_on(port)
        records += own + clocked(port, left) + off + clocked(port, 9) + on(port, release(left)) + switched_on(port)
        records += own + off + on(port, release(left)) + own + clocked(port, left) + on(port, release(15))
        records += own + on(port, release(16) + release(left)) + switched_on(port) + kept(port)
    return records


# Both ports switch.

def both_switch_off(device, port):
    """Both have a DEACTIVATE, bit by bit, and one begins first or some bits later: the one that is released first acts,
    and the other one is dropped, in its last word or before its release."""
    peer, records = other(port), b""
    for number, size in ((0, 1), (16, 1), (0, 5), (3, 5), (1, 16)):
        first, second = (in_pieces(at, deactivate(), size) for at in (port, peer))
        records += woven_from(first, number, second) + both_kept(port) + sent_on(port, activate())
    return records + both_kept(port)


def switched_both_ways(device, port):
    """ACTIVATE against DEACTIVATE, in pieces; and a DEACTIVATE with a left-over bit, which is refused, so that the
    other one acts."""
    peer, records = other(port), b""
    streams = (
        (in_pieces(port, activate(), 3), in_pieces(peer, deactivate(), 3)),
        (in_pieces(port, deactivate(), 5), in_pieces(peer, activate(), 4)),
        (inside_bits(port, [*word_bits(deactivate()), 1], {}), in_pieces(peer, deactivate(), 4)),
        (inside_bits(port, word_bits(deactivate()), {}, 1), in_pieces(peer, deactivate(), 16)),
    )
    for own, others in streams:
        records += woven(own, others) + both_kept(port) + sent_on(port, activate()) + sent_on(peer, activate())
    return records


SWITCHED = (
    switched_off_at_each_bit, switched_off_bit_by_bit, commands_switched_off, on_again_before_release,
    selected_while_off, left_over_without_effect, both_switch_off, switched_both_ways,
)
