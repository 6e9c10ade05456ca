"""Listed cases of `ports`: messages of both ports at once, what the ports share, and what each has alone. Each function
gives the traces of one case, in which the port is the one that the case is about. All messages are released."""

from itertools import product

from .ports_records import on, other, places, sent_on, with_inside, woven
from .ports_switched import EACH, FILLER, all_shown, based, before, prepared, shown
from .trace_listed import BLOCK, SETTING, nothing_between, odd_configs, readbacks
from .trace_records import (
    MEMORY_WORDS, activate, config_read, config_write, deactivate, module, read, readback, release, reset, select, sent,
    synch, tick, words, write,
)

END = 2 * MEMORY_WORDS  # the base at the end of the memory


# Messages of both at once.

def woven_messages(port):
    """Each command on this port with each one on the other, word by word in turn, this port first."""
    traces = []
    for message in EACH:
        records = prepared(port)
        for others in EACH:
            records += woven(on(port, sent(message)), on(other(port), sent(others)))
            records += sent_on(port, activate()) + sent_on(other(port), activate())
        traces.append(records + shown(port) + shown(other(port)) + all_shown(port))
    return traces


def message_inside_message(port):
    """Each command of the other port wholly inside a message of this one, at each place: READ, READBACK and WRITE go on
    with their own words. ACTIVATE finds the port active, and DEACTIVATE stands among those switched off."""
    traces = []
    for message in (read(3, 0, FILLER), readback(FILLER), write(0, BLOCK)):
        records = prepared(port)
        for others in EACH:
            if others != deactivate():
                inside = {at: sent_on(other(port), others) for at in places(message)}
                records += with_inside(port, message, inside) + shown(port)
        traces.append(records + shown(other(port)) + all_shown(port))
    return traces


def damaged_messages(port):
    """Two messages woven, of which one is cut, longer, with a flipped bit or left-over bits: only its own port's status
    tells, and the other one's message is whole."""
    peer, good = other(port), write(0, BLOCK)
    forms = [(good[:3], 0), ([*good, 0], 0), ([good[0], good[1] ^ 8, *good[2:]], 0), ([*good[:-1], 0], 0), (good, 9)]
    traces = []
    for form, message in product(forms, (read(3, 0, FILLER), write(2, BLOCK))):
        records = prepared(port) + woven(on(port, sent(*form)), on(peer, sent(message)))
        traces.append(records + shown(port) + shown(peer) + all_shown(port))
    return traces


def port_alone(port):
    """Traces of `trace` on this port, while the other one has an open message, is off, and is idle."""
    traces = []
    for make, opened in ((nothing_between, b""), (readbacks, words(tick(3))), (odd_configs, words(write(0, BLOCK)))):
        traces.append(on(other(port), select() + opened) + on(port, make()) + on(other(port), release()) + shown(port))
    traces.append(sent_on(port, deactivate()) + on(port, nothing_between()) + shown(other(port)) + shown(port))
    return [*traces, on(port, nothing_between())]


# What each port has alone.

def own_last_token(port):
    """READBACK brings the token of the last message accepted on its own port, whatever the other one has sent since,
    also inside it."""
    records = b""
    for message in EACH:
        records += sent_on(port, tick(30)) + sent_on(other(port), message, readback()) + sent_on(port, readback())
        inside = {at: sent_on(other(port), tick(at)) for at in places(readback())}
        records += with_inside(port, readback(), inside) + sent_on(other(port), readback())
        records += sent_on(port, activate())
    return [records]


def own_status(port):
    """Each status on this port with each one on the other, set in turn and at once: each port shows its own."""
    traces = []
    for setting, others in product(SETTING.values(), repeat=2):
        records = before(port, setting, 31) + before(other(port), others, 32) + sent_on(port, readback())
        records += sent_on(other(port), readback()) + woven(on(port, sent(setting)), on(other(port), sent(others)))
        records += sent_on(port, []) + sent_on(other(port), []) + woven(*(on(at, sent(readback())) for at in (0, 1)))
        traces.append(records)
    return [b"".join(traces[first:first + 5]) for first in range(0, len(traces), 5)]


# The memory.

def memory_is_common(port):
    """What one port writes the other one reads, after release and not before."""
    peer, message = other(port), write(2, BLOCK)
    records = sent_on(port, message) + sent_on(peer, read(4, 1))
    for at in places(message):
        changed = write(2, [word ^ at for word in BLOCK])
        records += with_inside(port, changed, {at: sent_on(peer, read(4, 1))}) + sent_on(peer, read(4, 1))
    return [records]


def written_inside_read(port):
    """The other port's WRITE into the words that this one reads, whole or its release alone, at each place: each word
    goes out as the memory has it in that call, and the check is over the words sent."""
    peer, message = other(port), read(3, 1, FILLER)
    first, *others = (write(0, [0x0100 * number + place for place in range(5)]) for number in range(1, 9))
    traces = []
    for at in places(message):
        records = sent_on(peer, first) + with_inside(port, message, {at: sent_on(peer, others[0])})
        records += on(peer, select() + words(first)) + with_inside(port, message, {at: on(peer, release())})
        traces.append(records + sent_on(port, message))
    inside = {at: sent_on(peer, changed) for at, changed in zip(places(message), others)}
    return [*traces, sent_on(peer, first) + with_inside(port, message, inside) + sent_on(port, message)]


def woven_read_and_write(port):
    """READ and WRITE of the same words, word by word in turn, with the READ's words before, at and behind the release
    of the WRITE."""
    peer, records = other(port), sent_on(port, write(0, [0x1111 * place for place in range(1, 10)]))
    for length in range(1, 8):
        message, block = read(length, 0, FILLER), [0x0100 * length + place for place in range(3)]
        records += woven(on(port, sent(message)), on(peer, sent(write(1, block))))
        records += woven(on(peer, sent(write(1, block[::-1]))), on(port, sent(message)))
    return [records]


def two_writes(port):
    """Both write into the same words: what is released last stands, whichever was selected first, and a refused one
    stores nothing."""
    peer, first, second = other(port), write(0, [1, 2, 3, 4]), write(2, [5, 6, 7, 8])
    records = b""
    for at in places(first):
        records += with_inside(port, first, {at: sent_on(peer, second)}) + shown(port)
        records += on(port, select() + words(second[:at])) + on(peer, select() + words(first))
        records += on(port, words(second[at:]) + release()) + on(peer, release(at % 2)) + shown(peer)
    return [records]


# The bases.

def bases_are_common(port):
    """The bases that one port sets are those of the other's next message, and RESET clears them for both."""
    peer, records = other(port), prepared(port)
    for write_base, read_base in ((4, 6), (6, 4), (7, 4), (4, 7), (END, 0), (0, END), (0, 0)):
        records += sent_on(port, config_write(write_base)) + sent_on(peer, config_read(read_base))
        records += sent_on(peer, write(1, [write_base, read_base]), read(3, 1)) + sent_on(port, read(3, 0))
    return [records + sent_on(peer, reset()) + all_shown(port)]


def bases_at_select(port):
    """This port reads and writes with bases that the other one moves meanwhile, at each place, by CONFIG WRITE, CONFIG
    READ and RESET: the words, the place and the judgement are by the bases of the select. The next message goes by the
    new ones."""
    both, odd = [config_write(2), config_read(12)], [config_write(7), config_read(7)]
    traces = []
    for move in (both, odd, [config_write(2)], [config_read(12)], [reset()]):
        records = prepared(port)
        for at, message in product(places(read(2, 1)), (read(2, 1, FILLER), write(1, [0x0A0A, 0x0B0B]))):
            records += based(port) + with_inside(port, message, {at: sent_on(other(port), *move)})
            records += sent_on(port, read(2, 1, FILLER), write(1, [0x0C00 + at])) + all_shown(port, 0x0D00 + at)
        traces.append(records)
    return traces


def bases_judged_at_select(port):
    """Bases that are odd or beyond the memory at select and good at release, or the other way round: AR, or accepted,
    by those of the select."""
    traces = []
    for message, config in ((read(2, 1, FILLER), config_read), (write(1, [0x0A0A, 0x0B0B]), config_write)):
        records = prepared(port)
        for first, second in ((3, 4), (4, 3), (END, 4), (4, END), (END - 6, END - 4), (END - 4, END - 6), (3, 0)):
            for at in places(message):
                move = config(second) if second else reset()
                records += sent_on(port, config(first)) + with_inside(port, message, {at: sent_on(other(port), move)})
            records += sent_on(port, message)
        traces.append(records + all_shown(port))
    return traces


def config_against_config(port):
    """A CONFIG of this port, or its RESET, with a CONFIG or RESET of the other one inside it, at each place: a CONFIG
    sets its own base and leaves the other one as it is by then, and of two that set one base the last one stands."""
    outer = (config_write(4), config_read(6), reset())
    inner = (config_read(12), config_write(10), reset())
    traces = []
    for message, others in product(outer, inner):
        records, opened = prepared(port), on(other(port), select() + words(others))
        for at in places(message):
            records += based(port) + with_inside(port, message, {at: sent_on(other(port), others)})
            records += all_shown(port, 0x0C00 + at)
            records += based(port) + opened + with_inside(port, message, {at: on(other(port), release())})
            records += all_shown(other(port), 0x0D00 + at)
        traces.append(records)
    return traces


# Time and module.

def time_is_common(port):
    """TICK and SYNCH of both ports: one inside the other, the other's release inside it, and many in turn. Each trace
    has its time in the end."""
    peer, traces = other(port), []
    messages = (tick(0), tick(63), synch(0x00FF00FF00FF00FF), synch(2 ** 64 - 1))
    for message, others in product(messages, repeat=2):
        traces.append(with_inside(port, message, {1: sent_on(peer, others)}))
    for message, others in ((tick(0), synch(7)), (synch(7), tick(0)), (tick(1), tick(1)), (synch(7), synch(9))):
        opened = on(peer, select() + words(others))
        traces.append(opened + with_inside(port, message, {len(message): on(peer, release())}))
    ticks = [woven(on(port, sent(tick(index))), on(peer, sent(tick(63 - index)))) for index in range(0, 64, 5)]
    return [*traces, b"".join(ticks)]


def module_is_common(port):
    """STF and module state are in the tokens of both ports, with the status of each; a port that is off sends zeros."""
    records = before(port, SETTING["ME"]) + before(other(port), SETTING["IC"])
    for value in (0x1A, 0x05, 0x10, 0x0F, 0x1F):
        records += module(value) + woven(on(port, sent([])), on(other(port), sent([0x40C0, 0x4032])))
        records += woven(on(port, sent([0x40C0, 0x4032])), on(other(port), sent(SETTING["IC"])))
    records += sent_on(port, deactivate()) + module(0x16) + sent_on(other(port), readback()) + sent_on(port, readback())
    return [records + sent_on(port, activate()) + sent_on(other(port), readback())]


SHARED = (
    woven_messages, message_inside_message, damaged_messages, port_alone, own_last_token, own_status, memory_is_common,
    written_inside_read, woven_read_and_write, two_writes, bases_are_common, bases_at_select, bases_judged_at_select,
    config_against_config, time_is_common, module_is_common,
)
