"""Listed cases of `ports`: ports switched off and on. Each function gives the traces of one case, in which the port is
the one that the case is about. All messages are released."""

from itertools import combinations_with_replacement, cycle

from .ports_records import on, other, places, sent_on, with_inside
from .trace_listed import BLOCK, MOST, SETTING, refused_forms
from .trace_records import (
    activate, config_read, config_write, deactivate, read, readback, release, reset, select, sent, synch, tick, words,
    write,
)

FILLER = 0xFFFF

# A message of each command, and one of an unknown code. Its bases are others than those of prepared.
EACH = (
    write(0, BLOCK), read(3, 0, FILLER), readback(FILLER), synch(0x0123456789ABCDEF), tick(9), reset(), config_write(4),
    config_read(6), activate(), deactivate(), SETTING["IC"],
)


def switched_off(port):
    """The other port switches this one off."""
    return sent_on(other(port), deactivate())


def switched_on(port):
    return sent_on(other(port), activate())


def shown(port):
    """What a port has: status and last token of its own, and the memory with the read base."""
    return sent_on(port, readback(FILLER), read(4, 0, FILLER))


def based(port):
    """Two bases, that of WRITE at word 4 and that of READ at word 1."""
    return sent_on(port, config_write(8), config_read(2))


def prepared(port):
    """A card with these bases, and words in its memory of which no two are alike."""
    return sent_on(port, reset(), write(0, [0x0101 * place for place in range(1, 13)])) + based(port)


def all_shown(port, mark=0x0D0D):
    """Which bases there are, and the words in the memory. Both bases are 0 after that."""
    return sent_on(port, write(4, [mark]), read(2, 1, FILLER), reset(), read(12, 0, FILLER))


def before(port, setting, number=0):
    """The port with a last token by this number, and a status."""
    return sent_on(port, tick(number), setting)


# Power-up and the two codes.

def both_active_at_power_up(port):
    """The first message of each port is live: it shows a clean status and the RESET token."""
    return [shown(port) + shown(other(port))]


def known_codes(port):
    """Code 0x24 (64C0 4034) and 0x25 (65C0 403E) are accepted, and 0x26 (66C0 4033) is IC. After each both ports show
    what they have, which the other one does only while it is active."""
    records = b""
    for message in ([0x65C0, 0x403E], [0x64C0, 0x4034], [0x66C0, 0x4033], [0x65C0, 0x403E], [0x66C0, 0x4033]):
        records += sent_on(port, message) + shown(port) + shown(other(port))
    return [records + sent_on(port, [0x64C0, 0x4034]) + shown(other(port))]


def refused_switching(port):
    """ACTIVATE and DEACTIVATE that are refused, in each way, switch nothing: the other port stays active, or not."""
    traces = []
    for first, message in ((activate(), deactivate()), (deactivate(), activate())):
        records = sent_on(port, first)
        for form in refused_forms(message):
            records += on(port, sent(*form)) + shown(other(port))
        traces.append(records + sent_on(port, message) + shown(other(port)) + sent_on(port, activate()))
    return traces


def switched_at_release(port):
    """The DEACTIVATE, and then the ACTIVATE, of the other port is open all along while this one reads: not its words
    count, but its release."""
    traces = []
    for at in places(read(2, 0)):
        opened, closed = on(other(port), select() + words(deactivate())), on(other(port), release())
        records = prepared(port) + opened + with_inside(port, read(2, 0), {at: closed}) + shown(port)
        opened = on(other(port), select() + words(activate()))
        records += opened + with_inside(port, read(2, 0), {at: closed}) + shown(port)
        traces.append(records)
    return traces


def acts_on_the_other_only(port):
    """ACTIVATE and DEACTIVATE leave the port that sends them: a port that is off does not switch itself on."""
    records = sent_on(port, deactivate(), activate(), deactivate()) + shown(port)
    records += sent_on(other(port), activate(), activate(), deactivate()) + shown(other(port)) + shown(port)
    return [records + sent_on(port, activate()) + shown(other(port))]


# A message that is open when its port is switched off.

def switched_off_inside(port):
    """Each command is open when its port is switched off, at each place: it sends zeros from there on, and its release
    only ends it. On again, the port shows the status and last token of before, and no command has acted."""
    traces = []
    for message in EACH:
        records = prepared(port)
        for at, setting in zip(places(message), cycle(SETTING.values())):
            records += before(port, setting, at) + with_inside(port, message, {at: switched_off(port)})
            records += shown(other(port)) + switched_on(port) + shown(port)
        traces.append(records + all_shown(port))
    return traces


def on_again_before_release(port):
    """The same, and switched on again at each place from there on: the message stays without effect, also where it was
    switched off and on between two of its words, and the next one is live."""
    traces = []
    for message in (write(0, BLOCK), read(3, 0, FILLER), config_read(4), synch(7), deactivate(), tick(1)):
        records = prepared(port) + sent_on(port, SETTING["ME"])
        for off, again in combinations_with_replacement(places(message), 2):
            inside = {off: switched_off(port), again: switched_on(port)}
            if off == again:
                inside = {off: switched_off(port) + switched_on(port)}
            records += with_inside(port, message, inside) + sent_on(port, readback())
        traces.append(records + shown(other(port)) + all_shown(port))
    return traces


def switched_at_every_word(port):
    """Off and on in turn inside a message, which stays without effect: of a live one, and of one selected while off."""
    traces = []
    for message in (write(0, BLOCK), read(3, 0, FILLER)):
        for first, second in ((switched_off, switched_on), (switched_on, switched_off)):
            inside = {at: (second if at % 2 else first)(port) for at in places(message)}
            records = prepared(port) + (switched_off(port) if first == switched_on else b"")
            records += with_inside(port, message, inside) + shown(other(port)) + switched_on(port) + shown(port)
            traces.append(records + all_shown(port))
    return traces


# A message that is selected while its port is off.

def selected_while_off(port):
    """Each command, whole and not whole: zeros go out, nothing acts, and status and last token stay."""
    traces = []
    for message, setting in zip(EACH, cycle(SETTING.values())):
        records = prepared(port) + before(port, setting) + switched_off(port)
        records += sent_on(port, message, message[:1], [*message, 0], message) + on(port, sent(message, 3))
        traces.append(records + shown(other(port)) + switched_on(port) + shown(port) + all_shown(port))
    return traces


def on_while_selected(port):
    """Each command is selected while its port is off, which is switched on at each place: still without effect up to
    the release, while the next message is live."""
    traces = []
    for message in EACH:
        records = prepared(port)
        for at, setting in zip(places(message), cycle(SETTING.values())):
            records += before(port, setting, at) + switched_off(port)
            records += with_inside(port, message, {at: switched_on(port)}) + sent_on(port, readback())
        traces.append(records + shown(other(port)) + all_shown(port))
    return traces


# Both ports switch.

def both_switch_off(port):
    """Both have a DEACTIVATE open: the one that is released first acts, and by that the other one is dropped. The
    second part of each trace has the ports the other way round."""
    peer, message = other(port), deactivate()
    inside = [{at: sent_on(port, message)} for at in places(message)]
    inside += [{0: on(port, select()), 1: on(port, words(message)), 2: on(port, release())}]
    inside += [{0: on(port, select() + words(message)), at: on(port, release())} for at in (1, 2)]
    traces = []
    for records in inside:
        after = shown(peer) + shown(port) + sent_on(port, activate()) + shown(peer)
        traces.append(with_inside(peer, message, records) + after)
        traces[-1] += with_inside(port, message, {2: sent_on(peer, message)}) + shown(port) + shown(peer)
        traces[-1] += sent_on(peer, activate())
    return traces


def both_switch_in_other_ways(port):
    """DEACTIVATE inside ACTIVATE, ACTIVATE inside DEACTIVATE, and a DEACTIVATE that is refused: the one around it then
    acts itself."""
    peer, traces = other(port), []
    forms = [([*deactivate()], 0), ([*activate()], 0), *refused_forms(deactivate())]
    for outer in (activate(), deactivate()):
        for form in forms:
            records = with_inside(peer, outer, {2: on(port, sent(*form))}) + shown(port) + shown(peer)
            traces.append(records + sent_on(port, activate()) + sent_on(peer, activate()))
    return [b"".join(traces[:len(forms)]), b"".join(traces[len(forms):])]


def dead_switching(port):
    """ACTIVATE and DEACTIVATE switch nothing where they are selected while off, or dropped, be the port on again or
    not."""
    peer, records = other(port), b""
    for message in (deactivate(), activate(), deactivate()):
        records += switched_off(port) + sent_on(port, message) + shown(peer) + switched_on(port)
        records += with_inside(port, message, {2: switched_off(port)}) + shown(peer) + switched_on(port)
        records += with_inside(port, message, {1: switched_off(port) + switched_on(port)}) + shown(peer) + shown(port)
    return [records]


def switched_without_change(port):
    """ACTIVATE at each place of an active port's message, which goes on unharmed; DEACTIVATE at each place of a message
    that is without effect. Both are accepted: the port that sends them shows a clean status and their token."""
    peer, traces = other(port), []
    for message in (write(0, BLOCK), read(3, 0, FILLER), config_read(2), synch(7), activate()):
        records = prepared(port)
        for at in places(message):
            records += before(peer, SETTING["AR"]) + with_inside(port, message, {at: switched_on(port)})
            records += sent_on(peer, readback())
        records += shown(port) + switched_off(port)
        for at in places(message):
            records += before(peer, SETTING["AR"]) + with_inside(port, message, {at: switched_off(port)})
            records += sent_on(peer, readback())
        traces.append(records + switched_on(port) + shown(port) + all_shown(port))
    return traces


# What a port keeps while it is off.

def status_kept(port):
    """Each status, and the last token, are there again after off and on: in the token of the next message, and in its
    payload. Meanwhile the port had messages that would have changed both."""
    traces = []
    for setting in SETTING.values():
        records = before(port, setting, 17) + switched_off(port) + switched_on(port) + sent_on(port, readback())
        records += before(port, setting, 18) + switched_off(port)
        records += sent_on(port, tick(3), SETTING["IC"], SETTING["AR"], [], [0x40C0]) + on(port, sent(tick(3), 5))
        traces.append(records + switched_on(port) + sent_on(port, readback(), readback()))
    return traces


def status_kept_when_dropped(port):
    """Each status over a message that is dropped, with whole and damaged words and left-over bits, before and after."""
    traces = []
    for setting in SETTING.values():
        records = b""
        for message in (tick(3), SETTING["IC"], SETTING["ME"], [0x40C0], []):
            for left in (0, 7):
                records += before(port, setting, 19)
                records += with_inside(port, message, {len(message): switched_off(port)}, left)
                records += switched_on(port) + sent_on(port, readback())
        traces.append(records)
    return traces


def other_messages_meanwhile(port):
    """While a port is off, the other one works on, RESET too: memory, time and bases are its, and the port that comes
    back finds them so, with its own status and last token."""
    peer = other(port)
    records = before(port, SETTING["ME"], 20) + switched_off(port) + prepared(peer)
    records += sent_on(peer, write(0, BLOCK), SETTING["AR"], tick(6)) + sent_on(port, write(0, [7]), reset())
    return [records + switched_on(port) + shown(port) + all_shown(port) + shown(peer)]


# The ends of messages.

def left_bits(port):
    """Left-over bits 0 to 15 and above, where the message stays open: of a live message, of a dropped one, and of one
    selected while off."""
    peer, traces = other(port), []
    for inside in (switched_off(port), b""):
        for opening in (b"", switched_off(port)):
            records = before(port, SETTING["AR"], 21)
            for left in (*range(18), 31, 32, 128, 255):
                records += opening + on(port, select() + words(tick(2))) + inside + on(port, release(left))
                records += (on(port, release()) if left > 15 else b"") + sent_on(peer, activate())
            traces.append(records + shown(port))
    return traces


def no_bits(port):
    """Messages of no bits, live and not: the status line has what the port holds, and nothing changes."""
    records = b""
    for setting in SETTING.values():
        records += before(port, setting, 22) + sent_on(port, []) + with_inside(port, [], {0: switched_off(port)})
        records += sent_on(port, [], []) + with_inside(port, [], {0: switched_on(port)}) + sent_on(port, [], readback())
    return [records]


def long_messages(port):
    """Messages of 66 to 80 words: live, with the other port's words between, dropped at a late word, and selected while
    off. None is counted in the next message."""
    peer, traces = other(port), []
    for start in (read(63, 0, FILLER), write(0, MOST), readback()):
        records = sent_on(peer, write(0, MOST[::-1]))
        for number in (66, 67, 80):
            message = [*start, *[0x4DC1] * number][:number]
            records += with_inside(port, message, {2: sent_on(peer, tick(1)), number: sent_on(peer, read(2, 0))})
            records += with_inside(port, message, {number - 2: switched_off(port)}) + sent_on(port, message)
            records += switched_on(port) + sent_on(port, readback()) + sent_on(peer, read(2, 0))
        traces.append(records)
    return traces


# RESET.

def reset_leaves_activity(port):
    """RESET leaves each port active, or not, as it is. A RESET without effect clears no base."""
    peer = other(port)
    records = prepared(peer) + switched_off(port) + sent_on(peer, reset()) + shown(port) + all_shown(peer)
    records += prepared(peer) + sent_on(port, reset()) + shown(peer)
    records += with_inside(port, reset(), {1: switched_on(port)}) + shown(peer) + sent_on(port, reset()) + shown(peer)
    return [records + shown(port) + all_shown(port)]


def reset_clears_its_own_status(port):
    """Both ports have each status in turn. RESET clears that of its own port, and leaves status and last token of the
    other one, also of one that is off."""
    peer, records = other(port), b""
    for own, others in zip(SETTING.values(), [*SETTING.values()][1:] + [SETTING["ME"]]):
        records += before(port, own, 23) + before(peer, others, 24) + sent_on(port, reset(), readback())
        records += sent_on(peer, readback()) + before(peer, others, 25)
        records += sent_on(port, deactivate(), reset(), readback(), activate()) + sent_on(peer, readback())
    return [records]


SWITCHED = (
    both_active_at_power_up, known_codes, refused_switching, switched_at_release, acts_on_the_other_only,
    switched_off_inside, on_again_before_release, switched_at_every_word, selected_while_off, on_while_selected,
    both_switch_off, both_switch_in_other_ways, dead_switching, switched_without_change, status_kept,
    status_kept_when_dropped, other_messages_meanwhile, left_bits, no_bits, long_messages, reset_leaves_activity,
    reset_clears_its_own_status,
)
