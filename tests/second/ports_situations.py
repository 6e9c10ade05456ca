"""Which situations of request 5 a played trace has. Each function says whether a message that was released, or the
record at a place, is in one."""

from .call_answers import OPEN
from .card import AR, CLEAN, command, judge, start
from .ports_card import card_at_select, is_live
from .tokens import ACTIVATE, CONFIG_READ, CONFIG_WRITE, DEACTIVATE, READ, READBACK, RESET, TICK, WRITE, read_command
from .trace_records import MODULE


def code_of(span):
    """The code of a message whose token is good, else None."""
    fields = read_command(*span.words[:2]) if len(span.words) > 1 else None
    return fields[0] if fields else None


def is_accepted(played, span):
    judged = judge(card_at_select(played.moments, span), span.words, span.left)
    return judged == CLEAN and is_live(played.moments, span, span.release)


def own(played, span, at):
    """What the message's port keeps, before the record at this place."""
    return played.moments[at].ports[span.port]


def moved(played, span, name):
    """Whether this number of the card is another one at release than at select."""
    first, last = played.moments[span.select], played.moments[span.release]
    return getattr(first.card, name) != getattr(last.card, name)


def accepted_and_moved(played, span, code, name):
    return code_of(span) == code and is_accepted(played, span) and moved(played, span, name)


# Messages without effect.

def selected_while_off(played, span):
    return not own(played, span, span.select).active


def switched_off_inside(played, span):
    return not selected_while_off(played, span) and not is_live(played.moments, span, span.release)


def on_while_selected(played, span):
    return selected_while_off(played, span) and own(played, span, span.release).active


def on_again_before_release(played, span):
    return switched_off_inside(played, span) and own(played, span, span.release).active


def switched_off_in_payload(played, span):
    """Some words of READ went out, and behind them zeros."""
    dead = [at for at in span.places if not is_live(played.moments, span, at)]
    return switched_off_inside(played, span) and code_of(span) == READ and 0 < len(dead) < len(span.places) - 3


def left_over_without_effect(played, span):
    return span.left > 0 and not is_live(played.moments, span, span.release)


# Switching.

def switching(played, span, code, active):
    """Whether a command of this code is accepted while the other port is active, or is not."""
    before = played.moments[span.release].ports[1 - span.port].active
    return code_of(span) == code and before == active and is_accepted(played, span)


def switches_off(played, span):
    return switching(played, span, DEACTIVATE, True)


def switches_on(played, span):
    return switching(played, span, ACTIVATE, False)


def off_without_change(played, span):
    return switching(played, span, DEACTIVATE, False)


def on_without_change(played, span):
    return switching(played, span, ACTIVATE, True)


def both_switch_off(played, span):
    """A whole DEACTIVATE in which another one has acted."""
    return code_of(span) == DEACTIVATE and len(span.words) == 2 and switched_off_inside(played, span)


def status_kept(played, span):
    """A live message that shows a status set before its port was off."""
    off = [at for at in range(span.select) if not own(played, span, at).active]
    if not off or own(played, span, span.select).status == CLEAN or not is_live(played.moments, span, span.release):
        return False
    kept = {own(played, span, at)[1:] for at in range(off[-1], span.select + 1)}
    return len(kept) == 1 and len(span.words) > 1


# Common things that the other port moves inside a message, and what is not common.

def read_base_moved(played, span):
    return accepted_and_moved(played, span, READ, "read_base")


def write_base_moved(played, span):
    return accepted_and_moved(played, span, WRITE, "write_base")


def judged_by_the_bases_of_select(played, span):
    """READ or WRITE that would be judged otherwise by the bases of its release."""
    if code_of(span) not in (READ, WRITE) or not is_live(played.moments, span, span.release):
        return False
    cards = card_at_select(played.moments, span), played.moments[span.release].card
    judged = {judge(card, span.words, span.left) for card in cards}
    return AR in judged and len(judged) == 2


def config_write_leaves_a_config_read(played, span):
    return accepted_and_moved(played, span, CONFIG_WRITE, "read_base")


def config_read_leaves_a_config_write(played, span):
    return accepted_and_moved(played, span, CONFIG_READ, "write_base")


def tick_with_time_moved(played, span):
    return accepted_and_moved(played, span, TICK, "time")


def written_inside_read(played, span):
    """READ of words of which some are others at release than at select."""
    if code_of(span) != READ or not is_accepted(played, span):
        return False
    _, length, _ = command(span.words)
    place = start(card_at_select(played.moments, span), span.words)
    first, last = (played.moments[at].memory[place:place + length] for at in (span.select, span.release))
    return first != last


def reset_while_the_other_is_open(played, span):
    """RESET moves a base inside a READ or WRITE of the other port, which goes on."""
    others = [other for other in played.spans if other.port != span.port and other.release is not None]
    inside = [other for other in others if other.select < span.release < other.release]
    return code_of(span) == RESET and is_accepted(played, span) and any(
        code_of(other) in (READ, WRITE) and is_accepted(played, other) for other in inside)


def own_last_token(played, span):
    """READBACK where the other port's last token is another one."""
    ports = played.moments[span.select].ports
    return code_of(span) == READBACK and is_accepted(played, span) and ports[0].last_token != ports[1].last_token


# Of records.

def module_refused_by_a_dead_message(played, at):
    """The module call, while no message is open but such without effect."""
    call = played.calls[at]
    if call is None or call.operation != MODULE or played.numbers[at] != OPEN:
        return False
    opened = [span for span in played.spans if span.select < at and (span.release is None or span.release > at)]
    return not any(is_live(played.moments, span, at) for span in opened)


OF_MESSAGES = (
    selected_while_off, switched_off_inside, on_while_selected, on_again_before_release, switched_off_in_payload,
    left_over_without_effect, switches_off, switches_on, off_without_change, on_without_change, both_switch_off,
    status_kept, read_base_moved, write_base_moved, judged_by_the_bases_of_select, config_write_leaves_a_config_read,
    config_read_leaves_a_config_write, tick_with_time_moved, written_inside_read, reset_while_the_other_is_open,
    own_last_token,
)
OF_RECORDS = (module_refused_by_a_dead_message,)


def situations(played):
    """The names of those that the trace has, each with its port; the module call has none."""
    released = [span for span in played.spans if span.release is not None]
    found = {(case.__name__, span.port) for case in OF_MESSAGES for span in released if case(played, span)}
    places = range(len(played.calls))
    return found | {(case.__name__, None) for case in OF_RECORDS if any(case(played, at) for at in places)}


def all_situations():
    return {(case.__name__, port) for case in OF_MESSAGES for port in (0, 1)} | {
        (case.__name__, None) for case in OF_RECORDS}
