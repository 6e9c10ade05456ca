"""The card with two ports, by request 5 (document 02). A trace is looked at as a whole: a message is judged at its
release by the card as it was at its select, and it is live as long as its port has been active since then."""

from typing import NamedTuple

from .card import CLEAN, Card, command, effect, exchanged, judge, memory_after, with_module
from .tokens import ACTIVATE, PORT_COMMANDS, RESET, command_token


class Port(NamedTuple):
    """What a port keeps from message to message; Port() is the one at power-up."""

    active: bool = True
    status: tuple = CLEAN
    last_token: tuple = command_token(RESET, 0, 0)


class Moment(NamedTuple):
    """The card between two records. Its card has what is common; status and last token are the ports' own."""

    card: Card
    memory: list
    ports: tuple = (Port(), Port())


class Span(NamedTuple):
    """A message in a trace, with the places of its records."""

    port: int
    select: int
    words: tuple = ()
    places: tuple = ()  # of the words
    release: int = None  # None where it is still open at the end
    left: int = 0  # the number of left-over bits


def power_up(size):
    return Moment(Card(size), [0] * size)


def module_set(moment, value):
    return moment._replace(card=with_module(moment.card, value))


def with_port(moment, port, **changes):
    """The moment with changes of what this port keeps."""
    ports = list(moment.ports)
    ports[port] = ports[port]._replace(**changes)
    return moment._replace(ports=tuple(ports))


# In these, moments has the card before each record, as far as the trace has been played.

def card_at_select(moments, span):
    """The card that judges a message and sends its words: the bases of its select, and the port's own status and last
    token. Those do not change before its release, nor can STF and module state."""
    moment = moments[span.select]
    own = moment.ports[span.port]
    return moment.card._replace(status=own.status, last_token=own.last_token)


def is_live(moments, span, at):
    """Whether a message still counts in the record at this place: its port was active at select and ever since."""
    return all(moment.ports[span.port].active for moment in moments[span.select:at + 1])


def words_sent(moments, span):
    """What the card sends for the words of a message, each by the memory in its call; zeros once it is not live."""
    live = [at for at in span.places if is_live(moments, span, at)]
    memories = [moments[at].memory for at in live]
    sent, _ = exchanged(card_at_select(moments, span), span.words[:len(live)], memories)
    return sent + [0] * (len(span.places) - len(live))


def released(moments, span):
    """The moment after a message's release."""
    now = moments[span.release]
    if not is_live(moments, span, span.release) or not span.words and not span.left:
        return now
    card = card_at_select(moments, span)
    status = judge(card, span.words, span.left)
    if status != CLEAN:
        return with_port(now, span.port, status=status)
    return accepted(now, card, span)


def accepted(now, card, span):
    """Step 6. A WRITE goes by the bases of its select, but what a command changes it changes in the card of now: a
    CONFIG leaves the other base as it is by then, and TICK counts on from the time by then."""
    code, length, sub_address = command(span.words)
    changes = effect(now.card, code, sub_address, span.words[2:2 + length])
    memory = memory_after(card, span.words, now.memory)
    after = now._replace(card=now.card._replace(**changes), memory=memory)
    after = with_port(after, span.port, status=CLEAN, last_token=span.words[:2])
    if code in PORT_COMMANDS:
        after = with_port(after, 1 - span.port, active=code == ACTIVATE)
    return after
