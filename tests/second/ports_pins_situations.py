"""Which situations inside words a run of `ports_at_pins` has. Each function says whether a message that was released is
in one; those of ports_situations, which look at whole words, are asked beside them."""

from . import ports_situations
from .card import start
from .ports_card import card_at_select, is_live
from .ports_pins_play import live_bits
from .ports_situations import code_of, is_accepted, moved
from .tokens import READ, WRITE


def is_dead(played, message):
    return not is_live(played.moments, message, message.release)


def begun_words(message):
    """For each whole word the places of its first bit and of its last."""
    return [(places[0], places[-1]) for places in (
        message.places[first:first + 16] for first in range(0, len(message.places) - 15, 16))]


def switched_off_inside_word(played, message, span):
    """The message's first bit without effect is not the first of a word."""
    live = live_bits(played.moments, message)
    return 0 < live < len(message.bits) and live % 16 != 0


def switched_off_inside_payload_word(played, message, span):
    """The same, in a word that READ reads, or behind it in the check."""
    return switched_off_inside_word(played, message, span) and code_of(span) == READ and (
        32 < live_bits(played.moments, message))


def on_again_inside_word(played, message, span):
    """Off inside a word, and on again before the release."""
    active = played.moments[message.release].ports[message.port].active
    return switched_off_inside_word(played, message, span) and active


def left_over(played, message, span):
    return span.left > 0 and not is_dead(played, message)


def left_over_without_effect(played, message, span):
    return span.left > 0 and is_dead(played, message)


def begun_behind_an_unfinished_word(played, message, span):
    """A live message whose port ended the one before it inside a word."""
    before = [other for other in played.spans if other.port == span.port and other.select < span.select]
    unfinished = before and before[-1].left > 0
    return unfinished and len(message.bits) > 15 and not is_dead(played, message)


def written_inside_word(played, message, span):
    """READ of a word that its place no longer holds with the word's last bit."""
    if code_of(span) != READ or not is_accepted(played, span):
        return False
    place = start(card_at_select(played.moments, span), span.words)
    for number, (first, last) in enumerate(begun_words(message)[2:-1]):
        before, after = (played.moments[at].memory[place + number] for at in (first, last))
        if before != after:
            return True
    return False


def bases_moved_inside_word(played, message, span):
    """READ or WRITE, accepted, in which a base moves between the first and the last bit of a word."""
    if code_of(span) not in (READ, WRITE) or not is_accepted(played, span):
        return False
    name = "read_base" if code_of(span) == READ else "write_base"
    bases = [[getattr(played.moments[at].card, name) for at in pair] for pair in begun_words(message)]
    return moved(played, span, name) and any(first != last for first, last in bases)


def released_inside_the_others_word(played, message, span):
    """An accepted message that is released between two bits of a live word of the other port."""
    others = [other for other in played.messages if other.port != message.port]
    return is_accepted(played, span) and any(
        first < message.release < last and is_live(played.moments, other, last)
        for other in others for first, last in begun_words(other))


OF_MESSAGES = (
    switched_off_inside_word, switched_off_inside_payload_word, on_again_inside_word, left_over,
    left_over_without_effect, begun_behind_an_unfinished_word, written_inside_word, bases_moved_inside_word,
    released_inside_the_others_word,
)


def missing(played):
    """The names of those that the run has not, each with its port, and those of whole words."""
    ended = [pair for pair in zip(played.messages, played.spans) if pair[1].release is not None]
    lacking = []
    for port in (0, 1):
        own = [(message, span) for message, span in ended if span.port == port]
        for case in OF_MESSAGES:
            if not any(case(played, message, span) for message, span in own):
                lacking.append((case.__name__, port))
        for case in ports_situations.OF_MESSAGES:
            if not any(case(played, span) for _, span in own):
                lacking.append((case.__name__, port))
    places = range(len(played.calls))
    return lacking + [
        case.__name__ for case in ports_situations.OF_RECORDS if not any(case(played, at) for at in places)]
