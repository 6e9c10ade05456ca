"""The calls of request 7 (document 02): a command tried in up to so many rounds, each by the sure write's rules."""

from typing import NamedTuple

from .call_answers import ARGUMENT, COUNT, STATE, TURN, check, refusal
from .load_records import ASKING, GIVING
from .refused_calls import build, build_faults, turn_after
from .refused_records import DONE, UNSURE, message_words
from .tokens import READBACK, TICK, WRITE, command_token

MOST_ROUNDS = 8

# The rounds of the short form, which names none.
SHORT_ROUNDS = 1

# READBACK's token would be the last one without its being taken, and a TICK taken in two rounds counts twice.
NOT_IN_ROUNDS = (READBACK, TICK)

READBACK_WORDS = message_words(2)


class State(NamedTuple):
    """early and late count the rounds that ended Unsure, with their first READBACK and with their last. State() is what
    a refused start gives."""

    code: int = 0
    length: int = 0
    sub_address: int = 0
    most: int = 0
    early: int = 0
    late: int = 0
    turn: int = 0


# Starts: the refusal number and the state.

def start(code, length, sub_address, rounds):
    no_token = command_token(code, length, sub_address) is None
    number = refusal({ARGUMENT: no_token or code in NOT_IN_ROUNDS or not 1 <= rounds <= MOST_ROUNDS})
    return (number, State()) if number else (0, State(code, length, sub_address, rounds))


def sure_start(length, sub_address, rounds):
    return start(WRITE, length, sub_address, rounds)


def short_start(length, sub_address):
    return sure_start(length, sub_address, SHORT_ROUNDS)


# The state.

def ended(state):
    return state.early + state.late


def out_of_range(state):
    """The last round is counted at the final Unsure, so all are ended there, and at every other turn one is left."""
    never_started, _ = start(*state[:4])
    all_ended = ended(state) == state.most
    right_count = all_ended if state.turn == UNSURE else ended(state) < state.most
    return bool(never_started) or state.turn > UNSURE or not right_count


def message_of(state):
    """Code, length and sub-address of the turn's message, in the turn that asks for it and the one that gives it."""
    return (state.code, state.length, state.sub_address) if state.turn in (2, 3) else (READBACK, 2, 0)


def words_of_message(state):
    _, length, _ = message_of(state)
    return message_words(length)


# Asking and giving.

def ask_faults(state, block, room):
    builders = build_faults(*message_of(state), block, room)
    return {STATE: out_of_range(state), TURN: state.turn not in ASKING, **builders}


def ask(state, block, room):
    """The refusal number, the words laid out, the state after, and the check of the buffer."""
    number = refusal(ask_faults(state, block, room))
    if number:
        return number, 0, state, check([0xFFFF] * room)
    _, count, left = build(*message_of(state), block, room)
    return 0, count, state._replace(turn=state.turn + 1), left


def give_faults(state, count):
    return {STATE: out_of_range(state), TURN: state.turn not in GIVING, COUNT: count != words_of_message(state)}


def after_unsure(state):
    """The state after a round's Unsure, with its first READBACK or its last: a new round, or the final Unsure."""
    if state.turn == 1:
        state = state._replace(early=state.early + 1)
    else:
        state = state._replace(late=state.late + 1)
    return state._replace(turn=UNSURE if ended(state) == state.most else 0)


def give(state, words):
    """The refusal number, and the state after."""
    number = refusal(give_faults(state, len(words)))
    if number:
        return number, state
    turn = turn_after(state.turn, command_token(*state[:3]), words)
    return 0, after_unsure(state) if turn == UNSURE else state._replace(turn=turn)


# What a state says.

def verdict(state):
    """The refusal number, and whether it is Done, Unsure after all rounds, and about to try again."""
    if out_of_range(state):
        return STATE, 0, 0, 0
    again = state.turn == 0 and ended(state) > 0
    return 0, int(state.turn == DONE), int(state.turn == UNSURE), int(again)


def words(state):
    """The refusal number, and the words laid out so far. A message counts from its ask on, given back or not."""
    if out_of_range(state):
        return STATE, 0
    messages = (READBACK_WORDS, message_words(state.length), READBACK_WORDS)
    running = 0 if state.turn == UNSURE else sum(messages[:(state.turn + 1) // 2])
    return 0, state.early * READBACK_WORDS + state.late * sum(messages) + running


def most_words(state):
    """What the words laid out never exceed."""
    return state.most * (state.length + 13)
