"""The sure write of up to so many rounds (request 7, document 02), and what `rounds` says to its stored cases."""

from collections import Counter
from functools import lru_cache
from itertools import product
from typing import NamedTuple

from . import refused_calls
from .call_answers import ARGUMENT, TURN, check
from .card import Card
from .checks import crc16
from .known import agree
from .retry import MOST_ROUNDS, State, ask, give, most_words, short_start, sure_start, verdict, words
from .rounds_records import SHORT_FORM, Case, all_cases, drawn_cases, packed
from .sure import DONE, UNSURE, End, Line, between_readbacks, harmless, test_verdict
from .sure_records import CALM, MEMORY, SureWrite
from .trace_records import write

# Cases for one card from power-up on, and their lines, worked by hand: a round of length 0 is 12 words, and one of
# length n is n + 13. The memory is zeros but for its last words, so its CRC-16 is that of document 01 for these words.
# In the third case the WRITE is unseen in the first round; in the sixth and seventh the block does not end inside. In
# the last one round 1 loses its last READBACK, so the card still has the WRITE's token, whose check EB93 ends in 1:
# round 2's first READBACK passes without its last bit, which is filled with 1. The word 0 was there before.
BY_HAND = """\
0000 00 0000 | D 000C 0000
00FF 02 0001 00 00 FFFF FFFF | D 0011 0000
01FF 02 0001 0002 02 00 FFFF FFFF 00 01 0000 0000 | D 001C 8005
02FE 01 0000 0002 0000 | D 000F 800F
01FF 08 0003 0000 | D 000E 000A
02FF 03 0001 0001 0000 | U 002D 000A
02FF 00 0001 0001 0001 00 00 FFFF FFFF | U 0005 000A
01FF 09 0001 0001 00 00 FFFF FFFF | E 5
01FF 02 0001 0001 00 01 FFFF FFFF | D 0013 8005
0100 02 0000 0005 02 00 FFFF FFFF 02 00 FFFF FFFF 00 00 FFFF FFFF 01 01 004F FFFF 00 00 FFFF FFFF | U 001C 8005
"""


class Message(NamedTuple):
    sent: list
    damage: tuple
    read: list  # what the controller reads for it


class NotingLine(Line):
    """The line, with a note of every message in words."""

    def __init__(self, damages):
        super().__init__(damages)
        self.messages = []

    def cross(self, card, memory, words):
        read, card, memory = super().cross(card, memory, words)
        _, damage = self.carried[-1]
        self.messages.append(Message(words, damage, read))
        return read, card, memory


class Round(NamedTuple):
    end: End
    messages: list


class Play(NamedTuple):
    """A case, the card and the memory before it, what its start gave, and the rounds that it reached."""

    case: Case
    card: Card
    memory: list
    number: int  # of the start's refusal
    state: State
    rounds: list


# The controller.

def started(case):
    length = len(case.block)
    if case.rounds == SHORT_FORM:
        return short_start(length, case.sub_address)
    return sure_start(length, case.sub_address, case.rounds)


def rounds_of(case, most, card, memory):
    """The rounds that are reached: none behind a Done."""
    line, message = NotingLine(case.damages), write(case.sub_address, case.block)
    for _ in range(most):
        before = len(line.messages)
        end = between_readbacks(line, card, memory, message)
        yield Round(end, line.messages[before:])
        if end.verdict == DONE:
            return
        card, memory = end.card, end.memory


def played(case, card, memory):
    number, state = started(case)
    rounds = [] if number else [*rounds_of(case, state.most, card, memory)]
    return Play(case, card, memory, number, state, rounds)


def end_of(play):
    """The last round's end, which has the verdict of all rounds."""
    return play.rounds[-1].end


def laid_out(play):
    """The words of all messages really sent."""
    return sum(len(message.sent) for one in play.rounds for message in one.messages)


def plays_of(cases):
    """The cases one after the other, with one card."""
    card, memory = Card(MEMORY), [0] * MEMORY
    for case in cases:
        play = played(case, card, memory)
        yield play
        if play.rounds:
            card, memory = end_of(play).card, end_of(play).memory


@lru_cache(maxsize=None)
def plays():
    return [*plays_of(all_cases())]


# The stored files; each maker gives the number of cases or lines, and the content.

def unfinished():
    """A case that lacks its last byte, for which nothing is said."""
    return packed(Case(1, [1, 2], 2, CALM))[:-1]


def stdin():
    pieces = [*(packed(case) for case in all_cases()), unfinished()]
    return len(pieces), b"".join(pieces)


def line(play):
    if play.number:
        return f"E {play.number}"
    end = end_of(play)
    return f"{end.verdict} {laid_out(play):04X} {crc16(end.memory):04X}"


def stdout():
    lines = [line(play) + "\n" for play in plays()]
    return len(lines), "".join(lines).encode()


# The test of the files.

def two_byte_numbers(content):
    return [int.from_bytes(content[at:at + 2], "big") for at in range(0, len(content), 2)]


def unpacked(content):
    """The cases of these bytes, up to one that is not whole."""
    at = 0
    while at + 3 <= len(content):
        length, sub_address, rounds = content[at:at + 3]
        behind = at + 5 + 2 * length
        *block, count = two_byte_numbers(content[at + 3:behind]) or [0]
        damages, at = content[behind:behind + 6 * count], behind + 6 * count
        if at > len(content):
            return
        six = [damages[first:first + 6] for first in range(0, len(damages), 6)]
        yield Case(sub_address, block, rounds, tuple((one[0], one[1], *two_byte_numbers(one[2:])) for one in six))


def test_files():
    _, content = stdin()
    agree("cases of the stored bytes", [*unpacked(content)], all_cases())
    pieces, lines = zip(*(text.split(" | ") for text in BY_HAND.splitlines()))
    by_hand = unpacked(bytes.fromhex("".join(pieces)))
    agree("lines worked by hand", tuple(line(play) for play in plays_of(by_hand)), lines)


# The test of what the verdicts mean, with the plays that are not refused.

def damages_of(one):
    """A round's damages where one of them changes something, else CALM, also where the first READBACK ended it."""
    undamaged = all(harmless(16 * len(message.sent), message.damage) for message in one.messages)
    return CALM if undamaged else tuple(message.damage for message in one.messages)


def test_meaning(play):
    """Demand 3 over all rounds: after each one the memory is judged by that before the first, and whichever is
    undamaged, with a block inside the memory it is Done."""
    agree("write base", play.card.write_base, 0)
    for one in play.rounds:
        record = SureWrite(play.case.sub_address, play.case.block, damages_of(one))
        test_verdict(record, play.card, play.memory, one.end)


# The test of the calls, with the words read in the plays that are not refused.

# What the verdict call answers.
NOT_YET, AGAIN = (0, 0, 0, 0), (0, 0, 0, 1)
AT_END = {DONE: (0, 1, 0, 0), UNSURE: (0, 0, 1, 0)}


def lent(play, at):
    """How many of the block's words are lent for the message at this place of a round: only WRITE has them."""
    return len(play.case.block) if at == 1 else 0


def test_asked(state, block, sent, laid):
    """The state after the ask of a message: the words are as many as were sent, and are counted at once."""
    number, count, state, _ = ask(state, block, len(sent))
    agree(f"ask that led to {state}", (number, count), (0, len(sent)))
    agree(f"words at {state}", words(state), (0, laid + count))
    agree(f"verdict at {state}", verdict(state), NOT_YET)
    return state


def test_rounds(play, said):
    """The calls divide the messages into the same rounds, by what they said before the first message and after each:
    "again" exactly between two rounds, and Done or Unsure exactly at the end."""
    wanted = [NOT_YET]
    for one in play.rounds:
        at_end = AT_END[one.end.verdict] if one is play.rounds[-1] else AGAIN
        wanted += [NOT_YET] * (len(one.messages) - 1) + [at_end]
    agree(f"verdicts of {play.case}", said, wanted)


def test_ended(play, state):
    """Behind Done or Unsure each message of the last round, asked for or given once more, is refused and changes
    nothing."""
    for at, message in enumerate(play.rounds[-1].messages):
        room = len(message.sent)
        refused = TURN, 0, state, check([0xFFFF] * room)
        agree(f"ask at {state}", ask(state, lent(play, at), room), refused)
        agree(f"give at {state}", give(state, message.read), (TURN, state))


def test_calls(play):
    """The calls, with the words read in the play, go the same way, and count the words that were sent."""
    state, laid, said = play.state, 0, [verdict(play.state)]
    for one in play.rounds:
        for at, message in enumerate(one.messages):
            state = test_asked(state, lent(play, at), message.sent, laid)
            laid += len(message.sent)
            number, state = give(state, message.read)
            agree(f"give that led to {state}, and its words", (number, words(state)), (0, (0, laid)))
            said.append(verdict(state))
    test_rounds(play, said)
    test_ended(play, state)
    agree(f"words laid out in {play.case}", words(state), (0, laid_out(play)))
    agree(f"{laid} words are within the bound", laid <= most_words(state), True)


def answers(play):
    """What start, ask, give and verdict answer in a play of one round; of the state after them, its turn."""
    yield (play.number,)
    state = play.state
    for at, message in enumerate(play.rounds[0].messages):
        number, count, state, left = ask(state, lent(play, at), len(message.sent))
        yield number, count, state.turn, left
        number, state = give(state, message.read)
        yield number, state.turn
        yield verdict(state)


def answers_of_sure_write(play):
    """What document 01's sure write answers to the same calls, which never says "again"."""
    turn, numbers = 0, (len(play.case.block), play.case.sub_address)
    yield refused_calls.start(*numbers)
    for at, message in enumerate(play.rounds[0].messages):
        _, _, turn, _ = asked = refused_calls.ask(turn, *numbers, lent(play, at), len(message.sent))
        _, turn = given = refused_calls.give_words(turn, *numbers, message.read)
        yield from (asked, given, (*refused_calls.verdict(turn, *numbers), 0))


def test_one_round(play):
    """One round is the sure write of document 01, call by call, each with a state of its own."""
    if play.state.most == 1:
        agree(f"answers in {play.case}", [*answers(play)], [*answers_of_sure_write(play)])


# Which plays there are, and the test that none is missing. These are asked of plays that are not refused.

def is_early(one):
    return len(one.messages) == 1


def is_done(play):
    return end_of(play).verdict == DONE


def unsure_rounds(play):
    """Of each Unsure round in turn, whether it was early."""
    return [is_early(one) for one in play.rounds if one.end.verdict == UNSURE]


def times_taken(play):
    return sum(one.end.taken for one in play.rounds)


def is_new(play):
    return end_of(play).memory != play.memory


def inside(play):
    return play.case.sub_address + len(play.case.block) <= MEMORY


def several(play):
    return play.state.most > 1


def bound_met(play):
    return several(play) and laid_out(play) == most_words(play.state)


def turned(play, first):
    """Whether an Unsure round that is early (or is not) comes just before one that is not (or is)."""
    found = unsure_rounds(play)
    return (first, not first) in zip(found, found[1:])


def ways(play):
    """Whether Unsure rounds were early, late or both, in plays of several rounds."""
    return {*unsure_rounds(play)} if several(play) else None


DONE_KINDS = {
    "in the first round": lambda play: not unsure_rounds(play),
    "after early rounds": lambda play: ways(play) == {True},
    "after late rounds": lambda play: ways(play) == {False},
    "after early and late rounds": lambda play: ways(play) == {True, False},
    "before the last round": lambda play: len(play.rounds) < play.state.most,
    "in the last of several rounds": lambda play: several(play) and len(play.rounds) == play.state.most,
    "undamaged after Unsure rounds": lambda play: len(play.rounds) > 1 and damages_of(play.rounds[-1]) == CALM,
    "written in several rounds": lambda play: times_taken(play) > 1,
}

UNSURE_KINDS = {
    "old": lambda play: not is_new(play),
    "new": is_new,
    "written in several rounds": lambda play: times_taken(play) > 1,
    "after several rounds all early": lambda play: ways(play) == {True},
    "after several rounds all late": lambda play: ways(play) == {False},
    "after early and late rounds": lambda play: ways(play) == {True, False},
}

KINDS = {
    "a late round and then an early one": lambda play: turned(play, False),
    "an early round and then a late one": lambda play: turned(play, True),
    "a first READBACK passed though refused": lambda play: any(one.end.refused for one in play.rounds),
    "a block beyond the memory": lambda play: not inside(play),
    "the bound met in several rounds": bound_met,
    "no words": lambda play: not play.case.block,
}

REFUSED = "refused"


def kinds_of(play):
    """The names of all kinds that a play is of."""
    if play.number:
        return {REFUSED}
    name, own_kinds = ("Done", DONE_KINDS) if is_done(play) else ("Unsure", UNSURE_KINDS)
    found = {f"{name} {kind}" for kind, is_kind in own_kinds.items() if is_kind(play)}
    return found | {kind for kind, is_kind in KINDS.items() if is_kind(play)}


def all_kinds():
    ends = [*(f"Done {kind}" for kind in DONE_KINDS), *(f"Unsure {kind}" for kind in UNSURE_KINDS)]
    return [*ends, *KINDS, REFUSED]


def counted(some_plays):
    """How many plays of each kind there are."""
    return Counter(kind for play in some_plays for kind in kinds_of(play))


def drawn_plays():
    return plays()[-len(drawn_cases()):]


def missing():
    """What should occur and does not: each kind among the listed plays and among the drawn ones, each number of rounds
    with each verdict, Done in each round of the most, and the bound met in the most rounds."""
    begun = [play for play in plays() if not play.number]
    for some_plays in (drawn_plays(), plays()[:-len(drawn_cases())]):
        yield from {*all_kinds()} - {*counted(some_plays)}
        some_begun = [play for play in some_plays if not play.number]
        verdicts = {(play.case.rounds, end_of(play).verdict) for play in some_begun}
        yield from {*product(range(MOST_ROUNDS + 1), (DONE, UNSURE))} - verdicts
    of_most = [play for play in begun if play.state.most == MOST_ROUNDS]
    yield from {*range(1, MOST_ROUNDS + 1)} - {len(play.rounds) for play in of_most if is_done(play)}
    yield from {1, 2, 62, 63} - {len(play.case.block) for play in of_most if bound_met(play)}
    yield from {ARGUMENT} ^ {play.number for play in plays() if play.number}


def statistic():
    """How often each kind occurs, and in brackets how often among the drawn cases."""
    found, drawn = counted(plays()), counted(drawn_plays())
    return ", ".join(f"{found[kind]} ({drawn[kind]}) {kind}" for kind in all_kinds())


def self_test():
    """Raises AssertionError where a verdict does not mean what it has to, the calls go through other rounds than the
    play or count other words than those of its messages, one round is not the sure write, a line is not as worked by
    hand, or something is missing. test_rounds is a part of test_calls, which has what the calls said."""
    test_files()
    for play in plays():
        if not play.number:
            test_meaning(play)
            test_calls(play)
            test_one_round(play)
    lacking = [*missing()]
    if lacking:
        raise AssertionError(f"{len(plays())} cases, missing: {lacking}")
