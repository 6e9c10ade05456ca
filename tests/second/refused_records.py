"""The records of crates/refused_calls/stdin: single calls with given arguments and states, refused ones above all.

A record has 14 bytes: the operation, x (1 byte), and six numbers of 2 bytes each, high byte first. A type below has its
numbers in this order, those of WITH_X from x on; the places that it does not use are 0. Words are given by their number:
the block's are 1, 2, 3 and so on, the buffer (room) is full of 0xFFFF, and the memory full of 7. Of a given card,
is_open and note are one number: bit 0 says that a message is open, bit 1 that a word is told, which then is NOTED, and
bit 2 that none is told, but the note's word is NOTED all the same. The loader's records are in load_records.
"""

from collections import namedtuple
from functools import lru_cache
from itertools import combinations

from .damaged_tokens import RESPONSE_SPARE, each_wrong_set
from .draw import Draw
from .tokens import CONFIG_READ, PORT_COMMANDS, READ, READBACK, WRITE, response_token

PowerUp = namedtuple("PowerUp", "size")
Build = namedtuple("Build", "code length sub_address block room")
Read = namedtuple("Read", "length count first second further")
Start = namedtuple("Start", "length sub_address")
Ask = namedtuple("Ask", "turn length sub_address block room")
Give = namedtuple("Give", "turn length sub_address count first second further")
Verdict = namedtuple("Verdict", "turn length sub_address")
CardCall = namedtuple("CardCall", "module_state size count is_open note call given left")
Shift = namedtuple("Shift", "count taken sending call next_word")
PinCall = namedtuple("PinCall", "module_state size count is_open note call given shifted")

OPERATIONS = (PowerUp, Build, Read, Start, Ask, Give, Verdict, CardCall, Shift, PinCall)
WITH_X = (Ask, Give, Verdict, CardCall, Shift, PinCall)

# The turns of a sure write from 0 on: ask and give of three messages, then the verdicts.
DONE, UNSURE = 6, 7

# The calls of the card; those at the pins, each with the card's call that is refused alike; those of the bit shifter.
SELECT, MODULE, TELL, TAKE, RELEASE = range(1, 6)
CLOCK = 3  # at the pins, of one bit
AT_PINS = {1: SELECT, 2: MODULE, CLOCK: TAKE, 4: RELEASE}
BIT, CLEAR, LEFT_OVER = range(1, 4)

# The calls whose given number is the lent memory's words. With MODULE it is the module state; SELECT has no use for it.
LENDING = (TELL, TAKE, RELEASE)

# The word told in a given state, and the one taken.
NOTED, TAKEN = 0x5A5A, 0x1234

# The notes of a given state. None of document 01's ranges shuts out a word that is not told.
NOTES = NOTHING, TOLD, NOT_TOLD = range(3)

CLEAN_RESPONSE = (0x8000, 0x8780)


def packed_call(operation, x, numbers):
    numbers = [*numbers, *[0] * (6 - len(numbers))]
    return bytes([operation, x]) + b"".join(number.to_bytes(2, "big") for number in numbers)


def packed(record):
    kind, fields = type(record), record._asdict()
    if "note" in fields:
        fields["is_open"] += 2 * fields.pop("note")
    x, *numbers = fields.values() if kind in WITH_X else (0, *record)
    return packed_call(OPERATIONS.index(kind) + 1, x, numbers)


def kind_of_call(record):
    """The operation, and which of its calls."""
    return type(record), getattr(record, "call", 0)


def message_words(length):
    return length + 3 if length else 2


# Listed records. A group begins with calls that are not refused, and moves numbers to their edges and just beyond.

def alone(lawful, **values):
    """The call, and the call with each value of each number."""
    return [lawful, *(lawful._replace(**{name: value}) for name in values for value in values[name])]


def pairs(lawful, **faults):
    """The call with each two of the faults, which shows their order."""
    return [lawful._replace(**dict(two)) for two in combinations(faults.items(), 2)]


def around(number):
    return number - 1, number, number + 1


def power_ups():
    return [PowerUp(size) for size in (0, 1, 2, 256, 32767, 32768, 32769, 40000, 65535)]


def built_messages():
    records = [Build(CONFIG_READ, 2, 0, block, 5) for block in (0, 2)]  # this one is no READ: it has a block
    for code in (WRITE, READ):
        for length in (0, 63, 64):
            block = length if code == WRITE else 0
            records += [Build(code, length, 255, block, room) for room in around(message_words(length))]
    for code in (WRITE, READ, READBACK):
        lawful = Build(code, 3, 5, 3 if code == WRITE else 0, 6)
        # 0x0103 and the like look allowed where only their low byte is taken.
        records += alone(lawful, code=(63, 64, 0x0100 + code), length=(4, 0x0103), sub_address=(256, 0x0105))
        records += alone(lawful, block=(0, 1, 2, 3, 4), room=(0, 5, 7))
        records += alone(lawful._replace(room=5), code=(64,), length=(64,), sub_address=(256,), block=(2,))
    return records


def built_port_commands():
    """ACTIVATE and DEACTIVATE: two words, and no block."""
    records = []
    for code in PORT_COMMANDS:
        lawful = Build(code, 0, 0, 0, 2)
        records += alone(lawful, code=(0x0100 + code,), length=(1,), sub_address=(1, 256), block=(1,), room=(0, 1, 3))
        records += pairs(lawful, length=64, sub_address=256, block=1, room=1)
    return records


def answers():
    records = [
        Read(length, count, *CLEAN_RESPONSE, 0) for length in (0, 1, 63, 64) for count in around(message_words(length))
    ]
    # Where all words are alike, 0 is their check for every length, and 0x8003 for an odd one.
    for length in (0, 2, 3):
        records += [Read(length, message_words(length), 0x9000, 0x878D, further) for further in (0x8003, 1)]
    lawful = Read(3, 6, *CLEAN_RESPONSE, 0)
    records += alone(lawful, length=(2, 4, 0x0103, 65535), count=(0, 1, 2, 100))
    records += alone(lawful, first=(0, 0x8001, 0x40C0), second=(0x8781, 0xFFFF))
    return records + pairs(lawful, length=64, count=5, first=0, further=1)


def bad_tokens(draw, answer):
    """The answer with each set of wrong marks of its token."""
    tokens = each_wrong_set(draw, (answer.first, answer.second), RESPONSE_SPARE)
    return [answer._replace(first=first, second=second) for first, second in tokens]


def answers_with_bad_tokens():
    """Without a payload, with one whose check agrees and does not, and refused by Count and by Argument."""
    draw, records = Draw(16), []
    for token in (CLEAN_RESPONSE, response_token(0, 1, 0, 0, 0), response_token(1, 1, 1, 1, 15)):
        records += bad_tokens(draw, Read(0, 2, *token, 0))
        records += bad_tokens(draw, Read(3, 6, *token, 0)) + bad_tokens(draw, Read(3, 6, *token, 1))
        records += bad_tokens(draw, Read(3, 5, *token, 0)) + bad_tokens(draw, Read(64, 67, *token, 0))
    return records


def starts():
    lengths, sub_addresses = (0, 63, 64, 0x0100), (0, 255, 256, 65535)
    return [Start(length, sub_address) for length in lengths for sub_address in sub_addresses]


def asked():
    records = [Ask(turn, 3, 5, 0, 5) for turn in (*range(10), 255)]
    records += [Ask(turn, 3, 5, 3, 6) for turn in (3, DONE, UNSURE, 8)]
    for length in (0, 63, 64):
        records += [Ask(2, length, 255, length, room) for room in around(message_words(length))]
    for lawful in (Ask(0, 3, 5, 0, 5), Ask(2, 3, 5, 3, 6), Ask(4, 3, 5, 0, 5)):
        records += alone(lawful, length=(63, 64, 0x0103), sub_address=(255, 256))
        records += alone(lawful, block=(0, 1, 2, 3, 4), room=(0, lawful.room - 1, lawful.room + 1))
        records += pairs(lawful, turn=1, length=64, block=2, room=lawful.room - 1)
        records += pairs(lawful, turn=8, sub_address=256, block=2)
    return records


def given():
    records = [Give(turn, 3, 5, 5, *CLEAN_RESPONSE, 0) for turn in (*range(10), 255)]
    for length in (0, 63, 64):
        records += [Give(3, length, 255, count, *CLEAN_RESPONSE, 0) for count in around(message_words(length))]
    for turn, count in ((1, 5), (3, 6), (5, 5)):
        lawful = Give(turn, 3, 5, count, *CLEAN_RESPONSE, 0)
        records += alone(lawful, length=(63, 64, 0x0103), sub_address=(255, 256))
        records += alone(lawful, count=(0, *around(count), 100), first=(0,), further=(1,))
        records += pairs(lawful, turn=2, length=64, count=4)
        records += pairs(lawful, turn=8, sub_address=256, count=7)
    return records


def verdicts():
    records = [Verdict(turn, 3, 5) for turn in (*range(10), 255)]
    for turn in (DONE, UNSURE):
        records += alone(Verdict(turn, 3, 5), length=(63, 64, 0x0103), sub_address=(255, 256))
    return records + pairs(Verdict(DONE, 3, 5), turn=8, length=64, sub_address=256)


def card_calls():
    """One call of each kind that is not refused."""
    return [CardCall(3, 4, 1, int(call in LENDING), NOTHING, call, 4, 0) for call in range(1, 6)]


def card_states():
    records = []
    for lawful in card_calls():
        records += alone(lawful, size=(0, 1, 32768, 32769), count=(0, 67, 68, 65535), module_state=(15, 16))
    return records


def card_memories():
    records = []
    for lawful in card_calls()[2:]:
        records += alone(lawful, given=(0, 3, 5))
        records += [lawful._replace(size=size, given=size) for size in (0, 1, 300)]
        records += [lawful._replace(size=32768, given=300)]
    return records


def open_and_closed():
    """Also closed with a count, which is lawful."""
    states = [(is_open, count) for is_open in (0, 1) for count in (0, 67)]
    return [lawful._replace(is_open=is_open, count=count) for lawful in card_calls() for is_open, count in states]


def card_arguments():
    _, module, *_, release = card_calls()
    return alone(module, given=(0, 15, 16, 255, 65535)) + alone(release, left=(1, 14, 15, 16, 255, 65535))


def response_words():
    """Tell where the response token's words are sent, and zeros behind them; take, which gives no word."""
    states = [(count, module_state) for count in (0, 1, 2, 66) for module_state in (0, 9)]
    return [call._replace(count=count, module_state=state) for call in card_calls()[2:4] for count, state in states]


def counted_words():
    """Take where the word is one of the token, which no check counts, and behind it, up to those that are dropped."""
    take = card_calls()[TAKE - 1]
    return [take._replace(count=count) for count in (0, 1, 2, 3, 66, 67)]


def card_orders():
    records = []
    arguments = {MODULE: {"given": 16}, TELL: {"given": 5}, TAKE: {"given": 5}, RELEASE: {"given": 5, "left": 16}}
    for lawful in card_calls():
        other = 1 - lawful.is_open
        records += pairs(lawful, size=0, is_open=other, **arguments.get(lawful.call, {}))
        records += pairs(lawful, count=68, module_state=16, is_open=other)
    return records


def shifters():
    draw = Draw(12)
    calls = [(count, call) for count in (0, 1, 14, 15, 16, 200, 255) for call in (BIT, CLEAR, LEFT_OVER)]
    return [Shift(count, draw.word(), draw.word(), call, draw.word()) for count, call in calls]


def at_the_pins():
    records = []
    for call, as_card in AT_PINS.items():
        is_open = int(as_card in LENDING)
        lawful = PinCall(3, 4, 1, is_open, NOTHING, call, 4, 7)
        records += alone(lawful, shifted=(0, 1, 14, 15, 16, 200), is_open=(1 - is_open,))
        records += alone(lawful, size=(0, 32768, 32769), count=(67, 68), module_state=(15, 16))
        edges = {SELECT: (), MODULE: (15, 16)}.get(as_card, (3, 5))
        records += alone(lawful, given=edges)
        records += pairs(lawful, shifted=16, size=0, is_open=1 - is_open, **{"given": 16} if edges else {})
    return records


def first_and_last_bits():
    """A word's first bit, with which it is told, and its last, with which it is taken; also those of dropped words."""
    records = []
    for shifted in (0, 15):
        clock = PinCall(3, 4, 1, 1, NOTHING, CLOCK, 4, shifted)
        records += alone(clock, count=(0, 2, 66, 67), module_state=(9,), given=(3,), is_open=(0,))
        records += [clock._replace(size=size, given=size) for size in (1, 300)]
        records += pairs(clock, size=0, given=5, is_open=0)
    return records


# Drawn records.

def near(draw, number):
    """The number, or now and then one less or one more."""
    return max(number + draw.pick((0, 0, 0, 0, -1, 1)), 0)


def drawn(draw):
    """Calls with drawn numbers, most of them inside their ranges and as their other numbers ask."""
    code = draw.pick((READ, READBACK, draw.below(64)))
    length, sub_address = near(draw, draw.pick((0, draw.below(64)))), near(draw, draw.below(256))
    block = 0 if code in (READ, READBACK) else length
    yield Build(code, length, sub_address, near(draw, block), near(draw, message_words(length)))
    words = (*draw.pick((CLEAN_RESPONSE, (0x9000, 0x878D), draw.words(2))), draw.pick((0, 0x8003, draw.word())))
    yield Read(length, near(draw, message_words(length)), *words)
    turn = draw.pick((0, 2, 2, 4, draw.below(9)))
    block, words_asked = (length, message_words(length)) if turn == 2 else (0, message_words(2))
    yield Ask(turn, length, sub_address, near(draw, block), near(draw, words_asked))
    yield Give(turn + 1, length, sub_address, near(draw, words_asked), *words)
    size, count, is_open = draw.between(1, 299), near(draw, draw.below(68)), draw.below(2)
    state = (near(draw, draw.below(16)), size, count, is_open, NOTHING)
    yield CardCall(*state, *draw.pick(((SELECT, 0), (MODULE, draw.below(18)))), 0)
    yield CardCall(*state, draw.pick(LENDING), near(draw, size), near(draw, draw.below(16)))
    yield PinCall(*state, draw.pick((CLOCK, 4)), near(draw, size), near(draw, draw.below(16)))


def with_note(records, note):
    """Those of a card, alone and behind the shifter, with this note in the given state."""
    return [record._replace(note=note) for record in records if "note" in record._fields]


def with_a_word_told(records):
    return with_note(records, TOLD)


def with_a_word_not_told(records):
    return with_note(records, NOT_TOLD)


def each_once(records):
    # Two types with equal numbers are equal as tuples, so the type goes with them.
    return [record for _, record in dict.fromkeys((type(record), record) for record in records)]


def gathered(groups, drawn, draw, times):
    """The records of all groups, and behind them those of so many draws."""
    records = [record for group in groups for record in group()]
    for _ in range(times):
        records += drawn(draw)
    return records


@lru_cache(maxsize=None)
def all_records():
    groups = (
        power_ups, built_messages, answers, starts, asked, given, verdicts, card_states, card_memories, open_and_closed,
        card_arguments, response_words, card_orders, shifters, at_the_pins, first_and_last_bits,
    )
    records = gathered(groups, drawn, Draw(13), 6)
    records += with_a_word_told(records)
    # Behind the drawn ones, so that those keep their places.
    counted = counted_words()
    records += counted + with_a_word_told(counted)
    return each_once(records + with_a_word_not_told(records) + built_port_commands())
