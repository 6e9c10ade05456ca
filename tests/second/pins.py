"""The program `trace_pins`: the card behind its bit shifter, to which the records' bits come one by one. A word is told
with its first bit and taken with its sixteenth, and the device writes into the memory between any two bits."""

from functools import lru_cache
from itertools import product

from .apart_records import PUT, Device
from .bench import answered, common_faults, released, selected, written
from .call_answers import CLOSED
from .card import take, tell
from .checks import bits, number
from .known import agree
from .pins_drawn import drawn_records
from .pins_listed import listed_records
from .pins_records import BITS
from .trace_records import MEMORY_WORDS, RELEASE, SELECT, WORD, parts, reset, sent

LEAST_DRAWN = 150

# Records and their lines, worked by hand: READ of one word, which counts as it was at its first bit; words shared by
# records of kinds 2 and 6; a word that the release's zero bits end; and no message open.
BY_HAND = """\
05000001 P 0001
01000000 S
02004EC1 W 4EC1 8000
02004037 W 4037 8780
06010000 B 0000
05000002 P 0002
06070000 B 0000
05000003 P 0003
06080000 B 0001
06FF0000 B 8005
03000000 R 000
01000000 S
06054EC1 B 0010
0200D828 W D828 0010
0500B000 P B000
060B06E0 B 0780
0605FFFF B 0016
05000002 P 0002
03000000 R 100
01000000 S
02004EC1 W 4EC1 9000
02004037 W 4037 878D
02000000 W 0000 0002
0605FFFF B 0010
030B0000 R 000
06000000 B 0000
06010000 E 4
02000000 E 4
04000000 E 9
"""

# Lines of the drawn records, without their words, and whether a word is unfinished after them.
WANTED = {
    *product(("S", "R 000", "R 100", "R 010", "R 001", "R 101", "E 4"), (False,)),
    *product(("W", "B", "P", "E 3", "E 5", "E 9"), (False, True)),
}


# The bit shifter.

def clocked(bench, bit):
    """The bit sent back while one comes in, and the bench after it."""
    card, memory, message, came = bench
    if not came:
        _, message = tell(card, message, memory)
    back = bits(message.note, 16)[len(came)]
    came = (*came, bit)
    if len(came) == 16:
        message, came = take(card, message, number(came), memory), ()
    return back, bench._replace(message=message, came=came)


def all_clocked(bench, coming):
    """The bits sent back while these come in, as a number, and the bench after them."""
    sent_back = []
    for bit in coming:
        back, bench = clocked(bench, bit)
        sent_back.append(back)
    return number(sent_back), bench


# What a record does that is not refused: its line, and the bench after it.

def word_in(bench, record):
    back, bench = all_clocked(bench, bits(record.word, 16))
    return f"W {record.word:04X} {back:04X}", bench


def bits_in(bench, record):
    back, bench = all_clocked(bench, bits(record.word, 16)[:record.value])
    return f"B {back:04X}", bench


def zeros_and_released(bench, record):
    """The release's own zero bits come in first, and may end a word; those of an unfinished one are left over."""
    _, bench = all_clocked(bench, [0] * record.value)
    return released(bench, record._replace(value=len(bench.came)))


KINDS = {SELECT: selected, WORD: word_in, RELEASE: zeros_and_released, PUT: written, BITS: bits_in}


def faults(bench, record):
    closed = bench.message is None
    return {**common_faults(bench, record), WORD: {CLOSED: closed}, BITS: {CLOSED: closed and record.value > 0}}


def output(records):
    """The whole output of the program for these input bytes."""
    lines = []
    for _, line, bench in answered(records, KINDS, faults):
        lines.append(line)
    return "".join(line + "\n" for line in [*lines, f"T {bench.card.time:016X}"])


@lru_cache(maxsize=None)
def all_records():
    """What fills the memory, the listed cases, and the drawn ones."""
    device = Device()  # one for all, so that its words differ in all of them
    return sent(reset()) + device.fill(0, MEMORY_WORDS), listed_records(device), drawn_records(device)


# The test of this program against what is worked by hand, and that nothing is missing.

def test_by_hand():
    records, lines = zip(*(line.split(" ", 1) for line in BY_HAND.splitlines()))
    agree("lines at the pins", output(bytes.fromhex("".join(records))).splitlines()[:-1], [*lines])


def kind_of(line, bench):
    return line if line[0] in "RE" else line[0], bench.message is not None and bench.came != ()


def test_drawn(steps):
    """Every line occurs with the drawn records, with and without an unfinished word."""
    found = {kind_of(line, bench) for _, line, bench in steps}
    if found != WANTED:
        raise AssertionError(f"only wanted, or only drawn: {sorted(found ^ WANTED)}")
    messages = [line[0] for _, line, _ in steps].count("R")
    if messages < LEAST_DRAWN:
        raise AssertionError(f"{messages} drawn messages")


def test_memory(steps):
    """READ never reads a 0, nor one word at two places."""
    for part, _, bench in steps:
        if 0 in bench.memory or len({*bench.memory}) < MEMORY_WORDS:
            raise AssertionError(f"0, or words alike, in the memory after {part.hex()}")


def self_test():
    """Raises AssertionError where a line is not as worked by hand, a drawn one is missing, or words are alike."""
    test_by_hand()
    filled, listed, _ = (len(parts(records)) for records in all_records())
    steps = [*answered(b"".join(all_records()), KINDS, faults)]
    test_memory(steps[filled:])
    test_drawn(steps[filled + listed:])
