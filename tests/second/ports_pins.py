"""The program `ports_at_pins`, in which the bits of a card's two ports (request 5 of document 02) come one by one, and
its stored records."""

from functools import lru_cache

from . import pins, ports
from .apart_records import PUT, Device
from .known import agree
from .pins_records import BITS
from .ports import test_never_both_off
from .ports_play import output as in_words
from .ports_pins_drawn import drawn_records
from .ports_pins_listed import CASES, left_open, listed_records
from .ports_pins_play import lines_of, output, play
from .ports_pins_records import OF_A_PORT
from .ports_pins_situations import missing
from .ports_records import KINDS_OF_A_PORT, PORTS, on, settled, whole
from .trace_records import MEMORY_WORDS, MODULE, parts

LEAST_RECORDS, MOST_RECORDS = 8_000, 16_000

# Every so many traces of `ports` are played at the pins.
EVERY = 12

# Records and their lines, worked by hand. Port 1 switches port 0 off inside READ's check, behind its first bit; port 0
# begins anew with a first bit behind 15 left-over ones; and its WRITE ends inside the word that port 1 reads.
BY_HAND = """\
05000001 P 0001
01000000 S
02004EC1 W 4EC1 8000
06084037 B 0087
11000000 s
120065C0 w 65C0 8000
1608403E b 0087
06083700 B 0080
16083E00 b 0080
0604FFFF B 0000
05000003 P 0003
060CFFFF B 0001
0601FFFF B 0001
13000000 r 000
060FFFFF B 0000
04000000 E 3
03050000 R 000
01000000 S
06034EC1 B 0000
11000000 s
120064C0 w 64C0 8000
12004034 w 4034 8780
13000000 r 000
0200FFFF W FFFF 0000
03020000 R 000
01000000 S
06054EC1 B 0010
030A0000 R 100
01000000 S
02004AC2 W 4AC2 9000
0200403F W 403F 878D
02000000 W 0000 40C0
0604FFFF B 0004
060CFFFF B 0033
02000000 W 0000 0FB1
03000000 R 000
06010000 E 4
06000000 B 0000
16000000 b 0000
26000000 B 0000
26010000 E 5
F6FF0000 E 5
21000000 E 5
22000000 E 5
23000000 E 5
03010000 E 4
13100000 E 4
14000000 E 9
15000000 E 9
07000000 E 9
04200000 E 5
04130000 M
11000000 s
160165C0 b 0001
13100000 E 5
11000000 E 3
04000000 E 3
160F0000 b 2003
130F0000 r 100
04000000 M
11000000 s
12004EC1 w 4EC1 9000
12004037 w 4037 878D
1601FFFF b 0000
01000000 S
02004DC1 W 4DC1 8000
0200403A W 403A 8780
02000001 W 0001 0000
02008005 W 8005 0000
03000000 R 000
160FFFFF b 0003
1200FFFF w FFFF 000A
13000000 r 000
"""


# The stored files; each maker gives the number of records or lines, and the content.

@lru_cache(maxsize=None)
def all_records():
    """What fills the memory and the listed cases, the drawn ones, and the end."""
    device = Device()  # one for all, so that its words differ in all of them
    return device.fill(0, MEMORY_WORDS) + listed_records(device), drawn_records(device), left_open(1)


@lru_cache(maxsize=None)
def all_played():
    return play(b"".join(all_records()))


@lru_cache(maxsize=None)
def all_lines():
    return lines_of(all_played())


def stdin():
    """The last record is unfinished, and counted."""
    records = b"".join(all_records())
    return len(parts(records)), records


def stdout():
    return len(all_lines()), "".join(line + "\n" for line in all_lines()).encode()


# The test of this program against what is worked by hand, against the program in words and the one with one port, and
# that nothing is missing.

def test_by_hand():
    records, lines = zip(*(line.split(" ", 1) for line in BY_HAND.splitlines()))
    agree("lines of two ports at the pins", output(bytes.fromhex("".join(records))).splitlines()[:-1], [*lines])


def in_words_only(records):
    """The whole records of a trace that `ports` and this program take alike."""
    taken = (part for part in parts(records) if part[0] != PUT and part[0] % KINDS_OF_A_PORT != BITS and whole(part))
    return b"".join(taken)


def test_in_words():
    """Traces of whole words give the same lines as in words: a release's value is the number of left-over bits."""
    for records in ports.all_traces()[::EVERY]:
        records = in_words_only(records)
        agree("output in words", output(records), in_words(records))


def test_port_0_alone():
    """The records of `trace_pins`, which knows no module call, give the same with port 0 alone."""
    records = b"".join(part for part in parts(b"".join(pins.all_records())) if part[0] != MODULE)
    agree("output of port 0 alone at the pins", output(records), pins.output(records))


def swapped(part):
    """The record with port 0 and port 1 exchanged; the module call and the device have no port."""
    port, operation = divmod(part[0], KINDS_OF_A_PORT)
    return on(1 - port, bytes([operation]) + part[1:]) if port in PORTS and operation in OF_A_PORT else part


def test_ports_alike():
    """With the ports exchanged the lines are the same, but for small and capital letters; kind 6 without a bit has a
    line for ports that are not there, too."""
    records = [part for part in parts(b"".join(all_records())) if whole(part)]
    found = output(b"".join(map(swapped, records))).splitlines()
    wanted = [
        line[0].swapcase() + line[1:] if swapped(part) != part and line[0] != "E" else line
        for part, line in zip(records, all_lines())
    ]
    agree("lines with the ports exchanged", found, [*wanted, all_lines()[-1]])


def test_cases():
    """Each case leaves both ports active and not selected, and both bases 0. Its records are whole."""
    for case, port in ((case, port) for case in CASES for port in PORTS):
        records = case(Device(), port)
        played = play(records + settled())
        behind = len(parts(records))
        end = played.moments[behind]
        is_settled = all(own.active for own in end.ports) and (end.card.write_base, end.card.read_base) == (0, 0)
        if not whole(records) or any(played.numbers[behind:]) or not is_settled:
            raise AssertionError(f"{case.__name__} of port {port} at the pins does not end settled")


def shapes(lines):
    """The lines, those with words by their letter alone."""
    return {line if line[0] in "RrE" else line[0] for line in lines}


def test_lines():
    """Every line is there, on each port, and with the drawn records all but the rare statuses."""
    listed, drawn, _ = all_records()
    first = len(parts(listed))
    common = {*"SsWwBbPM", "E 3", "E 4", "E 5", "E 9", "R 000", "r 000", "R 100", "r 100"}
    rare = {f"{letter} {status}" for letter in "Rr" for status in ("010", "001", "101")}
    agree("lines at the pins", shapes(all_lines()), common | rare | {"T"})
    lacking = common - shapes(all_lines()[first:first + len(parts(drawn))])
    agree("lines at the pins that are not drawn", sorted(lacking), [])


def test_situations():
    """Each one of whole words and each one inside words is there, on each port."""
    agree("situations at the pins that are missing", missing(all_played()), [])


def self_test():
    """Raises AssertionError where a line is not as worked by hand, nor as in words or with one port, or something is
    missing."""
    test_by_hand()
    test_in_words()
    test_port_0_alone()
    test_cases()
    test_never_both_off(all_played())
    test_ports_alike()
    test_lines()
    test_situations()
    count, _ = stdin()
    if not LEAST_RECORDS <= count <= MOST_RECORDS:
        raise AssertionError(f"{count} records of two ports at the pins")
