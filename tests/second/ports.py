"""The programs `ports` and `port_vectors`, in which a card has two ports by request 5 (document 02), and their stored
traces."""

from functools import lru_cache

from . import trace
from .known import agree
from .ports_card import is_live
from .ports_drawn import drawn_traces
from .ports_listed import CASES, listed_traces, one_after_the_other
from .ports_play import lines_of, output, play
from .ports_records import KINDS_OF_A_PORT, PORTS, on, settled, whole
from .ports_situations import all_situations, situations
from .trace_drawn import TRACES
from .trace_records import RECORD_BYTES, RELEASE, SELECT, WORD, parts

LEAST_TRACES, MOST_RECORDS = 300, 160_000

# Records and their lines, worked by hand. Port 1 switches port 0 off inside a READ, whose next word is 0000.
BY_HAND = """\
01000000 S
02004EC1 W 4EC1 8000
11000000 s
120065C0 w 65C0 8000
1200403E w 403E 8780
02004037 W 4037 8780
13000000 r 000
02000000 W 0000 0000
04000000 E 3
03000000 R 000
01000000 S
020066C0 W 66C0 0000
11000000 s
120064C0 w 64C0 8000
12004034 w 4034 8780
11000000 E 3
13000000 r 000
02004033 W 4033 0000
04130000 E 3
03100000 E 5
030F0000 R 000
01000000 S
020066C0 W 66C0 8000
02004033 W 4033 8780
03000000 R 001
04130000 M
11000000 s
13000000 r 000
01000000 S
02004AC2 W 4AC2 A403
04200000 E 3
03000000 R 100
04000000 M
02000000 E 4
13100000 E 4
04200000 E 5
01000000 S
02004AC2 W 4AC2 9000
0200403F W 403F 878D
02000000 W 0000 40C0
02000000 W 0000 4033
02000000 W 0000 0FB1
03000000 R 000
01000000 S
020060C2 W 60C2 8000
0200403E W 403E 8780
11000000 s
120061C2 w 61C2 8000
12004034 w 4034 8780
12000000 w 0000 0000
12000002 w 0002 0000
1200800F w 800F 0000
13000000 r 000
02000000 W 0000 0000
02000002 W 0002 0000
0200800F W 800F 0000
03000000 R 000
11000000 s
12004EC1 w 4EC1 8000
01000000 S
02004DC1 W 4DC1 8000
0200403A W 403A 8780
02000001 W 0001 0000
02008005 W 8005 0000
12004037 w 4037 8780
03000000 R 000
12FFFFFF w FFFF 0001
12FFFFFF w FFFF 8005
13000000 r 000
21000000 E 5
F2000000 E 5
23100000 E 5
14000000 E 9
24000000 E 9
10000000 E 9
"""


# The stored files; each maker gives the number of records, lines or traces, and the content.

def stdin():
    records = one_after_the_other()
    return len(parts(records)), records


def stdout():
    lines = output(one_after_the_other())
    return lines.count("\n"), lines.encode()


@lru_cache(maxsize=None)
def all_traces():
    return listed_traces() + drawn_traces()


def drawn_ones():
    return all_traces()[len(listed_traces()):]


def vectors_stdin():
    pieces = [len(records).to_bytes(4, "big") + records for records in all_traces()]
    return len(pieces), b"".join(pieces)


def vectors_stdout():
    pieces = [f"# {number}\n{output(records)}" for number, records in enumerate(all_traces(), 1)]
    return len(pieces), "".join(pieces).encode()


# The test of this program against what is worked by hand, against `trace`, and against what request 5 says of all
# traces.

def test_by_hand():
    records, lines = zip(*(line.split(" ", 1) for line in BY_HAND.splitlines()))
    agree("lines of two ports", output(bytes.fromhex("".join(records))).splitlines()[:-1], [*lines])


def of_one_port(records):
    """Whether a trace has no kind that `ports` knows and `trace` does not."""
    return all(part[0] < KINDS_OF_A_PORT or part[0] % KINDS_OF_A_PORT not in (SELECT, WORD, RELEASE)
               for part in parts(records))


def test_port_0_alone():
    """`trace` uses port 0: its last traces, most of them drawn, give the same here."""
    found = [pair for pair in zip(trace.all_traces(), trace.all_outputs()) if of_one_port(pair[0])]
    for records, wanted in found[-TRACES:]:
        agree("output of port 0 alone", output(records), wanted)


def swapped(part):
    """The record with port 0 and port 1 exchanged; the module call has no port."""
    port, operation = divmod(part[0], KINDS_OF_A_PORT)
    with_port = port in PORTS and operation in (SELECT, WORD, RELEASE) and len(part) == RECORD_BYTES
    return on(1 - port, bytes([operation]) + part[1:]) if with_port else part


def test_ports_alike(records, lines):
    """With the ports exchanged the lines are the same, but for small and capital letters."""
    found = output(b"".join(swapped(part) for part in parts(records))).splitlines()
    wanted = [line[0].swapcase() + line[1:] if line[0] in "SWRswr" else line for line in lines]
    agree("lines with the ports exchanged", found, wanted)


def without_effect(played):
    """The places of the records that change nothing: refused ones, and words of messages that are no longer live."""
    places = {at for at, number in enumerate(played.numbers) if number}
    for span in played.spans:
        places |= {at for at in span.places if not is_live(played.moments, span, at)}
    return places


def test_without(records, played, lines):
    """The others say the same without them."""
    needless = without_effect(played)
    kept = [at for at in range(len(played.calls)) if at not in needless]
    found = output(b"".join(parts(records)[at] for at in kept)).splitlines()
    agree("lines without needless records", found, [*(lines[at] for at in kept), lines[-1]])


def test_never_both_off(played):
    for moment in played.moments:
        if not any(port.active for port in moment.ports):
            raise AssertionError("both ports are inactive")


def test_drawn():
    """What holds for every trace, and that each situation and each line is there on each port."""
    found, lines_found = set(), set()
    for records in drawn_ones():
        played = play(records)
        lines = lines_of(played)
        test_never_both_off(played)
        test_ports_alike(records, lines)
        test_without(records, played, lines)
        found |= situations(played)
        lines_found |= {line for line in lines if line[0] in "RrE"}
    wanted = {f"{letter} {status}" for letter in "Rr" for status in ("000", "100", "010", "001", "101")}
    agree("situations that are not drawn", sorted(all_situations() - found, key=str), [])
    agree("lines drawn", lines_found, wanted | {"E 3", "E 4", "E 5", "E 9"})


def test_cases():
    """Each trace of a case can stand before another one: its records are whole, and at its end no message is open. With
    the records between two cases both ports are active, clean, and with bases 0."""
    for case, port in ((case, port) for case in CASES for port in PORTS):
        for records in case(port):
            played = play(records + settled())
            test_never_both_off(played)
            end = played.moments[-1]
            is_settled = all(own.active and not any(own.status) for own in end.ports)
            is_settled = is_settled and (end.card.write_base, end.card.read_base) == (0, 0)
            if not whole(records) or any(played.numbers[len(parts(records)):]) or not is_settled:
                raise AssertionError(f"{case.__name__} of port {port} does not end settled")


def self_test():
    """Raises AssertionError where a line is not as worked by hand, port 0 alone is not as `trace`, a sentence of
    request 5 is not met, or something is missing."""
    test_by_hand()
    test_port_0_alone()
    test_cases()
    test_drawn()
    records = sum(len(parts(records)) for records in all_traces())
    if len(all_traces()) < LEAST_TRACES or records > MOST_RECORDS:
        raise AssertionError(f"{len(all_traces())} traces of two ports, {records} records")
