"""What a word costs the card: nanoseconds and instructions for a record of the trace program.

bench/words runs it, with the program and a folder to write traces to.
"""

import math
import re
import resource
import shutil
import subprocess
import sys
from pathlib import Path

sys.path.append(str(Path(__file__).resolve().parent.parent / "tests"))

from second.draw import Draw
from second.trace_records import read, sent, write

LINE_NS = 160  # 16 bits at 100 Mbit/s
MEMORY_WORDS = 256
LENGTH = 63  # the longest payload
RECORDS = LENGTH + 5  # of a message: select, token of two words, payload, check, release

# A trace repeats a round of drawn messages: so many that the processor does not learn the payloads by heart, and so few
# that the second program soon has their checks.
ROUND = 70
# A shorter and a longer trace, in rounds. Their difference is taken, so that the program's start does not count.
COUNTED = (2, 4)
TIMED = (21, 210)
REPETITIONS = 7


# The traces.

def drawn_write(draw):
    return write(draw.between(0, MEMORY_WORDS - LENGTH), draw.words(LENGTH))


def drawn_read(draw):
    return read(LENGTH, draw.between(0, MEMORY_WORDS - LENGTH), draw.word())


# Each case with its messages, which come in turn.
CASES = {"WRITE": [drawn_write], "READ": [drawn_read], "mixed": [drawn_write, drawn_read]}


def filled():
    """The records of WRITEs that fill the memory, so that READ does not bring zeros."""
    draw = Draw(0)
    places = [*range(0, MEMORY_WORDS - LENGTH, LENGTH), MEMORY_WORDS - LENGTH]
    return b"".join(sent(write(place, draw.words(LENGTH))) for place in places)


def drawn_round(kinds):
    draw = Draw(1)
    return b"".join(sent(kinds[number % len(kinds)](draw)) for number in range(ROUND))


def trace(folder, case, rounds):
    """Writes a trace, and gives its file."""
    file = Path(folder, f"{case}-{rounds}.records")
    file.write_bytes(filled() + rounds * drawn_round(CASES[case]))
    return file


# Runs of the program.

def run(command, file, stdout=subprocess.DEVNULL, stderr=None):
    with open(file, "rb") as records:
        return subprocess.run(command, stdin=records, stdout=stdout, stderr=stderr, check=True)


def see_accepted(program, file):
    """Stops where not every message is accepted: something else would be measured."""
    messages = file.stat().st_size // (4 * RECORDS)
    accepted = run([program], file, stdout=subprocess.PIPE).stdout.count(b"R 000\n")
    if accepted != messages:
        sys.exit(f"words: {program} accepts {accepted} of the {messages} messages in {file}")


def processor_seconds():
    """What all runs so far have taken of the processor: waiting for other programs does not count."""
    used = resource.getrusage(resource.RUSAGE_CHILDREN)
    return used.ru_utime + used.ru_stime


def nanoseconds(program, file):
    before = processor_seconds()
    run([program], file)
    return (processor_seconds() - before) * 1e9


def instructions(program, file):
    """The program's and its libraries' instructions; those of the system are not counted."""
    callgrind = ["valgrind", "--tool=callgrind", "--callgrind-out-file=/dev/null"]
    said = run([*callgrind, program], file, stderr=subprocess.PIPE).stderr
    return int(re.search(rb"Collected : (\d+)", said)[1])


def for_a_record(measure, program, folder, lengths, repetitions):
    """What each case takes for one record, from the least of the repetitions."""
    files = {(case, rounds): trace(folder, case, rounds) for case in CASES for rounds in lengths}
    for file in files.values():
        see_accepted(program, file)
    least = dict.fromkeys(files, math.inf)
    # The traces take turns, so that a slow moment of the machine meets all of them.
    for _ in range(repetitions):
        for key, file in files.items():
            least[key] = min(least[key], measure(program, file))
    shorter, longer = lengths
    records = (longer - shorter) * ROUND * RECORDS
    return {case: (least[case, longer] - least[case, shorter]) / records for case in CASES}


def main(program, folder):
    times = for_a_record(nanoseconds, program, folder, TIMED, REPETITIONS)
    counted = shutil.which("valgrind") is not None
    counts = for_a_record(instructions, program, folder, COUNTED, 1) if counted else {}
    print(
        f"The card, by the trace program: a record (select, word or release) of messages with {LENGTH} words of payload,\n"
        f"with its reading and its line. The best of {REPETITIONS} repetitions of a million records, beside a word's time\n"
        f"on a line of 100 Mbit/s:"
    )
    print(f"{'messages':20}{'ns a record':>20}{f'of {LINE_NS} ns':>20}{'instructions':>20}")
    for case in CASES:
        count = f"{counts[case]:.0f}" if counted else "-"
        print(f"{case:20}{times[case]:20.1f}{times[case] / LINE_NS:20.0%}{count:>20}")
    if not counted:
        print("The instructions are not counted: valgrind is not installed.")


if __name__ == "__main__":
    main(*sys.argv[1:])
