#!/usr/bin/env python3
"""Makes the stored vector files again and compares; with --write, writes them.

Run from anywhere: python3 tests/vectors.py [--write]
"""

import sys
from pathlib import Path

sys.dont_write_bytecode = True  # leave no __pycache__ in the repository

from second import (
    apart, known, marks, pins, port_refusals, ports, ports_pins, refused_calls, retry_refusals, rounds, sure, trace,
    unit, vector_records,
)

# Each file and its maker, which gives the number of records and the content.
FILES = [
    ("crates/token_vectors/stdin", vector_records.stdin),
    ("crates/token_vectors/stdout", vector_records.stdout),
    ("crates/marks/stdin", marks.stdin),
    ("crates/marks/stdout", marks.stdout),
    ("crates/trace/stdin", trace.example_stdin),
    ("crates/trace/stdout", trace.example_stdout),
    ("crates/trace_pins/stdin", trace.pins_stdin),
    ("crates/trace_pins/stdout", trace.pins_stdout),
    ("crates/trace_apart/stdin", apart.stdin),
    ("crates/trace_apart/stdout", apart.stdout),
    ("crates/refused_calls/stdin", refused_calls.stdin),
    ("crates/refused_calls/stdout", refused_calls.stdout),
    ("crates/sure_writes/stdin", sure.stdin),
    ("crates/sure_writes/stdout", sure.stdout),
    ("crates/unit/stdin", unit.stdin),
    ("crates/unit/stdout", unit.stdout),
    ("crates/trace_vectors/stdin", trace.vectors_stdin),
    ("crates/trace_vectors/stdout", trace.vectors_stdout),
    ("crates/ports/stdin", ports.stdin),
    ("crates/ports/stdout", ports.stdout),
    ("crates/port_vectors/stdin", ports.vectors_stdin),
    ("crates/port_vectors/stdout", ports.vectors_stdout),
    ("crates/ports_at_pins/stdin", ports_pins.stdin),
    ("crates/ports_at_pins/stdout", ports_pins.stdout),
    ("crates/port_refusals/stdin", port_refusals.stdin),
    ("crates/port_refusals/stdout", port_refusals.stdout),
    ("crates/rounds/stdin", rounds.stdin),
    ("crates/rounds/stdout", rounds.stdout),
    ("crates/retry_refusals/stdin", retry_refusals.stdin),
    ("crates/retry_refusals/stdout", retry_refusals.stdout),
    ("examples/document-01.txt", lambda: trace.shown("document-01")),
    ("examples/accident.txt", lambda: trace.shown("accident")),
]

TOP = Path(__file__).resolve().parent.parent


def first_difference(stored, made):
    """Where the two first differ: the byte, counted from 0, and in a text its line."""
    pairs = zip(stored, made)
    shorter = min(len(stored), len(made))
    place = next((place for place, (old, new) in enumerate(pairs) if old != new), shorter)
    line = f" (line {made[:place].count(10) + 1})" if made.isascii() else ""
    return f"byte {place}{line}"


def compare(path, count, made):
    """Says whether the stored file agrees, and returns it."""
    stored = (TOP / path).read_bytes() if (TOP / path).is_file() else None
    if stored is None:
        print(f"{path}: missing")
    elif stored != made:
        print(f"{path}: differs, first at {first_difference(stored, made)}")
    else:
        print(f"{path}: {count} records, agrees")
    return stored == made


def write(path, count, made):
    (TOP / path).parent.mkdir(parents=True, exist_ok=True)
    (TOP / path).write_bytes(made)
    print(f"{path}: {count} records, written")
    return True


def main(arguments):
    if arguments not in ([], ["--write"]):
        sys.exit(__doc__)
    known.self_test()
    vector_records.self_test()
    marks.self_test()
    pins.self_test()
    trace.self_test()
    apart.self_test()
    sure.self_test()
    refused_calls.self_test()
    unit.self_test()
    ports.self_test()
    ports_pins.self_test()
    port_refusals.self_test()
    rounds.self_test()
    retry_refusals.self_test()
    print(f"crates/unit: {unit.statistic()}")
    print(f"crates/rounds: {rounds.statistic()}")
    handle = write if arguments else compare
    results = [handle(path, *maker()) for path, maker in FILES]
    return 0 if all(results) else 1


if __name__ == "__main__":
    sys.exit(main(sys.argv[1:]))
