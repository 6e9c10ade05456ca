"""What `marks` answers to its stored records (request 6, document 02): of each token, which marks are wrong."""

from .call_answers import RECORD
from .damaged_tokens import PREFIX, flipped, inside, one_bit_flips, test_sets
from .known import agree
from .marks_records import COMMAND, KINDS, RESPONSE, UNFINISHED, UNKNOWN, all_records, packed
from .tokens import command_wrong, response_wrong

WRONG = {COMMAND: command_wrong, RESPONSE: response_wrong}

NAMES = ("prefix", "spare", "CRC-4")

REFUSED = f"E {RECORD}"

# Lines worked by hand, with each set of wrong marks; known.WRONG_COMMANDS says how.
BY_HAND = """\
C 4DC1 403A ------ ----- -----
C 4DC1 403B ------ ----- CRC-4
C 4D41 413A ------ spare -----
C 4DC1 402A ------ spare CRC-4
C CDC0 403A prefix ----- -----
C 0DC1 403A prefix ----- CRC-4
C 8000 8780 prefix spare -----
C CD40 413B prefix spare CRC-4
R 8000 8780 ------ ----- -----
R 9000 878C ------ ----- CRC-4
R 8200 8380 ------ spare -----
R 9000 879D ------ spare CRC-4
R C000 0780 prefix ----- -----
R 9000 C78D prefix ----- CRC-4
R 40C0 4033 prefix spare -----
R FFFF FFFF prefix spare CRC-4
"""


def column(name, is_wrong):
    return name if is_wrong else "-" * len(name)


def line(letter, words):
    if letter not in WRONG:
        return REFUSED
    columns = map(column, NAMES, WRONG[letter](*words))
    return " ".join([chr(letter), *(f"{word:04X}" for word in words), *columns])


def stdin():
    """(number of records, content) of crates/marks/stdin."""
    records = [*(packed(*record) for record in all_records()), UNFINISHED]
    return len(records), b"".join(records)


def stdout():
    """(number of records, content) of crates/marks/stdout."""
    lines = [*(line(*record) for record in all_records()), REFUSED]
    return len(lines), "".join(text + "\n" for text in lines).encode("ascii")


# The test.

def test_by_hand():
    for wanted in BY_HAND.splitlines():
        letter, *words = wanted.split()[:3]
        agree(f"line of {letter} {words}", line(ord(letter), [int(word, 16) for word in words]), wanted)
    for letter in UNKNOWN:
        agree(f"line of the letter {letter}", line(letter, (0x4DC1, 0x403A)), "E 9")


def test_single_flip(letter, token, flips):
    """The CRC-4 is wrong, and the prefix or the spare where the bit is one of theirs."""
    wanted = inside(flips, PREFIX), inside(flips, KINDS[letter].spare), True
    agree(f"wrong marks of {token} with {flips} flipped", WRONG[letter](*flipped(token, flips)), wanted)


def self_test():
    """Raises AssertionError where a line is not the one worked by hand, a single flip is said to be something else than
    it is, or a set of wrong marks is missing."""
    test_by_hand()
    for letter, kind in KINDS.items():
        for token in kind.known:
            for flips in one_bit_flips():
                test_single_flip(letter, token, flips)
        read = [words for own, words in all_records() if own == letter]
        test_sets(f"records of {chr(letter)}", [WRONG[letter](*words) for words in read])
