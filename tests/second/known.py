"""The values printed in document 01, some of requests 2, 3, 5 and 6 worked by hand, and the test of this program
against them."""

from .addresses import base_of
from .card import AR, CLEAN, IC, ME, Card, exchanged, judge, take, tell, whole_message
from .checks import crc4, crc16
from .tokens import (
    ACTIVATE, CONFIG_WRITE, DEACTIVATE, NO_COMMAND, READ, READBACK, RESET, ROWS, SYNCH, TICK, WRITE,
    command_marks, command_token, command_wrong, read_command, read_response, response_marks, response_token,
    response_wrong,
)
from .trace_records import config_write, read, write

# (code, length, sub-address), (word 1, word 2)
COMMANDS = [
    ((RESET, 0, 0), (0x40C0, 0x4033)),
    ((READBACK, 2, 0), (0x4AC2, 0x403F)),
    ((WRITE, 1, 0), (0x4DC1, 0x403A)),
    ((WRITE, 3, 0x10), (0x4DC3, 0x4439)),
    ((READ, 63, 255), (0x4EFF, 0x7FF1)),
    ((SYNCH, 4, 0), (0x47C4, 0x4038)),
    ((TICK, 0, 0), (0x48C0, 0x403C)),
    ((TICK, 0, 63), (0x48C0, 0x4FFD)),
    ((CONFIG_WRITE, 2, 0), (0x60C2, 0x403E)),
    # The next two stand under "Run and compared", the third one in the trace example.
    ((TICK, 0, 64), (0x48C0, 0x5033)),
    ((ACTIVATE, 0, 0), (0x64C0, 0x4034)),
    ((READ, 1, 0), (0x4EC1, 0x4037)),
    # Request 5: the other row that it brings, and the code that is unknown now.
    ((DEACTIVATE, 0, 0), (0x65C0, 0x403E)),
    ((NO_COMMAND, 0, 0), (0x66C0, 0x4033)),
]

# (STF, ME, AR, IC, module state), (word 1, word 2)
RESPONSES = [
    ((0, 0, 0, 0, 0), (0x8000, 0x8780)),
    ((0, 1, 0, 0, 0), (0x9000, 0x878D)),
    ((0, 1, 0, 1, 0), (0x9400, 0x8783)),
]

COMMAND_WORDS = [words for _, words in COMMANDS]
RESPONSE_WORDS = [words for _, words in RESPONSES]

# Request 6: words, and which of prefix, spare and CRC-4 are wrong of them as a command token. One flipped bit makes the
# CRC-4 wrong as well; two flipped bits 15 places apart leave it right, since x^15 leaves 1 by x^4 + x + 1.
WRONG_COMMANDS = [
    ((0x4DC3, 0x4438), (0, 0, 1)),
    ((0x0DC3, 0x4439), (1, 0, 1)),
    ((0x4DC3, 0x0439), (1, 0, 1)),
    ((0x4D83, 0x4439), (0, 1, 1)),
    ((0x4DC3, 0x4429), (0, 1, 1)),
    # Bits 15 and 0 of word 1; bit 7 of word 1 and bit 8 of word 2; all four; and the lowest bit of the CRC-4 too.
    ((0xCDC2, 0x4439), (1, 0, 0)),
    ((0x4D43, 0x4539), (0, 1, 0)),
    ((0xCD42, 0x4539), (1, 1, 0)),
    ((0xCD42, 0x4538), (1, 1, 1)),
    # The CRC-4 of zeros is 0, that of ones is hex C. The spare of ones is right here.
    ((0x0000, 0x0000), (1, 1, 0)),
    ((0xFFFF, 0xFFFF), (1, 0, 1)),
    # A good response.
    ((0x8000, 0x8780), (1, 1, 0)),
]

# The same of them as a response token.
WRONG_RESPONSES = [
    ((0x9000, 0x878C), (0, 0, 1)),
    ((0xD000, 0x878D), (1, 0, 1)),
    ((0x9000, 0xC78D), (1, 0, 1)),
    ((0x9010, 0x878D), (0, 1, 1)),
    ((0x9000, 0x879D), (0, 1, 1)),
    ((0x9000, 0xA78D), (0, 1, 1)),
    # Bit 14 of word 1 and bit 15 of word 2; bit 9 of word 1 and bit 10 of word 2; all four.
    ((0xD000, 0x078D), (1, 0, 0)),
    ((0x9200, 0x838D), (0, 1, 0)),
    ((0xD200, 0x038D), (1, 1, 0)),
    ((0x0000, 0x0000), (1, 1, 0)),
    ((0xFFFF, 0xFFFF), (1, 1, 1)),
    # A good command.
    ((0x4DC3, 0x4439), (1, 1, 0)),
]

# words, their CRC-16
CHECKS = [
    ([0x0001], 0x8005),
    ([0x0002], 0x800F),
    ([0x0003], 0x000A),
]

# The words of a message, and the status bits that it sets: what stands under "Run and compared". Code 0x24 is accepted
# since request 5, and so is 0x25; 0x26 is the unknown one.
JUDGED = [
    ([0x48C0, 0x5033], AR),
    ([0x64C0, 0x4034], CLEAN),
    ([0x65C0, 0x403E], CLEAN),
    ([0x66C0, 0x4033], IC),
    (read(1, 255), CLEAN),
    (read(2, 255), AR),
    (write(255, []), CLEAN),
    (write(0, [1])[:-1], ME),
    ([*write(0, [1]), 0], ME),
]

# Request 2, with a memory of 256 words: write base, read base, the words of a message, and the status bits it sets.
JUDGED_BY_BASES = [
    (1, 0, write(0, []), AR),
    (1, 0, read(0, 0), CLEAN),
    (0, 1, write(0, []), CLEAN),
    (0, 1, read(0, 0), AR),
    (510, 0, write(0, [1]), CLEAN),
    (510, 0, write(1, [1]), AR),
    (0, 386, read(63, 0), CLEAN),
    (0, 388, read(63, 0), AR),
    (512, 512, write(0, []), CLEAN),
    (512, 512, read(1, 0), AR),
    (513, 513, read(1, 0), AR),
    (0xFFFFFFFE, 0xFFFFFFFE, write(1, []), AR),
    (0xFFFFFFFF, 0xFFFFFFFF, config_write(1), CLEAN),
]

# Request 3, READ of one word: what its place holds in each telling and in the taking, and the check of what counts.
TOLD = [
    ([1], 2, 0x8005),
    ([1, 2], 3, 0x800F),
    ([2, 1, 3], 1, 0x000A),
    ([], 3, 0x000A),
]

GOOD = (True, True, True)


def agree(what, found, wanted):
    # Not an assert statement: python -O would leave it out.
    if found != wanted:
        raise AssertionError(f"{what}: the documents have {wanted}, this program {found}")


def test_commands():
    for fields, words in COMMANDS:
        agree(f"command token of {fields}", command_token(*fields), words)
        agree(f"command marks of {words}", command_marks(*words), GOOD)
        agree(f"command fields of {words}", read_command(*words), fields)
        agree(f"{words} as a response", read_response(*words), None)


def test_responses():
    for fields, words in RESPONSES:
        agree(f"response token of {fields}", response_token(*fields), words)
        agree(f"response marks of {words}", response_marks(*words), GOOD)
        agree(f"response fields of {words}", read_response(*words), fields)
        agree(f"{words} as a command", read_command(*words), None)


def test_wrong_marks():
    for words, wrong in WRONG_COMMANDS:
        agree(f"wrong marks of {words} as a command", command_wrong(*words), wrong)
        agree(f"command fields of {words}", read_command(*words), None)
    for words, wrong in WRONG_RESPONSES:
        agree(f"wrong marks of {words} as a response", response_wrong(*words), wrong)
        agree(f"response fields of {words}", read_response(*words), None)


def test_checks():
    for words, check in CHECKS:
        agree(f"CRC-16 of {words}", crc16(words), check)
        agree(f"CRC-16 of {words} and its check word", crc16(words + [check]), 0)
    agree("CRC-16 of zeros", crc16([0, 0]), 0)
    agree("CRC-4 of zeros", crc4(0, 0), 0)
    agree("0000 0000 as a command", read_command(0, 0), None)


def test_table():
    agree("number of rows", len(ROWS), 10)
    agree("row of code 0x24", ROWS[0x24], (0, 0, 0))
    agree("row of code 0x25", ROWS[0x25], (0, 0, 0))
    agree("code 0x26 has a row", 0x26 in ROWS, False)
    agree("last index of TICK", ROWS[TICK][2], 63)


def test_judgement():
    for words, status in JUDGED:
        agree(f"status bits after {words}", judge(Card(256), words, 0), status)
    for write_base, read_base, words, status in JUDGED_BY_BASES:
        card = Card(256, write_base=write_base, read_base=read_base)
        agree(f"status bits after {words} with {card}", judge(card, words, 0), status)


def test_byte_bases():
    """Base 6 is word 3 and base 2 word 1; sub-address 1 is the word behind."""
    memory, card = [100, 101, 102, 103, 104, 105, 106], Card(7, write_base=6, read_base=2)
    sent, _, _ = whole_message(card, read(2, 1), 0, [memory] * 6)
    agree("words sent by READ", sent[2:4], [102, 103])
    _, _, after = whole_message(card, write(1, [7, 8]), 0, [memory] * 6)
    agree("memory after WRITE", after, [100, 101, 102, 103, 7, 8, 106])
    agree("bases of a table's blocks", [base_of(place) for place in (0, 63, 126)], [0, 126, 252])


def test_changing_memory():
    """What no trace shows: the memory is another one in each call of a message."""
    memories = [[10 * call + place for place in range(4)] for call in range(6)]
    sent, _, memory = whole_message(Card(4), read(2, 1), 0, memories)
    agree("words sent by READ", sent[2:], [21, 32, crc16([21, 32]), 0])
    agree("memory after READ", memory, [50, 51, 52, 53])
    _, _, memory = whole_message(Card(4), write(1, [7, 8]), 0, memories)
    agree("memory after WRITE", memory, [50, 7, 8, 53])


def test_tell_and_take():
    """Request 3: the word told counts, of several the last one, and where none is told the one that take would tell."""
    card = Card(1)
    for tellings, taking, check in TOLD:
        _, message = exchanged(card, read(1, 0)[:2], [[0], [0]])
        for word in tellings:
            told, message = tell(card, message, [word])
            agree("word told by READ, and the note of it", (told, message.note), (word, word))
        message = take(card, message, 0, [taking])
        agree("note after a word taken", message.note, None)
        agree(f"check after {tellings} and {taking}", tell(card, message, [0])[0], check)


def self_test():
    """Raises AssertionError where a value of the documents is not met."""
    test_commands()
    test_responses()
    test_wrong_marks()
    test_checks()
    test_table()
    test_judgement()
    test_byte_bases()
    test_changing_memory()
    test_tell_and_take()
