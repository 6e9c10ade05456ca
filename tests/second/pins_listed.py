"""Listed cases of `trace_pins`; each function gives the records of one case. All go to one card in turn, whose memory
the device has filled. WRITEs have the device's words too, so that no two words in the memory are alike."""

from .apart_listed import PLACE
from .apart_records import FILLER
from .checks import word_bits
from .pins_records import BITS, always, clock, cut, cut_words, first, inside, sent_and_written, sent_in_pieces
from .tokens import NO_COMMAND, READ, command_token
from .trace_listed import MOST, SETTING
from .trace_records import (
    RELEASE, SELECT, WORD, activate, all_sent, deactivate, read, readback, record, release, select, sent, tick, words,
    write,
)

# The lengths of READ: short ones, and the most.
SHORT, LONG = (1, 2, 3), 63

# A word cut in two and in three.
CUTS = ((1, 15), (8, 8), (15, 1), (5, 6, 5))

# The numbers of bits of an unfinished word.
UNFINISHED = range(1, 16)

# The CRC-16 of this word is 0x8000, which ends in zeros.
CHECKED_BY_8000 = 0xC002

# Values of kind 6 that count as 16.
ABOVE = (17, 32, 128, 255)

REFUSED_INSIDE = select() + release(16) + release(255)
UNKNOWN = b"".join(record(kind, 7, FILLER) for kind in (0, 4, 7, 16, 133, 255))


def reads(device, lengths, cuts, when, offset=0):
    """READs of each length in each cut. The device writes at the place of the word on its way, or beside it."""
    records = b""
    for length in lengths:
        for sizes in cuts:
            pieces = cut_words(read(length, PLACE, FILLER), *sizes)
            records += sent_and_written(device, PLACE + offset, pieces, when)
    return records


def new_write(device):
    """A WRITE of three words, with its first one at the place behind PLACE."""
    return write(PLACE + 1, [device.word() for _ in range(3)])


def shown():
    """What a message did: its token and status bits, and the memory."""
    return all_sent(readback(), read(5, PLACE, FILLER))


# The device writes while READ sends.

def written_inside_words(device):
    """At the very place of each word after 1, 8 and 15 bits of it, each alone, and in short READs all together: what
    goes out and what the check counts is the word told, as it was at the first bit."""
    alone = ((1, 15), (8, 8), (15, 1))
    return reads(device, (*SHORT, LONG), alone, inside) + reads(device, SHORT, [(1, 7, 7, 1)], inside)


def written_before_words(device):
    """At the very place before the first bit of each word: what was written last goes out. Then also inside it."""
    return reads(device, (*SHORT, LONG), ((16,), (1, 15)), first) + reads(device, SHORT, CUTS, always)


def neighbours_written(device):
    """At the place before and at the one behind, while a word is unfinished: the next word is not told yet, and the one
    before counts as it was told."""
    return reads(device, SHORT[1:], CUTS, inside, -1) + reads(device, SHORT[1:], CUTS, inside, 1)


# Messages in pieces.

def words_in_pieces(device):
    """Each word of READ, READBACK and WRITE cut in two and in three, and of messages that are refused: by the token's
    check, code or place, and by WRITE's own check. The device writes before each piece, and WRITE stores over that."""
    good1, good2, *filler = read(2, PLACE, FILLER)
    records = b""
    for sizes in CUTS:
        *before_check, check = new_write(device)
        messages = (
            read(3, PLACE, FILLER), readback(FILLER), new_write(device), [good1, good2 ^ 1, *filler],
            [*command_token(NO_COMMAND, 2, PLACE), *filler], [*command_token(READ, 2, 255), *filler],
            [*before_check, check ^ 1],
        )
        for message in messages:
            records += sent_and_written(device, PLACE, cut_words(message, *sizes)) + shown()
    return records


def shared_words(device):
    """Words shared by records of kinds 2 and 6: some bits, then records of 16 bits, each with the end of a word and the
    beginning of the next, and the rest; or in turn 16 bits and some. The device writes before each piece of READ,
    READBACK and WRITE."""
    records = b""
    for number in UNFINISHED:
        records += sent_and_written(device, PLACE, cut(word_bits(read(3, PLACE, FILLER)), (number, *[16] * 6)))
    for number in (1, 5, 8, 15):
        for message in (readback(FILLER), new_write(device)):
            records += sent_and_written(device, PLACE, cut(word_bits(message), (number, *[16] * 6))) + shown()
        records += reads(device, [3], [(16, number)], always)
    return records


def beyond_67_words(device):
    """Messages of 72 words, of which 5 bits come first: zeros go out behind the check, also for dropped words."""
    records = b""
    for start in (read(LONG, PLACE, FILLER), write(PLACE, MOST), readback()):
        message = [*start, *[0x4EC1] * 72][:72]
        records += sent_in_pieces(cut(word_bits(message), (5, *[16] * 72))) + shown()
    return records


# The end of a message.

def unfinished_words(device):
    """1 to 15 bits left over: by kind 6, by the release's value, and by both. TICK has all its words, and only the
    left-over bits make it ME; the next select clears them."""
    records = b""
    for left in UNFINISHED:
        for message in ([], [0x4EC1], tick(3)):
            opened = select() + words(message)
            records += opened + clock(left) + release() + opened + release(left)
        for number in sorted({1, left // 2, left - 1} - {0, left}):
            records += select() + words(tick(3)) + clock(number) + release(left - number)
        records += all_sent(readback())
    return records


def words_ended_by_release(device):
    """A release's zero bits end the check of READ, which nobody looks at, and so accept it; one bit less and one more
    are ME. The same with many more, which begin a further word."""
    opened = select() + words(read(1, PLACE, FILLER)[:-1])
    records = b""
    for number in UNFINISHED:
        for left in sorted({15 - number, 16 - number, min(17 - number, 15), 15}):
            records += opened + clock(number) + release(left)
        records += all_sent(readback())
    return records + opened + clock(16) + release() + opened + clock(16) + release(1) + shown()


def commands_ended_by_release(device):
    """WRITE whose check ends in zeros, and TICK whose token does; the last zeros come with the release, and the bits
    before them by kind 6. WRITE stores, over what the device wrote between the bits, and TICK is accepted."""
    block = write(PLACE, [CHECKED_BY_8000])
    records = b""
    for number in UNFINISHED:
        records += select() + words(block[:-1]) + clock(number, block[-1]) + device.write(PLACE)
        records += release(16 - number) + sent(read(1, PLACE)) + device.write(PLACE)
    first_word, second_word = tick(0)
    for number in (14, 15):
        records += select() + words([first_word]) + clock(number, second_word) + release(16 - number)
    return records + shown()


def cleared_by_select(device):
    """A message released with an unfinished word in which READ's word was told: the next one begins with a first bit,
    and what it sends is told then."""
    message = read(1, PLACE, FILLER)
    records = b""
    for number in UNFINISHED:
        bits = word_bits(message)[:32 + number]
        records += sent_and_written(device, PLACE, cut(bits, (16, 16, 16)))
        records += sent_and_written(device, PLACE, cut_words(message, number, 16 - number))
    return records


# Records that clock no bit, or as many as a word has, and refused ones.

def by_bits(pieces, value):
    """The pieces, with kind 6 and this value instead of kind 2."""
    return [(start, bytes([BITS, value]) + part[2:] if part[0] == WORD else part) for start, part in pieces]


def numbers_of_bits(device):
    """Kind 6 with 16 bits and with more, which count as 16, at the beginning of a word and inside it. With 0 nothing is
    told: what the device writes after that goes out."""
    bits, records = word_bits(read(2, PLACE, FILLER)), b""
    for value in (16, *ABOVE):
        for number in (16, 5):
            pieces = by_bits(cut(bits, (number, *[16] * 5)), value)
            records += sent_and_written(device, PLACE, pieces)
    return records + reads(device, SHORT, ((0, 16), (0, 8, 0, 8), (1, 0, 0, 15, 0)), always)


def messages_of_no_bits(device):
    """Kind 6 with no bit: the message is one of no bits, and status and last token stay."""
    records = b""
    for setting in SETTING.values():
        records += all_sent(tick(1), setting) + select() + clock(0) + device.write(PLACE) + clock(0) + release()
        records += all_sent(readback())
    return records


def no_message_open(device):
    """Kind 6 with at least one bit is Closed, and the device writes all the same. The next message begins with its own
    first bit, also after one with an unfinished word."""
    refused = b"".join(clock(number, 0x4EC1) for number in (0, 1, 5, 15, 16, *ABOVE)) + words([0x4EC1])
    bits = word_bits(read(1, PLACE, FILLER))
    records = b""
    for before in (b"", sent([]), sent(tick(2)), sent_in_pieces(cut(bits[:37], (16, 16, 5))), sent([0x4EC1], 9)):
        records += before + refused + device.write(PLACE) + release() + release(16) + clock(3)
        records += sent_in_pieces(cut(bits, (16, 16, 5, 16, 11)))
    return records


def refused_inside_words(device):
    """Select, release with more than 15 left-over bits, and unknown kinds between the pieces of words: they are
    refused, and the word goes on. Unknown kinds outside a message too."""
    records = UNKNOWN
    for refused in (REFUSED_INSIDE, UNKNOWN):
        for sizes in ((8, 8), (5, 16, 11)):
            pieces = [(start, refused + part) for start, part in cut_words(read(2, PLACE, FILLER), *sizes)]
            records += sent_and_written(device, PLACE, pieces)
    return records


def other_bytes(device):
    """Bytes that a kind does not use are ignored."""
    opened = record(SELECT, 0xFF, FILLER) + b"".join(record(WORD, 0xFF, word) for word in tick(4))
    return opened + record(RELEASE, 0, FILLER) + shown()


def port_commands(device):
    """ACTIVATE and DEACTIVATE in whole words and in pieces: accepted, and nothing but status and last token changes."""
    records = b""
    for message in (activate(), deactivate()):
        for sizes in ((16,), (5, 11)):
            records += sent_in_pieces(cut_words(message, *sizes)) + shown()
    return records


def listed_records(device):
    """All listed cases, in a fixed order."""
    cases = (
        no_message_open, written_inside_words, written_before_words, neighbours_written, words_in_pieces, shared_words,
        beyond_67_words, unfinished_words, words_ended_by_release, commands_ended_by_release, cleared_by_select,
        numbers_of_bits, messages_of_no_bits, refused_inside_words, other_bytes, port_commands,
    )
    return b"".join(case(device) for case in cases)
