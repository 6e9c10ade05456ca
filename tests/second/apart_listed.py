"""Listed cases of `trace_apart`; each function gives the records of one case. All go to one card in turn, so a case
leaves both bases 0."""

from itertools import cycle

from .addresses import base_of, word_address
from .apart_records import FILLER, PART, TELL, sent_with, take, taken, tell
from .tokens import NO_COMMAND, READ, command_token, with_check
from .trace_listed import BLOCK, MOST, SETTING
from .trace_records import (
    RELEASE, SELECT, activate, all_sent, config_read, config_write, deactivate, read, readback, record, release, reset,
    select, sent, synch, tick, words, write,
)

LENGTHS = (1, 2, 3, 63)
PLACE = 100

REFUSED_BY_SIZE = tell(PART) + take(FILLER, PART) + tell(255) + take(FILLER, 255)
REFUSED_INSIDE = select() + release(16) + release(255)
UNKNOWN = b"".join(record(kind, PLACE, FILLER) for kind in (0, 6, 7, 16, 36, 133, 255))


# Ways for a word of READ: the records for the word at this place of the memory.

def taken_only(device, place):
    return take(FILLER)


def told(device, place):
    return tell() + take(FILLER)


def written_behind_telling(device, place):
    return tell() + device.write(place) + take(FILLER)


def written_between_tellings(device, place):
    return tell() + device.write(place) + tell() + device.write(place) + take(FILLER)


def told_three_times(device, place):
    return device.write(place) + tell() + tell() + device.write(place) + tell() + take(FILLER) + device.write(place)


def written_around_taking(device, place):
    return device.write(place) + take(FILLER) + device.write(place)


def neighbours_written(device, place):
    return tell() + device.write(place - 1) + device.write(place + 1) + take(FILLER)


WAYS = (
    written_behind_telling, written_between_tellings, written_around_taking, taken_only, told_three_times, told,
    neighbours_written,
)


def read_by(device, ways, length, before=b"", base=0):
    """A READ of words that the device has just written, each going one of the ways in turn. Before the words of the
    token there are these records, and the check is told: it shows which words counted."""
    sub_address = PLACE - word_address(base, 0)
    records = device.fill(PLACE, length) + select() + taken(command_token(READ, length, sub_address), before)
    for place, way in zip(range(PLACE, PLACE + length), cycle(ways)):
        records += way(device, place)
    return records + taken([FILLER], tell()) + release()


def reads_by(device, *ways):
    """READs of each length, with the words of the token not told, told, and told twice."""
    tellings = (b"", tell(), 2 * tell())
    return b"".join(read_by(device, ways, length, before) for length in LENGTHS for before in tellings)


def reads_with_refused(device, refused):
    """READs with refused records before and behind each telling, writing and taking, of the token's words too. The word
    told counts, though the memory is another one by then."""
    def way(device, place):
        return refused + tell() + refused + device.write(place) + refused + take(FILLER) + refused
    return b"".join(read_by(device, [way], length, refused + tell() + refused) for length in (1, 2, 3))


# READ, told and taken.

def written_after_telling(device):
    """Each word is told, then written over by the device, then taken: the check is over the words told."""
    return reads_by(device, written_behind_telling)


def told_twice(device):
    """Each word is told, written over, told again and written over again: the second telling counts, and only once.
    Then each is told three times, of which the third counts."""
    return reads_by(device, written_between_tellings) + reads_by(device, told_three_times)


def taken_without_telling(device):
    """No word is told. Each is written just before it is taken, and again behind that: it counts as it was in take."""
    return reads_by(device, written_around_taking) + reads_by(device, taken_only)


def mixed_tellings(device):
    """All ways in one READ, and in short ones each way at each place."""
    records = b""
    for first in range(len(WAYS)):
        turned = WAYS[first:] + WAYS[:first]
        records += b"".join(read_by(device, turned, length, tell()) for length in (1, 2, 3, len(WAYS)))
    return records + reads_by(device, *WAYS)


def reads_with_a_base(device):
    """READ by an even base: told at half of it plus the sub-address, and the device writes there."""
    records = b""
    for base in (base_of(1), base_of(37), base_of(PLACE)):
        records += sent_with(tell(), config_read(base)) + read_by(device, WAYS, len(WAYS), tell(), base)
    return records + all_sent(reset())


# The end of a message, and the next one.

def told_then_released(device):
    """A word is told at each place of a READ, which is released then, with no, one and 15 left-over bits. In the READ
    after it only the check is told."""
    message = read(2, PLACE, FILLER)
    records = b""
    for number in range(len(message) + 1):
        for left in (0, 1, 15):
            records += device.fill(PLACE, 2) + select() + words(message[:number]) + tell() + release(left)
            records += read_by(device, [taken_only], 2)
    return records


def nothing_told_next(device):
    """All words of a message are told, and none of the next one's, not even its check. READBACK shows what that did."""
    records = b""
    for message in (read(3, PLACE, FILLER), write(PLACE, BLOCK), readback(), SETTING["AR"]):
        records += device.fill(PLACE, 3) + sent_with(tell(), message) + sent(message) + sent_with(tell(), readback())
    return records


def behind_the_last_word(device):
    """Told twice after the last word of READ and READBACK: the check. Told after the check and further words: zeros."""
    records = device.fill(PLACE, 63)
    for message in (*[read(length, PLACE, FILLER) for length in LENGTHS], readback()):
        records += b"".join(sent_with(2 * tell(), [*message, *[FILLER] * further]) for further in (0, 1, 2))
    return records


def beyond_67_words(device):
    """Messages of 72 words, told and not told, and told in the end only: zeros are told behind the check, also for
    words that are counted as 67 and dropped."""
    records = device.fill(PLACE, 63)
    for start in (read(63, PLACE, FILLER), write(PLACE, MOST), readback(), SETTING["IC"]):
        message = [*start, *[0x4EC1] * 72][:72]
        records += sent_with(tell(), message) + sent(message, 7)
        records += select() + words(message[:66]) + taken(message[66:], 2 * tell()) + release()
    return records + sent_with(tell(), readback())


def messages_of_no_bits(device):
    """No word is taken, but one is told, once and twice: status and last token stay, and the note goes."""
    records = b""
    for setting in SETTING.values():
        records += all_sent(tick(1), setting) + sent_with(tell(), []) + sent_with(2 * tell(), [])
        records += sent_with(tell(), readback())
    return records


# Refused calls.

def no_message_open(device):
    """Tell and take at power-up, between messages, and after one in which a word was told: Closed, and with a part of
    the memory Size, which comes first. Release too is Closed, and the device writes all the same."""
    records = b""
    for before in (b"", sent_with(tell(), []), all_sent(tick(2)), sent_with(tell(), read(1, PLACE, FILLER), 3)):
        records += before + tell() + take(0x4EC1) + device.write(PLACE) + REFUSED_BY_SIZE + release() + release(16)
    return records


def part_of_the_memory(device):
    """Tell and take with a part of the memory, at each word of a READ, with and without a word told: they are refused,
    and neither note nor count changes."""
    return reads_with_refused(device, REFUSED_BY_SIZE)


def refused_while_told(device):
    """Select, and release with more than 15 left-over bits, at each word of a READ, with and without a word told: they
    are refused, and the note stays."""
    return reads_with_refused(device, REFUSED_INSIDE)


def unknown_kinds(device):
    """Outside and inside a message, with and without a word told: they change nothing."""
    return UNKNOWN + reads_with_refused(device, UNKNOWN) + UNKNOWN


def other_bytes(device):
    """Bytes that a kind does not use are ignored."""
    token = command_token(READ, 1, PLACE)
    opened = record(SELECT, 0xFF, FILLER) + taken(token, record(TELL, 0, FILLER))
    return device.fill(PLACE, 1) + opened + taken([FILLER, FILLER], tell()) + record(RELEASE, 0, FILLER)


# Other commands and other tokens.

def other_commands(device):
    """WRITE, READBACK, CONFIG, SYNCH, TICK and RESET with no, one and three tellings of each word, which change
    nothing. READBACK shows the token, and READ what WRITE and CONFIG did."""
    messages = (
        write(PLACE, BLOCK), write(PLACE, []), readback(), synch(0x0123456789ABCDEF), tick(40),
        config_write(base_of(2)), write(PLACE, BLOCK[::-1]), config_read(base_of(1)), reset(),
    )
    records = b""
    for number in (0, 1, 3):
        records += device.fill(PLACE, 5)
        for message in messages:
            records += sent_with(number * tell(), message) + sent_with(tell(), readback())
            records += sent_with(tell(), read(5, PLACE, FILLER))
    return records


def port_commands(device):
    """ACTIVATE and DEACTIVATE with no, one and three tellings of each word: accepted, and READBACK shows the token."""
    records = b""
    for message in (activate(), deactivate()):
        for number in (0, 1, 3):
            records += sent_with(number * tell(), message) + sent_with(tell(), readback())
    return records


def failing_tokens(device):
    """READs with a wrong CRC-4, prefix, spare or code, beyond the memory, and by an odd base: zeros are told, whatever
    the device writes, and the next token shows the status bits."""
    good1, good2, *filler = read(2, PLACE, FILLER)
    tokens = [
        (good1, good2 ^ 1), (good1 ^ 0x4000, good2), with_check(good1 ^ 0x8000, good2), with_check(good1, good2 ^ 0x10),
        command_token(NO_COMMAND, 2, PLACE), command_token(READ, 2, 255), command_token(READ, 63, 194),
    ]
    records = device.fill(PLACE, 3) + device.fill(253, 3)
    for token in tokens:
        records += sent_with(tell() + device.write(PLACE) + device.write(255) + tell(), [*token, *filler])
    for base in (1, base_of(PLACE) + 1, base_of(255)):
        records += all_sent(config_read(base))
        records += sent_with(tell() + device.write(PLACE) + tell(), read(2, 0, FILLER)) + sent_with(tell(), readback())
    return records + all_sent(reset())


def reads_of_no_words(device):
    """READ of length 0 is accepted with its two words; what is told behind them is 0, also where more come."""
    records = device.fill(PLACE, 2)
    for message in (read(0, PLACE), [*read(0, PLACE), FILLER], [*read(0, PLACE), FILLER, FILLER]):
        records += sent_with(tell(), message) + sent_with(tell() + device.write(PLACE) + tell(), message)
        records += sent(message) + sent_with(tell(), message, 1)
    return records


# The device writes elsewhere than around a word of READ.

def written_between_messages(device):
    """Between two messages, behind select, and inside the token: a READ tells what the memory holds then."""
    message = read(3, PLACE, FILLER)
    records = b""
    for number in range(3):
        records += device.fill(PLACE, 3) + sent_with(tell(), message)
        records += select() + taken(message[:number], tell()) + device.fill(PLACE, 3)
        records += taken(message[number:], tell()) + release()
    return records


def written_inside_write(device):
    """The device writes at the places of a WRITE and beside them, at each of its words and before its release. WRITE
    still stores at release, over that; a refused one does not."""
    message = write(PLACE + 1, BLOCK)
    wrong_check = [*message[:-1], message[-1] ^ 1]
    records = b""
    for whole in (message, wrong_check, message[:-1], message):
        records += select()
        for word in whole:
            records += tell() + device.fill(PLACE, 5) + take(word)
        records += device.fill(PLACE, 5) + tell() + release() + sent_with(tell(), read(5, PLACE, FILLER))
    return records


def listed_records(device):
    """All listed cases, in a fixed order; the first one begins at power-up."""
    cases = (
        no_message_open, written_after_telling, told_twice, taken_without_telling, mixed_tellings, reads_with_a_base,
        told_then_released, nothing_told_next, behind_the_last_word, beyond_67_words, messages_of_no_bits,
        part_of_the_memory, refused_while_told, unknown_kinds, other_bytes, other_commands, failing_tokens,
        reads_of_no_words, written_between_messages, written_inside_write, port_commands,
    )
    return b"".join(case(device) for case in cases)
