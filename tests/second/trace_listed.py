"""Traces for listed cases; each function gives the records of one trace, or of several."""

from .addresses import word_address
from .trace_records import (
    MODULE, RELEASE, SELECT, WORD,
    activate, all_sent, config_read, config_write, deactivate, module, read, readback, record, release, reset, select,
    sent, synch, tick, words, write,
)
from .tokens import NO_COMMAND, READ, RESET, ROWS, TICK, WRITE, command_token, with_check

BLOCK = [0x1234, 0xABCD, 0x8001]
MOST = [(index * 0x0B05 + 0x7003) & 0xFFFF for index in range(63)]

# Each leaves the card with one of the status sets that a refused message can set.
SETTING = {
    "none": [0x40C0, 0x4033],
    "ME": [0x40C0, 0x4032],
    "AR": [0x48C0, 0x5033],
    "IC": [0x66C0, 0x4033],
    "ME and IC": [0x00C0, 0x4033],
}

# In bytes: around those from which 63 words, one word and none reach the end of memory; far ones; odd ones.
BASES = (
    0, 2, 384, 386, 510, 512, 514,
    0x1FFFE, 0x20000, 0xFFFFFFFE,
    1, 387, 511, 513, 0xFFFFFFFF,
)


def run_and_compared():
    """Document 01's cases, each followed by a READBACK that shows status and last token. Code 0x24 is accepted since
    request 5, and 0x26 is unknown in its place."""
    one = write(0, [0x5A5A])
    cases = [
        [[0x48C0, 0x5033]],
        [[0x64C0, 0x4034], [0x66C0, 0x4033]],
        [read(1, 255)],
        [read(2, 255)],
        [[0x4DC0, 0x7FFB]],
        [one[:-1]],
        [[*one, 0]],
    ]
    return [b"".join(all_sent(message, readback(), read(1, 0)) for message in case) for case in cases]


def short_messages():
    """No bits, bits only, one word, one word and left-over bits, after every status set."""
    records = b""
    for setting in SETTING.values():
        for message in ([], [0x40C0], [0xFFFF]):
            for left in range(16):
                records += sent(setting) + sent(message, left)
        records += all_sent(readback())
    return records


def nothing_between():
    """A message of no bits keeps status and last token, also between two commands."""
    records = b""
    for setting in SETTING.values():
        records += all_sent(tick(1), setting, [], readback(), setting, [], [], reset())
    return records


def long_messages():
    """Messages of 66, 67, 68 and 80 words, with and without left-over bits."""
    starts = (write(0, MOST), read(63, 0), readback(), reset(), tick(0), write(0, []),
              SETTING["IC"], [0x0000, 0x0000], read(63, 255))
    traces = []
    for start in starts:
        records = all_sent(write(0, MOST[:4]))
        for number in (66, 67, 68, 80):
            longer = [*start, *[0x4DC1] * number][:number]
            records += sent(longer) + sent(longer, 7) + all_sent(read(4, 0), readback())
        traces.append(records)
    return traces


def most_words():
    """WRITE and READ of 63 words; the check of READ, and MOSI words that nobody looks at."""
    return all_sent(
        write(0, MOST), read(63, 0), read(63, 0, 0xFFFF), read(62, 1), read(63, 1),
        write(193, MOST), read(63, 193), read(63, 192), write(192, MOST), read(63, 193),
        write(0, [0] * 63), read(63, 0), readback(0xFFFF),
    )


def lengths():
    """WRITE and READ of every length."""
    records = b""
    for length in range(64):
        records += all_sent(write(100 + length, MOST[:length]), read(length, 100 + length))
    return records


def readbacks():
    """READBACK after each command, and after refused ones."""
    commands = [
        reset(), synch(0x0123456789ABCDEF), tick(63), write(16, BLOCK), write(9, []), read(3, 16),
        read(0, 9), readback(), config_write(14), config_read(18), config_write(7), config_read(9),
    ]
    records = all_sent(readback(), readback())
    for message in commands:
        records += all_sent(message, readback(0x1111), readback())
    for setting in SETTING.values():
        records += all_sent(tick(5), setting, readback(), readback())
    # Cut, longer, and with left-over bits: each ME, and no last token.
    for number in range(8):
        cut = [*readback(), 0xFFFF, 0xFFFF, 0xFFFF][:number]
        records += all_sent(tick(number)) + sent(cut, 0) + sent(cut, 1) + all_sent(readback())
    return records


def bits_of_time():
    """TICK with every index, each twice from 0 and from all ones; SYNCH, and wrap-around."""
    traces = [all_sent(tick(index)) for index in (0, 1, 15, 16, 31, 32, 47, 48, 62, 63)]
    traces += [all_sent(tick(index), tick(index)) for index in range(64)]
    traces += [all_sent(synch(2 ** 64 - 1), tick(index)) for index in range(64)]
    traces.append(all_sent(*[tick(index) for index in range(256)]))
    return traces


def times():
    """SYNCH with the words in their order; a refused one leaves the time."""
    values = (1, 0x10000, 0x100000000, 0x1000000000000, 0xFFFFFFFFFFFFFFFF, 0x0123456789ABCDEF, 0)
    traces = [all_sent(synch(value)) for value in values]
    good = synch(0x1122334455667788)
    for number in range(8):
        changed = [*good, 0, 0]
        traces.append(all_sent(good, synch(5), changed[:number], readback()))
    for place in range(2, 7):
        damaged = list(good)
        damaged[place] ^= 0x0100
        traces.append(all_sent(synch(5), damaged, readback(), tick(0)))
    traces.append(all_sent(synch(5)) + sent(good, 1) + sent(good, 15))
    traces.append(all_sent(synch(5), reset(), tick(63)))
    return traces


def near_end(base, length):
    """Sub-addresses at both ends and around the end of memory."""
    end = 256 - length - word_address(base, 0)
    return sorted({0, 1, 255, *[place for place in (end - 1, end, end + 1) if 0 <= place <= 255]})


def around_end(write_base, read_base):
    """WRITE and READ of 0, 1 and 63 words around the end of memory, by both bases, whose halves are equal."""
    records = all_sent(config_write(write_base), readback(), config_read(read_base), readback())
    for length in (0, 1, 63):
        for sub_address in near_end(write_base, length):
            block = [word ^ sub_address for word in MOST[:length]]
            records += all_sent(write(sub_address, block), read(length, sub_address))
    # The bases are two: each alone goes back to 0, and the whole memory's end is read.
    records += all_sent(config_read(0), read(63, 193), read(4, 0))
    records += all_sent(config_write(0), write(0, BLOCK), read(3, 0))
    return records


def bases():
    """Both bases alike, even or odd."""
    return [around_end(base, base) for base in BASES]


def one_odd_base():
    """Only the write base or only the read base is odd, and the other one is the even base before it."""
    traces = []
    for even in (2, 386, 512):
        traces += [around_end(even + 1, even), around_end(even, even + 1)]
    return traces


def far_bases():
    """Bases that come back into memory where they, their halves or a sum, in words or in bytes, are taken modulo 2^16,
    2^24, 2^31 or 2^32."""
    records = b""
    sums = (0xFF00, 0x1FF00, 0x3FF00, 0xFFFFFF00, 0xFFFFFFFE, 0xFFFFFFFF)
    for base in (*sums, 0x10000, 0x20000, 0x01000000, 0x02000000, 0x80000000):
        records += all_sent(config_write(base), config_read(base))
        for sub_address in (0, 1, 127, 128, 129, 255):
            records += all_sent(write(sub_address, [0xBAD1]), read(1, sub_address))
            records += all_sent(write(sub_address, []), read(0, sub_address))
    return records + whole_memory()


def every_word_differs():
    """Fills the memory."""
    fill = [0x5000 + place for place in range(256)]
    return all_sent(*[write(place, fill[place:place + 63]) for place in range(0, 256, 63)])


def whole_memory():
    """Reads all of it, once RESET has cleared the bases."""
    return all_sent(reset(), *[read(min(63, 256 - place), place) for place in range(0, 256, 63)])


def halved_bases():
    """Bases with even and odd halves, and even and odd sub-addresses: only the base is halved. A READ's place shows in
    the words that it sends, a WRITE's in the whole memory at the end."""
    records = every_word_differs()
    for number, base in enumerate((2, 4, 6, 30, 254, 256, 508)):
        records += all_sent(config_read(base), *[read(2, sub_address) for sub_address in (0, 1, 2, 3, 127, 255)])
        # No two of these go to one place.
        marked = [write(sub_address, [256 * number + sub_address]) for sub_address in (1, 5, 21, 32, 97, 255)]
        records += all_sent(config_write(base), *marked)
    return records + whole_memory()


def base_bits():
    """Each bit of a base alone: the lowest makes it odd, the next lead to other words, the others beyond memory."""
    records = every_word_differs()
    for place in range(32):
        base = 1 << place
        records += all_sent(config_write(base), config_read(base), read(1, 0), write(0, [place]), read(1, 0))
    return records + whole_memory()


def odd_configs():
    """CONFIG takes an odd base: READBACK shows a clean status and its token. What goes by that base is refused, and
    sends and stores nothing, until the base is even again, or RESET clears it. The other base is 0, or the same."""
    records = all_sent(write(0, MOST[:16]))
    for configs in ([config_write], [config_read], [config_write, config_read]):
        for base in (7, 6, 7):
            records += all_sent(SETTING["AR"], *[config(base) for config in configs], readback())
            records += all_sent(write(1, [base]), readback(), read(2, 1), readback(), write(3, []), read(0, 3))
        records += all_sent(reset(), read(16, 0))
    return records


def odd_base_steps():
    """With odd bases: a wrong token decides before them, they before a wrong number of words and a wrong check, and the
    commands without a base do not look at them."""
    records = all_sent(write(0, BLOCK), config_write(1), config_read(1))
    for message in (write(0, BLOCK), read(3, 0), write(0, []), read(0, 0)):
        first, second, *payload = message
        wrong_prefix = with_check(first ^ 0x8000, second)
        records += all_sent([first, second ^ 1, *payload], [*wrong_prefix, *payload])
        records += all_sent(message[:1], message[:-1], [*message, 0], [*message[:-1], message[-1] ^ 0x8000])
        records += sent(message, 1) + sent(message[:2], 15) + all_sent(message)
    others = (tick(1), synch(7), config_write(3), config_read(5), readback(), SETTING["AR"], SETTING["IC"])
    for message in others:
        records += all_sent(message, read(1, 0), write(0, [7]))
    return records + all_sent(reset(), read(4, 0))


def before_reset(base):
    """A card of which all differs from power-up, with this base twice."""
    start = module(0x1A) + all_sent(synch(0xFEDC), write(0, BLOCK), write(40, BLOCK[::-1]))
    return start + all_sent(config_write(base), config_read(base), read(3, 0), write(1, [0x0BAD]))


def reset_clears_bases():
    """RESET clears both bases, odd ones too, and nothing else; a refused RESET does nothing."""
    end = all_sent(read(3, 0), write(0, [0x0C0C]), read(3, 0), config_read(0), read(63, 0))
    bad = ([*reset(), 0], [0x40C0, 0x4032], with_check(0x40C0, 0x4070), with_check(0x40C1, 0x4030))
    return [before_reset(base) + all_sent(message) + end for base in (80, 81) for message in (reset(), *bad)]


def refused_config():
    """CONFIG with a wrong count or check leaves the base; its length is 2. The same with odd bases."""
    records = all_sent(write(0, [*range(1, 20)]), config_write(6), config_read(10))
    for good in (config_write(22), config_read(26), config_write(23), config_read(27)):
        for number in range(7):
            records += all_sent([*good, 0, 0][:number], read(2, 0), write(0, [number]), read(2, 1))
        for place in range(2, 5):
            damaged = list(good)
            damaged[place] ^= 1
            records += all_sent(damaged, read(2, 0), write(0, [place]), read(2, 1))
        records += sent(good, 1) + all_sent(read(2, 0), good, read(2, 0))
    return records + all_sent(reset(), read(24, 0))


def dropped_writes():
    """A WRITE whose select drops after each number of words and of left-over bits."""
    message = [*write(16, BLOCK), 0xFFFF]
    records = all_sent(write(16, [1, 2, 3]))
    for number in range(len(message) + 1):
        for left in range(16):
            records += sent(message[:number], left) + all_sent(read(3, 16), write(16, [1, 2, 3]))
    return records


def dropped_long_writes():
    """The same with 63 words, every number of words, and one left-over bit."""
    message = write(193, MOST)
    cuts = [sent(message[:number], left) for number in range(66) for left in (0, 1)]
    cuts.append(sent(message, 1) + sent(message, 15))
    return b"".join(cuts) + all_sent(read(63, 193), message, read(63, 193))


def damaged_writes():
    """A WRITE with each bit flipped; memory is read after each."""
    message = write(16, BLOCK)
    records = all_sent(write(16, [1, 2, 3]))
    for bit in range(16 * len(message)):
        damaged = list(message)
        damaged[bit // 16] ^= 0x8000 >> bit % 16
        records += all_sent(damaged, read(3, 16))
    return records


def marks():
    """All prefixes and spares of both words, with a right and a wrong CRC-4."""
    records = all_sent(write(0, [0xBEEF]))
    good1, good2 = command_token(READ, 1, 0)
    for number in range(256):
        word1 = good1 ^ (number >> 6) << 14 ^ (number >> 4 & 3) << 6
        word2 = good2 ^ (number >> 2 & 3) << 14 ^ (number & 3) << 4
        word1, word2 = with_check(word1, word2)
        wrong = word2 ^ number % 15 + 1
        records += all_sent([word1, word2, 0, 0], [word1, wrong, 0, 0])
    return records


def wrong_checks():
    """Each of the fifteen wrong values of CRC-4, for a known and an unknown code."""
    records = b""
    for code in (TICK, NO_COMMAND, 0x3F):
        word1, word2 = command_token(code, 0, 1)
        records += all_sent(*[[word1, word2 ^ wrong] for wrong in range(16)], readback())
    return records


def first_failing_step():
    """Several faults in one message: the first failing step decides alone."""
    after_unknown = with_check(0xE6C0, 0x4030)
    records = all_sent(
        [0x66C0, 0x4032], after_unknown, [after_unknown[0], after_unknown[1] ^ 1], [0, 0], [0, 1],
        [0xFFFF, 0xFFFF], [*command_token(READ, 2, 255), 0], [*command_token(WRITE, 2, 255), 0],
        [*command_token(WRITE, 2, 255), 1, 2, 0], [*command_token(WRITE, 1, 0), 5, 0, 0],
        [*command_token(WRITE, 1, 0), 5, 0], [*command_token(0x3F, 1, 0), 5, 0], read(1, 0),
    )
    for setting in SETTING.values():
        for left in (0, 1, 15):
            records += sent(setting, left) + sent([*setting, 0xFFFF], left)
    return records + all_sent(readback())


def every_code():
    """Every code with lengths 0 to 5, and with sub-address 1."""
    records = b""
    for code in range(64):
        for length in range(6):
            padding = [0] * (length + 1 if length else 0)
            records += all_sent([*command_token(code, length, 0), *padding])
        records += all_sent([*command_token(code, 0, 1)])
    return records + all_sent(readback())


def every_length():
    """The table's codes with every length, in two words: IC, ME, AR or accepted."""
    records = b""
    for code in ROWS:
        for sub_address in (0, 1, 255):
            records += all_sent(*[command_token(code, length, sub_address) for length in range(64)])
    return records


def every_sub_address():
    """The table's codes at their least length with sub-addresses at the edges of the rows."""
    records = b""
    for code, (least, _, _) in ROWS.items():
        padding = [0] * (least + 1 if least else 0)
        for sub_address in (0, 1, 2, 31, 32, 62, 63, 64, 65, 127, 128, 192, 254, 255):
            records += all_sent([*command_token(code, least, sub_address), *padding])
    return records + all_sent(readback())


def odd_ticks():
    """TICK with length not 0 and index above 63, or not; RESET with sub-address 1."""
    records = b""
    for length in (0, 1, 2, 63):
        for index in (0, 63, 64, 128, 255):
            token = command_token(TICK, length, index)
            records += all_sent([*token], [*token, *[0] * (length + 1)]) + sent(token, 1)
    return records + all_sent(command_token(RESET, 0, 1), readback(), command_token(RESET, 1, 0))


def module_values():
    """Every module value, shown by the next response token in every status."""
    traces = []
    for setting in SETTING.values():
        records = b""
        for value in range(32):
            # Also downward, so that each bit is seen to fall.
            for next_value in (value, 31 - value):
                records += all_sent(setting) + module(next_value) + all_sent(setting)
        for value in range(32, 256):
            records += module(value)
        traces.append(records + all_sent(readback(), reset()))
    return traces


def refused_inside():
    """All that is refused inside a message: select, module, release above 15."""
    records = b"".join(record(SELECT, value, 0x4DC1) for value in (0, 1, 16))
    records += b"".join(module(value) for value in (*range(33), 47, 48, 128, 255))
    return records + b"".join(release(left) for left in (16, 17, 31, 32, 128, 255))


def refused_outside():
    """All that is refused outside a message: word, release, module above 31."""
    records = b"".join(record(WORD, 0, word) for word in (0, 0x4DC1, 0xFFFF))
    records += b"".join(release(left) for left in (*range(18), 128, 255))
    return records + b"".join(module(value) for value in (32, 33, 47, 48, 128, 255))


def unknown_kinds():
    return b"".join(record(kind, 1, 0x40C0) for kind in (0, 5, 6, 16, 33, 128, 255))


def refusals():
    """Every refusal in every state, and the message goes on unharmed."""
    messages = (write(8, BLOCK), read(3, 8), readback(), synch(77), [*write(0, MOST), *[0] * 6])
    traces = []
    for message in messages:
        for refused in (refused_inside(), unknown_kinds()):
            traces.append(b"".join(disturbed(message, place, refused) for place in places(message)))
    for setting in SETTING.values():
        outside = refused_outside() + unknown_kinds()
        traces.append(outside + all_sent(setting) + outside + all_sent(readback()) + outside)
    traces.append(b"".join(record(kind) for kind in range(256)))
    return traces


def places(message):
    """After no word, one, two, in the payload, before and after the last word."""
    return sorted({0, 1, 2, 3, len(message) // 2, len(message) - 1, len(message)})


def disturbed(message, place, refused):
    """A message with refused records at one place, then what it did."""
    inside = select() + words(message[:place]) + refused + words(message[place:]) + release()
    return inside + all_sent(read(3, 8), readback())


def other_bytes():
    """Bytes that a kind does not use are ignored."""
    message = write(3, BLOCK)
    records = record(MODULE, 0x15, 0xFFFF) + record(SELECT, 0xFF, 0xFFFF)
    records += b"".join(record(WORD, 0xF0 + place, word) for place, word in enumerate(message))
    return records + record(RELEASE, 0, 0xFFFF) + all_sent(read(3, 3))


def unfinished():
    """A last record of 1, 2 or 3 bytes, of each kind, outside and inside a message."""
    message = all_sent(tick(4))
    starts = (b"", message, select() + words(tick(4)), message + module(40))
    traces = []
    for number in (1, 2, 3):
        for start in starts:
            for kind in (0, 1, 2, 3, 4, 5):
                traces.append(start + record(kind)[:number])
    return traces


def open_at_end():
    """A message that is never released does nothing."""
    return [select() + words(message) for message in ([], tick(9), synch(9), write(0, BLOCK))]


def refused_forms(message):
    """A command of two words, refused in each way: its words and left-over bits."""
    first, second = message
    other_tokens = [
        (first, second ^ 1), with_check(first ^ 0x8000, second), with_check(first ^ 0x40, second),
        with_check(first, second ^ 0x4000), with_check(first, second ^ 0x10),
        with_check(first | 1, second), with_check(first, second | 0x40),
    ]
    forms = [([*token], 0) for token in other_tokens]
    return forms + [([first], 0), ([*message, 0], 0), ([], 1), (message, 1), (message, 15)]


def port_commands():
    """ACTIVATE and DEACTIVATE at a card of which one port alone is used: accepted, and they change nothing but status
    and last token. Refused in each way, they change the status alone."""
    traces = []
    for message in (activate(), deactivate()):
        shown = all_sent(readback(), read(3, 0), write(0, [0x0C0C]), read(3, 0), tick(2))
        traces.append(before_reset(80) + all_sent(message) + shown + module(9) + all_sent(message, readback()))
        after_settings = [[tick(5), setting, message, readback()] for setting in SETTING.values()]
        traces.append(b"".join(all_sent(*messages) for messages in after_settings))
        refused = [sent(*form) for form in refused_forms(message)]
        traces.append(b"".join(all_sent(tick(5)) + form + all_sent(readback()) for form in refused))
    return traces


def listed_traces():
    """All listed traces but those of port_commands, in a fixed order."""
    single = (
        short_messages, nothing_between, most_words, lengths, readbacks, far_bases, halved_bases, base_bits,
        odd_configs, odd_base_steps, refused_config, dropped_writes, dropped_long_writes, damaged_writes, marks,
        wrong_checks, first_failing_step, every_code, every_length, every_sub_address, odd_ticks, other_bytes,
    )
    several = (
        run_and_compared, long_messages, bits_of_time, times, bases, one_odd_base, reset_clears_bases,
        module_values, refusals, unfinished, open_at_end,
    )
    traces = [b""] + [make() for make in single]
    for make in several:
        traces += make()
    return traces
