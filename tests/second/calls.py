"""The cases of tests/c: calls of the flight computer's C program, each with the answer that document 01 and request 6
ask for.

From the folder tests: python3 -m second.calls > FILE. A case is a line, numbers in hex but for the counts:

    command_token KIND code length sub_address answer
    read_command KIND token answer
    read_response KIND token answer
    payload_check KIND start count answer

A line of payload_check has its count bytes behind it, and a newline. Its start says where they are laid, in bytes
after an aligned place; "null" is no place at all. Then come the command codes by name, and how many cases there were:

    code NAME code
    end number
"""

import sys
from itertools import product

from . import tokens
from .checks import crc16
from .damaged_tokens import CHECK, COMMAND_SPARE, PREFIX, RESPONSE_SPARE
from .damaged_tokens import drawn_flips, each_wrong_set, flipped, one_bit_flips, wrong_mark
from .draw import Draw
from .vector_records import every_response_token

ARGUMENT = 5
GOOD = 1 << 31

CODES = (
    "RESET", "SYNCH", "TICK", "READBACK", "WRITE", "READ", "CONFIG_WRITE", "CONFIG_READ", "ACTIVATE", "DEACTIVATE",
)


def refusal(number):
    return number * 65536


def packed(token):
    """A token as one number."""
    word1, word2 = token
    return word1 * 65536 + word2


# ---- answers


def command_token(code, length, sub_address):
    token = tokens.command_token(code, length, sub_address)
    return refusal(ARGUMENT) if token is None else packed(token)


def not_good(wrong):
    """The answer for a token with these wrong marks."""
    return 4 * wrong.prefix + 2 * wrong.spare + wrong.check


def read_command(token):
    fields = tokens.read_command(*token)
    if fields is None:
        return not_good(tokens.command_wrong(*token))
    code, length, sub_address = fields
    return GOOD | code << 16 | length << 8 | sub_address


def read_response(token):
    fields = tokens.read_response(*token)
    if fields is None:
        return not_good(tokens.response_wrong(*token))
    stf, me, ar, ic, module_state = fields
    return GOOD | stf << 7 | me << 6 | ar << 5 | ic << 4 | module_state


def payload_check(payload):
    if len(payload) % 2:
        return refusal(ARGUMENT)
    return crc16([high << 8 | low for high, low in zip(payload[::2], payload[1::2])])


# ---- what is asked


def fields_to_build(draw):
    """Pairs of kind and (code, length, sub-address)."""
    limits = (0, 1, 31, 32, 62, 63), (0, 1, 31, 32, 62, 63), (0, 1, 127, 128, 254, 255)
    for fields in product(*limits):
        yield "limits", fields
    for code, (least, most, last) in tokens.ROWS.items():
        yield "row", (code, least, 0)
        yield "row", (code, most, last)
    for _ in range(3000):
        yield "inside", (draw.below(64), draw.below(64), draw.below(256))
    for place, most in enumerate((63, 63, 255)):
        # The last ones look allowed where only some of their low bits are taken.
        above = (most + 1, 2 * most + 2, 0x10000, 0x7FFFFFFF, 0x80000000, 0xFFFFFFFF, 0x0100_0000, 0x1_0001, 0x100 * (most + 1))
        for number in above:
            for _ in range(40):
                fields = [draw.below(64), draw.below(64), draw.below(256)]
                fields[place] = number
                yield "above", tuple(fields)
    for _ in range(1000):
        yield "drawn", (draw.number(), draw.number(), draw.number())
        yield "near", (draw.below(80), draw.below(80), draw.below(320))


def pair(number):
    return number >> 16, number & 0xFFFF


def read_tokens(draw, good, other, spare):
    """Pairs of kind and token: good ones, the other reader's, and damaged ones."""
    yield "filled", (0x0000, 0x0000)
    yield "filled", (0xFFFF, 0xFFFF)
    for token in good:
        yield "good", token
        yield "check", flipped(token, drawn_flips(draw, CHECK))
        for kind, mask in (("prefix", PREFIX), ("spare", spare)):
            # Several bits of the mark, and one alone; the CRC-4 is right.
            yield kind, wrong_mark(draw, token, mask)
            yield kind, tokens.with_check(*flipped(token, draw.pick(one_bit_flips(mask))))
    for token in good[:60]:
        for flips in one_bit_flips():
            yield "flipped", flipped(token, flips)
        for damaged in each_wrong_set(draw, token, spare):
            yield "marks", damaged
    for token in other:
        yield "other", token
    for _ in range(1000):
        token = pair(draw.number())
        yield "drawn", token
        yield "drawn", tokens.with_check(*token)


def command_tokens(draw):
    return [tokens.command_token(draw.below(64), draw.below(64), draw.below(256)) for _ in range(1000)]


def response_tokens(draw):
    every = list(every_response_token())
    # In any order, so that those of which every bit is flipped differ in all fields.
    return [draw.pick(every) for _ in range(744)] + every


def drawn_bytes(draw, count):
    return bytes(draw.below(256) for _ in range(count))


def payloads(draw):
    """Triples of kind, start and bytes."""
    yield "null", "null", b""
    for start in range(16):
        yield "empty", start, b""
    for count in range(301):
        kind = "odd" if count % 2 else "even"
        for _ in range(8):
            yield kind, 0, drawn_bytes(draw, count)
        yield "unaligned", draw.between(1, 15), drawn_bytes(draw, count)
        yield "zeros", 0, bytes(count)
        yield "ones", 0, b"\xFF" * count
    # Each single bit of one to nine words: up to two fours of words, and up to three left over.
    for count in range(2, 20, 2):
        for place in range(8 * count):
            yield "one_bit", 0, (1 << place).to_bytes(count, "big")
    for start in range(1, 64):
        yield "unaligned", start, drawn_bytes(draw, 126)
    for _ in range(100):
        payload = drawn_bytes(draw, 2 * draw.between(1, 63))
        yield "checked", 0, payload + payload_check(payload).to_bytes(2, "big")
    for count in (10000, 20002, 32768, 65534, 65536, 65538):
        yield "long", draw.below(16), drawn_bytes(draw, count)
    for count in (10001, 65535, 65537):
        yield "long_odd", draw.below(16), drawn_bytes(draw, count)


# ---- the file


def write(out):
    """Writes every case, and how many there were."""
    number = 0

    def line(*parts):
        nonlocal number
        number += 1
        out.write(" ".join(part if isinstance(part, str) else f"{part:X}" for part in parts).encode("ascii") + b"\n")

    draw = Draw(77)
    for kind, fields in fields_to_build(draw):
        line("command_token", kind, *fields, command_token(*fields))
    commands, responses = command_tokens(draw), response_tokens(draw)
    for kind, token in read_tokens(draw, commands, responses, COMMAND_SPARE):
        line("read_command", kind, packed(token), read_command(token))
    for kind, token in read_tokens(draw, responses, commands, RESPONSE_SPARE):
        line("read_response", kind, packed(token), read_response(token))
    for kind, start, payload in payloads(draw):
        place = start if start == "null" else str(start)
        line("payload_check", kind, place, str(len(payload)), payload_check(payload))
        out.write(payload + b"\n")
    for name in CODES:
        line("code", name, getattr(tokens, name))
    out.write(f"end {number}\n".encode("ascii"))


if __name__ == "__main__":
    write(sys.stdout.buffer)
