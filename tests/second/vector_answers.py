"""The line of crates/token_vectors/stdout that answers each record of crates/token_vectors/stdin."""

from .checks import crc4, crc16
from .tokens import (
    ROWS, command_marks, command_token, command_wrong, field, read_command, read_response, response_marks,
    response_token, response_wrong,
)

PAYLOAD, TOKEN, BUILD_COMMAND, BUILD_RESPONSE, ROW = 1, 2, 3, 4, 5

ARGUMENT = "E 5"


def payload_line(words):
    # Three times: the other program works the check in three ways.
    return "P " + " ".join([f"{crc16(words):04X}"] * 3)


def marks_digits(marks):
    return "".join(str(int(mark)) for mark in marks)


def bytes_digits(numbers):
    return " ".join(f"{number:02X}" for number in numbers)


def not_good_digits(wrong):
    """Request 6: which of prefix, spare and CRC-4 are wrong."""
    return "-" + marks_digits(wrong)


def command_digits(words):
    fields = read_command(*words)
    return not_good_digits(command_wrong(*words)) if fields is None else bytes_digits(fields)


def response_digits(words):
    fields = read_response(*words)
    if fields is None:
        return not_good_digits(response_wrong(*words))
    *flags, module_state = fields
    return "".join(str(flag) for flag in flags) + f" {module_state:X}"


def token_line(words):
    return " ".join([
        "T",
        f"{crc4(*words):X}",
        marks_digits(command_marks(*words)),
        command_digits(words),
        marks_digits(response_marks(*words)),
        response_digits(words),
    ])


def built_line(letter, token):
    return ARGUMENT if token is None else f"{letter} {token[0]:04X} {token[1]:04X}"


def build_command_line(words):
    return built_line("C", command_token(*words))


def build_response_line(words):
    flags = [field(words[0], place, place) for place in (3, 2, 1, 0)]
    return built_line("S", response_token(*flags, field(words[1], 7, 0)))


def row_line(words):
    row = ROWS.get(field(words[0], 7, 0))
    return "L -" if row is None else "L " + bytes_digits(row)


LINES = {
    PAYLOAD: payload_line,
    TOKEN: token_line,
    BUILD_COMMAND: build_command_line,
    BUILD_RESPONSE: build_response_line,
    ROW: row_line,
}


def line(kind, words):
    return LINES[kind](words)
