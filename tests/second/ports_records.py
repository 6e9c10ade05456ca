"""Records of `ports`, which lets a card with two ports (request 5 of document 02) play a trace.

A record looks as one of `trace`, but for its kind, which is 16 times the port, and the operation. The module record has
no port, and so the kind that it has in `trace`.
"""

from .trace_records import RECORD_BYTES, activate, all_sent, parts, release, reset, select, words

PORTS = (0, 1)
KINDS_OF_A_PORT = 16


def other(port):
    return 1 - port


def on(port, records):
    """Records of `trace`, for this port."""
    return b"".join(bytes([KINDS_OF_A_PORT * port + part[0]]) + part[1:] for part in parts(records))


def sent_on(port, *messages):
    return on(port, all_sent(*messages))


def with_inside(port, message, inside, left=0):
    """A message of this port, and inside it other records. These go by the number of the message's words before them:
    0 is behind select, and the number of all words is before release."""
    records = on(port, select()) + inside.get(0, b"")
    for number, word in enumerate(message, 1):
        records += on(port, words([word])) + inside.get(number, b"")
    return records + on(port, release(left))


def places(message):
    """All places inside a message."""
    return range(len(message) + 1)


def woven(*streams):
    """One record of each stream in turn; where a stream is at its end, the others go on."""
    split = [parts(stream) for stream in streams]
    longest = max(len(stream) for stream in split)
    return b"".join(stream[at] for at in range(longest) for stream in split if at < len(stream))


def settled():
    """What makes both ports active, both bases 0, and both statuses clean. At least one port is active before that."""
    return b"".join(sent_on(port, activate()) for port in PORTS) + b"".join(sent_on(port, reset()) for port in PORTS)


def whole(records):
    return len(records) % RECORD_BYTES == 0
