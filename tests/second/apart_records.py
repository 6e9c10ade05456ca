"""Records of `trace_apart`, where the card's next word is told apart from the word taken (request 3 of document 02),
and the device writes into the memory between any two calls.

A record looks as one of `trace`. Select and release are the same; the word of WORD is taken, and no word is given back.
TELL asks for the next word, and PUT has the device write the record's word at the place that is its value.
"""

from .trace_records import WORD, record, release, select

TELL, PUT = 4, 5

# With this value, as with any but 0, only a part of the memory is lent to tell and take.
PART = 1

# What the controller sends where the card does not look at it.
FILLER = 0xFFFF


def tell(value=0):
    return record(TELL, value)


def take(word, value=0):
    return record(WORD, value, word)


def taken(message, before=b""):
    """The words of a message, with these records before each."""
    return b"".join(before + take(word) for word in message)


def sent_with(before, message, left=0):
    """The records of one whole message, with these before each word and before the release."""
    return select() + taken(message, before) + before + release(left)


class Device:
    """What writes into the memory. None of its words is 0 and no two are alike, so that a word from a wrong place or a
    wrong time is seen."""

    def __init__(self):
        self.count = 0

    def word(self):
        self.count += 1
        # The factor is odd, so that the words of all counts up to 65535 differ.
        return self.count * 0x9E37 & 0xFFFF

    def write(self, place):
        return record(PUT, place, self.word())

    def fill(self, place, count):
        return b"".join(self.write(at) for at in range(place, place + count))
