"""Records of `ports_at_pins`, where the bits of two ports come one by one.

Select, word, release and BITS look as those of `trace_pins`, but for their kind, which is 16 times the port, and the
operation. The module record and the device's PUT have no port, and so the kinds that they have in the other programs.
"""

from .apart_records import FILLER, PUT
from .checks import word_bits
from .pins_records import BITS, clock, cut_words, piece, sent_in_pieces
from .ports_records import on, other, sent_on, woven
from .trace_records import MODULE, RECORD_BYTES, RELEASE, SELECT, WORD, parts, readback, record, release, select

OF_A_PORT = (SELECT, WORD, RELEASE, BITS)
WITHOUT_PORT = (MODULE, PUT)


def at_pins(port, records):
    """Records of `trace_pins`, for this port; the device's stay as they are."""
    return b"".join(part if part[0] in WITHOUT_PORT else on(port, part) for part in parts(records))


def in_pieces(port, message, *sizes):
    """A whole message of this port, with pieces of these sizes in turn."""
    return on(port, sent_in_pieces(cut_words(message, *sizes)))


def bit_by_bit(port, message):
    return in_pieces(port, message, 1)


def pieces_between(port, bits, start, stop):
    """The pieces of these bits from one number of bits to another one, cut where a word ends."""
    stops = [start, *range(start - start % 16 + 16, stop, 16), stop]
    return on(port, b"".join(piece(bits[first:last]) for first, last in zip(stops, stops[1:])))


def opened(port, message, number):
    """Select, and the first bits of a message, as many as the number says."""
    return on(port, select()) + pieces_between(port, word_bits(message), 0, number)


def ended(port, message, number):
    """What comes behind so many bits of a message: the other bits, and the release."""
    bits = word_bits(message)
    return pieces_between(port, bits, number, len(bits)) + on(port, release())


def inside_bits(port, bits, inside, zeros=0):
    """A message of this port, and inside it other records. These go by the number of the message's bits before them: 0
    is behind select, and the number of all bits is before release. The release has some zero bits of its own."""
    stops = [0, *sorted({len(bits), *inside} - {0})]
    records = on(port, select()) + inside.get(0, b"")
    for start, stop in zip(stops, stops[1:]):
        records += pieces_between(port, bits, start, stop) + inside.get(stop, b"")
    return records + on(port, release(zeros))


def inside_words(port, message, inside):
    """The same, for the bits of whole words."""
    return inside_bits(port, word_bits(message), inside)


def clocked(port, count):
    """So many ones, which are no word's."""
    return on(port, clock(count))


def woven_from(records, number, stream):
    """The records, and from behind so many of them on those of the stream in turn with them."""
    first = RECORD_BYTES * number
    return records[:first] + woven(records[first:], stream)


def put(place, word):
    """The device writes this word."""
    return record(PUT, place, word)


def kept(port):
    """What shows the port's status and last token."""
    return sent_on(port, readback(FILLER))


def both_kept(port):
    return kept(port) + kept(other(port))
