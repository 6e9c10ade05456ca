"""CRC-4 and CRC-16, worked bit by bit from their polynomials."""

from functools import lru_cache

CRC4_POLYNOMIAL = 0b1_0011  # x^4 + x + 1
CRC16_POLYNOMIAL = 0b1_1000_0000_0000_0101  # x^16 + x^15 + x^2 + 1


def bits(value, width):
    """The bits of a number, highest first."""
    return [value >> place & 1 for place in reversed(range(width))]


def number(bit_list):
    """The number that a list of bits stands for, highest first."""
    value = 0
    for bit in bit_list:
        value = 2 * value + bit
    return value


def word_bits(words):
    """The bits of words in order, each from bit 15."""
    return [bit for word in words for bit in bits(word, 16)]


def crc(polynomial, width, message_bits):
    """The remainder of the message, with width zeros behind it, by the polynomial; the start value is 0."""
    rest = list(message_bits) + [0] * width
    terms = [term for term, bit in enumerate(bits(polynomial, width + 1)) if bit]
    for place in range(len(message_bits)):
        if rest[place]:
            for term in terms:
                rest[place + term] ^= 1
    return number(rest[len(message_bits):])


@lru_cache(maxsize=None)  # few tokens, asked for again at every step of every message
def crc4(word1, word2):
    """The CRC-4 that a token's two words ask for: bits 3-0 of word 2 do not count."""
    return crc(CRC4_POLYNOMIAL, 4, bits(word1, 16) + bits(word2, 16)[:12])


def crc16(words):
    """The CRC-16 of payload words in order, each from bit 15."""
    return crc(CRC16_POLYNOMIAL, 16, word_bits(words))
