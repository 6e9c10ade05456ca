/* The CRC-16 of payload bytes as one would write it in C: what payload.c measures the proved one against. */
#include "crc16.h"

/* Through a table of 16 entries, half a byte at a time. */
static const uint16_t half_bytes[16] = {
    0x0000, 0x8005, 0x800F, 0x000A, 0x801B, 0x001E, 0x0014, 0x8011,
    0x8033, 0x0036, 0x003C, 0x8039, 0x0028, 0x802D, 0x8027, 0x0022,
};

uint32_t crc16_by_nibbles(const uint8_t *bytes, size_t count) {
    uint16_t check = 0;
    for (size_t i = 0; i < count; i++) {
        check = (uint16_t)(half_bytes[check >> 12 ^ bytes[i] >> 4] ^ check << 4);
        check = (uint16_t)(half_bytes[check >> 12 ^ (bytes[i] & 15)] ^ check << 4);
    }
    return check;
}

/* The check of each byte with 0 to 7 zero bytes behind it. */
static uint16_t tables[8][256];

void crc16_make_tables(void) {
    for (unsigned byte = 0; byte < 256; byte++) {
        uint8_t with_zeros[8] = {(uint8_t)byte};
        for (unsigned zeros = 0; zeros < 8; zeros++) {
            tables[zeros][byte] = (uint16_t)crc16_by_bits(with_zeros, zeros + 1);
        }
    }
}

/* Through a table of 256 entries, a byte at a time. */
static uint16_t with_byte(uint16_t check, uint8_t byte) {
    return (uint16_t)(tables[0][check >> 8 ^ byte] ^ check << 8);
}

uint32_t crc16_by_bytes(const uint8_t *bytes, size_t count) {
    uint16_t check = 0;
    for (size_t i = 0; i < count; i++) {
        check = with_byte(check, bytes[i]);
    }
    return check;
}

/* Through eight tables of 256 entries, eight bytes at a time. */
uint32_t crc16_by_eights(const uint8_t *bytes, size_t count) {
    uint16_t check = 0;
    size_t i = 0;
    for (; i + 8 <= count; i += 8) {
        const uint8_t *b = bytes + i;
        check = (uint16_t)(tables[7][b[0] ^ check >> 8] ^ tables[6][b[1] ^ (check & 255)] ^ tables[5][b[2]]
                           ^ tables[4][b[3]] ^ tables[3][b[4]] ^ tables[2][b[5]] ^ tables[1][b[6]] ^ tables[0][b[7]]);
    }
    for (; i < count; i++) {
        check = with_byte(check, bytes[i]);
    }
    return check;
}

/* Bit by bit, with no branch that a processor would have to guess. */
uint32_t crc16_by_bits(const uint8_t *bytes, size_t count) {
    uint16_t check = 0;
    for (size_t i = 0; i < count; i++) {
        check = (uint16_t)(check ^ bytes[i] << 8);
        for (int bit = 0; bit < 8; bit++) {
            check = (uint16_t)(check << 1 ^ 0x8005 * (check >> 15));
        }
    }
    return check;
}
