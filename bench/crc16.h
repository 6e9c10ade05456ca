#include <stddef.h>
#include <stdint.h>

uint32_t crc16_by_nibbles(const uint8_t *bytes, size_t count);
uint32_t crc16_by_bytes(const uint8_t *bytes, size_t count);
uint32_t crc16_by_eights(const uint8_t *bytes, size_t count);
uint32_t crc16_by_bits(const uint8_t *bytes, size_t count);

/* Once, before crc16_by_bytes and crc16_by_eights. */
void crc16_make_tables(void);
