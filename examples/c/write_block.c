/* A flight computer's side of one WRITE: builds the message of three words at sub-address 0x10, and reads the response
 * tokens that a card may send with it.
 *
 * Build and run on x86-64, from the top of the repository:
 *
 *   (cd crates/flight && rt lib)
 *   mkdir -p target
 *   gcc -O2 -Wall -Iinclude examples/c/write_block.c crates/flight/out/libflight.a -o target/write_block
 *   target/write_block
 */
#include <stdint.h>
#include <stdio.h>

#include "spi2.h"

enum { WORDS = 3, SUB_ADDRESS = 0x10 };

/* A word as its two bytes, the high byte first. */
static uint8_t *put_word(uint8_t *to, uint16_t word) {
    to[0] = (uint8_t)(word >> 8);
    to[1] = (uint8_t)(word & 0xFF);
    return to + 2;
}

/* The whole message as bytes: token, payload, check word. Gives the number of bytes, or 0 where a call refused. */
static size_t build_write(uint8_t *message, const uint16_t *block, uint32_t words, uint32_t sub_address) {
    uint8_t *end = message;

    uint32_t token = spi2_command_token(SPI2_WRITE, words, sub_address);
    if (SPI2_IS_REFUSAL(token)) {
        printf("token refused, by number %u\n", (unsigned)SPI2_REFUSAL_NUMBER(token));
        return 0;
    }
    end = put_word(end, SPI2_WORD1(token));
    end = put_word(end, SPI2_WORD2(token));
    if (words == 0) {
        return (size_t)(end - message); /* no payload, and no check word */
    }

    uint8_t *payload = end;
    for (uint32_t i = 0; i < words; i++) {
        end = put_word(end, block[i]);
    }
    uint32_t check = spi2_payload_check(payload, (size_t)(end - payload));
    if (SPI2_IS_REFUSAL(check)) {
        printf("payload refused, by number %u\n", (unsigned)SPI2_REFUSAL_NUMBER(check));
        return 0;
    }
    end = put_word(end, (uint16_t)check);
    return (size_t)(end - message);
}

/* What a response token says, the first two words that came back. */
static void print_response(uint16_t word1, uint16_t word2) {
    uint32_t response = spi2_read_response(SPI2_TOKEN(word1, word2));

    printf("response %04X %04X: ", (unsigned)word1, (unsigned)word2);
    if (!SPI2_GOOD(response)) {
        printf("not good, wrong:%s%s%s\n", SPI2_WRONG_PREFIX(response) ? " prefix" : "",
               SPI2_WRONG_SPARE(response) ? " spare" : "", SPI2_WRONG_CRC4(response) ? " CRC-4" : "");
        return;
    }
    printf("STF %u, ME %u, AR %u, IC %u, module state %u\n", (unsigned)SPI2_STF(response), (unsigned)SPI2_ME(response),
           (unsigned)SPI2_AR(response), (unsigned)SPI2_IC(response), (unsigned)SPI2_MODULE_STATE(response));
}

int main(void) {
    static const uint16_t block[WORDS] = {0x0001, 0xBEEF, 0x8005};
    uint8_t message[2 * (WORDS + 3)];

    size_t count = build_write(message, block, WORDS, SUB_ADDRESS);
    printf("message:");
    for (size_t i = 0; i < count; i += 2) {
        printf(" %02X%02X", (unsigned)message[i], (unsigned)message[i + 1]);
    }
    printf("\n");

    /* A length above 63 is refused. */
    build_write(message, block, 64, SUB_ADDRESS);

    /* What a card may have sent: all well; ME, after a damaged message; tokens that were damaged themselves, in the
     * CRC-4, in the spare, and by a line that stays at one. */
    print_response(0x8000, 0x8780);
    print_response(0x9000, 0x878D);
    print_response(0x9000, 0x878C);
    print_response(0x9000, 0x879D);
    print_response(0xFFFF, 0xFFFF);

    /* The WRITE's own token, as a READBACK brings it back. */
    uint32_t command = spi2_read_command(SPI2_TOKEN(0x4DC3, 0x4439));
    printf("read back: good %d, code 0x%02X, length %u, sub-address 0x%02X\n", SPI2_GOOD(command),
           (unsigned)SPI2_CODE(command), (unsigned)SPI2_LENGTH(command), (unsigned)SPI2_SUB_ADDRESS(command));
    return 0;
}
