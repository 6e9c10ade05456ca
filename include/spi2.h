/* spi2.h: the calls that a flight computer's C program makes to build and read SPI-2 tokens and to check payloads.
 *
 * For C99 and later, and C++. Link with libflight.a (`rt lib`, called in crates/flight, writes crates/flight/out/libflight.a, for Linux
 * on x86-64). The calls keep no state, allocate nothing, never fail in any other way than said here, and may be made from
 * several threads at once.
 * Each is proved to answer as said here, for every argument: crates/flight.
 *
 * WORDS. SPI-2 sends words of 16 bits, the most significant bit first. A message is a token of two words and, where its
 * length n is not 0, n payload words and a check word behind them.
 *
 * TOKENS. Here a token is one number of 32 bits: its word 1 times 65,536 plus its word 2. So 0x4DC1403A has the words
 * 0x4DC1, sent first, and 0x403A.
 *
 * REFUSALS. A call that refuses its arguments answers with the refusal's number times 65,536. There is one such number
 * here: 5, Argument, so the answer is 0x00050000. No token and no check has that value: every token that is built is at
 * least 0x40000000, and every check is below 0x00010000. SPI2_IS_REFUSAL tells them apart. The readers never refuse:
 * every number of 32 bits can be read, and is found good or not good.
 *
 * WRONG MARKS. A token has three marks: its prefix, which is bits 15-14 of both words; its spare, which is every other bit
 * with a fixed value; and its CRC-4, which is bits 3-0 of word 2. Where one or more are wrong the token is not good, and a
 * reader answers with the sum of
 *
 *   4  the prefix is wrong
 *   2  the spare is wrong
 *   1  the CRC-4 is wrong
 *
 * for all that apply: so with 1 to 7, and bit 31 is clear. A good token's answer has bit 31 set. No reader answers with 0
 * or with a refusal: ask SPI2_GOOD whether a token is good, and do not compare with 0.
 */
#ifndef SPI2_H
#define SPI2_H

#include <stddef.h>
#include <stdint.h>

#ifdef __cplusplus
extern "C" {
#endif

/* The codes that a card knows, each with the length and the sub-address that go with it. */
#define SPI2_RESET 0x00u        /* length 0, sub-address 0 */
#define SPI2_SYNCH 0x07u        /* length 4, sub-address 0 */
#define SPI2_TICK 0x08u         /* length 0, sub-address 0 to 63: the index of a bit */
#define SPI2_READBACK 0x0Au     /* length 2, sub-address 0 */
#define SPI2_WRITE 0x0Du        /* length 0 to 63, sub-address 0 to 255 */
#define SPI2_READ 0x0Eu         /* length 0 to 63, sub-address 0 to 255 */
#define SPI2_CONFIG_WRITE 0x20u /* length 2, sub-address 0; payload: the write base, its high word first */
#define SPI2_CONFIG_READ 0x21u  /* length 2, sub-address 0; payload: the read base, its high word first */
#define SPI2_ACTIVATE 0x24u     /* length 0, sub-address 0: switches the card's other port on */
#define SPI2_DEACTIVATE 0x25u   /* length 0, sub-address 0: switches the card's other port off */

/* A base is a byte address of the card's memory and should be even: a block of WRITE or READ begins at the word
 * base / 2 + sub-address, and by an odd base the card refuses both, with AR. */

/* spi2_command_token: builds the token of a command.
 *
 *   code         0 to 63
 *   length       0 to 63: the number of payload words
 *   sub_address  0 to 255
 *
 * Answers with the token; or with the refusal Argument, 0x00050000, where an argument is above its range. Any code up to
 * 63 is built, with any length and sub-address in range: whether a card takes the command is the card's to judge.
 *
 *   spi2_command_token(SPI2_WRITE, 1, 0)        0x4DC1403A
 *   spi2_command_token(SPI2_WRITE, 3, 0x10)     0x4DC34439
 *   spi2_command_token(SPI2_WRITE, 64, 0)       0x00050000, refused
 *
 *   uint32_t token = spi2_command_token(SPI2_WRITE, 3, 0x10);
 *   if (SPI2_IS_REFUSAL(token)) ..              refused, by SPI2_REFUSAL_NUMBER(token)
 *   send(SPI2_WORD1(token));
 *   send(SPI2_WORD2(token));
 */
uint32_t spi2_command_token(uint32_t code, uint32_t length, uint32_t sub_address);

/* spi2_read_command: reads a command token, as the payload of a READBACK has one.
 *
 *   token        any number: SPI2_TOKEN(word1, word2) of two words received
 *
 * A good token's answer has bit 31 set, the code in bits 21-16, the length in bits 13-8 and the sub-address in bits 7-0; all
 * other bits are 0. Good says nothing of the code: it need not be one that a card knows. A token that is not good is
 * answered with its wrong marks, as said above. The prefix is 01, and the spare is 11 in bits 7-6 of word 1 and in bits 5-4
 * of word 2.
 *
 *   spi2_read_command(0x4DC34439)               0x800D0310: good, code 0x0D, length 3, sub-address 0x10
 *   spi2_read_command(0x4DC34438)               0x00000001: not good, the CRC-4 is wrong
 *   spi2_read_command(0x0DC34439)               0x00000005: not good, prefix and CRC-4 are wrong
 *
 *   uint32_t command = spi2_read_command(SPI2_TOKEN(word1, word2));
 *   if (SPI2_GOOD(command)) ..                  SPI2_CODE(command), SPI2_LENGTH(command), SPI2_SUB_ADDRESS(command)
 *   else ..                                     SPI2_WRONG_PREFIX(command), SPI2_WRONG_SPARE(command),
 *                                               SPI2_WRONG_CRC4(command)
 */
uint32_t spi2_read_command(uint32_t token);

/* spi2_read_response: reads a response token, the first two words that a card sends in a message.
 *
 *   token        any number: SPI2_TOKEN(word1, word2) of two words received
 *
 * A good token's answer has bit 31 set, STF in bit 7, ME in bit 6, AR in bit 5, IC in bit 4 and the module state in bits
 * 3-0; all other bits are 0. A token that is not good is answered with its wrong marks, as said above. The prefix is 10, and
 * the spare is 0 in bits 9-4 of word 1 and hex 078 in bits 13-4 of word 2.
 *
 *   spi2_read_response(0x80008780)              0x80000000: good, every field 0
 *   spi2_read_response(0x9000878D)              0x80000040: good, ME
 *   spi2_read_response(0x9000879D)              0x00000003: not good, spare and CRC-4 are wrong
 *   spi2_read_response(0xFFFFFFFF)              0x00000007: not good, all three are wrong
 *
 *   uint32_t response = spi2_read_response(SPI2_TOKEN(word1, word2));
 *   if (SPI2_GOOD(response)) ..                 SPI2_STF(response), SPI2_ME(response), SPI2_AR(response),
 *                                               SPI2_IC(response), SPI2_MODULE_STATE(response)
 *   else ..                                     SPI2_WRONG_PREFIX(response), SPI2_WRONG_SPARE(response),
 *                                               SPI2_WRONG_CRC4(response)
 */
uint32_t spi2_read_response(uint32_t token);

/* spi2_payload_check: the check word of a payload, its CRC-16.
 *
 *   bytes        the payload's bytes, the high byte of each word first; they are read and not changed, and need no
 *                alignment. It may be a null pointer where count is 0.
 *   count        the number of bytes, at any size that the memory has: twice the number of words
 *
 * Answers with the check, 0 to 0xFFFF; or with the refusal Argument, 0x00050000, where count is odd. The check of no
 * bytes is 0.
 *
 *   static const uint8_t one[2] = {0x00, 0x01};
 *   spi2_payload_check(one, 2)                  0x00008005
 *   spi2_payload_check(one, 1)                  0x00050000, refused
 *   spi2_payload_check(NULL, 0)                 0x00000000
 *
 * To see whether a payload that came in is whole, compare its check with the word received behind it.
 */
uint32_t spi2_payload_check(const uint8_t *bytes, size_t count);

#ifdef __cplusplus
}
#endif

/* Each macro below evaluates each of its arguments once. */

/* Of an answer of spi2_command_token or spi2_payload_check: whether it is a refusal, and then which (5: Argument). */
#define SPI2_IS_REFUSAL(answer) ((uint32_t)((uint32_t)(answer) - UINT32_C(0x10000)) < UINT32_C(0x3FFF0000))
#define SPI2_REFUSAL_NUMBER(answer) ((uint32_t)(answer) >> 16)
#define SPI2_REFUSED_ARGUMENT UINT32_C(0x00050000)

/* A token from its two words, and back. */
#define SPI2_TOKEN(word1, word2) (((uint32_t)(uint16_t)(word1) << 16) | (uint32_t)(uint16_t)(word2))
#define SPI2_WORD1(token) ((uint16_t)((uint32_t)(token) >> 16))
#define SPI2_WORD2(token) ((uint16_t)((uint32_t)(token) & UINT32_C(0xFFFF)))

/* Of an answer of spi2_read_command or spi2_read_response: whether the token is good. */
#define SPI2_GOOD(answer) ((uint32_t)(answer) >= UINT32_C(0x80000000))

/* Of such an answer: which marks are wrong, each 0 or 1. All are 0 where the token is good, and at least one is 1 where it
 * is not. */
#define SPI2_WRONG_PREFIX(answer) (((uint32_t)(answer) & ~UINT32_C(3)) == 4u)
#define SPI2_WRONG_SPARE(answer) (((uint32_t)(answer) & ~UINT32_C(5)) == 2u)
#define SPI2_WRONG_CRC4(answer) (((uint32_t)(answer) & ~UINT32_C(6)) == 1u)

/* Of an answer of spi2_read_command. The fields of a token that is not good are 0. */
#define SPI2_CODE(answer) ((uint32_t)(answer) >> 16 & 0x3Fu)
#define SPI2_LENGTH(answer) ((uint32_t)(answer) >> 8 & 0x3Fu)
#define SPI2_SUB_ADDRESS(answer) spi2_low_field((uint32_t)(answer), 0xFFu)

/* Of an answer of spi2_read_response, likewise. Each flag is 0 or 1. */
#define SPI2_STF(answer) ((uint32_t)(answer) >> 7 & 1u)
#define SPI2_ME(answer) ((uint32_t)(answer) >> 6 & 1u)
#define SPI2_AR(answer) ((uint32_t)(answer) >> 5 & 1u)
#define SPI2_IC(answer) ((uint32_t)(answer) >> 4 & 1u)
#define SPI2_MODULE_STATE(answer) spi2_low_field((uint32_t)(answer), 0xFu)

/* For two macros above: a field in the lowest bits, where the answer to a token that is not good has its wrong marks. */
static inline uint32_t spi2_low_field(uint32_t answer, uint32_t mask) {
    return SPI2_GOOD(answer) ? answer & mask : 0;
}

#endif
