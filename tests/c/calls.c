/* Makes the calls of include/spi2.h that standard input lists, with the answers that the second program expects, and
 * compares. tests/second/calls.py writes the list and says how. Ends at the first answer that differs, and in the end
 * if a kind of case was missing.
 */
#define _DEFAULT_SOURCE /* for MAP_ANONYMOUS */
#include <inttypes.h>
#include <stdio.h>
#include <stdlib.h>
#include <string.h>
#include <sys/mman.h>
#include <unistd.h>

#include "spi2.h"

/* Every kind of case, and how many there have to be at least. */
static struct {
    const char *call, *kind;
    unsigned long least, seen;
} kinds[] = {
    {"command_token", "limits", 200, 0},  {"command_token", "inside", 3000, 0},  {"command_token", "above", 1000, 0},
    {"command_token", "near", 1000, 0},   {"command_token", "drawn", 1000, 0},   {"command_token", "row", 20, 0},

    {"read_command", "good", 1000, 0},    {"read_command", "flipped", 1000, 0},  {"read_command", "check", 1000, 0},
    {"read_command", "prefix", 2000, 0},  {"read_command", "spare", 2000, 0},    {"read_command", "other", 1000, 0},
    {"read_command", "filled", 2, 0},     {"read_command", "drawn", 2000, 0},    {"read_command", "marks", 1800, 0},

    {"read_response", "good", 1000, 0},   {"read_response", "flipped", 1000, 0}, {"read_response", "check", 1000, 0},
    {"read_response", "prefix", 2000, 0}, {"read_response", "spare", 2000, 0},   {"read_response", "other", 1000, 0},
    {"read_response", "filled", 2, 0},    {"read_response", "drawn", 2000, 0},   {"read_response", "marks", 1800, 0},

    {"payload_check", "even", 1000, 0},   {"payload_check", "odd", 1000, 0},     {"payload_check", "empty", 16, 0},
    {"payload_check", "null", 1, 0},      {"payload_check", "unaligned", 300, 0}, {"payload_check", "zeros", 300, 0},
    {"payload_check", "ones", 300, 0},    {"payload_check", "checked", 100, 0},  {"payload_check", "long", 6, 0},
    {"payload_check", "long_odd", 3, 0},  {"payload_check", "one_bit", 720, 0},
};
enum { KINDS = sizeof kinds / sizeof kinds[0] };

/* The sets of wrong marks that each reader has answered with, by their number. */
enum { SETS = 8 };
static int command_sets[SETS], response_sets[SETS];

/* The header's command codes. */
static struct {
    const char *name;
    uint32_t code;
    int seen;
} codes[] = {
    {"RESET", SPI2_RESET, 0}, {"SYNCH", SPI2_SYNCH, 0}, {"TICK", SPI2_TICK, 0},
    {"READBACK", SPI2_READBACK, 0}, {"WRITE", SPI2_WRITE, 0}, {"READ", SPI2_READ, 0},
    {"CONFIG_WRITE", SPI2_CONFIG_WRITE, 0}, {"CONFIG_READ", SPI2_CONFIG_READ, 0},
    {"ACTIVATE", SPI2_ACTIVATE, 0}, {"DEACTIVATE", SPI2_DEACTIVATE, 0},
};
enum { CODES = sizeof codes / sizeof codes[0] };

static unsigned long number; /* of the case at hand, from 1 */
static char call[32], kind[32];

static void fail(const char *why) {
    fprintf(stderr, "calls: case %lu, %s %s: %s\n", number, call, kind, why);
    exit(1);
}

static void same(uint32_t answer, uint32_t expected) {
    if (answer != expected) {
        fprintf(stderr, "calls: case %lu, %s %s: the call gives %08" PRIX32 ", the second program %08" PRIX32 "\n",
                number, call, kind, answer, expected);
        exit(1);
    }
}

static void holds(int fact) {
    if (!fact) {
        fail("a macro of spi2.h takes the answer apart wrongly");
    }
}

static uint32_t hex(void) {
    uint32_t value;
    if (scanf("%" SCNx32, &value) != 1) {
        fail("a number is missing");
    }
    return value;
}

/* ---- the calls */

static void command_token(void) {
    uint32_t code = hex(), length = hex(), sub_address = hex(), expected = hex();
    uint32_t answer = spi2_command_token(code, length, sub_address);
    same(answer, expected);

    int fits = code <= 63 && length <= 63 && sub_address <= 255;
    holds(SPI2_IS_REFUSAL(answer) == !fits);
    if (!fits) {
        holds(answer == SPI2_REFUSED_ARGUMENT && SPI2_REFUSAL_NUMBER(answer) == 5);
        return;
    }
    /* What is built is read back. */
    uint32_t command = spi2_read_command(SPI2_TOKEN(SPI2_WORD1(answer), SPI2_WORD2(answer)));
    holds(SPI2_GOOD(command) && SPI2_CODE(command) == code && SPI2_LENGTH(command) == length
          && SPI2_SUB_ADDRESS(command) == sub_address);
}

/* What every reader's answer is: good by bit 31 and without a wrong mark, or a set of them without fields. */
static void good_or_wrong(uint32_t answer, int *sets) {
    int good = answer >> 31 == 1;
    uint32_t wrong = good ? 0 : answer;
    holds(SPI2_GOOD(answer) == good && !SPI2_IS_REFUSAL(answer) && wrong < SETS && (wrong != 0) == !good);
    holds(SPI2_WRONG_PREFIX(answer) == wrong / 4 && SPI2_WRONG_SPARE(answer) == wrong / 2 % 2
          && SPI2_WRONG_CRC4(answer) == wrong % 2);
    if (good) {
        return;
    }
    sets[wrong] = 1;
    holds(SPI2_CODE(answer) == 0 && SPI2_LENGTH(answer) == 0 && SPI2_SUB_ADDRESS(answer) == 0);
    holds(SPI2_STF(answer) == 0 && SPI2_ME(answer) == 0 && SPI2_AR(answer) == 0 && SPI2_IC(answer) == 0
          && SPI2_MODULE_STATE(answer) == 0);
}

static void read_command(void) {
    uint32_t token = hex(), expected = hex();
    uint32_t answer = spi2_read_command(token);
    same(answer, expected);

    good_or_wrong(answer, command_sets);
    holds(!SPI2_GOOD(answer) || spi2_command_token(SPI2_CODE(answer), SPI2_LENGTH(answer), SPI2_SUB_ADDRESS(answer)) == token);
}

static void read_response(void) {
    uint32_t token = hex(), expected = hex();
    uint32_t answer = spi2_read_response(token);
    same(answer, expected);

    good_or_wrong(answer, response_sets);
    holds(!SPI2_GOOD(answer)
          || (SPI2_STF(answer) == (token >> 29 & 1) && SPI2_ME(answer) == (token >> 28 & 1) && SPI2_AR(answer) == (token >> 27 & 1)
              && SPI2_IC(answer) == (token >> 26 & 1) && SPI2_MODULE_STATE(answer) == (token >> 16 & 15)));
}

/* Room for payloads between two pages that may not be touched. */
enum { ROOM = 1 << 17 };
static uint8_t *room;

static void make_room(void) {
    size_t page = (size_t)sysconf(_SC_PAGESIZE);
    uint8_t *all = mmap(NULL, ROOM + 2 * page, PROT_NONE, MAP_PRIVATE | MAP_ANONYMOUS, -1, 0);
    if (all == MAP_FAILED || mprotect(all + page, ROOM, PROT_READ | PROT_WRITE) != 0) {
        fail("no memory");
    }
    room = all + page;
}

static void check_at(uint8_t *place, const uint8_t *bytes, size_t count, uint32_t expected) {
    memcpy(place, bytes, count);
    uint32_t answer = spi2_payload_check(place, count);
    same(answer, expected);
    holds(SPI2_IS_REFUSAL(answer) == (count % 2 != 0));
    if (memcmp(place, bytes, count) != 0) {
        fail("the payload was changed");
    }
}

static void payload_check(void) {
    static uint8_t bytes[ROOM];
    char start[16];
    size_t count;
    if (scanf("%15s %zu", start, &count) != 2 || count > ROOM - 64) {
        fail("no start, or no count that there is room for");
    }
    uint32_t expected = hex();
    if (getchar() != '\n' || fread(bytes, 1, count, stdin) != count || getchar() != '\n') {
        fail("the bytes are missing");
    }
    if (strcmp(start, "null") == 0) {
        same(spi2_payload_check(NULL, count), expected);
        return;
    }
    /* At the start that is asked for, and so that the bytes end where the room ends. */
    check_at(room + strtoul(start, NULL, 10), bytes, count, expected);
    check_at(room + ROOM - count, bytes, count, expected);
}

static void named_code(void) {
    uint32_t expected = hex();
    for (int i = 0; i < CODES; i++) {
        if (strcmp(kind, codes[i].name) == 0) {
            same(codes[i].code, expected);
            codes[i].seen = 1;
            return;
        }
    }
    fail("spi2.h has no such code");
}

static void count_kind(void) {
    for (int i = 0; i < KINDS; i++) {
        if (strcmp(call, kinds[i].call) == 0 && strcmp(kind, kinds[i].kind) == 0) {
            kinds[i].seen++;
            return;
        }
    }
    fail("an unknown kind of case");
}

/* ---- the list */

/* That a reader has answered with every set of wrong marks. */
static void every_set(const char *reader, const int *sets) {
    for (int set = 1; set < SETS; set++) {
        if (!sets[set]) {
            fprintf(stderr, "calls: no case of %s with the wrong marks %d\n", reader, set);
            exit(1);
        }
    }
}

/* That each kind of case was there, and then how many of each call. */
static void finish(unsigned long said) {
    unsigned long of_call = 0;
    if (said != number) {
        fail("the list is not whole");
    }
    for (int i = 0; i < CODES; i++) {
        if (!codes[i].seen) {
            fprintf(stderr, "calls: no case for the code %s\n", codes[i].name);
            exit(1);
        }
    }
    for (int i = 0; i < KINDS; i++) {
        if (kinds[i].seen < kinds[i].least) {
            fprintf(stderr, "calls: %lu cases of %s %s, and there have to be %lu\n", kinds[i].seen, kinds[i].call,
                    kinds[i].kind, kinds[i].least);
            exit(1);
        }
    }
    every_set("read_command", command_sets);
    every_set("read_response", response_sets);
    printf("calls: %lu cases agree:", number);
    for (int i = 0; i < KINDS; i++) {
        of_call += kinds[i].seen;
        if (i + 1 == KINDS || strcmp(kinds[i].call, kinds[i + 1].call) != 0) {
            printf(" %s %lu,", kinds[i].call, of_call);
            of_call = 0;
        }
    }
    printf(" codes %d\n", CODES);
    exit(0);
}

int main(void) {
    make_room();
    while (scanf("%31s %31s", call, kind) == 2) {
        if (strcmp(call, "end") == 0) {
            finish(strtoul(kind, NULL, 10));
        }
        number++;
        if (strcmp(call, "code") == 0) {
            named_code();
            continue;
        }
        count_kind();
        if (strcmp(call, "command_token") == 0) {
            command_token();
        } else if (strcmp(call, "read_command") == 0) {
            read_command();
        } else if (strcmp(call, "read_response") == 0) {
            read_response();
        } else {
            payload_check();
        }
    }
    fail("the list has no end");
}
