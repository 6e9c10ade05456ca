/* How fast the proved payload check is beside the same in C, on the same warm buffers. bench/payload builds and runs it. */
#define _POSIX_C_SOURCE 199309L /* for clock_gettime */
#include <stdio.h>
#include <stdlib.h>
#include <time.h>

#include "crc16.h"
#include "spi2.h"

#ifdef BEFORE
/* The call of an older archive, whose name bench/payload has changed. */
uint32_t before_spi2_payload_check(const uint8_t *bytes, size_t count);
#endif

static const struct {
    const char *name;
    uint32_t (*check)(const uint8_t *, size_t);
} ways[] = {
    {"proved", spi2_payload_check},
#ifdef BEFORE
    {"before", before_spi2_payload_check},
#endif
    {"C by nibbles", crc16_by_nibbles},
    {"C by bytes", crc16_by_bytes},
    {"C by eights", crc16_by_eights},
    {"C by bits", crc16_by_bits},
};
enum { WAYS = sizeof ways / sizeof ways[0], REPETITIONS = 25, MOST = 65536 };

static const size_t sizes[] = {2, 126, 1024, MOST};
enum { SIZES = sizeof sizes / sizeof sizes[0] };

static double seconds(void) {
    struct timespec now;
    clock_gettime(CLOCK_MONOTONIC, &now);
    return (double)now.tv_sec + (double)now.tv_nsec * 1e-9;
}

/* Takes up what is computed, so that no call is left out. */
volatile uint32_t kept;

/* The speed of one way, in MB/s, over about a megabyte: one part of the bytes after the other, as payloads differ. */
static double speed(int way, const uint8_t *bytes, size_t count) {
    size_t rounds = (1 << 20) / count + 1;
    size_t at = 0;
    double began = seconds();
    for (size_t i = 0; i < rounds; i++) {
        kept = ways[way].check(bytes + at, count);
        at = at + 2 * count <= MOST ? at + count : 0;
    }
    double took = seconds() - began;
    return (double)(rounds * count) / took * 1e-6;
}

int main(void) {
    static uint8_t bytes[MOST];
    uint32_t drawn = 1;
    for (size_t i = 0; i < MOST; i++) {
        drawn = drawn * 1664525u + 1013904223u;
        bytes[i] = (uint8_t)(drawn >> 24);
    }
    crc16_make_tables();

    for (size_t count = 0; count <= MOST; count += count < 1024 ? 2 : 1022) {
        for (int way = 1; way < WAYS; way++) {
            if (ways[way].check(bytes, count) != ways[0].check(bytes, count)) {
                printf("payload: %s differs from %s at %zu bytes\n", ways[way].name, ways[0].name, count);
                return 1;
            }
        }
    }
    printf("All %d ways give the same checks. The best of %d repetitions of a megabyte each, MB/s:\n", WAYS, REPETITIONS);

    printf("%-20s", "bytes at a time");
    for (int way = 0; way < WAYS; way++) {
        printf("%15s", ways[way].name);
    }
    printf("\n");
    for (int size = 0; size < SIZES; size++) {
        double best[WAYS] = {0};
        /* The ways take turns, so that a slow moment of the machine meets all of them. */
        for (int turn = 0; turn < REPETITIONS; turn++) {
            for (int way = 0; way < WAYS; way++) {
                double now = speed(way, bytes, sizes[size]);
                best[way] = now > best[way] ? now : best[way];
            }
        }
        printf("%-20zu", sizes[size]);
        for (int way = 0; way < WAYS; way++) {
            printf("%15.1f", best[way]);
        }
        printf("\n%-35s", "  the proved one, to each");
        for (int way = 1; way < WAYS; way++) {
            printf("%15.2f", best[0] / best[way]);
        }
        printf("\n");
    }
    return 0;
}
