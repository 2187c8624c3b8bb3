/* Times three ways to the CRC-32C of 64 MB: a byte table and eight tables in C, and the proved crc32c. */
#include <inttypes.h>
#include <stddef.h>
#include <stdint.h>
#include <stdio.h>
#include <stdlib.h>
#include <string.h>
#include <time.h>

#include "../crc32c.h"

/* The proved crate's crc32c, which takes a slice as its start and its length. */
extern uint32_t crc_chunk_crc32c(const uint8_t *bytes, size_t len);

#define TOTAL ((size_t)64 << 20)
#define PIECE ((size_t)89)
#define ROUNDS 9

static uint32_t by_byte(const uint8_t *p, size_t n)
{
    uint32_t r = 0xFFFFFFFFu;
    while (n-- > 0)
        r = table[0][(r ^ *p++) & 0xFF] ^ (r >> 8);
    return ~r;
}

static uint32_t by_eight(const uint8_t *p, size_t n)
{
    return ~crc_more(0xFFFFFFFFu, p, n);
}

typedef uint32_t (*crc_fn)(const uint8_t *, size_t);

static double now(void)
{
    struct timespec t;
    clock_gettime(CLOCK_MONOTONIC, &t);
    return (double)t.tv_sec + (double)t.tv_nsec * 1e-9;
}

/* The sum keeps the calls, and shows that all three ways agree. */
static double round_of(crc_fn crc, const uint8_t *data, size_t piece, uint32_t *sum)
{
    double start = now();
    uint32_t s = 0;
    for (size_t at = 0; at < TOTAL; at += piece) {
        size_t left = TOTAL - at;
        s = s * 31 + crc(data + at, left < piece ? left : piece);
    }
    *sum = s;
    return now() - start;
}

int main(void)
{
    static const struct {
        const char *name;
        crc_fn crc;
    } ways[] = {{"C, byte table", by_byte}, {"C, slicing-by-8", by_eight}, {"crc_chunk", crc_chunk_crc32c}};
    static const struct {
        const char *name;
        size_t piece;
    } cuts[] = {{"one piece", TOTAL}, {"pieces of 89 bytes", PIECE}};
    uint8_t *data = malloc(TOTAL);
    uint64_t x = 88172645463325252u;
    if (!data)
        return 2;
    make_tables();
    for (size_t i = 0; i < TOTAL; i++) {
        x ^= x << 13;
        x ^= x >> 7;
        x ^= x << 17;
        data[i] = (uint8_t)x;
    }
    for (int c = 0; c < 2; c++) {
        double best[3] = {1e9, 1e9, 1e9};
        uint32_t sum[3];
        /* The ways take turns, so that a slow moment of the machine meets all of them. */
        for (int r = 0; r < ROUNDS; r++)
            for (int w = 0; w < 3; w++) {
                double took = round_of(ways[w].crc, data, cuts[c].piece, &sum[w]);
                if (took < best[w])
                    best[w] = took;
            }
        if (sum[0] != sum[1] || sum[0] != sum[2]) {
            fprintf(stderr, "the checksums differ: %08" PRIx32 " %08" PRIx32 " %08" PRIx32 "\n", sum[0], sum[1], sum[2]);
            return 1;
        }
        printf("64 MB, %s (best of %d rounds)\n", cuts[c].name, ROUNDS);
        for (int w = 0; w < 3; w++)
            printf("  %-16s %8.2f ms  %7.0f MB/s\n", ways[w].name, best[w] * 1e3, 64 / best[w]);
        printf("  crc_chunk is %.2f times as fast as the byte table, and %.2f times as fast as slicing-by-8\n", best[0] / best[2], best[1] / best[2]);
    }
    free(data);
    return 0;
}
