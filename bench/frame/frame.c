/* Frames 64 MB of records and reads them out again, as crates/block_record does, with the same kind of checksum. */
#include <stdint.h>
#include <stdio.h>
#include <stdlib.h>
#include <string.h>
#include <time.h>

#include "../crc32c.h"

#define TOTAL ((size_t)64 << 20)
#define BLOCK ((size_t)32768)
/* Each chunk has a sync offset, which is 0 here. */
#define HEADER ((size_t)19)
#define ROUNDS 5
enum { FULL = 9, FIRST, MIDDLE, LAST };
static const uint32_t LOG = 1;

static uint32_t masked(const uint8_t *covered, size_t n)
{
    uint32_t crc = ~crc_more(0xFFFFFFFFu, covered, n);
    return ((crc >> 15) | (crc << 17)) + 0xA282EAD8u;
}

/* A segment that grows, and the records that are read of one. */
struct bytes {
    uint8_t *at;
    size_t len, room;
};

struct records {
    struct bytes *at;
    size_t len, room;
};

static void *grown(void *at, size_t *room, size_t wanted, size_t size)
{
    if (wanted <= *room)
        return at;
    while (*room < wanted)
        *room = *room ? *room * 2 : 64;
    at = realloc(at, *room * size);
    if (!at)
        exit(2);
    return at;
}

static void put_chunk(struct bytes *out, int kind, const uint8_t *payload, size_t len)
{
    out->at = grown(out->at, &out->room, out->len + HEADER + len, 1);
    uint8_t *p = out->at + out->len;
    uint32_t sum;
    p[4] = (uint8_t)len;
    p[5] = (uint8_t)(len >> 8);
    p[6] = (uint8_t)kind;
    memcpy(p + 7, &LOG, 4);
    memset(p + 11, 0, 8);
    memcpy(p + HEADER, payload, len);
    sum = masked(p + 6, HEADER - 6 + len);
    memcpy(p, &sum, 4);
    out->len += HEADER + len;
}

static void frame(struct bytes *out, const uint8_t *record, size_t len)
{
    int begun = 0;
    for (;;) {
        size_t room = BLOCK - out->len % BLOCK - HEADER;
        size_t part = len < room ? len : room;
        int ends = part == len;
        put_chunk(out, ends ? (begun ? LAST : FULL) : (begun ? MIDDLE : FIRST), record, part);
        size_t left = BLOCK - out->len % BLOCK;
        if (left < HEADER) {
            out->at = grown(out->at, &out->room, out->len + left, 1);
            memset(out->at + out->len, 0, left);
            out->len += left;
        }
        if (ends)
            return;
        record += part;
        len -= part;
        begun = 1;
    }
}

static void add(struct records *found, struct bytes record)
{
    found->at = grown(found->at, &found->room, found->len + 1, sizeof record);
    found->at[found->len++] = record;
}

/* Reads as far as whole chunks follow each other. An open record grows by doubling. */
static void read_out(struct records *found, const uint8_t *x, size_t n)
{
    struct bytes open = {0};
    int is_open = 0;
    for (size_t at = 0;;) {
        size_t left = BLOCK - at % BLOCK;
        if (left < HEADER) {
            at += left;
            left = BLOCK;
        }
        if (at + HEADER > n)
            break;
        size_t len = x[at + 4] | (size_t)x[at + 5] << 8;
        uint32_t sum, log;
        int kind = x[at + 6];
        memcpy(&sum, x + at, 4);
        memcpy(&log, x + at + 7, 4);
        if (HEADER + len > left || at + HEADER + len > n || log != LOG || kind < FULL || kind > LAST
            || (kind == FULL || kind == FIRST) == is_open || sum != masked(x + at + 6, HEADER - 6 + len))
            break;
        const uint8_t *payload = x + at + HEADER;
        if (kind == FULL || kind == FIRST)
            open = (struct bytes){0};
        open.at = kind == FULL ? malloc(len ? len : 1) : grown(open.at, &open.room, open.len + len, 1);
        if (!open.at)
            exit(2);
        memcpy(open.at + open.len, payload, len);
        open.len += len;
        is_open = kind == FIRST || kind == MIDDLE;
        if (!is_open)
            add(found, open);
        at += HEADER + len;
    }
}

static double now(void)
{
    struct timespec t;
    clock_gettime(CLOCK_MONOTONIC, &t);
    return (double)t.tv_sec + (double)t.tv_nsec * 1e-9;
}

int main(int argc, char **argv)
{
    size_t len = argc > 1 ? strtoul(argv[1], NULL, 10) : 100;
    size_t count = TOTAL / len;
    uint8_t *record = malloc(len);
    double framing = 1e9, reading = 1e9;
    if (!record)
        return 2;
    make_tables();
    for (size_t i = 0; i < len; i++)
        record[i] = (uint8_t)(i * 7 + 1);
    for (int r = 0; r < ROUNDS; r++) {
        struct bytes segment = {0};
        struct records found = {0};
        double start = now(), took;
        for (size_t i = 0; i < count; i++)
            frame(&segment, record, len);
        took = now() - start;
        if (took < framing)
            framing = took;
        start = now();
        read_out(&found, segment.at, segment.len);
        took = now() - start;
        if (took < reading)
            reading = took;
        if (found.len != count)
            return 1;
        for (size_t i = 0; i < found.len; i++)
            free(found.at[i].at);
        free(found.at);
        free(segment.at);
    }
    printf("C %zu %.6f %.6f\n", count, framing, reading);
    free(record);
    return 0;
}
