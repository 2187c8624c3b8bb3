/* Writes the log of a generated load as the program may, and keeps no store: load SEED COUNT FILE
   The batches in the order in which one session after another commits them in each round, framed by the program's rules,
   one write for each batch and one fdatasync at each sync. */
#include <fcntl.h>
#include <stdio.h>
#include <stdlib.h>
#include <unistd.h>

#include "../crc32c.h"

enum {
    BLOCK = 32768,
    HEADER = 19,
    SESSIONS = 4,
    ROUND = 1000,
    SYNC_EVERY = 16,
    DELETE_EVERY = 8,
    BATCH_MAX = 128,
    LOG = 1
};

static void put(uint8_t *out, uint64_t x, int n)
{
    for (int i = 0; i < n; i++)
        out[i] = (uint8_t)(x >> (8 * i));
}

static size_t put_key(uint8_t *out, uint64_t i)
{
    out[0] = 5;
    out[1] = 'k';
    unsigned n = (unsigned)(i % ROUND);
    for (int d = 4; d >= 1; d--, n /= 10)
        out[1 + d] = (uint8_t)('0' + n % 10);
    return 6;
}

static size_t put_batch(uint8_t *out, uint64_t seed, uint64_t i, uint64_t first)
{
    uint64_t x = seed * 0x5851F42D4C957F2Du + i * 0x14057B7EF767814Fu;
    int deletes = i % DELETE_EVERY == DELETE_EVERY - 1;
    size_t at = 12;
    put(out, first, 8);
    put(out + 8, deletes ? 2 : 1, 4);
    out[at++] = 1;
    at += put_key(out + at, i);
    out[at++] = 64;
    for (int c = 0; c < 4; c++)
        for (int d = 15; d >= 0; d--)
            out[at++] = (uint8_t)"0123456789abcdef"[x >> (4 * d) & 15];
    if (deletes) {
        out[at++] = 0;
        at += put_key(out + at, i - 4);
    }
    return at;
}

static size_t put_chunk(uint8_t *out, int type, uint64_t synced, const uint8_t *payload, size_t n)
{
    put(out + 4, n, 2);
    out[6] = (uint8_t)type;
    put(out + 7, LOG, 4);
    put(out + 11, synced, 8);
    memcpy(out + HEADER, payload, n);
    uint32_t crc = ~crc_more(~0u, out + 6, HEADER - 6 + n);
    put(out, ((crc >> 15) | (crc << 17)) + 0xA282EAD8u, 4);
    return HEADER + n;
}

/* Frames a record that begins at this place of its block, with the bytes that a sync covers, and moves the place on. */
static size_t put_record(uint8_t *out, uint64_t synced, const uint8_t *record, size_t n, size_t *place)
{
    size_t written = 0;
    int begun = 0, done = 0;
    while (!done) {
        size_t room = BLOCK - *place - HEADER, part = n < room ? n : room;
        done = part == n && !(part == 0 && n > 0);
        int type = done ? (begun ? 12 : 9) : (begun ? 11 : 10);
        size_t chunk = put_chunk(out + written, type, synced, record, part);
        written += chunk, *place += chunk, record += part, n -= part, begun = 1;
        if (BLOCK - *place < HEADER) {
            memset(out + written, 0, BLOCK - *place);
            written += BLOCK - *place, *place = 0;
        }
    }
    return written;
}

int main(int argc, char **argv)
{
    if (argc != 4)
        return 1;
    uint64_t seed = strtoull(argv[1], NULL, 10), count = strtoull(argv[2], NULL, 10), next = 10;
    int file = open(argv[3], O_WRONLY | O_CREAT | O_EXCL, 0644);
    if (file < 0)
        return 1;
    make_tables();
    uint8_t record[BATCH_MAX], frames[4 * BATCH_MAX];
    size_t place = 0;
    uint64_t size = 0, synced = 0;
    for (uint64_t round = 0; round * ROUND < count; round++)
        for (uint64_t session = 0; session < SESSIONS; session++) {
            uint64_t begin = round * ROUND, end = begin + ROUND < count ? begin + ROUND : count;
            for (uint64_t i = begin + session; i < end; i += SESSIONS) {
                size_t n = put_batch(record, seed, i, next);
                size_t framed = put_record(frames, synced, record, n, &place);
                next += i % DELETE_EVERY == DELETE_EVERY - 1 ? 2 : 1;
                if (write(file, frames, framed) != (ssize_t)framed)
                    return 1;
                size += framed;
                if (i % SYNC_EVERY == SYNC_EVERY - 1) {
                    if (fdatasync(file) != 0)
                        return 1;
                    synced = size;
                }
            }
        }
    return fdatasync(file) != 0 || close(file) != 0;
}
