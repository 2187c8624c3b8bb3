/* Makes a log, checks the chunks of one, and times a command: what bench/recover/run needs beside the program. */
#include <fcntl.h>
#include <stdint.h>
#include <stdio.h>
#include <stdlib.h>
#include <string.h>
#include <sys/resource.h>
#include <sys/time.h>
#include <sys/wait.h>
#include <time.h>
#include <unistd.h>

#include "../crc32c.h"

#define BLOCK ((size_t)32768)
/* Each chunk has a sync offset, which is 0 here. */
#define HEADER ((size_t)19)
enum { FULL = 9, FIRST, MIDDLE, LAST };
static const uint32_t LOG = 1;
static const uint64_t FIRST_NUMBER = 10;

static void die(const char *what)
{
    perror(what);
    exit(1);
}

static uint32_t masked(const uint8_t *covered, size_t n)
{
    uint32_t crc = ~crc_more(0xFFFFFFFFu, covered, n);
    return ((crc >> 15) | (crc << 17)) + 0xA282EAD8u;
}

static void put_chunk(FILE *out, int kind, const uint8_t *payload, size_t len)
{
    static uint8_t chunk[BLOCK];
    uint32_t sum;
    chunk[4] = (uint8_t)len;
    chunk[5] = (uint8_t)(len >> 8);
    chunk[6] = (uint8_t)kind;
    memcpy(chunk + 7, &LOG, 4);
    memset(chunk + 11, 0, 8);
    memcpy(chunk + HEADER, payload, len);
    sum = masked(chunk + 6, HEADER - 6 + len);
    memcpy(chunk, &sum, 4);
    if (fwrite(chunk, 1, HEADER + len, out) != HEADER + len)
        die("write");
}

/* Frames a record at a place of the log, and returns the place behind it. */
static size_t frame(FILE *out, size_t at, const uint8_t *record, size_t len)
{
    static const uint8_t zeros[HEADER];
    int begun = 0;
    for (;;) {
        size_t room = BLOCK - at % BLOCK - HEADER;
        size_t part = len < room ? len : room;
        int ends = part == len;
        put_chunk(out, ends ? (begun ? LAST : FULL) : (begun ? MIDDLE : FIRST), record, part);
        at += HEADER + part;
        size_t left = BLOCK - at % BLOCK;
        if (left < HEADER) {
            if (fwrite(zeros, 1, left, out) != left)
                die("write");
            at += left;
        }
        if (ends)
            return at;
        record += part;
        len -= part;
        begun = 1;
    }
}

static uint8_t *put_length(uint8_t *p, size_t len)
{
    for (; len >= 0x80; len >>= 7)
        *p++ = (uint8_t)(len | 0x80);
    *p++ = (uint8_t)len;
    return p;
}

/* Writes a log of at least so many bytes, of batches of one Set, and prints how many. The keys come again. */
static void make(const char *file, size_t bytes, size_t value, size_t keys)
{
    FILE *out = fopen(file, "wb");
    uint8_t *record = malloc(value + 64);
    size_t at = 0, made = 0;
    if (!out || !record)
        die(file);
    for (; at < bytes; made++) {
        uint64_t number = FIRST_NUMBER + made;
        uint8_t *p = record;
        memcpy(p, &number, 8);
        memcpy(p + 8, "\1\0\0\0\1\10", 6);
        p += 14 + sprintf((char *)p + 14, "k%07zu", made * 7919 % keys);
        p = put_length(p, value);
        for (size_t i = 0; i < value; i++)
            *p++ = (uint8_t)('a' + (made + i) % 26);
        at = frame(out, at, record, (size_t)(p - record));
    }
    /* So that the first recovery has nothing to sync. */
    if (fflush(out) || fsync(fileno(out)) || fclose(out))
        die(file);
    free(record);
    printf("%zu\n", made);
}

/* Reads a log into one piece of memory, and follows its chunks as far as they are whole. Prints how many records end. */
static void check(const char *file)
{
    FILE *in = fopen(file, "rb");
    size_t n, at = 0, found = 0;
    int is_open = 0;
    uint8_t *x;
    if (!in || fseek(in, 0, SEEK_END))
        die(file);
    n = (size_t)ftell(in);
    rewind(in);
    x = malloc(n + 1);
    if (!x || fread(x, 1, n, in) != n)
        die(file);
    for (;;) {
        size_t left = BLOCK - at % BLOCK;
        if (left < HEADER) {
            at += left;
            left = BLOCK;
        }
        if (at + HEADER > n)
            break;
        size_t len = x[at + 4] | (size_t)x[at + 5] << 8;
        int kind = x[at + 6];
        uint32_t sum, log;
        memcpy(&sum, x + at, 4);
        memcpy(&log, x + at + 7, 4);
        if (HEADER + len > left || at + HEADER + len > n || log != LOG || kind < FULL || kind > LAST
            || (kind == FULL || kind == FIRST) == is_open || sum != masked(x + at + 6, HEADER - 6 + len))
            break;
        is_open = kind == FIRST || kind == MIDDLE;
        found += !is_open;
        at += HEADER + len;
    }
    printf("%zu\n", found);
}

static double seconds(struct timeval t)
{
    return (double)t.tv_sec + (double)t.tv_usec * 1e-6;
}

/* Runs a command, and prints its seconds, those of them that it had a processor, and the KiB that it held at its peak.
   This process is small, so that its own memory, which the system counts to the command's, does not show. */
static void time_command(char **command)
{
    struct timespec begun, ended;
    struct rusage usage;
    int status;
    pid_t pid;
    clock_gettime(CLOCK_MONOTONIC, &begun);
    pid = fork();
    if (pid < 0)
        die("fork");
    if (pid == 0) {
        int nothing = open("/dev/null", O_RDWR);
        if (nothing < 0 || dup2(nothing, 0) < 0 || dup2(nothing, 1) < 0)
            die("/dev/null");
        execv(command[0], command);
        die(command[0]);
    }
    if (wait4(pid, &status, 0, &usage) < 0)
        die("wait");
    clock_gettime(CLOCK_MONOTONIC, &ended);
    if (!WIFEXITED(status) || WEXITSTATUS(status)) {
        fprintf(stderr, "%s: status %d\n", command[0], status);
        exit(1);
    }
    printf("%.6f %.6f %ld\n", (double)(ended.tv_sec - begun.tv_sec) + (double)(ended.tv_nsec - begun.tv_nsec) * 1e-9,
           seconds(usage.ru_utime) + seconds(usage.ru_stime), usage.ru_maxrss);
}

int main(int argc, char **argv)
{
    make_tables();
    if (argc == 6 && !strcmp(argv[1], "make"))
        make(argv[2], strtoul(argv[3], NULL, 10), strtoul(argv[4], NULL, 10), strtoul(argv[5], NULL, 10));
    else if (argc == 3 && !strcmp(argv[1], "check"))
        check(argv[2]);
    else if (argc > 2 && !strcmp(argv[1], "time"))
        time_command(argv + 2);
    else
        return 2;
    return 0;
}
