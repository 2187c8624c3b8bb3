/* The same versions in RocksDB's memtable, and the time of going over its keys at a snapshot.

   peer FOLDER VERSIONS VALUE KEYS

   There is no log, and room for all, so that no table is written. A snapshot is taken after each hundredth of the versions,
   and all are held to the end. Prints the seconds of the filling, of one pass at the last snapshot, and of passes at ten old
   ones, each by the clock and by the processor, then how many keys the first of these passes and the others together met, and
   the KiB of the peak. */
#include <rocksdb/c.h>
#include <stdio.h>
#include <stdlib.h>
#include <string.h>
#include <sys/resource.h>
#include <time.h>
#include <unistd.h>

enum { HOLDS = 100, OLD = 10 };

static void ends_on(char *error)
{
    if (error) {
        fprintf(stderr, "%s\n", error);
        exit(1);
    }
}

static double seconds(clockid_t clock)
{
    struct timespec at;
    clock_gettime(clock, &at);
    return (double)at.tv_sec + (double)at.tv_nsec / 1e9;
}

/* Prints how long something took that ends now, and begins the next part. */
static void told(void)
{
    static double clock, used;
    double clock_now = seconds(CLOCK_MONOTONIC), used_now = seconds(CLOCK_PROCESS_CPUTIME_ID);
    if (clock > 0)
        printf("%.6f %.6f ", clock_now - clock, used_now - used);
    clock = clock_now;
    used = used_now;
}

static rocksdb_t *opened(const char *folder)
{
    char *error = NULL;
    rocksdb_options_t *options = rocksdb_options_create();
    rocksdb_options_set_create_if_missing(options, 1);
    rocksdb_options_set_write_buffer_size(options, (size_t)4 << 30);
    rocksdb_options_set_disable_auto_compactions(options, 1);
    rocksdb_t *store = rocksdb_open(options, folder, &error);
    ends_on(error);
    return store;
}

static void put(rocksdb_t *store, rocksdb_writeoptions_t *how, size_t made, size_t value, size_t keys)
{
    char *error = NULL, key[16], bytes[256];
    int length = snprintf(key, sizeof key, "k%07zu", made * 7919 % keys);
    for (size_t i = 0; i < value; i++)
        bytes[i] = (char)('a' + (made + i) % 26);
    rocksdb_put(store, how, key, (size_t)length, bytes, value, &error);
    ends_on(error);
}

/* Goes over all keys, and takes the length of each key and value, so that both are looked at. */
static size_t pass(rocksdb_t *store, const rocksdb_snapshot_t *at, size_t *bytes)
{
    char *error = NULL;
    size_t met = 0, length;
    rocksdb_readoptions_t *how = rocksdb_readoptions_create();
    rocksdb_readoptions_set_snapshot(how, at);
    rocksdb_iterator_t *it = rocksdb_create_iterator(store, how);
    for (rocksdb_iter_seek_to_first(it); rocksdb_iter_valid(it); rocksdb_iter_next(it), met++) {
        rocksdb_iter_key(it, &length);
        *bytes += length;
        rocksdb_iter_value(it, &length);
        *bytes += length;
    }
    rocksdb_iter_get_error(it, &error);
    ends_on(error);
    rocksdb_iter_destroy(it);
    rocksdb_readoptions_destroy(how);
    return met;
}

int main(int argc, char **argv)
{
    static const rocksdb_snapshot_t *held[HOLDS];
    struct rusage usage;
    size_t bytes = 0, old = 0;
    if (argc != 5 || strtoul(argv[3], NULL, 10) > 256)
        return 2;
    size_t versions = strtoul(argv[2], NULL, 10), value = strtoul(argv[3], NULL, 10), keys = strtoul(argv[4], NULL, 10);
    rocksdb_t *store = opened(argv[1]);
    rocksdb_writeoptions_t *how = rocksdb_writeoptions_create();
    rocksdb_writeoptions_disable_WAL(how, 1);
    told();
    for (size_t made = 0, hold = 0; made < versions;) {
        put(store, how, made++, value, keys);
        if (hold < HOLDS && made == (hold + 1) * versions / HOLDS)
            held[hold++] = rocksdb_create_snapshot(store);
    }
    told();
    size_t last = pass(store, held[HOLDS - 1], &bytes);
    told();
    for (size_t hold = HOLDS / OLD / 2; hold < HOLDS; hold += HOLDS / OLD)
        old += pass(store, held[hold], &bytes);
    told();
    getrusage(RUSAGE_SELF, &usage);
    printf("%zu %zu %ld\n", last, old, usage.ru_maxrss);
    fflush(stdout);
    /* Without a close nothing is written. */
    _exit(bytes == 0);
}
