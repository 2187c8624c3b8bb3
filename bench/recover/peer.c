/* The same records in RocksDB's log, and the time of opening a store that has only that log.

   peer fill FOLDER RECORDS VALUE KEYS
   peer open FOLDER

   `fill` ends without closing the store, so all of it stands in the log alone. `open` prints the seconds of one opening,
   which reads the log, fills the index and, as RocksDB does by itself, writes a table. */
#include <rocksdb/c.h>
#include <stdio.h>
#include <stdlib.h>
#include <string.h>
#include <time.h>
#include <unistd.h>

static void ends_on(char *error)
{
    if (error) {
        fprintf(stderr, "%s\n", error);
        exit(1);
    }
}

static rocksdb_t *opened(const char *folder)
{
    char *error = NULL;
    rocksdb_options_t *options = rocksdb_options_create();
    rocksdb_options_set_create_if_missing(options, 1);
    /* Room for all, so that no table is made while the log is written. */
    rocksdb_options_set_write_buffer_size(options, (size_t)1 << 30);
    rocksdb_options_set_compression(options, rocksdb_no_compression);
    rocksdb_t *store = rocksdb_open(options, folder, &error);
    ends_on(error);
    return store;
}

static void fill(const char *folder, size_t records, size_t value, size_t keys)
{
    char *error = NULL, key[16], *bytes = malloc(value ? value : 1);
    rocksdb_writeoptions_t *how = rocksdb_writeoptions_create();
    rocksdb_t *store = opened(folder);
    memset(bytes, 'v', value);
    for (size_t made = 0; made < records; made++) {
        int length = snprintf(key, sizeof key, "k%07zu", made * 7919 % keys);
        rocksdb_put(store, how, key, (size_t)length, bytes, value, &error);
        ends_on(error);
    }
    rocksdb_flush_wal(store, 1, &error);
    ends_on(error);
    _exit(0);
}

static void measure(const char *folder)
{
    struct timespec from, to;
    clock_gettime(CLOCK_MONOTONIC, &from);
    opened(folder);
    clock_gettime(CLOCK_MONOTONIC, &to);
    printf("%.6f\n", (double)(to.tv_sec - from.tv_sec) + (double)(to.tv_nsec - from.tv_nsec) / 1e9);
    fflush(stdout);
    _exit(0);
}

int main(int argc, char **argv)
{
    if (argc == 6 && !strcmp(argv[1], "fill"))
        fill(argv[2], strtoul(argv[3], NULL, 10), strtoul(argv[4], NULL, 10), strtoul(argv[5], NULL, 10));
    else if (argc == 3 && !strcmp(argv[1], "open"))
        measure(argv[2]);
    else
        return 2;
}
