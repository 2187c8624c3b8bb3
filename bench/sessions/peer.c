/* Plays a script, or a generated load, over LevelDB or RocksDB as the program does: a thread a
   session, all of which meet at the end of each round. With -DROCKSDB it is built for RocksDB.

   peer FOLDER replay < SCRIPT
   peer FOLDER load SEED COUNT

   Of a script it knows the lines `commit S sync|nosync set K V`, `get S K` and `round`, and each of
   a session is answered. In the end all is synced, as when the program closes its journal. */
#include <inttypes.h>
#include <pthread.h>
#include <stdint.h>
#include <stdio.h>
#include <stdlib.h>
#include <string.h>

#ifdef ROCKSDB
#include <rocksdb/c.h>
#define OF_STORE(word) rocksdb_##word
#else
#include <leveldb/c.h>
#define OF_STORE(word) leveldb_##word
#endif

enum {
    MOST_SESSIONS = 64,
    LOAD_SESSIONS = 4,
    LOAD_ROUND = 1000,
    SYNC_EVERY = 16,
    DELETE_EVERY = 8,
    KEY_LENGTH = 5,
    VALUE_LENGTH = 64
};

/* Room for all that a case writes, so that no table is made. The program makes none either. */
static const size_t WRITE_BUFFER = (size_t)64 << 20;

/* A commit, or a read where there is no value. */
struct line {
    size_t round;
    const char *key, *value;
    int is_synced;
};

struct session {
    pthread_t thread;
    size_t number;
    struct line *lines;
    size_t count, room;
    FILE *said;
    char *text;
    size_t length;
};

static struct session sessions[MOST_SESSIONS];
static size_t session_count = 1, round_count = 1;
static uint64_t load_seed, load_count;
static pthread_barrier_t end_of_round;

static OF_STORE(t) * store;
static OF_STORE(options_t) * options;
static OF_STORE(writeoptions_t) * synced, *unsynced;
static OF_STORE(readoptions_t) * reading;

static void fail(const char *what)
{
    fprintf(stderr, "peer: %s\n", what);
    exit(1);
}

static void must(const char *error)
{
    if (error)
        fail(error);
}

static void open_store(const char *folder)
{
    char *error = NULL;
    options = OF_STORE(options_create)();
    OF_STORE(options_set_create_if_missing)(options, 1);
    OF_STORE(options_set_error_if_exists)(options, 1);
    OF_STORE(options_set_write_buffer_size)(options, WRITE_BUFFER);
    OF_STORE(options_set_compression)(options, OF_STORE(no_compression));
    unsynced = OF_STORE(writeoptions_create)();
    synced = OF_STORE(writeoptions_create)();
    OF_STORE(writeoptions_set_sync)(synced, 1);
    reading = OF_STORE(readoptions_create)();
    store = OF_STORE(open)(options, folder, &error);
    must(error);
}

static void commit(OF_STORE(writebatch_t) * batch, int is_synced)
{
    char *error = NULL;
    OF_STORE(write)(store, is_synced ? synced : unsynced, batch, &error);
    must(error);
}

/* LevelDB has no call that syncs its log, but a batch may be empty. */
static void close_store(void)
{
#ifdef ROCKSDB
    char *error = NULL;
    rocksdb_flush_wal(store, 1, &error);
    must(error);
#else
    leveldb_writebatch_t *nothing = leveldb_writebatch_create();
    commit(nothing, 1);
    leveldb_writebatch_destroy(nothing);
#endif
    OF_STORE(close)(store);
}

static char *read_script(void)
{
    size_t length = 0, room = 1 << 20, got;
    char *script = malloc(room + 1);
    while (script && (got = fread(script + length, 1, room - length, stdin)) > 0) {
        length += got;
        if (length == room)
            script = realloc(script, (room *= 2) + 1);
    }
    if (!script || ferror(stdin))
        fail("the script cannot be read");
    script[length] = 0;
    return script;
}

static void add_line(struct session *session, struct line line)
{
    if (session->count == session->room) {
        session->room = session->room ? 2 * session->room : 16;
        session->lines = realloc(session->lines, session->room * sizeof *session->lines);
        if (!session->lines)
            fail("no memory");
    }
    session->lines[session->count++] = line;
}

/* Deals a commit or a read, which begins with this word, to its session. */
static void deal(const char *what, char **rest)
{
    const char *number = strtok_r(NULL, " ", rest);
    size_t at = number ? strtoul(number, NULL, 10) : MOST_SESSIONS;
    struct line line = {.round = round_count - 1};
    if (strcmp(what, "commit") == 0) {
        const char *wait = strtok_r(NULL, " ", rest), *entry = strtok_r(NULL, " ", rest);
        if (!entry || strcmp(entry, "set") != 0)
            fail("a commit of the script is not known");
        line.is_synced = strcmp(wait, "sync") == 0;
        line.key = strtok_r(NULL, " ", rest);
        line.value = strtok_r(NULL, " ", rest);
        if (!line.value)
            fail("a commit of the script has no value");
    } else if (strcmp(what, "get") == 0) {
        line.key = strtok_r(NULL, " ", rest);
    }
    if (!line.key || at >= MOST_SESSIONS)
        fail("a line of the script is not known");
    session_count = at < session_count ? session_count : at + 1;
    add_line(&sessions[at], line);
}

static void deal_all(char *script)
{
    char *lines = NULL, *rest = NULL;
    for (char *it = strtok_r(script, "\n", &lines); it; it = strtok_r(NULL, "\n", &lines)) {
        const char *what = strtok_r(it, " ", &rest);
        if (what && strcmp(what, "round") == 0)
            round_count++;
        else if (what)
            deal(what, &rest);
    }
}

static void play_line(struct session *of, OF_STORE(writebatch_t) * batch, const struct line *line)
{
    size_t key_length = strlen(line->key), length;
    if (line->value) {
        OF_STORE(writebatch_clear)(batch);
        OF_STORE(writebatch_put)(batch, line->key, key_length, line->value, strlen(line->value));
        commit(batch, line->is_synced);
        fprintf(of->said, "s%zu commit%s\n", of->number, line->is_synced ? " synced" : "");
    } else {
        char *error = NULL;
        char *value = OF_STORE(get)(store, reading, line->key, key_length, &length, &error);
        must(error);
        if (value)
            fprintf(of->said, "s%zu get %s = %.*s\n", of->number, line->key, (int)length, value);
        else
            fprintf(of->said, "s%zu get %s none\n", of->number, line->key);
        OF_STORE(free)(value);
    }
}

static void *play_script(void *of)
{
    struct session *session = of;
    OF_STORE(writebatch_t) *batch = OF_STORE(writebatch_create)();
    session->said = open_memstream(&session->text, &session->length);
    if (!session->said)
        fail("no memory");
    for (size_t round = 0, at = 0; round < round_count; round++) {
        for (; at < session->count && session->lines[at].round == round; at++)
            play_line(session, batch, &session->lines[at]);
        pthread_barrier_wait(&end_of_round);
    }
    if (fclose(session->said) != 0)
        fail("no memory");
    OF_STORE(writebatch_destroy)(batch);
    return NULL;
}

static void put_key(char *key, uint64_t number)
{
    key[0] = 'k';
    number %= LOAD_ROUND;
    for (int d = KEY_LENGTH - 1; d >= 1; d--, number /= 10)
        key[d] = (char)('0' + number % 10);
}

static void commit_of_load(OF_STORE(writebatch_t) * batch, uint64_t i)
{
    char key[KEY_LENGTH], value[VALUE_LENGTH];
    uint64_t x = load_seed * 0x5851F42D4C957F2Du + i * 0x14057B7EF767814Fu;
    for (int at = 0; at < VALUE_LENGTH; at++)
        value[at] = "0123456789abcdef"[x >> (60 - 4 * (at % 16)) & 15];
    put_key(key, i);
    OF_STORE(writebatch_clear)(batch);
    OF_STORE(writebatch_put)(batch, key, KEY_LENGTH, value, VALUE_LENGTH);
    if (i % DELETE_EVERY == DELETE_EVERY - 1) {
        put_key(key, i - 4);
        OF_STORE(writebatch_delete)(batch, key, KEY_LENGTH);
    }
    commit(batch, i % SYNC_EVERY == SYNC_EVERY - 1);
}

static void *play_load(void *of)
{
    struct session *session = of;
    OF_STORE(writebatch_t) *batch = OF_STORE(writebatch_create)();
    for (uint64_t begin = 0; begin < load_count; begin += LOAD_ROUND) {
        uint64_t end = begin + LOAD_ROUND < load_count ? begin + LOAD_ROUND : load_count;
        for (uint64_t i = begin + session->number; i < end; i += session_count)
            commit_of_load(batch, i);
        pthread_barrier_wait(&end_of_round);
    }
    OF_STORE(writebatch_destroy)(batch);
    return NULL;
}

static void play_all(void *(*play)(void *))
{
    if (pthread_barrier_init(&end_of_round, NULL, (unsigned)session_count) != 0)
        fail("no barrier");
    for (size_t it = 0; it < session_count; it++) {
        sessions[it].number = it;
        if (pthread_create(&sessions[it].thread, NULL, play, &sessions[it]) != 0)
            fail("no thread");
    }
    for (size_t it = 0; it < session_count; it++)
        pthread_join(sessions[it].thread, NULL);
}

static size_t live_keys(void)
{
    size_t live = 0, length;
    for (uint64_t number = 0; number < LOAD_ROUND; number++) {
        char key[KEY_LENGTH], *error = NULL, *value;
        put_key(key, number);
        value = OF_STORE(get)(store, reading, key, KEY_LENGTH, &length, &error);
        must(error);
        live += value != NULL;
        OF_STORE(free)(value);
    }
    return live;
}

static void replay(void)
{
    size_t commits = 0;
    deal_all(read_script());
    play_all(play_script);
    for (size_t it = 0; it < session_count; it++) {
        for (size_t at = 0; at < sessions[it].count; at++)
            commits += sessions[it].lines[at].value != NULL;
        if (fwrite(sessions[it].text, 1, sessions[it].length, stdout) != sessions[it].length)
            fail("the replies cannot be written");
    }
    printf("end batches %zu\n", commits);
}

static void load(void)
{
    session_count = load_count < LOAD_SESSIONS ? (size_t)load_count : LOAD_SESSIONS;
    play_all(play_load);
    printf("load batches %" PRIu64 " live %zu\n", load_count, live_keys());
}

int main(int argc, char **argv)
{
    int is_load = argc == 5 && strcmp(argv[2], "load") == 0;
    if (!is_load && !(argc == 3 && strcmp(argv[2], "replay") == 0))
        fail("FOLDER replay | FOLDER load SEED COUNT");
    open_store(argv[1]);
    if (is_load) {
        load_seed = strtoull(argv[3], NULL, 10);
        load_count = strtoull(argv[4], NULL, 10);
        load();
    } else {
        replay();
    }
    close_store();
    return fflush(stdout) != 0;
}
