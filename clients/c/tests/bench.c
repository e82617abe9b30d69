/* How many gets or updates of one member a second: by the library, by the program over pipes, by SQLite, and by LMDB, which
 * knows no members: it gets and puts the whole document.
 *
 *     bench KIND WHAT FILE SIZE SECONDS [PROGRAM]
 *
 * KIND is embedded, pipe, sqlite or lmdb; WHAT is get or update. FILE is new. The document has a number and a text of SIZE bytes.
 * It prints the rate of the best of a hundred parts, and the microseconds of processor time that a call took, in this
 * process and in the program's. */
#define _GNU_SOURCE
#include "jpstore.h"

#include <lmdb.h>
#include <sqlite3.h>
#include <stdbool.h>
#include <stdio.h>
#include <stdlib.h>
#include <string.h>
#include <sys/resource.h>
#include <sys/wait.h>
#include <time.h>
#include <unistd.h>

static void stop(const char *why)
{
    fprintf(stderr, "bench: %s\n", why);
    exit(1);
}

static jpstore *store;
static FILE *to, *from;
static sqlite3 *base;
static sqlite3_stmt *statement;
static MDB_env *map;
static MDB_dbi table;
static MDB_txn *reader;
static MDB_val key = {1, "d"};
static char line[1 << 16];

static void embedded_line(const char *text, size_t length)
{
    const char *replies;
    size_t replied;
    if (jpstore_feed(store, text, length, &replies, &replied) != JPSTORE_OK || memcmp(replies, "{\"ok\":true", 10) != 0)
        stop("a line is refused");
}

static void piped_line(const char *text, size_t length)
{
    static char *reply;
    static size_t room;
    if (fwrite(text, 1, length, to) != length || fflush(to) != 0 || getline(&reply, &room, from) < 10
        || memcmp(reply, "{\"ok\":true", 10) != 0)
        stop("a line is refused");
}

static void (*say)(const char *text, size_t length);

static void json_get(long number)
{
    static const char get[] = "{\"cmd\":\"get\",\"name\":\"d\",\"path\":\"/n\"}\n";
    (void)number;
    say(get, sizeof get - 1);
}

static void json_update(long number)
{
    const int length = snprintf(line, sizeof line,
                                "{\"cmd\":\"patch\",\"name\":\"d\",\"ops\":[{\"op\":\"replace\",\"path\":\"/n\",\"value\":%ld}]}\n", number);
    say(line, (size_t)length);
}

static void sql_get(long number)
{
    (void)number;
    sqlite3_bind_text(statement, 1, "d", 1, SQLITE_STATIC);
    if (sqlite3_step(statement) != SQLITE_ROW || sqlite3_column_type(statement, 0) != SQLITE_INTEGER)
        stop("no row");
    sqlite3_column_int64(statement, 0);
    sqlite3_reset(statement);
}

static void sql_update(long number)
{
    sqlite3_bind_int64(statement, 1, number);
    sqlite3_bind_text(statement, 2, "d", 1, SQLITE_STATIC);
    if (sqlite3_step(statement) != SQLITE_DONE)
        stop("no update");
    sqlite3_reset(statement);
}

static void lmdb_get(long number)
{
    MDB_val value;
    (void)number;
    if (mdb_txn_renew(reader) != 0 || mdb_get(reader, table, &key, &value) != 0 || memcmp(value.mv_data, "{\"n\":", 5) != 0)
        stop("no value");
    strtol((const char *)value.mv_data + 5, NULL, 10);
    mdb_txn_reset(reader);
}

/* The text of the document without its number. */
static char text_of_doc[1 << 15];

static void lmdb_update(long number)
{
    MDB_txn *change;
    MDB_val value = {(size_t)snprintf(line, sizeof line, "{\"n\":%ld,%s", number, text_of_doc), line};
    if (mdb_txn_begin(map, NULL, 0, &change) != 0 || mdb_put(change, table, &key, &value, 0) != 0 || mdb_txn_commit(change) != 0)
        stop("no update");
}

static void open_lmdb(const char *file, const char *doc)
{
    MDB_txn *first;
    snprintf(text_of_doc, sizeof text_of_doc, "%s", strstr(doc, "\"t\""));
    if (mdb_env_create(&map) != 0 || mdb_env_set_mapsize(map, 64 << 20) != 0 || mdb_env_open(map, file, MDB_NOSUBDIR, 0600) != 0
        || mdb_txn_begin(map, NULL, 0, &first) != 0 || mdb_dbi_open(first, NULL, 0, &table) != 0 || mdb_txn_commit(first) != 0)
        stop("the map can't be opened");
    lmdb_update(0);
    if (mdb_txn_begin(map, NULL, MDB_RDONLY, &reader) != 0)
        stop("the map can't be read");
    mdb_txn_reset(reader);
}

static void open_embedded(const char *file)
{
    const jpstore_options options = {.pump = 64};
    if (jpstore_format(file, 65536, NULL, NULL, NULL) != JPSTORE_OK || jpstore_open(file, &options, &store, NULL) != JPSTORE_OK)
        stop("the store can't be opened");
    say = embedded_line;
}

static void open_pipe(const char *file, const char *program)
{
    int there[2], back[2];
    if (jpstore_format(file, 65536, NULL, NULL, NULL) != JPSTORE_OK || pipe2(there, 0) != 0 || pipe2(back, 0) != 0)
        stop("the store can't be opened");
    if (fork() == 0) {
        dup2(there[0], 0);
        dup2(back[1], 1);
        close(there[1]);
        execl(program, program, "serve", file, "--pump", "64", (char *)NULL);
        _exit(127);
    }
    to = fdopen(there[1], "w");
    from = fdopen(back[0], "r");
    say = piped_line;
}

static void sql(const char *text)
{
    if (sqlite3_exec(base, text, NULL, NULL, NULL) != SQLITE_OK)
        stop(sqlite3_errmsg(base));
}

static void open_sqlite(const char *file, const char *doc, bool updates)
{
    if (sqlite3_open(file, &base) != SQLITE_OK)
        stop("the database can't be opened");
    sql("pragma journal_mode=wal");
    sql("pragma synchronous=full");
    sql("create table docs(name text primary key, doc text not null) without rowid");
    snprintf(line, sizeof line, "insert into docs values('d', '%s')", doc);
    sql(line);
    const char *text = updates ? "update docs set doc = json_set(doc, '$.n', ?) where name = ?"
                               : "select json_extract(doc, '$.n') from docs where name = ?";
    if (sqlite3_prepare_v2(base, text, -1, &statement, NULL) != SQLITE_OK)
        stop(sqlite3_errmsg(base));
}

static double now(void)
{
    struct timespec time;
    clock_gettime(CLOCK_MONOTONIC, &time);
    return (double)time.tv_sec + (double)time.tv_nsec / 1e9;
}

/* The rate of calls for so long, which also counts them. */
static double rate(void (*call)(long), double seconds, long *number)
{
    const double begin = now();
    const long first = *number;
    do
        call((*number)++);
    while (now() - begin < seconds);
    return (double)(*number - first) / (now() - begin);
}

static double seconds_of(int who)
{
    struct rusage used;
    getrusage(who, &used);
    return (double)(used.ru_utime.tv_sec + used.ru_stime.tv_sec) + (double)(used.ru_utime.tv_usec + used.ru_stime.tv_usec) / 1e6;
}

int main(int count, char **words)
{
    static char doc[1 << 15], create[1 << 16];
    if (count < 6)
        stop("KIND WHAT FILE SIZE SECONDS [PROGRAM]");
    const bool updates = strcmp(words[2], "update") == 0;
    snprintf(doc, sizeof doc, "{\"n\":0,\"t\":\"%0*d\"}", atoi(words[4]), 0);
    const int length = snprintf(create, sizeof create, "{\"cmd\":\"create\",\"doc\":%s,\"name\":\"d\",\"schema\":true}\n", doc);
    void (*call)(long) = updates ? json_update : json_get;
    if (strcmp(words[1], "sqlite") == 0) {
        open_sqlite(words[3], doc, updates);
        call = updates ? sql_update : sql_get;
    } else if (strcmp(words[1], "lmdb") == 0) {
        open_lmdb(words[3], doc);
        call = updates ? lmdb_update : lmdb_get;
    } else {
        if (strcmp(words[1], "embedded") == 0)
            open_embedded(words[3]);
        else
            open_pipe(words[3], words[6]);
        say(create, (size_t)length);
    }
    enum { PARTS = 100 };
    long number = 1;
    double best = 0;
    const double before = seconds_of(RUSAGE_SELF);
    for (int part = 0; part < PARTS; part++) {
        const double found = rate(call, atof(words[5]) / PARTS, &number);
        best = found > best ? found : best;
    }
    double used = seconds_of(RUSAGE_SELF) - before;
    if (to) {
        fclose(to);
        wait(NULL);
        used += seconds_of(RUSAGE_CHILDREN);
    }
    printf("%.0f %.2f\n", best, used * 1e6 / (double)(number - 1));
    jpstore_free(store);
    return 0;
}
