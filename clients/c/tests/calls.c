/* Each call of jpstore.h, what it answers, and what it leaves of the host alone. The word is a folder for files. */
#define _GNU_SOURCE
#include "check.h"

#include <errno.h>
#include <fcntl.h>
#include <locale.h>
#include <signal.h>
#include <sys/resource.h>
#include <sys/stat.h>
#include <unistd.h>

#define NAMES "{\"names\":[\"d\"],\"ok\":true}\n"
#define LARGE "{\"error\":\"transaction-large\",\"number\":65,\"ok\":false}\n"

static void sessions(const char *file)
{
    jpstore *store, *second;
    const char *replies;
    size_t length;
    jpstore_cause cause = {.refusal = -1, .system_error = -1};
    new_file(file, 64);
    CHECK(jpstore_open(file, NULL, &store, &cause) == JPSTORE_OK && cause.refusal == 0 && cause.system_error == 0);
    CHECK(answers(store, CREATE, "{\"ok\":true,\"seq\":1}\n"));
    CHECK(answers(store, "{\"cmd\":\"get\",\"na", ""));
    CHECK(answers(store, "me\":\"d\",\"path\":\"/n\"}\n" LIST, "{\"ok\":true,\"value\":0}\n{\"names\":[\"d\"],\"ok\":true}\n"));
    CHECK(answers(store, "", ""));
    CHECK(answers(store, " \t\r\n", ""));
    CHECK(answers(store, "x\n", "{\"error\":\"not-json\",\"number\":11,\"ok\":false}\n"));
    CHECK(jpstore_open(file, NULL, &second, &cause) == JPSTORE_IN_USE && second == NULL && cause.system_error == 0);
    CHECK(jpstore_check(file, NULL, NULL) == JPSTORE_IN_USE);
    CHECK(answers(store, "{\"cmd\":\"list\"}", ""));
    CHECK(jpstore_finish(store, &replies, &length) == JPSTORE_OK);
    CHECK(length == 26 && memcmp(replies, "{\"names\":[\"d\"],\"ok\":true}\n", length) == 0);
    CHECK(jpstore_open(file, NULL, &second, NULL) == JPSTORE_OK);
    CHECK(answers(second, GET, "{\"ok\":true,\"value\":0}\n"));
    jpstore_free(second);
    CHECK(jpstore_feed(store, GET, strlen(GET), &replies, &length) == JPSTORE_ENDED && length == 0);
    CHECK(jpstore_finish(store, &replies, &length) == JPSTORE_ENDED);
    jpstore_free(store);
    jpstore_free(NULL);
}

static void batches(const char *file)
{
    jpstore *store;
    const char *replies;
    size_t length;
    const jpstore_options options = {.batch = 4, .pump = 8};
    new_file(file, 64);
    CHECK(jpstore_open(file, &options, &store, NULL) == JPSTORE_OK);
    CHECK(answers(store, CREATE PATCH PATCH, ""));
    CHECK(answers(store, GET, "{\"ok\":true,\"seq\":1}\n{\"ok\":true,\"seq\":2}\n{\"ok\":true,\"seq\":3}\n{\"ok\":true,\"value\":7}\n"));
    CHECK(answers(store, PATCH, ""));
    CHECK(jpstore_finish(store, &replies, &length) == JPSTORE_OK && length == 20 && memcmp(replies, "{\"ok\":true,\"seq\":4}\n", 20) == 0);
    jpstore_free(store);
}

static void statuses(const char *file)
{
    jpstore_state status;
    uint64_t capacity = 0;
    remove(file);
    CHECK(jpstore_format(file, 64, NULL, &capacity, NULL) == JPSTORE_OK);
    CHECK(capacity > 0 && capacity <= 64 * 512 / 2);
    CHECK(jpstore_format(file, 64, NULL, NULL, NULL) == JPSTORE_FILE);
    CHECK(jpstore_check(file, &status, NULL) == JPSTORE_OK);
    CHECK(!status.broken && status.documents == 0 && status.opens == 1 && status.sectors == 64 && status.seq == 0);
    CHECK(status.capacity == capacity && status.used < capacity);
}

/* A file of each format, and from each to each. */
static void formats(const char *file)
{
    jpstore *store;
    uint64_t before = 0;
    for (uint64_t format = 2; format <= 3; format++) {
        const jpstore_format_options options = {.format = format};
        remove(file);
        CHECK(jpstore_format(file, 512, &options, NULL, NULL) == JPSTORE_OK);
        CHECK(jpstore_open(file, NULL, &store, NULL) == JPSTORE_OK);
        CHECK(answers(store, CREATE, "{\"ok\":true,\"seq\":1}\n"));
        jpstore_free(store);
        CHECK(jpstore_upgrade(file, 0, &before, NULL) == JPSTORE_OK && before == format);
        CHECK(jpstore_upgrade(file, 2, &before, NULL) == JPSTORE_OK && before == 3);
        CHECK(jpstore_upgrade(file, 3, NULL, NULL) == JPSTORE_OK);
        CHECK(jpstore_open(file, NULL, &store, NULL) == JPSTORE_OK);
        CHECK(answers(store, GET PATCH, "{\"ok\":true,\"value\":0}\n{\"ok\":true,\"seq\":2}\n"));
        CHECK(jpstore_upgrade(file, 0, NULL, NULL) == JPSTORE_IN_USE);
        jpstore_free(store);
    }
    CHECK(jpstore_upgrade(file, 4, &before, NULL) == JPSTORE_ARGUMENTS && before == 0);
    remove(file);
    CHECK(jpstore_format(file, 64, &(jpstore_format_options){.format = 4}, NULL, NULL) == JPSTORE_ARGUMENTS);
    CHECK(jpstore_format(file, 64, &(jpstore_format_options){.sparse = 2}, NULL, NULL) == JPSTORE_ARGUMENTS);
    CHECK(jpstore_format(file, 64, &(jpstore_format_options){.reserved = {[3] = 1}}, NULL, NULL) == JPSTORE_ARGUMENTS);
    CHECK(jpstore_format(file, 65536, &(jpstore_format_options){.format = 3, .sparse = 1}, NULL, NULL) == JPSTORE_OK);
    struct stat made;
    CHECK(stat(file, &made) == 0 && made.st_size == 65536 * 512 && made.st_blocks < 6553);
}

/* The identity of a store in format 3: the one that was asked for, or one that no other store has. */
static void identities(const char *folder, const char *file)
{
    static const char id[] = "00112233445566778899aabbccddeeff";
    jpstore_state of, copied;
    char copy[4096];
    snprintf(copy, sizeof copy, "%s/identity.store", folder);
    remove(file);
    remove(copy);
    CHECK(jpstore_format(file, 512, &(jpstore_format_options){.format = 3, .id = id}, NULL, NULL) == JPSTORE_OK);
    CHECK(jpstore_check(file, &of, NULL) == JPSTORE_OK && strcmp(of.id, id) == 0);
    CHECK(jpstore_copy_in(file, copy, 512, 3, &copied, NULL) == JPSTORE_OK);
    CHECK(strlen(copied.id) == 32 && strcmp(copied.id, id) != 0);
    CHECK(jpstore_upgrade(copy, 2, NULL, NULL) == JPSTORE_OK && jpstore_check(copy, &of, NULL) == JPSTORE_OK && of.id[0] == 0);
    remove(copy);
    remove(file);
    CHECK(jpstore_format(file, 512, &(jpstore_format_options){.format = 3, .id = "0011"}, NULL, NULL) == JPSTORE_ARGUMENTS);
    CHECK(jpstore_format(file, 512, &(jpstore_format_options){.format = 3, .id = "g0112233445566778899aabbccddeeff"}, NULL, NULL) == JPSTORE_ARGUMENTS);
    CHECK(access(file, F_OK) != 0);
}

/* What a creation under a schema is refused by, in a new file of a format; 0 if it isn't. */
static int refusal_in(const char *file, uint64_t format, const char *schema)
{
    jpstore *store;
    jpstore_cause cause = {0};
    remove(file);
    CHECK(jpstore_format(file, 512, &(jpstore_format_options){.format = format}, NULL, NULL) == JPSTORE_OK);
    CHECK(jpstore_open(file, NULL, &store, NULL) == JPSTORE_OK);
    const int fault = jpstore_create(store, "d", "\"a\"", schema, NULL, &cause);
    CHECK(fault == (cause.refusal ? JPSTORE_REFUSED : JPSTORE_OK));
    jpstore_free(store);
    return cause.refusal;
}

/* The keywords that format 3 alone reads, and that a store with one stays in it. */
static void profiles(const char *file)
{
    static char long_pattern[4200] = "{\"pattern\":\"";
    memset(long_pattern + strlen(long_pattern), 'a', 4097);
    strcat(long_pattern, "\"}");
    CHECK(refusal_in(file, 2, "{\"pattern\":\"^a\"}") == JPSTORE_REFUSAL_SCHEMA_KEYWORD);
    CHECK(refusal_in(file, 3, "{\"pattern\":\"(\"}") == JPSTORE_REFUSAL_SCHEMA_FORM);
    CHECK(refusal_in(file, 3, long_pattern) == JPSTORE_REFUSAL_SCHEMA_SIZE);
    CHECK(refusal_in(file, 3, "{\"pattern\":\"((a{100}){100}){100}\"}") == JPSTORE_REFUSAL_SCHEMA_SIZE);
    CHECK(refusal_in(file, 3, "{\"pattern\":\"b\"}") == JPSTORE_REFUSAL_INVALID);
    CHECK(refusal_in(file, 2, "{\"patternProperties\":{}}") == JPSTORE_REFUSAL_SCHEMA_KEYWORD);
    CHECK(refusal_in(file, 3, "{\"patternProperties\":{\"(\":{}}}") == JPSTORE_REFUSAL_SCHEMA_FORM);
    CHECK(refusal_in(file, 3, "{\"unevaluatedItems\":true}") == JPSTORE_REFUSAL_SCHEMA_KEYWORD);
    CHECK(refusal_in(file, 3, "{\"pattern\":\"^a\",\"dependentSchemas\":{\"b\":false}}") == 0);
    CHECK(refusal_in(file, 3, "{\"patternProperties\":{\"^a\":false}}") == 0);
    jpstore_cause cause = {0};
    char copy[4096];
    snprintf(copy, sizeof copy, "%s-copy", file);
    CHECK(jpstore_upgrade(file, 2, NULL, &cause) == JPSTORE_REFUSED && cause.refusal == JPSTORE_REFUSAL_NEWER_SCHEMA);
    CHECK(jpstore_copy_in(file, copy, 128, 2, NULL, &cause) == JPSTORE_REFUSED && cause.refusal == JPSTORE_REFUSAL_NEWER_SCHEMA);
    CHECK(access(copy, F_OK) != 0);
    jpstore_state status = {0};
    CHECK(jpstore_copy(file, copy, 120, NULL, &cause) == JPSTORE_REFUSED && cause.refusal == JPSTORE_REFUSAL_SMALL);
    CHECK(jpstore_copy(file, copy, 4096, &status, &cause) == JPSTORE_OK && cause.refusal == 0);
    CHECK(status.sectors == 4096 && status.documents == 1 && status.capacity == 4096 * 247);
    CHECK(jpstore_copy_in(file, copy, 4096, 4, NULL, &cause) == JPSTORE_ARGUMENTS);
    remove(copy);
}

/* The permission bits that a new file gets under an umask. */
static mode_t made_with(const char *file, uint64_t mode, mode_t mask)
{
    struct stat made = {0};
    const mode_t before = umask(mask);
    remove(file);
    CHECK(jpstore_format(file, 512, &(jpstore_format_options){.format = 3, .mode = mode, .sparse = 1}, NULL, NULL) == JPSTORE_OK);
    umask(before);
    CHECK(stat(file, &made) == 0);
    return made.st_mode & 07777;
}

static void modes(const char *file)
{
    CHECK(made_with(file, 0, 0) == 0600 && made_with(file, 0, 0277) == 0400);
    CHECK(made_with(file, 0640, 0) == 0640 && made_with(file, 0640, 022) == 0640 && made_with(file, 0777, 027) == 0750);
    CHECK(made_with(file, 0666, 0) == 0666 && made_with(file, 0200, 0) == 0200);
    remove(file);
    CHECK(jpstore_format(file, 64, &(jpstore_format_options){.mode = 01000}, NULL, NULL) == JPSTORE_ARGUMENTS);
    CHECK(access(file, F_OK) != 0);
}

/* A transaction that puts the document under a schema so many times, as a line. */
static char *touches(int count)
{
    static const char touch[] = "{\"cmd\":\"schema\",\"name\":\"d\",\"schema\":true},";
    char *line = malloc(100 + (size_t)count * sizeof touch);
    strcpy(line, "{\"changes\":[");
    for (int at = 0; at < count; at++)
        strcat(line, touch);
    strcpy(line + strlen(line) - 1, "],\"cmd\":\"transaction\"}\n");
    return line;
}

/* A transaction over its limit is refused alone (65), also in a batch. */
static void large_transactions(const char *file)
{
    static char create[1000100], lines[8192];
    /* The document has 1,000,000 bytes: 33 of them are within 32 MiB, and 34 are not. */
    const size_t begin = strlen(strcpy(create, "{\"cmd\":\"create\",\"doc\":\""));
    memset(create + begin, 'x', 999998);
    strcpy(create + begin + 999998, "\",\"name\":\"d\",\"schema\":true}\n");
    char *within = touches(33), *beyond = touches(34);
    snprintf(lines, sizeof lines, "%s%s%s%s", beyond, within, beyond, LIST);
    for (uint64_t format = 2; format <= 3; format++)
        for (uint64_t batch = 1; batch <= 8; batch += 7) {
            jpstore *store;
            remove(file);
            CHECK(jpstore_format(file, 5000, &(jpstore_format_options){.format = format}, NULL, NULL) == JPSTORE_OK);
            CHECK(jpstore_open(file, &(jpstore_options){.batch = batch}, &store, NULL) == JPSTORE_OK);
            CHECK(answers(store, create, batch == 1 ? "{\"ok\":true,\"seq\":1}\n" : ""));
            CHECK(answers(store, LIST, batch == 1 ? NAMES : "{\"ok\":true,\"seq\":1}\n" NAMES));
            CHECK(answers(store, lines, LARGE "{\"ok\":true,\"seq\":34}\n" LARGE NAMES));
            jpstore_free(store);
        }
    free(within);
    free(beyond);
}

/* More than 500 bytes, which a file of 3 sectors has no room for. */
#define TEN "1234567890,1234567890,1234567890,1234567890,1234567890,1234567890,1234567890,1234567890,1234567890,1234567890,"

/* A copy has the documents and their revisions, and nothing is left of one that failed. */
static void copies(const char *folder, const char *file)
{
    char copy[4096];
    jpstore *store;
    jpstore_state status;
    jpstore_cause cause;
    snprintf(copy, sizeof copy, "%s/copy.store", folder);
    remove(copy);
    new_file(file, 64);
    CHECK(jpstore_open(file, NULL, &store, NULL) == JPSTORE_OK);
    CHECK(answers(store, CREATE PATCH, "{\"ok\":true,\"seq\":1}\n{\"ok\":true,\"seq\":2}\n"));
    jpstore_free(store);
    CHECK(jpstore_copy(file, copy, 4096, &status, &cause) == JPSTORE_OK && cause.refusal == 0);
    CHECK(status.sectors == 4096 && status.documents == 1 && status.seq == 2 && status.opens == 2);
    CHECK(jpstore_copy(file, copy, 4096, NULL, &cause) == JPSTORE_FILE && cause.system_error == EEXIST);
    CHECK(jpstore_open(copy, NULL, &store, NULL) == JPSTORE_OK);
    CHECK(answers(store, "{\"cmd\":\"rev\",\"name\":\"d\"}\n" GET, "{\"ok\":true,\"rev\":2}\n{\"ok\":true,\"value\":7}\n"));
    CHECK(jpstore_copy(copy, file, 64, NULL, NULL) == JPSTORE_IN_USE);
    jpstore_free(store);
    remove(copy);
    new_file(file, 64);
    CHECK(jpstore_open(file, NULL, &store, NULL) == JPSTORE_OK);
    CHECK(answers(store, "{\"cmd\":\"create\",\"doc\":[" TEN TEN TEN TEN TEN "0],\"name\":\"d\",\"schema\":true}\n", "{\"ok\":true,\"seq\":1}\n"));
    jpstore_free(store);
    CHECK(jpstore_copy(file, copy, 3, NULL, &cause) == JPSTORE_REFUSED && cause.refusal == 74 && access(copy, F_OK) != 0);
    CHECK(jpstore_copy(file, NULL, 64, NULL, NULL) == JPSTORE_ARGUMENTS && jpstore_copy(NULL, copy, 64, NULL, NULL) == JPSTORE_ARGUMENTS);
}

static void memory(void)
{
    jpstore *store;
    CHECK(jpstore_open_memory(64, &store, NULL) == JPSTORE_OK);
    CHECK(answers(store, CREATE PATCH GET, "{\"ok\":true,\"seq\":1}\n{\"ok\":true,\"seq\":2}\n{\"ok\":true,\"value\":7}\n"));
    jpstore_free(store);
    CHECK(jpstore_open_memory(2, &store, NULL) == JPSTORE_ARGUMENTS && store == NULL);
}

static void refusals(const char *folder, const char *file)
{
    jpstore *store;
    jpstore_cause cause;
    CHECK(jpstore_open(folder, NULL, &store, NULL) == JPSTORE_FILE);
    CHECK(jpstore_open("", NULL, &store, NULL) != JPSTORE_OK);
    CHECK(jpstore_open("\xff", NULL, &store, NULL) == JPSTORE_ARGUMENTS);
    FILE *other = fopen(file, "w");
    fprintf(other, "%4096d", 0);
    fclose(other);
    CHECK(jpstore_open(file, NULL, &store, &cause) == JPSTORE_REFUSED && cause.refusal == 72 && cause.system_error == 0);
    CHECK(jpstore_check(file, NULL, &cause) == JPSTORE_REFUSED && cause.refusal == 72);
    new_file(file, 64);
    CHECK(jpstore_open(file, &(jpstore_options){.batch = 1025}, &store, NULL) == JPSTORE_ARGUMENTS);
    CHECK(jpstore_open(file, &(jpstore_options){.pump = 1000001}, &store, NULL) == JPSTORE_ARGUMENTS);
    CHECK(jpstore_open(file, &(jpstore_options){.reserved = {[5] = 1}}, &store, NULL) == JPSTORE_ARGUMENTS);
    CHECK(jpstore_open(NULL, NULL, &store, NULL) == JPSTORE_ARGUMENTS && store == NULL);
    CHECK(jpstore_format(file, 1, NULL, NULL, NULL) == JPSTORE_ARGUMENTS && jpstore_format(NULL, 64, NULL, NULL, NULL) == JPSTORE_ARGUMENTS);
    CHECK(jpstore_check(NULL, NULL, NULL) == JPSTORE_ARGUMENTS && jpstore_upgrade(NULL, 0, NULL, NULL) == JPSTORE_ARGUMENTS);
    CHECK(strcmp(jpstore_fault_text(JPSTORE_IN_USE), "another opening has the file") == 0);
    CHECK(jpstore_fault_text(-1) == jpstore_fault_text(JPSTORE_UNKNOWN) && jpstore_fault_text(1000) == jpstore_fault_text(-1));
    CHECK(strlen(jpstore_version()) == strlen(JPSTORE_VERSION " program-sha256:") + 64);
}

/* Names that a command line would take for options. */
static void odd_paths(const char *folder)
{
    char before[4096];
    jpstore *store;
    if (!getcwd(before, sizeof before) || chdir(folder) != 0)
        exit(1);
    new_file("--help", 16);
    CHECK(jpstore_open("--help", NULL, &store, NULL) == JPSTORE_OK);
    jpstore_free(store);
    new_file("-", 16);
    CHECK(jpstore_check("-", NULL, NULL) == JPSTORE_OK);
    remove("-new");
    CHECK(jpstore_copy("-", "-new", 16, NULL, NULL) == JPSTORE_OK && access("-new", F_OK) == 0);
    if (chdir(before) != 0)
        exit(1);
}

static volatile sig_atomic_t pipes;

static void count_pipe(int number)
{
    (void)number;
    pipes++;
}

static void host_is_left_alone(const char *file)
{
    jpstore *store;
    struct sigaction action;
    signal(SIGPIPE, count_pipe);
    setlocale(LC_ALL, "C.UTF-8");
    new_file(file, 64);
    errno = EDOM;
    CHECK(jpstore_open("/nowhere/at/all", NULL, &store, NULL) == JPSTORE_FILE && errno == EDOM);
    CHECK(jpstore_open(file, NULL, &store, NULL) == JPSTORE_OK && errno == EDOM);
    CHECK(answers(store, CREATE, "{\"ok\":true,\"seq\":1}\n") && errno == EDOM);
    jpstore_free(store);
    CHECK(errno == EDOM);
    CHECK(sigaction(SIGPIPE, NULL, &action) == 0 && action.sa_handler == count_pipe);
    CHECK(strcmp(setlocale(LC_ALL, NULL), "C.UTF-8") == 0);
    raise(SIGPIPE);
    CHECK(pipes == 1);
}

/* A file that was cut off isn't opened, and nothing of it is changed. */
static void cut_file(const char *file)
{
    jpstore *store;
    jpstore_cause cause;
    new_file(file, 64);
    CHECK(truncate(file, 16 * 512) == 0);
    CHECK(jpstore_open(file, NULL, &store, &cause) == JPSTORE_REFUSED && (cause.refusal == 72 || cause.refusal == 73));
}

/* A disk that fails: the lines are answered 61 and 62, and the end of the session tells it once more. */
static void failing_disk(const char *file)
{
    jpstore *store;
    const char *replies;
    size_t length;
    struct rlimit before, none;
    new_file(file, 64);
    CHECK(jpstore_open(file, NULL, &store, NULL) == JPSTORE_OK);
    signal(SIGXFSZ, SIG_IGN);
    getrlimit(RLIMIT_FSIZE, &before);
    none = before;
    none.rlim_cur = 0;
    setrlimit(RLIMIT_FSIZE, &none);
    CHECK(answers(store, CREATE, "{\"error\":\"device\",\"number\":61,\"ok\":false}\n"));
    CHECK(answers(store, CREATE, "{\"error\":\"broken\",\"number\":62,\"ok\":false}\n"));
    CHECK(answers(store, LIST, "{\"names\":[],\"ok\":true}\n"));
    CHECK(jpstore_system_error(store) == EFBIG);
    setrlimit(RLIMIT_FSIZE, &before);
    CHECK(jpstore_finish(store, &replies, &length) == JPSTORE_DEVICE);
    jpstore_free(store);
    CHECK(jpstore_check(file, NULL, NULL) == JPSTORE_OK);
}

/* What the program would say on its streams is said to the caller alone. */
static void streams_are_quiet(const char *folder, const char *file)
{
    char path[4096];
    jpstore *store;
    struct stat written;
    const int kept[2] = {dup(1), dup(2)};
    snprintf(path, sizeof path, "%s/streams", folder);
    fflush(stdout);
    const int other = open(path, O_CREAT | O_TRUNC | O_WRONLY, 0600);
    dup2(other, 1);
    dup2(other, 2);
    int faults = jpstore_open("/nowhere/at/all", NULL, &store, NULL) == JPSTORE_FILE;
    faults += jpstore_open(file, &(jpstore_options){.batch = 5000}, &store, NULL) == JPSTORE_ARGUMENTS;
    faults += jpstore_format(file, 1, NULL, NULL, NULL) == JPSTORE_ARGUMENTS;
    dup2(kept[0], 1);
    dup2(kept[1], 2);
    CHECK(faults == 3 && fstat(other, &written) == 0 && written.st_size == 0);
    close(other);
    close(kept[0]);
    close(kept[1]);
}

int main(int count, char **words)
{
    char file[4096];
    const char *folder = count > 1 ? words[1] : ".";
    snprintf(file, sizeof file, "%s/calls.store", folder);
    sessions(file);
    batches(file);
    statuses(file);
    formats(file);
    identities(folder, file);
    profiles(file);
    modes(file);
    large_transactions(file);
    copies(folder, file);
    memory();
    refusals(folder, file);
    odd_paths(folder);
    host_is_left_alone(file);
    streams_are_quiet(folder, file);
    cut_file(file);
    failing_disk(file);
    return checks_end();
}
