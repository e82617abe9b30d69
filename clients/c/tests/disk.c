/* Calls of the system that fail, that a signal interrupts, and that move less than was asked for. The linker puts these
 * functions in the place of the C library's, by --wrap. The word is a folder for files. */
#define _GNU_SOURCE
#include "check.h"

#include <errno.h>
#include <fcntl.h>
#include <unistd.h>

/* What the next calls of a kind do: so many of them move at most so many bytes, or, if that is 0, fail by this errno. */
struct trouble {
    int calls;
    size_t most;
    int error;
};

static struct trouble opens, reads, writes, syncs;

/* Whether the call fails; *length is made shorter if it is to move less. */
static int fails(struct trouble *trouble, size_t *length)
{
    if (trouble->calls == 0)
        return 0;
    trouble->calls--;
    if (trouble->most) {
        *length = *length < trouble->most ? *length : trouble->most;
        return 0;
    }
    errno = trouble->error;
    return 1;
}

int __real_open(const char *path, int flags, mode_t mode);
ssize_t __real_pread(int file, void *into, size_t length, off_t at);
ssize_t __real_pwrite(int file, const void *from, size_t length, off_t at);
int __real_fdatasync(int file);
int __wrap_open(const char *path, int flags, mode_t mode);
ssize_t __wrap_pread(int file, void *into, size_t length, off_t at);
ssize_t __wrap_pwrite(int file, const void *from, size_t length, off_t at);
int __wrap_fdatasync(int file);

int __wrap_open(const char *path, int flags, mode_t mode)
{
    size_t none = 0;
    return fails(&opens, &none) ? -1 : __real_open(path, flags, mode);
}

ssize_t __wrap_pread(int file, void *into, size_t length, off_t at)
{
    return fails(&reads, &length) ? -1 : __real_pread(file, into, length, at);
}

ssize_t __wrap_pwrite(int file, const void *from, size_t length, off_t at)
{
    return fails(&writes, &length) ? -1 : __real_pwrite(file, from, length, at);
}

int __wrap_fdatasync(int file)
{
    size_t none = 0;
    return fails(&syncs, &none) ? -1 : __real_fdatasync(file);
}

static const struct trouble INTERRUPTED = {.calls = 3, .error = EINTR}, SHORT = {.calls = 5, .most = 100},
                            FAILED = {.calls = 1, .error = EIO};

/* A change whose calls are interrupted, or move less, is made. */
static void goes_on(const char *file, uint64_t format, struct trouble *calls, struct trouble trouble)
{
    jpstore *store;
    remove(file);
    *calls = trouble;
    CHECK(jpstore_format(file, 512, &(jpstore_format_options){.format = format}, NULL, NULL) == JPSTORE_OK);
    *calls = trouble;
    CHECK(jpstore_open(file, NULL, &store, NULL) == JPSTORE_OK);
    *calls = trouble;
    CHECK(answers(store, CREATE, "{\"ok\":true,\"seq\":1}\n"));
    *calls = trouble;
    CHECK(answers(store, PATCH GET, "{\"ok\":true,\"seq\":2}\n{\"ok\":true,\"value\":7}\n"));
    jpstore_free(store);
    *calls = trouble;
    CHECK(jpstore_open(file, NULL, &store, NULL) == JPSTORE_OK);
    *calls = (struct trouble){0};
    CHECK(answers(store, GET, "{\"ok\":true,\"value\":7}\n"));
    jpstore_free(store);
}

/* A change whose call fails is answered 61, and the end of the session tells it once more. */
static void breaks(const char *file, uint64_t format, struct trouble *calls)
{
    jpstore *store;
    const char *replies;
    size_t length;
    remove(file);
    CHECK(jpstore_format(file, 512, &(jpstore_format_options){.format = format}, NULL, NULL) == JPSTORE_OK);
    CHECK(jpstore_open(file, NULL, &store, NULL) == JPSTORE_OK && jpstore_system_error(store) == 0);
    CHECK(answers(store, CREATE, "{\"ok\":true,\"seq\":1}\n"));
    *calls = FAILED;
    CHECK(answers(store, PATCH, "{\"error\":\"device\",\"number\":61,\"ok\":false}\n") && calls->calls == 0);
    CHECK(answers(store, PATCH GET, "{\"error\":\"broken\",\"number\":62,\"ok\":false}\n{\"ok\":true,\"value\":0}\n"));
    CHECK(jpstore_finish(store, &replies, &length) == JPSTORE_DEVICE && jpstore_system_error(store) == EIO);
    jpstore_free(store);
    CHECK(jpstore_check(file, NULL, NULL) == JPSTORE_OK);
}

static void reasons(const char *file)
{
    jpstore *store;
    jpstore_cause cause;
    remove(file);
    writes = (struct trouble){.calls = 1, .error = ENOSPC};
    CHECK(jpstore_format(file, 64, NULL, NULL, &cause) == JPSTORE_NO_SPACE && cause.system_error == ENOSPC);
    CHECK(access(file, F_OK) != 0);
    writes = (struct trouble){.calls = 1, .error = EDQUOT};
    CHECK(jpstore_format(file, 64, NULL, NULL, &cause) == JPSTORE_NO_SPACE && cause.system_error == EDQUOT);
    new_file(file, 64);
    opens = (struct trouble){.calls = 1, .error = EROFS};
    CHECK(jpstore_open(file, NULL, &store, &cause) == JPSTORE_FILE && cause.system_error == EROFS);
    reads = FAILED;
    CHECK(jpstore_open(file, NULL, &store, &cause) == JPSTORE_DEVICE && cause.system_error == EIO);
    CHECK(jpstore_open(file, NULL, &store, &cause) == JPSTORE_OK && cause.system_error == 0);
    jpstore_free(store);
}

int main(int count, char **words)
{
    char file[4096];
    snprintf(file, sizeof file, "%s/disk.store", count > 1 ? words[1] : ".");
    for (uint64_t format = 2; format <= 3; format++) {
        goes_on(file, format, &writes, INTERRUPTED);
        goes_on(file, format, &writes, SHORT);
        goes_on(file, format, &reads, INTERRUPTED);
        goes_on(file, format, &reads, SHORT);
        goes_on(file, format, &syncs, INTERRUPTED);
        breaks(file, format, &writes);
        breaks(file, format, &syncs);
    }
    reasons(file);
    return checks_end();
}
