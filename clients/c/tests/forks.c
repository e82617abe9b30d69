/* A store in a child of fork, and in a process whose standard streams are closed. The linker puts two functions in the place
 * of the C library's, by --wrap. The word is a folder for files. */
#define _GNU_SOURCE
#include "check.h"

#include <errno.h>
#include <fcntl.h>
#include <signal.h>
#include <sys/mman.h>
#include <sys/wait.h>
#include <unistd.h>

/* Whether each process has the same number, as one and its child in another namespace may have, and whether the kernel is
 * one before Linux 4.14. */
static int has_same_number, is_old_kernel;

pid_t __real_getpid(void);
int __real_madvise(void *at, size_t length, int advice);
pid_t __wrap_getpid(void);
int __wrap_madvise(void *at, size_t length, int advice);

pid_t __wrap_getpid(void)
{
    return has_same_number ? 1 : __real_getpid();
}

int __wrap_madvise(void *at, size_t length, int advice)
{
    if (!is_old_kernel || advice != MADV_WIPEONFORK)
        return __real_madvise(at, length, advice);
    errno = EINVAL;
    return -1;
}

/* In a child: whether all calls refuse, and the file is let go. */
static int child_refuses(jpstore *store, const char *file)
{
    const char *replies;
    size_t length;
    jpstore *again;
    int wrong = jpstore_feed(store, GET, strlen(GET), &replies, &length) != JPSTORE_FORKED || length != 0;
    wrong += jpstore_finish(store, &replies, &length) != JPSTORE_FORKED;
    wrong += jpstore_get(store, "d", "/n", &replies, NULL, NULL) != JPSTORE_FORKED || replies != NULL;
    wrong += jpstore_delete(store, "d", NULL, NULL) != JPSTORE_FORKED;
    jpstore_free(store);
    wrong += jpstore_open(file, NULL, &again, NULL) != JPSTORE_IN_USE;
    return wrong;
}

static int ended(pid_t child)
{
    int status = -1;
    waitpid(child, &status, 0);
    return WIFEXITED(status) ? WEXITSTATUS(status) : -1;
}

static void forks(const char *file)
{
    jpstore *store, *again;
    int go[2];
    char byte = 0;
    new_file(file, 64);
    CHECK(jpstore_open(file, NULL, &store, NULL) == JPSTORE_OK);
    CHECK(answers(store, CREATE, "{\"ok\":true,\"seq\":1}\n"));
    pid_t child = fork();
    if (child == 0)
        _exit(child_refuses(store, file));
    CHECK(ended(child) == 0);
    CHECK(answers(store, PATCH GET, "{\"ok\":true,\"seq\":2}\n{\"ok\":true,\"value\":7}\n"));
    /* A child that frees its copy doesn't keep the file from others once the parent has let it go. */
    if (pipe(go) != 0)
        exit(1);
    child = fork();
    if (child == 0) {
        jpstore_free(store);
        if (write(go[1], "", 1) == 1)
            pause();
        _exit(1);
    }
    CHECK(read(go[0], &byte, 1) == 1);
    jpstore_free(store);
    CHECK(jpstore_open(file, NULL, &again, NULL) == JPSTORE_OK);
    jpstore_free(again);
    kill(child, SIGKILL);
    waitpid(child, NULL, 0);
    close(go[0]);
    close(go[1]);
}

/* A child that was just made, and has freed nothing yet, doesn't keep the file from others once the parent has let it go. */
static void lets_go_beside_a_child(const char *file)
{
    jpstore *store, *again;
    new_file(file, 64);
    CHECK(jpstore_open(file, NULL, &store, NULL) == JPSTORE_OK);
    const pid_t child = fork();
    if (child == 0) {
        pause();
        _exit(1);
    }
    jpstore_free(store);
    CHECK(jpstore_open(file, NULL, &again, NULL) == JPSTORE_OK);
    jpstore_free(again);
    kill(child, SIGKILL);
    waitpid(child, NULL, 0);
}

/* A program that is started by exec gets no copy of the file. */
static void closes_on_exec(const char *file)
{
    char link[64], target[4096], path[4096];
    jpstore *store;
    int found = 0;
    new_file(file, 64);
    CHECK(jpstore_open(file, NULL, &store, NULL) == JPSTORE_OK && realpath(file, path));
    for (int number = 0; number < 64; number++) {
        snprintf(link, sizeof link, "/proc/self/fd/%d", number);
        const ssize_t length = readlink(link, target, sizeof target - 1);
        if (length < 0)
            continue;
        target[length] = 0;
        if (strcmp(target, path) == 0 && ++found)
            CHECK((fcntl(number, F_GETFD) & FD_CLOEXEC) != 0);
    }
    CHECK(found == 1);
    jpstore_free(store);
}

/* In a child whose standard streams are closed: a store gets none of their numbers, and is served as ever. */
static int without_streams(const char *file)
{
    jpstore *store;
    const char *replies;
    size_t length;
    for (int stream = 0; stream < 3; stream++)
        close(stream);
    int wrong = jpstore_open(file, NULL, &store, NULL) != JPSTORE_OK;
    wrong += jpstore_feed(store, CREATE, strlen(CREATE), &replies, &length) != JPSTORE_OK || length != 20;
    for (int stream = 0; stream < 3; stream++)
        wrong += fcntl(stream, F_GETFD) != -1;
    jpstore_free(store);
    return wrong;
}

static void closed_streams(const char *file)
{
    new_file(file, 64);
    fflush(stdout);
    const pid_t child = fork();
    if (child == 0)
        _exit(without_streams(file));
    CHECK(ended(child) == 0);
}

int main(int count, char **words)
{
    char file[4096];
    snprintf(file, sizeof file, "%s/forks.store", count > 1 ? words[1] : ".");
    forks(file);
    has_same_number = 1;
    forks(file);
    has_same_number = 0;
    is_old_kernel = 1;
    forks(file);
    is_old_kernel = 0;
    lets_go_beside_a_child(file);
    closes_on_exec(file);
    closed_streams(file);
    return checks_end();
}
