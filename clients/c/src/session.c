#include "session.h"

#include <errno.h>
#include <inttypes.h>
#include <pthread.h>
#include <stdio.h>
#include <stdlib.h>
#include <string.h>
#include <sys/file.h>
#include <unistd.h>

/* The program's own main. */
extern int jpstore_program_main(void);

/* Its place is fixed when the library is loaded, since a place that is made at the first use may be out of memory. */
static _Thread_local jpstore *running __attribute__((tls_model("initial-exec")));

/* Never inlined: the thread may be another one after each switch, so nothing about it may be remembered across one. */
__attribute__((noinline)) jpstore *session_running(void)
{
    __asm__ volatile("");
    return running;
}

static __attribute__((noinline)) void set_running(jpstore *session)
{
    __asm__ volatile("");
    running = session;
}

static void run_program(void *of)
{
    jpstore *session = of;
    session->status = jpstore_program_main();
    session->ended = true;
    fiber_end(&session->fiber);
}

/* A path that begins with '-' would be taken for an option. */
static char *copied_path(const char *path)
{
    const size_t length = strlen(path);
    char *copy = malloc(length + 3);
    if (!copy)
        return NULL;
    char *rest = copy;
    if (path[0] == '-') {
        memcpy(copy, "./", 2);
        rest += 2;
    }
    memcpy(rest, path, length + 1);
    return copy;
}

static void add_word(jpstore *session, char *word)
{
    session->words[session->words_count++] = word;
}

static bool fill(jpstore *session, const char *command, const char *path)
{
    static char name[] = "jpstore";
    add_word(session, name);
    add_word(session, (char *)(uintptr_t)command);
    return session_add_path(session, path) && fiber_make(&session->fiber, run_program, session);
}

static void free_paths(jpstore *session)
{
    for (size_t at = 0; at < session->paths_count; at++)
        free(session->paths[at]);
}

jpstore *session_make(const char *command, const char *path)
{
    const int before = errno;
    jpstore *session = calloc(1, sizeof *session);
    if (session) {
        session->file = -1;
        atomic_flag_clear(&session->busy);
        if (!owner_make(&session->owner) || !fill(session, command, path)) {
            owner_free(&session->owner);
            free_paths(session);
            free(session);
            session = NULL;
        }
    }
    errno = before;
    return session;
}

bool session_add_path(jpstore *session, const char *path)
{
    if (!path)
        return true;
    char *copy = copied_path(path);
    if (!copy)
        return false;
    session->paths[session->paths_count++] = copy;
    add_word(session, copy);
    return true;
}

/* Adds an option to the words, and room for the text of its number. */
static char *add_option(jpstore *session, const char *option)
{
    char *text = session->numbers[session->numbers_count++];
    session_add_flag(session, option);
    add_word(session, text);
    return text;
}

void session_add(jpstore *session, const char *option, uint64_t number)
{
    snprintf(add_option(session, option), NUMBER_ROOM, "%" PRIu64, number);
}

void session_add_mode(jpstore *session, uint64_t mode)
{
    snprintf(add_option(session, "--mode"), NUMBER_ROOM, "%04" PRIo64, mode);
}

bool session_add_id(jpstore *session, const char *id)
{
    if (strlen(id) != JPSTORE_ID_ROOM - 1)
        return false;
    memcpy(session->id, id, JPSTORE_ID_ROOM);
    session_add_flag(session, "--id");
    add_word(session, session->id);
    return true;
}

void session_add_flag(jpstore *session, const char *option)
{
    add_word(session, (char *)(uintptr_t)option);
}

void session_run(jpstore *session)
{
    const int before = errno;
    /* A host whose allocator feeds another store in the midst of a call has two that run. */
    session->outer = session_running();
    pthread_setcancelstate(PTHREAD_CANCEL_DISABLE, &session->cancels);
    set_running(session);
    fiber_enter(&session->fiber);
    set_running(session->outer);
    pthread_setcancelstate(session->cancels, NULL);
    errno = before;
}

int session_begin(jpstore *store)
{
    if (!store)
        return JPSTORE_ARGUMENTS;
    if (!owner_is_here(&store->owner))
        return JPSTORE_FORKED;
    if (atomic_flag_test_and_set_explicit(&store->busy, memory_order_acquire))
        return JPSTORE_BUSY;
    if (!store->ended)
        return JPSTORE_OK;
    session_end(store);
    return JPSTORE_ENDED;
}

int session_feed(jpstore *store, const void *bytes, size_t length)
{
    text_empty(&store->output);
    store->input = bytes;
    store->input_left = length;
    session_run(store);
    store->input = NULL;
    if (store->output.bytes)
        store->output.bytes[store->output.length] = 0;
    return store->ended ? session_fault(store, NULL) : JPSTORE_OK;
}

void session_end(jpstore *store)
{
    atomic_flag_clear_explicit(&store->busy, memory_order_release);
}

void session_leave(jpstore *session)
{
    const int before = errno;
    int cancels;
    pthread_setcancelstate(PTHREAD_CANCEL_DISABLE, &cancels);
    if (session->file >= 0) {
        if (owner_is_here(&session->owner))
            flock(session->file, LOCK_UN);
        close(session->file);
    }
    if (session_running() == session) {
        /* A jump has left a call of this thread. */
        set_running(session->outer);
        cancels = session->cancels;
    }
    pthread_setcancelstate(cancels, NULL);
    errno = before;
}

void session_free(jpstore *session)
{
    const int before = errno;
    fiber_free(&session->fiber);
    owner_free(&session->owner);
    text_free(&session->output);
    text_free(&session->line);
    free_paths(session);
    free(session);
    errno = before;
}
