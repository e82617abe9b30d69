/* The calls of jpstore.h over an open store. */
#include "jpstore.h"
#include "session.h"

#include <string.h>

#ifndef JPSTORE_PROGRAM_SHA256
#error "build tells which object of the program is in the library"
#endif

int jpstore_version_number(void)
{
    return JPSTORE_VERSION_NUMBER;
}

const char *jpstore_version(void)
{
    return JPSTORE_VERSION " program-sha256:" JPSTORE_PROGRAM_SHA256;
}

/* Runs a new session until it asks for input: then it is open. */
static int opened(jpstore *session, jpstore **store, jpstore_cause *cause)
{
    session_run(session);
    if (!session->ended) {
        *store = session;
        return JPSTORE_OK;
    }
    const int fault = session_fault(session, cause);
    session_free(session);
    /* It can't end well before its input does. */
    return fault == JPSTORE_OK ? JPSTORE_UNKNOWN : fault;
}

int jpstore_open(const char *path, const jpstore_options *options, jpstore **store, jpstore_cause *cause)
{
    no_cause(cause);
    if (!store)
        return JPSTORE_ARGUMENTS;
    *store = NULL;
    if (!path || (options && !ARE_UNSET(options->reserved)))
        return JPSTORE_ARGUMENTS;
    jpstore *session = session_make("serve", path);
    if (!session)
        return JPSTORE_MEMORY;
    if (options && options->batch)
        session_add(session, "--batch", options->batch);
    session->gathers = options && options->batch > 1;
    if (options && options->pump)
        session_add(session, "--pump", options->pump);
    return opened(session, store, cause);
}

int jpstore_open_memory(uint64_t sectors, jpstore **store, jpstore_cause *cause)
{
    no_cause(cause);
    if (!store)
        return JPSTORE_ARGUMENTS;
    *store = NULL;
    jpstore *session = session_make("mem", NULL);
    if (!session)
        return JPSTORE_MEMORY;
    session_add(session, "--sectors", sectors);
    return opened(session, store, cause);
}

static bool is_blank(char letter)
{
    return letter == ' ' || letter == '\t' || letter == '\r';
}

/* Counts what the program will answer: a blank line has no reply. */
static void count_lines(jpstore *store, const char *bytes, size_t length)
{
    size_t at = 0;
    while (at < length) {
        const char *stop = memchr(bytes + at, '\n', length - at);
        const size_t line_end = stop ? (size_t)(stop - bytes) : length;
        while (at < line_end && is_blank(bytes[at]))
            at++;
        store->has_words |= at < line_end;
        store->is_within_line = !stop;
        if (stop && store->has_words)
            store->lines_waiting++;
        if (stop)
            store->has_words = false;
        at = line_end + 1;
    }
}

static void count_replies(jpstore *store)
{
    const char *at = store->output.bytes;
    size_t left = store->output.length;
    while (left > 0) {
        const char *stop = memchr(at, '\n', left);
        if (!stop)
            return;
        left -= (size_t)(stop + 1 - at);
        at = stop + 1;
        store->lines_waiting--;
    }
}

/* Tells the replies to what was fed, and lets the store go. */
static void tell(jpstore *store, const char **replies, size_t *length)
{
    if (replies && store->output.length > 0)
        *replies = store->output.bytes;
    if (length)
        *length = store->output.length;
    session_end(store);
}

/* Takes the store for a call that has no replies yet. */
static int begin(jpstore *store, const char **replies, size_t *length)
{
    if (replies)
        *replies = "";
    if (length)
        *length = 0;
    return session_begin(store);
}

int jpstore_feed(jpstore *store, const void *input, size_t length, const char **replies, size_t *replies_length)
{
    int fault = begin(store, replies, replies_length);
    if (fault != JPSTORE_OK)
        return fault;
    if (!input && length > 0) {
        session_end(store);
        return JPSTORE_ARGUMENTS;
    }
    fault = session_feed(store, input, length);
    count_lines(store, input, length);
    count_replies(store);
    tell(store, replies, replies_length);
    return fault;
}

int jpstore_finish(jpstore *store, const char **replies, size_t *replies_length)
{
    int fault = begin(store, replies, replies_length);
    if (fault != JPSTORE_OK)
        return fault;
    store->input_ended = true;
    fault = session_feed(store, NULL, 0);
    tell(store, replies, replies_length);
    return fault;
}

int jpstore_system_error(const jpstore *store)
{
    return store ? store->system_error : 0;
}

void jpstore_free(jpstore *store)
{
    if (!store)
        return;
    const int fault = jpstore_finish(store, NULL, NULL);
    /* The program can't end such a session: that of a parent, or one that a jump has left in the midst of a call. */
    if (fault == JPSTORE_FORKED || fault == JPSTORE_BUSY)
        session_leave(store);
    session_free(store);
}
