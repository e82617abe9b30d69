/* Each allocation of a session refused in turn: a call then answers a fault or 63, and what comes after is right. The
 * linker puts these functions in the place of the C library's, by --wrap. The word is a folder for files. */
#define _GNU_SOURCE
#include "check.h"

#include <sys/mman.h>

/* How many allocations are made until one is refused; 0: none is. */
static long left;
static int refused;

static int refuses(void)
{
    if (left == 0 || --left != 0)
        return 0;
    refused = 1;
    return 1;
}

void *__real_malloc(size_t size);
void *__real_calloc(size_t count, size_t size);
void *__real_realloc(void *block, size_t size);
void *__real_mmap(void *at, size_t size, int access, int flags, int file, long from);
void *__wrap_malloc(size_t size);
void *__wrap_calloc(size_t count, size_t size);
void *__wrap_realloc(void *block, size_t size);
void *__wrap_mmap(void *at, size_t size, int access, int flags, int file, long from);

void *__wrap_malloc(size_t size)
{
    return refuses() ? NULL : __real_malloc(size);
}

void *__wrap_calloc(size_t count, size_t size)
{
    return refuses() ? NULL : __real_calloc(count, size);
}

void *__wrap_realloc(void *block, size_t size)
{
    return refuses() ? NULL : __real_realloc(block, size);
}

void *__wrap_mmap(void *at, size_t size, int access, int flags, int file, long from)
{
    return refuses() ? MAP_FAILED : __real_mmap(at, size, access, flags, file, from);
}

static const char *const LINES[] = {
    "{\"cmd\":\"create\",\"doc\":{\"a\":[1,2,3],\"n\":0},\"name\":\"e\",\"schema\":{\"properties\":{\"n\":{\"type\":\"integer\"}}}}\n",
    PATCH,
    GET,
    "{\"cmd\":\"query\",\"name\":\"d\",\"path\":\"$..*\"}\n",
    "{\"cmd\":\"snapshot\"}\n",
};

#define DELETE "{\"cmd\":\"delete\",\"name\":\"e\"}\n"

enum { LINES_COUNT = sizeof LINES / sizeof *LINES };

static int is_memory(const char *replies, size_t length)
{
    static const char wanted[] = "{\"error\":\"memory\",\"number\":63,\"ok\":false}\n";
    return length == strlen(wanted) && memcmp(replies, wanted, length) == 0;
}

static int is_done(const char *replies, size_t length)
{
    return length > 10 && replies[length - 1] == '\n' && memmem(replies, length, "\"ok\":true", 9) != NULL;
}

/* An opening whose allocation was refused has left nothing, and another one is as ever. */
static int tried_opening(const char *file, long at)
{
    jpstore *store;
    refused = 0;
    left = at;
    const int fault = jpstore_open(file, NULL, &store, NULL);
    left = 0;
    if (fault == JPSTORE_OK)
        jpstore_free(store);
    else
        CHECK(refused && fault == JPSTORE_MEMORY && store == NULL);
    return refused;
}

/* The store that is fed after a refusal. */
static jpstore *opened(const char *file)
{
    jpstore *store;
    CHECK(jpstore_open(file, NULL, &store, NULL) == JPSTORE_OK);
    return store;
}

/* A line with one allocation refused is answered 63, or as ever; or its reply is lost and the session is over. */
static int tried_line(const char *file, const char *line, long at, jpstore **store)
{
    const char *replies;
    size_t length;
    refused = 0;
    left = at;
    const int fault = jpstore_feed(*store, line, strlen(line), &replies, &length);
    left = 0;
    if (fault == JPSTORE_REPLY) {
        CHECK(refused);
        jpstore_free(*store);
        *store = opened(file);
    } else {
        CHECK(fault == JPSTORE_OK && (is_done(replies, length) || (refused && is_memory(replies, length))));
    }
    /* What the first line made, if it did. */
    jpstore_feed(*store, DELETE, strlen(DELETE), &replies, &length);
    CHECK(answers(*store, "{\"cmd\":\"get\",\"name\":\"d\",\"path\":\"/b\"}\n", "{\"ok\":true,\"value\":\"kept\"}\n"));
    return refused;
}

/* The same for a call that writes its line itself, which takes memory too. */
static int tried_call(const char *file, long at, jpstore **store)
{
    jpstore_cause cause;
    refused = 0;
    jpstore_free(*store);
    *store = opened(file);
    left = at;
    const int fault = jpstore_create(*store, "e", "{\"a\":[1,2,3],\"n\":0}", "true", NULL, &cause);
    left = 0;
    const int is_refused = fault == JPSTORE_REFUSED && cause.refusal == JPSTORE_REFUSAL_MEMORY;
    CHECK(fault == JPSTORE_OK || (refused && (is_refused || fault == JPSTORE_REPLY)));
    if (fault == JPSTORE_REPLY) {
        jpstore_free(*store);
        *store = opened(file);
    }
    const int deleted = jpstore_delete(*store, "e", NULL, &cause);
    CHECK(is_refused ? cause.refusal == JPSTORE_REFUSAL_NO_DOCUMENT : deleted == JPSTORE_OK || fault == JPSTORE_REPLY);
    return refused;
}

int main(int count, char **words)
{
    char file[4096];
    long at = 1, tried = 0;
    snprintf(file, sizeof file, "%s/refused.store", count > 1 ? words[1] : ".");
    new_file(file, 4096);
    jpstore *store = opened(file);
    CHECK(answers(store, "{\"cmd\":\"create\",\"doc\":{\"b\":\"kept\",\"n\":0},\"name\":\"d\",\"schema\":true}\n", "{\"ok\":true,\"seq\":1}\n"));
    jpstore_free(store);
    while (tried_opening(file, at))
        at++;
    tried += at - 1;
    store = opened(file);
    for (int line = 0; line < LINES_COUNT; line++) {
        for (at = 1; tried_line(file, LINES[line], at, &store); at++)
            ;
        tried += at - 1;
    }
    for (at = 1; tried_call(file, at, &store); at++)
        ;
    tried += at - 1;
    jpstore_free(store);
    printf("%ld allocations refused\n", tried);
    CHECK(tried > 100);
    return checks_end();
}
