/* What the tests share: a check that counts, and a call with a line. */
#ifndef CHECK_H
#define CHECK_H

#include "jpstore.h"

#include <stdio.h>
#include <stdlib.h>
#include <string.h>

static _Atomic int checks_passed, checks_failed;

#define CHECK(holds)                                                          \
    do {                                                                      \
        if (holds)                                                            \
            checks_passed++;                                                  \
        else {                                                                \
            checks_failed++;                                                  \
            printf("%s:%d: not so: %s\n", __FILE__, __LINE__, #holds);        \
        }                                                                     \
    } while (0)

static inline int checks_end(void)
{
    printf("%d passed, %d failed\n", checks_passed, checks_failed);
    return checks_failed ? 1 : 0;
}

/* Whether the store answers these bytes with just these, and no fault. */
static inline int answers(jpstore *store, const char *input, const char *wanted)
{
    const char *replies;
    size_t length;
    const int fault = jpstore_feed(store, input, strlen(input), &replies, &length);
    if (fault == JPSTORE_OK && length == strlen(wanted) && memcmp(replies, wanted, length) == 0)
        return 1;
    printf("fault %d, %.*s", fault, (int)length, replies);
    return 0;
}

/* Whether these are the same text, which may be NULL. */
static inline int same(const char *found, const char *wanted)
{
    if (found && wanted && strcmp(found, wanted) == 0)
        return 1;
    printf("%s\n", found ? found : "NULL");
    return 0;
}

/* A new file with an empty store, of which nothing was left from before. */
static inline void new_file(const char *path, uint64_t sectors)
{
    remove(path);
    if (jpstore_format(path, sectors, NULL, NULL, NULL) != JPSTORE_OK) {
        printf("%s can't be made\n", path);
        exit(1);
    }
}

#define CREATE "{\"cmd\":\"create\",\"doc\":{\"n\":0},\"name\":\"d\",\"schema\":true}\n"
#define GET "{\"cmd\":\"get\",\"name\":\"d\",\"path\":\"/n\"}\n"
#define PATCH "{\"cmd\":\"patch\",\"name\":\"d\",\"ops\":[{\"op\":\"replace\",\"path\":\"/n\",\"value\":7}]}\n"
#define LIST "{\"cmd\":\"list\"}\n"

#endif
