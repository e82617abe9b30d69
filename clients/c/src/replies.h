/* Reply lines, whose forms are fixed: compact, with members in byte order. */
#ifndef JPSTORE_REPLIES_H
#define JPSTORE_REPLIES_H

#include "jpstore.h"

#include <stdbool.h>

/* A mark, whose value is NULL if there is none. */
struct mark {
    const char *value;
    size_t length;
    uint64_t seq;
};

/* The number of a member of this name; false if the reply, which ends by 0, has none. */
bool read_number(const char *reply, const char *name, uint64_t *number);

/* What follows "NAME":, NULL if the reply has no such member. */
const char *read_member(const char *reply, const char *name);

bool read_state(const char *reply, jpstore_state *state);

/* Reads a reply's mark, whose value is left in the reply's place, without escapes and ended by 0: so this comes last. */
bool read_mark(char *reply, struct mark *mark);

/* Whether a reply is a refusal; *cause is set then, and the reply is as after read_mark. */
bool read_refusal(char *reply, jpstore_cause *cause);

#endif
