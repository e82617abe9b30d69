/* A call for documents: begun, then its line is written, then it is sent and answered, then it is over. After a fault, what
 * follows does nothing but to tell it. */
#ifndef JPSTORE_CALL_H
#define JPSTORE_CALL_H

#include "jpstore.h"
#include "line.h"

struct call {
    jpstore *store;
    struct line line;
    int fault;
    /* The replies that weren't read yet. */
    char *replies;
};

/* What is before and after the value in a reply that is no refusal. */
struct form {
    const char *before, *after;
};

/* The value in a reply, which ends by 0. */
struct value {
    char *text;
    size_t length;
};

/* Takes the store. */
struct call call_begin(jpstore *store);

/* Ends the lines of changes: so that none waits for others of a batch. */
void call_end_changes(struct call *call);

/* Sends the lines. */
void call_send(struct call *call, jpstore_cause *cause);

/* What the next reply says: JPSTORE_REFUSED if it is a refusal. */
int call_read(struct call *call, const struct form *form, struct value *value, jpstore_cause *cause);

/* Lets the store go, if the call had it. */
void call_end(const struct call *call);

#endif
