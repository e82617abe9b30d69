/* Which process made something.
 *
 * A number of a process doesn't tell: a child may have its parent's, in another namespace of processes. So the answer lies
 * in a page that the kernel wipes in a child. A kernel before 4.14 doesn't; there the numbers are compared. */
#ifndef JPSTORE_OWNER_H
#define JPSTORE_OWNER_H

#include <stdbool.h>
#include <sys/types.h>

struct owner {
    /* One byte that isn't 0 in the process that made it; NULL if the kernel can't wipe it in others. */
    volatile char *mark;
    pid_t number;
};

/* Makes this process the owner; false if there is no memory. */
bool owner_make(struct owner *owner);

/* Whether this process is the owner, and no child of it. */
bool owner_is_here(const struct owner *owner);

void owner_free(struct owner *owner);

#endif
