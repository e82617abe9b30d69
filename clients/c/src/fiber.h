/* A function that runs on a stack of its own, and goes back to its caller in the midst of its work. */
#ifndef JPSTORE_FIBER_H
#define JPSTORE_FIBER_H

#include <stdbool.h>
#include <stddef.h>

/* Four times what the dearest line that was found takes; tests/gate/stack.py measures that. Pages that aren't touched cost no
 * memory. */
#define FIBER_STACK_BYTES ((size_t)16 << 20)

/* Below the stack, and never accessible: running over the end is a fault, and not another object's bytes. */
#define FIBER_GUARD_BYTES ((size_t)64 << 10)

struct fiber {
    char *mapping;
    /* The stack pointers of the function and of its caller, of whichever doesn't run. */
    void *own, *caller;
    /* Leads debuggers and profilers from the function's stack to the caller's. */
    struct root *root;
    /* What valgrind and the sanitizers want to know. */
    unsigned valgrind_id;
    void *own_fake, *caller_fake;
    const void *caller_stack;
    size_t caller_size;
    void *own_thread, *caller_thread;
};

/* Makes a stack on which run(of) begins at the first fiber_enter; false if there is no memory. run ends by fiber_end. */
bool fiber_make(struct fiber *fiber, void (*run)(void *of), void *of);

/* Runs the function until it leaves or ends. */
void fiber_enter(struct fiber *fiber);

/* Called by the function: goes back to its caller, until the next fiber_enter. */
void fiber_leave(struct fiber *fiber);

/* Called by the function: goes back to its caller for good. */
_Noreturn void fiber_end(struct fiber *fiber);

/* How many bytes of the stack were touched, in whole pages. */
size_t fiber_touched(const struct fiber *fiber);

void fiber_free(struct fiber *fiber);

#endif
