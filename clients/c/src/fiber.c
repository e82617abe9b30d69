#define _GNU_SOURCE
#include "fiber.h"

#include "switch_stacks.h"
#include "watchers.h"

#include <stdint.h>
#include <stdlib.h>
#include <string.h>
#include <sys/mman.h>

#define MAPPING_BYTES (FIBER_GUARD_BYTES + FIBER_STACK_BYTES)

/* Of the system's pages, on x86-64. */
enum { PAGE_BYTES = 4096 };

/* What a new stack begins with. */
struct beginning {
    void *registers[SWITCHED_REGISTERS];
    void (*begin)(void);
    void *end[2];
};

/* What is at the top of each stack. */
struct start {
    struct root root;
    struct fiber *fiber;
    void (*run)(void *of);
    void *of;
};

static char *lowest(const struct fiber *fiber)
{
    return fiber->mapping + FIBER_GUARD_BYTES;
}

/* The first function of each stack. What it is given lies at the top of that stack. */
static void begin(void *at)
{
    struct start *start = at;
    after_switch(NULL, &start->fiber->caller_stack, &start->fiber->caller_size);
    start->run(start->of);
    abort();
}

/* Maps the guard and the stack; a stack that isn't used takes addresses and no memory. */
static char *map_stack(void)
{
    char *mapping = mmap(NULL, MAPPING_BYTES, PROT_NONE, MAP_PRIVATE | MAP_ANONYMOUS | MAP_NORESERVE | MAP_STACK, -1, 0);
    if (mapping == MAP_FAILED)
        return NULL;
    /* A huge page would be the memory of many stores; a kernel without them refuses this, and nothing is lost. */
    madvise(mapping, MAPPING_BYTES, MADV_NOHUGEPAGE);
    if (mprotect(mapping + FIBER_GUARD_BYTES, FIBER_STACK_BYTES, PROT_READ | PROT_WRITE) == 0)
        return mapping;
    munmap(mapping, MAPPING_BYTES);
    return NULL;
}

bool fiber_make(struct fiber *fiber, void (*run)(void *of), void *of)
{
    memset(fiber, 0, sizeof *fiber);
    fiber->mapping = map_stack();
    if (!fiber->mapping)
        return false;
    char *top = fiber->mapping + MAPPING_BYTES;
    struct start *start = (struct start *)(void *)(top - 64);
    *start = (struct start){.root = {.caller = &fiber->caller}, .fiber = fiber, .run = run, .of = of};
    fiber->root = &start->root;
    struct beginning *first = (struct beginning *)(void *)((char *)start - sizeof(struct beginning));
    memset(first, 0, sizeof *first);
    /* By memcpy, since C has no cast from a function to a pointer of objects. */
    void (*begins)(void *) = begin;
    memcpy(&first->registers[KEPT_RBX], &begins, sizeof begins);
    first->registers[KEPT_R12] = start;
    first->registers[KEPT_RBP] = &start->root;
    first->begin = jpstore_begin_stack;
    fiber->own = first;
    watch_stack(fiber, lowest(fiber), top);
    make_thread(fiber);
    return true;
}

void fiber_enter(struct fiber *fiber)
{
    fiber->root->caller_frame = *(void **)__builtin_frame_address(0);
    fiber->root->caller_return = __builtin_return_address(0);
    before_switch(&fiber->caller_fake, lowest(fiber), FIBER_STACK_BYTES);
    enter_thread(fiber);
    jpstore_switch_stacks(&fiber->caller, fiber->own);
    after_switch(fiber->caller_fake, NULL, NULL);
}

void fiber_leave(struct fiber *fiber)
{
    before_switch(&fiber->own_fake, fiber->caller_stack, fiber->caller_size);
    leave_thread(fiber);
    jpstore_switch_stacks(&fiber->own, fiber->caller);
    /* Another thread may have entered, whose stack is another. */
    after_switch(fiber->own_fake, &fiber->caller_stack, &fiber->caller_size);
}

_Noreturn void fiber_end(struct fiber *fiber)
{
    before_switch(NULL, fiber->caller_stack, fiber->caller_size);
    leave_thread(fiber);
    jpstore_switch_stacks(&fiber->own, fiber->caller);
    abort();
}

size_t fiber_touched(const struct fiber *fiber)
{
    enum { PAGES = FIBER_STACK_BYTES / PAGE_BYTES };
    unsigned char *present = malloc(PAGES);
    if (!present || mincore(lowest(fiber), FIBER_STACK_BYTES, present) != 0) {
        free(present);
        return 0;
    }
    size_t first = 0;
    while (first < PAGES && (present[first] & 1) == 0)
        first++;
    free(present);
    return FIBER_STACK_BYTES - first * PAGE_BYTES;
}

void fiber_free(struct fiber *fiber)
{
    forget_stack(fiber);
    free_thread(fiber);
    forget_poison(lowest(fiber), FIBER_STACK_BYTES);
    munmap(fiber->mapping, MAPPING_BYTES);
}
