/* The switch from one stack to another, for x86-64.
 *
 * It keeps the registers that a call must keep. The control words of floating point are left alone: the program has no
 * floating point, so they are the calling thread's throughout. A switch by `ret` doesn't go with hardware shadow stacks;
 * the library isn't marked for these, so a process that has it runs without them, or refuses to load it. */
#ifndef JPSTORE_SWITCH_STACKS_H
#define JPSTORE_SWITCH_STACKS_H

#if !defined(__x86_64__) || !defined(__linux__) || defined(__ILP32__)
#error "jpstore's library is built for Linux on x86-64 alone: so is the object of the program"
#endif

/* Keeps this stack's pointer at *save, and goes on at the place that the stack `to` was left at. */
void jpstore_switch_stacks(void **save, void *to);

/* The end of a walk over a new stack: a frame as the compiler makes them, that goes on in the caller's stack. */
struct root {
    /* What a walk by frame pointers finds here. */
    void *caller_frame, *caller_return;
    /* Where the caller's stack was left, for a walk by tables. */
    void *const *caller;
};

/* The beginning of a new stack: calls the function in rbx with the pointer in r12. A struct root is at rbp. */
void jpstore_begin_stack(void);

enum { SWITCHED_REGISTERS = 6 };

/* The order in which the registers are kept, lowest first. */
enum { KEPT_R15, KEPT_R14, KEPT_R13, KEPT_R12, KEPT_RBX, KEPT_RBP };

#endif
