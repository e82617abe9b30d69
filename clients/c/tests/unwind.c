/* A walk over the stacks, as debuggers and profilers make it, comes from a store's stack to the caller's: by tables and by frame
 * pointers, in the first thread and in another. One that begins within the program, which has no tables, ends somewhere. */
#define _GNU_SOURCE
#include "check.h"
#include "fiber.h"
#include "jpstore.h"

#include <execinfo.h>
#include <pthread.h>
#include <signal.h>
#include <sys/time.h>

enum { MOST_FRAMES = 200 };

/* Where the caller of the test goes on, and at which frame each walk came there; 0 if it didn't. */
static void *wanted;
static int by_tables, by_pointers;

static int walked_by_tables(void)
{
    void *frames[MOST_FRAMES];
    const int count = backtrace(frames, MOST_FRAMES);
    for (int at = 0; at < count; at++)
        if (frames[at] == wanted)
            return at + 1;
    return 0;
}

/* Above the test's caller are functions of the C library, which have no frame pointers. */
static int walked_by_pointers(void)
{
    void **frame = __builtin_frame_address(0);
    for (int at = 1; frame && at < MOST_FRAMES; at++, frame = frame[0])
        if (frame[1] == wanted)
            return at;
    return 0;
}

static void walk(void *of)
{
    by_tables = walked_by_tables();
    by_pointers = walked_by_pointers();
    fiber_leave(of);
    by_tables += walked_by_tables();
    fiber_end(of);
}

/* The stack is left and entered again, as between two feeds. */
static __attribute__((noinline)) void walks(void)
{
    struct fiber fiber;
    wanted = __builtin_return_address(0);
    CHECK(fiber_make(&fiber, walk, &fiber));
    fiber_enter(&fiber);
    CHECK(by_tables > 3 && by_pointers > 3);
    by_tables = 0;
    fiber_enter(&fiber);
    CHECK(by_tables > 3);
    fiber_free(&fiber);
}

/* How many walks a profiler made, and how many of them came to the caller. */
static volatile sig_atomic_t made, came;

static void profile(int number)
{
    (void)number;
    made++;
    came += walked_by_tables() > 0;
}

/* A profiler walks from any instruction on: of the host, the library and the program. */
static __attribute__((noinline)) void profiled(void)
{
    enum { WALKS = 100, MOST_WALKS = 5000 };
    const struct itimerval often = {{0, 1000}, {0, 1000}}, never = {{0, 0}, {0, 0}};
    const struct sigaction action = {.sa_handler = profile, .sa_flags = SA_RESTART};
    jpstore *store;
    int right = 1;
    wanted = __builtin_return_address(0);
    CHECK(jpstore_open_memory(64, &store, NULL) == JPSTORE_OK);
    CHECK(answers(store, CREATE, "{\"ok\":true,\"seq\":1}\n"));
    CHECK(sigaction(SIGPROF, &action, NULL) == 0 && setitimer(ITIMER_PROF, &often, NULL) == 0);
    while (right && made < MOST_WALKS && (made < WALKS || came == 0))
        right = answers(store, GET, "{\"ok\":true,\"value\":0}\n");
    CHECK(setitimer(ITIMER_PROF, &never, NULL) == 0);
    CHECK(right && made >= WALKS && came > 0);
    jpstore_free(store);
}

static void *in_a_thread(void *nothing)
{
    walks();
    return nothing;
}

int main(void)
{
    pthread_t thread;
    walks();
    profiled();
    CHECK(pthread_create(&thread, NULL, in_a_thread, NULL) == 0 && pthread_join(thread, NULL) == 0);
    return checks_end();
}
