/* A slow disk, for `bench.py --slow`: preloaded, it makes each sync of a file wait so many microseconds more as SLOW_SYNCS says. */
#define _GNU_SOURCE
#include <dlfcn.h>
#include <stdlib.h>
#include <time.h>

static int slow(const char *name, int file) {
    long wait = atol(getenv("SLOW_SYNCS"));
    struct timespec left = {wait / 1000000, wait % 1000000 * 1000};
    while (nanosleep(&left, &left)) {
    }
    return ((int (*)(int))dlsym(RTLD_NEXT, name))(file);
}

int fdatasync(int file) { return slow("fdatasync", file); }

int fsync(int file) { return slow("fsync", file); }
