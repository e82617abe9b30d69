#define _GNU_SOURCE
#include "owner.h"

#include <stddef.h>
#include <sys/mman.h>
#include <unistd.h>

enum { PAGE_BYTES = 4096 };

bool owner_make(struct owner *owner)
{
    char *page = mmap(NULL, PAGE_BYTES, PROT_READ | PROT_WRITE, MAP_PRIVATE | MAP_ANONYMOUS, -1, 0);
    if (page == MAP_FAILED)
        return false;
    if (madvise(page, PAGE_BYTES, MADV_WIPEONFORK) == 0) {
        *page = 1;
        *owner = (struct owner){.mark = page};
    } else {
        munmap(page, PAGE_BYTES);
        *owner = (struct owner){.number = getpid()};
    }
    return true;
}

bool owner_is_here(const struct owner *owner)
{
    return owner->mark ? *owner->mark != 0 : owner->number == getpid();
}

void owner_free(struct owner *owner)
{
    if (owner->mark)
        munmap((void *)owner->mark, PAGE_BYTES);
}
