/* Copies of the library in one process: one that is linked into the program, and two shared ones, whose files are the
 * words, before a folder for files. Each has a store of its own, and none meets the others. */
#include "check.h"

#include <dlfcn.h>

struct copy {
    int (*open)(const char *path, const jpstore_options *options, jpstore **store, jpstore_cause *cause);
    int (*feed)(jpstore *store, const void *input, size_t length, const char **replies, size_t *replies_length);
    void (*free)(jpstore *store);
    jpstore *store;
};

static void find(void *library, const char *name, void *function)
{
    void *found = dlsym(library, name);
    CHECK(found != NULL);
    memcpy(function, &found, sizeof found);
}

static void load(struct copy *copy, const char *path)
{
    /* Global, so that each would take the other's names if it had any to take. */
    void *library = dlopen(path, RTLD_NOW | RTLD_GLOBAL);
    if (!library) {
        puts(dlerror());
        exit(1);
    }
    find(library, "jpstore_open", &copy->open);
    find(library, "jpstore_feed", &copy->feed);
    find(library, "jpstore_free", &copy->free);
    CHECK(dlsym(library, "jpstore_program_main") == NULL && dlsym(library, "rattle_alloc") == NULL);
}

static int says(const struct copy *copy, const char *line, const char *wanted)
{
    const char *replies;
    size_t length;
    return copy->feed(copy->store, line, strlen(line), &replies, &length) == JPSTORE_OK && length == strlen(wanted)
           && memcmp(replies, wanted, length) == 0;
}

int main(int count, char **words)
{
    struct copy copies[3] = {{jpstore_open, jpstore_feed, jpstore_free, NULL}};
    char file[4096], line[200], wanted[64];
    if (count != 4)
        return 1;
    load(&copies[1], words[1]);
    load(&copies[2], words[2]);
    CHECK(copies[1].feed != copies[2].feed && copies[1].feed != copies[0].feed);
    for (int at = 0; at < 3; at++) {
        snprintf(file, sizeof file, "%s/copy%d.store", words[3], at);
        new_file(file, 64);
        CHECK(copies[at].open(file, NULL, &copies[at].store, NULL) == JPSTORE_OK);
        snprintf(line, sizeof line, "{\"cmd\":\"create\",\"doc\":%d,\"name\":\"d\",\"schema\":true}\n", at);
        CHECK(says(&copies[at], line, "{\"ok\":true,\"seq\":1}\n"));
    }
    for (int at = 0; at < 3; at++) {
        snprintf(wanted, sizeof wanted, "{\"ok\":true,\"value\":%d}\n", at);
        CHECK(says(&copies[at], "{\"cmd\":\"get\",\"name\":\"d\",\"path\":\"\"}\n", wanted));
        copies[at].free(copies[at].store);
    }
    return checks_end();
}
