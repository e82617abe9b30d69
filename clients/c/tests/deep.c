/* Feeds a file of lines to a store in memory, and prints each reply and how many KiB of its stack were touched. It is
 * linked with the library's inside: `clients/c/build --inner`. */
#include "session.h"

#include <stdio.h>
#include <stdlib.h>

static char *content_of(const char *path, size_t *length)
{
    FILE *file = fopen(path, "rb");
    if (!file || fseek(file, 0, SEEK_END) != 0)
        exit(1);
    *length = (size_t)ftell(file);
    char *bytes = malloc(*length + 1);
    rewind(file);
    if (!bytes || fread(bytes, 1, *length, file) != *length)
        exit(1);
    fclose(file);
    return bytes;
}

int main(int count, char **words)
{
    jpstore *store;
    const char *replies;
    size_t length, written;
    if (count < 2 || jpstore_open_memory(65536, &store, NULL) != JPSTORE_OK)
        return 1;
    char *lines = content_of(words[1], &length);
    const int fault = jpstore_feed(store, lines, length, &replies, &written);
    fwrite(replies, 1, written, stdout);
    fprintf(stderr, "%zu\n", fiber_touched(&store->fiber) / 1024);
    jpstore_free(store);
    free(lines);
    return fault;
}
