/* A host that changes one document for ever, and writes each number that was answered as done: it is killed in the midst
 * of that. The words are the store's file, a batch, and a pump. */
#include "check.h"

#include <unistd.h>

int main(int count, char **words)
{
    jpstore *store;
    char lines[4000], out[64];
    const char *replies;
    size_t length;
    if (count < 4)
        return 1;
    const jpstore_options options = {.batch = (uint64_t)atoi(words[2]), .pump = (uint64_t)atoi(words[3])};
    if (jpstore_open(words[1], &options, &store, NULL) != JPSTORE_OK)
        return 1;
    for (long long number = atoll(words[4]);;) {
        size_t used = 0;
        for (uint64_t change = 0; change < options.batch; change++)
            used += (size_t)snprintf(lines + used, sizeof lines - used,
                                     "{\"cmd\":\"patch\",\"name\":\"d\",\"ops\":[{\"op\":\"replace\",\"path\":\"/n\",\"value\":%lld}]}\n", ++number);
        if (jpstore_feed(store, lines, used, &replies, &length) != JPSTORE_OK || length == 0 || memcmp(replies, "{\"ok\":true,", 11) != 0)
            return 2;
        const int told = snprintf(out, sizeof out, "%lld\n", number);
        if (write(STDOUT_FILENO, out, (size_t)told) != told)
            return 3;
    }
}
