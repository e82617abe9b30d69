/* Serves lines as the program does, but by feeds: standard input in pieces of so many bytes, replies on standard output.
 * The words are PIECE mem SECTORS, PIECE serve FILE BATCH PUMP, or 0 format FILE SECTORS FORMAT, which makes a file. The exit
 * status is the fault. */
#include "check.h"

static jpstore *opened(int count, char **words)
{
    jpstore *store = NULL;
    if (count == 4 && strcmp(words[2], "mem") == 0) {
        if (jpstore_open_memory(strtoull(words[3], NULL, 10), &store, NULL) != JPSTORE_OK)
            exit(100);
    } else if (count == 6 && strcmp(words[2], "serve") == 0) {
        const jpstore_options options = {.batch = strtoull(words[4], NULL, 10), .pump = strtoull(words[5], NULL, 10)};
        if (jpstore_open(words[3], &options, &store, NULL) != JPSTORE_OK)
            exit(100);
    } else {
        exit(101);
    }
    return store;
}

static int formatted(char **words)
{
    const jpstore_format_options options = {.format = strtoull(words[5], NULL, 10)};
    return jpstore_format(words[3], strtoull(words[4], NULL, 10), &options, NULL, NULL);
}

int main(int count, char **words)
{
    if (count == 6 && strcmp(words[2], "format") == 0)
        return formatted(words);
    jpstore *store = opened(count, words);
    const char *replies;
    size_t piece = strtoull(words[1], NULL, 10), length;
    char *input = malloc(piece);
    int fault = JPSTORE_OK;
    for (size_t got; fault == JPSTORE_OK && input && (got = fread(input, 1, piece, stdin)) > 0;) {
        fault = jpstore_feed(store, input, got, &replies, &length);
        fwrite(replies, 1, length, stdout);
    }
    if (fault == JPSTORE_OK) {
        fault = jpstore_finish(store, &replies, &length);
        fwrite(replies, 1, length, stdout);
    }
    jpstore_free(store);
    free(input);
    return fault;
}
