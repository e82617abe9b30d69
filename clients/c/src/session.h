/* One run of the program: its words, what it reads and what it writes. */
#ifndef JPSTORE_SESSION_H
#define JPSTORE_SESSION_H

#include "fiber.h"
#include "jpstore.h"
#include "owner.h"
#include "text.h"

#include <stdatomic.h>
#include <stdbool.h>
#include <sys/types.h>

/* The program's name, its command, three options with numbers and an identity beside a file and a flag. */
enum { MOST_WORDS = 12, MOST_PATHS = 2, MOST_NUMBERS = 3, NUMBER_ROOM = 21, COMPLAINT_ROOM = 256 };

struct jpstore {
    struct fiber fiber;
    struct owner owner;
    atomic_flag busy;

    /* What a call has changed of its thread until it ends: the session that ran there before, and whether the thread may be
     * cancelled. */
    jpstore *outer;
    int cancels;

    char *words[MOST_WORDS];
    size_t words_count;
    char numbers[MOST_NUMBERS][NUMBER_ROOM];
    size_t numbers_count;
    char *paths[MOST_PATHS];
    size_t paths_count;
    char id[JPSTORE_ID_ROOM];

    /* What is left of the input of this call, and whether more may come. */
    const char *input;
    size_t input_left;
    bool input_ended;

    struct text output;
    bool output_refused;

    /* The lines of a typed call, which has a reply at once also if changes wait for others of their batch. */
    struct text line;
    bool gathers;

    /* Of what jpstore_feed was given: lines whose replies are still to come, whether it ended within a line, and whether that
     * line isn't blank. */
    uint64_t lines_waiting;
    bool is_within_line, has_words;

    /* The beginning of what it wrote on standard error. */
    char complaint[COMPLAINT_ROOM];
    size_t complaint_length;

    /* The file that it has locked, -1 if there is none. */
    int file;

    /* The errno of the last call for a file that failed, 0 if none has. */
    int system_error;

    bool ended;
    int status;
};

/* A run with the first words, or NULL if there is no memory. The path is copied, and may be NULL. */
jpstore *session_make(const char *command, const char *path);

/* Adds a copy of a path, which may be NULL, to the words; false if there is no memory. */
bool session_add_path(jpstore *session, const char *path);

/* Adds an option and its number to the words. */
void session_add(jpstore *session, const char *option, uint64_t number);

/* Adds the option for the permission bits of a new file. */
void session_add_mode(jpstore *session, uint64_t mode);

/* Adds the option for the identity of a store, whose text is copied; false if it hasn't as many characters. */
bool session_add_id(jpstore *session, const char *id);

/* Adds an option that has no number. */
void session_add_flag(jpstore *session, const char *option);

/* Runs the program until it wants more input than there is, or ends. The thread can't be cancelled meanwhile, and errno is
 * left as it was. */
void session_run(jpstore *session);

/* Takes a store for a call, if one may be made; it is NULL at most. session_end lets it go. */
int session_begin(jpstore *store);

/* Runs the program over these bytes; its replies are the output then, which ends by 0. */
int session_feed(jpstore *store, const void *bytes, size_t length);

void session_end(jpstore *store);

/* Closes the file of a session that isn't run any more: a child's copy, or one that a jump left in the midst of a call. */
void session_leave(jpstore *session);

/* Why it ended; *cause, which may be NULL, is set. */
int session_fault(const jpstore *session, jpstore_cause *cause);

/* Gives the memory back; the program isn't run any more. */
void session_free(jpstore *session);

/* The session that runs in this thread. */
jpstore *session_running(void);

/* No cause, until there is one. */
static inline void no_cause(jpstore_cause *cause)
{
    if (cause)
        *cause = (jpstore_cause){.change = -1, .op = -1};
}

/* Whether members that a later version may have are 0: what they ask for isn't done by this one. */
static inline bool are_unset(const uint64_t *members, size_t count)
{
    for (size_t at = 0; at < count; at++)
        if (members[at])
            return false;
    return true;
}

#define ARE_UNSET(reserved) are_unset(reserved, sizeof(reserved) / sizeof *(reserved))

#endif
