/* Why a session ended, from its exit status and from what it said on standard error. */
#include "session.h"

#include <stdlib.h>
#include <string.h>

enum { STATUS_NO_CALL = 2, STATUS_PROCESSOR = 127, DEVICE = 61, MEMORY = 63 };

struct word {
    const char *text;
    int fault;
};

/* What may come after "jpstore: ". */
static const struct word WORDS[] = {
    {"in-use", JPSTORE_IN_USE}, {"file", JPSTORE_FILE}, {"no-space", JPSTORE_NO_SPACE}, {"memory", JPSTORE_MEMORY}, {"writer", JPSTORE_REPLY},
    {"identity", JPSTORE_IDENTITY},
};

static int fault_of_number(int number)
{
    switch (number) {
    case DEVICE:
        return JPSTORE_DEVICE;
    case MEMORY:
        return JPSTORE_MEMORY;
    default:
        return JPSTORE_REFUSED;
    }
}

/* The length of the word that a text begins with. */
static size_t word_length(const char *text)
{
    return strspn(text, "abcdefghijklmnopqrstuvwxyz0123456789-");
}

/* The number in "NAME (N)", 0 if there is none. */
static int number_in(const char *words)
{
    const char *after = words + word_length(words);
    const long number = strncmp(after, " (", 2) == 0 ? strtol(after + 2, NULL, 10) : 0;
    return number > 0 && number < 1000 ? (int)number : 0;
}

static int fault_of_words(const char *words, int *number)
{
    const size_t length = word_length(words);
    *number = number_in(words);
    if (*number)
        return fault_of_number(*number);
    for (size_t at = 0; at < sizeof WORDS / sizeof *WORDS; at++)
        if (strlen(WORDS[at].text) == length && strncmp(words, WORDS[at].text, length) == 0)
            return WORDS[at].fault;
    return JPSTORE_UNKNOWN;
}

/* Whether a fault may come from a call of the system. */
static bool is_of_system(int fault)
{
    return fault == JPSTORE_FILE || fault == JPSTORE_NO_SPACE || fault == JPSTORE_DEVICE;
}

int session_fault(const jpstore *session, jpstore_cause *cause)
{
    static const char begin[] = "jpstore: ";
    int number = 0, fault = JPSTORE_UNKNOWN;
    if (session->status == 0)
        fault = JPSTORE_OK;
    else if (session->status == STATUS_NO_CALL)
        fault = JPSTORE_ARGUMENTS;
    else if (session->status == STATUS_PROCESSOR)
        fault = JPSTORE_PROCESSOR;
    else if (strncmp(session->complaint, begin, strlen(begin)) == 0)
        fault = fault_of_words(session->complaint + strlen(begin), &number);
    no_cause(cause);
    if (cause) {
        cause->refusal = number;
        cause->system_error = is_of_system(fault) ? session->system_error : 0;
    }
    return fault;
}

static const char *const TEXTS[] = {
    [JPSTORE_OK] = "it was done",
    [JPSTORE_IN_USE] = "another opening has the file",
    [JPSTORE_FILE] = "the file can't be made or opened",
    [JPSTORE_REFUSED] = "the store refuses it",
    [JPSTORE_DEVICE] = "the device failed",
    [JPSTORE_MEMORY] = "out of memory",
    [JPSTORE_ARGUMENTS] = "a pointer is NULL, a number is out of its range, or the path is no UTF-8",
    [JPSTORE_PROCESSOR] = "the processor is older than the program needs",
    [JPSTORE_FORKED] = "the store belongs to the parent process",
    [JPSTORE_BUSY] = "another call on this store isn't done",
    [JPSTORE_ENDED] = "the session is over",
    [JPSTORE_REPLY] = "out of memory for the replies",
    [JPSTORE_UNKNOWN] = "the program ended for an unknown reason",
    [JPSTORE_NO_SPACE] = "the disk, a quota or a limit has no room for the whole file",
    [JPSTORE_WAITING] = "replies to earlier lines are still to come",
    [JPSTORE_IDENTITY] = "the system gave no random bytes for an identity",
};

const char *jpstore_fault_text(int fault)
{
    const size_t count = sizeof TEXTS / sizeof *TEXTS;
    return fault >= 0 && (size_t)fault < count ? TEXTS[fault] : TEXTS[JPSTORE_UNKNOWN];
}
