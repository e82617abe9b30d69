/* What the program asks of the system, and gets from its session instead: its words, its input, its output and what it
 * says on standard error. The names are those that `build` gives to the names of the program's object. Its calls for files
 * are in file_calls.c. */
#define _GNU_SOURCE
#include "session.h"

#include <errno.h>
#include <string.h>
#include <unistd.h>

size_t jpstore_program_arg_count(void);
ssize_t jpstore_program_arg(size_t index, void *into, size_t room);
ssize_t jpstore_program_read(int file, void *into, size_t room);
ssize_t jpstore_program_write(int file, const void *from, size_t length);
ssize_t jpstore_program_write_at_start(int file, const void *from, size_t length);
int jpstore_program_isatty(int file);
void (*jpstore_program_signal(int number, void (*handler)(int)))(int);

enum { NO_SUCH_WORD = -1, WORD_TOO_LONG = -2 };

size_t jpstore_program_arg_count(void)
{
    return session_running()->words_count;
}

ssize_t jpstore_program_arg(size_t index, void *into, size_t room)
{
    const jpstore *session = session_running();
    if (index >= session->words_count)
        return NO_SUCH_WORD;
    const size_t length = strlen(session->words[index]);
    memcpy(into, session->words[index], length < room ? length : room);
    return length <= room ? (ssize_t)length : WORD_TOO_LONG;
}

/* The session's input, after waiting for the caller's next feed if there is none. */
static ssize_t read_input(jpstore *session, void *into, size_t room)
{
    while (session->input_left == 0) {
        if (session->input_ended)
            return 0;
        fiber_leave(&session->fiber);
    }
    const size_t length = room < session->input_left ? room : session->input_left;
    memcpy(into, session->input, length);
    session->input += length;
    session->input_left -= length;
    return (ssize_t)length;
}

ssize_t jpstore_program_read(int file, void *into, size_t room)
{
    if (file != STDIN_FILENO)
        return read(file, into, room);
    return read_input(session_running(), into, room);
}

/* A reply that there is no memory for ends the session, as a closed pipe would. */
static ssize_t write_output(jpstore *session, const void *from, size_t length)
{
    /* One byte more, for an end by 0. */
    if (session->output_refused || !text_grow(&session->output, length + 1)) {
        session->output_refused = true;
        errno = ENOMEM;
        return -1;
    }
    memcpy(session->output.bytes + session->output.length, from, length);
    session->output.length += length;
    return (ssize_t)length;
}

static ssize_t write_complaint(jpstore *session, const void *from, size_t length)
{
    const size_t room = COMPLAINT_ROOM - 1 - session->complaint_length;
    const size_t kept = length < room ? length : room;
    memcpy(session->complaint + session->complaint_length, from, kept);
    session->complaint_length += kept;
    return (ssize_t)length;
}

ssize_t jpstore_program_write(int file, const void *from, size_t length)
{
    if (file == STDOUT_FILENO)
        return write_output(session_running(), from, length);
    if (file == STDERR_FILENO)
        return write_complaint(session_running(), from, length);
    return write(file, from, length);
}

/* The complaint of a program that the processor is too old for. */
ssize_t jpstore_program_write_at_start(int file, const void *from, size_t length)
{
    return jpstore_program_write(file, from, length);
}

/* The program's streams are the session's, and none of them is a terminal. */
int jpstore_program_isatty(int file)
{
    (void)file;
    return 0;
}

/* The program asks to ignore SIGPIPE, which it can't get here: it has no pipes. The host's handlers are the host's. */
void (*jpstore_program_signal(int number, void (*handler)(int)))(int)
{
    (void)number;
    (void)handler;
    return NULL;
}
