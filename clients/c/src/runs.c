/* The calls of jpstore.h that run the program from its beginning to its end. */
#include "jpstore.h"
#include "replies.h"
#include "session.h"

/* Runs a session that has no input. */
static int ran(jpstore *session, jpstore_cause *cause)
{
    session->input_ended = true;
    session_run(session);
    return session_fault(session, cause);
}

/* What it wrote, as a text that ends by 0: the output has room for that. */
static const char *reply_of(const jpstore *session)
{
    if (session->output.length == 0)
        return "";
    session->output.bytes[session->output.length] = 0;
    return session->output.bytes;
}

/* Runs a session that tells one number, which may be NULL, and frees it. */
static int ran_for_number(jpstore *session, const char *name, uint64_t *number, jpstore_cause *cause)
{
    uint64_t found = 0;
    int fault = ran(session, cause);
    if (fault == JPSTORE_OK && !read_number(reply_of(session), name, &found))
        fault = JPSTORE_UNKNOWN;
    if (number)
        *number = found;
    session_free(session);
    return fault;
}

int jpstore_format(const char *path, uint64_t sectors, const jpstore_format_options *options, uint64_t *capacity,
                   jpstore_cause *cause)
{
    no_cause(cause);
    if (!path || (options && (options->sparse > 1 || options->mode > 0777 || !ARE_UNSET(options->reserved))))
        return JPSTORE_ARGUMENTS;
    jpstore *session = session_make("format", path);
    if (!session)
        return JPSTORE_MEMORY;
    session_add(session, "--sectors", sectors);
    if (options && options->format)
        session_add(session, "--format", options->format);
    if (options && options->mode)
        session_add_mode(session, options->mode);
    if (options && options->id && !session_add_id(session, options->id)) {
        session_free(session);
        return JPSTORE_ARGUMENTS;
    }
    if (options && options->sparse)
        session_add_flag(session, "--sparse");
    return ran_for_number(session, "capacity", capacity, cause);
}

int jpstore_upgrade(const char *path, uint64_t format, uint64_t *before, jpstore_cause *cause)
{
    no_cause(cause);
    if (!path)
        return JPSTORE_ARGUMENTS;
    jpstore *session = session_make("upgrade", path);
    if (!session)
        return JPSTORE_MEMORY;
    if (format)
        session_add(session, "--format", format);
    return ran_for_number(session, "from", before, cause);
}

/* Runs a session that tells a state, which may be NULL, and frees it. */
static int ran_for_state(jpstore *session, jpstore_state *state, jpstore_cause *cause)
{
    jpstore_state found = {0};
    int fault = ran(session, cause);
    if (fault == JPSTORE_OK && !read_state(reply_of(session), &found))
        fault = JPSTORE_UNKNOWN;
    if (state)
        *state = found;
    session_free(session);
    return fault;
}

int jpstore_check(const char *path, jpstore_state *state, jpstore_cause *cause)
{
    no_cause(cause);
    if (!path)
        return JPSTORE_ARGUMENTS;
    jpstore *session = session_make("check", path);
    return session ? ran_for_state(session, state, cause) : JPSTORE_MEMORY;
}

int jpstore_copy(const char *path, const char *new_path, uint64_t sectors, jpstore_state *state, jpstore_cause *cause)
{
    return jpstore_copy_in(path, new_path, sectors, 0, state, cause);
}

int jpstore_copy_in(const char *path, const char *new_path, uint64_t sectors, uint64_t format, jpstore_state *state,
                    jpstore_cause *cause)
{
    no_cause(cause);
    if (!path || !new_path)
        return JPSTORE_ARGUMENTS;
    jpstore *session = session_make("copy", path);
    if (!session)
        return JPSTORE_MEMORY;
    if (!session_add_path(session, new_path)) {
        session_free(session);
        return JPSTORE_MEMORY;
    }
    session_add(session, "--sectors", sectors);
    if (format)
        session_add(session, "--format", format);
    return ran_for_state(session, state, cause);
}
