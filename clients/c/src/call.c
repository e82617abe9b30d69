#include "call.h"
#include "replies.h"
#include "session.h"

#include <string.h>

struct call call_begin(jpstore *store)
{
    struct call call = {.store = store, .fault = session_begin(store)};
    /* Replies that are still to come would be taken for those of this call. */
    if (call.fault == JPSTORE_OK && (store->lines_waiting > 0 || store->is_within_line)) {
        session_end(store);
        call.fault = JPSTORE_WAITING;
    }
    if (call.fault == JPSTORE_OK) {
        text_empty(&store->line);
        call.line.text = &store->line;
    }
    call.line.is_refused_memory = call.fault != JPSTORE_OK;
    return call;
}

void call_end_changes(struct call *call)
{
    /* A line that is no change ends a batch. */
    if (call->fault == JPSTORE_OK && call->store->gathers)
        line_add(&call->line, "{\"cmd\":\"status\"}\n");
}

void call_send(struct call *call, jpstore_cause *cause)
{
    no_cause(cause);
    if (call->fault != JPSTORE_OK)
        return;
    if (call->line.lacks_a_member) {
        call->fault = JPSTORE_ARGUMENTS;
    } else if (call->line.is_refused_memory) {
        /* As by the store: nothing has changed. */
        call->fault = JPSTORE_REFUSED;
        if (cause)
            cause->refusal = JPSTORE_REFUSAL_MEMORY;
    } else {
        call->fault = session_feed(call->store, call->line.text->bytes, call->line.text->length);
        call->replies = call->store->output.bytes;
    }
}

/* The next whole reply, which ends by 0 in the place of its LF; NULL if there is none. */
static char *next_reply(struct call *call)
{
    char *reply = call->replies, *end = reply ? strchr(reply, '\n') : NULL;
    if (!end)
        return NULL;
    *end = 0;
    call->replies = end + 1;
    return reply;
}

static int read_value(char *reply, const struct form *form, struct value *value)
{
    const size_t before = strlen(form->before), after = strlen(form->after), all = strlen(reply);
    if (all < before + after || memcmp(reply, form->before, before) != 0 || strcmp(reply + all - after, form->after) != 0)
        return JPSTORE_UNKNOWN;
    reply[all - after] = 0;
    *value = (struct value){reply + before, all - before - after};
    return JPSTORE_OK;
}

int call_read(struct call *call, const struct form *form, struct value *value, jpstore_cause *cause)
{
    jpstore_cause found;
    no_cause(&found);
    char *reply = next_reply(call);
    /* A fault of the session counts if there is no reply: what was answered is true. */
    if (!reply)
        return call->fault == JPSTORE_OK ? JPSTORE_UNKNOWN : call->fault;
    if (!read_refusal(reply, &found))
        return read_value(reply, form, value);
    if (cause)
        *cause = found;
    return JPSTORE_REFUSED;
}

void call_end(const struct call *call)
{
    if (call->line.text)
        session_end(call->store);
}
