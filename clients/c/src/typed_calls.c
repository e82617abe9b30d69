/* The calls of jpstore.h for documents. */
#include "call.h"
#include "replies.h"
#include "session.h"

#include <stdlib.h>
#include <string.h>

static const struct form WHOLE = {"", ""}, SEQ = {"{\"ok\":true,\"seq\":", "}"}, VALUE = {"{\"ok\":true,\"value\":", "}"},
                         REV = {"{\"ok\":true,\"rev\":", "}"}, USED = {"{\"ok\":true,\"used\":", "}"},
                         NODES = {"{\"nodes\":", ",\"ok\":true}"}, NAMES = {"{\"names\":", ",\"ok\":true}"},
                         CHANGES = {"{\"changes\":", ""};

static struct call begin_command(jpstore *store, const char *command)
{
    struct call call = call_begin(store);
    line_begin(&call.line, command);
    return call;
}

/* Ends the command, sends it, and reads what it is answered. */
static int answer(struct call *call, const struct form *form, struct value *value, jpstore_cause *cause)
{
    line_end(&call->line);
    line_add(&call->line, "\n");
    call_send(call, cause);
    return call_read(call, form, value, cause);
}

/* The rest of a call that is answered by a text. */
static int answer_by_text(struct call *call, const struct form *form, const char **text, size_t *length, jpstore_cause *cause)
{
    struct value value = {0};
    const int fault = answer(call, form, &value, cause);
    if (text)
        *text = value.text;
    if (length)
        *length = value.length;
    call_end(call);
    return fault;
}

static uint64_t number_of(struct value value)
{
    return value.text ? strtoull(value.text, NULL, 10) : 0;
}

/* The rest of a call that is answered by a number. */
static int answer_by_number(struct call *call, const struct form *form, uint64_t *number, jpstore_cause *cause)
{
    struct value value = {0};
    const int fault = answer(call, form, &value, cause);
    if (number)
        *number = number_of(value);
    call_end(call);
    return fault;
}

int jpstore_get(jpstore *store, const char *name, const char *path, const char **value, size_t *length, jpstore_cause *cause)
{
    struct call call = begin_command(store, "get");
    line_add_text(&call.line, "name", name);
    line_add_text(&call.line, "path", path);
    return answer_by_text(&call, &VALUE, value, length, cause);
}

int jpstore_query(jpstore *store, const char *name, const char *query, const char **nodes, size_t *length, jpstore_cause *cause)
{
    struct call call = begin_command(store, "query");
    line_add_text(&call.line, "name", name);
    line_add_text(&call.line, "path", query);
    return answer_by_text(&call, &NODES, nodes, length, cause);
}

int jpstore_schema(jpstore *store, const char *name, const char **schema, size_t *length, jpstore_cause *cause)
{
    struct call call = begin_command(store, "get-schema");
    line_add_text(&call.line, "name", name);
    return answer_by_text(&call, &VALUE, schema, length, cause);
}

int jpstore_list(jpstore *store, const char **names, size_t *length, jpstore_cause *cause)
{
    struct call call = begin_command(store, "list");
    return answer_by_text(&call, &NAMES, names, length, cause);
}

int jpstore_rev(jpstore *store, const char *name, uint64_t *rev, jpstore_cause *cause)
{
    struct call call = begin_command(store, "rev");
    line_add_text(&call.line, "name", name);
    return answer_by_number(&call, &REV, rev, cause);
}

int jpstore_mark(jpstore *store, const char *key, const char **value, size_t *length, uint64_t *seq, jpstore_cause *cause)
{
    struct value reply = {0};
    struct mark mark = {0};
    struct call call = begin_command(store, "mark");
    line_add_text(&call.line, "key", key);
    int fault = answer(&call, &WHOLE, &reply, cause);
    if (fault == JPSTORE_OK && !read_mark(reply.text, &mark))
        fault = JPSTORE_UNKNOWN;
    if (value)
        *value = mark.value;
    if (length)
        *length = mark.length;
    if (seq)
        *seq = mark.seq;
    call_end(&call);
    return fault;
}

/* Leaves the list in a reply, which is the last one in it, and ends it by 0; false if there is none. */
static bool read_list(const struct form *form, struct value *reply)
{
    const size_t before = strlen(form->before);
    char *end = strrchr(reply->text, ']');
    if (!end || strncmp(reply->text, form->before, before) != 0)
        return false;
    end[1] = 0;
    reply->text += before;
    reply->length = (size_t)(end + 1 - reply->text);
    return true;
}

int jpstore_changes(jpstore *store, uint64_t since, uint64_t max_bytes, const char **transactions, size_t *length, uint64_t *from,
                    jpstore_cause *cause)
{
    struct value reply = {0};
    uint64_t lowest = 0;
    struct call call = begin_command(store, "changes");
    line_add_number(&call.line, "from", since);
    line_add_number(&call.line, "max", max_bytes);
    int fault = answer(&call, &WHOLE, &reply, cause);
    const bool is_known = fault == JPSTORE_OK && read_list(&CHANGES, &reply);
    if (fault == JPSTORE_OK && !is_known && !(read_member(reply.text, "gone") && read_number(reply.text, "from", &lowest)))
        fault = JPSTORE_UNKNOWN;
    if (transactions)
        *transactions = is_known ? reply.text : NULL;
    if (length)
        *length = is_known ? reply.length : 0;
    if (from)
        *from = lowest;
    call_end(&call);
    return fault;
}

int jpstore_status(jpstore *store, jpstore_state *state, jpstore_cause *cause)
{
    struct value reply = {0};
    jpstore_state found = {0};
    struct call call = begin_command(store, "status");
    int fault = answer(&call, &WHOLE, &reply, cause);
    if (fault == JPSTORE_OK && !read_state(reply.text, &found))
        fault = JPSTORE_UNKNOWN;
    if (state)
        *state = found;
    call_end(&call);
    return fault;
}

int jpstore_snapshot(jpstore *store, uint64_t *used, jpstore_cause *cause)
{
    struct call call = begin_command(store, "snapshot");
    return answer_by_number(&call, &USED, used, cause);
}

/* What a step of a copied snapshot left, 0 if the reply doesn't tell. */
static int step_in(const char *reply)
{
    static const char *const words[] = {"\"running\"", "\"switched\"", "\"dropped\""};
    const char *word = read_member(reply, "copy");
    for (int at = 0; word && at < 3; at++)
        if (strncmp(word, words[at], strlen(words[at])) == 0)
            return JPSTORE_RUNNING + at;
    return 0;
}

int jpstore_pump(jpstore *store, uint64_t sectors, int *step, uint64_t *written, jpstore_cause *cause)
{
    struct value reply = {0};
    uint64_t count = 0;
    struct call call = begin_command(store, "pump");
    line_add_number(&call.line, "max", sectors);
    int fault = answer(&call, &WHOLE, &reply, cause);
    const int found = fault == JPSTORE_OK ? step_in(reply.text) : 0;
    if (fault == JPSTORE_OK && (!found || !read_number(reply.text, "written", &count)))
        fault = JPSTORE_UNKNOWN;
    if (step)
        *step = found;
    if (written)
        *written = count;
    call_end(&call);
    return fault;
}

/* Adds the lines of changes. */
static void add_changes(struct call *call, const jpstore_change *changes, size_t count)
{
    for (size_t at = 0; at < count; at++) {
        if (changes)
            line_add_change(&call->line, &changes[at]);
        else
            call->line.lacks_a_member = true;
        line_add(&call->line, "\n");
    }
    call_end_changes(call);
}

int jpstore_apply(jpstore *store, const jpstore_change *change, uint64_t *seq, jpstore_cause *cause)
{
    struct value value = {0};
    struct call call = call_begin(store);
    add_changes(&call, change, 1);
    call_send(&call, cause);
    const int fault = call_read(&call, &SEQ, &value, cause);
    if (seq)
        *seq = number_of(value);
    call_end(&call);
    return fault;
}

int jpstore_create(jpstore *store, const char *name, const char *doc, const char *schema, uint64_t *seq, jpstore_cause *cause)
{
    const jpstore_change change = {.kind = JPSTORE_CREATE, .name = name, .doc = doc, .schema = schema};
    return jpstore_apply(store, &change, seq, cause);
}

int jpstore_patch(jpstore *store, const char *name, const char *ops, uint64_t *seq, jpstore_cause *cause)
{
    const jpstore_change change = {.kind = JPSTORE_PATCH, .name = name, .ops = ops};
    return jpstore_apply(store, &change, seq, cause);
}

int jpstore_patch_if(jpstore *store, const char *name, const char *ops, uint64_t rev, uint64_t *seq, jpstore_cause *cause)
{
    const jpstore_change change = {.kind = JPSTORE_PATCH, .name = name, .ops = ops, .if_rev = 1, .rev = rev};
    return jpstore_apply(store, &change, seq, cause);
}

int jpstore_set_schema(jpstore *store, const char *name, const char *schema, uint64_t *seq, jpstore_cause *cause)
{
    const jpstore_change change = {.kind = JPSTORE_SET_SCHEMA, .name = name, .schema = schema};
    return jpstore_apply(store, &change, seq, cause);
}

int jpstore_delete(jpstore *store, const char *name, uint64_t *seq, jpstore_cause *cause)
{
    const jpstore_change change = {.kind = JPSTORE_DELETE, .name = name};
    return jpstore_apply(store, &change, seq, cause);
}

int jpstore_transaction(jpstore *store, const jpstore_change *changes, size_t count, uint64_t *seq, jpstore_cause *cause)
{
    const jpstore_change change = {.kind = JPSTORE_TRANSACTION, .changes = changes, .changes_count = count};
    return jpstore_apply(store, &change, seq, cause);
}

/* What the next reply says of a change. */
static jpstore_outcome next_outcome(struct call *call, const jpstore_cause *cause)
{
    struct value value = {0};
    jpstore_outcome outcome = {.cause = *cause};
    outcome.fault = call_read(call, &SEQ, &value, &outcome.cause);
    outcome.seq = number_of(value);
    return outcome;
}

int jpstore_group(jpstore *store, const jpstore_change *changes, size_t count, jpstore_outcome *outcomes, jpstore_cause *cause)
{
    jpstore_cause found;
    struct call call = call_begin(store);
    add_changes(&call, changes, count);
    call_send(&call, &found);
    int fault = call.replies ? JPSTORE_OK : call.fault;
    for (size_t at = 0; at < count; at++) {
        const jpstore_outcome outcome = next_outcome(&call, &found);
        if (outcome.fault != JPSTORE_OK && outcome.fault != JPSTORE_REFUSED)
            fault = outcome.fault;
        if (outcomes)
            outcomes[at] = outcome;
    }
    if (cause)
        *cause = found;
    call_end(&call);
    return fault;
}
