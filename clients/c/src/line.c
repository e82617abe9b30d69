#include "line.h"
#include "session.h"

#include <inttypes.h>
#include <stdio.h>
#include <string.h>

void line_begin(struct line *line, const char *command)
{
    line_add(line, "{\"cmd\":\"");
    line_add(line, command);
    line_add(line, "\"");
}

void line_end(struct line *line)
{
    line_add(line, "}");
}

static void begin_member(struct line *line, const char *name)
{
    line_add(line, ",\"");
    line_add(line, name);
    line_add(line, "\":");
}

static bool is_plain(char letter)
{
    return (unsigned char)letter >= 0x20 && letter != '"' && letter != '\\';
}

static void add_escaped(struct line *line, char letter)
{
    char escaped[7];
    if (letter == '"' || letter == '\\')
        snprintf(escaped, sizeof escaped, "\\%c", letter);
    else
        snprintf(escaped, sizeof escaped, "\\u%04x", (unsigned char)letter);
    line_add(line, escaped);
}

static void add_quoted(struct line *line, const char *value)
{
    line_add(line, "\"");
    while (*value) {
        const char *end = value;
        while (is_plain(*end))
            end++;
        line_add_bytes(line, value, (size_t)(end - value));
        if (*end)
            add_escaped(line, *end++);
        value = end;
    }
    line_add(line, "\"");
}

void line_add_text(struct line *line, const char *name, const char *value)
{
    if (!value) {
        line->lacks_a_member = true;
        return;
    }
    begin_member(line, name);
    add_quoted(line, value);
}

/* The end of the text that begins at this quote; NULL if it has none, or a line feed before. */
static const char *end_of_text(const char *quote)
{
    const char *at = quote + 1;
    while (*at != '"') {
        if (*at == '\\')
            at++;
        if (*at == 0 || *at == '\n')
            return NULL;
        at++;
    }
    return at;
}

/* Whether a text can be a value without reaching beyond it: no comma, colon or closing bracket outside of all lists, objects
 * and texts, and no line feed in a text. What else is no JSON is refused by the store. */
static bool is_one_value(const char *text)
{
    size_t depth = 0;
    for (const char *at = text; *at; at++) {
        if (*at == '"')
            at = end_of_text(at);
        if (!at)
            return false;
        if (*at == '[' || *at == '{')
            depth++;
        else if (strchr("]},:", *at) && depth == 0)
            return false;
        else if (*at == ']' || *at == '}')
            depth--;
    }
    return depth == 0;
}

/* A line feed between the parts of a value becomes a blank, as it would end the line. */
static void add_value(struct line *line, const char *value)
{
    const char *end;
    for (; (end = strchr(value, '\n')); value = end + 1) {
        line_add_bytes(line, value, (size_t)(end - value));
        line_add(line, " ");
    }
    line_add(line, value);
}

void line_add_json(struct line *line, const char *name, const char *value)
{
    if (!value) {
        line->lacks_a_member = true;
        return;
    }
    begin_member(line, name);
    add_value(line, is_one_value(value) ? value : "?");
}

void line_add_number(struct line *line, const char *name, uint64_t value)
{
    char number[21];
    snprintf(number, sizeof number, "%" PRIu64, value);
    begin_member(line, name);
    line_add(line, number);
}

static void add_changes(struct line *line, const jpstore_change *changes, size_t count);

/* The members that are those of this kind of change; false if there is no such kind. */
static bool add_members(struct line *line, const jpstore_change *change)
{
    switch (change->kind) {
    case JPSTORE_CREATE:
        line_begin(line, "create");
        line_add_text(line, "name", change->name);
        line_add_json(line, "doc", change->doc);
        line_add_json(line, "schema", change->schema);
        return true;
    case JPSTORE_PATCH:
        line_begin(line, "patch");
        line_add_text(line, "name", change->name);
        line_add_json(line, "ops", change->ops);
        return true;
    case JPSTORE_SET_SCHEMA:
        line_begin(line, "schema");
        line_add_text(line, "name", change->name);
        line_add_json(line, "schema", change->schema);
        return true;
    case JPSTORE_DELETE:
        line_begin(line, "delete");
        line_add_text(line, "name", change->name);
        return true;
    case JPSTORE_TRANSACTION:
        line_begin(line, "transaction");
        add_changes(line, change->changes, change->changes_count);
        return true;
    default:
        return false;
    }
}

static void add_mark(struct line *line, const jpstore_marking *mark)
{
    if (!mark->key || !ARE_UNSET(mark->reserved)) {
        line->lacks_a_member = true;
        return;
    }
    begin_member(line, "mark");
    line_add(line, "{\"key\":");
    add_quoted(line, mark->key);
    line_add_text(line, "value", mark->value);
    line_end(line);
    if (mark->if_mark && mark->before)
        line_add_text(line, "if_mark", mark->before);
    else if (mark->if_mark)
        line_add_json(line, "if_mark", "null");
}

void line_add_change(struct line *line, const jpstore_change *change)
{
    if (!add_members(line, change) || !ARE_UNSET(change->reserved)) {
        line->lacks_a_member = true;
        return;
    }
    if (change->if_rev)
        line_add_number(line, "if_rev", change->rev);
    if (change->mark)
        add_mark(line, change->mark);
    line_end(line);
}

/* A transaction within another is written without its changes: the store refuses it as it is (14). */
static void add_changes(struct line *line, const jpstore_change *changes, size_t count)
{
    if (!changes && count > 0) {
        line->lacks_a_member = true;
        return;
    }
    begin_member(line, "changes");
    line_add(line, "[");
    for (size_t at = 0; at < count; at++) {
        if (at > 0)
            line_add(line, ",");
        if (changes[at].kind == JPSTORE_TRANSACTION)
            line_add(line, "{\"cmd\":\"transaction\"}");
        else
            line_add_change(line, &changes[at]);
    }
    line_add(line, "]");
}
