/* Command lines, written member by member. */
#ifndef JPSTORE_LINE_H
#define JPSTORE_LINE_H

#include "jpstore.h"
#include "text.h"

#include <string.h>

/* A line that is written at the end of a text. What goes wrong is kept until the line's end. */
struct line {
    struct text *text;
    bool is_refused_memory;
    bool lacks_a_member;
};

/* Begins a command of this name. */
void line_begin(struct line *line, const char *command);

/* Adds a member whose value is this text, in UTF-8. */
void line_add_text(struct line *line, const char *name, const char *value);

/* Adds a member whose value is this JSON text. One that isn't a single value makes a line that is no JSON. */
void line_add_json(struct line *line, const char *name, const char *value);

void line_add_number(struct line *line, const char *name, uint64_t value);

/* Writes the whole command of a change, but for its line feed. */
void line_add_change(struct line *line, const jpstore_change *change);

/* Ends the command. */
void line_end(struct line *line);

/* Adds bytes as they are. */
static inline void line_add_bytes(struct line *line, const char *bytes, size_t length)
{
    struct text *text = line->text;
    if (line->is_refused_memory || !text_grow(text, length)) {
        line->is_refused_memory = true;
        return;
    }
    memcpy(text->bytes + text->length, bytes, length);
    text->length += length;
}

/* Adds a text as it is. It is inline so that the lengths of literals are known. */
static inline void line_add(struct line *line, const char *text)
{
    line_add_bytes(line, text, strlen(text));
}

#endif
