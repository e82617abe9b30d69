/* Bytes that grow. */
#ifndef JPSTORE_TEXT_H
#define JPSTORE_TEXT_H

#include <stdbool.h>
#include <stddef.h>

struct text {
    char *bytes;
    size_t length, room;
};

/* What text_grow does if there isn't room enough. */
bool text_make_room(struct text *text, size_t more);

/* Makes room for so many bytes more; false if there is no memory, and nothing has changed then. */
static inline bool text_grow(struct text *text, size_t more)
{
    return text->room - text->length >= more || text_make_room(text, more);
}

/* Takes all bytes off. The memory that a long text took is given back. */
void text_empty(struct text *text);

void text_free(struct text *text);

#endif
