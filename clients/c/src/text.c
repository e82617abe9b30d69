#include "text.h"

#include <stdint.h>
#include <stdlib.h>

/* The most room that is kept for the next text. */
enum { ROOM_KEPT = 1 << 20 };

bool text_make_room(struct text *text, size_t more)
{
    if (more > SIZE_MAX / 2 - text->length)
        return false;
    const size_t room = (text->length + more) * 2;
    char *bytes = realloc(text->bytes, room);
    if (!bytes)
        return false;
    text->bytes = bytes;
    text->room = room;
    return true;
}

void text_empty(struct text *text)
{
    text->length = 0;
    if (text->room > ROOM_KEPT)
        text_free(text);
}

void text_free(struct text *text)
{
    free(text->bytes);
    *text = (struct text){0};
}
