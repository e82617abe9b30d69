#include "replies.h"

#include <stdlib.h>
#include <string.h>

const char *read_member(const char *reply, const char *name)
{
    const size_t length = strlen(name);
    for (const char *at = strchr(reply, '"'); at; at = strchr(at + 1, '"'))
        if (strncmp(at + 1, name, length) == 0 && strncmp(at + 1 + length, "\":", 2) == 0)
            return at + 1 + length + 2;
    return NULL;
}

bool read_number(const char *reply, const char *name, uint64_t *number)
{
    const char *text = read_member(reply, name);
    if (!text || *text < '0' || *text > '9')
        return false;
    *number = strtoull(text, NULL, 10);
    return true;
}

/* The identity, which a store in format 3 has. */
static void read_id(const char *reply, char *id)
{
    const char *text = read_member(reply, "id");
    if (text && *text == '"' && strlen(text) > JPSTORE_ID_ROOM)
        memcpy(id, text + 1, JPSTORE_ID_ROOM - 1);
}

bool read_state(const char *reply, jpstore_state *state)
{
    const char *broken = read_member(reply, "broken");
    uint64_t half = 0;
    state->broken = broken && strncmp(broken, "true", 4) == 0;
    const bool found = broken && read_number(reply, "half", &half) && read_number(reply, "capacity", &state->capacity)
                       && read_number(reply, "documents", &state->documents) && read_number(reply, "opens", &state->opens)
                       && read_number(reply, "sectors", &state->sectors) && read_number(reply, "seq", &state->seq)
                       && read_number(reply, "used", &state->used);
    state->half = half != 0;
    read_id(reply, state->id);
    return found;
}

/* The letter that these four hexadecimal digits name, -1 if it isn't of ASCII: the store escapes no other. */
static int named_letter(const char *digits)
{
    static const char all[] = "0123456789abcdef";
    int number = 0;
    for (int at = 0; at < 4; at++) {
        const char *digit = digits[at] ? strchr(all, digits[at]) : NULL;
        if (!digit)
            return -1;
        number = number * 16 + (int)(digit - all);
    }
    return number < 0x80 ? number : -1;
}

/* The letter of an escape, -1 if there is none such. *at is after its backslash, and then after all of it. */
static int escaped_letter(const char **at)
{
    static const char letters[] = "\"\\/bfnrt", meant[] = "\"\\/\b\f\n\r\t";
    const char *found = **at ? strchr(letters, **at) : NULL;
    const int letter = found ? meant[found - letters] : **at == 'u' ? named_letter(*at + 1) : -1;
    *at += letter < 0 ? 0 : found ? 1 : 5;
    return letter;
}

/* Takes the escapes out of the text that begins by this quote. Its length, -1 if the store writes no such text. */
static long unescape(char *quote)
{
    char *to = quote + 1;
    const char *at = to;
    while (*at != '"') {
        const bool is_escaped = *at == '\\';
        at += is_escaped;
        const int letter = is_escaped ? escaped_letter(&at) : (unsigned char)*at++;
        if (letter < 0 || (letter == 0 && !is_escaped))
            return -1;
        *to++ = (char)letter;
    }
    *to = 0;
    return to - (quote + 1);
}

bool read_mark(char *reply, struct mark *mark)
{
    const char *found = read_member(reply, "mark");
    *mark = (struct mark){0};
    if (!found)
        return false;
    if (*found != '"')
        return strncmp(found, "null", 4) == 0;
    char *quote = reply + (found - reply);
    uint64_t seq;
    if (!read_number(reply, "seq", &seq))
        return false;
    const long length = unescape(quote);
    if (length >= 0)
        *mark = (struct mark){quote + 1, (size_t)length, seq};
    return length >= 0;
}

/* The place of a change or an operation, -1 if the reply names none. */
static int read_place(const char *reply, const char *name)
{
    uint64_t place;
    return read_number(reply, name, &place) ? (int)place : -1;
}

bool read_refusal(char *reply, jpstore_cause *cause)
{
    uint64_t number = 0;
    struct mark mark;
    if (strncmp(reply, "{\"error\":", 9) != 0 && strncmp(reply, "{\"change\":", 10) != 0)
        return false;
    if (!read_number(reply, "number", &number))
        return false;
    cause->refusal = (int)number;
    cause->change = read_place(reply, "change");
    cause->op = read_place(reply, "op");
    read_number(reply, "rev", &cause->rev);
    if (number == JPSTORE_REFUSAL_MARK && read_mark(reply, &mark)) {
        cause->mark = mark.value;
        cause->mark_length = mark.length;
        cause->mark_seq = mark.seq;
    }
    return true;
}
