/* Marks, and the transactions after a change, with what they must answer worked out by hand. The word is a folder for files. */
#include "check.h"

/* A value with what JSON escapes, and the same in a line. */
#define ODD "job \"41\"\\\n\t\x01\x1f\x7f\xc3\xa9"
#define ODD_IN_JSON "job \\\"41\\\"\\\\\\n\\t\\u0001\\u001f\x7f\xc3\xa9"

static jpstore *opened(const char *file, uint64_t format, uint64_t batch)
{
    jpstore *store;
    remove(file);
    CHECK(jpstore_format(file, 512, &(jpstore_format_options){.format = format}, NULL, NULL) == JPSTORE_OK);
    CHECK(jpstore_open(file, &(jpstore_options){.batch = batch}, &store, NULL) == JPSTORE_OK);
    return store;
}

/* Whether the mark of a key is this value, of the change with this number; NULL and 0 if there is none. */
static int has_mark(jpstore *store, const char *key, const char *value, uint64_t seq)
{
    const char *found = "";
    size_t length = 1;
    uint64_t number = 1;
    if (jpstore_mark(store, key, &found, &length, &number, NULL) != JPSTORE_OK || number != seq)
        return 0;
    return value ? same(found, value) && length == strlen(value) : !found && length == 0;
}

/* Whether a change is refused since this mark is there, or none. */
static int overtaken(jpstore *store, const jpstore_change *change, const char *value, uint64_t seq)
{
    jpstore_cause cause;
    uint64_t number = 1;
    if (jpstore_apply(store, change, &number, &cause) != JPSTORE_REFUSED || cause.refusal != JPSTORE_REFUSAL_MARK || number != 0)
        return 0;
    if (cause.change != -1 || cause.op != -1 || cause.rev != 0 || cause.mark_seq != seq)
        return 0;
    return value ? same(cause.mark, value) && cause.mark_length == strlen(value) : !cause.mark && cause.mark_length == 0;
}

/* What sets a mark is made once, however often it is sent. */
static void set_once(jpstore *store)
{
    uint64_t seq;
    jpstore_cause cause;
    jpstore_marking mark = {.key = "till-1", .value = ODD, .if_mark = 1};
    const jpstore_change create = {.kind = JPSTORE_CREATE, .name = "d", .doc = "{\"n\":0}", .schema = "true", .mark = &mark};
    const jpstore_change inner[] = {{.kind = JPSTORE_PATCH, .name = "d", .ops = "[]"}, {.kind = JPSTORE_DELETE, .name = "d"}};
    const jpstore_change both = {.kind = JPSTORE_TRANSACTION, .changes = inner, .changes_count = 2, .mark = &mark};
    CHECK(has_mark(store, "till-1", NULL, 0));
    CHECK(jpstore_apply(store, &create, &seq, &cause) == JPSTORE_OK && seq == 1 && !cause.mark && has_mark(store, "till-1", ODD, 1));
    CHECK(overtaken(store, &create, ODD, 1));
    mark = (jpstore_marking){.key = "till-1", .value = "42", .if_mark = 1, .before = "41"};
    CHECK(overtaken(store, &both, ODD, 1));
    mark.before = ODD;
    CHECK(jpstore_apply(store, &both, &seq, NULL) == JPSTORE_OK && seq == 3 && has_mark(store, "till-1", "42", 3));
    CHECK(overtaken(store, &both, "42", 3));
    mark.key = "till-2";
    CHECK(overtaken(store, &both, NULL, 0) && has_mark(store, "till-2", NULL, 0));
    /* The document isn't there, and so neither is the mark. */
    mark = (jpstore_marking){.key = "till-1", .value = "43"};
    CHECK(jpstore_apply(store, &both, NULL, &cause) == JPSTORE_REFUSED && cause.refusal == JPSTORE_REFUSAL_NO_DOCUMENT && cause.change == 0);
    CHECK(!cause.mark && has_mark(store, "till-1", "42", 3));
}

static void refused(jpstore *store)
{
    char value[130];
    jpstore_cause cause;
    jpstore_marking mark = {.key = "", .value = "1"};
    const jpstore_change create = {.kind = JPSTORE_CREATE, .name = "e", .doc = "1", .schema = "true", .mark = &mark};
    const jpstore_change around = {.kind = JPSTORE_TRANSACTION, .changes = &create, .changes_count = 1};
    CHECK(jpstore_apply(store, &create, NULL, &cause) == JPSTORE_REFUSED && cause.refusal == JPSTORE_REFUSAL_NAME);
    CHECK(jpstore_mark(store, "", NULL, NULL, NULL, &cause) == JPSTORE_REFUSED && cause.refusal == JPSTORE_REFUSAL_NAME);
    memset(value, 'x', 129);
    value[129] = 0;
    mark = (jpstore_marking){.key = "long", .value = value};
    CHECK(jpstore_apply(store, &create, NULL, &cause) == JPSTORE_REFUSED && cause.refusal == JPSTORE_REFUSAL_COMMAND);
    CHECK(jpstore_apply(store, &around, NULL, &cause) == JPSTORE_REFUSED && cause.refusal == JPSTORE_REFUSAL_COMMAND);
    mark.value = value + 1;
    CHECK(jpstore_apply(store, &around, NULL, &cause) == JPSTORE_REFUSED && cause.refusal == JPSTORE_REFUSAL_COMMAND);
    CHECK(jpstore_apply(store, &create, NULL, NULL) == JPSTORE_OK && has_mark(store, "long", value + 1, 4));
    mark.key = NULL;
    CHECK(jpstore_apply(store, &create, NULL, NULL) == JPSTORE_ARGUMENTS);
    mark = (jpstore_marking){.key = "long"};
    CHECK(jpstore_apply(store, &create, NULL, NULL) == JPSTORE_ARGUMENTS);
    mark = (jpstore_marking){.key = "long", .value = "1", .reserved = {[1] = 1}};
    CHECK(jpstore_apply(store, &create, NULL, NULL) == JPSTORE_ARGUMENTS);
}

/* Each change of a group is told the mark that those before it left, and the texts are there together. */
static void grouped(jpstore *store)
{
    jpstore_outcome outcomes[3];
    const jpstore_marking first = {.key = "g", .value = "1", .if_mark = 1}, next = {.key = "g", .value = "2", .if_mark = 1, .before = "1"};
    const jpstore_change patch = {.kind = JPSTORE_PATCH, .name = "e", .ops = "[]", .mark = &first};
    jpstore_change all[] = {patch, patch, patch};
    all[1].mark = &next;
    CHECK(jpstore_group(store, all, 3, outcomes, NULL) == JPSTORE_OK && outcomes[0].seq == 5 && outcomes[1].seq == 6);
    CHECK(outcomes[2].cause.refusal == JPSTORE_REFUSAL_MARK && same(outcomes[2].cause.mark, "2") && outcomes[2].cause.mark_seq == 6);
    CHECK(jpstore_group(store, all, 2, outcomes, NULL) == JPSTORE_OK);
    CHECK(same(outcomes[0].cause.mark, "2") && same(outcomes[1].cause.mark, "2") && outcomes[1].cause.mark_length == 1);
}

/* A value that no text of C is, set by a line. */
static void within_a_line(jpstore *store)
{
    const char *value;
    size_t length;
    jpstore_cause cause;
    const jpstore_marking mark = {.key = "z", .value = "1", .if_mark = 1};
    const jpstore_change change = {.kind = JPSTORE_DELETE, .name = "e", .mark = &mark};
    CHECK(answers(store, "{\"cmd\":\"patch\",\"mark\":{\"key\":\"z\",\"value\":\"a\\u0000b\"},\"name\":\"e\",\"ops\":[]}\n{\"cmd\":\"rev\",\"name\":\"e\"}\n",
                  "{\"ok\":true,\"seq\":7}\n{\"ok\":true,\"rev\":7}\n"));
    CHECK(jpstore_mark(store, "z", &value, &length, NULL, NULL) == JPSTORE_OK && length == 3 && memcmp(value, "a\0b", 4) == 0);
    CHECK(jpstore_apply(store, &change, NULL, &cause) == JPSTORE_REFUSED && cause.mark_length == 3 && memcmp(cause.mark, "a\0b", 4) == 0);
}

#define FIRST "{\"changes\":[{\"cmd\":\"create\",\"doc\":{\"n\":0},\"name\":\"d\",\"schema\":true}],\"first\":1,\"last\":1,\"mark\":{\"key\":\"till-1\",\"value\":\"" ODD_IN_JSON "\"}}"
#define SECOND "{\"changes\":[{\"cmd\":\"patch\",\"name\":\"d\",\"ops\":[]},{\"cmd\":\"delete\",\"name\":\"d\"}],\"first\":2,\"last\":3,\"mark\":{\"key\":\"till-1\",\"value\":\"42\"}}"

/* What the first two transactions were, as docs/use/PROTOCOL.md has them. */
static void followed(jpstore *store)
{
    const char *told;
    size_t length;
    uint64_t from = 1;
    jpstore_cause cause;
    CHECK(jpstore_changes(store, 0, 1, &told, &length, &from, NULL) == JPSTORE_OK && same(told, "[" FIRST "]") && length == strlen(told) && from == 0);
    CHECK(jpstore_changes(store, 1, 1, &told, NULL, NULL, NULL) == JPSTORE_OK && same(told, "[" SECOND "]"));
    CHECK(jpstore_changes(store, 0, 4194304, &told, NULL, NULL, NULL) == JPSTORE_OK && strncmp(told, "[" FIRST "," SECOND ",", strlen(FIRST SECOND) + 3) == 0);
    CHECK(jpstore_changes(store, 7, 1, &told, &length, NULL, NULL) == JPSTORE_OK && same(told, "[]") && length == 2);
    CHECK(jpstore_changes(store, 2, 1, &told, &length, NULL, NULL) == JPSTORE_OK && told == NULL && length == 0);
    CHECK(jpstore_changes(store, 0, 0, &told, &length, &from, &cause) == JPSTORE_REFUSED && cause.refusal == JPSTORE_REFUSAL_COMMAND && told == NULL);
    CHECK(jpstore_changes(store, 0, 4194305, NULL, NULL, NULL, &cause) == JPSTORE_REFUSED && cause.refusal == JPSTORE_REFUSAL_COMMAND);
    CHECK(jpstore_changes(store, UINT64_MAX, 1, NULL, NULL, NULL, &cause) == JPSTORE_REFUSED && cause.refusal == JPSTORE_REFUSAL_NUMBER);
}

/* Marks stay, and an opening knows the transactions since the last snapshot. */
static void opened_again(const char *file)
{
    jpstore *store;
    const char *told;
    uint64_t from;
    CHECK(jpstore_open(file, NULL, &store, NULL) == JPSTORE_OK);
    CHECK(has_mark(store, "till-1", "42", 3) && has_mark(store, "g", "2", 6));
    CHECK(jpstore_changes(store, 0, 1, &told, NULL, NULL, NULL) == JPSTORE_OK && same(told, "[" FIRST "]"));
    CHECK(jpstore_snapshot(store, NULL, NULL) == JPSTORE_OK);
    jpstore_free(store);
    CHECK(jpstore_open(file, NULL, &store, NULL) == JPSTORE_OK && has_mark(store, "till-1", "42", 3));
    CHECK(jpstore_changes(store, 6, 1, &told, NULL, &from, NULL) == JPSTORE_OK && told == NULL && from == 7);
    CHECK(jpstore_changes(store, 7, 1, &told, NULL, &from, NULL) == JPSTORE_OK && same(told, "[]") && from == 0);
    jpstore_free(store);
}

static void in_format_2(const char *file)
{
    const char *told;
    jpstore_cause cause;
    jpstore *store = opened(file, 2, 0);
    const jpstore_marking mark = {.key = "k", .value = "1"};
    const jpstore_change change = {.kind = JPSTORE_CREATE, .name = "d", .doc = "1", .schema = "true", .mark = &mark};
    CHECK(jpstore_apply(store, &change, NULL, &cause) == JPSTORE_REFUSED && cause.refusal == JPSTORE_REFUSAL_COMMAND && has_mark(store, "k", NULL, 0));
    CHECK(jpstore_create(store, "d", "[\"]\"]", "true", NULL, NULL) == JPSTORE_OK);
    CHECK(jpstore_changes(store, 0, 1, &told, NULL, NULL, NULL) == JPSTORE_OK);
    CHECK(same(told, "[{\"changes\":[{\"cmd\":\"create\",\"doc\":[\"]\"],\"name\":\"d\",\"schema\":true}],\"first\":1,\"last\":1}]"));
    jpstore_free(store);
}

/* All of ASCII but 0, of which some letters are escaped in a line. */
static void every_letter(const char *file)
{
    char value[128] = {0};
    jpstore *store = opened(file, 3, 0);
    const jpstore_marking mark = {.key = "k", .value = value};
    const jpstore_change change = {.kind = JPSTORE_CREATE, .name = "d", .doc = "1", .schema = "true", .mark = &mark};
    for (int at = 0; at < 127; at++)
        value[at] = (char)(at + 1);
    CHECK(jpstore_apply(store, &change, NULL, NULL) == JPSTORE_OK && has_mark(store, "k", value, 1));
    jpstore_free(store);
}

int main(int count, char **words)
{
    char file[4096];
    snprintf(file, sizeof file, "%s/marks.store", count > 1 ? words[1] : ".");
    for (uint64_t batch = 0; batch <= 16; batch += 16) {
        jpstore *store = opened(file, 3, batch);
        set_once(store);
        refused(store);
        grouped(store);
        within_a_line(store);
        followed(store);
        jpstore_free(store);
        opened_again(file);
    }
    in_format_2(file);
    every_letter(file);
    return checks_end();
}
