/* The calls for documents, with what they must answer worked out by hand. The word is a folder for files. */
#define _GNU_SOURCE
#include "check.h"

#include <errno.h>
#include <sys/resource.h>
#include <signal.h>

#define SEVEN "[{\"op\":\"replace\",\"path\":\"/n\",\"value\":7}]"

static void questions(jpstore *store)
{
    const char *text;
    size_t length;
    uint64_t number;
    jpstore_state state;
    CHECK(jpstore_create(store, "d", "{\"n\":0,\"b\":[1,2]}", "{\"type\":\"object\"}", &number, NULL) == JPSTORE_OK && number == 1);
    CHECK(jpstore_get(store, "d", "", &text, &length, NULL) == JPSTORE_OK && same(text, "{\"b\":[1,2],\"n\":0}") && length == 17);
    CHECK(jpstore_get(store, "d", "/b/1", &text, NULL, NULL) == JPSTORE_OK && same(text, "2"));
    CHECK(jpstore_get(store, "d", "/n", NULL, &length, NULL) == JPSTORE_OK && length == 1);
    CHECK(jpstore_schema(store, "d", &text, &length, NULL) == JPSTORE_OK && same(text, "{\"type\":\"object\"}") && length == 17);
    CHECK(jpstore_query(store, "d", "$.b[?@>1]", &text, &length, NULL) == JPSTORE_OK && same(text, "[{\"path\":\"$['b'][1]\",\"value\":2}]"));
    CHECK(jpstore_query(store, "d", "$.none", &text, &length, NULL) == JPSTORE_OK && same(text, "[]") && length == 2);
    CHECK(jpstore_create(store, "e", "1", "true", &number, NULL) == JPSTORE_OK && number == 2);
    CHECK(jpstore_list(store, &text, NULL, NULL) == JPSTORE_OK && same(text, "[\"d\",\"e\"]"));
    CHECK(jpstore_rev(store, "d", &number, NULL) == JPSTORE_OK && number == 1);
    CHECK(jpstore_status(store, &state, NULL) == JPSTORE_OK && state.documents == 2 && state.seq == 2 && !state.broken && state.sectors == 64);
    CHECK(jpstore_status(store, NULL, NULL) == JPSTORE_OK);
    const uint64_t used = state.used;
    CHECK(jpstore_snapshot(store, &number, NULL) == JPSTORE_OK && number > 0 && number <= used);
}

static void changes(jpstore *store)
{
    const char *text;
    uint64_t seq;
    jpstore_cause cause;
    CHECK(jpstore_patch(store, "d", SEVEN, &seq, &cause) == JPSTORE_OK && seq == 3);
    CHECK(cause.refusal == 0 && cause.change == -1 && cause.op == -1 && cause.rev == 0);
    CHECK(jpstore_patch_if(store, "d", "[]", 3, &seq, NULL) == JPSTORE_OK && seq == 4);
    CHECK(jpstore_patch_if(store, "d", "[]", 3, &seq, &cause) == JPSTORE_REFUSED && seq == 0);
    CHECK(cause.refusal == JPSTORE_REFUSAL_REVISION && cause.rev == 4 && cause.op == -1);
    CHECK(jpstore_set_schema(store, "e", "{\"minimum\":1}", &seq, NULL) == JPSTORE_OK && seq == 5);
    CHECK(jpstore_patch(store, "e", "[{\"op\":\"replace\",\"path\":\"\",\"value\":0}]", NULL, &cause) == JPSTORE_REFUSED);
    CHECK(cause.refusal == JPSTORE_REFUSAL_INVALID);
    CHECK(jpstore_patch(store, "d", "[{\"op\":\"test\",\"path\":\"/n\",\"value\":7},{\"op\":\"remove\",\"path\":\"/x\"}]", NULL, &cause) == JPSTORE_REFUSED);
    CHECK(cause.refusal == JPSTORE_REFUSAL_PATCH_MISSING && cause.op == 1 && cause.change == -1);
    CHECK(jpstore_delete(store, "e", &seq, NULL) == JPSTORE_OK && seq == 6);
    CHECK(jpstore_get(store, "e", "", &text, NULL, &cause) == JPSTORE_REFUSED && text == NULL && cause.refusal == JPSTORE_REFUSAL_NO_DOCUMENT);
    CHECK(jpstore_delete(store, "e", NULL, NULL) == JPSTORE_REFUSED);
    CHECK(jpstore_get(store, "d", "/n", &text, NULL, NULL) == JPSTORE_OK && same(text, "7"));
}

static void transactions(jpstore *store)
{
    const char *text;
    uint64_t seq;
    jpstore_cause cause;
    jpstore_change both[] = {{.kind = JPSTORE_CREATE, .name = "f", .doc = "1", .schema = "true"},
                             {.kind = JPSTORE_PATCH, .name = "d", .ops = "[]", .if_rev = 1, .rev = 4}};
    CHECK(jpstore_transaction(store, both, 2, &seq, NULL) == JPSTORE_OK && seq == 8);
    CHECK(jpstore_transaction(store, both, 2, NULL, &cause) == JPSTORE_REFUSED && cause.refusal == 20 && cause.change == 0);
    both[0] = (jpstore_change){.kind = JPSTORE_DELETE, .name = "f"};
    CHECK(jpstore_transaction(store, both, 2, NULL, &cause) == JPSTORE_REFUSED);
    CHECK(cause.refusal == JPSTORE_REFUSAL_REVISION && cause.change == 1 && cause.rev == 8);
    both[1] = (jpstore_change){.kind = JPSTORE_TRANSACTION, .changes = both, .changes_count = 1};
    CHECK(jpstore_transaction(store, both, 2, NULL, &cause) == JPSTORE_REFUSED && cause.refusal == JPSTORE_REFUSAL_COMMAND && cause.change == -1);
    CHECK(jpstore_transaction(store, NULL, 0, NULL, &cause) == JPSTORE_REFUSED && cause.refusal == JPSTORE_REFUSAL_COMMAND);
    CHECK(jpstore_get(store, "f", "", &text, NULL, NULL) == JPSTORE_OK && same(text, "1"));
    CHECK(jpstore_apply(store, &both[0], &seq, NULL) == JPSTORE_OK && seq == 9);
}

static void groups(jpstore *store)
{
    jpstore_outcome outcomes[4];
    jpstore_cause cause;
    const jpstore_change inner[] = {{.kind = JPSTORE_DELETE, .name = "a"}, {.kind = JPSTORE_DELETE, .name = "none"}};
    const jpstore_change all[] = {{.kind = JPSTORE_CREATE, .name = "a", .doc = "1", .schema = "true"},
                                  {.kind = JPSTORE_CREATE, .name = "b", .doc = "[", .schema = "true"},
                                  {.kind = JPSTORE_TRANSACTION, .changes = inner, .changes_count = 2},
                                  {.kind = JPSTORE_SET_SCHEMA, .name = "a", .schema = "{\"type\":\"integer\"}"}};
    CHECK(jpstore_group(store, all, 4, outcomes, &cause) == JPSTORE_OK && cause.refusal == 0);
    CHECK(outcomes[0].fault == JPSTORE_OK && outcomes[0].seq == 10 && outcomes[0].cause.refusal == 0);
    CHECK(outcomes[1].fault == JPSTORE_REFUSED && outcomes[1].cause.refusal == JPSTORE_REFUSAL_NOT_JSON && outcomes[1].seq == 0);
    CHECK(outcomes[2].fault == JPSTORE_REFUSED && outcomes[2].cause.refusal == 21 && outcomes[2].cause.change == 1);
    CHECK(outcomes[3].fault == JPSTORE_OK && outcomes[3].seq == 11);
    CHECK(jpstore_group(store, NULL, 0, NULL, NULL) == JPSTORE_OK);
    CHECK(jpstore_group(store, all + 2, 1, NULL, NULL) == JPSTORE_OK);
}

/* What a JSON text is, and what stays within its member. */
static void json_texts(jpstore *store)
{
    static const char *const refused[] = {"", " ", "[", "]", "[]]", "0}", "0,\"name\":\"other\"", "\"", "\"\\\"", "\"\n\"", "\"a\\\n\"", "tru", "0 0", "\xff", "0:0"};
    static const char *const taken[][2] = {{"{\n\t\"a\": [1,\n2],\r\n\"b\": \"}\\\",\"\n}\n", "{\"a\":[1,2],\"b\":\"}\\\",\"}"},
                                           {"\"\\\\\"", "\"\\\\\""}, {" null ", "null"}, {"-9223372036854775808", "-9223372036854775808"}};
    const char *text;
    jpstore_cause cause;
    for (size_t at = 0; at < sizeof refused / sizeof *refused; at++) {
        CHECK(jpstore_create(store, "j", refused[at], "true", NULL, &cause) == JPSTORE_REFUSED);
        CHECK(cause.refusal == JPSTORE_REFUSAL_NOT_JSON || printf("%zu\n", at) < 0);
    }
    CHECK(jpstore_create(store, "j", "1.5", "true", NULL, &cause) == JPSTORE_REFUSED && cause.refusal == JPSTORE_REFUSAL_NUMBER);
    for (size_t at = 0; at < sizeof taken / sizeof *taken; at++) {
        CHECK(jpstore_create(store, "j", taken[at][0], "true", NULL, NULL) == JPSTORE_OK);
        CHECK(jpstore_get(store, "j", "", &text, NULL, NULL) == JPSTORE_OK && same(text, taken[at][1]));
        CHECK(jpstore_delete(store, "j", NULL, NULL) == JPSTORE_OK);
    }
    CHECK(jpstore_create(store, "j", "{\"a\\\"\\\\\\u0001\\u00e9/~\":1}", "true", NULL, NULL) == JPSTORE_OK);
    CHECK(jpstore_get(store, "j", "/a\"\\\x01\xc3\xa9~1~0", &text, NULL, NULL) == JPSTORE_OK && same(text, "1"));
    CHECK(jpstore_get(store, "j\",\"path\":\"", "", NULL, NULL, &cause) == JPSTORE_REFUSED && cause.refusal == JPSTORE_REFUSAL_NAME);
    CHECK(jpstore_get(store, "\xff", "", NULL, NULL, &cause) == JPSTORE_REFUSED && cause.refusal == JPSTORE_REFUSAL_NOT_JSON);
    CHECK(jpstore_delete(store, "j", NULL, NULL) == JPSTORE_OK);
}

/* Replies to lines of the caller's own come first, and are never taken for those of another call. */
static void waiting(jpstore *store, uint64_t batch)
{
    const char *text;
    CHECK(answers(store, "{\"cmd\":", "") && jpstore_get(store, "d", "/n", &text, NULL, NULL) == JPSTORE_WAITING && text == NULL);
    CHECK(jpstore_patch(store, "d", SEVEN, NULL, NULL) == JPSTORE_WAITING);
    CHECK(answers(store, "\"list\"}\n", "{\"names\":[\"d\",\"a\"],\"ok\":true}\n"));
    CHECK(answers(store, "\n \t\r\n", "") && jpstore_get(store, "d", "/n", NULL, NULL, NULL) == JPSTORE_OK);
    if (batch > 1) {
        CHECK(answers(store, PATCH "\n", "") && jpstore_list(store, &text, NULL, NULL) == JPSTORE_WAITING);
        CHECK(answers(store, GET, "{\"ok\":true,\"seq\":22}\n{\"ok\":true,\"value\":7}\n"));
    } else {
        CHECK(answers(store, PATCH, "{\"ok\":true,\"seq\":22}\n"));
    }
    CHECK(jpstore_list(store, &text, NULL, NULL) == JPSTORE_OK && same(text, "[\"d\",\"a\"]"));
}

static void pumps(jpstore *store)
{
    int step = 0;
    uint64_t written = 0;
    jpstore_cause cause;
    CHECK(jpstore_pump(store, 1000, &step, &written, NULL) == JPSTORE_OK && step == JPSTORE_SWITCHED && written > 0);
    CHECK(jpstore_pump(store, 0, &step, &written, &cause) == JPSTORE_REFUSED && cause.refusal == JPSTORE_REFUSAL_COMMAND && step == 0);
}

static void sessions(const char *file, uint64_t batch)
{
    jpstore *store;
    new_file(file, 64);
    CHECK(jpstore_open(file, &(jpstore_options){.batch = batch}, &store, NULL) == JPSTORE_OK);
    questions(store);
    changes(store);
    transactions(store);
    groups(store);
    json_texts(store);
    waiting(store, batch);
    pumps(store);
    CHECK(jpstore_finish(store, NULL, NULL) == JPSTORE_OK);
    CHECK(jpstore_get(store, "d", "", NULL, NULL, NULL) == JPSTORE_ENDED && jpstore_delete(store, "d", NULL, NULL) == JPSTORE_ENDED);
    jpstore_free(store);
}

/* Every call, with NULL for all that may not be, and for all that may. */
static void nulls(const char *file)
{
    jpstore *store;
    uint64_t number = 1;
    const char *text = "";
    size_t length = 1;
    enum { A = JPSTORE_ARGUMENTS };
    CHECK(jpstore_open(NULL, NULL, &store, NULL) == A && jpstore_open(file, NULL, NULL, NULL) == A && jpstore_open_memory(64, NULL, NULL) == A);
    CHECK(jpstore_format(NULL, 64, NULL, NULL, NULL) == A && jpstore_check(NULL, NULL, NULL) == A && jpstore_upgrade(NULL, 0, NULL, NULL) == A);
    CHECK(jpstore_copy(NULL, file, 64, NULL, NULL) == A && jpstore_copy(file, NULL, 64, NULL, NULL) == A);
    CHECK(jpstore_get(NULL, "d", "", &text, &length, NULL) == A && text == NULL && length == 0 && jpstore_query(NULL, "d", "$", NULL, NULL, NULL) == A);
    CHECK(jpstore_schema(NULL, "d", NULL, NULL, NULL) == A && jpstore_list(NULL, NULL, NULL, NULL) == A);
    CHECK(jpstore_rev(NULL, "d", &number, NULL) == A && number == 0 && jpstore_status(NULL, NULL, NULL) == A);
    CHECK(jpstore_mark(NULL, "k", &text, &length, &number, NULL) == A && jpstore_changes(NULL, 0, 1, &text, NULL, NULL, NULL) == A);
    CHECK(jpstore_create(NULL, "d", "1", "true", NULL, NULL) == A && jpstore_patch(NULL, "d", "[]", NULL, NULL) == A);
    CHECK(jpstore_patch_if(NULL, "d", "[]", 1, NULL, NULL) == A && jpstore_set_schema(NULL, "d", "true", NULL, NULL) == A);
    CHECK(jpstore_delete(NULL, "d", NULL, NULL) == A && jpstore_transaction(NULL, NULL, 0, NULL, NULL) == A);
    CHECK(jpstore_apply(NULL, NULL, NULL, NULL) == A && jpstore_group(NULL, NULL, 0, NULL, NULL) == A);
    CHECK(jpstore_snapshot(NULL, NULL, NULL) == A && jpstore_pump(NULL, 1, NULL, NULL, NULL) == A);
    CHECK(jpstore_feed(NULL, "", 0, &text, &length) == A && length == 0 && jpstore_finish(NULL, NULL, NULL) == A);
    CHECK(jpstore_system_error(NULL) == 0);
    jpstore_free(NULL);
    CHECK(jpstore_open_memory(64, &store, NULL) == JPSTORE_OK);
    CHECK(jpstore_create(store, "d", "1", "true", NULL, NULL) == JPSTORE_OK);
    CHECK(jpstore_get(store, NULL, "", NULL, NULL, NULL) == A && jpstore_get(store, "d", NULL, NULL, NULL, NULL) == A);
    CHECK(jpstore_query(store, NULL, "$", NULL, NULL, NULL) == A && jpstore_query(store, "d", NULL, NULL, NULL, NULL) == A);
    CHECK(jpstore_schema(store, NULL, NULL, NULL, NULL) == A && jpstore_rev(store, NULL, NULL, NULL) == A);
    CHECK(jpstore_mark(store, NULL, NULL, NULL, NULL, NULL) == A);
    CHECK(jpstore_create(store, NULL, "1", "true", NULL, NULL) == A && jpstore_create(store, "e", NULL, "true", NULL, NULL) == A);
    CHECK(jpstore_create(store, "e", "1", NULL, NULL, NULL) == A && jpstore_patch(store, NULL, "[]", NULL, NULL) == A);
    CHECK(jpstore_patch(store, "d", NULL, NULL, NULL) == A && jpstore_patch_if(store, "d", NULL, 1, NULL, NULL) == A);
    CHECK(jpstore_set_schema(store, NULL, "true", NULL, NULL) == A && jpstore_set_schema(store, "d", NULL, NULL, NULL) == A);
    CHECK(jpstore_delete(store, NULL, NULL, NULL) == A && jpstore_transaction(store, NULL, 1, NULL, NULL) == A);
    CHECK(jpstore_apply(store, NULL, NULL, NULL) == A && jpstore_group(store, NULL, 1, NULL, NULL) == A);
    CHECK(jpstore_apply(store, &(jpstore_change){.kind = 6, .name = "d"}, NULL, NULL) == A && jpstore_apply(store, &(jpstore_change){0}, NULL, NULL) == A);
    CHECK(jpstore_apply(store, &(jpstore_change){.kind = JPSTORE_DELETE, .name = "d", .reserved = {[3] = 1}}, NULL, NULL) == A);
    CHECK(jpstore_apply(store, &(jpstore_change){.kind = JPSTORE_DELETE, .name = "d", .if_rev = 1, .rev = 1}, NULL, NULL) == JPSTORE_REFUSED);
    CHECK(jpstore_feed(store, NULL, 1, NULL, NULL) == A && jpstore_feed(store, NULL, 0, NULL, NULL) == JPSTORE_OK);
    CHECK(jpstore_get(store, "d", "", NULL, NULL, NULL) == JPSTORE_OK && jpstore_query(store, "d", "$", NULL, NULL, NULL) == JPSTORE_OK);
    CHECK(jpstore_schema(store, "d", NULL, NULL, NULL) == JPSTORE_OK && jpstore_list(store, NULL, NULL, NULL) == JPSTORE_OK);
    CHECK(jpstore_rev(store, "d", NULL, NULL) == JPSTORE_OK && jpstore_pump(store, 1, NULL, NULL, NULL) == JPSTORE_OK);
    CHECK(jpstore_mark(store, "k", NULL, NULL, NULL, NULL) == JPSTORE_OK && jpstore_changes(store, 0, 1, NULL, NULL, NULL, NULL) == JPSTORE_OK);
    CHECK(jpstore_snapshot(store, NULL, NULL) == JPSTORE_OK && jpstore_feed(store, LIST, strlen(LIST), NULL, NULL) == JPSTORE_OK);
    CHECK(jpstore_finish(store, NULL, NULL) == JPSTORE_OK);
    jpstore_free(store);
}

/* Replies end by 0, and long ones leave no trace in short ones. */
static void ends(void)
{
    static char doc[2 << 20];
    jpstore *store;
    const char *replies;
    size_t length;
    memset(doc, 'x', (1 << 20) - 2);
    doc[0] = doc[(1 << 20) - 100] = '"';
    doc[(1 << 20) - 99] = 0;
    CHECK(jpstore_open_memory(65536, &store, NULL) == JPSTORE_OK);
    CHECK(jpstore_feed(store, "", 0, &replies, &length) == JPSTORE_OK && length == 0 && replies[0] == 0);
    CHECK(jpstore_create(store, "d", doc, "true", NULL, NULL) == JPSTORE_OK);
    CHECK(jpstore_get(store, "d", "", &replies, &length, NULL) == JPSTORE_OK && length == strlen(doc) && strcmp(replies, doc) == 0);
    CHECK(jpstore_feed(store, LIST, strlen(LIST), &replies, &length) == JPSTORE_OK && strlen(replies) == length && length == 26);
    CHECK(jpstore_feed(store, "", 0, &replies, &length) == JPSTORE_OK && length == 0 && replies[0] == 0);
    CHECK(jpstore_finish(store, &replies, &length) == JPSTORE_OK && length == 0 && replies[0] == 0);
    jpstore_free(store);
}

/* A disk that fails: the change is refused, later ones too, and questions are answered. */
static void failing_disk(const char *file)
{
    jpstore *store;
    jpstore_cause cause;
    jpstore_state state;
    const char *names;
    struct rlimit before, none;
    new_file(file, 64);
    CHECK(jpstore_open(file, NULL, &store, NULL) == JPSTORE_OK);
    signal(SIGXFSZ, SIG_IGN);
    getrlimit(RLIMIT_FSIZE, &before);
    none = before;
    none.rlim_cur = 0;
    setrlimit(RLIMIT_FSIZE, &none);
    CHECK(jpstore_create(store, "d", "1", "true", NULL, &cause) == JPSTORE_REFUSED && cause.refusal == JPSTORE_REFUSAL_DEVICE);
    CHECK(jpstore_create(store, "d", "1", "true", NULL, &cause) == JPSTORE_REFUSED && cause.refusal == JPSTORE_REFUSAL_BROKEN);
    CHECK(jpstore_list(store, &names, NULL, NULL) == JPSTORE_OK && same(names, "[]") && jpstore_system_error(store) == EFBIG);
    CHECK(jpstore_status(store, &state, NULL) == JPSTORE_OK && state.broken);
    setrlimit(RLIMIT_FSIZE, &before);
    CHECK(jpstore_finish(store, NULL, NULL) == JPSTORE_DEVICE);
    jpstore_free(store);
}

int main(int count, char **words)
{
    char file[4096];
    snprintf(file, sizeof file, "%s/typed.store", count > 1 ? words[1] : ".");
    sessions(file, 0);
    sessions(file, 16);
    nulls(file);
    ends();
    failing_disk(file);
    CHECK(strcmp(jpstore_refusal_name(JPSTORE_REFUSAL_NO_DOCUMENT), "no-document") == 0);
    CHECK(strcmp(jpstore_refusal_name(0), "") == 0 && strcmp(jpstore_refusal_name(-1), "") == 0 && strcmp(jpstore_refusal_name(1000), "") == 0);
    CHECK(jpstore_version_number() == JPSTORE_VERSION_NUMBER);
    return checks_end();
}
