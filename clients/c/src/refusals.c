/* The names of the refusals. */
#include "jpstore.h"

#include <stddef.h>

static const char *const NAMES[] = {
    /* names: written by tools/protocol.py from docs/protocol.toml */
    [JPSTORE_REFUSAL_LINE_TOO_LONG] = "line-too-long",
    [JPSTORE_REFUSAL_NOT_JSON] = "not-json",
    [JPSTORE_REFUSAL_NUMBER] = "number",
    [JPSTORE_REFUSAL_DEPTH] = "depth",
    [JPSTORE_REFUSAL_COMMAND] = "command",
    [JPSTORE_REFUSAL_NAME] = "name",
    [JPSTORE_REFUSAL_EXISTS] = "exists",
    [JPSTORE_REFUSAL_NO_DOCUMENT] = "no-document",
    [JPSTORE_REFUSAL_TOO_MANY] = "too-many",
    [JPSTORE_REFUSAL_TOO_LARGE] = "too-large",
    [JPSTORE_REFUSAL_REVISION] = "revision",
    [JPSTORE_REFUSAL_MARK] = "mark",
    [JPSTORE_REFUSAL_PATCH_SHAPE] = "patch-shape",
    [JPSTORE_REFUSAL_PATCH_POINTER] = "patch-pointer",
    [JPSTORE_REFUSAL_PATCH_MISSING] = "patch-missing",
    [JPSTORE_REFUSAL_PATCH_INTO_ITSELF] = "patch-into-itself",
    [JPSTORE_REFUSAL_PATCH_TEST] = "patch-test",
    [JPSTORE_REFUSAL_PATCH_ROOT] = "patch-root",
    [JPSTORE_REFUSAL_PATCH_LONG] = "patch-long",
    [JPSTORE_REFUSAL_NO_VALUE] = "no-value",
    [JPSTORE_REFUSAL_POINTER] = "pointer",
    [JPSTORE_REFUSAL_SCHEMA_FORM] = "schema-form",
    [JPSTORE_REFUSAL_SCHEMA_KEYWORD] = "schema-keyword",
    [JPSTORE_REFUSAL_SCHEMA_REF] = "schema-ref",
    [JPSTORE_REFUSAL_SCHEMA_LOOP] = "schema-loop",
    [JPSTORE_REFUSAL_SCHEMA_SIZE] = "schema-size",
    [JPSTORE_REFUSAL_INVALID] = "invalid",
    [JPSTORE_REFUSAL_PATH] = "path",
    [JPSTORE_REFUSAL_PATH_LEFT_OUT] = "path-left-out",
    [JPSTORE_REFUSAL_PATH_LONG] = "path-long",
    [JPSTORE_REFUSAL_PATH_NODES] = "path-nodes",
    [JPSTORE_REFUSAL_REPLY_LONG] = "reply-long",
    [JPSTORE_REFUSAL_FULL] = "full",
    [JPSTORE_REFUSAL_DEVICE] = "device",
    [JPSTORE_REFUSAL_BROKEN] = "broken",
    [JPSTORE_REFUSAL_MEMORY] = "memory",
    [JPSTORE_REFUSAL_SEQ_END] = "seq-end",
    [JPSTORE_REFUSAL_TRANSACTION_LARGE] = "transaction-large",
    [JPSTORE_REFUSAL_ALREADY_A_STORE] = "already-a-store",
    [JPSTORE_REFUSAL_SMALL] = "small",
    [JPSTORE_REFUSAL_NOT_A_STORE] = "not-a-store",
    [JPSTORE_REFUSAL_DAMAGED] = "damaged",
    [JPSTORE_REFUSAL_NO_ROOM] = "no-room",
    [JPSTORE_REFUSAL_CUT_OFF] = "cut-off",
    [JPSTORE_REFUSAL_NEWER_SCHEMA] = "newer-schema",
    /* end of names */
};

const char *jpstore_refusal_name(int refusal)
{
    const size_t count = sizeof NAMES / sizeof *NAMES;
    const char *name = refusal >= 0 && (size_t)refusal < count ? NAMES[refusal] : NULL;
    return name ? name : "";
}
