/* jpstore in your own process: a crash-safe store of named JSON documents.
 *
 *     jpstore *store;
 *     const char *bolts;
 *     if (jpstore_open("inventory", NULL, &store, NULL) == JPSTORE_OK) {
 *         jpstore_create(store, "shelf-1", "{\"bolts\":40}", "true", NULL, NULL);
 *         jpstore_patch(store, "shelf-1", "[{\"op\":\"replace\",\"path\":\"/bolts\",\"value\":39}]", NULL, NULL);
 *         if (jpstore_get(store, "shelf-1", "/bolts", &bolts, NULL, NULL) == JPSTORE_OK)
 *             puts(bolts);
 *         jpstore_free(store);
 *     }
 *
 * docs/use/PROTOCOL.md says what documents, schemas, patches, places and queries are, and jpstore-refusals(7) what each
 * refusal means. What follows holds for all calls. Each call then says what else it answers, whose memory it takes and
 * gives, and by which of these two rules threads and children may make it:
 *
 * FREE: any thread, at any time, also in a child made by fork.
 *
 * OWNED: any thread, but one store takes one call at a time. Hold a mutex, also while you read a text that the store owns; a
 *     second call is answered JPSTORE_BUSY and does nothing. Different stores are independent of each other. A store belongs
 *     to the process that opened it: in a child a call is answered JPSTORE_FORKED, does nothing, and gives no text. (A kernel
 *     before Linux 4.14 can't tell a child that has its parent's process number, as the first one in a new namespace may.)
 *
 * Answers: a call with a result answers a number of enum jpstore_fault, JPSTORE_OK if it was done. Then all that it gives is
 *     set. After a fault numbers are 0 and texts NULL, but the replies of jpstore_feed and jpstore_finish, which are "".
 *
 * NULL: you may give NULL for what a call gives back and you don't need, for options, for cause, and for a store to be freed. Any
 *     other NULL is answered JPSTORE_ARGUMENTS, and nothing is done.
 *
 * Memory: what you give is read during the call alone, and remains yours. Names, places, queries and paths are in UTF-8,
 *     documents, schemas and patches are JSON texts, and all end by 0. A text that a call gives belongs to the store, ends by
 *     0 after the length that is told, and is valid until the next call on the store. What a call allocates for itself is
 *     given back by jpstore_free.
 *
 * Changes: one that is answered JPSTORE_OK is on the disk, and is found again after a crash of the process or the machine. One
 *     that is refused has changed nothing, but one refused as JPSTORE_REFUSAL_DEVICE may be there at the next opening, or not.
 *
 * Failures: JPSTORE_REFUSED, JPSTORE_ARGUMENTS, JPSTORE_BUSY, JPSTORE_FORKED and JPSTORE_WAITING leave the store as it was. After
 *     the disk has failed, changes are refused as JPSTORE_REFUSAL_BROKEN until the store is opened again; questions are answered.
 *     JPSTORE_MEMORY, JPSTORE_REPLY and JPSTORE_UNKNOWN of a call on a store say that its session is over: the file is closed, each
 *     further call is answered JPSTORE_ENDED, and a change that was under way is there whole or not at all. Free the store and
 *     open it again. (JPSTORE_UNKNOWN is also answered if a reply can't be read, as of another program than the library's own.)
 *
 * Forks: a child frees its copy of a store by jpstore_free, which closes the child's copy of the file and leaves the parent's
 *     as it is. Else the file remains locked when the parent has died. What the program had allocated is lost to the child until
 *     it ends. A program that a child starts by exec has no copy of anything.
 *
 * Cancellation: no call is a cancellation point. A thread that is cancelled during a call goes on to the call's end.
 *
 * Jumps: a jump out of a signal handler (siglongjmp, or a C++ exception) that interrupted a call leaves the store without a
 *     way back. Every further call on it is answered JPSTORE_BUSY, but jpstore_free closes its file; do that in the same thread.
 *     A change that was under way is there whole, or not at all, and what the program had allocated is lost until the process
 *     ends. A jump out of a call that has no store yet, such as jpstore_open, leaves the file open and locked.
 *
 * Signals: a handler that runs during a call runs on the store's stack, unless it has an alternate one. It may call nothing here.
 *
 * Garbage collectors that scan a thread from its stack pointer, as Boehm's does: make calls within GC_do_blocking, since a thread
 *     in a call is on the store's stack. Nothing of the host's is on it, but what its signal handlers have there.
 *
 * Debuggers and profilers: a walk over the stack comes from the store's stack to the caller's, by tables (.eh_frame) and by frame
 *     pointers, in the library's own functions. Those of the program have no tables, and as they are proved no frame pointers: a
 *     walk that begins within one of them may end there.
 *
 * The host: no call writes to a standard stream, ends the process, handles a signal, touches the locale, or changes errno.
 *
 * Stack: a store has a stack of its own, 16 MiB of addresses; what a line has touched of it stays in memory until the store is
 *     freed. A caller's thread may have the smallest stack that threads can have. */
#ifndef JPSTORE_H
#define JPSTORE_H

#include <stddef.h>
#include <stdint.h>

#ifdef __cplusplus
extern "C" {
#endif
#if defined(__GNUC__)
#pragma GCC visibility push(default)
#endif

/* The version of this header. The number is 1000000 x the first part + 1000 x the second + the third. */
#define JPSTORE_VERSION "1.0.0"
#define JPSTORE_VERSION_NUMBER 1000000

/* An open store. */
typedef struct jpstore jpstore;

/* What a call answers. */
enum jpstore_fault {
    JPSTORE_OK = 0,
    JPSTORE_IN_USE = 1,     /* another opening has the file, in this process or in another */
    JPSTORE_FILE = 2,       /* the file can't be made or opened: cause->system_error tells why */
    JPSTORE_REFUSED = 3,    /* the store refuses it: cause->refusal tells why */
    JPSTORE_DEVICE = 4,     /* the disk failed */
    JPSTORE_MEMORY = 5,     /* out of memory */
    JPSTORE_ARGUMENTS = 6,  /* a pointer is NULL, a number is out of its range, the path is no UTF-8, or an option is unknown */
    JPSTORE_PROCESSOR = 7,  /* the processor lacks what the program was built for (x86-64-v2) */
    JPSTORE_FORKED = 8,     /* the store belongs to the parent process */
    JPSTORE_BUSY = 9,       /* another call on this store isn't done */
    JPSTORE_ENDED = 10,     /* the session is over: finished, or ended by an earlier fault */
    JPSTORE_REPLY = 11,     /* out of memory for the reply: the session is over */
    JPSTORE_UNKNOWN = 12,   /* the program ended for a reason, or answered what, this library doesn't know */
    JPSTORE_NO_SPACE = 13,  /* the disk, a quota or a limit has no room for the whole new file */
    JPSTORE_WAITING = 14,   /* jpstore_feed was given a part of a line, or changes whose replies are still to come */
    JPSTORE_IDENTITY = 15   /* the system gave no random bytes for the identity of a store in format 3 */
};

/* Why the store refuses something; jpstore-refusals(7) has the whole table.
 * (refusals: written by tools/protocol.py from docs/protocol.toml) */
enum jpstore_refusal {
    JPSTORE_REFUSAL_LINE_TOO_LONG = 10,     /* the change or question has over 1,048,576 bytes as a line */
    JPSTORE_REFUSAL_NOT_JSON = 11,          /* a document, schema or patch isn't one JSON text, or a text isn't UTF-8 */
    JPSTORE_REFUSAL_NUMBER = 12,            /* a number is not a 64-bit whole number */
    JPSTORE_REFUSAL_DEPTH = 13,             /* the document would nest deeper than 64 levels */
    JPSTORE_REFUSAL_COMMAND = 14,           /* no command has this form: as a transaction of no changes, or of over 1,024 */
    JPSTORE_REFUSAL_NAME = 15,              /* a name has not 1 to 64 of the letters, digits, `-`, `_` and `.` */
    JPSTORE_REFUSAL_EXISTS = 20,            /* a document of that name exists already */
    JPSTORE_REFUSAL_NO_DOCUMENT = 21,       /* no document has that name */
    JPSTORE_REFUSAL_TOO_MANY = 22,          /* there are 1,024 documents already, or 65,536 in format 3 */
    JPSTORE_REFUSAL_TOO_LARGE = 23,         /* the document would have over 1,048,576 bytes */
    JPSTORE_REFUSAL_REVISION = 24,          /* the document has another revision, cause->rev */
    JPSTORE_REFUSAL_MARK = 25,              /* the changes ask for another mark than the present one, cause->mark */
    JPSTORE_REFUSAL_PATCH_SHAPE = 30,       /* the patch is no list of operations of RFC 6902 */
    JPSTORE_REFUSAL_PATCH_POINTER = 31,     /* a place in an operation is no JSON Pointer */
    JPSTORE_REFUSAL_PATCH_MISSING = 32,     /* a place that an operation needs isn't there */
    JPSTORE_REFUSAL_PATCH_INTO_ITSELF = 33, /* a value is moved into itself */
    JPSTORE_REFUSAL_PATCH_TEST = 34,        /* a `test` found another value */
    JPSTORE_REFUSAL_PATCH_ROOT = 35,        /* the patch removes the whole document */
    JPSTORE_REFUSAL_PATCH_LONG = 36,        /* the patch has over 4,096 operations or 2,097,152 bytes, or nests too deep */
    JPSTORE_REFUSAL_NO_VALUE = 37,          /* the document has no value at this place */
    JPSTORE_REFUSAL_POINTER = 38,           /* the place is no JSON Pointer */
    JPSTORE_REFUSAL_SCHEMA_FORM = 40,       /* a schema is neither a boolean nor an object, a keyword has a wrong form, or a
                                             * pattern is none */
    JPSTORE_REFUSAL_SCHEMA_KEYWORD = 41,    /* a keyword of the schema isn't supported */
    JPSTORE_REFUSAL_SCHEMA_REF = 42,        /* a `$ref` leads nowhere */
    JPSTORE_REFUSAL_SCHEMA_LOOP = 43,       /* the schema leads back to itself at the same value */
    JPSTORE_REFUSAL_SCHEMA_SIZE = 44,       /* the schema has over 262,144 bytes or 64 patterns, a pattern over 4,096 bytes,
                                             * or it nests too deep, or its patterns take too much memory */
    JPSTORE_REFUSAL_INVALID = 45,           /* the document would not be valid under its schema */
    JPSTORE_REFUSAL_PATH = 50,              /* the query is no JSONPath */
    JPSTORE_REFUSAL_PATH_LEFT_OUT = 51,     /* the query has `match`, `search`, or another number than a 64-bit whole one */
    JPSTORE_REFUSAL_PATH_LONG = 52,         /* the query has over 1,024 bytes */
    JPSTORE_REFUSAL_PATH_NODES = 53,        /* the query selects over 100,000 nodes */
    JPSTORE_REFUSAL_REPLY_LONG = 54,        /* the reply would have over 16,777,216 bytes */
    JPSTORE_REFUSAL_FULL = 60,              /* the store has no room for the change */
    JPSTORE_REFUSAL_DEVICE = 61,            /* the disk failed during the change: the next opening shows whether it is there */
    JPSTORE_REFUSAL_BROKEN = 62,            /* the disk has failed before: questions are answered, and changes once the store
                                             * is opened again */
    JPSTORE_REFUSAL_MEMORY = 63,            /* out of memory for this; it may be tried again */
    JPSTORE_REFUSAL_SEQ_END = 64,           /* the count of changes is at its end */
    JPSTORE_REFUSAL_TRANSACTION_LARGE = 65, /* what a transaction copies, and the documents that it puts under other schemas,
                                             * have over 33,554,432 bytes of text */
    JPSTORE_REFUSAL_ALREADY_A_STORE = 70,   /* only programs in Rattle are told this */
    JPSTORE_REFUSAL_SMALL = 71,             /* only programs in Rattle are told this */
    JPSTORE_REFUSAL_NOT_A_STORE = 72,       /* the file is no store */
    JPSTORE_REFUSAL_DAMAGED = 73,           /* the file is a damaged store */
    JPSTORE_REFUSAL_NO_ROOM = 74,           /* the documents don't fit in the new file of a copy, or in format 2 */
    JPSTORE_REFUSAL_CUT_OFF = 75,           /* only the program says this, with `--strict`: a commit was cut off in the store */
    JPSTORE_REFUSAL_NEWER_SCHEMA = 76       /* a document's schema has a keyword that only format 3 reads, and format 2 was
                                             * asked for */
};
/* end of refusals */

/* Why a call wasn't done. A call sets all of it. */
typedef struct jpstore_cause {
    int refusal;      /* with JPSTORE_REFUSED and JPSTORE_DEVICE the number of enum jpstore_refusal; 0 if there is none */
    int system_error; /* with JPSTORE_FILE, JPSTORE_NO_SPACE and JPSTORE_DEVICE the system's errno, as ENOENT or EEXIST; else,
                       * and if no call of the system had failed, 0 */
    int change;       /* the change of a transaction that is at fault, counted from 0; -1 if none is */
    int op;           /* the operation of a patch that is at fault, counted from 0; -1 if none is */
    uint64_t rev;     /* with JPSTORE_REFUSAL_REVISION the document's revision; else 0 */
    const char *mark; /* with JPSTORE_REFUSAL_MARK the value of the present mark, a text of the store's; NULL if there is none */
    size_t mark_length;
    uint64_t mark_seq; /* with a mark the number of the last change made with it; else 0 */
    uint64_t reserved[2];
} jpstore_cause;

/* How a store is served. Set all of it to 0 and then what you want, so that later members are 0 too. */
typedef struct jpstore_options {
    uint64_t batch; /* up to so many changes share a commit, 1 to 1024; 0 is 1 */
    uint64_t pump;  /* sectors of a snapshot to copy after each change, 1 to 1000000; 0: none */
    uint64_t reserved[6]; /* another number than 0 is answered JPSTORE_ARGUMENTS */
} jpstore_options;

/* The room of an identity in hexadecimal, 32 digits and the 0 after them. */
#define JPSTORE_ID_ROOM 33

/* How a file is made. Set all of it to 0 and then what you want. */
typedef struct jpstore_format_options {
    uint64_t format; /* the format of the file, 2 or 3; 0 is 2 */
    uint64_t sparse; /* 1: the empty store alone is written, so that a full disk may refuse changes (61); 0: the whole file */
    uint64_t mode;   /* the file's permission bits, up to 0777, less the umask; 0 is 0600 */
    const char *id;  /* the identity of the store in format 3, 32 hexadecimal digits; NULL: 16 random bytes of the system */
    uint64_t reserved[4]; /* another number than 0 is answered JPSTORE_ARGUMENTS */
} jpstore_format_options;

/* What a store tells of itself. */
typedef struct jpstore_state {
    int broken;         /* 1: the disk has failed since the opening */
    int half;           /* which half is in force, 0 or 1 */
    uint64_t capacity;  /* bytes that one half has room for */
    uint64_t documents; /* how many there are */
    uint64_t opens;     /* openings of the file, this one included */
    uint64_t sectors;   /* of 512 bytes, in the file */
    uint64_t seq;       /* accepted changes */
    uint64_t used;      /* bytes of the half in force that are taken */
    char id[JPSTORE_ID_ROOM]; /* in format 3 the identity, which no other store has, in hexadecimal; else "" */
} jpstore_state;

/* Files: all calls of this part are FREE. */

/* Opens the store in the file at path, which stays locked until jpstore_finish or jpstore_free.
 *
 * Answers: *store, which the caller frees by jpstore_free; NULL after a fault, and then nothing is left to free or locked. It
 *     counts as an opening in the file, and brings a store of format 1 to format 2.
 * Faults: JPSTORE_IN_USE, JPSTORE_FILE, JPSTORE_REFUSED (72 to 74), JPSTORE_DEVICE, JPSTORE_MEMORY, JPSTORE_ARGUMENTS,
 *     JPSTORE_PROCESSOR. */
int jpstore_open(const char *path, const jpstore_options *options, jpstore **store, jpstore_cause *cause);

/* The same with a new store in memory, in format 2, of 3 to 1048576 sectors of 512 bytes: for tests and to try things out. What it
 * holds is gone when it is freed. Each call of its disk takes 16 bytes more until then, so it isn't for long use. */
int jpstore_open_memory(uint64_t sectors, jpstore **store, jpstore_cause *cause);

/* Makes the file at path, which must not exist, with an empty store of so many sectors of 512 bytes, from 3 to 4294967296.
 *
 * Answers: *capacity, the number of bytes that one half has room for.
 * Faults: as jpstore_open, and JPSTORE_NO_SPACE and JPSTORE_IDENTITY, after which no file is left. A file that another fault
 *     left is removed by the caller. */
int jpstore_format(const char *path, uint64_t sectors, const jpstore_format_options *options, uint64_t *capacity,
                   jpstore_cause *cause);

/* Opens the store in the file at path, reads and judges all of it, and closes it. It counts as an opening in the file, so it
 * writes.
 *
 * Answers: *state.
 * Faults: as jpstore_open. */
int jpstore_check(const char *path, jpstore_state *state, jpstore_cause *cause);

/* Copies the store in the file at path into a new file of so many sectors, in its format: the documents with their schemas and
 * revisions, and the counts of changes and openings. In format 3 the copy gets another identity. Nothing may exist at new_path.
 * It counts as an opening of the file at path.
 *
 * Answers: *state, the copy's.
 * Faults: as jpstore_format; a new file is removed then. JPSTORE_REFUSED with JPSTORE_REFUSAL_NO_ROOM: the documents don't
 *     fit. */
int jpstore_copy(const char *path, const char *new_path, uint64_t sectors, jpstore_state *state, jpstore_cause *cause);

/* The same in this format, 2 or 3; 0 is that of the store. It adds JPSTORE_REFUSAL_NEWER_SCHEMA: a schema is none of format
 * 2. */
int jpstore_copy_in(const char *path, const char *new_path, uint64_t sectors, uint64_t format, jpstore_state *state,
                    jpstore_cause *cause);

/* Brings the store in the file at path to this format, 2 or 3; 0 is 3. It counts as an opening, and loses nothing if it is
 * stopped. Format 2 is made by a snapshot. In format 3 it gets an identity, unless it has one.
 *
 * Answers: *before, the format that it had.
 * Faults: as jpstore_open, and JPSTORE_IDENTITY, after which it is in format 2. */
int jpstore_upgrade(const char *path, uint64_t format, uint64_t *before, jpstore_cause *cause);

/* Questions: all calls of this part are OWNED. Texts are the store's. Their faults are JPSTORE_REFUSED, JPSTORE_ARGUMENTS,
 * JPSTORE_WAITING, JPSTORE_BUSY, JPSTORE_FORKED, JPSTORE_ENDED, JPSTORE_REPLY, JPSTORE_MEMORY and JPSTORE_UNKNOWN. */

/* The value at a place of a document: its compact JSON text. The place is a JSON Pointer (RFC 6901), "" for the whole document.
 *
 * A name with a character 0, which ends a text in C, is reached by jpstore_query as \u0000. */
int jpstore_get(jpstore *store, const char *name, const char *place, const char **value, size_t *length, jpstore_cause *cause);

/* The nodes that a JSONPath query (RFC 9535) selects in a document: a JSON list of {"path":"$[..]","value":VALUE}, in order. */
int jpstore_query(jpstore *store, const char *name, const char *query, const char **nodes, size_t *length, jpstore_cause *cause);

/* The schema of a document: its compact JSON text. */
int jpstore_schema(jpstore *store, const char *name, const char **schema, size_t *length, jpstore_cause *cause);

/* The names of the documents in the order of their creation: a JSON list of texts without escapes. */
int jpstore_list(jpstore *store, const char **names, size_t *length, jpstore_cause *cause);

/* The revision of a document: the seq of the last creation, patch or schema of it. */
int jpstore_rev(jpstore *store, const char *name, uint64_t *rev, jpstore_cause *cause);

/* The mark of a key, in format 3: its value, and the number of the last change made with it; NULL and 0 if there is none. The value
 * may have a character 0, if it was set by a line. */
int jpstore_mark(jpstore *store, const char *key, const char **value, size_t *length, uint64_t *seq, jpstore_cause *cause);

/* The transactions after the change `since`, the first max_bytes of them, 1 to 4194304, and one at least: a JSON list of
 * {"changes":[..],"first":SEQ,"last":SEQ}, with a mark also "mark":{"key":KEY,"value":TEXT}, in order. An empty one says that
 * nothing is newer. Ask next from the last "last".
 *
 * *transactions is NULL if the store doesn't know all of them. *from is then the lowest number from which it does, else 0: read the
 * documents anew. */
int jpstore_changes(jpstore *store, uint64_t since, uint64_t max_bytes, const char **transactions, size_t *length, uint64_t *from,
                    jpstore_cause *cause);

/* What the store tells of itself. */
int jpstore_status(jpstore *store, jpstore_state *state, jpstore_cause *cause);

/* Changes: all calls of this part are OWNED. A change that is done waits for the disk, and gets a number, its seq, one more than
 * the last. Their faults are those of questions. With a batch too, each call returns when its changes are done. */

/* Makes a document with this value under this schema ("true" accepts every value), last in the order of creation. */
int jpstore_create(jpstore *store, const char *name, const char *doc, const char *schema, uint64_t *seq, jpstore_cause *cause);

/* Applies a list of JSON Patch operations (RFC 6902) to a document, all or none; cause->op tells which one was at fault. */
int jpstore_patch(jpstore *store, const char *name, const char *ops, uint64_t *seq, jpstore_cause *cause);

/* The same if the document has this revision; else JPSTORE_REFUSED with JPSTORE_REFUSAL_REVISION, and cause->rev. */
int jpstore_patch_if(jpstore *store, const char *name, const char *ops, uint64_t rev, uint64_t *seq, jpstore_cause *cause);

/* Puts a document under another schema, if it is valid under it. */
int jpstore_set_schema(jpstore *store, const char *name, const char *schema, uint64_t *seq, jpstore_cause *cause);

/* Removes a document. The others keep their order. */
int jpstore_delete(jpstore *store, const char *name, uint64_t *seq, jpstore_cause *cause);

/* The kinds of a change, and the members that each has.
 * (kinds of changes: written by tools/protocol.py from docs/protocol.toml) */
enum jpstore_change_kind {
    JPSTORE_CREATE = 1,     /* name, doc, schema */
    JPSTORE_PATCH = 2,      /* name, ops, and perhaps if_rev with rev */
    JPSTORE_SET_SCHEMA = 3, /* name, schema */
    JPSTORE_DELETE = 4,     /* name */
    JPSTORE_TRANSACTION = 5 /* changes, changes_count */
};
/* end of kinds of changes */

/* A mark that is set with a change or a transaction, in format 3. Set all of it to 0 and then what you want. */
typedef struct jpstore_marking {
    const char *key;   /* which has the form of a name */
    const char *value; /* at most 128 bytes */
    int if_mark;       /* 1: the key must have the mark `before`, or none if that is NULL */
    const char *before;
    uint64_t reserved[2]; /* another number than 0 is answered JPSTORE_ARGUMENTS */
} jpstore_marking;

/* A change. Set all of it to 0 and then what its kind has. */
typedef struct jpstore_change {
    int kind;
    int if_rev;   /* 1: the document must have the revision rev */
    uint64_t rev;
    const char *name, *doc, *ops, *schema;
    const struct jpstore_change *changes;
    size_t changes_count;
    const jpstore_marking *mark; /* what is set with it, or NULL; a change in a transaction has none */
    uint64_t reserved[4]; /* another number than 0 is answered JPSTORE_ARGUMENTS */
} jpstore_change;

/* Makes one change of any kind.
 *
 * Its mark is set with it, or neither is. If the key has another mark than the one that is asked for: JPSTORE_REFUSED with
 * JPSTORE_REFUSAL_MARK, and cause->mark. So a change whose answer was lost may be sent again: it was made if the present mark is its
 * own. Format 2 refuses marks (JPSTORE_REFUSAL_COMMAND), and so does each format a value over 128 bytes. */
int jpstore_apply(jpstore *store, const jpstore_change *change, uint64_t *seq, jpstore_cause *cause);

/* Makes 1 to 1,024 changes, all or none, each judged after those before it. *seq is that of the last; cause->change tells which one
 * was at fault. A patch with if_rev and no operations ("[]") is a guard for the others. A transaction within another is refused. */
int jpstore_transaction(jpstore *store, const jpstore_change *changes, size_t count, uint64_t *seq, jpstore_cause *cause);

/* What one change of a group was answered: JPSTORE_OK with its seq, or a fault with its cause. */
typedef struct jpstore_outcome {
    int fault;
    uint64_t seq;
    jpstore_cause cause;
} jpstore_outcome;

/* Makes changes one after another, transactions among them. With a batch they share commits. One that is refused doesn't hold up
 * the others. The caller has room for count outcomes.
 *
 * Answers: JPSTORE_OK if each change was answered, be it by a refusal; the outcomes tell. After a fault the outcomes of changes that
 *     were answered are true, the others have the fault. */
int jpstore_group(jpstore *store, const jpstore_change *changes, size_t count, jpstore_outcome *outcomes, jpstore_cause *cause);

/* Writes the store anew without the history of its changes, which makes room; *used is how many bytes are taken then. */
int jpstore_snapshot(jpstore *store, uint64_t *used, jpstore_cause *cause);

/* What a step of a copied snapshot left. */
enum jpstore_step {
    JPSTORE_RUNNING = 1,  /* sectors are left to copy */
    JPSTORE_SWITCHED = 2, /* the copy is in force */
    JPSTORE_DROPPED = 3   /* the copy is longer than a half, and was given up */
};

/* Makes one step of a snapshot that is copied between changes: writes up to so many sectors of it, 1 to 1000000. *step is of enum
 * jpstore_step, *written how many it wrote. */
int jpstore_pump(jpstore *store, uint64_t sectors, int *step, uint64_t *written, jpstore_cause *cause);

/* Lines: what the program reads and writes. */

/* Gives the store the next length bytes of its input: one line, many, or a part of one. Each line ends with LF. OWNED.
 *
 * Answers: every line that ends in these bytes is done, and its reply is among the *replies_length bytes at *replies, each with
 *     its LF. With a batch, changes wait until it is full, until a line comes that is no change, or until jpstore_finish; their
 *     replies come then. The bytes that don't end a line are kept until the rest comes. Until all of this is over, the calls above
 *     are answered JPSTORE_WAITING. The replies are the store's. The input needs no end by 0.
 * Faults: JPSTORE_ARGUMENTS, JPSTORE_FORKED, JPSTORE_BUSY and JPSTORE_ENDED. After JPSTORE_REPLY, JPSTORE_MEMORY or JPSTORE_UNKNOWN
 *     the replies are those before the fault; lines after them may have been done. A failure of the disk doesn't end a session: it
 *     is told in the replies (61, then 62), and by JPSTORE_DEVICE at jpstore_finish. */
int jpstore_feed(jpstore *store, const void *input, size_t length, const char **replies, size_t *replies_length);

/* Ends the input: a last line without LF is done, changes that wait are made, and the file is closed and free for others. OWNED.
 *
 * Answers: the replies that were left, as jpstore_feed does; they are valid until jpstore_free. Every further call but
 *     jpstore_system_error and jpstore_free is answered JPSTORE_ENDED.
 * Faults: as jpstore_feed, and JPSTORE_DEVICE if the disk failed during the session; the replies are true all the same, and the
 *     file is closed. */
int jpstore_finish(jpstore *store, const char **replies, size_t *replies_length);

/* The system's errno of the last call for the store's file that failed, as EIO after JPSTORE_REFUSAL_DEVICE; 0 if none has, and for
 * NULL. No other call on the store may be under way; it may be asked in a child too. */
int jpstore_system_error(const jpstore *store);

/* Finishes the store, unless that was done, and gives all of its memory back. NULL is left alone. To learn how the session ended,
 * call jpstore_finish first. No other call on the store may be under way, but one that a jump has left. In a child it frees the
 * child's copy. */
void jpstore_free(jpstore *store);

/* Texts: these calls are FREE, and what they give is never freed. */

/* JPSTORE_VERSION_NUMBER of the library that is linked. A program that needs more than its header's number may refuse to run. */
int jpstore_version_number(void);

/* The library's version, and the SHA-256 of the program's object that is in it: "1.0.0 program-sha256:..". */
const char *jpstore_version(void);

/* What a fault means, as an English sentence. */
const char *jpstore_fault_text(int fault);

/* The name of a refusal, as "no-document"; "" for another number. */
const char *jpstore_refusal_name(int refusal);

#if defined(__GNUC__)
#pragma GCC visibility pop
#endif
#ifdef __cplusplus
}
#endif
#endif
