/* A store of libjpstore as a Python object. The interpreter's lock is given up during each call of the library. With
 * Py_LIMITED_API one extension is for each Python from 3.10 on.
 *
 * Each interpreter of a process has a module of its own, with its own types, and from Python 3.12 on may have a lock of its
 * own. */
#define PY_SSIZE_T_CLEAN
#include <Python.h>

#include <jpstore.h>
#include <stdbool.h>
#include <stdio.h>
#include <stdlib.h>
#include <string.h>
#include <unistd.h>

/* What a module has. */
struct state {
    /* Raised as Fault(fault, refusal, system_error, replies). */
    PyObject *fault_type;
    PyObject *session_type;
    /* json.loads, for values that aren't plain. */
    PyObject *loads;
};

static struct state *state_in(PyObject *module)
{
    return PyModule_GetState(module);
}

typedef struct {
    PyObject_HEAD
    /* The module that it was opened by. */
    PyObject *module;
    jpstore *store;
    /* A call is under way, in this thread or in another: the replies are the store's until they are copied. */
    bool busy;
    /* A change waits for others, unless another line comes after it. */
    bool gathers;
    /* The process that opened it. */
    pid_t owner;
    /* The line of a change; its memory is kept for the next. */
    struct line {
        char *bytes;
        size_t length, room;
    } line;
} Session;

static const jpstore_cause NO_CAUSE;

static PyObject *raise_fault(PyObject *module, int fault, jpstore_cause cause, PyObject *replies)
{
    PyObject *arguments = Py_BuildValue("(iiiO)", fault, cause.refusal, cause.system_error, replies ? replies : Py_None);
    if (arguments) {
        PyErr_SetObject(state_in(module)->fault_type, arguments);
        Py_DECREF(arguments);
    }
    return NULL;
}

static jpstore *open_store(const char *path, unsigned long long batch, unsigned long long pump, unsigned long long sectors,
                           int *fault, jpstore_cause *cause)
{
    jpstore *store = NULL;
    const jpstore_options options = {.batch = batch, .pump = pump};
    Py_BEGIN_ALLOW_THREADS
    *fault = path ? jpstore_open(path, &options, &store, cause) : jpstore_open_memory(sectors, &store, cause);
    Py_END_ALLOW_THREADS
    return store;
}

/* open(path, batch, pump, sectors): a session of the store in the file at path, or with None of one in memory of so many sectors. */
static PyObject *open_session(PyObject *module, PyObject *arguments, PyObject *names)
{
    const char *path;
    unsigned long long batch = 1, pump = 0, sectors = 0;
    static char *words[] = {"path", "batch", "pump", "sectors", NULL};
    if (!PyArg_ParseTupleAndKeywords(arguments, names, "z|KKK", words, &path, &batch, &pump, &sectors))
        return NULL;
    Session *session = (Session *)PyType_GenericAlloc((PyTypeObject *)state_in(module)->session_type, 0);
    if (!session)
        return NULL;
    int fault;
    jpstore_cause cause;
    Py_INCREF(module);
    session->module = module;
    session->owner = getpid();
    session->gathers = path && batch > 1;
    session->store = open_store(path, batch, pump, sectors, &fault, &cause);
    if (session->store)
        return (PyObject *)session;
    Py_DECREF(session);
    return raise_fault(module, fault, cause, NULL);
}

/* A session is made by open alone. */
static PyObject *session_new(PyTypeObject *type, PyObject *arguments, PyObject *names)
{
    (void)type, (void)arguments, (void)names;
    PyErr_SetString(PyExc_TypeError, "a session is made by open");
    return NULL;
}

static void free_store(Session *session)
{
    jpstore *store = session->store;
    session->store = NULL;
    if (store) {
        Py_BEGIN_ALLOW_THREADS
        jpstore_free(store);
        Py_END_ALLOW_THREADS
    }
}

static void session_dealloc(Session *session)
{
    PyTypeObject *type = Py_TYPE(session);
    free_store(session);
    free(session->line.bytes);
    Py_XDECREF(session->module);
    PyObject_Free(session);
    /* An object of a type that was made at run time holds it. */
    Py_DECREF(type);
}

/* Takes the session for a call; false, with an exception, if it has no store or another call isn't done. */
static bool begin(Session *session)
{
    if (!session->store || session->busy) {
        raise_fault(session->module, session->busy ? JPSTORE_BUSY : JPSTORE_ENDED, NO_CAUSE, NULL);
        return false;
    }
    session->busy = true;
    return true;
}

struct replies {
    const char *bytes;
    size_t length;
};

static int fed(Session *session, const char *bytes, size_t length, struct replies *replies)
{
    int fault;
    jpstore *store = session->store;
    Py_BEGIN_ALLOW_THREADS
    fault = bytes ? jpstore_feed(store, bytes, length, &replies->bytes, &replies->length)
                  : jpstore_finish(store, &replies->bytes, &replies->length);
    Py_END_ALLOW_THREADS
    return fault;
}

/* The replies as a list of lines, without their LF. */
static PyObject *lines_of(struct replies replies)
{
    PyObject *lines = PyList_New(0);
    const char *at = replies.bytes, *end = at + replies.length;
    while (lines && at < end) {
        const char *stop = memchr(at, '\n', (size_t)(end - at));
        if (!stop)
            break;
        PyObject *line = PyBytes_FromStringAndSize(at, stop - at);
        if (!line || PyList_Append(lines, line) < 0)
            Py_CLEAR(lines);
        Py_XDECREF(line);
        at = stop + 1;
    }
    return lines;
}

static PyObject *told(Session *session, int fault, struct replies replies)
{
    PyObject *lines = lines_of(replies);
    session->busy = false;
    if (!lines || fault == JPSTORE_OK)
        return lines;
    raise_fault(session->module, fault, NO_CAUSE, lines);
    Py_DECREF(lines);
    return NULL;
}

/* exchange(lines): the replies to these bytes. */
static PyObject *session_exchange(Session *session, PyObject *lines)
{
    char *bytes;
    Py_ssize_t length;
    if (PyBytes_AsStringAndSize(lines, &bytes, &length) < 0 || !begin(session))
        return NULL;
    struct replies replies;
    const int fault = fed(session, bytes, (size_t)length, &replies);
    return told(session, fault, replies);
}

static PyObject *session_finish(Session *session, PyObject *nothing)
{
    (void)nothing;
    if (!begin(session))
        return NULL;
    struct replies replies;
    const int fault = fed(session, NULL, 0, &replies);
    return told(session, fault, replies);
}

/* free(): in a child also if a thread of the parent was in a call as it forked. */
static PyObject *session_free(Session *session, PyObject *nothing)
{
    (void)nothing;
    if (session->busy && session->owner == getpid())
        return raise_fault(session->module, JPSTORE_BUSY, NO_CAUSE, NULL);
    free_store(session);
    Py_RETURN_NONE;
}

/* Whether a text is written in JSON as it is, between quotes. */
static bool is_plain(const char *text, Py_ssize_t length)
{
    for (Py_ssize_t at = 0; at < length; at++)
        if ((unsigned char)text[at] < 0x20 || text[at] == '"' || text[at] == '\\')
            return false;
    return true;
}

/* A number of at most 18 digits, or NULL without an exception. */
static PyObject *short_number(const char *text, size_t length)
{
    const bool negative = length > 0 && text[0] == '-';
    long long number = 0;
    if (length == (size_t)negative || length > 18)
        return NULL;
    for (size_t at = negative; at < length; at++) {
        if (text[at] < '0' || text[at] > '9')
            return NULL;
        number = number * 10 + (text[at] - '0');
    }
    return PyLong_FromLongLong(negative ? -number : number);
}

/* The value of a JSON text: short numbers and plain texts at once, all else by json.loads. */
static PyObject *value_of(Session *session, const char *text, size_t length)
{
    PyObject *number = short_number(text, length);
    if (number || PyErr_Occurred())
        return number;
    if (length >= 2 && text[0] == '"' && is_plain(text + 1, (Py_ssize_t)length - 2))
        return PyUnicode_DecodeUTF8(text + 1, (Py_ssize_t)length - 2, NULL);
    PyObject *bytes = PyUnicode_DecodeUTF8(text, (Py_ssize_t)length, NULL);
    PyObject *value = bytes ? PyObject_CallFunctionObjArgs(state_in(session->module)->loads, bytes, NULL) : NULL;
    Py_XDECREF(bytes);
    return value;
}

/* The value in a reply, or the whole reply as bytes if it has none: a refusal. */
static PyObject *value_in(Session *session, struct replies replies)
{
    static const char before[] = "{\"ok\":true,\"value\":";
    const size_t begin = sizeof before - 1;
    if (replies.length >= begin + 3 && memcmp(replies.bytes, before, begin) == 0)
        return value_of(session, replies.bytes + begin, replies.length - begin - 2);
    return PyBytes_FromStringAndSize(replies.bytes, (Py_ssize_t)replies.length);
}

enum { LINE_ROOM = 512 };

/* The line of a `get` in `line`, or 0 if the name or the path isn't plain or too long for it. */
static size_t get_line(char *line, PyObject *name, PyObject *path)
{
    Py_ssize_t name_length, path_length;
    const char *name_text = PyUnicode_AsUTF8AndSize(name, &name_length);
    const char *path_text = name_text ? PyUnicode_AsUTF8AndSize(path, &path_length) : NULL;
    if (!path_text) {
        PyErr_Clear();
        return 0;
    }
    if (name_length + path_length > LINE_ROOM - 64 || !is_plain(name_text, name_length) || !is_plain(path_text, path_length))
        return 0;
    char *at = line;
    const struct {
        const char *bytes;
        size_t length;
    } parts[] = {{"{\"cmd\":\"get\",\"name\":\"", 21}, {name_text, (size_t)name_length}, {"\",\"path\":\"", 10},
                 {path_text, (size_t)path_length}, {"\"}\n", 3}};
    for (size_t part = 0; part < sizeof parts / sizeof *parts; part++) {
        memcpy(at, parts[part].bytes, parts[part].length);
        at += parts[part].length;
    }
    return (size_t)(at - line);
}

/* get(name, path): the value, the bytes of a refusal, or NotImplemented if a general line is needed. */
static PyObject *session_get(Session *session, PyObject *const *arguments, Py_ssize_t count)
{
    char line[LINE_ROOM];
    if (count != 2 || !PyUnicode_Check(arguments[0]) || !PyUnicode_Check(arguments[1]))
        Py_RETURN_NOTIMPLEMENTED;
    const size_t length = get_line(line, arguments[0], arguments[1]);
    if (length == 0)
        Py_RETURN_NOTIMPLEMENTED;
    if (!begin(session))
        return NULL;
    struct replies replies;
    const int fault = fed(session, line, length, &replies);
    if (fault != JPSTORE_OK)
        return told(session, fault, replies);
    PyObject *value = value_in(session, replies);
    session->busy = false;
    return value;
}

/* Each of these writes the JSON text of a value at the end of a line; false if that needs a general line: for what isn't of the
 * plain types, or has no text, or if there is no memory. No code of Python's runs meanwhile. */
static bool put_value(struct line *line, PyObject *value, int deepest);

static bool put(struct line *line, const char *bytes, size_t length)
{
    if (line->room - line->length < length) {
        const size_t room = (line->length + length) * 2 + LINE_ROOM;
        char *grown = realloc(line->bytes, room);
        if (!grown)
            return false;
        line->bytes = grown;
        line->room = room;
    }
    memcpy(line->bytes + line->length, bytes, length);
    line->length += length;
    return true;
}

static bool put_escaped(struct line *line, char letter)
{
    char escaped[7];
    if (letter == '"' || letter == '\\')
        snprintf(escaped, sizeof escaped, "\\%c", letter);
    else
        snprintf(escaped, sizeof escaped, "\\u%04x", (unsigned char)letter);
    return put(line, escaped, strlen(escaped));
}

static bool put_text(struct line *line, PyObject *text)
{
    Py_ssize_t length;
    const char *bytes = PyUnicode_AsUTF8AndSize(text, &length);
    if (!bytes) {
        PyErr_Clear();
        return false;
    }
    bool done = put(line, "\"", 1);
    for (const char *end = bytes + length; done && bytes < end;) {
        const char *plain = bytes;
        while (bytes < end && is_plain(bytes, 1))
            bytes++;
        done = put(line, plain, (size_t)(bytes - plain)) && (bytes == end || put_escaped(line, *bytes++));
    }
    return done && put(line, "\"", 1);
}

static bool put_number(struct line *line, PyObject *number)
{
    char digits[24];
    int overflow;
    const long long value = PyLong_AsLongLongAndOverflow(number, &overflow);
    return !overflow && put(line, digits, (size_t)snprintf(digits, sizeof digits, "%lld", value));
}

static bool put_members(struct line *line, PyObject *members, int deepest)
{
    PyObject *name, *value;
    Py_ssize_t at = 0;
    bool done = put(line, "{", 1);
    for (bool first = true; done && PyDict_Next(members, &at, &name, &value); first = false)
        done = PyUnicode_CheckExact(name) && (first || put(line, ",", 1)) && put_text(line, name) && put(line, ":", 1)
               && put_value(line, value, deepest);
    return done && put(line, "}", 1);
}

static bool put_items(struct line *line, PyObject *items, int deepest)
{
    const bool is_list = PyList_CheckExact(items);
    const Py_ssize_t count = is_list ? PyList_Size(items) : PyTuple_Size(items);
    bool done = put(line, "[", 1);
    for (Py_ssize_t at = 0; done && at < count; at++)
        done = (at == 0 || put(line, ",", 1))
               && put_value(line, is_list ? PyList_GetItem(items, at) : PyTuple_GetItem(items, at), deepest);
    return done && put(line, "]", 1);
}

static bool put_value(struct line *line, PyObject *value, int deepest)
{
    if (deepest == 0)
        return false;
    if (PyUnicode_CheckExact(value))
        return put_text(line, value);
    if (PyLong_CheckExact(value))
        return put_number(line, value);
    if (PyDict_CheckExact(value))
        return put_members(line, value, deepest - 1);
    if (PyList_CheckExact(value) || PyTuple_CheckExact(value))
        return put_items(line, value, deepest - 1);
    if (value == Py_None)
        return put(line, "null", 4);
    if (value == Py_True)
        return put(line, "true", 4);
    return value == Py_False && put(line, "false", 5);
}

/* The number in the first reply, which is that to a change, or the whole reply as bytes without its LF. */
static PyObject *number_in(struct replies replies)
{
    static const char before[] = "{\"ok\":true,\"seq\":";
    const size_t begin = sizeof before - 1;
    if (replies.length >= begin + 3 && memcmp(replies.bytes, before, begin) == 0)
        return PyLong_FromUnsignedLongLong(strtoull(replies.bytes + begin, NULL, 10));
    const char *stop = replies.length > 0 ? memchr(replies.bytes, '\n', replies.length) : NULL;
    return PyBytes_FromStringAndSize(replies.bytes, stop ? stop - replies.bytes : 0);
}

/* Ends the line of a change, and the batch that it would else wait for. */
static bool put_end(struct line *line, bool gathers)
{
    static const char end[] = "\n{\"cmd\":\"status\"}\n";
    return put(line, end, gathers ? sizeof end - 1 : 1);
}

/* A text that nests deeper is refused as a whole, and a list that holds itself never ends. */
enum { DEEPEST = 127, LINE_KEPT = 1 << 16 };

/* change(command): the number of a change, the bytes of a refusal, or NotImplemented if a general line is needed. */
static PyObject *session_change(Session *session, PyObject *command)
{
    if (!begin(session))
        return NULL;
    struct line *line = &session->line;
    line->length = 0;
    if (!put_value(line, command, DEEPEST) || !put_end(line, session->gathers)) {
        session->busy = false;
        Py_RETURN_NOTIMPLEMENTED;
    }
    struct replies replies;
    const int fault = fed(session, line->bytes, line->length, &replies);
    if (line->room > LINE_KEPT) {
        free(line->bytes);
        *line = (struct line){NULL, 0, 0};
    }
    if (fault != JPSTORE_OK)
        return told(session, fault, replies);
    PyObject *number = number_in(replies);
    session->busy = false;
    return number;
}

static PyMethodDef methods[] = {
    {"exchange", (PyCFunction)session_exchange, METH_O, "The replies to lines, without their LF."},
    {"get", (PyCFunction)(void (*)(void))session_get, METH_FASTCALL, "The value at a place of a document."},
    {"change", (PyCFunction)session_change, METH_O, "The number of a change."},
    {"finish", (PyCFunction)session_finish, METH_NOARGS, "Ends the input; the replies that were left."},
    {"free", (PyCFunction)session_free, METH_NOARGS, "Ends the session."},
    {NULL, NULL, 0, NULL},
};

static PyType_Slot slots[] = {
    {Py_tp_dealloc, session_dealloc},
    {Py_tp_doc, "A store in this process."},
    {Py_tp_methods, methods},
    {Py_tp_new, session_new},
    {0, NULL},
};

static PyType_Spec session_spec = {
    .name = "jpstore._embedded.Session",
    .basicsize = sizeof(Session),
    .flags = Py_TPFLAGS_DEFAULT,
    .slots = slots,
};

/* format(path, sectors, format, sparse, mode, id): makes a file, and returns the capacity of a half. */
static PyObject *format_file(PyObject *module, PyObject *arguments)
{
    const char *path, *id;
    unsigned long long sectors, format, mode;
    uint64_t capacity;
    int fault, sparse;
    jpstore_cause cause;
    if (!PyArg_ParseTuple(arguments, "sKKpKz", &path, &sectors, &format, &sparse, &mode, &id))
        return NULL;
    const jpstore_format_options options = {.format = format, .sparse = sparse != 0, .mode = mode, .id = id};
    Py_BEGIN_ALLOW_THREADS
    fault = jpstore_format(path, sectors, &options, &capacity, &cause);
    Py_END_ALLOW_THREADS
    return fault == JPSTORE_OK ? PyLong_FromUnsignedLongLong(capacity) : raise_fault(module, fault, cause, NULL);
}

/* copy(path, new_path, sectors, format): copies a store into a new file, and returns the copy's status by its members. */
static PyObject *copy_file(PyObject *module, PyObject *arguments)
{
    const char *path, *new_path;
    unsigned long long sectors, format;
    jpstore_state status;
    int fault;
    jpstore_cause cause;
    if (!PyArg_ParseTuple(arguments, "ssKK", &path, &new_path, &sectors, &format))
        return NULL;
    Py_BEGIN_ALLOW_THREADS
    fault = jpstore_copy_in(path, new_path, sectors, format, &status, &cause);
    Py_END_ALLOW_THREADS
    if (fault != JPSTORE_OK)
        return raise_fault(module, fault, cause, NULL);
    return Py_BuildValue("{sNsKsKsisKsKsKsKsz}", "broken", PyBool_FromLong(status.broken), "capacity",
                         (unsigned long long)status.capacity, "documents", (unsigned long long)status.documents, "half",
                         status.half, "opens", (unsigned long long)status.opens, "sectors", (unsigned long long)status.sectors,
                         "seq", (unsigned long long)status.seq, "used", (unsigned long long)status.used, "id",
                         status.id[0] ? status.id : NULL);
}

/* upgrade(path, format): brings a store to a format, and returns the format that it had. */
static PyObject *upgrade_file(PyObject *module, PyObject *arguments)
{
    const char *path;
    unsigned long long format;
    uint64_t before;
    int fault;
    jpstore_cause cause;
    if (!PyArg_ParseTuple(arguments, "sK", &path, &format))
        return NULL;
    Py_BEGIN_ALLOW_THREADS
    fault = jpstore_upgrade(path, format, &before, &cause);
    Py_END_ALLOW_THREADS
    return fault == JPSTORE_OK ? PyLong_FromUnsignedLongLong(before) : raise_fault(module, fault, cause, NULL);
}

static PyObject *version(PyObject *module, PyObject *nothing)
{
    (void)module;
    (void)nothing;
    return PyUnicode_FromString(jpstore_version());
}

static PyObject *fault_text(PyObject *module, PyObject *number)
{
    (void)module;
    return PyUnicode_FromString(jpstore_fault_text((int)PyLong_AsLong(number)));
}

static PyMethodDef functions[] = {
    {"open", (PyCFunction)(void (*)(void))open_session, METH_VARARGS | METH_KEYWORDS, "A session of a store."},
    {"format", format_file, METH_VARARGS, "Makes a file with an empty store."},
    {"copy", copy_file, METH_VARARGS, "Copies a store into a new file."},
    {"upgrade", upgrade_file, METH_VARARGS, "Brings a store to another format."},
    {"version", version, METH_NOARGS, "The library's version, and which program's object is in it."},
    {"fault_text", fault_text, METH_O, "What a fault means."},
    {NULL, NULL, 0, NULL},
};

static bool add_numbers(PyObject *module)
{
    return PyModule_AddIntConstant(module, "IN_USE", JPSTORE_IN_USE) == 0
           && PyModule_AddIntConstant(module, "FILE", JPSTORE_FILE) == 0
           && PyModule_AddIntConstant(module, "REFUSED", JPSTORE_REFUSED) == 0
           && PyModule_AddIntConstant(module, "DEVICE", JPSTORE_DEVICE) == 0
           && PyModule_AddIntConstant(module, "MEMORY", JPSTORE_MEMORY) == 0
           && PyModule_AddIntConstant(module, "ARGUMENTS", JPSTORE_ARGUMENTS) == 0
           && PyModule_AddIntConstant(module, "FORKED", JPSTORE_FORKED) == 0
           && PyModule_AddIntConstant(module, "BUSY", JPSTORE_BUSY) == 0
           && PyModule_AddIntConstant(module, "REPLY", JPSTORE_REPLY) == 0
           && PyModule_AddIntConstant(module, "NO_SPACE", JPSTORE_NO_SPACE) == 0
           && PyModule_AddIntConstant(module, "IDENTITY", JPSTORE_IDENTITY) == 0;
}

/* Adds a name for what the state holds. */
static bool add_name(PyObject *module, const char *name, PyObject *value)
{
    Py_INCREF(value);
    if (PyModule_AddObject(module, name, value) == 0)
        return true;
    Py_DECREF(value);
    return false;
}

static int fill(PyObject *module)
{
    struct state *state = state_in(module);
    PyObject *json = PyImport_ImportModule("json");
    state->loads = json ? PyObject_GetAttrString(json, "loads") : NULL;
    Py_XDECREF(json);
    state->fault_type = PyErr_NewException("jpstore._embedded.Fault", NULL, NULL);
    state->session_type = PyType_FromSpec(&session_spec);
    const bool filled = state->loads && state->fault_type && state->session_type && add_name(module, "Fault", state->fault_type)
                        && add_name(module, "Session", state->session_type) && add_numbers(module);
    return filled ? 0 : -1;
}

/* Before Python 3.9 a module may be looked at that has no state yet. */
static int traverse(PyObject *module, visitproc visit, void *arg)
{
    struct state *state = state_in(module);
    if (!state)
        return 0;
    Py_VISIT(state->fault_type);
    Py_VISIT(state->session_type);
    Py_VISIT(state->loads);
    return 0;
}

static int clear(PyObject *module)
{
    struct state *state = state_in(module);
    if (!state)
        return 0;
    Py_CLEAR(state->fault_type);
    Py_CLEAR(state->session_type);
    Py_CLEAR(state->loads);
    return 0;
}

static void free_state(void *module)
{
    clear(module);
}

/* The second one is filled for a Python that knows it. */
static PyModuleDef_Slot phases[] = {
    {Py_mod_exec, fill},
    {0, NULL},
    {0, NULL},
};

static struct PyModuleDef definition = {
    PyModuleDef_HEAD_INIT,
    .m_name = "jpstore._embedded",
    .m_doc = "The store in this process, by libjpstore.",
    .m_size = sizeof(struct state),
    .m_methods = functions,
    .m_slots = phases,
    .m_traverse = traverse,
    .m_clear = clear,
    .m_free = free_state,
};

/* Whether this Python is of version 3 and at least this second number. */
static bool is_from(long second)
{
    const char *version = Py_GetVersion();
    return strncmp(version, "3.", 2) == 0 && strtol(version + 2, NULL, 10) >= second;
}

/* Py_mod_multiple_interpreters and Py_MOD_PER_INTERPRETER_GIL_SUPPORTED, which are newer than the stable interface that is used. */
enum { SLOT_OF_INTERPRETERS = 3, EACH_WITH_ITS_LOCK = 2 };

/* Before Python 3.9 PyMODINIT_FUNC alone doesn't let it be seen. */
__attribute__((visibility("default"))) PyMODINIT_FUNC PyInit__embedded(void);

PyMODINIT_FUNC PyInit__embedded(void)
{
    if (is_from(12))
        phases[1] = (PyModuleDef_Slot){SLOT_OF_INTERPRETERS, (void *)EACH_WITH_ITS_LOCK};
    return PyModuleDef_Init(&definition);
}
