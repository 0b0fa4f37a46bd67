/*
 * The calls of the library for Python, over its stable ABI, as typed_headers/_native.pyi declares them. calls.h, which
 * tools/c_calls writes, describes each to `make`. A few others follow, which make values of the package's own classes.
 */
#define Py_LIMITED_API 0x03080000
#define PY_SSIZE_T_CLEAN
#include <Python.h>
#include <typed_headers.h>

enum { SHORT_TEXT = 1024, SHORT_LINE = 256, FEW_RANGES = 16 };

/* Bytes that no sender of field names can guess. */
static struct typed_headers_keys keys;

struct text {
    const uint8_t *bytes;
    Py_ssize_t length;
};

/* How PyArg_ParseTuple reads a text, and where. */
#define TEXT "y#"
#define INTO(text) &(text).bytes, &(text).length
#define BYTES(text) (text).bytes, (size_t)(text).length

static PyObject *use_keys(PyObject *module, PyObject *arguments) {
    struct text text;
    (void)module;
    if (!PyArg_ParseTuple(arguments, TEXT, INTO(text))) {
        return NULL;
    }
    if ((size_t)text.length != sizeof keys) {
        PyErr_SetString(PyExc_ValueError, "expected 16 bytes");
        return NULL;
    }
    memcpy(&keys, text.bytes, sizeof keys);
    Py_RETURN_NONE;
}

static PyObject *version(PyObject *module, PyObject *arguments) {
    (void)module, (void)arguments;
    return PyUnicode_FromString(typed_headers_version());
}

/*
 * Field lines: a tuple of texts. One that isn't of a type that the package takes, that has a character which is no byte,
 * or that has a line end, makes the call end as if the library rejected it. The package says then what was wrong.
 */
struct lines {
    struct text text;
    /* What has the bytes: an object of Python, or memory; else the place of a short line. */
    PyObject *owner;
    uint8_t *joined;
    bool is_rejected;
    uint8_t line[SHORT_LINE];
};

/* The bytes of a text, or NULL if it has none. */
static PyObject *bytes_of(PyObject *text) {
    PyObject *found = NULL;
    if (PyBytes_Check(text)) {
        Py_INCREF(text);
        return text;
    }
    if (PyUnicode_Check(text)) {
        found = PyUnicode_AsLatin1String(text);
    } else if (PyByteArray_Check(text) || PyMemoryView_Check(text)) {
        found = PyBytes_FromObject(text);
    }
    PyErr_Clear();
    return found;
}

static bool has_line_end(const char *bytes, size_t length) {
    return memchr(bytes, '\n', length) || memchr(bytes, '\r', length);
}

static void free_lines(struct lines *lines) {
    Py_CLEAR(lines->owner);
    PyMem_Free(lines->joined);
    lines->joined = NULL;
}

/* Adds a line and its end to the text. */
static bool join(struct lines *lines, const char *bytes, size_t length) {
    size_t before = (size_t)lines->text.length;
    uint8_t *joined = PyMem_Realloc(lines->joined, before + length + 1);
    if (!joined) {
        PyErr_NoMemory();
        return false;
    }
    memcpy(joined + before, bytes, length);
    joined[before + length] = '\n';
    lines->joined = joined;
    lines->text = (struct text){joined, (Py_ssize_t)(before + length + 1)};
    return true;
}

/* Whether a text is a short line, which is copied without an object of its own. */
static bool read_short(PyObject *text, struct lines *lines) {
    Py_UCS4 characters[SHORT_LINE];
    const Py_ssize_t length = PyUnicode_Check(text) ? PyUnicode_GetLength(text) : 0;
    if (length < 1 || length > SHORT_LINE || !PyUnicode_AsUCS4(text, characters, SHORT_LINE, 0)) {
        return false;
    }
    bool is_line = true;
    for (Py_ssize_t place = 0; place < length; place++) {
        const Py_UCS4 character = characters[place];
        is_line &= (character < 256) & (character != '\n') & (character != '\r');
        lines->line[place] = (uint8_t)character;
    }
    lines->text = (struct text){lines->line, length};
    return is_line;
}

static void clear_lines(struct lines *lines) {
    lines->text = (struct text){(const uint8_t *)"", 0};
    lines->owner = NULL, lines->joined = NULL, lines->is_rejected = false;
}

static bool read_lines(PyObject *given, struct lines *lines) {
    clear_lines(lines);
    Py_ssize_t count = PyTuple_Size(given);
    if (count == 1 && read_short(PyTuple_GetItem(given, 0), lines)) {
        return true;
    }
    for (Py_ssize_t place = 0; place < count; place++) {
        char *bytes;
        Py_ssize_t length;
        PyObject *owner = bytes_of(PyTuple_GetItem(given, place));
        lines->is_rejected = !owner || PyBytes_AsStringAndSize(owner, &bytes, &length) ||
                             has_line_end(bytes, (size_t)length);
        if (lines->is_rejected) {
            Py_XDECREF(owner);
            PyErr_Clear();
            return true;
        }
        if (count == 1 && length > 0) {
            /* (the last line needs no end, and an empty text would be no line) */
            lines->owner = owner;
            lines->text = (struct text){(const uint8_t *)bytes, length};
            return true;
        }
        bool is_joined = join(lines, bytes, (size_t)length);
        Py_DECREF(owner);
        if (!is_joined) {
            return false;
        }
    }
    return !PyErr_Occurred();
}

/* Reads a line, and a tuple of those behind it. */
static bool read_line_and_more(PyObject *line, PyObject *more, struct lines *lines) {
    const Py_ssize_t count = PyTuple_Size(more);
    clear_lines(lines);
    if (count < 0 || (count == 0 && read_short(line, lines))) {
        return count == 0;
    }
    PyObject *first = PyTuple_Pack(1, line), *all = first ? PySequence_Concat(first, more) : NULL;
    const bool is_read = all && read_lines(all, lines);
    Py_XDECREF(first);
    Py_XDECREF(all);
    return is_read;
}

/*
 * Each call has a slot for each parameter but the keys. calls.h describes the parameters (CALL) and the structs (SHAPE).
 * `make` reads the slots that Python passes, makes the call with the slots, and returns the status and what it gave.
 */

enum kind { U8, U16, U64, SIZE, BOOL, A_TEXT, A_STRUCT };

/* Of a struct: its values, each with its place, and with that of the member which says whether it counts. */
struct member {
    enum kind kind;
    size_t place, flag;
    const struct shape *shape;
};

/* A struct is a tuple of its values, and its value if it has a single one. */
struct shape {
    size_t size;
    Py_ssize_t count;
    const struct member *members;
};

#define COUNT(array) (sizeof(array) / sizeof *(array))
#define PLACE(of, name) offsetof(struct typed_headers_##of, name)
#define MEMBER(of, name, kind) {kind, PLACE(of, name), 0, NULL}
#define FLAGGED(of, name, kind, flag) {kind, PLACE(of, name), PLACE(of, flag), NULL}
#define INNER(of, name, shape) {A_STRUCT, PLACE(of, name), 0, &shape##_shape}
#define SHAPE(name, ...)                                                                                               \
    static const struct member name##_members[] = {__VA_ARGS__};                                                       \
    static const struct shape name##_shape = {sizeof(struct typed_headers_##name), COUNT(name##_members),              \
                                              name##_members};

/* A handle is a capsule, which is closed once nothing refers to it. Calls that only read one may overlap; the others do
   not, as the interpreter's lock is held during a call. Zero bytes are a closed one. */
struct handle {
    const char *name;
    size_t size;
    void (*free)(PyObject *);
};

#define HANDLE(kind)                                                                                                   \
    static void free_##kind(PyObject *capsule) {                                                                       \
        void *handle = PyCapsule_GetPointer(capsule, "typed_headers." #kind);                                          \
        typed_headers_##kind##_free(handle);                                                                           \
        PyMem_Free(handle);                                                                                            \
    }                                                                                                                  \
    static const struct handle kind##_handle = {"typed_headers." #kind, sizeof(struct typed_headers_##kind),           \
                                                free_##kind};

/* Room on the stack, and if what is written doesn't fit, in memory. */
struct room {
    void *at;
    size_t length, written;
    union {
        uint8_t text[SHORT_TEXT];
        struct typed_headers_bytes_range ranges[FEW_RANGES];
    } few;
};

enum role { LINES, GIVEN_TEXT, NUMBER, IN_STRUCT, LIST_STRUCT, OPENED, NEW, OUT_NUMBER, OUT_STRUCT, ROOM_OF_BYTES,
            ROOM_OF_STRUCTS, PIECE };

struct parameter {
    enum role role;
    enum kind kind;
    const struct shape *shape;
    const struct handle *handle;
};

union slot;

struct call {
    const char *name;
    uint8_t (*make)(union slot *at);
    unsigned may;
    size_t count;
    const struct parameter *parameters;
};

static PyObject *make(const struct call *call, PyObject *arguments);

/* What a slot may be beside a struct. */
#define SLOT                                                                                                           \
    struct lines lines;                                                                                                \
    struct typed_headers_text text;                                                                                    \
    struct room room;                                                                                                  \
    struct {                                                                                                           \
        void *at;                                                                                                      \
        size_t length;                                                                                                 \
    } list;                                                                                                            \
    struct {                                                                                                           \
        void *at;                                                                                                      \
        struct typed_headers_section own;                                                                              \
    } handle;                                                                                                          \
    uint8_t u8;                                                                                                        \
    uint16_t u16;                                                                                                      \
    uint64_t u64;                                                                                                      \
    size_t size;                                                                                                       \
    bool flag;

#define PLAIN(role) {role, U64, NULL, NULL}
#define OF_KIND(role, kind) {role, kind, NULL, NULL}
#define OF_SHAPE(role, shape) {role, U64, &shape##_shape, NULL}
#define OF_HANDLE(role, handle) {role, U64, NULL, &handle##_handle}
#define FIELD(slot) BYTES((slot).lines.text)
#define TEXT_OF(slot) (slot).text.bytes, (slot).text.length
#define ROOM(slot) (slot).room.at, (slot).room.length, &(slot).room.written
#define MAY(status) 1U << TYPED_HEADERS_##status
#define CALL(name, may, passed, ...)                                                                                   \
    static uint8_t pass_##name(union slot *at) { return typed_headers_##name passed; }                                 \
    static const struct parameter name##_parameters[] = {__VA_ARGS__};                                                 \
    static const struct call name##_call = {#name, pass_##name, may, COUNT(name##_parameters), name##_parameters};     \
    static PyObject *call_##name(PyObject *module, PyObject *arguments) {                                              \
        (void)module;                                                                                                  \
        return make(&name##_call, arguments);                                                                          \
    }

#include "calls.h"

/* Reading what is passed. Numbers are parsed as Python's integers, so that none wraps. */

static bool read_number(PyObject *given, enum kind kind, void *place) {
    const uint64_t number = kind == BOOL ? (uint64_t)PyObject_IsTrue(given) : PyLong_AsUnsignedLongLong(given);
    const uint64_t most = kind == U8 ? UINT8_MAX : kind == U16 ? UINT16_MAX : kind == SIZE ? SIZE_MAX : UINT64_MAX;
    if (PyErr_Occurred()) {
        return false;
    }
    if (number > most) {
        PyErr_SetString(PyExc_OverflowError, "the number is too large");
        return false;
    }
    switch (kind) {
    case BOOL: *(bool *)place = number != 0; break;
    case U8: *(uint8_t *)place = (uint8_t)number; break;
    case U16: *(uint16_t *)place = (uint16_t)number; break;
    case SIZE: *(size_t *)place = (size_t)number; break;
    default: *(uint64_t *)place = number;
    }
    return true;
}

static bool read_text(PyObject *given, struct typed_headers_text *text) {
    char *bytes;
    Py_ssize_t length;
    if (PyBytes_AsStringAndSize(given, &bytes, &length)) {
        return false;
    }
    *text = (struct typed_headers_text){(const uint8_t *)bytes, (size_t)length};
    return true;
}

/* Reads the values of a struct, whose bytes are zero. */
static bool read_struct(PyObject *given, const struct shape *shape, char *at) {
    if (!PyTuple_Check(given) || PyTuple_Size(given) != shape->count) {
        PyErr_SetString(PyExc_TypeError, "expected the values of a struct");
        return false;
    }
    for (Py_ssize_t place = 0; place < shape->count; place++) {
        const struct member *member = &shape->members[place];
        PyObject *value = PyTuple_GetItem(given, place);
        if (member->flag && value == Py_None) {
            continue;
        }
        if (!(member->kind == A_TEXT ? read_text(value, (void *)(at + member->place))
                                     : read_number(value, member->kind, at + member->place))) {
            return false;
        }
        if (member->flag) {
            at[member->flag] = 1;
        }
    }
    return true;
}

/* Memory of zeros. (The stable ABI of Python 3.8 has no PyMem_Calloc.) */
static void *zeroed(size_t count, size_t size) {
    void *memory = count <= PY_SSIZE_T_MAX / size ? PyMem_Malloc(count * size) : NULL;
    return memory ? memset(memory, 0, count * size) : NULL;
}

/* Reads a tuple of structs into memory, of which there is some also for none. */
static bool read_list(PyObject *given, const struct shape *shape, union slot *slot) {
    const Py_ssize_t count = PyTuple_Size(given);
    slot->list.at = count < 0 ? NULL : zeroed((size_t)count + 1, shape->size);
    if (!slot->list.at) {
        return PyErr_Occurred() ? false : (PyErr_NoMemory(), false);
    }
    slot->list.length = (size_t)count;
    for (Py_ssize_t place = 0; place < count; place++) {
        char *at = (char *)slot->list.at + (size_t)place * shape->size;
        if (!read_struct(PyTuple_GetItem(given, place), shape, at)) {
            return false;
        }
    }
    return true;
}

/* Reads an open handle. In place of that of a section its bytes may be given: they are parsed for this call. */
static bool read_handle(PyObject *given, const struct handle *handle, union slot *slot, uint8_t *status) {
    struct typed_headers_text text;
    if (handle != &section_handle || PyCapsule_IsValid(given, handle->name)) {
        slot->handle.at = PyCapsule_GetPointer(given, handle->name);
        return slot->handle.at != NULL;
    }
    slot->handle.at = &slot->handle.own;
    if (!read_text(given, &text)) {
        return false;
    }
    *status = typed_headers_section_new(&slot->handle.own, text.bytes, text.length, &keys);
    return true;
}

static bool read_slot(PyObject *given, const struct parameter *it, union slot *slot, uint8_t *status) {
    switch (it->role) {
    case LINES:
        *status = read_lines(given, &slot->lines) && slot->lines.is_rejected ? TYPED_HEADERS_REFUSED : *status;
        return !PyErr_Occurred();
    case GIVEN_TEXT: return read_text(given, &slot->text);
    case NUMBER: return read_number(given, it->kind, &slot->u64);
    case IN_STRUCT: return read_struct(given, it->shape, (char *)&slot->any);
    case LIST_STRUCT: return read_list(given, it->shape, slot);
    case OPENED: return read_handle(given, it->handle, slot, status);
    default: break;
    }
    /* (a piece has the length that is given, whatever is there) */
    if (!read_number(given, SIZE, &slot->room.length)) {
        return false;
    }
    slot->room.at = slot->room.length < PY_SSIZE_T_MAX ? PyMem_Malloc(slot->room.length + 1) : NULL;
    return slot->room.at ? true : (PyErr_NoMemory(), false);
}

/* Prepares a slot. False if there is no memory for it. */
static bool clear_slot(const struct parameter *it, union slot *slot) {
    switch (it->role) {
    case LINES: clear_lines(&slot->lines); break;
    case LIST_STRUCT: slot->list.at = NULL; break;
    case OPENED: memset(&slot->handle, 0, sizeof slot->handle); break;
    case NEW: slot->handle.at = zeroed(1, it->handle->size); break;
    case PIECE: slot->room.at = NULL, slot->room.written = 0; break;
    case ROOM_OF_BYTES:
    case ROOM_OF_STRUCTS:
        slot->room.at = &slot->room.few, slot->room.written = 0;
        slot->room.length = it->role == ROOM_OF_BYTES ? SHORT_TEXT : FEW_RANGES;
        break;
    case IN_STRUCT:
    case OUT_STRUCT: memset(&slot->any, 0, it->shape->size); break;
    default: slot->u64 = 0;
    }
    return it->role != NEW || slot->handle.at ? true : (PyErr_NoMemory(), false);
}

static void free_slot(const struct parameter *it, union slot *slot) {
    switch (it->role) {
    case LINES: free_lines(&slot->lines); break;
    case LIST_STRUCT: PyMem_Free(slot->list.at); break;
    case OPENED: typed_headers_section_free(&slot->handle.own); break;
    case NEW: PyMem_Free(slot->handle.at); break;
    case PIECE: PyMem_Free(slot->room.at); break;
    case ROOM_OF_BYTES:
    case ROOM_OF_STRUCTS:
        if (slot->room.at != &slot->room.few) {
            PyMem_Free(slot->room.at);
        }
        break;
    default: break;
    }
}

/* Gives a room the size of what didn't fit. */
static bool grow(const struct parameter *it, struct room *room) {
    const size_t size = it->role == ROOM_OF_BYTES ? 1 : it->shape->size;
    if (room->written <= room->length) {
        return true;
    }
    if (room->at != &room->few) {
        PyMem_Free(room->at);
    }
    room->length = room->written;
    room->at = room->length <= PY_SSIZE_T_MAX / size ? PyMem_Malloc(room->length * size) : NULL;
    return room->at ? true : (PyErr_NoMemory(), false);
}

/* Making what is given. */

static PyObject *given_struct(const struct shape *shape, const char *at);

static PyObject *given_value(enum kind kind, const struct shape *shape, const char *at) {
    switch (kind) {
    case U8: return PyLong_FromUnsignedLong(*(const uint8_t *)at);
    case U16: return PyLong_FromUnsignedLong(*(const uint16_t *)at);
    case SIZE: return PyLong_FromSize_t(*(const size_t *)at);
    case A_STRUCT: return given_struct(shape, at);
    default: return PyLong_FromUnsignedLongLong(*(const uint64_t *)at);
    }
}

/* Adds a value to a tuple, which is freed if there is none. */
static bool put(PyObject **tuple, Py_ssize_t place, PyObject *value) {
    if (!value || PyTuple_SetItem(*tuple, place, value)) {
        Py_CLEAR(*tuple);
    }
    return *tuple != NULL;
}

static PyObject *given_struct(const struct shape *shape, const char *at) {
    PyObject *found = shape->count > 1 ? PyTuple_New(shape->count) : NULL;
    for (Py_ssize_t place = 0; place < shape->count && (found || shape->count == 1); place++) {
        const struct member *member = &shape->members[place];
        PyObject *value = Py_None;
        if (member->flag && !at[member->flag]) {
            Py_INCREF(value);
        } else {
            value = given_value(member->kind, member->shape, at + member->place);
        }
        if (shape->count == 1) {
            return value;
        }
        put(&found, place, value);
    }
    return found;
}

static PyObject *given_list(const struct shape *shape, const struct room *room) {
    PyObject *found = PyList_New((Py_ssize_t)room->written);
    for (size_t place = 0; found && place < room->written; place++) {
        PyObject *value = given_struct(shape, (const char *)room->at + place * shape->size);
        if (!value || PyList_SetItem(found, (Py_ssize_t)place, value)) {
            Py_CLEAR(found);
        }
    }
    return found;
}

static PyObject *given_handle(const struct handle *handle, union slot *slot) {
    PyObject *capsule = PyCapsule_New(slot->handle.at, handle->name, handle->free);
    if (capsule) {
        slot->handle.at = NULL;
    }
    return capsule;
}

static PyObject *given_slot(const struct parameter *it, union slot *slot) {
    switch (it->role) {
    case NEW: return given_handle(it->handle, slot);
    case OUT_NUMBER: return given_value(it->kind, NULL, (const char *)&slot->u64);
    case OUT_STRUCT: return given_struct(it->shape, (const char *)&slot->any);
    case ROOM_OF_STRUCTS: return given_list(it->shape, &slot->room);
    default: return PyBytes_FromStringAndSize(slot->room.at, (Py_ssize_t)slot->room.written);
    }
}

static bool is_taken(enum role role) { return role <= OPENED || role == PIECE; }

static bool is_given(enum role role) { return role > OPENED; }

static bool is_room(enum role role) { return role == ROOM_OF_BYTES || role == ROOM_OF_STRUCTS; }

/* The status, and behind it what the call gives. */
static PyObject *result(const struct call *call, union slot *at, uint8_t status) {
    Py_ssize_t count = 1, next = 1;
    for (size_t place = 0; place < call->count; place++) {
        count += is_given(call->parameters[place].role);
    }
    PyObject *found = count > 1 ? PyTuple_New(count) : NULL;
    if (!found) {
        return count > 1 ? NULL : PyLong_FromLong(status);
    }
    put(&found, 0, PyLong_FromLong(status));
    for (size_t place = 0; found && place < call->count; place++) {
        if (is_given(call->parameters[place].role)) {
            put(&found, next++, given_slot(&call->parameters[place], &at[place]));
        }
    }
    return found;
}

/* Makes a call with rooms that suffice, and leaves in them nothing that it didn't write. */
static bool pass(const struct call *call, union slot *at, uint8_t *status) {
    while ((*status = call->make(at)) == TYPED_HEADERS_NO_ROOM) {
        for (size_t place = 0; place < call->count; place++) {
            if (is_room(call->parameters[place].role) && !grow(&call->parameters[place], &at[place].room)) {
                return false;
            }
        }
    }
    if (*status != TYPED_HEADERS_DONE && !(call->may >> *status & 1)) {
        PyErr_Format(PyExc_SystemError, "%s ended with status %d, which it never has", call->name, *status);
        return false;
    }
    for (size_t place = 0; place < call->count; place++) {
        if (is_room(call->parameters[place].role) && *status != TYPED_HEADERS_DONE &&
            *status != TYPED_HEADERS_MARKED) {
            at[place].room.written = 0;
        }
    }
    return true;
}

/* Prepares the slots of a call, and counts those that have to be freed. */
static bool clear_slots(const struct call *call, union slot *at, size_t *cleared) {
    bool is_clear = true;
    for (*cleared = 0; is_clear && *cleared < call->count; ++*cleared) {
        is_clear = clear_slot(&call->parameters[*cleared], &at[*cleared]);
    }
    return is_clear;
}

static void free_slots(const struct call *call, union slot *at, size_t cleared) {
    for (size_t place = 0; place < cleared; place++) {
        free_slot(&call->parameters[place], &at[place]);
    }
}

static PyObject *make(const struct call *call, PyObject *arguments) {
    union slot at[MOST_SLOTS];
    PyObject *found = NULL;
    Py_ssize_t next = 0, wanted = 0;
    uint8_t status = TYPED_HEADERS_DONE;
    size_t cleared;
    bool is_read = clear_slots(call, at, &cleared);
    for (size_t place = 0; place < call->count; place++) {
        wanted += is_taken(call->parameters[place].role);
    }
    if (is_read && PyTuple_Size(arguments) != wanted) {
        PyErr_Format(PyExc_TypeError, "%s takes %zd arguments", call->name, wanted);
        is_read = false;
    }
    for (size_t place = 0; is_read && place < call->count; place++) {
        if (is_taken(call->parameters[place].role)) {
            PyObject *given = PyTuple_GetItem(arguments, next++);
            is_read = read_slot(given, &call->parameters[place], &at[place], &status);
        }
    }
    if (is_read && (status != TYPED_HEADERS_DONE || pass(call, at, &status))) {
        found = result(call, at, status);
    }
    free_slots(call, at, cleared);
    return found;
}

/* Calls over field lines whose values are made here: a value of a type, or the status if it isn't DONE. */

typedef PyObject *value_maker(PyObject *type, union slot *at);

/* What a value is made of: its type, a field line, a tuple of those behind it, and what else the call takes. */
struct given {
    PyObject *type, *line, *more, *other;
};

static PyObject *make_value(const struct call *call, const struct given *given, value_maker *value, uint8_t *status) {
    union slot at[MOST_SLOTS];
    PyObject *found = NULL;
    size_t cleared;
    *status = TYPED_HEADERS_DONE;
    bool is_read = clear_slots(call, at, &cleared);
    for (size_t place = 0; is_read && place < call->count; place++) {
        const struct parameter *it = &call->parameters[place];
        if (it->role == LINES) {
            is_read = read_line_and_more(given->line, given->more, &at[place].lines);
            *status = is_read && at[place].lines.is_rejected ? TYPED_HEADERS_REFUSED : *status;
        } else if (is_taken(it->role)) {
            is_read = given->other && read_slot(given->other, it, &at[place], status);
        }
    }
    if (is_read && (*status != TYPED_HEADERS_DONE || pass(call, at, status)) && *status == TYPED_HEADERS_DONE) {
        found = value(given->type, at);
    }
    free_slots(call, at, cleared);
    return found;
}

/* Makes a value of a type, a line, a tuple of others, and what else the call takes. */
static PyObject *value_or_status(const struct call *call, PyObject *arguments, value_maker *value) {
    struct given given;
    uint8_t status;
    given.type = PyTuple_GetItem(arguments, 0), given.line = PyTuple_GetItem(arguments, 1);
    given.more = PyTuple_GetItem(arguments, 2);
    given.other = PyTuple_Size(arguments) > 3 ? PyTuple_GetItem(arguments, 3) : NULL;
    if (!given.type || !given.line || !given.more) {
        return NULL;
    }
    PyObject *found = make_value(call, &given, value, &status);
    return found || PyErr_Occurred() ? found : PyLong_FromLong(status);
}

/* Arguments in an array: the stable ABI has that from Python 3.10 on, and 3.8 and 3.9 have it as it is there. */
#ifndef METH_FASTCALL
#define METH_FASTCALL 0x0080
#endif

/* The tuple of no lines. */
static PyObject *no_lines;

static PyObject *tuple_from(PyObject *const *items, Py_ssize_t count) {
    PyObject *tuple = PyTuple_New(count);
    for (Py_ssize_t place = 0; tuple && place < count; place++) {
        Py_INCREF(items[place]);
        PyTuple_SetItem(tuple, place, items[place]);
    }
    return tuple;
}

/* What `parse` of a type is passed: the type, which a function of the module has as its first argument, and lines. */
struct parsed {
    PyObject *type, *const *lines;
    Py_ssize_t count;
    struct given given;
};

static bool read_parsed(PyObject *self, PyObject *const *arguments, Py_ssize_t count, struct parsed *parsed) {
    const bool is_bound = PyType_Check(self);
    if (count < (is_bound ? 1 : 2)) {
        PyErr_SetString(PyExc_TypeError, "parse() missing 1 required positional argument: 'line'");
        return false;
    }
    parsed->type = is_bound ? self : arguments[0];
    parsed->lines = is_bound ? arguments : arguments + 1, parsed->count = is_bound ? count : count - 1;
    PyObject *more = parsed->count == 1 ? no_lines : tuple_from(parsed->lines + 1, parsed->count - 1);
    parsed->given = (struct given){parsed->type, parsed->lines[0], more, NULL};
    return more != NULL;
}

/* What is found, or else what the type says of the status and the lines. */
static PyObject *found_or_else(PyObject *found, struct parsed *parsed, uint8_t status) {
    if (parsed->given.more != no_lines) {
        Py_DECREF(parsed->given.more);
    }
    if (found || PyErr_Occurred()) {
        return found;
    }
    PyObject *lines = tuple_from(parsed->lines, parsed->count);
    found = lines ? PyObject_CallMethod(parsed->type, "_otherwise", "iO", (int)status, lines) : NULL;
    Py_XDECREF(lines);
    return found;
}

/* `parse` of a type, whose call takes something else beside lines, or NULL. */
#define PARSES(name, call, other_one, value)                                                                           \
    static PyObject *parse_##name(PyObject *self, PyObject *const *arguments, Py_ssize_t count) {                      \
        struct parsed parsed;                                                                                          \
        uint8_t status;                                                                                                \
        if (!read_parsed(self, arguments, count, &parsed)) {                                                           \
            return NULL;                                                                                               \
        }                                                                                                              \
        parsed.given.other = other_one;                                                                                \
        PyObject *found = make_value(call, &parsed.given, value, &status);                                             \
        return found_or_else(found, &parsed, status);                                                                  \
    }

/* Values whose type is a frozen dataclass. The names are those of its members. */

enum member_name { OPAQUE, WEAK, TAGS, FIRST, LAST, RANGE, LENGTH, TYPE, SUBTYPE, PARAMETERS, PAIRS, USER, PASSWORD,
                   TOKEN, FILENAME, ATTACHMENT, MAX_AGE, MAX_STALE, MIN_FRESH, S_MAXAGE, NO_CACHE, NO_STORE,
                   NO_TRANSFORM, ONLY_IF_CACHED, MUST_REVALIDATE, MUST_UNDERSTAND, PUBLIC, PRIVATE, IMMUTABLE,
                   PROXY_REVALIDATE, MEMBERS };

static const char *const MEMBER_TEXTS[MEMBERS] = {
    "opaque", "weak", "tags", "first", "last", "range", "length", "type", "subtype", "parameters", "pairs", "user",
    "password", "token", "filename", "_is_attachment", "max_age", "max_stale", "min_fresh", "s_maxage", "no_cache",
    "no_store", "no_transform", "only_if_cached", "must_revalidate", "must_understand", "public", "private",
    "immutable", "proxy_revalidate"};
static PyObject *member_names[MEMBERS];

static bool make_member_names(void) {
    for (int member = 0; member < MEMBERS; member++) {
        member_names[member] = PyUnicode_InternFromString(MEMBER_TEXTS[member]);
        if (!member_names[member]) {
            return false;
        }
    }
    return true;
}

/* Sets a member of a value, which is freed if that fails. */
static bool set_member(PyObject **value, enum member_name name, PyObject *member) {
    if (*value && (!member || PyObject_GenericSetAttr(*value, member_names[name], member))) {
        Py_CLEAR(*value);
    }
    Py_XDECREF(member);
    return *value != NULL;
}

static PyObject *new_value(PyObject *type) { return PyType_GenericNew((PyTypeObject *)type, NULL, NULL); }

static PyObject *none(void) {
    Py_INCREF(Py_None);
    return Py_None;
}

static PyObject *latin_1(const char *bytes, Py_ssize_t length) { return PyUnicode_DecodeLatin1(bytes, length, NULL); }

/* A pair, of which a part that couldn't be made is NULL. */
static PyObject *pair_of(PyObject *one, PyObject *other) {
    PyObject *pair = one && other ? PyTuple_Pack(2, one, other) : NULL;
    Py_XDECREF(one);
    Py_XDECREF(other);
    return pair;
}

/* Appends to a list, which is freed if that fails. */
static bool append(PyObject **list, PyObject *item) {
    if (*list && (!item || PyList_Append(*list, item))) {
        Py_CLEAR(*list);
    }
    Py_XDECREF(item);
    return *list != NULL;
}

static PyObject *tuple_of(PyObject *list) {
    PyObject *tuple = list ? PyList_AsTuple(list) : NULL;
    Py_XDECREF(list);
    return tuple;
}

/* What a call wrote into a room of bytes. */
static struct text written_in(const union slot *slot) {
    return (struct text){slot->room.at, (Py_ssize_t)slot->room.written};
}

/* The parts of a line that has the form of an entity tag. */
struct tag_parts {
    int is_weak;
    struct text opaque;
};

static bool split_tag(struct text line, struct tag_parts *parts) {
    parts->is_weak = line.length > 2 && line.bytes[0] == 'W';
    const Py_ssize_t before = parts->is_weak ? 3 : 1;
    parts->opaque = (struct text){line.bytes + before, line.length - before - 1};
    return parts->opaque.length >= 0;
}

/* A line is an entity tag exactly if its parts make one, and that is the line. */
static uint8_t tag_status(struct text line, const struct tag_parts *parts) {
    uint8_t room[SHORT_TEXT], equal;
    size_t written;
    const uint8_t status = typed_headers_format_etag(parts->is_weak, BYTES(parts->opaque), room, sizeof room, &written);
    if (status == TYPED_HEADERS_NO_ROOM) {
        return typed_headers_weak_eq(BYTES(line), BYTES(line), &equal);
    }
    if (status == TYPED_HEADERS_DONE &&
        (written != (size_t)line.length || memcmp(room, line.bytes, written) != 0)) {
        return TYPED_HEADERS_REFUSED;
    }
    return status;
}

static PyObject *etag_value(PyObject *type, const struct tag_parts *parts) {
    PyObject *value = new_value(type);
    set_member(&value, OPAQUE, latin_1((const char *)parts->opaque.bytes, parts->opaque.length));
    if (parts->is_weak) {
        set_member(&value, WEAK, PyBool_FromLong(1));
    }
    return value;
}

static PyObject *parse_etag(PyObject *self, PyObject *const *arguments, Py_ssize_t count) {
    struct lines lines;
    struct tag_parts parts;
    struct parsed parsed;
    PyObject *found = NULL;
    uint8_t status = TYPED_HEADERS_REFUSED;
    if (!read_parsed(self, arguments, count, &parsed)) {
        return NULL;
    }
    if (read_line_and_more(parsed.given.line, parsed.given.more, &lines)) {
        if (!lines.is_rejected && parsed.count == 1 && split_tag(lines.text, &parts)) {
            status = tag_status(lines.text, &parts);
        }
        found = status == TYPED_HEADERS_DONE ? etag_value(parsed.type, &parts) : NULL;
    }
    free_lines(&lines);
    return found_or_else(found, &parsed, status);
}

/* The entity tags of the members of a list. No value if there is no member, or one is no tag. */
static PyObject *etags_value(PyObject *type, union slot *at) {
    const struct text text = written_in(&at[1]);
    const uint8_t *next = text.bytes, *end = next + text.length;
    PyObject *kind = next < end ? PyObject_GetAttrString(type, "_TAG") : NULL, *list = kind ? PyList_New(0) : NULL;
    while (list && next < end) {
        const uint8_t *behind = memchr(next, '\n', (size_t)(end - next));
        const struct text line = {next, behind - next};
        struct tag_parts parts;
        const bool is_tag = split_tag(line, &parts) && tag_status(line, &parts) == TYPED_HEADERS_DONE;
        append(&list, is_tag ? etag_value(kind, &parts) : NULL);
        next = behind + 1;
    }
    PyObject *value = list ? new_value(type) : NULL;
    if (value) {
        set_member(&value, TAGS, tuple_of(list));
    } else {
        Py_XDECREF(list);
    }
    Py_XDECREF(kind);
    return value;
}

PARSES(etags, &members_call, NULL, etags_value)

/* Where a parameter's value ends: at a semicolon that isn't between quotes. */
static const char *value_end(const char *at, const char *end) {
    for (bool is_quoted = false; at < end && (is_quoted || *at != ';'); at++) {
        if (is_quoted && *at == '\\') {
            at++;
        } else if (*at == '"') {
            is_quoted = !is_quoted;
        }
    }
    return at;
}

/* The names and values of the parameters of a canonical media type, each behind a semicolon and a space. */
static PyObject *parameters_of(const char *at, const char *end) {
    PyObject *list = at < end ? PyList_New(0) : NULL;
    if (at == end) {
        return PyTuple_New(0);
    }
    while (list && at < end) {
        const char *name = at + 2, *value = memchr(name, '=', (size_t)(end - name));
        at = value_end(value + 1, end);
        append(&list, pair_of(latin_1(name, value - name), latin_1(value + 1, at - value - 1)));
    }
    return tuple_of(list);
}

static PyObject *media_type_value(PyObject *type, union slot *at) {
    const struct text text = written_in(&at[1]);
    const char *begin = (const char *)text.bytes, *end = begin + text.length;
    const char *slash = memchr(begin, '/', (size_t)text.length), *behind = value_end(begin, end);
    PyObject *value = new_value(type);
    set_member(&value, TYPE, latin_1(begin, slash - begin));
    set_member(&value, SUBTYPE, latin_1(slash + 1, behind - slash - 1));
    set_member(&value, PARAMETERS, parameters_of(behind, end));
    return value;
}

PARSES(media_type, &media_type_call, NULL, media_type_value)

static PyObject *range_value(PyObject *type, const struct typed_headers_bytes_range *range) {
    PyObject *value = new_value(type);
    set_member(&value, FIRST, PyLong_FromUnsignedLongLong(range->first));
    set_member(&value, LAST, PyLong_FromUnsignedLongLong(range->last));
    return value;
}

/* The type is a tuple of that of the value, and that of its range. */
static PyObject *content_range_value(PyObject *types, union slot *at) {
    const struct typed_headers_content_range *given = &at[1].any.content_range;
    const struct typed_headers_bytes_range range = {given->first, given->last};
    PyObject *type = PyTuple_GetItem(types, 0), *value = type ? new_value(type) : NULL;
    set_member(&value, RANGE, given->has_range ? range_value(PyTuple_GetItem(types, 1), &range) : none());
    set_member(&value, LENGTH, given->has_length ? PyLong_FromUnsignedLongLong(given->length) : none());
    return value;
}

static PyObject *content_range_as(PyObject *module, PyObject *arguments) {
    (void)module;
    return value_or_status(&content_range_call, arguments, content_range_value);
}

static PyObject *ranges_value(PyObject *type, union slot *at) {
    const struct typed_headers_bytes_range *ranges = at[2].room.at;
    PyObject *list = PyList_New(0);
    for (size_t place = 0; list && place < at[2].room.written; place++) {
        append(&list, range_value(type, &ranges[place]));
    }
    return list;
}

static PyObject *ranges_as(PyObject *module, PyObject *arguments) {
    (void)module;
    return value_or_status(&ranges_call, arguments, ranges_value);
}

/* Members that aren't set have the class' defaults. */
static PyObject *cache_control_value(PyObject *type, union slot *at) {
    const struct typed_headers_cache_directives *given = &at[1].any.cache_directives;
    const struct typed_headers_directive_seconds *seconds[] = {&given->max_age, &given->max_stale, &given->min_fresh,
                                                               &given->s_maxage};
    const uint8_t flags[] = {given->no_cache, given->no_store, given->no_transform, given->only_if_cached,
                             given->must_revalidate, given->must_understand, given->is_public, given->is_private,
                             given->immutable, given->proxy_revalidate};
    PyObject *value = new_value(type);
    for (int place = 0; place < 4; place++) {
        if (seconds[place]->is_set) {
            set_member(&value, MAX_AGE + place, PyLong_FromUnsignedLongLong(seconds[place]->seconds));
        }
    }
    for (int place = 0; place < 10; place++) {
        if (flags[place]) {
            set_member(&value, NO_CACHE + place, PyBool_FromLong(1));
        }
    }
    return value;
}

static bool is_same_letter(uint8_t one, char other) {
    return (one >= 'A' && one <= 'Z' ? one + 32 : one) == (uint8_t)other;
}

/* Whether a text spells a name in any case, and behind it, if that is asked for, `=` before a comma. */
static bool spells(struct text text, const char *name, bool with_argument) {
    const Py_ssize_t length = (Py_ssize_t)strlen(name);
    for (Py_ssize_t begin = 0; begin + length <= text.length; begin++) {
        Py_ssize_t place = 0;
        while (place < length && is_same_letter(text.bytes[begin + place], name[place])) {
            place++;
        }
        if (place < length) {
            continue;
        }
        for (place += begin; with_argument && place < text.length && text.bytes[place] != ','; place++) {
            if (text.bytes[place] == '=') {
                return true;
            }
        }
        if (!with_argument) {
            return true;
        }
    }
    return false;
}

/* No value if the lines spell what other calls say of them. */
static PyObject *plain_cache_control_value(PyObject *type, union slot *at) {
    const struct text lines = at[0].lines.text;
    const bool is_plain = !spells(lines, "stale-", false) && !spells(lines, "no-cache", true) &&
                          !spells(lines, "private", true);
    return is_plain ? cache_control_value(type, at) : NULL;
}

PARSES(cache_control, &cache_control_call, NULL, plain_cache_control_value)

static PyObject *basic_value(PyObject *type, union slot *at) {
    const struct text text = written_in(&at[2]);
    const char *user = (const char *)text.bytes;
    const Py_ssize_t length = (Py_ssize_t)at[1].size;
    PyObject *value = new_value(type);
    set_member(&value, USER, PyUnicode_DecodeUTF8(user, length, NULL));
    set_member(&value, PASSWORD, PyUnicode_DecodeUTF8(user + length, text.length - length, NULL));
    return value;
}

static PyObject *bearer_value(PyObject *type, union slot *at) {
    const struct text text = written_in(&at[1]);
    PyObject *value = new_value(type);
    set_member(&value, TOKEN, latin_1((const char *)text.bytes, text.length));
    return value;
}

/* Credentials of Bearer, or else of Basic. */
static PyObject *parse_credentials(PyObject *self, PyObject *const *arguments, Py_ssize_t count) {
    struct parsed parsed;
    uint8_t status;
    if (!read_parsed(self, arguments, count, &parsed)) {
        return NULL;
    }
    PyObject *found = make_value(&bearer_call, &parsed.given, bearer_value, &status);
    if (!found && status == TYPED_HEADERS_REFUSED && !PyErr_Occurred()) {
        found = make_value(&basic_call, &parsed.given, basic_value, &status);
    }
    return found_or_else(found, &parsed, status);
}

/* The names and values of lines that each have `=` behind the name. */
static PyObject *cookie_value(PyObject *type, union slot *at) {
    const struct text text = written_in(&at[1]);
    const char *next = (const char *)text.bytes, *end = next + text.length;
    PyObject *value = new_value(type), *list = PyList_New(0);
    while (list && next < end) {
        const char *behind = memchr(next, '\n', (size_t)(end - next));
        const char *sign = memchr(next, '=', (size_t)(behind - next));
        append(&list, pair_of(latin_1(next, sign - next), latin_1(sign + 1, behind - sign - 1)));
        next = behind + 1;
    }
    set_member(&value, PAIRS, tuple_of(list));
    return value;
}

PARSES(cookie, &cookies_call, NULL, cookie_value)

/* `int.__new__`, which makes values of classes over int. */
static PyObject *int_new;

static PyObject *number_value(PyObject *type, union slot *at) {
    PyObject *number = PyLong_FromUnsignedLongLong(at[1].u64);
    PyObject *value = number ? PyObject_CallFunctionObjArgs(int_new, type, number, NULL) : NULL;
    Py_XDECREF(number);
    return value;
}

PARSES(age, &age_call, NULL, number_value)

PARSES(content_length, &content_length_call, NULL, number_value)

/* A part of a field: its letter, its name or its text, and its value, which parts of some letters have, or None. */
static PyObject *part_of(const char *at, const char *end) {
    const char *sign = memchr("pit", *at, 3) ? memchr(at, '=', (size_t)(end - at)) : NULL;
    PyObject *kind = latin_1(at, 1), *name = latin_1(at + 1, (sign ? sign : end) - at - 1);
    PyObject *value = sign ? latin_1(sign + 1, end - sign - 1) : none();
    PyObject *part = kind && name && value ? PyTuple_Pack(3, kind, name, value) : NULL;
    Py_XDECREF(kind);
    Py_XDECREF(name);
    Py_XDECREF(value);
    return part;
}

/* The parts of fields: a list of those of each element, up to an empty line. */
static PyObject *groups_value(PyObject *type, union slot *at) {
    const struct text text = written_in(&at[2]);
    const char *next = (const char *)text.bytes, *end = next + text.length;
    PyObject *groups = PyList_New(0), *group = groups ? PyList_New(0) : NULL;
    (void)type;
    while (groups && group && next < end) {
        const char *behind = memchr(next, '\n', (size_t)(end - next));
        if (behind > next) {
            append(&group, part_of(next, behind));
        } else {
            append(&groups, group);
            group = PyList_New(0);
        }
        next = behind + 1;
    }
    if (!group) {
        Py_CLEAR(groups);
    } else if (PyList_Size(group) > 0) {
        append(&groups, group);
    } else {
        Py_DECREF(group);
    }
    return groups;
}

static PyObject *groups(PyObject *module, PyObject *arguments) {
    (void)module;
    return value_or_status(&field_parts_call, arguments, groups_value);
}

/* A parameter: its name, and its value if it has one. */
static PyObject *parameter_of(const char *at, const char *end) {
    const char *sign = *at == 'p' ? memchr(at, '=', (size_t)(end - at)) : NULL, *name = at + 1;
    return pair_of(latin_1(name, (sign ? sign : end) - name), sign ? latin_1(sign + 1, end - sign - 1) : none());
}

/* The parameters up to an empty line, whose end is the next line. NULL also if a part is none, but for the relation
   types and the title of a link, which are left out. */
static PyObject *parameters_before(const char **next, const char *end) {
    PyObject *list = PyList_New(0);
    for (const char *behind; list && **next != '\n'; *next = behind + 1) {
        const char *at = *next;
        behind = memchr(at, '\n', (size_t)(end - at));
        if (*at == 'p' || *at == 'n') {
            append(&list, parameter_of(at, behind));
        } else if (!memchr("leo", *at, 3)) {
            Py_CLEAR(list);
        }
    }
    ++*next;
    return tuple_of(list);
}

/* An element: a text, and parameters behind it. NULL also if it is something else. */
static PyObject *element_before(PyObject *type, PyObject *member, bool is_link, const char **next, const char *end) {
    const char *at = *next, *behind = memchr(at, '\n', (size_t)(end - at));
    const bool is_one = is_link ? *at == 'v' : (*at == 'v' || *at == 'n') && behind > at + 1;
    PyObject *value = is_one ? new_value(type) : NULL, *text = value ? latin_1(at + 1, behind - at - 1) : NULL;
    if (value && (!text || PyObject_GenericSetAttr(value, member, text))) {
        Py_CLEAR(value);
    }
    Py_XDECREF(text);
    *next = behind + 1;
    PyObject *parameters = value ? parameters_before(next, end) : NULL;
    if (value) {
        set_member(&value, PARAMETERS, parameters);
    }
    return value;
}

/* The elements of fields. The type is a tuple of that of an element, and of the name of its text. None if one of them
   has something else than parameters behind it. */
static PyObject *elements_value(PyObject *types, union slot *at) {
    const struct text text = written_in(&at[2]);
    const char *next = (const char *)text.bytes, *end = next + text.length;
    PyObject *type = PyTuple_GetItem(types, 0), *member = PyTuple_GetItem(types, 1), *list = PyList_New(0);
    while (type && member && list && next < end) {
        append(&list, element_before(type, member, at[0].u8 == TYPED_HEADERS_LINKS, &next, end));
    }
    return list || PyErr_Occurred() ? list : none();
}

static PyObject *elements_as(PyObject *module, PyObject *arguments) {
    (void)module;
    return value_or_status(&field_parts_call, arguments, elements_value);
}

/* What an extended value means. */
static PyObject *extended(const char *at, Py_ssize_t length) {
    uint8_t few[SHORT_TEXT], *room = few;
    size_t written;
    uint8_t status = typed_headers_extended_text((const uint8_t *)at, (size_t)length, few, sizeof few, &written);
    if (status == TYPED_HEADERS_NO_ROOM) {
        room = PyMem_Malloc(written);
        status = room ? typed_headers_extended_text((const uint8_t *)at, (size_t)length, room, written, &written)
                      : TYPED_HEADERS_NO_MEMORY;
    }
    PyObject *text = status == TYPED_HEADERS_DONE ? PyUnicode_DecodeUTF8((const char *)room, (Py_ssize_t)written, NULL)
                                                    : PyErr_NoMemory();
    if (room != few) {
        PyMem_Free(room);
    }
    return text;
}

/* The only disposition of the lines. No value if there are several, or if a part is malformed. */
static PyObject *disposition_value(PyObject *type, union slot *at) {
    const struct text text = written_in(&at[2]);
    const char *next = (const char *)text.bytes, *end = next + text.length;
    const char *behind = memchr(next, '\n', (size_t)(end - next)), *kind = next + 1;
    const Py_ssize_t length = behind - kind;
    PyObject *list = *next == 'n' ? PyList_New(0) : NULL, *name = NULL;
    bool is_made = true, is_attachment = false;
    for (next = behind + 1; list && is_made && *next != '\n'; next = behind + 1) {
        behind = memchr(next, '\n', (size_t)(end - next));
        if (*next == 'p' || *next == 'n') {
            append(&list, parameter_of(next, behind));
        } else if (*next == 'e' || *next == 'o') {
            name = (*next == 'e' ? extended : latin_1)(next + 1, behind - next - 1);
            is_made = name != NULL;
        } else if (*next == 'a') {
            is_attachment = true;
        } else {
            Py_CLEAR(list);
        }
    }
    PyObject *value = list && is_made && next + 1 == end ? new_value(type) : NULL;
    if (value) {
        set_member(&value, TYPE, latin_1(kind, length));
        set_member(&value, FILENAME, name ? name : none());
        set_member(&value, ATTACHMENT, PyBool_FromLong(is_attachment));
        set_member(&value, PARAMETERS, tuple_of(list));
    } else {
        Py_XDECREF(list);
        Py_XDECREF(name);
    }
    return value;
}

static PyObject *dispositions;

PARSES(disposition, &field_parts_call, dispositions, disposition_value)

/*
 * A header section. Nothing is decided here, only which of two ways is taken that give the same: what isn't plain is
 * handed to the library by the package. tests/test_guards.py compares them over all pairs of bytes.
 */

static bool is_value_byte(char byte) {
    const unsigned char it = (unsigned char)byte;
    return it == '\t' || (it >= ' ' && it != 0x7F);
}

/* Whether a token may have the byte (RFC 9110, section 5.6.2). */
static bool is_name_byte(char byte) {
    const char lower = (char)(byte | ' ');
    return (lower >= 'a' && lower <= 'z') || (byte >= '0' && byte <= '9') || (byte && strchr("!#$%&'*+-.^_`|~", byte));
}

/* A section that is being made: on the stack, or if it doesn't fit, in memory. */
struct section_text {
    uint8_t *at, *memory;
    size_t length, room;
    uint8_t few[SHORT_TEXT];
};

static void begin_section(struct section_text *section) {
    section->at = section->few, section->memory = NULL, section->length = 0, section->room = SHORT_TEXT;
}

/* Makes room for so many bytes more. */
static bool reserve(struct section_text *section, size_t more) {
    if (section->length + more <= section->room) {
        return true;
    }
    const size_t room = 2 * (section->length + more);
    uint8_t *memory = PyMem_Realloc(section->memory, room);
    if (memory && !section->memory) {
        memcpy(memory, section->few, section->length);
    }
    if (memory) {
        section->at = section->memory = memory, section->room = room;
    }
    return memory != NULL;
}

/* Adds a name or a value, and what ends it, to a section. False if it can't be one, or if there is no memory. */
static bool add_part(PyObject *part, bool (*is_allowed)(char), const char *end, struct section_text *section) {
    struct lines line;
    PyObject *bytes = NULL;
    const char *at = (const char *)line.line;
    clear_lines(&line);
    if (read_short(part, &line)) {
        at = (const char *)line.text.bytes;
    } else if (!(bytes = bytes_of(part)) || PyBytes_AsStringAndSize(bytes, (char **)&at, &line.text.length)) {
        Py_XDECREF(bytes);
        return false;
    }
    const size_t length = (size_t)line.text.length, after = strlen(end);
    bool is_added = reserve(section, length + after);
    for (size_t place = 0; is_added && place < length; place++) {
        is_added = is_allowed(at[place]);
    }
    if (is_added) {
        memcpy(section->at + section->length, at, length);
        memcpy(section->at + section->length + length, end, after);
        section->length += length + after;
    }
    Py_XDECREF(bytes);
    return is_added;
}

static bool add_field(PyObject *name, PyObject *value, struct section_text *section) {
    const size_t before = section->length;
    return name && value && add_part(name, is_name_byte, ": ", section) && section->length > before + 2 &&
           add_part(value, is_value_byte, "\n", section);
}

/*
 * The section of a dictionary of names to single values, or of a list or a tuple of pairs. None of anything else, and
 * if a name or a value can be none.
 */
static PyObject *section(PyObject *module, PyObject *arguments) {
    PyObject *fields, *name, *value, *found = NULL;
    struct section_text made;
    Py_ssize_t place = 0;
    bool is_made = true;
    (void)module;
    begin_section(&made);
    if (!PyArg_ParseTuple(arguments, "O", &fields)) {
        return NULL;
    }
    if (PyDict_CheckExact(fields)) {
        while (is_made && PyDict_Next(fields, &place, &name, &value)) {
            is_made = add_field(name, value, &made);
        }
    } else if (PyList_CheckExact(fields) || PyTuple_CheckExact(fields)) {
        const bool is_list = PyList_CheckExact(fields);
        const Py_ssize_t count = is_list ? PyList_Size(fields) : PyTuple_Size(fields);
        for (; is_made && place < count; place++) {
            PyObject *pair = is_list ? PyList_GetItem(fields, place) : PyTuple_GetItem(fields, place);
            is_made = pair && PyTuple_CheckExact(pair) && PyTuple_Size(pair) == 2 &&
                      add_field(PyTuple_GetItem(pair, 0), PyTuple_GetItem(pair, 1), &made);
        }
    } else {
        is_made = false;
    }
    PyErr_Clear();
    found = is_made ? PyBytes_FromStringAndSize((const char *)made.at, (Py_ssize_t)made.length) : none();
    PyMem_Free(made.memory);
    return found;
}

/* A name of a field in lower case. */
static PyObject *lower_name(const char *at, Py_ssize_t length) {
    char few[SHORT_LINE];
    bool is_ascii = length <= SHORT_LINE;
    for (Py_ssize_t place = 0; is_ascii && place < length; place++) {
        is_ascii = (unsigned char)at[place] < 128;
        few[place] = at[place] >= 'A' && at[place] <= 'Z' ? (char)(at[place] + 32) : at[place];
    }
    if (is_ascii) {
        return latin_1(few, length);
    }
    PyObject *name = latin_1(at, length), *lower = name ? PyObject_CallMethod(name, "lower", NULL) : NULL;
    Py_XDECREF(name);
    return lower;
}

static bool is_blank(char byte) { return byte == ' ' || byte == '\t'; }

/* The name, in lower case, and the value of a line of a section. */
static PyObject *pair_at(const char *next, const char *end) {
    const char *colon = memchr(next, ':', (size_t)(end - next)), *from = colon ? colon + 1 : end, *to = end;
    while (from < to && is_blank(*from)) {
        from++;
    }
    while (from < to && is_blank(to[-1])) {
        to--;
    }
    return pair_of(lower_name(next, (colon ? colon : end) - next), latin_1(from, to - from));
}

/* The pairs of the lines of a section up to an empty one. */
static PyObject *pairs(PyObject *module, PyObject *arguments) {
    char *next;
    Py_ssize_t length;
    PyObject *section = PyTuple_GetItem(arguments, 0), *list = NULL;
    (void)module;
    if (!section || PyBytes_AsStringAndSize(section, &next, &length) || !(list = PyList_New(0))) {
        return NULL;
    }
    for (const char *last = next + length; list && next < last;) {
        char *end = memchr(next, '\n', (size_t)(last - next)), *behind = end ? end + 1 : next + (last - next);
        end = end ? end : behind;
        end -= end > next && end[-1] == '\r';
        if (end == next) {
            break;
        }
        append(&list, pair_at(next, end));
        next = behind;
    }
    return list;
}

/* The pair of a name and a value. None if they are no field. */
static PyObject *pair(PyObject *module, PyObject *arguments) {
    struct section_text made;
    (void)module;
    begin_section(&made);
    const bool is_made = add_field(PyTuple_GetItem(arguments, 0), PyTuple_GetItem(arguments, 1), &made);
    PyErr_Clear();
    PyObject *found = is_made ? pair_at((const char *)made.at, (const char *)made.at + made.length - 1) : none();
    PyMem_Free(made.memory);
    return found;
}

/*
 * The value of the first of some pairs, in a tuple, that the library finds by its name: None if it finds none, and
 * NotImplemented if a name isn't plain.
 */
static PyObject *first_named(PyObject *module, PyObject *const *arguments, Py_ssize_t count) {
    PyObject *pairs = count == 2 ? arguments[0] : NULL, *found = Py_NotImplemented;
    struct section_text names, wanted;
    (void)module;
    begin_section(&names), begin_section(&wanted);
    bool is_made = pairs && PyTuple_CheckExact(pairs) && add_part(arguments[1], is_value_byte, "", &wanted);
    for (Py_ssize_t place = 0, all = is_made ? PyTuple_Size(pairs) : 0; is_made && place < all; place++) {
        PyObject *pair = PyTuple_GetItem(pairs, place);
        is_made = PyTuple_CheckExact(pair) && PyTuple_Size(pair) == 2 &&
                  add_part(PyTuple_GetItem(pair, 0), is_value_byte, "\n", &names);
    }
    size_t place = 0;
    uint8_t status = TYPED_HEADERS_REFUSED;
    if (is_made) {
        status = typed_headers_parameter_place(names.at, names.length, wanted.at, wanted.length, &place);
    }
    PyErr_Clear();
    if (status == TYPED_HEADERS_DONE) {
        found = PyTuple_GetItem(PyTuple_GetItem(pairs, (Py_ssize_t)place), 1);
    } else if (status == TYPED_HEADERS_ABSENT) {
        found = Py_None;
    }
    PyMem_Free(names.memory);
    PyMem_Free(wanted.memory);
    Py_INCREF(found);
    return found;
}

#define METHOD(name) {#name, call_##name, METH_VARARGS, NULL}
#define OWN(name) {#name, name, METH_VARARGS, NULL}
#define PARSE(name)                                                                                                    \
    {"parse_" #name, (PyCFunction)(void (*)(void))parse_##name, METH_FASTCALL,                                         \
     "parse_" #name "($module, type, line, /, *more)\n--\n\nThe value of field lines."}
static PyObject *bound(PyObject *module, PyObject *arguments);

static PyMethodDef methods[] = {
    CALLS, OWN(bound), OWN(content_range_as), OWN(elements_as), OWN(groups), OWN(pair), OWN(pairs), PARSE(age),
    PARSE(cache_control), PARSE(content_length), PARSE(cookie), PARSE(credentials), PARSE(disposition), PARSE(etag),
    PARSE(etags), PARSE(media_type), OWN(ranges_as), OWN(section), OWN(use_keys), OWN(version),
    {"first_named", (PyCFunction)(void (*)(void))first_named, METH_FASTCALL, NULL}, {NULL, NULL, 0, NULL},
};

/* A function of a name that is bound to a type: Python calls it faster than a class method. */
static PyObject *bound(PyObject *module, PyObject *arguments) {
    const char *name;
    PyObject *type;
    (void)module;
    if (!PyArg_ParseTuple(arguments, "sO!", &name, &PyType_Type, &type)) {
        return NULL;
    }
    PyMethodDef *method = methods;
    while (method->ml_name && strcmp(method->ml_name, name) != 0) {
        method++;
    }
    return method->ml_name ? PyCFunction_NewEx(method, type, NULL)
                           : PyErr_Format(PyExc_ValueError, "no function %s", name);
}

static struct PyModuleDef definition = {
    PyModuleDef_HEAD_INIT, "typed_headers._native", "The calls of the library.", -1, methods, NULL, NULL, NULL, NULL,
};

PyMODINIT_FUNC PyInit__native(void) {
    int_new = PyObject_GetAttrString((PyObject *)&PyLong_Type, "__new__");
    no_lines = PyTuple_New(0);
    dispositions = PyLong_FromLong(TYPED_HEADERS_DISPOSITIONS);
    return int_new && no_lines && dispositions && make_member_names() ? PyModule_Create(&definition) : NULL;
}
