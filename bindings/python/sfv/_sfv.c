/* The calls of the module sfv as an extension, under the limited API of Python 3.9: one binary for all later versions.
 *
 * `parse` makes Python values of rows. `serialize` makes rows of exact types. Python code (`rows_of`) makes the rows of every
 * other value, and raises the error of a value that no field can hold. All memory comes from Python's allocators and the
 * library. All state is that of a module, so each interpreter has its own. */
#define Py_LIMITED_API 0x03090000
#define PY_SSIZE_T_CLEAN
#include <Python.h>
#include <sfv.h>

/* What the module sfv._values and the type str define. */
enum { TOKEN, DISPLAY_STRING, DATE, DECIMAL_OF, DATE_OF, THOUSANDTHS_OF, SECONDS_OF, ROWS_OF, CHECKED_VERSION, FAIL, VALUES };
static const char *const value_names[VALUES] = {"Token", "DisplayString", "Date", "decimal_of", "date_of", "thousandths_of",
    "seconds_of", "rows_of", "checked_version", "fail"};

typedef struct names {
    PyObject *of_values[VALUES];
    PyObject *new_text; /* str.__new__ */
    PyObject *decimal, *datetime; /* the types */
} names;

static names *names_of(PyObject *module) { return (names *)PyModule_GetState(module); }

/* Calls with one argument, which it releases. NULL stays NULL. */
static PyObject *call(PyObject *function, PyObject *argument) {
    PyObject *result;
    if (argument == NULL) return NULL;
    result = PyObject_CallFunctionObjArgs(function, argument, NULL);
    Py_DECREF(argument);
    return result;
}

static PyObject *text_of(sfv_bytes bytes) { return PyUnicode_FromStringAndSize(bytes.data, (Py_ssize_t)bytes.length); }

/* Returns a token or display string without the check of its text. */
static PyObject *typed_text(const names *n, PyObject *type, sfv_bytes bytes) {
    PyObject *text = text_of(bytes), *result;
    if (text == NULL) return NULL;
    result = PyObject_CallFunctionObjArgs(n->new_text, type, text, NULL);
    Py_DECREF(text);
    return result;
}

static PyObject *value_of(const names *n, const sfv_row *row) {
    switch (row->kind) {
    case SFV_INTEGER: return PyLong_FromLongLong(row->number);
    case SFV_DECIMAL: return call(n->of_values[DECIMAL_OF], PyLong_FromLongLong(row->number));
    case SFV_STRING: return text_of(row->bytes);
    case SFV_TOKEN: return typed_text(n, n->of_values[TOKEN], row->bytes);
    case SFV_BYTE_SEQUENCE: return PyBytes_FromStringAndSize(row->bytes.data, (Py_ssize_t)row->bytes.length);
    case SFV_BOOLEAN: return PyBool_FromLong(row->number != 0);
    case SFV_DATE: return call(n->of_values[DATE_OF], PyLong_FromLongLong(row->number));
    case SFV_DISPLAY_STRING: return typed_text(n, n->of_values[DISPLAY_STRING], row->bytes);
    default: Py_RETURN_NONE;
    }
}

/* Sets the value of a key, and releases the value. NULL as the value is its error. Returns -1 for an error. */
static int set_value(PyObject *dictionary, sfv_bytes key, PyObject *value) {
    PyObject *name = value ? text_of(key) : NULL;
    int result = name ? PyDict_SetItem(dictionary, name, value) : -1;
    Py_XDECREF(name);
    Py_XDECREF(value);
    return result;
}

/* Appends the value, and releases it. NULL as the value is its error. Returns -1 for an error. */
static int append(PyObject *list, PyObject *value) {
    int result = value ? PyList_Append(list, value) : -1;
    Py_XDECREF(value);
    return result;
}

/* Returns the pair of this value, which it releases, and the parameters at `*at`. `*at` is after them then. */
static PyObject *with_parameters(const names *n, PyObject *value, const sfv_row **at) {
    PyObject *pair = NULL, *parameters = value ? PyDict_New() : NULL;
    int status = parameters ? 0 : -1;
    for (; status == 0 && (*at)->tag == SFV_PARAMETER; (*at)++) status = set_value(parameters, (*at)->key, value_of(n, *at));
    if (status == 0) pair = PyTuple_Pack(2, value, parameters);
    (*at)++;
    Py_XDECREF(value);
    Py_XDECREF(parameters);
    return pair;
}

static PyObject *item_of(const names *n, const sfv_row **at) {
    PyObject *value = value_of(n, (*at)++);
    return with_parameters(n, value, at);
}

static PyObject *member_of(const names *n, const sfv_row **at) {
    PyObject *items;
    if ((*at)++->tag == SFV_BEGIN_ITEM) return item_of(n, at);
    items = PyList_New(0);
    while (items && (*at)->tag == SFV_BEGIN_ITEM) {
        (*at)++;
        if (append(items, item_of(n, at)) < 0) Py_CLEAR(items);
    }
    (*at)++; /* SFV_END_INNER */
    return with_parameters(n, items, at);
}

static PyObject *field_of(const names *n, sfv_type type, const sfv_row *rows, size_t length) {
    const sfv_row *at = rows, *end = rows + length;
    PyObject *field;
    if (type == SFV_ITEM) return item_of(n, &at);
    field = type == SFV_LIST ? PyList_New(0) : PyDict_New();
    while (field && at < end) {
        const sfv_row *entry = at++;
        PyObject *member = member_of(n, &at);
        if ((type == SFV_LIST ? append(field, member) : set_value(field, entry->key, member)) < 0) Py_CLEAR(field);
    }
    return field;
}

/* Raises the error of an answer. */
static PyObject *fail(const names *n, sfv_answer a) {
    char message[SFV_TEXT_SIZE];
    if (a.status == SFV_OUT_OF_MEMORY) return PyErr_NoMemory();
    return PyObject_CallFunction(n->of_values[FAIL], "IIns", (unsigned)a.status, (unsigned)a.kind, (Py_ssize_t)a.index,
                                 sfv_error_text(a, message));
}

/* Returns a version, or 0 with an exception. */
static sfv_version version_of(const names *n, PyObject *version) {
    PyObject *checked;
    long number = PyLong_CheckExact(version) ? PyLong_AsLong(version) : -1;
    if (number == SFV_RFC9651 || number == SFV_RFC8941) return (sfv_version)number;
    PyErr_Clear();
    checked = PyObject_CallFunctionObjArgs(n->of_values[CHECKED_VERSION], version, NULL);
    number = checked ? PyLong_AsLong(checked) : 0;
    Py_XDECREF(checked);
    return number == SFV_RFC9651 || number == SFV_RFC8941 ? (sfv_version)number : (sfv_version)0;
}

/* Returns the bytes of a field. */
static PyObject *bytes_of(PyObject *field) {
    PyObject *type, *name;
    if (PyBytes_Check(field)) {
        Py_INCREF(field);
        return field;
    }
    if (PyByteArray_Check(field) || PyMemoryView_Check(field)) return PyBytes_FromObject(field);
    type = PyObject_Type(field);
    name = type ? PyObject_GetAttrString(type, "__name__") : NULL;
    if (name) PyErr_Format(PyExc_TypeError, "a field is bytes, not %U", name);
    Py_XDECREF(type);
    Py_XDECREF(name);
    return NULL;
}

/* The rows and the room of a call of sfv_parse. Small ones need no memory. */
enum { FEW_ROWS = 128, SMALL_ROOM = 512, LONG_FIELD = 4096 };
typedef struct buffers {
    sfv_row few[FEW_ROWS], *rows;
    char small[SMALL_ROOM], *room;
    size_t rows_length, room_length;
} buffers;

static void start(buffers *b) {
    b->rows = b->few;
    b->rows_length = FEW_ROWS;
    b->room = b->small;
    b->room_length = SMALL_ROOM;
}

static void release(buffers *b) {
    if (b->rows != b->few) PyMem_Free(b->rows);
    if (b->room != b->small) PyMem_Free(b->room);
    start(b);
}

/* Replaces the buffers by larger ones. Returns -1 with an exception if memory runs out. */
static int enlarge(buffers *b, sfv_answer a) {
    release(b);
    if (a.rows > FEW_ROWS) {
        sfv_row *rows = a.rows <= SFV_MAX_ROWS ? (sfv_row *)PyMem_Malloc(a.rows * sizeof *rows) : NULL;
        if (rows == NULL) return PyErr_NoMemory(), -1;
        b->rows = rows;
        b->rows_length = a.rows;
    }
    if (a.length > SMALL_ROOM) {
        char *room = (char *)PyMem_Malloc(a.length);
        if (room == NULL) return PyErr_NoMemory(), -1;
        b->room = room;
        b->room_length = a.length;
    }
    return 0;
}

/* Parses without the interpreter's lock if the field is long. */
static sfv_answer parse_rows(sfv_type type, sfv_version version, const char *field, size_t length, buffers *b) {
    sfv_answer a;
    if (length <= LONG_FIELD) return sfv_parse(type, version, field, length, b->rows, b->rows_length, b->room, b->room_length);
    Py_BEGIN_ALLOW_THREADS
    a = sfv_parse(type, version, field, length, b->rows, b->rows_length, b->room, b->room_length);
    Py_END_ALLOW_THREADS
    return a;
}

static PyObject *parse_bytes(const names *n, sfv_type type, sfv_version version, const char *field, size_t length) {
    buffers b;
    PyObject *result = NULL;
    sfv_answer a;
    start(&b);
    a = parse_rows(type, version, field, length, &b);
    if (a.status == SFV_TOO_SMALL) {
        if (enlarge(&b, a) < 0) goto end;
        a = parse_rows(type, version, field, length, &b);
    }
    result = a.status == SFV_OK || a.status == SFV_NOTHING ? field_of(n, type, b.rows, a.rows) : fail(n, a);
end:
    release(&b);
    return result;
}

static PyObject *parse(PyObject *module, PyObject *arguments) {
    const names *n = names_of(module);
    PyObject *field, *version, *bytes, *result = NULL;
    int type;
    sfv_version checked;
    if (!PyArg_ParseTuple(arguments, "iOO:parse", &type, &field, &version)) return NULL;
    bytes = bytes_of(field);
    if (bytes == NULL) return NULL;
    checked = version_of(n, version);
    if (checked != 0)
        result = parse_bytes(n, (sfv_type)type, checked, PyBytes_AsString(bytes), (size_t)PyBytes_Size(bytes));
    Py_DECREF(bytes);
    return result;
}

/* The rows of a value, and a list of the bytes that they point to. */
enum { MANY_ROWS = 256 };
typedef struct writer {
    const names *n;
    sfv_row few[64], *rows;
    size_t length, capacity;
    PyObject *kept;
} writer;

/* What a step returns: the value is written, or only Python code can write or reject it, or an exception is set. */
typedef enum step { WRITTEN, OTHER, RAISED } step;

/* An exception other than MemoryError leaves the value to Python code, which raises the error of the first wrong value. */
static step other(void) {
    if (PyErr_Occurred() && PyErr_ExceptionMatches(PyExc_MemoryError)) return RAISED;
    PyErr_Clear();
    return OTHER;
}

static step add(writer *w, sfv_row row) {
    if (w->length == w->capacity) {
        size_t capacity = 2 * w->capacity;
        sfv_row *rows = capacity <= SFV_MAX_ROWS ? (sfv_row *)PyMem_Malloc(capacity * sizeof *rows) : NULL;
        if (rows == NULL) return PyErr_NoMemory(), RAISED;
        memcpy(rows, w->rows, w->length * sizeof *rows);
        if (w->rows != w->few) PyMem_Free(w->rows);
        w->rows = rows;
        w->capacity = capacity;
    }
    w->rows[w->length++] = row;
    return WRITTEN;
}

/* Sets `to` to bytes that the writer keeps. Releases the bytes. NULL is an exception. */
static step keep(writer *w, PyObject *bytes, sfv_bytes *to) {
    step result = bytes && PyList_Append(w->kept, bytes) == 0 ? WRITTEN : other();
    if (result == WRITTEN) {
        to->data = PyBytes_AsString(bytes);
        to->length = (size_t)PyBytes_Size(bytes);
    }
    Py_XDECREF(bytes);
    return result;
}

static step keep_text(writer *w, PyObject *text, uint32_t kind, sfv_row *row) {
    row->kind = kind;
    return keep(w, PyUnicode_AsUTF8String(text), &row->bytes);
}

static step set_number(PyObject *number, uint32_t kind, sfv_row *row) {
    if (number == NULL) return other();
    row->kind = kind;
    row->number = PyLong_AsLongLong(number);
    Py_DECREF(number);
    return row->number == -1 && PyErr_Occurred() ? other() : WRITTEN;
}

/* Sets the value of a row. The library checks its text or its range. */
static step encode(writer *w, PyObject *value, sfv_row *row) {
    const names *n = w->n;
    PyObject *type = (PyObject *)Py_TYPE(value);
    if (PyUnicode_CheckExact(value)) return keep_text(w, value, SFV_STRING, row);
    if (type == n->of_values[TOKEN]) return keep_text(w, value, SFV_TOKEN, row);
    if (PyBool_Check(value)) {
        row->kind = SFV_BOOLEAN;
        row->number = value == Py_True;
        return WRITTEN;
    }
    Py_INCREF(value);
    if (PyLong_CheckExact(value)) return set_number(value, SFV_INTEGER, row);
    if (PyBytes_CheckExact(value)) {
        row->kind = SFV_BYTE_SEQUENCE;
        return keep(w, value, &row->bytes);
    }
    if (type == n->decimal) return set_number(call(n->of_values[THOUSANDTHS_OF], value), SFV_DECIMAL, row);
    if (type == n->datetime || type == n->of_values[DATE])
        return set_number(call(n->of_values[SECONDS_OF], value), SFV_DATE, row);
    Py_DECREF(value);
    return type == n->of_values[DISPLAY_STRING] ? keep_text(w, value, SFV_DISPLAY_STRING, row) : OTHER;
}

/* Adds a row with this key, and this value unless it is NULL. */
static step add_keyed(writer *w, sfv_tag tag, PyObject *key, PyObject *value) {
    sfv_row row = sfv_tag_row(tag);
    step result = PyUnicode_Check(key) ? keep(w, PyUnicode_AsUTF8String(key), &row.key) : OTHER;
    if (result == WRITTEN && value) result = encode(w, value, &row);
    return result == WRITTEN ? add(w, row) : result;
}

/* What `each` does with a key and a value of a dictionary. */
typedef step visit(writer *w, PyObject *key, PyObject *value);

/* Visits the pairs of a dictionary. A visit can run Python code, so each pair is held meanwhile. */
static step each(writer *w, PyObject *dictionary, visit *visit) {
    Py_ssize_t at = 0;
    PyObject *key, *value;
    step result = WRITTEN;
    while (result == WRITTEN && PyDict_Next(dictionary, &at, &key, &value)) {
        Py_INCREF(key);
        Py_INCREF(value);
        result = visit(w, key, value);
        Py_DECREF(key);
        Py_DECREF(value);
    }
    return result;
}

static step add_parameter(writer *w, PyObject *key, PyObject *value) { return add_keyed(w, SFV_PARAMETER, key, value); }

/* Adds the parameters of a member, none for NULL. */
static step add_parameters(writer *w, PyObject *parameters) {
    step result = WRITTEN;
    if (parameters && !PyDict_CheckExact(parameters)) return OTHER;
    if (parameters) result = each(w, parameters, add_parameter);
    return result == WRITTEN ? add(w, sfv_tag_row(SFV_END_PARAMETERS)) : result;
}

/* Returns the value of a member. `*parameters` is NULL if it is alone. Only a pair has parameters. */
static PyObject *split(PyObject *member, PyObject **parameters) {
    int is_pair = PyTuple_Check(member) && PyTuple_Size(member) == 2;
    *parameters = is_pair ? PyTuple_GetItem(member, 1) : NULL;
    return is_pair ? PyTuple_GetItem(member, 0) : member;
}

static step add_item(writer *w, PyObject *item) {
    PyObject *parameters, *value = split(item, &parameters);
    sfv_row row = sfv_tag_row(SFV_BARE_ITEM);
    step result = encode(w, value, &row);
    if (result == WRITTEN) result = add(w, row);
    return result == WRITTEN ? add_parameters(w, parameters) : result;
}

/* Adds each element of a list. A step can run Python code, so each element is held meanwhile. */
static step add_all(writer *w, PyObject *list, sfv_tag tag, step (*add_element)(writer *, PyObject *)) {
    Py_ssize_t i;
    step result = WRITTEN;
    for (i = 0; result == WRITTEN && i < PyList_Size(list); i++) {
        PyObject *element = PyList_GetItem(list, i);
        if (element == NULL) return other();
        Py_INCREF(element);
        result = add(w, sfv_tag_row(tag));
        if (result == WRITTEN) result = add_element(w, element);
        Py_DECREF(element);
    }
    return result;
}

static step add_member(writer *w, PyObject *member) {
    PyObject *parameters, *value = split(member, &parameters);
    int is_inner = PyList_CheckExact(value);
    step result = add(w, sfv_tag_row(is_inner ? SFV_BEGIN_INNER : SFV_BEGIN_ITEM));
    if (result != WRITTEN || !is_inner) return result == WRITTEN ? add_item(w, member) : result;
    result = add_all(w, value, SFV_BEGIN_ITEM, add_item);
    if (result == WRITTEN) result = add(w, sfv_tag_row(SFV_END_INNER));
    return result == WRITTEN ? add_parameters(w, parameters) : result;
}

static step add_entry(writer *w, PyObject *key, PyObject *member) {
    step result = add_keyed(w, SFV_KEYED_ENTRY, key, NULL);
    return result == WRITTEN ? add_member(w, member) : result;
}

static step add_field(writer *w, PyObject *value, sfv_type *type) {
    *type = PyDict_CheckExact(value) ? SFV_DICTIONARY : PyList_CheckExact(value) ? SFV_LIST : SFV_ITEM;
    if (*type == SFV_DICTIONARY) return each(w, value, add_entry);
    return *type == SFV_LIST ? add_all(w, value, SFV_ENTRY, add_member) : add_item(w, value);
}

/* Adds the row of a tuple: its tag, key, kind, bytes and number. */
static step add_tuple(writer *w, PyObject *tuple) {
    sfv_row row = sfv_tag_row(SFV_ENTRY);
    unsigned tag, kind;
    long long number;
    Py_ssize_t key_length, bytes_length;
    if (!PyArg_ParseTuple(tuple, "Iy#Iy#L", &tag, &row.key.data, &key_length, &kind, &row.bytes.data, &bytes_length, &number))
        return RAISED;
    row.tag = tag;
    row.kind = kind;
    row.key.length = (size_t)key_length;
    row.bytes.length = (size_t)bytes_length;
    row.number = number;
    return add(w, row);
}

/* Adds the rows that Python code makes of a value. The writer keeps them. */
static step add_rows(writer *w, PyObject *value, sfv_type *type) {
    PyObject *made = PyObject_CallFunctionObjArgs(w->n->of_values[ROWS_OF], value, NULL), *rows = NULL;
    step result = RAISED;
    Py_ssize_t i;
    int number;
    if (made && PyArg_ParseTuple(made, "iO!", &number, &PyList_Type, &rows) && PyList_Append(w->kept, rows) == 0) {
        *type = (sfv_type)number;
        result = WRITTEN;
    }
    w->length = 0;
    for (i = 0; result == WRITTEN && i < PyList_Size(rows); i++) {
        PyObject *tuple = PyList_GetItem(rows, i);
        result = tuple ? add_tuple(w, tuple) : RAISED;
    }
    Py_XDECREF(made);
    return result;
}

/* Writes without the interpreter's lock if there are many rows. */
static sfv_answer write_rows(const writer *w, sfv_type type, sfv_version version, char *out, size_t length) {
    sfv_answer a;
    if (w->length <= MANY_ROWS) return sfv_write(type, version, w->rows, w->length, out, length);
    Py_BEGIN_ALLOW_THREADS
    a = sfv_write(type, version, w->rows, w->length, out, length);
    Py_END_ALLOW_THREADS
    return a;
}

/* Sets `*text` to the text of the rows. If no field has these rows, the result is OTHER. */
static step write_text(const writer *w, sfv_type type, sfv_version version, sfv_answer *a, PyObject **text) {
    char small[SMALL_ROOM], *out = small;
    *a = write_rows(w, type, version, out, sizeof small);
    if (a->status == SFV_TOO_SMALL) {
        size_t length = a->length;
        out = (char *)PyMem_Malloc(length);
        if (out == NULL) return PyErr_NoMemory(), RAISED;
        *a = write_rows(w, type, version, out, length);
    }
    if (a->status == SFV_OK || a->status == SFV_NOTHING) *text = PyUnicode_FromStringAndSize(out, (Py_ssize_t)a->length);
    if (out != small) PyMem_Free(out);
    if (*text) return WRITTEN;
    if (a->status == SFV_WRONG_ROW || a->status == SFV_BAD_ARGUMENT) return OTHER;
    if (!PyErr_Occurred()) fail(w->n, *a);
    return RAISED;
}

static PyObject *serialize(PyObject *module, PyObject *arguments) {
    writer w;
    PyObject *value, *version, *text = NULL;
    sfv_answer a = sfv_make_answer(SFV_OK, 0, 0);
    sfv_version checked;
    sfv_type type;
    step result;
    w.n = names_of(module);
    w.rows = w.few;
    w.length = 0;
    w.capacity = sizeof w.few / sizeof *w.few;
    if (!PyArg_ParseTuple(arguments, "OO:serialize", &value, &version) || !(w.kept = PyList_New(0))) return NULL;
    checked = version_of(w.n, version);
    result = checked == 0 ? RAISED : add_field(&w, value, &type);
    if (result == WRITTEN) result = write_text(&w, type, checked, &a, &text);
    if (result == OTHER) {
        result = add_rows(&w, value, &type);
        if (result == WRITTEN) result = write_text(&w, type, checked, &a, &text);
        if (result == OTHER) fail(w.n, a);
    }
    if (w.rows != w.few) PyMem_Free(w.rows);
    Py_DECREF(w.kept);
    return text;
}

static PyMethodDef methods[] = {
    {"parse", parse, METH_VARARGS, "Returns the item, the list or the dictionary of a field."},
    {"serialize", serialize, METH_VARARGS, "Returns the canonical text of a value."},
    {NULL, NULL, 0, NULL},
};

/* Returns an attribute of a module. */
static PyObject *from_module(const char *module, const char *name) {
    PyObject *imported = PyImport_ImportModule(module), *value = imported ? PyObject_GetAttrString(imported, name) : NULL;
    Py_XDECREF(imported);
    return value;
}

static int fill(PyObject *module) {
    names *n = names_of(module);
    int i;
    if (sfv_processor_error()) return PyErr_SetString(PyExc_ImportError, sfv_processor_error()), -1;
    if (sfv_abi() != SFV_ABI) return PyErr_SetString(PyExc_ImportError, "libsfv has another binary interface"), -1;
    for (i = 0; i < VALUES; i++)
        if (!(n->of_values[i] = from_module("sfv._values", value_names[i]))) return -1;
    n->new_text = PyObject_GetAttrString((PyObject *)&PyUnicode_Type, "__new__");
    n->decimal = from_module("decimal", "Decimal");
    n->datetime = from_module("datetime", "datetime");
    return n->new_text && n->decimal && n->datetime ? 0 : -1;
}

static int traverse(PyObject *module, visitproc visit, void *arg) {
    names *n = names_of(module);
    int i;
    for (i = 0; i < VALUES; i++) Py_VISIT(n->of_values[i]);
    Py_VISIT(n->new_text);
    Py_VISIT(n->decimal);
    Py_VISIT(n->datetime);
    return 0;
}

static int clear(PyObject *module) {
    names *n = names_of(module);
    int i;
    for (i = 0; i < VALUES; i++) Py_CLEAR(n->of_values[i]);
    Py_CLEAR(n->new_text);
    Py_CLEAR(n->decimal);
    Py_CLEAR(n->datetime);
    return 0;
}

static void release_module(void *module) { clear((PyObject *)module); }

/* The second slot is for Python 3.12 and later, which has no name for it here: an interpreter can have its own lock. */
enum { MULTIPLE_INTERPRETERS = 3 };
static PyModuleDef_Slot slots[] = {{Py_mod_exec, (void *)fill}, {0, NULL}, {0, NULL}};
static struct PyModuleDef definition = {
    PyModuleDef_HEAD_INIT, "sfv._sfv", "The calls of the library libsfv.", sizeof(names), methods, slots, traverse, clear,
    release_module,
};

PyMODINIT_FUNC PyInit__sfv(void) {
    int minor = atoi(Py_GetVersion() + 2);
    if (minor >= 12) {
        slots[1].slot = MULTIPLE_INTERPRETERS;
        slots[1].value = (void *)2; /* Py_MOD_PER_INTERPRETER_GIL_SUPPORTED */
    }
    return PyModuleDef_Init(&definition);
}
