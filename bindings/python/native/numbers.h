/*
 * What the module reads and makes of Python's objects: lists of numbers, elements of slices, and the arguments of a call.
 *
 * Usual objects are read here: integers, tuples and lists of Python's own. Of any others a function of the package makes such ones,
 * or raises the error that says what is wrong with them.
 */
#ifndef NATIVE_NUMBERS_H
#define NATIVE_NUMBERS_H

#define CLEANED(by) __attribute__((cleanup(by)))

static void drop_object(PyObject **object) { Py_CLEAR(*object); }

/* A reference that is dropped where its name ends. */
#define OWNED CLEANED(drop_object) PyObject *

/* So many numbers have room in a list; more are in memory of its own. */
#define ROOM 40

typedef struct {
    size_t count;
    size_t *items;
    size_t room[ROOM];
} List;

static void free_list(List *list) {
    if (list->items != list->room) PyMem_Free(list->items);
}

/* A list without numbers. */
#define LIST(name) \
    CLEANED(free_list) List name; \
    name.items = name.room; \
    name.count = 0

/* The numbers of a list as strides. */
#define STEPS(list) ((ptrdiff_t *)(list)->items)

/* Makes room for so many numbers, which aren't written. Whether there is memory. */
static int make_room(List *list, size_t count) {
    list->count = count;
    if (count <= ROOM) return 1;
    list->items = count > PY_SSIZE_T_MAX / sizeof(size_t) ? NULL : PyMem_Malloc(count * sizeof(size_t));
    if (list->items != NULL) return 1;
    list->items = list->room;
    PyErr_NoMemory();
    return 0;
}

/* ---- The package's own functions ------------------------------------------------------------------------------------- */

static PyObject *call_of_package(const char *module, const char *function, PyObject *arguments) {
    OWNED part = PyImport_ImportModule(module);
    OWNED call = part == NULL ? NULL : PyObject_GetAttrString(part, function);
    return call == NULL ? NULL : PyObject_CallObject(call, arguments);
}

/* Drops the frames of the package from an error that it raised itself. */
static void show_no_frames(void) {
    PyObject *kind, *error, *trace;
    PyErr_Fetch(&kind, &error, &trace);
    PyErr_NormalizeException(&kind, &error, &trace);
    if (trace != NULL && error != NULL && PyException_SetTraceback(error, trace) == 0) {
        OWNED arguments = PyTuple_Pack(1, error);
        OWNED is_own = arguments == NULL ? NULL : call_of_package("ndarray_layout._errors", "is_own", arguments);
        if (is_own == Py_True) {
            PyException_SetTraceback(error, Py_None);
            Py_CLEAR(trace);
        }
        PyErr_Clear();
    }
    PyErr_Restore(kind, error, trace);
}

/* What a function of a module of the package returns for arguments, which are dropped: of all that isn't usual. */
static PyObject *ask(const char *module, const char *function, PyObject *arguments) {
    OWNED called = arguments;
    PyObject *const found = called == NULL ? NULL : call_of_package(module, function, called);
    if (found == NULL && called != NULL) show_no_frames();
    return found;
}

/* Raises an error that a function of the package makes. */
static PyObject *raise_by(const char *module, const char *function, PyObject *arguments) {
    OWNED error = ask(module, function, arguments);
    if (error != NULL) PyErr_SetObject((PyObject *)Py_TYPE(error), error);
    return NULL;
}

#define NUMBERS "ndarray_layout._numbers"
#define KEYS "ndarray_layout._keys"
#define REASONS "ndarray_layout._reasons"

/* ---- Numbers --------------------------------------------------------------------------------------------------------- */

/* Raises the error of a number of Python's own class that has no 64 bits. */
static int not_64_bits(const char *name, PyObject *number, int is_signed, Py_ssize_t axis) {
    OWNED of = axis < 0 ? Py_NewRef(Py_None) : PyLong_FromSsize_t(axis);
    if (of != NULL) raise_by(NUMBERS, "not_64_bits", Py_BuildValue("sONO", name, number, PyBool_FromLong(!is_signed), of));
    return 0;
}

/* Reads a number of Python's own class. Whether it has 64 bits; else there is an error. */
static int read_plain(PyObject *number, const char *name, int is_signed, Py_ssize_t axis, size_t *found) {
    *found = is_signed ? (size_t)PyLong_AsSsize_t(number) : PyLong_AsSize_t(number);
    if (*found != (size_t)-1 || !PyErr_Occurred()) return 1;
    if (!PyErr_ExceptionMatches(PyExc_OverflowError)) return 0;
    PyErr_Clear();
    return not_64_bits(name, number, is_signed, axis);
}

/* Reads any number. Whether it is one; else there is an error. */
static int read_number(PyObject *value, const char *name, int is_signed, size_t *found) {
    OWNED number = PyLong_CheckExact(value) ? Py_NewRef(value) : ask(NUMBERS, "integer", Py_BuildValue("Os", value, name));
    return number != NULL && read_plain(number, name, is_signed, -1, found);
}

/* Reads a tuple or a list, if each of its items is an integer of Python's own: 1. If not 0, after an error -1. */
static int read_usual(PyObject *value, const char *name, int is_signed, List *list) {
    const int is_tuple = PyTuple_CheckExact(value);
    Py_ssize_t at, count;
    if (!is_tuple && !PyList_CheckExact(value)) return 0;
    count = is_tuple ? PyTuple_Size(value) : PyList_Size(value);
    if (!make_room(list, (size_t)count)) return -1;
    for (at = 0; at < count; at++)
        if (!PyLong_CheckExact(is_tuple ? PyTuple_GetItem(value, at) : PyList_GetItem(value, at))) return 0;
    for (at = 0; at < count; at++) {
        PyObject *const number = is_tuple ? PyTuple_GetItem(value, at) : PyList_GetItem(value, at);
        if (!read_plain(number, name, is_signed, at, &list->items[at])) return -1;
    }
    return 1;
}

/* Reads a list of numbers, or a number as a list of one. Whether it is one; else there is an error. */
static int read_list(PyObject *value, const char *name, int is_signed, List *list) {
    const int is_usual = read_usual(value, name, is_signed, list);
    if (is_usual != 0) return is_usual > 0;
    free_list(list);
    list->items = list->room;
    OWNED integers = ask(NUMBERS, "integers", Py_BuildValue("Os", value, name));
    return integers != NULL && read_usual(integers, name, is_signed, list) > 0;
}

/* Reads yes or no, of a boolean of Python's own or of NumPy's. */
static int read_flag(PyObject *value, const char *name, int32_t *flag) {
    if (value == Py_True || value == Py_False) {
        *flag = value == Py_True;
        return 1;
    }
    OWNED read = ask(NUMBERS, "flag", Py_BuildValue("Os", value, name));
    *flag = read == Py_True;
    return read != NULL;
}

/* Yes, no, or -1 where nothing is said. */
static int read_writable(PyObject *value, int32_t *flag) {
    *flag = -1;
    return value == NULL || value == Py_None || read_flag(value, "writable", flag);
}

/* ---- What is made ---------------------------------------------------------------------------------------------------- */

static PyObject *tuple_of(const size_t *items, size_t count, int is_signed) {
    PyObject *const tuple = PyTuple_New((Py_ssize_t)count);
    size_t at;
    for (at = 0; tuple != NULL && at < count; at++) {
        PyObject *const number = is_signed ? PyLong_FromSsize_t((Py_ssize_t)items[at]) : PyLong_FromSize_t(items[at]);
        if (number == NULL || PyTuple_SetItem(tuple, (Py_ssize_t)at, number) < 0) {
            Py_DECREF(tuple);
            return NULL;
        }
    }
    return tuple;
}

static PyObject *lengths_of(const List *list) { return tuple_of(list->items, list->count, 0); }
static PyObject *strides_of(const List *list) { return tuple_of(list->items, list->count, 1); }

/* ---- Elements of slices ---------------------------------------------------------------------------------------------- */

typedef struct {
    size_t count;
    size_t axes; /* that are left */
    nd_slice_elem *items;
    nd_slice_elem room[ROOM];
} Elems;

static void free_elems(Elems *elems) {
    if (elems->items != elems->room) PyMem_Free(elems->items);
}

#define ELEMS(name) \
    CLEANED(free_elems) Elems name; \
    name.items = name.room; \
    name.count = name.axes = 0

/* Makes room for so many elements. Whether there is memory. */
static int make_elems(Elems *elems, size_t count) {
    elems->count = elems->axes = 0;
    if (count <= ROOM) return 1;
    elems->items = PyMem_Malloc(count * sizeof(nd_slice_elem));
    if (elems->items != NULL) return 1;
    elems->items = elems->room;
    PyErr_NoMemory();
    return 0;
}

static void put(Elems *elems, int32_t kind, int32_t has_end, ptrdiff_t start, ptrdiff_t end, ptrdiff_t step) {
    const nd_slice_elem elem = {kind, has_end, start, end, step};
    elems->axes += kind != ND_INDEX;
    elems->items[elems->count++] = elem;
}

/* The kinds as the package writes them: those of the header, and a slice with an end. */
enum { WITH_END = 3 };

/* Reads elements as the package writes them: four numbers of each. */
static int read_fields(PyObject *fields, Elems *elems) {
    LIST(numbers);
    size_t at;
    if (fields == NULL || read_usual(fields, "bound", 1, &numbers) <= 0 || !make_elems(elems, numbers.count / 4)) return 0;
    for (at = 0; at + 3 < numbers.count; at += 4) {
        const ptrdiff_t *const of = STEPS(&numbers) + at;
        put(elems, of[0] == WITH_END ? ND_SLICE : (int32_t)of[0], of[0] == WITH_END, of[1], of[2], of[3]);
    }
    return 1;
}

static PyObject *fields_of(const Elems *elems) {
    PyObject *const fields = PyTuple_New(4 * (Py_ssize_t)elems->count);
    size_t at, field;
    for (at = 0; fields != NULL && at < elems->count; at++) {
        const nd_slice_elem *const of = &elems->items[at];
        const ptrdiff_t numbers[4] = {of->kind == ND_SLICE && of->has_end ? WITH_END : of->kind, of->start, of->end, of->step};
        for (field = 0; field < 4; field++) {
            PyObject *const number = PyLong_FromSsize_t(numbers[field]);
            if (number == NULL || PyTuple_SetItem(fields, (Py_ssize_t)(4 * at + field), number) < 0) {
                Py_DECREF(fields);
                return NULL;
            }
        }
    }
    return fields;
}

/* Reads the elements of a slice: integers, `None`, and `Slice` of the package. */
static int read_elems(PyObject *value, Elems *elems) {
    OWNED fields = ask(KEYS, "fields_of", Py_BuildValue("(O)", value));
    return read_fields(fields, elems);
}

/* ---- Arguments ------------------------------------------------------------------------------------------------------- */

#define MOST_NAMES 10

/*
 * A call's parameters. `words` has their names, each with a = where it may be left out, and a * before those that come by name. At
 * `array_at` an array may stand in the place of the shape and the strides, which then count bytes, by the parameter `itemsize`.
 */
typedef struct {
    const char *name;
    const char *words;
    int array_at;
    int count;
    int positional;
    int needed; /* of those by position */
    unsigned wanted;
    PyObject *names[MOST_NAMES];
} Call;

static int read_words(Call *call) {
    const char *at = call->words;
    int is_named = 0;
    while (*at != 0) {
        const size_t length = strcspn(at, " =*");
        if (length > 0) {
            const int is_wanted = at[length] != '=';
            PyObject *const name = PyUnicode_FromStringAndSize(at, (Py_ssize_t)length);
            if (name == NULL) return 0;
            call->names[call->count] = name;
            PyUnicode_InternInPlace(&call->names[call->count]);
            call->wanted |= (unsigned)is_wanted << call->count++;
            if (!is_named) call->positional++;
            if (!is_named && is_wanted) call->needed++;
        } else if (*at == '*') {
            is_named = 1;
        }
        at += length > 0 ? length : 1;
    }
    return 1;
}

/* The arguments of a call by the position of the parameter; those that are left out are null. */
typedef struct {
    PyObject *values[MOST_NAMES];
    PyObject *held[3];
} Taken;

static void drop_taken(Taken *taken) {
    int at;
    for (at = 0; at < 3; at++) Py_XDECREF(taken->held[at]);
}

#define TAKEN(name) CLEANED(drop_taken) Taken name = {{NULL}, {NULL}}

static int number_of(const Call *call, PyObject *name) {
    int at;
    for (at = 0; at < call->count; at++)
        if (call->names[at] == name) return at;
    for (at = 0; at < call->count; at++)
        if (PyUnicode_Compare(call->names[at], name) == 0) return at;
    return -1;
}

/* Whether an array stands in the place of the shape and the strides: where too few are given, or an order is the last one. */
static int has_array(const Call *call, PyObject *const *args, Py_ssize_t given, PyObject *names) {
    Py_ssize_t at, named = 0, count = names == NULL ? 0 : PyTuple_Size(names);
    if (given > call->needed || given <= call->array_at) return 0;
    if (given == call->needed && !PyUnicode_CheckExact(args[given - 1])) return 0;
    for (at = 0; at < count; at++) {
        const int number = number_of(call, PyTuple_GetItem(names, at));
        if (number == call->array_at + 1) return 0;
        named += number >= 0 && number < call->needed;
    }
    return given < call->needed ? call->needed - given - named == 1 : PyObject_HasAttrString(args[call->array_at], "itemsize");
}

static int read_array(PyObject *array, PyObject **found);

/* Takes an argument by its name. */
static int take_named(const Call *call, PyObject *name, PyObject *value, Taken *taken) {
    const int number = number_of(call, name);
    if (number >= 0 && taken->values[number] == NULL) {
        taken->values[number] = value;
        return 1;
    }
    PyErr_Format(PyExc_TypeError, number < 0 ? "%s() got an unexpected keyword argument '%U'" : "%s() got multiple values for argument '%U'",
                 call->name, name);
    return 0;
}

/* Takes the arguments of a call. Whether they are those that it has; else there is an error. */
static int take(Call *call, PyObject *const *args, Py_ssize_t given, PyObject *names, Taken *taken) {
    Py_ssize_t at, count = names == NULL ? 0 : PyTuple_Size(names);
    int shift = 0;
    if (call->count == 0 && !read_words(call)) return 0;
    if (call->array_at >= 0 && has_array(call, args, given, names)) {
        shift = 1;
        if (!read_array(args[call->array_at], taken->held)) return 0;
        taken->values[call->count - 1] = taken->held[2];
    }
    if (given + shift > call->positional) {
        PyErr_Format(PyExc_TypeError, "%s() takes %d positional arguments but %zd were given", call->name, call->positional, given);
        return 0;
    }
    for (at = 0; at < given; at++) taken->values[at + (shift && at > call->array_at)] = args[at];
    if (shift) memcpy(taken->values + call->array_at, taken->held, 2 * sizeof *taken->held);
    for (at = 0; at < count; at++)
        if (!take_named(call, PyTuple_GetItem(names, at), args[given + at], taken)) return 0;
    for (at = 0; at < call->count; at++)
        if (call->wanted >> at & 1 && taken->values[at] == NULL) {
            PyErr_Format(PyExc_TypeError, "%s() missing a required argument: '%U'", call->name, call->names[at]);
            return 0;
        }
    return 1;
}

/* ---- A shape and strides --------------------------------------------------------------------------------------------- */

/* A shape and strides; in bytes where an item size is given. */
typedef struct {
    List *lens;
    List *steps;
    int in_bytes;
    size_t itemsize;
} Given;

/* Reads an item size, which is above 0. */
static int read_itemsize(PyObject *value, size_t *itemsize) {
    OWNED unit = ask(NUMBERS, "above_0", Py_BuildValue("(O)", value));
    return unit != NULL && read_number(unit, "itemsize", 0, itemsize);
}

static int read_given(PyObject *shape, PyObject *strides, PyObject *itemsize, Given *given) {
    given->in_bytes = itemsize != NULL && itemsize != Py_None;
    given->itemsize = 1;
    if (!read_list(shape, "length", 0, given->lens) || !read_list(strides, "stride", 1, given->steps)) return 0;
    if (!given->in_bytes) return 1;
    if (PyLong_CheckExact(itemsize)) given->itemsize = PyLong_AsSize_t(itemsize);
    if (PyLong_CheckExact(itemsize) && given->itemsize > 0 && given->itemsize < (size_t)-1) return 1;
    PyErr_Clear();
    return read_itemsize(itemsize, &given->itemsize);
}

#define GIVEN(name) \
    LIST(name##_lens); \
    LIST(name##_steps); \
    Given name = {&name##_lens, &name##_steps, 0, 1}

#endif
