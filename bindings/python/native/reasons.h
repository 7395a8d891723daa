/* Why a call returned its error: what the library says, as the package asks for it, and the errors that the package makes of it. */
#ifndef NATIVE_REASONS_H
#define NATIVE_REASONS_H

/* Strides as an error counts them. */
static PyObject *counted_strides(const Given *given) {
    PyObject *const strides = strides_of(given->steps);
    return given->in_bytes && strides != NULL ? ask(REASONS, "ByteStrides", Py_BuildValue("(N)", strides)) : strides;
}

/* Raises the error of a status, with what a function of `_reasons` finds of the arguments, which are dropped. */
static PyObject *fail(int32_t status, const char *finder, PyObject *arguments) {
    char text[80];
    size_t used = 0;
    if (arguments == NULL) return NULL;
    if (nd_status_text(status, text, sizeof text, &used) != ND_OK || used > sizeof text) used = 0;
    return raise_by(REASONS, "error_of", Py_BuildValue("is#sN", (int)status, text, (Py_ssize_t)used, finder, arguments));
}

static PyObject *fail_layout(int32_t status, const Given *given) {
    return fail(status, "of_layout", Py_BuildValue("NN", lengths_of(given->lens), counted_strides(given)));
}

static PyObject *fail_bytes(int32_t status, const Given *given) {
    PyObject *const itemsize = PyLong_FromSize_t(given->itemsize);
    return fail(status, "of_array", Py_BuildValue("NNN", lengths_of(given->lens), strides_of(given->steps), itemsize));
}

/* Raises the error of a call of a layout with a start, by a function that takes the layout and what else is said. */
static PyObject *fail_at(int32_t status, const char *finder, size_t start, const Given *given, PyObject *others) {
    OWNED first = Py_BuildValue("NNN", PyLong_FromSize_t(start), lengths_of(given->lens), counted_strides(given));
    OWNED more = others;
    return first == NULL || more == NULL ? NULL : fail(status, finder, PySequence_Concat(first, more));
}

/* The same of a layout without a start. */
static PyObject *fail_of(int32_t status, const char *finder, const Given *given, PyObject *others) {
    OWNED first = Py_BuildValue("NN", lengths_of(given->lens), counted_strides(given));
    OWNED more = others;
    return first == NULL || more == NULL ? NULL : fail(status, finder, PySequence_Concat(first, more));
}

/* ---- What the library says ------------------------------------------------------------------------------------------- */

#define TWO_LISTS 6

typedef int32_t (*OfTwoLists)(const size_t *, size_t, const size_t *, size_t, nd_reason *);

static PyObject *tuple_of_reason(int32_t status, const nd_reason *of) {
    if (status != ND_OK) return PyErr_NoMemory(); /* (no bad argument: the call that failed would have said so) */
    return Py_BuildValue("iiiiNnNN", (int)of->status, (int)of->rule, (int)of->list, (int)of->unit, PyLong_FromSize_t(of->axis),
                         (Py_ssize_t)of->number, PyLong_FromSize_t(of->size), PyLong_FromSize_t(of->other));
}

/* Reads the arguments of a reason: U a list of lengths, S one of strides, E elements of a slice, z a number. */
static int read_reason(PyObject *const *args, const char *letters, List *lists, size_t *numbers, Elems *elems) {
    for (; *letters != 0; letters++, args++) {
        const int is_read = *letters == 'E'   ? read_fields(*args, elems)
                            : *letters == 'z' ? read_number(*args, "number", 0, numbers++)
                                              : read_list(*args, "number", *letters == 'S', lists++);
        if (!is_read) return 0;
    }
    return 1;
}

typedef struct {
    List of[3];
} Lists;

static void free_lists(Lists *lists) {
    size_t at;
    for (at = 0; at < 3; at++) free_list(&lists->of[at]);
}

/* The calls that say why: their names, what they read, and those of two lists of lengths. */
static const struct {
    const char *name, *letters;
    OfTwoLists of_two;
} REASONS_OF[] = {
    {"permuted_axes", "UU", nd_permuted_axes_reason}, {"index", "UU", nd_index_reason},
    {"co_broadcast", "UU", nd_co_broadcast_reason},   {"broadcast", "UU", nd_broadcast_reason},
    {"windows", "UU", nd_windows_reason},             {"exact_chunks", "UU", nd_exact_chunks_reason},
    {"slice", "UEz", NULL},                           {"layout_start", "USzzz", NULL},
    {"check_layout", "zUSzzz", NULL},                 {"reshape", "USUz", NULL},
    {"split_at", "Uzz", NULL},                        {"merge_axes", "Uzz", NULL},
};
enum { OF_SLICE = 6, OF_LAYOUT_START, OF_CHECK_LAYOUT, OF_RESHAPE, OF_SPLIT_AT, OF_MERGE_AXES, REASONS_COUNT };

static int32_t find_reason(size_t call, const List *of, const Elems *elems, const size_t *n, nd_reason *found) {
    const List *const b = of + 1, *const c = of + 2;
    switch (call) {
    case OF_SLICE: return nd_slice_reason(of->items, of->count, elems->items, elems->count, (int32_t)n[0], found);
    case OF_LAYOUT_START:
        return nd_layout_start_reason(of->items, of->count, STEPS(b), b->count, n[0], n[1], (int32_t)n[2], found);
    case OF_CHECK_LAYOUT:
        return nd_check_layout_reason(n[0], of->items, of->count, STEPS(b), b->count, n[1], n[2], (int32_t)n[3], found);
    case OF_RESHAPE: return nd_reshape_reason(of->items, of->count, STEPS(b), b->count, c->items, c->count, (int32_t)n[0], found);
    case OF_SPLIT_AT: return nd_split_at_reason(of->items, of->count, n[0], n[1], found);
    case OF_MERGE_AXES: return nd_merge_axes_reason(of->items, of->count, n[0], n[1], found);
    default: return REASONS_OF[call].of_two(of->items, of->count, b->items, b->count, found);
    }
}

/* reason(name, ..): which rule the arguments of a call break: the fields of nd_reason. */
static PyObject *reason(PyObject *self, PyObject *const *args, Py_ssize_t count) {
    CLEANED(free_lists) Lists lists;
    ELEMS(elems);
    size_t n[4] = {0}, at;
    nd_reason found;
    (void)self;
    for (at = 0; at < 3; at++) lists.of[at].items = lists.of[at].room, lists.of[at].count = 0;
    for (at = 0; count > 0 && at < REASONS_COUNT; at++)
        if (PyUnicode_CompareWithASCIIString(args[0], REASONS_OF[at].name) == 0) break;
    if (count == 0 || at == REASONS_COUNT || (size_t)count != strlen(REASONS_OF[at].letters) + 1)
        return PyErr_Format(PyExc_TypeError, "no such reason");
    if (!read_reason(args + 1, REASONS_OF[at].letters, lists.of, n, &elems)) return NULL;
    return tuple_of_reason(find_reason(at, lists.of, &elems, n, &found), &found);
}

static PyObject *text_of_reason(const nd_reason *of) {
    char text[400];
    return PyUnicode_FromStringAndSize(text, (Py_ssize_t)nd_reason_text(of, text, sizeof text));
}

/* Raises the error of an index that lies outside of its axis, which is made here since it is the most usual one. */
static PyObject *raise_index(const nd_reason *of, PyObject *index, size_t length) {
    OWNED numbers = Py_BuildValue("{sNsN}", "index", index, "length", PyLong_FromSize_t(length));
    OWNED arguments = numbers == NULL ? NULL : Py_BuildValue("sNNO", "OutOfBounds", text_of_reason(of), PyLong_FromSize_t(of->axis), numbers);
    OWNED error = arguments == NULL ? NULL : ((newfunc)PyType_GetSlot((PyTypeObject *)OutOfBoundsError, Py_tp_new))((PyTypeObject *)OutOfBoundsError, arguments, NULL);
    if (error != NULL) PyErr_SetObject(OutOfBoundsError, error);
    return NULL;
}

/* reason_text(fields): the sentence of a reason. */
static PyObject *reason_text(PyObject *self, PyObject *fields) {
    int status, rule, list, unit;
    OWNED axis = NULL;
    OWNED size = NULL;
    OWNED other = NULL;
    Py_ssize_t number;
    nd_reason of = {0};
    (void)self;
    if (!PyArg_ParseTuple(fields, "iiiiOnOO", &status, &rule, &list, &unit, &axis, &number, &size, &other)) {
        axis = size = other = NULL; /* (which are the tuple's) */
        return NULL;
    }
    Py_INCREF(axis), Py_INCREF(size), Py_INCREF(other);
    of.status = status, of.rule = rule, of.list = list, of.unit = unit, of.number = number;
    if (!read_number(axis, "axis", 0, &of.axis) || !read_number(size, "size", 0, &of.size)) return NULL;
    return read_number(other, "other", 0, &of.other) ? text_of_reason(&of) : NULL;
}

#endif
