/*
 * The layout that was accepted: the base of the package's class, with what is asked of it most. A layout holds its numbers, and makes
 * tuples of them where Python reads them. What is made of one lies where that one does.
 */
#ifndef NATIVE_LAYOUT_H
#define NATIVE_LAYOUT_H

#include <structmember.h>

#define FEW 4 /* axes, whose numbers a layout holds itself */

typedef struct {
    PyObject ob_base;
    PyObject *references;
    PyObject *format;
    size_t start;
    size_t length;
    size_t itemsize;
    size_t axes;
    int32_t writable;
    size_t *numbers; /* the lengths, and then the strides */
    size_t room[2 * FEW];
} Layout;

static PyTypeObject *LayoutBase;

static const size_t *lens_of(const Layout *layout) { return layout->numbers; }
static const ptrdiff_t *steps_of(const Layout *layout) { return (const ptrdiff_t *)layout->numbers + layout->axes; }
static ptrdiff_t *own_steps(Layout *layout) { return (ptrdiff_t *)layout->numbers + layout->axes; }

static int is_layout(PyObject *value) { return PyObject_TypeCheck(value, LayoutBase); }

/* A layout of a class with room for so many axes. */
static Layout *new_layout(PyTypeObject *kind, size_t axes) {
    Layout *const made = (Layout *)PyType_GenericAlloc(kind, 0);
    if (made == NULL) return NULL;
    made->numbers = axes <= FEW ? made->room : PyMem_Malloc(2 * axes * sizeof(size_t));
    made->axes = axes;
    if (made->numbers != NULL) return made;
    Py_DECREF(made);
    PyErr_NoMemory();
    return NULL;
}

/* A layout of the class of another one, over its elements. */
static Layout *layout_like(const Layout *other, size_t axes) {
    Layout *const made = new_layout(Py_TYPE((PyObject *)other), axes);
    if (made == NULL) return NULL;
    made->length = other->length;
    made->itemsize = other->itemsize;
    made->writable = other->writable;
    made->start = other->start;
    made->format = Py_XNewRef(other->format);
    return made;
}

static void dealloc(PyObject *self) {
    Layout *const layout = (Layout *)self;
    PyTypeObject *const kind = Py_TYPE(self);
    if (layout->references != NULL) PyObject_ClearWeakRefs(self);
    Py_CLEAR(layout->format);
    if (layout->numbers != layout->room) PyMem_Free(layout->numbers);
    ((freefunc)PyType_GetSlot(kind, Py_tp_free))(self);
    Py_DECREF(kind);
}

static PyObject *shape_of(const Layout *of) { return tuple_of(lens_of(of), of->axes, 0); }
static PyObject *stride_tuple(const Layout *of) { return tuple_of(of->numbers + of->axes, of->axes, 1); }

/* Raises the error of a call of this layout, which others of the package make as well. */
static PyObject *fail_layout_at(int32_t status, const char *finder, const Layout *of, PyObject *others) {
    OWNED first = Py_BuildValue("NNN", PyLong_FromSize_t(of->start), shape_of(of), stride_tuple(of));
    OWNED more = others;
    return first == NULL || more == NULL ? NULL : fail(status, finder, PySequence_Concat(first, more));
}

static PyObject *fail_layout_of(int32_t status, const char *finder, const Layout *of, PyObject *others) {
    OWNED first = Py_BuildValue("NN", shape_of(of), stride_tuple(of));
    OWNED more = others;
    return first == NULL || more == NULL ? NULL : fail(status, finder, PySequence_Concat(first, more));
}

/* ---- What is accepted ------------------------------------------------------------------------------------------------ */

/* What a layout is to be accepted as, and where: as one to be written where nothing is said and it may be. */
typedef struct {
    size_t start;
    int has_start;
    size_t itemsize;
    size_t length;
    int32_t writable; /* or -1 */
} Wanted;

static int32_t accept_as(const Given *of, int32_t mode, Wanted *wanted) {
    if (wanted->has_start)
        return nd_check_layout(wanted->start, of->lens->items, of->lens->count, STEPS(of->steps), of->steps->count, wanted->itemsize,
                               wanted->length, mode);
    return nd_layout_start(of->lens->items, of->lens->count, STEPS(of->steps), of->steps->count, wanted->itemsize, wanted->length, mode,
                           &wanted->start);
}

/* Accepts a layout, and says in `wanted` whether it may be written. */
static int32_t accept(const Given *of, Wanted *wanted) {
    const int32_t mode = wanted->writable != 0;
    int32_t status = accept_as(of, mode, wanted);
    if (wanted->writable < 0 && status != ND_OK) {
        wanted->writable = ND_READ_ONLY;
        return accept_as(of, ND_READ_ONLY, wanted);
    }
    wanted->writable = mode;
    return status;
}

/* The error of a layout that isn't accepted. Where strides may be meant to count bytes, `over` has it say so. */
static PyObject *fail_to_accept(int32_t status, const Given *of, const Wanted *wanted, int over) {
    PyObject *const others = Py_BuildValue("NNii", PyLong_FromSize_t(wanted->itemsize), PyLong_FromSize_t(wanted->length),
                                           (int)(wanted->writable > 0), over);
    return wanted->has_start ? fail_at(status, "of_accepting", wanted->start, of, others) : fail_of(status, "of_accepting_start", of, others);
}

/* The layout that was accepted, of a class. The format is dropped. */
static PyObject *accepted(PyTypeObject *kind, const Given *of, const Wanted *wanted, PyObject *format) {
    Layout *const made = new_layout(kind, of->lens->count);
    if (made == NULL) {
        Py_XDECREF(format);
        return NULL;
    }
    memcpy(made->numbers, of->lens->items, of->lens->count * sizeof(size_t));
    memcpy(made->numbers + made->axes, of->steps->items, of->steps->count * sizeof(size_t));
    made->start = wanted->start;
    made->length = wanted->length;
    made->itemsize = wanted->itemsize;
    made->writable = wanted->writable;
    made->format = format;
    return (PyObject *)made;
}

/* Layout(start, shape, strides, *, length, writable, itemsize, format). */
static PyObject *new_accepted(PyTypeObject *kind, PyObject *args, PyObject *named) {
    static char *names[] = {"start", "shape", "strides", "length", "writable", "itemsize", "format", NULL};
    PyObject *start, *shape, *strides, *length = NULL, *writable = NULL, *itemsize = NULL, *format = Py_None;
    Wanted wanted = {0, 1, 1, 0, -1};
    GIVEN(of);
    int32_t status;
    if (!PyArg_ParseTupleAndKeywords(args, named, "OOO|$OOOO:Layout", names, &start, &shape, &strides, &length, &writable, &itemsize, &format))
        return NULL;
    if (length == NULL) return PyErr_Format(PyExc_TypeError, "Layout() missing required argument: 'length'");
    if (!read_list(shape, "length", 0, of.lens) || !read_list(strides, "stride", 1, of.steps)) return NULL;
    if (!read_writable(writable, &wanted.writable) || !read_number(start, "start", 0, &wanted.start)) return NULL;
    if (itemsize != NULL && !read_number(itemsize, "elem_size", 0, &wanted.itemsize)) return NULL;
    if (!read_number(length, "length", 0, &wanted.length)) return NULL;
    status = accept(&of, &wanted);
    return status == ND_OK ? accepted(kind, &of, &wanted, Py_NewRef(format)) : fail_to_accept(status, &of, &wanted, 0);
}

/* Reads how many items a buffer has, their size and their format. A number stands for so many items of a byte. */
static int count_items(PyObject *buffer, Wanted *wanted, PyObject **format) {
    if (PyLong_CheckExact(buffer)) return read_number(buffer, "length", 0, &wanted->length);
    OWNED counted = ask("ndarray_layout._buffers", "count_items", Py_BuildValue("(O)", buffer));
    PyObject *const length = counted == NULL ? NULL : PyTuple_GetItem(counted, 0);
    if (length == NULL || !read_number(length, "length", 0, &wanted->length)) return 0;
    *format = Py_NewRef(PyTuple_GetItem(counted, 2));
    return read_number(PyTuple_GetItem(counted, 1), "itemsize", 0, &wanted->itemsize);
}

static Call call_of_over = {"over", "buffer shape strides= * start= order= writable=", -1, 0, 0, 0, 0, {NULL}};

/* Layout.over(buffer, shape, strides, *, start, order, writable). */
static PyObject *over(PyObject *kind, PyObject *const *args, Py_ssize_t count, PyObject *names) {
    Wanted wanted = {0, 0, 1, 0, -1};
    OWNED format = NULL;
    GIVEN(of);
    int32_t order = ND_ROW_MAJOR, status = ND_OK;
    TAKEN(taken);
    PyObject **const v = taken.values;
    if (!take(&call_of_over, args, count, names, &taken) || !count_items(v[0], &wanted, &format)) return NULL;
    const int has_strides = v[2] != NULL && v[2] != Py_None, has_order = v[4] != NULL && v[4] != Py_None;
    if (!read_list(v[1], "length", 0, of.lens)) return NULL;
    if (has_strides && has_order) return raise_by(REASONS, "order_beside_strides", Py_BuildValue("(O)", v[4]));
    if ((has_order && !read_order(v[4], NULL, &order)) || !read_writable(v[5], &wanted.writable)) return NULL;
    wanted.has_start = v[3] != NULL && v[3] != Py_None;
    if (has_strides ? !read_list(v[2], "stride", 1, of.steps) : !make_room(of.steps, of.lens->count)) return NULL;
    if (!has_strides)
        status = (order == ND_ROW_MAJOR ? nd_default_strides : nd_fortran_strides)(of.lens->items, of.lens->count, STEPS(of.steps), of.steps->count);
    if (status != ND_OK) return fail(status, "of_size", Py_BuildValue("(N)", lengths_of(of.lens)));
    if (wanted.has_start && !read_number(v[3], "start", 0, &wanted.start)) return NULL;
    status = accept(&of, &wanted);
    if (status != ND_OK) return fail_to_accept(status, &of, &wanted, has_strides || wanted.has_start);
    return accepted((PyTypeObject *)kind, &of, &wanted, Py_NewRef(format == NULL ? Py_None : format));
}

/* ---- Fields ---------------------------------------------------------------------------------------------------------- */

enum { START, SHAPE, STRIDES, LENGTH, WRITABLE, ITEMSIZE, FORMAT, BYTE_STRIDES, NDIM, SIZE, NBYTES, TRANSPOSED };

static PyObject *byte_strides(const Layout *of) {
    OWNED itemsize = PyLong_FromSize_t(of->itemsize);
    PyObject *const tuple = PyTuple_New((Py_ssize_t)of->axes);
    size_t axis;
    for (axis = 0; tuple != NULL && itemsize != NULL && axis < of->axes; axis++) {
        OWNED stride = PyLong_FromSsize_t(steps_of(of)[axis]);
        PyObject *const bytes = stride == NULL ? NULL : PyNumber_Multiply(stride, itemsize);
        if (bytes == NULL) break;
        PyTuple_SetItem(tuple, (Py_ssize_t)axis, bytes);
    }
    if (!PyErr_Occurred()) return tuple;
    Py_XDECREF(tuple);
    return NULL;
}

static PyObject *permuted(const Layout *of, const List *axes);

static PyObject *transposed(const Layout *of) {
    LIST(axes);
    size_t at;
    if (!make_room(&axes, of->axes)) return NULL;
    for (at = 0; at < of->axes; at++) axes.items[at] = of->axes - 1 - at;
    return permuted(of, &axes);
}

static PyObject *get(PyObject *self, void *name) {
    const Layout *const of = (Layout *)self;
    switch ((int)(intptr_t)name) {
    case START: return PyLong_FromSize_t(of->start);
    case SHAPE: return shape_of(of);
    case STRIDES: return stride_tuple(of);
    case LENGTH: return PyLong_FromSize_t(of->length);
    case WRITABLE: return PyBool_FromLong(of->writable);
    case ITEMSIZE: return PyLong_FromSize_t(of->itemsize);
    case FORMAT: return Py_NewRef(of->format == NULL ? Py_None : of->format);
    case BYTE_STRIDES: return byte_strides(of);
    case NDIM: return PyLong_FromSize_t(of->axes);
    case SIZE: return PyLong_FromSize_t(product_of(lens_of(of), of->axes));
    case TRANSPOSED: return transposed(of);
    default: {
        OWNED size = PyLong_FromSize_t(product_of(lens_of(of), of->axes));
        OWNED itemsize = PyLong_FromSize_t(of->itemsize);
        return size == NULL || itemsize == NULL ? NULL : PyNumber_Multiply(size, itemsize);
    }
    }
}

#define FIELD(name, number) {#name, get, NULL, DOC_Layout_##name, (void *)(intptr_t)(number)}

/* What a call says of the layout. */
static PyObject *asked(PyObject *self, void *call) {
    const Layout *const of = (Layout *)self;
    int32_t answer = 0, status;
    Say say_it;
    memcpy(&say_it, call, sizeof say_it);
    if (say_it == nd_has_overlap && of->writable) Py_RETURN_FALSE;
    if (say_it == nd_is_contiguous && product_of(lens_of(of), of->axes) == 0) Py_RETURN_TRUE; /* (as NumPy says of what is empty) */
    status = say_it(lens_of(of), of->axes, steps_of(of), of->axes, &answer);
    return status == ND_OK ? PyBool_FromLong(answer) : fail_layout_of(status, "of_layout", of, PyTuple_New(0));
}

static Say say_overlap = nd_has_overlap, say_contiguous = nd_is_contiguous, say_c = nd_is_layout_c, say_f = nd_is_layout_f;

/* Whether two layouts have the same numbers. */
static int are_equal(const Layout *one, const Layout *other) {
    return one->start == other->start && one->length == other->length && one->itemsize == other->itemsize && one->axes == other->axes &&
           one->writable == other->writable && memcmp(one->numbers, other->numbers, 2 * one->axes * sizeof(size_t)) == 0;
}

static PyObject *compare(PyObject *self, PyObject *other, int how) {
    if ((how != Py_EQ && how != Py_NE) || Py_TYPE(self) != Py_TYPE(other)) Py_RETURN_NOTIMPLEMENTED;
    return PyBool_FromLong(are_equal((Layout *)self, (Layout *)other) == (how == Py_EQ));
}

static Py_hash_t hash(PyObject *self) {
    const Layout *const of = (Layout *)self;
    OWNED numbers = Py_BuildValue("NNNNNi", PyLong_FromSize_t(of->start), shape_of(of), stride_tuple(of), PyLong_FromSize_t(of->length),
                                  PyLong_FromSize_t(of->itemsize), (int)of->writable);
    return numbers == NULL ? -1 : PyObject_Hash(numbers);
}

/* ---- Keys ------------------------------------------------------------------------------------------------------------ */

static void put_whole(const size_t *lens, size_t count, Elems *elems) {
    size_t axis;
    for (axis = 0; axis < count; axis++) put(elems, ND_SLICE, 0, 0, 0, 1);
    (void)lens;
}

/* Reads one entry of a key, of an axis on: 1, or 0 where it is no usual one. Axes that no entry takes are in the place of `...`. */
static int put_entry(PyObject *entry, const size_t *lens, size_t not_taken, size_t *axis, Elems *elems) {
    Py_ssize_t start, end, step;
    if (entry == Py_None) {
        put(elems, ND_NEW_AXIS, 0, 0, 0, 1);
        return 1;
    }
    if (entry == Py_Ellipsis) {
        put_whole(lens, not_taken, elems);
        *axis += not_taken;
        return 1;
    }
    if (PySlice_Check(entry)) {
        if (lens[*axis] > PTRDIFF_MAX) return 0;
        if (PySlice_Unpack(entry, &start, &end, &step) < 0) return 0;
        PySlice_AdjustIndices((Py_ssize_t)lens[*axis], &start, &end, step);
        put(elems, ND_SLICE, 1, step > 0 ? start : end + 1, step > 0 ? end : start + 1, step);
    } else {
        if (!PyLong_CheckExact(entry)) return 0;
        start = PyLong_AsSsize_t(entry);
        if (start == -1 && PyErr_Occurred()) return 0;
        put(elems, ND_INDEX, 0, start, 0, 1);
    }
    ++*axis;
    return 1;
}

/* How many axes a key takes; too many where it has `...` twice. */
static size_t axes_of_key(PyObject *key, Py_ssize_t entries) {
    Py_ssize_t at;
    size_t axes = 0, gaps = 0;
    for (at = 0; at < entries; at++) {
        PyObject *const entry = PyTuple_GetItem(key, at);
        gaps += entry == Py_Ellipsis;
        axes += entry != Py_Ellipsis && entry != Py_None;
    }
    return gaps > 1 ? SIZE_MAX : axes;
}

/* Reads a usual key of NumPy: a tuple of entries, or one alone. Errors stay, and 0 is returned, where it is none. */
static int read_usual_key(PyObject *key, const size_t *lens, size_t axes, Elems *elems) {
    const int is_tuple = PyTuple_CheckExact(key);
    const Py_ssize_t entries = is_tuple ? PyTuple_Size(key) : 1;
    const size_t taken = is_tuple ? axes_of_key(key, entries) : key != Py_None && key != Py_Ellipsis;
    Py_ssize_t at;
    size_t axis = 0;
    if (taken > axes || !make_elems(elems, axes + (size_t)entries)) return 0;
    for (at = 0; at < entries; at++)
        if (!put_entry(is_tuple ? PyTuple_GetItem(key, at) : key, lens, axes - taken, &axis, elems)) return 0;
    put_whole(lens, axes - axis, elems);
    return 1;
}

/* Whether an error comes again where the package reads the arguments, and is cleared; interrupts stay. */
static int comes_again(void) {
    if (PyErr_Occurred() && (!PyErr_ExceptionMatches(PyExc_Exception) || PyErr_ExceptionMatches(PyExc_MemoryError))) return 0;
    PyErr_Clear();
    return 1;
}

/* Reads a key by the package, which raises the error of one that is none. */
static int read_any_key(PyObject *key, const size_t *lens, size_t axes, Elems *elems) {
    OWNED fields = ask(KEYS, "fields_of_key", Py_BuildValue("NO", tuple_of(lens, axes, 0), key));
    free_elems(elems);
    elems->items = elems->room;
    return read_fields(fields, elems);
}

/* Reads any key. Whether it is one; else there is an error. */
static int read_key(PyObject *key, const size_t *lens, size_t axes, Elems *elems) {
    return read_usual_key(key, lens, axes, elems) || (comes_again() && read_any_key(key, lens, axes, elems));
}

/* The layout that elements of a slice leave. */
static PyObject *slice_by(const Layout *of, const Elems *elems) {
    Layout *const made = layout_like(of, elems->axes);
    nd_reason why;
    int32_t status;
    if (made == NULL) return NULL;
    status = nd_slice(of->start, lens_of(of), of->axes, steps_of(of), of->axes, elems->items, elems->count, ND_STRICT, &made->start,
                      made->numbers, made->axes, own_steps(made), made->axes);
    if (status == ND_OK) return (PyObject *)made;
    Py_DECREF(made);
    if (nd_slice_reason(lens_of(of), of->axes, elems->items, elems->count, ND_STRICT, &why) == ND_OK && why.rule == ND_RULE_INDEX)
        return raise_index(&why, PyLong_FromSsize_t(why.number), why.size);
    return fail_layout_at(status, "of_slice", of, Py_BuildValue("Ni", fields_of(elems), 0));
}

static PyObject *subscript(PyObject *self, PyObject *key) {
    const Layout *const of = (Layout *)self;
    ELEMS(elems);
    return read_key(key, lens_of(of), of->axes, &elems) ? slice_by(of, &elems) : NULL;
}

/* slice(elems, clamp): by the layer's elements. */
static Call call_of_slice = {"slice", "elems clamp=", -1, 0, 0, 0, 0, {NULL}};
static PyObject *slice_elems(PyObject *self, PyObject *const *args, Py_ssize_t count, PyObject *names) {
    const Layout *const of = (Layout *)self;
    ELEMS(elems);
    int32_t clamp = 0, status;
    Layout *made;
    TAKEN(taken);
    if (!take(&call_of_slice, args, count, names, &taken) || !read_elems(taken.values[0], &elems)) return NULL;
    if (taken.values[1] != NULL && !read_flag(taken.values[1], "clamp", &clamp)) return NULL;
    made = layout_like(of, elems.axes);
    if (made == NULL) return NULL;
    status = nd_slice(of->start, lens_of(of), of->axes, steps_of(of), of->axes, elems.items, elems.count, clamp, &made->start,
                      made->numbers, made->axes, own_steps(made), made->axes);
    if (status == ND_OK) return (PyObject *)made;
    Py_DECREF(made);
    return fail_layout_at(status, "of_slice", of, Py_BuildValue("Ni", fields_of(&elems), (int)clamp));
}

#endif
