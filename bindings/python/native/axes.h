/* What a layout makes of its axes and its shape, by a call of the library each. */
#ifndef NATIVE_AXES_H
#define NATIVE_AXES_H

/* ---- Axes ------------------------------------------------------------------------------------------------------------ */

static PyObject *permuted(const Layout *of, const List *axes) {
    Layout *const made = layout_like(of, of->axes);
    int32_t status;
    if (made == NULL) return NULL;
    status = nd_permuted_axes(lens_of(of), of->axes, steps_of(of), of->axes, axes->items, axes->count, made->numbers, made->axes,
                              own_steps(made), made->axes);
    if (status == ND_OK) return (PyObject *)made;
    Py_DECREF(made);
    return fail_layout_of(status, "of_permuted_axes", of, Py_BuildValue("(N)", lengths_of(axes)));
}

static Call call_of_permuted = {"permuted_axes", "axes", -1, 0, 0, 0, 0, {NULL}};
static PyObject *permuted_by(PyObject *self, PyObject *const *args, Py_ssize_t count, PyObject *names) {
    LIST(axes);
    TAKEN(taken);
    if (!take(&call_of_permuted, args, count, names, &taken) || !read_list(taken.values[0], "axis", 0, &axes)) return NULL;
    return permuted((Layout *)self, &axes);
}

/* Reads an axis, counted from the end where it is negative. */
static int read_axis(PyObject *value, size_t axes, size_t *axis) {
    if (PyLong_CheckExact(value)) {
        const Py_ssize_t number = PyLong_AsSsize_t(value);
        if (number >= 0 ? (size_t)number < axes : number >= -(Py_ssize_t)axes && !PyErr_Occurred()) {
            *axis = number < 0 ? axes - (size_t)-number : (size_t)number;
            return 1;
        }
        PyErr_Clear();
    }
    OWNED found = ask(NUMBERS, "axis_of", Py_BuildValue("ON", value, PyLong_FromSize_t(axes)));
    return found != NULL && read_number(found, "axis", 0, axis);
}

/* transpose(*axes): as NumPy takes them. */
static PyObject *transpose(PyObject *self, PyObject *const *args, Py_ssize_t count) {
    const Layout *const of = (Layout *)self;
    LIST(axes);
    Py_ssize_t at;
    if (count == 0 || (count == 1 && args[0] == Py_None)) return transposed(of);
    OWNED listed = count == 1 && !PyTuple_CheckExact(args[0]) ? ask(NUMBERS, "listing", Py_BuildValue("Os", args[0], "axis")) : NULL;
    if (count == 1 && listed == NULL && !PyTuple_CheckExact(args[0])) return NULL;
    PyObject *const tuple = listed != NULL ? listed : count == 1 ? args[0] : NULL;
    if (tuple != NULL && PyTuple_Size(tuple) == 0) return transposed(of);
    if (!make_room(&axes, (size_t)(tuple == NULL ? count : PyTuple_Size(tuple)))) return NULL;
    for (at = 0; at < (Py_ssize_t)axes.count; at++)
        if (!read_axis(tuple == NULL ? args[at] : PyTuple_GetItem(tuple, at), of->axes, &axes.items[at])) return NULL;
    return permuted(of, &axes);
}

static Call call_of_swapaxes = {"swapaxes", "axis1 axis2", -1, 0, 0, 0, 0, {NULL}};
static PyObject *swapaxes(PyObject *self, PyObject *const *args, Py_ssize_t count, PyObject *names) {
    const Layout *const of = (Layout *)self;
    LIST(axes);
    size_t one, other, at;
    TAKEN(taken);
    if (!take(&call_of_swapaxes, args, count, names, &taken) || !make_room(&axes, of->axes)) return NULL;
    if (!read_axis(taken.values[0], of->axes, &one) || !read_axis(taken.values[1], of->axes, &other)) return NULL;
    for (at = 0; at < of->axes; at++) axes.items[at] = at == one ? other : at == other ? one : at;
    return permuted(of, &axes);
}

/* squeeze(axis): without axes of length 1, by an index of each. */
static Call call_of_squeeze = {"squeeze", "axis=", -1, 0, 0, 0, 0, {NULL}};
static PyObject *squeeze(PyObject *self, PyObject *const *args, Py_ssize_t count, PyObject *names) {
    const Layout *const of = (Layout *)self;
    ELEMS(elems);
    size_t axis;
    TAKEN(taken);
    if (!take(&call_of_squeeze, args, count, names, &taken)) return NULL;
    if (taken.values[0] != NULL && taken.values[0] != Py_None)
        return ask("ndarray_layout._views", "squeezed", Py_BuildValue("OO", self, taken.values[0]));
    if (!make_elems(&elems, of->axes)) return NULL;
    for (axis = 0; axis < of->axes; axis++) put(&elems, lens_of(of)[axis] == 1 ? ND_INDEX : ND_SLICE, 0, 0, 0, 1);
    return slice_by(of, &elems);
}

/* Slices an axis from where a diagonal begins. */
static void put_diagonal(const Layout *of, size_t axis, const size_t *two, ptrdiff_t offset, Elems *elems) {
    const ptrdiff_t begin = axis == two[0] && offset < 0 ? -offset : axis == two[1] && offset > 0 ? offset : 0;
    const ptrdiff_t length = (ptrdiff_t)lens_of(of)[axis];
    put(elems, ND_SLICE, 0, begin < length ? begin : length, 0, 1);
}

/* The diagonal of two axes of a layout, which begins where it does, as the last axis. */
static PyObject *diagonal_of(const Layout *square, const size_t *two) {
    const size_t shape[2] = {lens_of(square)[two[0]], lens_of(square)[two[1]]};
    const ptrdiff_t strides[2] = {steps_of(square)[two[0]], steps_of(square)[two[1]]};
    Layout *const made = layout_like(square, square->axes - 2 + 1);
    size_t axis, to = 0, length;
    ptrdiff_t stride;
    int32_t status;
    if (made == NULL) return NULL;
    for (axis = 0; axis < square->axes; axis++) {
        if (axis == two[0] || axis == two[1]) continue;
        made->numbers[to] = lens_of(square)[axis];
        own_steps(made)[to++] = steps_of(square)[axis];
    }
    status = nd_diag(shape, 2, strides, 2, &length, &stride);
    made->numbers[to] = length;
    own_steps(made)[to] = stride;
    if (status == ND_OK) return (PyObject *)made;
    Py_DECREF((PyObject *)made);
    return fail_layout_of(status, "of_layout", square, PyTuple_New(0));
}

static int read_axis_or(PyObject *value, long usual, size_t axes, size_t *axis) {
    OWNED number = value == NULL ? PyLong_FromLong(usual) : Py_NewRef(value);
    return number != NULL && read_axis(number, axes, axis);
}

/* diagonal(offset, axis1, axis2): two axes as one, which the library makes of both. */
static Call call_of_diagonal = {"diagonal", "offset= axis1= axis2=", -1, 0, 0, 0, 0, {NULL}};
static PyObject *diagonal(PyObject *self, PyObject *const *args, Py_ssize_t count, PyObject *names) {
    const Layout *const of = (Layout *)self;
    ELEMS(elems);
    size_t two[2], axis, offset = 0;
    TAKEN(taken);
    if (!take(&call_of_diagonal, args, count, names, &taken)) return NULL;
    if (!read_axis_or(taken.values[1], 0, of->axes, &two[0]) || !read_axis_or(taken.values[2], 1, of->axes, &two[1])) return NULL;
    if (two[0] == two[1]) return raise_by(NUMBERS, "axis_twice", Py_BuildValue("(N)", PyLong_FromSize_t(two[0])));
    if ((taken.values[0] != NULL && !read_number(taken.values[0], "offset", 1, &offset)) || !make_elems(&elems, of->axes)) return NULL;
    if ((ptrdiff_t)offset == PTRDIFF_MIN) offset++; /* (which as well lies past all indices) */
    for (axis = 0; axis < of->axes; axis++) put_diagonal(of, axis, two, (ptrdiff_t)offset, &elems);
    OWNED square = slice_by(of, &elems);
    return square == NULL ? NULL : diagonal_of((Layout *)square, two);
}

/* ---- Shapes ---------------------------------------------------------------------------------------------------------- */

/* The rest of a size in the place of the one length -1: 1, or 0 where the package says what is wrong. */
static int put_rest(size_t size, PyObject *shape, List *lens) {
    Py_ssize_t at, count = PyTuple_Size(shape), open = -1;
    size_t others = 1;
    if (!make_room(lens, (size_t)count)) return 0;
    for (at = 0; at < count; at++) {
        PyObject *const number = PyTuple_GetItem(shape, at);
        const Py_ssize_t length = PyLong_CheckExact(number) ? PyLong_AsSsize_t(number) : 0;
        if (length == -1 && open < 0 && !PyErr_Occurred()) {
            open = at;
            continue;
        }
        if (length < 1 || __builtin_mul_overflow(others, (size_t)length, &others)) return 0;
        lens->items[at] = (size_t)length;
    }
    if (open < 0 || size % others != 0) return 0;
    lens->items[open] = size / others;
    return 1;
}

static int has_rest(PyObject *shape) {
    Py_ssize_t at, count = PyTuple_Size(shape);
    for (at = 0; at < count; at++) {
        PyObject *const number = PyTuple_GetItem(shape, at);
        if (PyLong_CheckExact(number) && PyLong_AsSsize_t(number) == -1) {
            if (!PyErr_Occurred()) return 1;
            PyErr_Clear();
        }
    }
    return 0;
}

/* Reads the shape of a reshape, one length of which may be -1. */
static int read_new_shape(const Layout *of, PyObject *value, List *lens) {
    OWNED shape = PyTuple_CheckExact(value) ? Py_NewRef(value) : PyLong_CheckExact(value) ? PyTuple_Pack(1, value) : ask(NUMBERS, "integers", Py_BuildValue("Os", value, "length"));
    if (shape == NULL) return 0;
    if (!has_rest(shape)) return read_list(shape, "length", 0, lens);
    if (put_rest(product_of(lens_of(of), of->axes), shape, lens)) return 1;
    PyErr_Clear();
    OWNED integers = ask(NUMBERS, "integers", Py_BuildValue("Os", shape, "length"));
    OWNED found = integers == NULL ? NULL : ask("ndarray_layout._arrays", "without_minus_one", Py_BuildValue("NO", shape_of(of), integers));
    return found != NULL && read_list(found, "length", 0, lens);
}

static PyObject *reshaped(const Layout *of, const List *lens, PyObject *order) {
    LIST(of_lens);
    LIST(of_steps);
    Given given = {&of_lens, &of_steps, 0, 1};
    int32_t number, status;
    Layout *made;
    if (order == NULL) {
        number = ND_ROW_MAJOR;
    } else {
        if (!make_room(&of_lens, of->axes) || !make_room(&of_steps, of->axes)) return NULL;
        memcpy(of_lens.items, lens_of(of), of->axes * sizeof(size_t));
        memcpy(of_steps.items, steps_of(of), of->axes * sizeof(size_t));
        if (!read_order(order, &given, &number)) return NULL;
    }
    made = layout_like(of, lens->count);
    if (made == NULL) return NULL;
    status = nd_reshape(lens_of(of), of->axes, steps_of(of), of->axes, lens->items, lens->count, number, own_steps(made), made->axes);
    memcpy(made->numbers, lens->items, lens->count * sizeof(size_t));
    if (status == ND_OK) return (PyObject *)made;
    Py_DECREF(made);
    return fail_layout_of(status, "of_reshape", of, Py_BuildValue("Ni", lengths_of(lens), (int)number));
}

/* reshape(shape, *others, order): the shape is one list, or its numbers. */
static Call call_of_reshape_layout = {"reshape", "shape * order=", -1, 0, 0, 0, 0, {NULL}};
static PyObject *reshape_layout(PyObject *self, PyObject *const *args, Py_ssize_t count, PyObject *names) {
    LIST(lens);
    TAKEN(taken);
    OWNED listed = NULL;
    Py_ssize_t at;
    PyObject *given[2] = {NULL, NULL};
    const Py_ssize_t first = count > 1 ? count - 1 : 0; /* (of several numbers the last one is taken, and all are listed) */
    if (!take(&call_of_reshape_layout, args + first, count - first, names, &taken)) return NULL;
    memcpy(given, taken.values, sizeof given);
    if (count > 1) {
        given[0] = listed = PyTuple_New(count);
        for (at = 0; listed != NULL && at < count; at++) PyTuple_SetItem(listed, at, Py_NewRef(args[at]));
        if (listed == NULL) return NULL;
    }
    return read_new_shape((Layout *)self, given[0], &lens) ? reshaped((Layout *)self, &lens, given[1]) : NULL;
}

/* ravel(order). */
static Call call_of_ravel = {"ravel", "order=", -1, 0, 0, 0, 0, {NULL}};
static PyObject *ravel(PyObject *self, PyObject *const *args, Py_ssize_t count, PyObject *names) {
    const Layout *const of = (Layout *)self;
    LIST(lens);
    TAKEN(taken);
    if (!take(&call_of_ravel, args, count, names, &taken)) return NULL;
    make_room(&lens, 1);
    lens.items[0] = product_of(lens_of(of), of->axes);
    return reshaped(of, &lens, taken.values[0]);
}

/* place(index). */
static Call call_of_place_of = {"place", "index", -1, 0, 0, 0, 0, {NULL}};
static PyObject *place_of(PyObject *self, PyObject *const *args, Py_ssize_t count, PyObject *names) {
    const Layout *const of = (Layout *)self;
    LIST(index);
    size_t found;
    nd_reason why;
    int32_t status;
    TAKEN(taken);
    if (!take(&call_of_place_of, args, count, names, &taken) || !read_list(taken.values[0], "index", 0, &index)) return NULL;
    status = nd_place(of->start, lens_of(of), of->axes, steps_of(of), of->axes, index.items, index.count, &found);
    if (status == ND_OK) return PyLong_FromSize_t(found);
    if (nd_index_reason(lens_of(of), of->axes, index.items, index.count, &why) == ND_OK && why.rule == ND_RULE_COORDINATE)
        return raise_index(&why, PyLong_FromSize_t(why.size), why.other);
    return fail_layout_at(status, "of_place", of, Py_BuildValue("(N)", lengths_of(&index)));
}

/* _kept(start, shape, strides, writable): what a call of the package made of this layout, which is accepted by that call's promise. */
static PyObject *kept(PyObject *self, PyObject *const *args, Py_ssize_t count) {
    LIST(lens);
    LIST(steps);
    size_t start;
    Layout *made;
    if (count != 4 || !read_number(args[0], "start", 0, &start)) return NULL;
    if (!read_list(args[1], "length", 0, &lens) || !read_list(args[2], "stride", 1, &steps)) return NULL;
    made = layout_like((Layout *)self, lens.count);
    if (made == NULL) return NULL;
    made->start = start;
    made->writable = args[3] == Py_True;
    memcpy(made->numbers, lens.items, lens.count * sizeof(size_t));
    memcpy(made->numbers + made->axes, steps.items, (steps.count < lens.count ? steps.count : lens.count) * sizeof(size_t));
    return (PyObject *)made;
}

#endif
