/* Arrays: what is read of NumPy's own, of buffers and of DLPack, and whether two of them, or two keys, share an element. */
#ifndef NATIVE_ARRAYS_H
#define NATIVE_ARRAYS_H

/* What is said of usual arguments; of others UNUSUAL, and FAILED after an error of Python's. */
enum { NO = 0, YES = 1, UNUSUAL = -1, FAILED = -2 };

/* What a function returns that may say nothing: then the package asks anew, and raises the error. */
static PyObject *returned(int said_of) {
    if (said_of == FAILED) return NULL;
    if (said_of == UNUSUAL) Py_RETURN_NONE;
    return PyBool_FromLong(said_of);
}

/* Clears an error: it comes again where the package reads the arguments. Interrupts stay. */
static int unusual_or_failed(void) {
    return comes_again() ? UNUSUAL : FAILED;
}

/* The shape, the strides in bytes and the item size of an array, or of a layout. */
static int read_array(PyObject *array, PyObject **found) {
    static const char *const names[] = {"shape", "strides", "itemsize"};
    int at;
    for (at = 0; at < 3; at++) {
        found[at] = at == 1 && is_layout(array) ? byte_strides((Layout *)array) : PyObject_GetAttrString(array, names[at]);
        if (found[at] != NULL) continue;
        if (PyErr_ExceptionMatches(PyExc_AttributeError)) {
            PyErr_Clear();
            raise_by(NUMBERS, "no_array", Py_BuildValue("(O)", array));
        }
        return 0;
    }
    return 1;
}

static PyObject *ndarray; /* NumPy's class of arrays. (there is none before NumPy is imported) */

static int is_plain(PyObject *array) {
    if (ndarray == NULL) {
        PyObject *const modules = PyImport_GetModuleDict();
        PyObject *const numpy = modules == NULL ? NULL : PyDict_GetItemString(modules, "numpy");
        ndarray = numpy == NULL ? NULL : PyObject_GetAttrString(numpy, "ndarray");
        if (ndarray == NULL) PyErr_Clear();
    }
    return ndarray != NULL && (PyObject *)Py_TYPE(array) == ndarray;
}

static void release(Py_buffer *buffer) {
    if (buffer->obj != NULL) PyBuffer_Release(buffer);
}

#define BUFFER(name) CLEANED(release) Py_buffer name = {0}

/* ---- A layout of an array -------------------------------------------------------------------------------------------- */

/* Reads an array of NumPy's own whose items are numbers, with its strides in elements: 1, or 0 where the package reads it. */
static int read_plain_array(PyObject *array, Py_buffer *buffer, const Given *of, Wanted *wanted) {
    size_t axis, axes;
    if (!is_plain(array)) return 0;
    if (PyObject_GetBuffer(array, buffer, PyBUF_RECORDS_RO) < 0) {
        PyErr_Clear();
        return 0;
    }
    axes = (size_t)buffer->ndim;
    if (axes > ROOM || buffer->format == NULL || buffer->format[0] == 0 || buffer->format[1] != 0) return 0;
    if (strchr("?bBhHiIlLqQefd", buffer->format[0]) == NULL) return 0;
    of->lens->count = of->steps->count = axes;
    for (axis = 0; axis < axes; axis++) {
        of->lens->items[axis] = (size_t)buffer->shape[axis];
        STEPS(of->steps)[axis] = buffer->strides[axis];
    }
    wanted->itemsize = (size_t)buffer->itemsize;
    for (axis = 0; axis < axes && of->lens->items[axis] != 1; axis++) continue;
    if (axis < axes) { /* (where a length is 1 its buffer has other strides than the array says) */
        OWNED strides = PyObject_GetAttrString(array, "strides");
        if (strides == NULL || read_usual(strides, "stride", 1, of->steps) <= 0) PyErr_Clear();
    }
    if (product_of(of->lens->items, axes) == 0)
        memset(of->steps->items, 0, axes * sizeof(size_t));
    else if (!divides_all(wanted->itemsize, of->steps))
        return 0;
    divide_all(wanted->itemsize, of->steps);
    return 1;
}

/* Reads the shape and the strides in bytes of an array of NumPy's own: 1, or 0 where it isn't one with items. */
static int read_bytes_of(PyObject *array, Given *of) {
    BUFFER(buffer);
    int axis;
    if (!is_plain(array) || PyObject_GetBuffer(array, &buffer, PyBUF_STRIDED_RO) < 0) {
        PyErr_Clear();
        return 0;
    }
    if (buffer.ndim > ROOM || buffer.itemsize < 1) return 0;
    of->lens->count = of->steps->count = (size_t)buffer.ndim;
    for (axis = 0; axis < buffer.ndim; axis++) {
        of->lens->items[axis] = (size_t)buffer.shape[axis];
        STEPS(of->steps)[axis] = buffer.strides[axis];
    }
    of->in_bytes = 1;
    of->itemsize = (size_t)buffer.itemsize;
    return 1;
}

/* How many elements a layout covers from its lowest to its highest. */
static size_t extent_of(const Given *of) {
    size_t extent = 1, axis;
    if (product_of(of->lens->items, of->lens->count) == 0) return 0;
    for (axis = 0; axis < of->lens->count; axis++) {
        const ptrdiff_t step = STEPS(of->steps)[axis];
        extent += (of->lens->items[axis] - 1) * (step < 0 ? (size_t)-(step + 1) + 1 : (size_t)step);
    }
    return extent;
}

/* Where an array begins in a base whose items lie side by side: 1, or 0 where the package finds it. */
static int read_base(PyObject *base, const Py_buffer *array, const Given *of, Wanted *wanted) {
    BUFFER(buffer);
    size_t distance;
    if (!is_plain(base) || PyObject_GetBuffer(base, &buffer, PyBUF_ANY_CONTIGUOUS) < 0) {
        PyErr_Clear();
        return 0;
    }
    distance = (size_t)array->buf - (size_t)buffer.buf;
    if (product_of(of->lens->items, of->lens->count) == 0) distance = 0;
    if (buffer.itemsize != array->itemsize || (size_t)array->buf < (size_t)buffer.buf || distance % wanted->itemsize != 0) return 0;
    wanted->has_start = 1;
    wanted->start = distance / wanted->itemsize;
    wanted->length = (size_t)buffer.len / wanted->itemsize;
    return 1;
}

static Call call_of_of = {"of", "array * base= writable=", -1, 0, 0, 0, 0, {NULL}};

/* Layout.of(array, *, base, writable). */
static PyObject *layout_of(PyObject *kind, PyObject *const *args, Py_ssize_t count, PyObject *names) {
    Wanted wanted = {0, 0, 1, (size_t)PTRDIFF_MAX + 1, -1};
    BUFFER(array);
    GIVEN(of);
    TAKEN(taken);
    PyObject **const v = taken.values;
    int32_t status = ND_BAD_ARGUMENT;
    if (!take(&call_of_of, args, count, names, &taken)) return NULL;
    PyObject *const base = v[1] == Py_None ? NULL : v[1];
    if (read_plain_array(v[0], &array, &of, &wanted) && (base == NULL || read_base(base, &array, &of, &wanted))) {
        if (!read_writable(v[2], &wanted.writable)) return NULL;
        status = accept(&of, &wanted);
        if (base == NULL) wanted.length = extent_of(&of);
    }
    if (status == ND_OK) return accepted((PyTypeObject *)kind, &of, &wanted, PyUnicode_FromString(array.format));
    return ask("ndarray_layout._layout", "layout_of",
               Py_BuildValue("OOOO", kind, v[0], base == NULL ? Py_None : base, v[2] == NULL ? Py_None : v[2]));
}

/* ---- Two arrays ------------------------------------------------------------------------------------------------------ */

/* Reads where an array lies in memory, as a view of bytes from address 0. */
static int read_bytes(PyObject *array, Py_buffer *buffer, nd_view *view) {
    int axis;
    if (PyObject_GetBuffer(array, buffer, PyBUF_STRIDED_RO) < 0) return unusual_or_failed();
    if (buffer->ndim > ND_MAX_AXES || buffer->buf == NULL || (size_t)buffer->buf > PTRDIFF_MAX) return UNUSUAL;
    view->layout.start = (size_t)buffer->buf;
    view->layout.axes = (size_t)buffer->ndim;
    for (axis = 0; axis < buffer->ndim; axis++) {
        view->layout.shape[axis] = (size_t)buffer->shape[axis];
        view->layout.strides[axis] = buffer->strides[axis];
    }
    view->data.place_size = 1;
    view->data.len = SIZE_MAX;
    view->data.elem_places = (size_t)buffer->itemsize;
    return YES;
}

static int is_empty(const nd_view *view) {
    return view->data.elem_places == 0 || product_of(view->layout.shape, view->layout.axes) == 0;
}

/* So many steps decide what is usual; of the rest the package goes by groups of strides. */
#define STEPS_HERE 200

/* nd_views_share_element, in fewer steps. */
static int share_views(const nd_view *one, const nd_view *other) {
    nd_sums sums;
    nd_extent first, second;
    size_t wanted, width;
    if (is_empty(one) || is_empty(other)) return NO;
    if (nd_view_check(one, ND_READ_ONLY) != ND_OK || nd_view_check(other, ND_READ_ONLY) != ND_OK) return UNUSUAL;
    sums.count = 0;
    if (nd_add_view(one, &sums, &first) != ND_OK || nd_add_view(other, &sums, &second) != ND_OK) return UNUSUAL;
    if (second.high + second.elem_bytes <= first.low) return NO;
    wanted = second.high + second.elem_bytes - 1 - first.low;
    width = first.elem_bytes + second.elem_bytes - 2;
    nd_add_term(&sums, 1, width < wanted ? width : wanted);
    nd_join_terms(&sums);
    nd_put_reaches(&sums);
    return nd_reaches(&sums, wanted, STEPS_HERE);
}

static void read_places(const Layout *of, nd_view *view) {
    view->layout.start = of->start;
    view->layout.axes = of->axes;
    memcpy(view->layout.shape, lens_of(of), of->axes * sizeof(size_t));
    memcpy(view->layout.strides, steps_of(of), of->axes * sizeof(size_t));
    view->data.place_size = view->data.elem_places = 1;
    view->data.len = SIZE_MAX;
}

/* share(a, b): whether two arrays of NumPy's own share a byte, or two layouts of one buffer a place. */
static PyObject *share(PyObject *self, PyObject *const *args, Py_ssize_t count) {
    BUFFER(of_one);
    BUFFER(of_other);
    nd_view one, other;
    int said_of;
    (void)self;
    if (count != 2) return PyErr_Format(PyExc_TypeError, "share() takes 2 arguments");
    if (is_layout(args[0]) && is_layout(args[1])) {
        const Layout *const a = (Layout *)args[0], *const b = (Layout *)args[1];
        if (a->length != b->length || a->itemsize != b->itemsize || a->axes > ND_MAX_AXES || b->axes > ND_MAX_AXES) Py_RETURN_NONE;
        read_places(a, &one);
        read_places(b, &other);
        return returned(share_views(&one, &other));
    }
    if (!is_plain(args[0]) || !is_plain(args[1])) Py_RETURN_NONE;
    said_of = read_bytes(args[0], &of_one, &one);
    if (said_of == YES) said_of = read_bytes(args[1], &of_other, &other);
    return returned(said_of == YES ? share_views(&one, &other) : said_of);
}

/* ---- Two keys -------------------------------------------------------------------------------------------------------- */

static int keys_intersect(const size_t *shape, size_t axes, const Elems *first, const Elems *second) {
    int32_t answer;
    if (nd_slices_intersect(shape, axes, first->items, first->count, second->items, second->count, ND_STRICT, &answer) != ND_OK)
        return UNUSUAL;
    return answer;
}

/* Reads two usual keys of a shape. */
static int read_keys(PyObject *const *keys, const size_t *shape, size_t axes, Elems *first, Elems *second) {
    if (read_usual_key(keys[0], shape, axes, first) && read_usual_key(keys[1], shape, axes, second)) return YES;
    return PyErr_Occurred() ? unusual_or_failed() : UNUSUAL;
}

/* share_keys(array, first, second): whether two keys of an array whose elements share no byte leave elements that do. */
static PyObject *share_keys(PyObject *self, PyObject *const *args, Py_ssize_t count) {
    BUFFER(buffer);
    ELEMS(first);
    ELEMS(second);
    nd_view view;
    size_t shape[ND_MAX_AXES + 1];
    ptrdiff_t strides[ND_MAX_AXES + 1];
    int32_t may_overlap;
    int said_of;
    (void)self;
    if (count != 3 || !is_plain(args[0])) Py_RETURN_NONE;
    said_of = read_bytes(args[0], &buffer, &view);
    if (said_of != YES || is_empty(&view)) return returned(said_of == YES ? UNUSUAL : said_of);
    memcpy(shape, view.layout.shape, view.layout.axes * sizeof *shape);
    memcpy(strides, view.layout.strides, view.layout.axes * sizeof *strides);
    shape[view.layout.axes] = view.data.elem_places;
    strides[view.layout.axes] = 1;
    if (nd_has_overlap(shape, view.layout.axes + 1, strides, view.layout.axes + 1, &may_overlap) != ND_OK || may_overlap) Py_RETURN_NONE;
    said_of = read_keys(args + 1, shape, view.layout.axes, &first, &second);
    return returned(said_of == YES ? keys_intersect(shape, view.layout.axes, &first, &second) : said_of);
}

/* intersect(shape, first, second): whether two usual keys share an index. */
static PyObject *intersect(PyObject *self, PyObject *const *args, Py_ssize_t count) {
    LIST(shape);
    ELEMS(first);
    ELEMS(second);
    int said_of = UNUSUAL;
    (void)self;
    if (count == 3 && PyTuple_CheckExact(args[0]) && read_usual(args[0], "length", 0, &shape) > 0)
        said_of = read_keys(args + 1, shape.items, shape.count, &first, &second);
    if (PyErr_Occurred()) said_of = unusual_or_failed();
    return returned(said_of == YES ? keys_intersect(shape.items, shape.count, &first, &second) : said_of);
}

/* _intersect(first, second): whether two keys of a layout share an index. */
static PyObject *layout_keys_intersect(PyObject *self, PyObject *const *args, Py_ssize_t count) {
    const Layout *const of = (Layout *)self;
    ELEMS(first);
    ELEMS(second);
    int32_t answer, status;
    if (count != 2) return PyErr_Format(PyExc_TypeError, "_intersect() takes 2 arguments");
    if (!read_usual_key(args[0], lens_of(of), of->axes, &first) || !read_usual_key(args[1], lens_of(of), of->axes, &second)) {
        if (!comes_again() || !read_any_key(args[0], lens_of(of), of->axes, &first)) return NULL;
        if (!read_any_key(args[1], lens_of(of), of->axes, &second)) return NULL;
    }
    status = nd_slices_intersect(lens_of(of), of->axes, first.items, first.count, second.items, second.count, ND_STRICT, &answer);
    if (status == ND_OK) return PyBool_FromLong(answer);
    return fail(status, "of_slices_intersect", Py_BuildValue("NNNi", shape_of(of), fields_of(&first), fields_of(&second), 0));
}

/* share_index(shape, one, other): whether two slices share an index, of `nd_slice_elem` in bytes. */
static PyObject *share_index(PyObject *self, PyObject *const *args, Py_ssize_t count) {
    LIST(shape);
    char *one, *other;
    Py_ssize_t sizes[2];
    int32_t answer;
    (void)self;
    if (count != 3 || !read_list(args[0], "length", 0, &shape)) return NULL;
    if (PyBytes_AsStringAndSize(args[1], &one, &sizes[0]) < 0 || PyBytes_AsStringAndSize(args[2], &other, &sizes[1]) < 0) return NULL;
    if (nd_slices_intersect(shape.items, shape.count, (const nd_slice_elem *)(void *)one, (size_t)sizes[0] / sizeof(nd_slice_elem),
                            (const nd_slice_elem *)(void *)other, (size_t)sizes[1] / sizeof(nd_slice_elem), ND_STRICT, &answer) != ND_OK)
        return PyErr_NoMemory();
    return PyBool_FromLong(answer);
}

/* ---- Memory ---------------------------------------------------------------------------------------------------------- */

/* address(buffer): where the first element of a buffer lies. */
static PyObject *address(PyObject *self, PyObject *value) {
    BUFFER(buffer);
    (void)self;
    if (PyObject_GetBuffer(value, &buffer, PyBUF_FULL_RO) < 0) return NULL;
    return PyLong_FromVoidPtr(buffer.buf);
}

/* `DLTensor`, as DLPack declares it. Strides count elements, and may be none. */
typedef struct {
    void *data;
    int32_t device;
    int32_t device_id;
    int32_t ndim;
    uint8_t code;
    uint8_t bits;
    uint16_t lanes;
    int64_t *shape;
    int64_t *strides;
    uint64_t byte_offset;
} Tensor;

static PyObject *tuple_of_int64(const int64_t *numbers, int32_t count) {
    size_t found[64];
    int32_t at;
    for (at = 0; at < count; at++) found[at] = (size_t)numbers[at];
    return tuple_of(found, (size_t)count, 1);
}

/* tensor(capsule): shape, strides or None, code, bits, lanes, address and device of a tensor; of one with too many axes their count. */
static PyObject *tensor(PyObject *self, PyObject *capsule) {
    const Tensor *const of = PyCapsule_GetPointer(capsule, "dltensor");
    (void)self;
    if (of == NULL) return NULL;
    if (of->ndim < 0 || of->ndim > 64) return PyLong_FromLong(of->ndim);
    return Py_BuildValue("NNiiiNi", tuple_of_int64(of->shape, of->ndim),
                         of->strides == NULL ? Py_NewRef(Py_None) : tuple_of_int64(of->strides, of->ndim), of->code, of->bits, of->lanes,
                         PyLong_FromUnsignedLongLong(of->data == NULL ? 0 : (uint64_t)(size_t)of->data + of->byte_offset), (int)of->device);
}

#endif
