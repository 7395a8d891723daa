/* The public calls that say which layouts are accepted, over elements or over bytes, and where they begin there. */
#ifndef NATIVE_ACCEPTED_H
#define NATIVE_ACCEPTED_H

/* ---- Layouts that are accepted --------------------------------------------------------------------------------------- */

static PyObject *lay_over_bytes(PyObject *shape, PyObject *strides, PyObject *itemsize, PyObject *nbytes, PyObject *offset, int32_t writable);

/* Raises ShapeError for a size of elements beside that of items, which they are. */
static int is_beside(size_t elem_size) {
    if (elem_size == 1) return 0;
    raise_by(REASONS, "beside_itemsize", Py_BuildValue("(N)", PyLong_FromSize_t(elem_size)));
    return 1;
}

PUBLIC(layout_start, "shape strides * elem_size= length writable= itemsize=", 0) {
    GIVEN(of);
    size_t elem_size = 1, length, start;
    int32_t writable = 0, status;
    BEGIN(layout_start);
    if ((v[2] != NULL && !read_number(v[2], "elem_size", 0, &elem_size)) || !read_number(v[3], "length", 0, &length)) return NULL;
    if (v[5] != NULL && v[5] != Py_None) {
        if (is_beside(elem_size) || (v[4] != NULL && !read_flag(v[4], "writable", &writable))) return NULL;
        return lay_over_bytes(v[0], v[1], v[5], v[3], NULL, writable);
    }
    if (!read_given(v[0], v[1], NULL, &of) || (v[4] != NULL && !read_flag(v[4], "writable", &writable))) return NULL;
    status = nd_layout_start(of.lens->items, of.lens->count, STEPS(of.steps), of.steps->count, elem_size, length, writable, &start);
    if (status == ND_OK) return PyLong_FromSize_t(start);
    return fail_of(status, "of_layout_start", &of,
                   Py_BuildValue("NNi", PyLong_FromSize_t(elem_size), PyLong_FromSize_t(length), (int)writable));
}

PUBLIC(check_layout, "start shape strides * elem_size= length writable= itemsize=", 1) {
    GIVEN(of);
    size_t start, elem_size = 1, length;
    int32_t writable = 0, status;
    BEGIN(check_layout);
    if (!read_number(v[0], "start", 0, &start)) return NULL;
    if ((v[3] != NULL && !read_number(v[3], "elem_size", 0, &elem_size)) || !read_number(v[4], "length", 0, &length)) return NULL;
    if (v[6] != NULL && v[6] != Py_None) {
        if (is_beside(elem_size) || (v[5] != NULL && !read_flag(v[5], "writable", &writable))) return NULL;
        OWNED found = lay_over_bytes(v[1], v[2], v[6], v[4], v[0], writable);
        return found == NULL ? NULL : Py_NewRef(Py_None);
    }
    if (!read_given(v[1], v[2], NULL, &of) || (v[5] != NULL && !read_flag(v[5], "writable", &writable))) return NULL;
    status = nd_check_layout(start, of.lens->items, of.lens->count, STEPS(of.steps), of.steps->count, elem_size, length, writable);
    if (status == ND_OK) Py_RETURN_NONE;
    return fail_at(status, "of_check_layout", start, &of,
                   Py_BuildValue("NNi", PyLong_FromSize_t(elem_size), PyLong_FromSize_t(length), (int)writable));
}

/* ---- In bytes -------------------------------------------------------------------------------------------------------- */

/* Whether a size divides all strides. */
static int divides_all(size_t size, const List *steps) {
    size_t at;
    for (at = 0; at < steps->count; at++) {
        const ptrdiff_t step = STEPS(steps)[at];
        if ((step < 0 ? (size_t)-(step + 1) + 1 : (size_t)step) % size != 0) return 0;
    }
    return 1;
}

/* Divides strides by a size that divides all. */
static void divide_all(size_t size, List *steps) {
    size_t at;
    if (size <= PTRDIFF_MAX) /* (else each is 0) */
        for (at = 0; size > 1 && at < steps->count; at++) STEPS(steps)[at] /= (ptrdiff_t)size;
}

/* The start of an array over bytes: of elements, or where a stride is no multiple of their size of bytes, with an axis more. */
static int32_t lay_lists_over(const Given *of, size_t nbytes, const size_t *offset, int32_t writable, size_t *start) {
    const size_t unit = divides_all(of->itemsize, of->steps) ? of->itemsize : 1;
    size_t axes = of->lens->count, others = of->steps->count;
    int32_t status;
    LIST(lens);
    LIST(steps);
    if (!make_room(&lens, axes + 1) || !make_room(&steps, others + 1)) {
        PyErr_Clear();
        return ND_OUT_OF_MEMORY;
    }
    memcpy(lens.items, of->lens->items, axes * sizeof(size_t));
    memcpy(steps.items, of->steps->items, others * sizeof(size_t));
    lens.items[axes] = of->itemsize;
    steps.items[others] = 1;
    steps.count = others;
    if (unit == of->itemsize)
        divide_all(unit, &steps);
    else if (product_of(lens.items, axes) != 0)
        axes++, others++;
    if (offset == NULL) {
        status = nd_layout_start(lens.items, axes, STEPS(&steps), others, unit, nbytes / unit, writable, start);
        *start *= unit;
        return status;
    }
    *start = *offset;
    return nd_check_layout(*offset / unit, lens.items, axes, STEPS(&steps), others, unit, (nbytes - *offset % unit) / unit, writable);
}

/* The error of an array that isn't accepted, or of an offset that lies outside of the bytes. */
static PyObject *fail_over(int32_t status, const Given *of, size_t nbytes, PyObject *offset, int32_t writable) {
    PyObject *const unit = PyLong_FromSize_t(of->itemsize), *const room = PyLong_FromSize_t(nbytes);
    PyObject *const arguments = Py_BuildValue("NNNNOO", lengths_of(of->lens), strides_of(of->steps), unit, room, offset, writable ? Py_True : Py_False);
    return status == ND_OK ? raise_by(REASONS, "of_offset", arguments) : fail(status, "of_lay_over", arguments);
}

static PyObject *lay_over_bytes(PyObject *shape, PyObject *strides, PyObject *itemsize, PyObject *nbytes, PyObject *offset, int32_t writable) {
    GIVEN(of);
    size_t room, first = 0, start = 0;
    int32_t status;
    if (!read_given(shape, strides, itemsize, &of) || !read_number(nbytes, "nbytes", 0, &room)) return NULL;
    if (offset == NULL) offset = Py_None;
    OWNED begin = offset == Py_None || PyLong_CheckExact(offset) ? Py_NewRef(offset) : ask(NUMBERS, "integer", Py_BuildValue("Os", offset, "offset"));
    if (begin == NULL) return NULL;
    if (begin != Py_None) first = PyLong_AsSize_t(begin);
    if (first > room) {
        PyErr_Clear();
        return fail_over(ND_OK, &of, room, begin, writable);
    }
    status = lay_lists_over(&of, room, begin == Py_None ? NULL : &first, writable, &start);
    return status == ND_OK ? PyLong_FromSize_t(start) : fail_over(status, &of, room, begin, writable);
}

PUBLIC(lay_over, "shape strides * dtype= nbytes offset= writable= itemsize=", 0) {
    int32_t writable = 0;
    BEGIN(lay_over);
    const int has_dtype = v[2] != NULL && v[2] != Py_None, has_size = v[6] != NULL && v[6] != Py_None;
    OWNED unit = has_size && !has_dtype ? Py_NewRef(v[6])
                                        : ask("ndarray_layout._buffers", "size_of_item",
                                              Py_BuildValue("OO", has_size ? v[6] : Py_None, has_dtype ? v[2] : Py_None));
    if (unit == NULL || (v[5] != NULL && !read_flag(v[5], "writable", &writable))) return NULL;
    return lay_over_bytes(v[0], v[1], unit, v[3], v[4], writable);
}

#endif
