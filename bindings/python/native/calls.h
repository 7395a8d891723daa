/* The public calls of a shape and strides. Each reads its arguments, makes one call of the library, and returns what that writes. */
#ifndef NATIVE_CALLS_H
#define NATIVE_CALLS_H

/* A public call, with its parameters as `Call` has them. */
#define PUBLIC(name, words, array_at) \
    static Call call_of_##name = {#name, words, array_at, 0, 0, 0, 0, {NULL}}; \
    static PyObject *name(PyObject *self, PyObject *const *args, Py_ssize_t count, PyObject *names)

/* Takes the arguments; `v` are their values. */
#define BEGIN(name) \
    TAKEN(taken); \
    PyObject **const v = taken.values; \
    (void)self; \
    if (!take(&call_of_##name, args, count, names, &taken)) return NULL

static PyObject *view_of(size_t start, const List *lens, const List *steps) {
    return PyObject_CallFunction(View, "NNN", PyLong_FromSize_t(start), lengths_of(lens), strides_of(steps));
}

/* ---- Yes or no ------------------------------------------------------------------------------------------------------- */

typedef int32_t (*Say)(const size_t *, size_t, const ptrdiff_t *, size_t, int32_t *);

/* What a call says of a shape and strides. In bytes each element has one axis more, the last or the first. */
static int32_t say(Say call, const Given *of, int items_first, int32_t *answer) {
    const List *const lens = of->lens, *const steps = of->steps;
    LIST(more_lens);
    LIST(more_steps);
    if (!of->in_bytes) return call(lens->items, lens->count, STEPS(steps), steps->count, answer);
    if (!make_room(&more_lens, lens->count + 1) || !make_room(&more_steps, steps->count + 1)) {
        PyErr_Clear();
        return ND_OUT_OF_MEMORY;
    }
    memcpy(more_lens.items + items_first, lens->items, lens->count * sizeof(size_t));
    memcpy(more_steps.items + items_first, steps->items, steps->count * sizeof(size_t));
    more_lens.items[items_first ? 0 : lens->count] = of->itemsize;
    more_steps.items[items_first ? 0 : steps->count] = 1;
    return call(more_lens.items, more_lens.count, STEPS(&more_steps), more_steps.count, answer);
}

static PyObject *fail_to_say(int32_t status, const Given *of) {
    return of->in_bytes ? fail_bytes(status, of) : fail_layout(status, of);
}

static int read_bytes_of(PyObject *array, Given *of);

static PyObject *said(Call *call, PyObject *const *args, Py_ssize_t count, PyObject *names, Say say_it, int items_first) {
    TAKEN(taken);
    GIVEN(of);
    int32_t answer, status;
    if (count != 1 || names != NULL || !read_bytes_of(args[0], &of)) {
        if (!take(call, args, count, names, &taken)) return NULL;
        if (!read_given(taken.values[0], taken.values[1], taken.values[2], &of)) return NULL;
    }
    status = say(say_it, &of, items_first, &answer);
    return status == ND_OK ? PyBool_FromLong(answer) : fail_to_say(status, &of);
}

#define SAYS(name, items_first) \
    PUBLIC(name, "shape strides * itemsize=", 0) { \
        (void)self; \
        return said(&call_of_##name, args, count, names, nd_##name, items_first); \
    }

SAYS(has_overlap, 0)
SAYS(is_contiguous, 0)
SAYS(is_layout_c, 0)
SAYS(is_layout_f, 1)

PUBLIC(has_distinct_places, "shape strides max_work= * itemsize=", 0) {
    GIVEN(of);
    int32_t answer, status;
    BEGIN(has_distinct_places);
    if (!read_given(v[0], v[1], v[3], &of)) return NULL;
    OWNED most = ask("ndarray_layout._sharing", "most_of", v[2] == NULL ? PyTuple_New(0) : Py_BuildValue("(O)", v[2]));
    if (most == NULL) return NULL;
    status = say(nd_has_overlap, &of, 0, &answer);
    if (status != ND_OK) return fail_to_say(status, &of);
    if (!answer) Py_RETURN_TRUE;
    OWNED item = of.in_bytes ? PyLong_FromSize_t(of.itemsize) : Py_NewRef(Py_None);
    return item == NULL ? NULL : ask("ndarray_layout._sharing", "are_distinct",
                                     Py_BuildValue("NNOO", lengths_of(of.lens), strides_of(of.steps), item, most));
}

/* ---- Strides and orders ---------------------------------------------------------------------------------------------- */

static PyObject *strides_by(Call *call, PyObject *const *args, Py_ssize_t count, PyObject *names, int order) {
    TAKEN(taken);
    LIST(lens);
    LIST(steps);
    int32_t status;
    if (!take(call, args, count, names, &taken) || !read_list(taken.values[0], "length", 0, &lens)) return NULL;
    if (!make_room(&steps, lens.count)) return NULL;
    status = (order == ND_ROW_MAJOR ? nd_default_strides : nd_fortran_strides)(lens.items, lens.count, STEPS(&steps), steps.count);
    return status == ND_OK ? strides_of(&steps) : fail(status, "of_size", Py_BuildValue("(N)", lengths_of(&lens)));
}

PUBLIC(default_strides, "shape", -1) {
    (void)self;
    return strides_by(&call_of_default_strides, args, count, names, ND_ROW_MAJOR);
}

PUBLIC(fortran_strides, "shape", -1) {
    (void)self;
    return strides_by(&call_of_fortran_strides, args, count, names, ND_COLUMN_MAJOR);
}

/* Reads an order: C or F, and where there is a layout also A, which is F for what is column-major and not row-major. */
static int read_order(PyObject *order, const Given *of, int32_t *number) {
    int32_t by_columns = 0, by_rows = 0;
    const int is_word = order != NULL && PyUnicode_Check(order) && PyUnicode_GetLength(order) == 1;
    const Py_UCS4 letter = order == NULL ? 'C' : is_word ? PyUnicode_ReadChar(order, 0) : 0;
    *number = ND_ROW_MAJOR;
    if (letter == 'C' || letter == 'c') return 1;
    *number = ND_COLUMN_MAJOR;
    if (letter == 'F' || letter == 'f') return 1;
    if (of == NULL || (letter != 'A' && letter != 'a'))
        return raise_by(NUMBERS, "no_order", Py_BuildValue("OO", order, of == NULL ? Py_False : Py_True)) != NULL;
    if (say(nd_is_layout_f, of, 1, &by_columns) != ND_OK || say(nd_is_layout_c, of, 0, &by_rows) != ND_OK)
        return fail_to_say(ND_OVERFLOW, of) != NULL;
    *number = by_columns && !by_rows ? ND_COLUMN_MAJOR : ND_ROW_MAJOR;
    return 1;
}

/* ---- Places ---------------------------------------------------------------------------------------------------------- */

PUBLIC(place, "start shape strides index * itemsize=", 1) {
    GIVEN(of);
    LIST(index);
    size_t start, found;
    int32_t status;
    BEGIN(place);
    if (!read_number(v[0], "start", 0, &start) || !read_given(v[1], v[2], v[4], &of) || !read_list(v[3], "index", 0, &index)) return NULL;
    status = nd_place(start, of.lens->items, of.lens->count, STEPS(of.steps), of.steps->count, index.items, index.count, &found);
    if (status != ND_OK) return fail_at(status, "of_place", start, &of, Py_BuildValue("(N)", lengths_of(&index)));
    return PyLong_FromSize_t(found);
}

PUBLIC(next_index, "shape index order=", -1) {
    LIST(lens);
    LIST(index);
    int32_t order, has_next, status;
    BEGIN(next_index);
    if (!read_list(v[1], "index", 0, &index) || !read_list(v[0], "length", 0, &lens) || !read_order(v[2], NULL, &order)) return NULL;
    status = nd_next_index(lens.items, lens.count, index.items, index.count, order, &has_next);
    if (status != ND_OK) return fail(status, "of_index", Py_BuildValue("NN", lengths_of(&lens), lengths_of(&index)));
    return has_next ? lengths_of(&index) : Py_NewRef(Py_None);
}

/* Whether places are within the limit, so that they can be counted; else there is an error. */
static int have_places(size_t start, const Given *of) {
    const size_t most = (size_t)PTRDIFF_MAX + 1;
    const int32_t status =
        nd_check_layout(start, of->lens->items, of->lens->count, STEPS(of->steps), of->steps->count, 1, most, ND_READ_ONLY);
    if (status == ND_OK) return 1;
    fail_at(status, "of_check_layout", start, of, Py_BuildValue("iNi", 1, PyLong_FromSize_t(most), 0));
    return 0;
}

/* The product of some lengths, which is within the limit. */
static size_t product_of(const size_t *lens, size_t count) {
    size_t product = 1, at;
    for (at = 0; at < count; at++)
        if (lens[at] == 0) return 0;
    for (at = 0; at < count; at++) product *= lens[at];
    return product;
}

static int has_room_for(List *found, size_t count) {
    if (make_room(found, count)) return 1;
    PyErr_Clear();
    raise_by(REASONS, "no_room", Py_BuildValue("(N)", PyLong_FromSize_t(count)));
    return 0;
}

PUBLIC(places, "start shape strides order= * itemsize=", 1) {
    GIVEN(of);
    LIST(found);
    size_t start;
    int32_t order, status;
    BEGIN(places);
    if (!read_given(v[1], v[2], v[4], &of) || !read_number(v[0], "start", 0, &start) || !have_places(start, &of)) return NULL;
    if (!has_room_for(&found, product_of(of.lens->items, of.lens->count)) || !read_order(v[3], &of, &order)) return NULL;
    Py_BEGIN_ALLOW_THREADS
    status = nd_places(start, of.lens->items, of.lens->count, STEPS(of.steps), of.steps->count, order, found.items, found.count);
    Py_END_ALLOW_THREADS
    return status == ND_OK ? lengths_of(&found) : fail_at(status, "of_places", start, &of, PyTuple_New(0));
}

PUBLIC(rows, "start shape strides order= * itemsize=", 1) {
    GIVEN(of);
    LIST(starts);
    size_t start, length, axes, lines;
    ptrdiff_t stride;
    int32_t order, status;
    BEGIN(rows);
    if (!read_given(v[1], v[2], v[4], &of) || !read_number(v[0], "start", 0, &start) || !have_places(start, &of)) return NULL;
    if (!read_order(v[3], &of, &order)) return NULL;
    axes = of.lens->count;
    lines = product_of(of.lens->items + (order == ND_COLUMN_MAJOR && axes > 0), axes > 0 ? axes - 1 : 0);
    if (!has_room_for(&starts, product_of(of.lens->items, axes) == 0 ? 0 : lines)) return NULL;
    Py_BEGIN_ALLOW_THREADS
    status = nd_rows(start, of.lens->items, of.lens->count, STEPS(of.steps), of.steps->count, order, starts.items, starts.count,
                     &stride, &length);
    Py_END_ALLOW_THREADS
    if (status != ND_OK) return fail_at(status, "of_places", start, &of, PyTuple_New(0));
    return ask("ndarray_layout._rows", "each_row", Py_BuildValue("NnN", lengths_of(&starts), stride, PyLong_FromSize_t(length)));
}

PUBLIC(joined_rows, "start shape strides order= * itemsize=", 1) {
    GIVEN(of);
    size_t start;
    int32_t order;
    BEGIN(joined_rows);
    if (!read_given(v[1], v[2], v[4], &of) || !read_number(v[0], "start", 0, &start) || !have_places(start, &of)) return NULL;
    if (!read_order(v[3], &of, &order)) return NULL;
    return ask("ndarray_layout._rows", "joined", Py_BuildValue("NNNiN", PyLong_FromSize_t(start), lengths_of(of.lens),
                                                               strides_of(of.steps), (int)order, PyLong_FromSize_t(of.itemsize)));
}

/* ---- Slices ---------------------------------------------------------------------------------------------------------- */

PUBLIC(slice_view, "start shape strides elems clamp= * itemsize=", 1) {
    GIVEN(of);
    ELEMS(elems);
    LIST(lens);
    LIST(steps);
    size_t start, first;
    int32_t clamp = 0, status;
    BEGIN(slice_view);
    if (!read_elems(v[3], &elems) || !read_number(v[0], "start", 0, &start) || !read_given(v[1], v[2], v[5], &of)) return NULL;
    if (v[4] != NULL && !read_flag(v[4], "clamp", &clamp)) return NULL;
    if (!make_room(&lens, elems.axes) || !make_room(&steps, elems.axes)) return NULL;
    status = nd_slice(start, of.lens->items, of.lens->count, STEPS(of.steps), of.steps->count, elems.items, elems.count, clamp, &first,
                      lens.items, lens.count, STEPS(&steps), steps.count);
    if (status == ND_OK) return view_of(first, &lens, &steps);
    return fail_at(status, "of_slice", start, &of, Py_BuildValue("Ni", fields_of(&elems), (int)clamp));
}

PUBLIC(slices_intersect, "shape first second clamp=", -1) {
    LIST(lens);
    ELEMS(first);
    ELEMS(second);
    int32_t clamp = 0, answer, status;
    BEGIN(slices_intersect);
    if (!read_elems(v[1], &first) || !read_elems(v[2], &second) || !read_list(v[0], "length", 0, &lens)) return NULL;
    if (v[3] != NULL && !read_flag(v[3], "clamp", &clamp)) return NULL;
    status = nd_slices_intersect(lens.items, lens.count, first.items, first.count, second.items, second.count, clamp, &answer);
    if (status == ND_OK) return PyBool_FromLong(answer);
    return fail(status, "of_slices_intersect",
                Py_BuildValue("NNNi", lengths_of(&lens), fields_of(&first), fields_of(&second), (int)clamp));
}

PUBLIC(picked, "shape elems clamp=", -1) {
    LIST(lens);
    ELEMS(elems);
    size_t found;
    int32_t clamp = 0, status;
    BEGIN(picked);
    if (!read_list(v[0], "length", 0, &lens) || !read_elems(v[1], &elems)) return NULL;
    if (v[2] != NULL && !read_flag(v[2], "clamp", &clamp)) return NULL;
    status = nd_picked(lens.items, lens.count, elems.items, elems.count, clamp, &found);
    if (status == ND_OK) return PyLong_FromSize_t(found);
    return fail(status, "of_picked", Py_BuildValue("NNi", lengths_of(&lens), fields_of(&elems), (int)clamp));
}

/* first_shared(shape, elems, counts): two of many slices that share an index, of `nd_slice_elem` in bytes, and how many each has. */
static PyObject *first_shared(PyObject *self, PyObject *const *args, Py_ssize_t count) {
    LIST(lens);
    LIST(counts);
    char *elems;
    Py_ssize_t size;
    size_t pair[2];
    int32_t found, status;
    (void)self;
    if (count != 3 || !read_list(args[0], "length", 0, &lens) || !read_list(args[2], "count", 0, &counts)) return NULL;
    if (PyBytes_AsStringAndSize(args[1], &elems, &size) < 0) return NULL;
    Py_BEGIN_ALLOW_THREADS
    status = nd_first_intersection(lens.items, lens.count, (const nd_slice_elem *)(void *)elems,
                                   (size_t)size / sizeof(nd_slice_elem), counts.items, counts.count, ND_STRICT, pair, 2, &found);
    Py_END_ALLOW_THREADS
    if (status != ND_OK) return fail(status, "of_size", Py_BuildValue("(N)", lengths_of(&lens)));
    if (!found) Py_RETURN_NONE;
    return Py_BuildValue("NN", PyLong_FromSize_t(pair[0]), PyLong_FromSize_t(pair[1]));
}

/* ---- Shapes ---------------------------------------------------------------------------------------------------------- */

static PyObject *broadcast_shapes(PyObject *self, PyObject *const *args, Py_ssize_t count) {
    LIST(common);
    Py_ssize_t at;
    (void)self;
    for (at = 0; at < count; at++) {
        LIST(shape);
        LIST(both);
        int32_t status;
        if (!read_list(args[at], "length", 0, &shape)) return NULL;
        if (!make_room(&both, common.count > shape.count ? common.count : shape.count)) return NULL;
        status = nd_co_broadcast(common.items, common.count, shape.items, shape.count, both.items, both.count);
        if (status != ND_OK) return fail(status, "of_co_broadcast", Py_BuildValue("NN", lengths_of(&common), lengths_of(&shape)));
        free_list(&common);
        common.items = common.room;
        if (!make_room(&common, both.count)) return NULL;
        memcpy(common.items, both.items, both.count * sizeof(size_t));
    }
    return lengths_of(&common);
}

PUBLIC(broadcast, "shape strides target * itemsize=", 0) {
    GIVEN(of);
    LIST(target);
    LIST(steps);
    int32_t status;
    BEGIN(broadcast);
    if (!read_list(v[2], "length", 0, &target) || !read_given(v[0], v[1], v[3], &of) || !make_room(&steps, target.count)) return NULL;
    status = nd_broadcast(of.lens->items, of.lens->count, STEPS(of.steps), of.steps->count, target.items, target.count, STEPS(&steps),
                          steps.count);
    return status == ND_OK ? strides_of(&steps) : fail_of(status, "of_broadcast", &of, Py_BuildValue("(N)", lengths_of(&target)));
}

PUBLIC(merge_axes, "shape strides take into * itemsize=", 0) {
    GIVEN(of);
    size_t take_axis, into;
    int32_t merged, status;
    BEGIN(merge_axes);
    if (!read_given(v[0], v[1], v[4], &of) || !read_number(v[2], "axis", 0, &take_axis) || !read_number(v[3], "axis", 0, &into)) return NULL;
    status = nd_merge_axes(of.lens->items, of.lens->count, STEPS(of.steps), of.steps->count, take_axis, into, &merged);
    if (status != ND_OK)
        return fail_of(status, "of_merge", &of, Py_BuildValue("NN", PyLong_FromSize_t(take_axis), PyLong_FromSize_t(into)));
    return merged ? Py_BuildValue("NN", lengths_of(of.lens), strides_of(of.steps)) : Py_NewRef(Py_None);
}

/* Reshapes lists; in bytes an axis of length 1 may be left with stride 1, for one element. */
static int32_t reshape_lists(const Given *of, const List *lens, int32_t order, List *steps) {
    const int32_t status =
        nd_reshape(of->lens->items, of->lens->count, STEPS(of->steps), of->steps->count, lens->items, lens->count, order, STEPS(steps), steps->count);
    size_t at;
    for (at = 0; status == ND_OK && of->in_bytes && at < lens->count; at++)
        if (lens->items[at] == 1 && steps->items[at] == 1) steps->items[at] = of->itemsize;
    return status;
}

PUBLIC(reshape, "shape strides new_shape order= * itemsize=", 0) {
    GIVEN(of);
    LIST(lens);
    LIST(steps);
    int32_t order, status;
    BEGIN(reshape);
    if (!read_given(v[0], v[1], v[4], &of) || !read_list(v[2], "length", 0, &lens) || !read_order(v[3], &of, &order)) return NULL;
    if (!make_room(&steps, lens.count)) return NULL;
    status = reshape_lists(&of, &lens, order, &steps);
    return status == ND_OK ? strides_of(&steps) : fail_of(status, "of_reshape", &of, Py_BuildValue("Ni", lengths_of(&lens), (int)order));
}

PUBLIC(permuted_axes, "shape strides axes * itemsize=", 0) {
    GIVEN(of);
    LIST(axes);
    LIST(lens);
    LIST(steps);
    int32_t status;
    BEGIN(permuted_axes);
    if (!read_given(v[0], v[1], v[3], &of) || !read_list(v[2], "axis", 0, &axes)) return NULL;
    if (!make_room(&lens, of.lens->count) || !make_room(&steps, of.lens->count)) return NULL;
    status = nd_permuted_axes(of.lens->items, of.lens->count, STEPS(of.steps), of.steps->count, axes.items, axes.count, lens.items,
                              lens.count, STEPS(&steps), steps.count);
    if (status != ND_OK) return fail_of(status, "of_permuted_axes", &of, Py_BuildValue("(N)", lengths_of(&axes)));
    return Py_BuildValue("NN", lengths_of(&lens), strides_of(&steps));
}

typedef int32_t (*InBlocks)(const size_t *, size_t, const ptrdiff_t *, size_t, const size_t *, size_t, size_t *, size_t, ptrdiff_t *, size_t);

static PyObject *in_blocks(Call *call, PyObject *const *args, Py_ssize_t count, PyObject *names, const char *block_name) {
    TAKEN(taken);
    GIVEN(of);
    LIST(block);
    LIST(lens);
    LIST(steps);
    const int is_window = block_name[0] == 'w';
    const InBlocks make = is_window ? nd_windows : nd_exact_chunks;
    int32_t status;
    if (!take(call, args, count, names, &taken) || !read_given(taken.values[0], taken.values[1], taken.values[3], &of)) return NULL;
    if (!read_list(taken.values[2], block_name, 0, &block)) return NULL;
    if (!make_room(&lens, 2 * of.lens->count) || !make_room(&steps, 2 * of.lens->count)) return NULL;
    status = make(of.lens->items, of.lens->count, STEPS(of.steps), of.steps->count, block.items, block.count, lens.items, lens.count,
                  STEPS(&steps), steps.count);
    if (status == ND_OK) return Py_BuildValue("NN", lengths_of(&lens), strides_of(&steps));
    return fail_of(status, is_window ? "of_windows" : "of_exact_chunks", &of, Py_BuildValue("(N)", lengths_of(&block)));
}

PUBLIC(windows, "shape strides window * itemsize=", 0) {
    (void)self;
    return in_blocks(&call_of_windows, args, count, names, "window");
}

PUBLIC(exact_chunks, "shape strides chunk * itemsize=", 0) {
    (void)self;
    return in_blocks(&call_of_exact_chunks, args, count, names, "chunk");
}

PUBLIC(split_at, "start shape strides axis index * itemsize=", 1) {
    GIVEN(of);
    LIST(lens);
    LIST(steps);
    size_t start, axis, index, starts[2], axes;
    int32_t status;
    BEGIN(split_at);
    if (!read_given(v[1], v[2], v[5], &of) || !read_number(v[3], "axis", 0, &axis) || !read_number(v[4], "index", 0, &index)) return NULL;
    axes = of.lens->count;
    if (!read_number(v[0], "start", 0, &start) || !make_room(&lens, 2 * axes) || !make_room(&steps, axes)) return NULL;
    status = nd_split_at(start, of.lens->items, axes, STEPS(of.steps), of.steps->count, axis, index, starts, 2, lens.items, lens.count,
                         STEPS(&steps), steps.count);
    if (status != ND_OK)
        return fail_at(status, "of_split_at", start, &of, Py_BuildValue("NN", PyLong_FromSize_t(axis), PyLong_FromSize_t(index)));
    return Py_BuildValue("NN",
                         PyObject_CallFunction(View, "NNN", PyLong_FromSize_t(starts[0]), tuple_of(lens.items, axes, 0), strides_of(&steps)),
                         PyObject_CallFunction(View, "NNN", PyLong_FromSize_t(starts[1]), tuple_of(lens.items + axes, axes, 0), strides_of(&steps)));
}

#endif
