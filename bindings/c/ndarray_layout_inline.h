/*
 * What ndarray_layout.h has beside the calls of the library, and includes: access that is checked, calls for `struct nd_layout`
 * and `struct nd_view`, and elements of slices. C89, C99 and C++; `nd_at` needs C99 or C++11.
 */
#ifndef NDARRAY_LAYOUT_INLINE_H
#define NDARRAY_LAYOUT_INLINE_H

#ifndef NDARRAY_LAYOUT_H
#error "include ndarray_layout.h, which includes this header"
#endif

/* ---- Views: checked access ------------------------------------------------------------------------------------------- */

/*
 * The buffer of a view, which the calls below write: an element may begin at each of `len` places, `place_size` bytes apart,
 * and takes `elem_places` of them. That is 1, and a place has the size of an element; but over bytes (nd_view_over_bytes) a
 * place is a byte, and an element takes as many as it has bytes. An element begins `place * place_size` bytes after place 0.
 * (0 `elem_places`, of a view that no call has made, are 1.)
 */
typedef struct nd_buffer {
    size_t place_size;
    size_t len;
    size_t elem_places;
} nd_buffer;

/*
 * A layout, and the buffer over which it was accepted. `view.layout` may be given to the nd_layout_* functions, and what they
 * make of it may be written there: each new layout lies in every buffer in which the given one lies. Those that take an nd_data
 * count elements: of a view over bytes nd_view_check says what nd_layout_check and nd_view_of say of others.
 */
typedef struct nd_view {
    nd_layout layout;
    nd_buffer data;
} nd_view;

/* (of this header alone) The lists of a layout, with room for an axis along the places of an element. */
typedef struct nd_lists {
    int has_index;
    size_t axes;
    size_t shape[ND_MAX_AXES + 1];
    ptrdiff_t strides[ND_MAX_AXES + 1];
} nd_lists;

/*
 * (of this header alone) Writes the lists of a view's layout; where there is an index and an element takes several places,
 * with an axis along these, which moves fastest in an order. Whether there is room, as there is for every accepted layout.
 */
ND_CHECKED((1, 3)) int nd_put_lists(const nd_view *view, int32_t order, nd_lists *lists) {
    const nd_layout *const layout = &view->layout;
    size_t axis, first;
    int has_places;
    if (layout->axes > ND_MAX_AXES) return 0;
    lists->has_index = 1;
    lists->shape[0] = 0; /* (as in nd_put_shape) */
    lists->strides[0] = 0;
    for (axis = 0; axis < layout->axes; axis++)
        if (layout->shape[axis] == 0) lists->has_index = 0;
    has_places = lists->has_index && view->data.elem_places > 1;
    first = has_places && order == ND_COLUMN_MAJOR;
    for (axis = 0; axis < layout->axes; axis++) {
        lists->shape[first + axis] = layout->shape[axis];
        lists->strides[first + axis] = layout->strides[axis];
    }
    lists->axes = layout->axes + (size_t)has_places;
    if (has_places) lists->shape[first ? 0 : layout->axes] = view->data.elem_places;
    if (has_places) lists->strides[first ? 0 : layout->axes] = 1;
    return 1;
}

/*
 * Whether the layout of a view, as it stands, fits the view's buffer: nd_check_layout, with its statuses. Over bytes, owned, no
 * two elements may share a byte, ND_OVERFLOW counts bytes, and ND_OUT_OF_MEMORY may come where there are more than three
 * axes.
 *
 *    view: (3), strides (3), over 10, of 4 bytes
 *    nd_view_check(&view, ND_READ_ONLY) == ND_OK
 *    nd_view_check(&view, ND_OWNED) == ND_UNSUPPORTED
 */
ND_CHECKED((1)) int32_t nd_view_check(const nd_view *view, int32_t mode) {
    const nd_layout *const of = &view->layout;
    const nd_buffer *const data = &view->data;
    nd_lists lists;
    if (of->axes > ND_MAX_AXES) return ND_BAD_ARGUMENT;
    if (data->elem_places <= 1 || (mode != ND_OWNED && nd_layout_size(of) > 0))
        return nd_check_layout(of->start, of->shape, of->axes, of->strides, of->axes, data->place_size, data->len, mode);
    if (!nd_put_lists(view, ND_ROW_MAJOR, &lists)) return ND_BAD_ARGUMENT;
    return nd_check_layout(of->start, lists.shape, lists.axes, lists.strides, lists.axes, data->place_size,
                           data->len + data->elem_places - 1, mode);
}

/* (of this header alone) The buffer of a view whose places are elements. */
ND_INLINE void nd_put_data(nd_data data, nd_view *view) {
    view->data.place_size = data.elem_size;
    view->data.len = data.len;
    view->data.elem_places = 1;
}

/* Makes a view of a layout that nd_layout_check accepts, with its statuses. The layout may be that of the view. */
ND_CHECKED((1, 4)) int32_t nd_view_of(const nd_layout *layout, nd_data data, int32_t mode, nd_view *view) {
    int32_t status = nd_layout_check(layout, data, mode);
    if (status != ND_OK) return status;
    if (layout != &view->layout) view->layout = *layout;
    nd_put_data(data, view);
    return ND_OK;
}

/* nd_layout_from_shape over a buffer, then nd_view_of. */
ND_CHECKED((6)) int32_t nd_view_from_shape(const size_t *shape, size_t shape_len, int32_t order, nd_data data, int32_t mode,
                                           nd_view *view) {
    nd_layout layout;
    int32_t status = nd_layout_from_shape(shape, shape_len, order, &layout);
    return status == ND_OK ? nd_view_of(&layout, data, mode, view) : status;
}

/* nd_layout_from_strides: the lowest place is 0. */
ND_CHECKED((7)) int32_t nd_view_from_strides(const size_t *shape, size_t shape_len, const ptrdiff_t *strides,
                                             size_t strides_len, nd_data data, int32_t mode, nd_view *view) {
    int32_t status = nd_layout_from_strides(shape, shape_len, strides, strides_len, data, mode, &view->layout);
    if (status == ND_OK) nd_put_data(data, view);
    return status;
}

/* What nd_at and its kin return in place of a place. */
#define ND_NO_PLACE ND_CAST(size_t, -1)

/*
 * nd_at(view, i, j, ..), with 1 to 4 coordinates: the place of the index (i, j, ..), or ND_NO_PLACE where it is no index of
 * the view. nd_at_n: the same of a list of `count` coordinates; none for a view without axes.
 *
 * It compares the count of coordinates with the axes, each coordinate with its length, and the place with `view->data.len`;
 * it calls nothing. Of a view as it was accepted the place is the one that nd_place writes. Where the layout has been edited
 * since, or is stale, each place is still less than `data.len`: unsigned numbers wrap, and they are compared last. So it
 * relies on this alone: the buffer has `data.len` elements. A negative coordinate is a great unsigned one, and no index.
 *
 * For an element alone, and loops over two axes. A loop that reads costs what one by hand does that compares each place, and so
 * does one that writes through a view that the function has itself: made there, sliced there, or copied, `const nd_view own =
 * *view;`. Through a pointer to a view that another function has, writes of bytes cost two to four times as much: take a cursor.
 * A loop that reads neighbours of each element, as a blur does, takes a window of rows by nd_cursor_row, one row for each line
 * that it reads, as the project's bindings/c/examples/blur.c. The mean of 3x3 bytes of 1920x1088 by nd_at, through a pointer, takes
 * 10 to 18 times a loop by hand that compares nothing, by gcc 12 and clang 14, -O2 and -O3; by three rows 1.0 times.
 *
 *    view: (2,3), strides (-3,1), from 3, over 6
 *    nd_at(&view, 1, 2) == 2
 *    nd_at(&view, 2, 0) == ND_NO_PLACE
 *    nd_at(&view, 1) == ND_NO_PLACE
 */
ND_CHECKED((1)) ND_WRAPS size_t nd_at_n(const nd_view *view, const size_t *index, size_t count) {
    size_t place = view->layout.start, axis;
    if (count != view->layout.axes || count > ND_MAX_AXES) return ND_NO_PLACE;
    for (axis = 0; axis < count; axis++) {
        if (index[axis] >= view->layout.shape[axis]) return ND_NO_PLACE;
        place += index[axis] * (size_t)view->layout.strides[axis];
    }
    return place < view->data.len ? place : ND_NO_PLACE;
}

/* (of this header alone) How far a coordinate moves the place, modulo 2^64. */
ND_CHECKED((1)) ND_WRAPS size_t nd_moved(const nd_view *view, size_t axis, size_t coordinate) {
    return coordinate * (size_t)view->layout.strides[axis];
}

/* (all numbers are read before the first is compared, so that a compiler reads them once for a loop, and what changes in the
 * inner loop is compared by itself) */
ND_CHECKED((1)) ND_WRAPS size_t nd_at1(const nd_view *view, size_t i) {
    const size_t place = view->layout.start + nd_moved(view, 0, i), end = view->data.len;
    const size_t axes = view->layout.axes, len = view->layout.shape[0];
    if (axes != 1 || i >= len) return ND_NO_PLACE;
    return place < end ? place : ND_NO_PLACE;
}

ND_CHECKED((1)) ND_WRAPS size_t nd_at2(const nd_view *view, size_t i, size_t j) {
    const size_t place = view->layout.start + nd_moved(view, 0, i) + nd_moved(view, 1, j), end = view->data.len;
    const size_t axes = view->layout.axes, rows = view->layout.shape[0], columns = view->layout.shape[1];
    if (axes != 2 || i >= rows) return ND_NO_PLACE;
    if (j >= columns) return ND_NO_PLACE;
    return place < end ? place : ND_NO_PLACE;
}

ND_CHECKED((1)) ND_WRAPS size_t nd_at3(const nd_view *view, size_t i, size_t j, size_t k) {
    const size_t place = view->layout.start + nd_moved(view, 0, i) + nd_moved(view, 1, j) + nd_moved(view, 2, k);
    const size_t axes = view->layout.axes, end = view->data.len;
    const size_t planes = view->layout.shape[0], rows = view->layout.shape[1], columns = view->layout.shape[2];
    if (axes != 3 || i >= planes || j >= rows) return ND_NO_PLACE;
    if (k >= columns) return ND_NO_PLACE;
    return place < end ? place : ND_NO_PLACE;
}

ND_CHECKED((1)) ND_WRAPS size_t nd_at4(const nd_view *view, size_t i, size_t j, size_t k, size_t l) {
    const size_t outer = view->layout.start + nd_moved(view, 0, i) + nd_moved(view, 1, j);
    const size_t place = outer + nd_moved(view, 2, k) + nd_moved(view, 3, l), end = view->data.len;
    const size_t axes = view->layout.axes, *const shape = view->layout.shape;
    const size_t first = shape[0], second = shape[1], third = shape[2], fourth = shape[3];
    if (axes != 4 || i >= first || j >= second || k >= third) return ND_NO_PLACE;
    if (l >= fourth) return ND_NO_PLACE;
    return place < end ? place : ND_NO_PLACE;
}

#if (defined(__STDC_VERSION__) && __STDC_VERSION__ >= 199901L) || (defined(__cplusplus) && __cplusplus >= 201103L)
#define nd_at(view, ...) ND_AT_OF(__VA_ARGS__, nd_at4, nd_at3, nd_at2, nd_at1, )((view), __VA_ARGS__)
#define ND_AT_OF(i, j, k, l, name, ...) name
#endif

/* ---- Elements of slices ---------------------------------------------------------------------------------------------- */

/*
 * For lists of elements: `const nd_slice_elem crop[2] = {ND_RANGE(1, 5), ND_ALL};`. Bounds below 0 count from the end; an unsigned
 * number past the limit counts from the start, and so lies past every axis. In C89 their arguments are constants. A bound may be
 * evaluated more than once.
 */
#define ND_ALL {ND_SLICE, 0, 0, 0, 1}
#define ND_RANGE(start, end) ND_RANGE_BY(start, end, 1)
#define ND_RANGE_BY(start, end, step) {ND_SLICE, 1, ND_BOUND(start), ND_BOUND(end), ND_CAST(ptrdiff_t, step)}
/* from a coordinate to the end of the axis; from 0 by -1: the axis in the opposite order */
#define ND_FROM(start) ND_FROM_BY(start, 1)
#define ND_FROM_BY(start, step) {ND_SLICE, 0, ND_BOUND(start), 0, ND_CAST(ptrdiff_t, step)}
/* (of this header alone) A number as a bound: the limit where it is greater. */
#define ND_BOUND(number) \
    ((number) > 0 && ND_CAST(ptrdiff_t, number) < 0 ? ND_CAST(ptrdiff_t, ND_CAST(size_t, -1) / 2) : ND_CAST(ptrdiff_t, number))
/* the kinds of these names are numbers, and these macros have parentheses */
#define ND_INDEX(index) {ND_INDEX, 0, ND_BOUND(index), 0, 0}
#define ND_NEW_AXIS() {ND_NEW_AXIS, 0, 0, 0, 0}

/* ---- Calls for one view ---------------------------------------------------------------------------------------------- */

/*
 * nd_has_overlap, nd_is_contiguous, nd_is_layout_c, nd_is_layout_f and nd_stretch of the elements of a view, with their
 * statuses. Over bytes they speak of elements too: whether two may share a byte, whether all lie without a gap, and the bytes
 * in which they lie. There ND_OVERFLOW counts bytes, and ND_OUT_OF_MEMORY may come where there are more than three axes. Of
 * strides in bytes without an index nd_view_is_contiguous reads how many elements they count, rounded towards 0.
 *
 *    view: (2,3), strides (12,4), over 24, of 4 bytes
 *    nd_view_is_contiguous(&view, &answer) == 1
 *    nd_view_is_layout_f(&view, &answer) == 0
 *    less: (2,3), strides (12,4), over 24, of 2 bytes
 *    nd_view_is_contiguous(&less, &answer) == 0
 *    more: (2,3), strides (12,4), over 25, of 5 bytes
 *    nd_view_has_overlap(&more, &answer) == 1
 */
ND_CHECKED((1, 2)) int32_t nd_view_has_overlap(const nd_view *view, int32_t *answer) {
    nd_lists lists;
    if (!nd_put_lists(view, ND_ROW_MAJOR, &lists)) return ND_BAD_ARGUMENT;
    return nd_has_overlap(lists.shape, lists.axes, lists.strides, lists.axes, answer);
}

ND_CHECKED((1, 2)) int32_t nd_view_is_contiguous(const nd_view *view, int32_t *answer) {
    nd_lists lists;
    size_t axis;
    if (!nd_put_lists(view, ND_ROW_MAJOR, &lists)) return ND_BAD_ARGUMENT;
    for (axis = 0; axis < lists.axes; axis++)
        if (!lists.has_index && view->data.elem_places > 1) lists.strides[axis] /= (ptrdiff_t)view->data.elem_places;
    return nd_is_contiguous(lists.shape, lists.axes, lists.strides, lists.axes, answer);
}

ND_CHECKED((1, 2)) int32_t nd_view_is_layout_c(const nd_view *view, int32_t *answer) {
    nd_lists lists;
    if (!nd_put_lists(view, ND_ROW_MAJOR, &lists)) return ND_BAD_ARGUMENT;
    return nd_is_layout_c(lists.shape, lists.axes, lists.strides, lists.axes, answer);
}

ND_CHECKED((1, 2)) int32_t nd_view_is_layout_f(const nd_view *view, int32_t *answer) {
    nd_lists lists;
    if (!nd_put_lists(view, ND_COLUMN_MAJOR, &lists)) return ND_BAD_ARGUMENT;
    return nd_is_layout_f(lists.shape, lists.axes, lists.strides, lists.axes, answer);
}

ND_CHECKED((1, 3, 4, 5)) int32_t nd_view_stretch(const nd_view *view, int32_t order, size_t *first, size_t *end,
                                                 int32_t *found) {
    nd_lists lists;
    if (!nd_put_lists(view, order, &lists)) return ND_BAD_ARGUMENT;
    return nd_stretch(view->layout.start, lists.shape, lists.axes, lists.strides, lists.axes, order, first, end, found);
}

/* ---- Calls for one layout -------------------------------------------------------------------------------------------- */

/* nd_diag: the diagonal, as a layout of one axis. */
ND_CHECKED((1, 2)) int32_t nd_layout_diag(const nd_layout *layout, nd_layout *diagonal) {
    nd_layout made;
    if (layout->axes > ND_MAX_AXES) return ND_BAD_ARGUMENT;
    made.start = layout->start;
    made.axes = 1;
    return nd_keep(nd_diag(layout->shape, layout->axes, layout->strides, layout->axes, made.shape, made.strides), &made,
                   diagonal);
}

/* nd_merge_axes: where the axes don't merge, `merged` is 0 and the layout that is written is the one that is read. */
ND_CHECKED((1, 4, 5)) int32_t nd_layout_merge_axes(const nd_layout *layout, size_t take, size_t into, int32_t *merged,
                                                   nd_layout *made) {
    nd_layout copy;
    if (layout->axes > ND_MAX_AXES) return ND_BAD_ARGUMENT;
    copy = *layout;
    return nd_keep(nd_merge_axes(copy.shape, copy.axes, copy.strides, copy.axes, take, into, merged), &copy, made);
}

/* nd_picked: how many indices a slice leaves. */
ND_CHECKED((1, 5)) int32_t nd_layout_picked(const nd_layout *layout, const nd_slice_elem *elems, size_t elems_len,
                                            int32_t fit, size_t *count) {
    if (layout->axes > ND_MAX_AXES) return ND_BAD_ARGUMENT;
    return nd_picked(layout->shape, layout->axes, elems, elems_len, fit, count);
}

/* nd_slices_intersect: whether two slices share an index. */
ND_CHECKED((1, 7)) int32_t nd_layout_slices_intersect(const nd_layout *layout, const nd_slice_elem *first, size_t first_len,
                                                      const nd_slice_elem *second, size_t second_len, int32_t fit,
                                                      int32_t *answer) {
    if (layout->axes > ND_MAX_AXES) return ND_BAD_ARGUMENT;
    return nd_slices_intersect(layout->shape, layout->axes, first, first_len, second, second_len, fit, answer);
}

/* nd_first_intersection: two of many slices that share an index. `pair`: two numbers. */
ND_CHECKED((1, 7, 8)) int32_t nd_layout_first_intersection(const nd_layout *layout, const nd_slice_elem *elems,
                                                           size_t elems_len, const size_t *counts, size_t counts_len,
                                                           int32_t fit, size_t *pair, int32_t *found) {
    if (layout->axes > ND_MAX_AXES) return ND_BAD_ARGUMENT;
    return nd_first_intersection(layout->shape, layout->axes, elems, elems_len, counts, counts_len, fit, pair, 2, found);
}

/*
 * nd_co_broadcast, and nd_broadcast of both: two layouts read as of the shape that they have in common, in two layouts that
 * are not one. Each may be one that is read.
 */
ND_CHECKED((1, 2, 3, 4)) int32_t nd_layout_co_broadcast(const nd_layout *first, const nd_layout *second,
                                                        nd_layout *new_first, nd_layout *new_second) {
    nd_layout made;
    size_t common[ND_MAX_AXES], axes = first->axes > second->axes ? first->axes : second->axes;
    int32_t status;
    if (axes > ND_MAX_AXES) return ND_BAD_ARGUMENT;
    status = nd_co_broadcast(first->shape, first->axes, second->shape, second->axes, common, axes);
    if (status == ND_OK) status = nd_layout_broadcast(first, common, axes, &made);
    if (status == ND_OK) status = nd_layout_broadcast(second, common, axes, new_second);
    return nd_keep(status, &made, new_first);
}

#endif
