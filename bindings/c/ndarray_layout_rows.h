/*
 * What ndarray_layout.h has for rows one by one, and includes: those of a view, and those of several views of one shape in step.
 * C89, C99 and C++.
 */
#ifndef NDARRAY_LAYOUT_ROWS_H
#define NDARRAY_LAYOUT_ROWS_H

#ifndef NDARRAY_LAYOUT_H
#error "include ndarray_layout.h, which includes this header"
#endif

/* ---- Axes that are joined -------------------------------------------------------------------------------------------- */

/* (of this header alone) Whether a number names an order. */
ND_INLINE ND_USED int nd_is_order(int32_t order) {
    return order == ND_ROW_MAJOR || order == ND_COLUMN_MAJOR;
}

/* (of this header alone) The axis that moves fastest after so many others. */
ND_INLINE ND_USED size_t nd_axis_after(int32_t order, size_t axes, size_t count) {
    return order == ND_ROW_MAJOR ? axes - 1 - count : count;
}

/* (of this header alone) The axes that are joined of those that move fastest: how many, and the length and the stride of all. */
typedef struct nd_joined {
    size_t count;
    size_t len;
    ptrdiff_t stride;
} nd_joined;

/* (of this header alone) nd_joined_in_all of the axes of one layout but so many that move fastest. */
ND_CHECKED((1, 4)) int32_t nd_join_after(const nd_layout *layout, int32_t order, size_t count, nd_joined *joined) {
    const size_t first = order == ND_ROW_MAJOR ? 0 : count, left = layout->axes - count;
    return nd_joined_in_all(layout->shape + first, left, layout->strides + first, left, order, &joined->stride, 1,
                            &joined->count, &joined->len);
}

/*
 * A layout that has the same places in an order, along fewer axes: neighbours that nd_joined_in_all joins are one, and axes of
 * length 1 are none. A layout without an index is written as it is read. `order`: ND_ROW_MAJOR or ND_COLUMN_MAJOR.
 *
 * ND_BAD_ARGUMENT for the order or the axes; then the statuses of nd_has_overlap.
 *
 *    view: (4,2,3), strides (12,3,1)
 *    nd_layout_join_axes(&view.layout, ND_ROW_MAJOR, &made) == (4,6), strides (12,1)
 */
ND_CHECKED((1, 3)) int32_t nd_layout_join_axes(const nd_layout *layout, int32_t order, nd_layout *joined) {
    nd_layout made;
    nd_joined axis;
    nd_joined axes[ND_MAX_AXES];
    size_t done, at, kept = 0;
    int32_t status;
    if (layout->axes > ND_MAX_AXES || !nd_is_order(order)) return ND_BAD_ARGUMENT;
    status = nd_join_after(layout, order, 0, &axis);
    if (status != ND_OK || nd_layout_size(layout) == 0) return nd_keep(status, layout, joined);
    for (done = 0; done < layout->axes; done += axis.count) {
        status = nd_join_after(layout, order, done, &axis);
        if (status != ND_OK) return status;
        if (axis.len != 1) axes[kept++] = axis;
    }
    made.start = layout->start;
    made.axes = kept;
    for (at = 0; at < kept; at++) {
        const size_t into = nd_axis_after(order, kept, at);
        made.shape[into] = axes[at].len;
        made.strides[into] = axes[at].stride;
    }
    return nd_keep(status, &made, joined);
}

/* ---- Rows of one view ------------------------------------------------------------------------------------------------ */

/*
 * The rows that are still to come: how many are left, the first one's start, all rows' length and stride, and the index and the
 * axes by which they move. (The start is apart from what a row has beside it: a processor waits where it reads two numbers at
 * once of which it has just written one.)
 */
typedef struct nd_row_iter {
    size_t len;
    ptrdiff_t stride;
    size_t left;
    size_t start;
    size_t axes;
    size_t index[ND_MAX_AXES];
    size_t shape[ND_MAX_AXES];
    ptrdiff_t strides[ND_MAX_AXES];
} nd_row_iter;

/* (of this header alone) An iterator without a row. */
ND_INLINE void nd_put_no_row(nd_row_iter *rows) {
    rows->left = 0;
    rows->axes = 0;
    rows->start = 0;
    rows->len = 0;
    rows->stride = 0;
}

/* (of this header alone) The rows of an accepted layout in an order that is one, along axes that are joined. */
ND_INLINE void nd_put_rows(const nd_layout *layout, int32_t order, const nd_joined *row, nd_row_iter *rows) {
    size_t after;
    rows->start = layout->start;
    rows->len = row->len;
    rows->stride = row->stride;
    rows->left = row->len > 0;
    rows->axes = 0;
    for (after = row->count; after < layout->axes; after++) { /* from the axis that moves fastest */
        const size_t axis = nd_axis_after(order, layout->axes, after), len = layout->shape[axis];
        rows->left *= len;
        if (len == 1) continue;
        rows->index[rows->axes] = 0;
        rows->shape[rows->axes] = len;
        rows->strides[rows->axes++] = layout->strides[axis];
    }
}

/* (of this header alone) The axis that moves fastest, where there is one, joined with no other. */
ND_CHECKED((1)) nd_joined nd_fastest(const nd_layout *layout, int32_t order) {
    nd_joined row;
    const size_t axis = layout->axes > 0 ? nd_axis_after(order, layout->axes, 0) : 0;
    row.count = layout->axes > 0;
    row.len = row.count ? layout->shape[axis] : 1;
    row.stride = row.count ? layout->strides[axis] : 0;
    return row;
}

/*
 * Makes the iterator, for nd_next_row, over the rows of a view in an order: those of nd_rows, without a list of their starts.
 * It doesn't refer to the view. A view without axes has one row of one place, one without an index none; after an error the
 * iterator has none. `order`: ND_ROW_MAJOR or ND_COLUMN_MAJOR.
 *
 * ND_BAD_ARGUMENT for the order or the axes; then the statuses of nd_view_check, read-only: an edited layout that leaves its
 * buffer is refused, and each row lies in it.
 *
 *    view: (2,3), strides (-3,1), from 3, over 6
 *    nd_row_iter rows;
 *    nd_view_rows(&view, ND_ROW_MAJOR, &rows) == ND_OK
 *    nd_next_row(&rows, &row) == {3, 3, 1}
 *    nd_next_row(&rows, &row) == {0, 3, 1}
 *    nd_next_row(&rows, &row) == 0
 */
ND_CHECKED((1, 3)) int32_t nd_view_rows(const nd_view *view, int32_t order, nd_row_iter *rows) {
    int32_t status = nd_is_order(order) ? ND_OK : ND_BAD_ARGUMENT;
    nd_put_no_row(rows);
    if (status == ND_OK) status = nd_view_check(view, ND_READ_ONLY);
    if (status == ND_OK) {
        const nd_joined row = nd_fastest(&view->layout, order);
        nd_put_rows(&view->layout, order, &row, rows);
    }
    return status;
}

/*
 * The rows of nd_view_rows along all axes that nd_joined_in_all joins: fewer rows, with the same places in the same order. For
 * loops that don't ask where a row ends.
 *
 *    view: (100,200,3), strides (2400,3,1)
 *    nd_row_iter rows;
 *    nd_view_joined_rows(&view, ND_ROW_MAJOR, &rows) == ND_OK
 *    nd_next_row(&rows, &row) == {0, 600, 1}
 */
ND_CHECKED((1, 3)) int32_t nd_view_joined_rows(const nd_view *view, int32_t order, nd_row_iter *rows) {
    int32_t status = nd_is_order(order) ? ND_OK : ND_BAD_ARGUMENT;
    nd_joined row = {0, 1, 0};
    nd_put_no_row(rows);
    if (status == ND_OK) status = nd_view_check(view, ND_READ_ONLY);
    if (status == ND_OK) status = nd_join_after(&view->layout, order, 0, &row);
    if (status == ND_OK) nd_put_rows(&view->layout, order, &row, rows);
    return status;
}

/* Writes the next row and returns 1; after the last one returns 0, and writes nothing. */
ND_CHECKED((1, 2)) ND_WRAPS int nd_next_row(nd_row_iter *rows, nd_row *row) {
    size_t axis;
    if (rows->left == 0) return 0;
    rows->left--;
    row->start = rows->start;
    row->len = rows->len;
    row->stride = rows->stride;
    for (axis = 0; axis < rows->axes; axis++) {
        rows->start += (size_t)rows->strides[axis];
        if (++rows->index[axis] < rows->shape[axis]) break;
        rows->start -= rows->shape[axis] * (size_t)rows->strides[axis];
        rows->index[axis] = 0;
    }
    return 1;
}

/* ---- Rows of several views in step ----------------------------------------------------------------------------------- */

/* How many views an iterator goes over at most. */
#define ND_MAX_VIEWS 8

/* The rows of several views that are still to come, as nd_row_iter has those of one. */
typedef struct nd_rows_iter {
    size_t len;
    ptrdiff_t strides[ND_MAX_VIEWS];
    size_t views;
    size_t left;
    size_t starts[ND_MAX_VIEWS];
    size_t axes;
    size_t index[ND_MAX_AXES];
    size_t shape[ND_MAX_AXES];
    ptrdiff_t steps[ND_MAX_AXES][ND_MAX_VIEWS];
} nd_rows_iter;

/* (of this header alone) The first axis along which two layouts have other lengths, of those that both have. */
ND_CHECKED((1, 2)) size_t nd_other_length(const nd_layout *first, const nd_layout *second) {
    size_t axis = 0;
    while (axis < first->axes && axis < second->axes && first->shape[axis] == second->shape[axis]) axis++;
    return axis;
}

/* (of this header alone) Why several views aren't of one shape. */
ND_INLINE void nd_put_shapes_reason(const nd_view *const *views, size_t count, nd_reason *reason) {
    const nd_reason none = {ND_OK, ND_RULE_NONE, 0, 0, 0, 0, 0, 0};
    size_t at;
    *reason = none;
    for (at = 1; at < count; at++) {
        const nd_layout *const first = &views[0]->layout, *const other = &views[at]->layout;
        const size_t axis = nd_other_length(first, other);
        if (first->axes == other->axes && axis == first->axes) continue;
        reason->status = ND_INCOMPATIBLE_SHAPE;
        reason->number = (ptrdiff_t)at;
        reason->rule = first->axes == other->axes ? ND_RULE_OTHER_LENGTH : ND_RULE_COUNT;
        reason->axis = first->axes == other->axes ? axis : 0;
        reason->size = first->axes == other->axes ? other->shape[axis] : other->axes;
        reason->other = first->axes == other->axes ? first->shape[axis] : first->axes;
        reason->list = first->axes == other->axes ? 0 : ND_LIST_VIEW;
        return;
    }
}

/* (of this header alone) Which of the rules before their shapes several views break, of those of nd_views_joined_rows. */
ND_CHECKED((1)) int32_t nd_check_views(const nd_view *const *views, size_t count, int32_t order) {
    size_t at;
    int32_t status = nd_is_order(order) && count > 0 && count <= ND_MAX_VIEWS ? ND_OK : ND_BAD_ARGUMENT;
    for (at = 0; status == ND_OK && at < count; at++)
        if (views[at]->layout.axes > ND_MAX_AXES) status = ND_BAD_ARGUMENT;
    for (at = 0; status == ND_OK && at < count; at++) status = nd_view_check(views[at], ND_READ_ONLY);
    return status;
}

/* (of this header alone) Joins the axes that move fastest, of views of one shape, into the length and the strides of rows. */
ND_CHECKED((1, 3, 4)) int32_t nd_join_views(const nd_view *const *views, int32_t order, nd_rows_iter *rows, size_t *count) {
    const size_t axes = views[0]->layout.axes;
    ptrdiff_t strides[ND_MAX_VIEWS * ND_MAX_AXES];
    size_t at, axis;
    for (at = 0; at < rows->views; at++) {
        rows->strides[at] = 0;
        for (axis = 0; axis < axes; axis++) strides[at * axes + axis] = views[at]->layout.strides[axis];
    }
    return nd_joined_in_all(views[0]->layout.shape, axes, strides, rows->views * axes, order, rows->strides, rows->views,
                            count, &rows->len);
}

/* (of this header alone) The rows along axes that are joined, of views of one shape. */
ND_INLINE void nd_put_views(const nd_view *const *views, int32_t order, size_t joined, nd_rows_iter *rows) {
    const size_t axes = views[0]->layout.axes;
    size_t at, after;
    for (at = 0; at < rows->views; at++) rows->starts[at] = views[at]->layout.start;
    rows->left = rows->len > 0;
    rows->axes = 0;
    for (after = joined; after < axes; after++) { /* from the axis that moves fastest */
        const size_t axis = nd_axis_after(order, axes, after), len = views[0]->layout.shape[axis];
        rows->left *= len;
        if (len == 1) continue;
        rows->index[rows->axes] = 0;
        rows->shape[rows->axes] = len;
        for (at = 0; at < rows->views; at++) rows->steps[rows->axes][at] = views[at]->layout.strides[axis];
        rows->axes++;
    }
}

/* nd_views_joined_rows of views that don't lie in one list. */
ND_CHECKED((1, 4)) int32_t nd_views_of_joined_rows(const nd_view *const *views, size_t count, int32_t order,
                                                   nd_rows_iter *rows) {
    nd_reason reason;
    size_t joined = 0;
    int32_t status = nd_check_views(views, count, order);
    rows->left = 0;
    rows->views = count;
    if (status != ND_OK) return status;
    nd_put_shapes_reason(views, count, &reason);
    if (reason.status != ND_OK) return reason.status;
    status = nd_join_views(views, order, rows, &joined);
    if (status == ND_OK) nd_put_views(views, order, joined, rows);
    return status;
}

/* (of this header alone) Where each of up to ND_MAX_VIEWS views of a list lies. */
ND_INLINE void nd_put_pointers(const nd_view *views, size_t count, const nd_view **pointers) {
    size_t at;
    for (at = 0; at < count && at < ND_MAX_VIEWS; at++) pointers[at] = views + at;
}

/*
 * Makes the iterator, for nd_next_rows, over the rows of several views of one shape in an order, in step: along all axes that
 * nd_joined_in_all joins in all of them. So the rows of all views are equally long, and the elements at one position of them are
 * those of one index: for loops that copy, compare or blend. It doesn't refer to the views. `count`: 1 to ND_MAX_VIEWS. After an
 * error the iterator has no row.
 *
 * ND_BAD_ARGUMENT for the order, the count or the axes; then the statuses of nd_view_check, read-only, of each view; then
 * ND_INCOMPATIBLE_SHAPE where a view has another shape than the first one: nd_views_reason says which.
 *
 *    part: (100,200,3), strides (2400,3,1)
 *    whole: (100,200,3), strides (600,3,1)
 *    nd_rows_iter rows;
 *    nd_views_joined_rows((const nd_view[]){part, whole}, 2, ND_ROW_MAJOR, &rows) == ND_OK
 *    rows.len == 600
 *    nd_views_joined_rows(&whole, 1, ND_ROW_MAJOR, &rows) == ND_OK
 *    rows.len == 60000
 */
ND_CHECKED((1, 4)) int32_t nd_views_joined_rows(const nd_view *views, size_t count, int32_t order, nd_rows_iter *rows) {
    const nd_view *pointers[ND_MAX_VIEWS] = {0}; /* (as compilers warn of the rest) */
    nd_put_pointers(views, count, pointers);
    return nd_views_of_joined_rows(pointers, count, order, rows);
}

/*
 * Writes why several views aren't of one shape: of nd_views_joined_rows after its other rules. ND_RULE_COUNT or
 * ND_RULE_OTHER_LENGTH of the first view whose shape is another than that of the first one; `number` is its position.
 *
 * ND_BAD_ARGUMENT for the count or the axes.
 *
 *    one: (2,3), strides (3,1)
 *    wider: (2,4), strides (4,1)
 *    nd_views_reason((const nd_view[]){one, one, wider}, 3, &reason) == ND_INCOMPATIBLE_SHAPE, ND_RULE_OTHER_LENGTH, axis 1,
 *        number 2, size 4, other 3
 */
ND_CHECKED((1, 3)) int32_t nd_views_reason(const nd_view *views, size_t count, nd_reason *reason) {
    const nd_view *pointers[ND_MAX_VIEWS] = {0};
    size_t at;
    if (count == 0 || count > ND_MAX_VIEWS) return ND_BAD_ARGUMENT;
    for (at = 0; at < count; at++)
        if (views[at].layout.axes > ND_MAX_AXES) return ND_BAD_ARGUMENT;
    nd_put_pointers(views, count, pointers);
    nd_put_shapes_reason(pointers, count, reason);
    return ND_OK;
}

/* Writes the next row of each view and returns 1; after the last ones returns 0, and writes nothing. */
ND_CHECKED((1, 2)) ND_WRAPS int nd_next_rows(nd_rows_iter *rows, nd_row *each) {
    size_t at, axis;
    if (rows->left == 0) return 0;
    rows->left--;
    for (at = 0; at < rows->views; at++) {
        each[at].start = rows->starts[at];
        each[at].len = rows->len;
        each[at].stride = rows->strides[at];
    }
    for (axis = 0; axis < rows->axes; axis++) {
        const ptrdiff_t *const steps = rows->steps[axis];
        const size_t len = rows->shape[axis];
        for (at = 0; at < rows->views; at++) rows->starts[at] += (size_t)steps[at];
        if (++rows->index[axis] < len) break;
        for (at = 0; at < rows->views; at++) rows->starts[at] -= len * (size_t)steps[at];
        rows->index[axis] = 0;
    }
    return 1;
}

#endif
