/*
 * What ndarray_layout.h has for reasons, and includes: a reason as a sentence, and the reasons of calls for `struct nd_layout` and
 * `struct nd_view`, by the caller's axes. C89, C99 and C++.
 */
#ifndef NDARRAY_LAYOUT_REASONS_H
#define NDARRAY_LAYOUT_REASONS_H

#ifndef NDARRAY_LAYOUT_H
#error "include ndarray_layout.h, which includes this header"
#endif

/* ---- As sentences ---------------------------------------------------------------------------------------------------- */

/*
 * (of this header alone) What a rule says, with its field after each %: a is the axis, n the number, s the size, o the other
 * one, b the list of a block, u the unit, l the limit, r the room. (The package for Python has these sentences as well, which its
 * tests compare.)
 */
ND_INLINE ND_USED const char *nd_rule_text(int32_t rule) {
    switch (rule) {
    case ND_RULE_NONE: return "no rule is broken";
    case ND_RULE_COUNT: return "a list of another count than there are axes";
    case ND_RULE_INDEX: return "axis %a: index %n is out of bounds of length %s";
    case ND_RULE_BOUND: return "axis %a: bound %n is past length %s, and isn't clamped";
    case ND_RULE_STEP: return "axis %a: the step is 0";
    case ND_RULE_SIZE: return "the product of the lengths that are not 0 is above the limit %l";
    case ND_RULE_SPAN: return "the span is above the limit %l (in %u)";
    case ND_RULE_BYTES: return "span %s times the element size %o is above the limit %l (in bytes)";
    case ND_RULE_LOWEST: return "the lowest place, %s before the start %o, is below 0 (in %u)";
    case ND_RULE_HIGHEST: return "the highest place, %s after the start %o, is above the limit %l (in %u)";
    case ND_RULE_LENGTH: return "the highest place %s is past a buffer of %o %u";
    case ND_RULE_ALIAS:
        return "axis %a: two indices may have one place, so it isn't writable: stride %n isn't past %s, the reach of the axes "
               "with no greater stride (in %u)";
    case ND_RULE_OTHER_SIZE: return "the new shape has %s indices, and the layout has %o";
    case ND_RULE_COPY:
        return "axis %a: the new shape joins it to the axis read before it, whose stride isn't length %s times stride %n "
               "(in %u)";
    case ND_RULE_MISSING: return "axis %a: it is missing, where each of %o axes has to be once";
    case ND_RULE_COORDINATE: return "axis %a: index %s is out of bounds of length %o";
    case ND_RULE_COMMON: return "axis %a: lengths %s and %o have none in common";
    case ND_RULE_STRETCH: return "axis %a: length %s can't be broadcast to %o";
    case ND_RULE_EMPTY: return "axis %a: the length of a %b is 0, and has to be above 0";
    case ND_RULE_AXIS: return "axis %a: there are %s axes, counted from 0";
    case ND_RULE_SAME_AXIS: return "axis %a: it can't be merged into itself";
    case ND_RULE_SPLIT: return "axis %a: index %o is past length %s";
    case ND_RULE_OTHER_LENGTH: return "axis %a: view %n has length %s, and the first one %o";
    case ND_RULE_ROOM: return "a layout would have %s axes, and there is room for %r";
    default: return "a number that is no rule";
    }
}

/* (of this header alone) What ND_RULE_COUNT says of a list. */
ND_INLINE ND_USED const char *nd_count_text(int32_t list) {
    switch (list) {
    case ND_LIST_STRIDES: return "the shape has %o lengths and the strides have %s, one for each axis is needed";
    case ND_LIST_SLICE: return "the slice has %s elements for %o axes, and needs one for each";
    case ND_LIST_INDEX: return "%s coordinates for %o axes";
    case ND_LIST_AXES: return "%s axes are listed of %o";
    case ND_LIST_TARGET: return "%o axes can't be broadcast to %s";
    case ND_LIST_WINDOW: return "a window has %s lengths for %o axes, and needs one for each";
    case ND_LIST_CHUNK: return "a chunk has %s lengths for %o axes, and needs one for each";
    case ND_LIST_VIEW: return "view %n has %s axes, and the first one %o";
    default: return nd_rule_text(ND_RULE_COUNT);
    }
}

/* (of this header alone) Room for a text, and how long all of it is, whether there is room for it or not. */
typedef struct nd_writer {
    char *text;
    size_t size;
    size_t len;
} nd_writer;

ND_INLINE void nd_write_char(nd_writer *to, char one) {
    if (to->len + 1 < to->size) to->text[to->len] = one;
    to->len++;
}

ND_INLINE void nd_write_digits(nd_writer *to, size_t number) {
    char digits[24]; /* 64 bits have 20 digits at most */
    size_t count = 0;
    do {
        digits[count++] = (char)('0' + number % 10);
        number /= 10;
    } while (number > 0);
    while (count > 0) nd_write_char(to, digits[--count]);
}

ND_INLINE void nd_write_word(nd_writer *to, const char *word) {
    while (*word != 0) nd_write_char(to, *word++);
}

/* (of this header alone) Writes a number: one of 2**32 or more that is a power of two, or the one before it, by its exponent. */
ND_INLINE ND_WRAPS void nd_write_number(nd_writer *to, size_t number, int is_negative) {
    const int is_power = (number & (number - 1)) == 0, is_before = !is_negative && (number & (number + 1)) == 0;
    size_t bits = 0, rest;
    for (rest = number; rest > 0; rest >>= 1) bits++;
    if (is_negative) nd_write_char(to, '-');
    if (bits <= 32 || (!is_power && !is_before)) {
        nd_write_digits(to, number);
        return;
    }
    nd_write_word(to, "2**");
    nd_write_digits(to, is_power ? bits - 1 : bits);
    if (!is_power) nd_write_word(to, " - 1");
}

/* (of this header alone) Writes a field of a reason, by its letter. */
ND_INLINE void nd_write_field(nd_writer *to, const nd_reason *reason, char field) {
    const ptrdiff_t number = reason->number;
    if (field == 'n') nd_write_number(to, number < 0 ? (size_t)-(number + 1) + 1 : (size_t)number, number < 0);
    if (field == 'a') nd_write_number(to, reason->axis, 0);
    if (field == 's') nd_write_number(to, reason->size, 0);
    if (field == 'o') nd_write_number(to, reason->other, 0);
    if (field == 'l') nd_write_number(to, (size_t)-1 / 2, 0);
    if (field == 'r') nd_write_number(to, ND_MAX_AXES, 0);
    if (field == 'b') nd_write_word(to, reason->list == ND_LIST_WINDOW ? "window" : "chunk");
    if (field == 'u') nd_write_word(to, reason->unit == ND_BYTES ? "bytes" : "elements");
}

/*
 * Writes a reason as a sentence, in ASCII, and returns how many bytes it has, without the 0 that ends it. As snprintf: where
 * there is room for `size` bytes, at most that many are written, the last one a 0; `text` may be null where `size` is 0.
 *
 * Numbers past 32 bits that are a power of two, or one less, are written so. The package for Python says the same, and adds what
 * Python alone can do, after a semicolon.
 *
 * ND_RULE_INDEX, axis 2, number 9, size 5: 'axis 2: index 9 is out of bounds of length 5', 44. ND_RULE_SPAN: 'the span is above
 * the limit 2**63 - 1 (in elements)'.
 */
ND_INLINE size_t nd_reason_text(const nd_reason *reason, char *text, size_t size) {
    const char *rest = reason->rule == ND_RULE_COUNT ? nd_count_text(reason->list) : nd_rule_text(reason->rule);
    nd_writer to;
    to.text = text;
    to.size = size;
    to.len = 0;
    for (; *rest != 0; rest++) {
        if (*rest == '%')
            nd_write_field(&to, reason, *++rest);
        else
            nd_write_char(&to, *rest);
    }
    if (size > 0) text[to.len < size ? to.len : size - 1] = 0;
    return to.len;
}

/* ---- Of calls for one layout ----------------------------------------------------------------------------------------- */

/* (of this header alone) A reason of a rule that has two sizes alone. */
ND_INLINE void nd_put_reason(int32_t status, int32_t rule, size_t size, size_t other, nd_reason *reason) {
    const nd_reason none = {ND_OK, ND_RULE_NONE, 0, 0, 0, 0, 0, 0};
    *reason = none;
    reason->status = status;
    reason->rule = rule;
    reason->size = size;
    reason->other = other;
}

/* (of this header alone) Whether there is no room for so many axes: the reason. */
ND_CHECKED((2)) int nd_has_no_room(size_t axes, nd_reason *reason) {
    if (axes > ND_MAX_AXES) nd_put_reason(ND_BAD_ARGUMENT, ND_RULE_ROOM, axes, 0, reason);
    return axes > ND_MAX_AXES;
}

/* (of this header alone) Why there is no room for so many axes, or else why the layout breaks a rule wherever it starts. */
ND_CHECKED((1, 3)) int32_t nd_reason_of_layout(const nd_layout *layout, size_t new_axes, nd_reason *reason) {
    if (nd_has_no_room(layout->axes > new_axes ? layout->axes : new_axes, reason)) return ND_OK;
    return nd_layout_start_reason(layout->shape, layout->axes, layout->strides, layout->axes, 1, (size_t)-1, ND_READ_ONLY,
                                  reason);
}

/* (of this header alone) The same where there are twice as many new axes as the layout has. */
ND_CHECKED((1, 2)) int32_t nd_reason_of_blocks(const nd_layout *layout, nd_reason *reason) {
    if (nd_has_no_room(layout->axes, reason)) return ND_OK;
    return nd_reason_of_layout(layout, 2 * layout->axes, reason);
}

/* (of this header alone) The same as nd_reason_of_layout from where it starts. */
ND_CHECKED((1, 3)) int32_t nd_reason_of_layout_from(const nd_layout *layout, size_t new_axes, nd_reason *reason) {
    if (nd_has_no_room(layout->axes > new_axes ? layout->axes : new_axes, reason)) return ND_OK;
    return nd_check_layout_reason(layout->start, layout->shape, layout->axes, layout->strides, layout->axes, 1, (size_t)-1,
                                  ND_READ_ONLY, reason);
}

/*
 * Why the calls of these names return their status: ND_RULE_ROOM, then the rules on the layout, then those of the call. Each
 * writes a reason and returns ND_OK; or it writes nothing and returns ND_BAD_ARGUMENT for a mode, an order, a fit or a kind of
 * element, or ND_OUT_OF_MEMORY, as nd_layout_start_reason does.
 *
 *    view: (2,3), strides (3,1)
 *    const nd_slice_elem elems[2] = {ND_INDEX(0), ND_INDEX(9)};
 *    nd_layout_slice_reason(&view.layout, elems, 2, ND_STRICT, &reason) == ND_OUT_OF_BOUNDS, ND_RULE_INDEX, axis 1, number 9,
 *        size 3
 */
ND_CHECKED((1, 4)) int32_t nd_layout_check_reason(const nd_layout *layout, nd_data data, int32_t mode, nd_reason *reason) {
    if (nd_has_no_room(layout->axes, reason)) return ND_OK;
    return nd_check_layout_reason(layout->start, layout->shape, layout->axes, layout->strides, layout->axes, data.elem_size,
                                  data.len, mode, reason);
}

ND_CHECKED((1, 5)) int32_t nd_layout_slice_reason(const nd_layout *layout, const nd_slice_elem *elems, size_t elems_len,
                                                  int32_t fit, nd_reason *reason) {
    nd_reason of_elems, of_layout;
    size_t elem, axes = 0;
    int32_t status;
    for (elem = 0; elem < elems_len; elem++)
        if (elems[elem].kind != ND_INDEX) axes++;
    if (nd_has_no_room(layout->axes > axes ? layout->axes : axes, reason)) return ND_OK;
    status = nd_slice_reason(layout->shape, layout->axes, elems, elems_len, fit, &of_elems);
    if (status == ND_OK) status = nd_reason_of_layout_from(layout, axes, &of_layout);
    if (status == ND_OK) *reason = of_layout.status != ND_OK ? of_layout : of_elems;
    return status;
}

ND_CHECKED((1, 4)) int32_t nd_layout_permuted_axes_reason(const nd_layout *layout, const size_t *axes, size_t axes_len,
                                                          nd_reason *reason) {
    const int32_t status = nd_reason_of_layout(layout, 0, reason);
    if (status != ND_OK || reason->status != ND_OK) return status;
    return nd_permuted_axes_reason(layout->shape, layout->axes, axes, axes_len, reason);
}

ND_CHECKED((1, 5)) int32_t nd_layout_reshape_reason(const nd_layout *layout, const size_t *new_shape, size_t new_shape_len,
                                                    int32_t order, nd_reason *reason) {
    if (nd_has_no_room(layout->axes > new_shape_len ? layout->axes : new_shape_len, reason)) return ND_OK;
    return nd_reshape_reason(layout->shape, layout->axes, layout->strides, layout->axes, new_shape, new_shape_len, order, reason);
}

ND_CHECKED((1, 4)) int32_t nd_layout_broadcast_reason(const nd_layout *layout, const size_t *target, size_t target_len,
                                                      nd_reason *reason) {
    const int32_t status = nd_reason_of_layout(layout, target_len, reason);
    if (status != ND_OK || reason->status != ND_OK) return status;
    return nd_broadcast_reason(layout->shape, layout->axes, target, target_len, reason);
}

ND_CHECKED((1, 4)) int32_t nd_layout_windows_reason(const nd_layout *layout, const size_t *window, size_t window_len,
                                                    nd_reason *reason) {
    const int32_t status = nd_reason_of_blocks(layout, reason);
    if (status != ND_OK || reason->status != ND_OK) return status;
    return nd_windows_reason(layout->shape, layout->axes, window, window_len, reason);
}

ND_CHECKED((1, 4)) int32_t nd_layout_exact_chunks_reason(const nd_layout *layout, const size_t *chunk, size_t chunk_len,
                                                         nd_reason *reason) {
    const int32_t status = nd_reason_of_blocks(layout, reason);
    if (status != ND_OK || reason->status != ND_OK) return status;
    return nd_exact_chunks_reason(layout->shape, layout->axes, chunk, chunk_len, reason);
}

ND_CHECKED((1, 4)) int32_t nd_layout_split_at_reason(const nd_layout *layout, size_t axis, size_t index, nd_reason *reason) {
    const int32_t status = nd_reason_of_layout_from(layout, 0, reason);
    if (status != ND_OK || reason->status != ND_OK) return status;
    return nd_split_at_reason(layout->shape, layout->axes, axis, index, reason);
}

ND_CHECKED((1, 4)) int32_t nd_layout_merge_axes_reason(const nd_layout *layout, size_t take, size_t into, nd_reason *reason) {
    const int32_t status = nd_reason_of_layout(layout, 0, reason);
    if (status != ND_OK || reason->status != ND_OK) return status;
    return nd_merge_axes_reason(layout->shape, layout->axes, take, into, reason);
}

/* ---- Of new views ---------------------------------------------------------------------------------------------------- */

/* Why nd_view_from_strides, and nd_layout_from_strides, return their status. */
ND_CHECKED((7)) int32_t nd_view_from_strides_reason(const size_t *shape, size_t shape_len, const ptrdiff_t *strides,
                                                    size_t strides_len, nd_data data, int32_t mode, nd_reason *reason) {
    if (nd_has_no_room(shape_len, reason)) return ND_OK;
    return nd_layout_start_reason(shape, shape_len, strides, strides_len, data.elem_size, data.len, mode, reason);
}

/*
 * Why nd_view_over_bytes returns its status. Spans, reaches, strides and places count bytes, and so says `unit`. An `elem_size`
 * past the limit is ND_RULE_BYTES, of size 1. ND_BAD_ARGUMENT for a mode that is none, or an `elem_size` of 0; ND_OUT_OF_MEMORY
 * as nd_layout_start_reason, where there are more than three axes.
 *
 *    const size_t shape[1] = {3};
 *    const ptrdiff_t strides[1] = {7};
 *    nd_view_over_bytes_reason(2, shape, 1, strides, 1, 4, 19, ND_READ_ONLY, &reason) == ND_OUT_OF_BOUNDS, ND_RULE_LENGTH,
 *        unit ND_BYTES, size 19, other 19
 *    nd_view_over_bytes_reason(0, shape, 1, strides, 1, 8, 99, ND_OWNED, &reason) == ND_UNSUPPORTED, ND_RULE_ALIAS, axis 0,
 *        unit ND_BYTES, number 7, size 7
 */
ND_CHECKED((9)) int32_t nd_view_over_bytes_reason(size_t offset, const size_t *shape, size_t shape_len,
                                                  const ptrdiff_t *byte_strides, size_t strides_len, size_t elem_size,
                                                  size_t nbytes, int32_t mode, nd_reason *reason) {
    nd_view view;
    nd_lists lists;
    int32_t status;
    if ((mode != ND_READ_ONLY && mode != ND_OWNED) || elem_size == 0) return ND_BAD_ARGUMENT;
    if (nd_has_no_room(shape_len, reason)) return ND_OK;
    status = nd_put_bytes(shape, shape_len, byte_strides, strides_len, elem_size, nbytes, &view);
    if (status == ND_INCOMPATIBLE_LAYOUT) {
        nd_put_reason(status, ND_RULE_COUNT, strides_len, shape_len, reason);
        reason->list = ND_LIST_STRIDES;
    }
    if (status == ND_OVERFLOW) nd_put_reason(status, ND_RULE_BYTES, 1, elem_size, reason);
    if (status != ND_OK || !nd_put_lists(&view, ND_ROW_MAJOR, &lists)) return ND_OK;
    status = nd_check_layout_reason(offset, lists.shape, lists.axes, lists.strides, lists.axes, 1, nbytes, mode, reason);
    if (status == ND_OK && reason->rule >= ND_RULE_SPAN && reason->rule <= ND_RULE_ALIAS) reason->unit = ND_BYTES;
    return status;
}

#endif
