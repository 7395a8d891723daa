/* What ndarray_layout.h has for strides in bytes, and includes: their like in elements, views over bytes, planes. C89, C99, C++. */
#ifndef NDARRAY_LAYOUT_BYTES_H
#define NDARRAY_LAYOUT_BYTES_H

#ifndef NDARRAY_LAYOUT_H
#error "include ndarray_layout.h, which includes this header"
#endif

/*
 * Writes strides that are given in bytes, as a picture's linesize is, as strides in elements. `strides`: `count` of them, which
 * may be the list that is read.
 *
 * ND_BAD_ARGUMENT: `elem_size` is 0 or past the limit. ND_INCOMPATIBLE_LAYOUT: a stride is no multiple of it, as one of packed
 * records may be: nd_view_over_bytes takes such strides too.
 *
 *    ptrdiff_t strides[2] = {-12, 4};
 *    nd_strides_from_bytes(strides, 2, 4, strides) == ND_OK
 *    strides[0] == -3
 *    nd_strides_from_bytes(strides, 2, 4, strides) == ND_INCOMPATIBLE_LAYOUT
 */
ND_INLINE ND_USED int32_t nd_strides_from_bytes(const ptrdiff_t *byte_strides, size_t count, size_t elem_size,
                                                ptrdiff_t *strides) {
    const ptrdiff_t size = (ptrdiff_t)elem_size;
    size_t axis;
    if (elem_size == 0 || elem_size > (size_t)-1 / 2) return ND_BAD_ARGUMENT;
    for (axis = 0; axis < count; axis++)
        if (byte_strides[axis] % size != 0) return ND_INCOMPATIBLE_LAYOUT;
    for (axis = 0; axis < count; axis++) strides[axis] = byte_strides[axis] / size;
    return ND_OK;
}

/*
 * (of this header alone) Writes a view over bytes as it is asked for, from byte 0, before the library's calls look at it; the
 * first status of nd_view_over_bytes that says no.
 */
ND_CHECKED((7)) int32_t nd_put_bytes(const size_t *shape, size_t shape_len, const ptrdiff_t *byte_strides, size_t strides_len,
                                     size_t elem_size, size_t nbytes, nd_view *view) {
    size_t axis;
    if (elem_size == 0 || !nd_put_shape(&view->layout, shape, shape_len)) return ND_BAD_ARGUMENT;
    if (strides_len != shape_len) return ND_INCOMPATIBLE_LAYOUT;
    if (elem_size > (size_t)-1 / 2) return ND_OVERFLOW;
    for (axis = 0; axis < shape_len; axis++) view->layout.strides[axis] = byte_strides[axis];
    view->layout.start = 0;
    view->data.place_size = 1;
    view->data.len = nbytes < elem_size ? 0 : nbytes - elem_size + 1;
    view->data.elem_places = elem_size;
    return ND_OK;
}

/*
 * Makes a view of elements of `elem_size` bytes, whose first one, (0, .., 0), begins at byte `offset` of a buffer of `nbytes`
 * bytes. Strides count bytes, and may be any. So do the places of the view: that of an index is where its element's first byte
 * lies, to be read by `memcpy` where it isn't aligned. `data.len` is how many bytes an element may begin at, `data.place_size`
 * 1 and `data.elem_places` `elem_size`. Where there is no index, the view has the start 0 and strides 0.
 *
 * ND_BAD_ARGUMENT: a mode that is none, too many axes, or an `elem_size` of 0. ND_INCOMPATIBLE_LAYOUT: not one stride for each
 * length. ND_OVERFLOW: an `elem_size` past the limit. Then the statuses of nd_check_layout for the bytes of all elements:
 * owned, no two elements may share a byte. ND_OUT_OF_MEMORY may come where there are more than three axes.
 *
 *    view: (3), strides (7), from 2, over 20, of 4 bytes
 *    nd_at(&view, 2) == 16
 *    view.data.len == 17
 */
ND_CHECKED((9)) int32_t nd_view_over_bytes(size_t offset, const size_t *shape, size_t shape_len, const ptrdiff_t *byte_strides,
                                           size_t strides_len, size_t elem_size, size_t nbytes, int32_t mode, nd_view *view) {
    nd_view made;
    nd_lists lists;
    size_t axis;
    int32_t status;
    if (mode != ND_READ_ONLY && mode != ND_OWNED) return ND_BAD_ARGUMENT;
    status = nd_put_bytes(shape, shape_len, byte_strides, strides_len, elem_size, nbytes, &made);
    if (status != ND_OK) return status;
    if (!nd_put_lists(&made, ND_ROW_MAJOR, &lists)) return ND_BAD_ARGUMENT;
    status = nd_check_layout(offset, lists.shape, lists.axes, lists.strides, lists.axes, 1, nbytes, mode);
    if (status != ND_OK) return status;
    if (lists.has_index) made.layout.start = offset;
    for (axis = 0; axis < shape_len; axis++)
        if (!lists.has_index) made.layout.strides[axis] = 0;
    *view = made;
    return ND_OK;
}

/*
 * nd_view_over_bytes where the lowest byte of all elements is byte 0 of the buffer: a picture whose lines are stored from the
 * last to the first has a negative linesize, and begins at its last line. The statuses of nd_view_over_bytes.
 *
 * (2,3), strides (-12,4), of 4 bytes: fits 24 bytes, and (0,0) begins at byte 12.
 */
ND_CHECKED((8)) int32_t nd_view_from_byte_strides(const size_t *shape, size_t shape_len, const ptrdiff_t *byte_strides,
                                                  size_t strides_len, size_t elem_size, size_t nbytes, int32_t mode,
                                                  nd_view *view) {
    nd_view made;
    nd_lists lists;
    size_t offset = 0;
    int32_t status;
    if (mode != ND_READ_ONLY && mode != ND_OWNED) return ND_BAD_ARGUMENT;
    status = nd_put_bytes(shape, shape_len, byte_strides, strides_len, elem_size, nbytes, &made);
    if (status != ND_OK) return status;
    if (!nd_put_lists(&made, ND_ROW_MAJOR, &lists)) return ND_BAD_ARGUMENT;
    status = nd_layout_start(lists.shape, lists.axes, lists.strides, lists.axes, 1, nbytes, mode, &offset);
    if (status != ND_OK) return status;
    return nd_view_over_bytes(offset, shape, shape_len, byte_strides, strides_len, elem_size, nbytes, mode, view);
}

/* ---- Planes ---------------------------------------------------------------------------------------------------------- */

/*
 * A plane of samples, as codecs and drivers describe one: `rows` rows of `columns` samples. A row begins `pitch` bytes after the one
 * above it, and a sample `step` bytes after the one to its left; both may be negative. Row 0 begins at byte `offset` of a buffer.
 *
 *     FFmpeg      linesize[i] of an AVFrame is `pitch`; `step` and `offset` of an AVComponentDescriptor are `step` and, of a packed
 *                 picture, `offset`
 *     Vulkan      rowPitch of a VkSubresourceLayout is `pitch`, offset is `offset`; `step` is the size of a texel
 */
typedef struct nd_plane {
    size_t offset;
    ptrdiff_t pitch;
    ptrdiff_t step;
    size_t rows;
    size_t columns;
} nd_plane;

/* (of this header alone) The shape and the strides of a plane, in samples, and where row 0 begins: of one that has a buffer. */
ND_CHECKED((1, 4)) int32_t nd_put_plane(const nd_plane *plane, size_t elem_size, int has_data, nd_layout *layout) {
    int32_t status;
    layout->start = has_data && elem_size > 0 ? plane->offset / elem_size : 0;
    layout->axes = 2;
    layout->shape[0] = plane->rows;
    layout->shape[1] = plane->columns;
    layout->strides[0] = plane->pitch;
    layout->strides[1] = plane->step;
    status = nd_strides_from_bytes(layout->strides, 2, elem_size, layout->strides);
    return status == ND_OK && has_data && plane->offset % elem_size != 0 ? ND_INCOMPATIBLE_LAYOUT : status;
}

/* (of this header alone) A view of a plane over `data`; or over what it reaches from its lowest sample on, where `has_data` is 0. */
ND_CHECKED((1, 5)) int32_t nd_view_of_plane(const nd_plane *plane, nd_data data, int has_data, int32_t mode, nd_view *view) {
    nd_layout of;
    size_t axis;
    int32_t status = nd_put_plane(plane, data.elem_size, has_data, &of);
    if (status == ND_OK && has_data) return nd_view_of(&of, data, mode, view);
    data.len = (size_t)-1 / 2; /* (which any layout fits that is accepted at all) */
    if (status == ND_OK) status = nd_layout_start(of.shape, 2, of.strides, 2, data.elem_size, data.len, mode, &of.start);
    if (status != ND_OK) return status;
    data.len = of.start + (nd_layout_size(&of) > 0);
    for (axis = 0; axis < 2; axis++)
        if (of.strides[axis] > 0 && of.shape[axis] > 0) data.len += (of.shape[axis] - 1) * (size_t)of.strides[axis];
    view->layout = of;
    nd_put_data(data, view);
    return status;
}

/* (of this header alone) Views of planes, all or none. */
ND_CHECKED((1, 6)) int32_t nd_views_of_planes(const nd_plane *planes, size_t count, nd_data data, int has_data, int32_t mode,
                                              nd_view *views) {
    nd_view view;
    int32_t status = ND_OK;
    size_t at;
    for (at = 0; status == ND_OK && at < count; at++) status = nd_view_of_plane(planes + at, data, has_data, mode, &view);
    for (at = 0; status == ND_OK && at < count; at++) status = nd_view_of_plane(planes + at, data, has_data, mode, views + at);
    return status;
}

/*
 * Makes the views, of rows and columns, of planes in one buffer of `nbytes` bytes, whose samples have `elem_size` bytes: one status
 * for all planes of a picture. Places count samples, from the buffer's first byte. `views`: `count` of them.
 *
 * The first of these statuses of the first plane that has one, and no view has been written: ND_BAD_ARGUMENT for an `elem_size` of 0 or
 * past the limit; ND_INCOMPATIBLE_LAYOUT where pitch, step or offset is no multiple of it; those of nd_view_of. Whether two planes share a
 * byte is not asked: nd_views_share_element.
 *
 *    const nd_plane planes[2] = {{0, 4, 1, 2, 4}, {8, 2, 1, 1, 2}};
 *    nd_view views[2];
 *    nd_views_over_planes(planes, 2, 1, 10, ND_OWNED, views) == ND_OK
 *    nd_at(&views[1], 0, 1) == 9
 *    nd_views_over_planes(planes, 2, 1, 9, ND_OWNED, views) == ND_OUT_OF_BOUNDS
 */
ND_CHECKED((1, 6)) int32_t nd_views_over_planes(const nd_plane *planes, size_t count, size_t elem_size, size_t nbytes, int32_t mode,
                                                nd_view *views) {
    nd_data data;
    data.elem_size = elem_size;
    data.len = elem_size > 0 ? nbytes / elem_size : 0;
    return nd_views_of_planes(planes, count, data, 1, mode, views);
}

/*
 * nd_views_over_planes where each plane has a pointer to its row 0, as `data[i]` of an AVFrame, and the caller vouches for the bytes
 * that its rows take; a picture that is upside down has a negative linesize there. `offset` isn't looked at. Place 0 of a view is its
 * lowest sample, and row 0 begins `layout.start` samples after it, so the samples of a plane of bytes begin at
 * `frame->data[i] - views[i].layout.start`.
 *
 *    const nd_plane plane = {0, -6, 1, 2, 4};
 *    nd_view view;
 *    nd_views_from_row0(&plane, 1, 1, ND_OWNED, &view) == ND_OK
 *    view.layout.start == 6
 *    nd_at(&view, 1, 0) == 0
 */
ND_CHECKED((1, 5)) int32_t nd_views_from_row0(const nd_plane *planes, size_t count, size_t elem_size, int32_t mode, nd_view *views) {
    nd_data data;
    data.elem_size = elem_size;
    data.len = 0;
    return nd_views_of_planes(planes, count, data, 0, mode, views);
}

#endif
