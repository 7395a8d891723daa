/* What ndarray_layout.h has for loops over elements, and includes: cursors, their rows, parts and tiles. C89, C99 and C++. */
#ifndef NDARRAY_LAYOUT_CURSORS_H
#define NDARRAY_LAYOUT_CURSORS_H

#ifndef NDARRAY_LAYOUT_H
#error "include ndarray_layout.h, which includes this header"
#endif

/* ---- Cursors: checked access in loops -------------------------------------------------------------------------------- */

/*
 * What nd_at reads of a view, by value: for loops that write, as a picture's do by bytes. A write through a `char *` may change
 * a view as far as a compiler knows, which then reads it again for each element; a local cursor is no such thing. Its view has
 * been checked as a whole, so only coordinates are compared. Over many bytes take rows, nd_cursor_row: of a loop that compares
 * each coordinate compilers seldom make vectors, so clang 14 -O2 takes 19 to 29 times as long as by hand, and a copy by two cursors
 * 8 to 20 times by -O3 as well. The fields are to be read: where they are written, what the calls return is not said.
 *
 *     nd_cursor2 at;
 *     if (nd_view_cursor2(&view, &at) != ND_OK) return;
 *     for (i = 0; i < at.shape[0]; i++)
 *         for (j = 0; j < at.shape[1]; j++) pixels[nd_cursor_at(at, i, j)] = 0;
 *
 * A function takes a cursor by value, as `static void clear(unsigned char *pixels, nd_cursor2 at)`: it is 5 numbers for two axes.
 */
typedef struct nd_cursor1 {
    size_t start, shape[1];
    ptrdiff_t strides[1];
} nd_cursor1;

typedef struct nd_cursor2 {
    size_t start, shape[2];
    ptrdiff_t strides[2];
} nd_cursor2;

typedef struct nd_cursor3 {
    size_t start, shape[3];
    ptrdiff_t strides[3];
} nd_cursor3;

typedef struct nd_cursor4 {
    size_t start, shape[4];
    ptrdiff_t strides[4];
} nd_cursor4;

/* (of this header alone) nd_view_check, read-only, of a view of `axes` axes. */
ND_CHECKED((1)) int32_t nd_check_cursor(const nd_view *view, size_t axes) {
    const int32_t status = nd_view_check(view, ND_READ_ONLY);
    return status == ND_OK && view->layout.axes != axes ? ND_INCOMPATIBLE_SHAPE : status;
}

/* (of this header alone) The start, and each axis, of a cursor. */
#define ND_PUT_CURSOR(view, count, cursor) \
    do { \
        size_t nd_axis; \
        const int32_t nd_status = nd_check_cursor((view), (count)); \
        if (nd_status != ND_OK) return nd_status; \
        (cursor)->start = (view)->layout.start; \
        for (nd_axis = 0; nd_axis < (count); nd_axis++) { \
            (cursor)->shape[nd_axis] = (view)->layout.shape[nd_axis]; \
            (cursor)->strides[nd_axis] = (view)->layout.strides[nd_axis]; \
        } \
        return ND_OK; \
    } while (0)

/*
 * Write the cursor of a view of 1 to 4 axes. The statuses of nd_view_check, read-only; then ND_INCOMPATIBLE_SHAPE for another
 * count of axes. After an error nothing has been written.
 */
ND_CHECKED((1, 2)) int32_t nd_view_cursor1(const nd_view *view, nd_cursor1 *cursor) { ND_PUT_CURSOR(view, 1, cursor); }
ND_CHECKED((1, 2)) int32_t nd_view_cursor2(const nd_view *view, nd_cursor2 *cursor) { ND_PUT_CURSOR(view, 2, cursor); }
ND_CHECKED((1, 2)) int32_t nd_view_cursor3(const nd_view *view, nd_cursor3 *cursor) { ND_PUT_CURSOR(view, 3, cursor); }
ND_CHECKED((1, 2)) int32_t nd_view_cursor4(const nd_view *view, nd_cursor4 *cursor) { ND_PUT_CURSOR(view, 4, cursor); }

/*
 * The cursors of `count` views of two axes, as those of the planes of a picture: one status for all. That of nd_view_cursor2 of the
 * first view that isn't ND_OK, after which no cursor has been written.
 */
ND_CHECKED((1, 3)) int32_t nd_views_cursor2(const nd_view *views, size_t count, nd_cursor2 *cursors) {
    int32_t status = ND_OK;
    size_t at;
    for (at = 0; status == ND_OK && at < count; at++) status = nd_check_cursor(views + at, 2);
    for (at = 0; status == ND_OK && at < count; at++) status = nd_view_cursor2(views + at, cursors + at);
    return status;
}

/* (of this header alone) How far a coordinate moves the place, modulo 2^64. */
#define ND_MOVED(cursor, axis, coordinate) ((coordinate) * (size_t)(cursor).strides[axis])

/*
 * nd_cursor_at(cursor, i, j, ..), with as many coordinates as the cursor has axes: what nd_at returns of its view. (A place of
 * an index is in the buffer, and so is never ND_NO_PLACE: a compiler is told, so that one test serves for both.)
 */
ND_INLINE ND_USED ND_WRAPS size_t nd_cursor_at1(nd_cursor1 at, size_t i) {
    const size_t place = at.start + ND_MOVED(at, 0, i);
    if (i >= at.shape[0]) return ND_NO_PLACE;
    ND_ASSUME(place != ND_NO_PLACE);
    return place;
}

ND_INLINE ND_USED ND_WRAPS size_t nd_cursor_at2(nd_cursor2 at, size_t i, size_t j) {
    const size_t place = at.start + ND_MOVED(at, 0, i) + ND_MOVED(at, 1, j);
    if (i >= at.shape[0]) return ND_NO_PLACE;
    if (j >= at.shape[1]) return ND_NO_PLACE;
    ND_ASSUME(place != ND_NO_PLACE);
    return place;
}

ND_INLINE ND_USED ND_WRAPS size_t nd_cursor_at3(nd_cursor3 at, size_t i, size_t j, size_t k) {
    const size_t place = at.start + ND_MOVED(at, 0, i) + ND_MOVED(at, 1, j) + ND_MOVED(at, 2, k);
    if (i >= at.shape[0] || j >= at.shape[1]) return ND_NO_PLACE;
    if (k >= at.shape[2]) return ND_NO_PLACE;
    ND_ASSUME(place != ND_NO_PLACE);
    return place;
}

ND_INLINE ND_USED ND_WRAPS size_t nd_cursor_at4(nd_cursor4 at, size_t i, size_t j, size_t k, size_t l) {
    const size_t outer = at.start + ND_MOVED(at, 0, i) + ND_MOVED(at, 1, j);
    const size_t place = outer + ND_MOVED(at, 2, k) + ND_MOVED(at, 3, l);
    if (i >= at.shape[0] || j >= at.shape[1] || k >= at.shape[2]) return ND_NO_PLACE;
    if (l >= at.shape[3]) return ND_NO_PLACE;
    ND_ASSUME(place != ND_NO_PLACE);
    return place;
}

/* Elements at the places `start`, `start + stride`, .., of which there are `len`. */
typedef struct nd_row {
    size_t start;
    size_t len;
    ptrdiff_t stride;
} nd_row;

/* (of this header alone) A row, or none: of no length. */
ND_INLINE ND_USED nd_row nd_put_row(int is_row, size_t start, size_t len, ptrdiff_t stride) {
    nd_row row = {0, 0, 0};
    if (!is_row) return row;
    row.start = start;
    row.len = len;
    row.stride = stride;
    return row;
}

/*
 * nd_cursor_row(cursor, i, ..), with a coordinate less than the cursor has axes: the row along the last axis there, after one
 * test for all of its elements. Where it is no row of the cursor, `len` is 0. The loop over it is the caller's own: over 1920x1080
 * bytes fills, inversions and copies take at most 1.1 times a loop by hand with strides that are known at run time, and as many
 * instructions, by gcc 12 and clang 14, -O2 and -O3.
 *
 *     for (i = 0; i < at.shape[0]; i++) {
 *         const nd_row row = nd_cursor_row(at, i);
 *         unsigned char *const first = pixels + row.start;
 *         for (j = 0; j < row.len; j++) first[(ptrdiff_t)j * row.stride] = 0;
 *     }
 */
ND_INLINE ND_USED ND_WRAPS nd_row nd_cursor_row2(nd_cursor2 at, size_t i) {
    return nd_put_row(i < at.shape[0], at.start + ND_MOVED(at, 0, i), at.shape[1], at.strides[1]);
}

ND_INLINE ND_USED ND_WRAPS nd_row nd_cursor_row3(nd_cursor3 at, size_t i, size_t j) {
    return nd_put_row(i < at.shape[0] && j < at.shape[1], at.start + ND_MOVED(at, 0, i) + ND_MOVED(at, 1, j), at.shape[2],
                      at.strides[2]);
}

ND_INLINE ND_USED ND_WRAPS nd_row nd_cursor_row4(nd_cursor4 at, size_t i, size_t j, size_t k) {
    const int is_row = i < at.shape[0] && j < at.shape[1] && k < at.shape[2];
    const size_t outer = at.start + ND_MOVED(at, 0, i) + ND_MOVED(at, 1, j);
    return nd_put_row(is_row, outer + ND_MOVED(at, 2, k), at.shape[3], at.strides[3]);
}

#ifdef nd_at
#define nd_cursor_at(cursor, ...) \
    ND_AT_OF(__VA_ARGS__, nd_cursor_at4, nd_cursor_at3, nd_cursor_at2, nd_cursor_at1, )((cursor), __VA_ARGS__)
#define nd_cursor_row(cursor, ...) \
    ND_AT_OF(__VA_ARGS__, nd_cursor_row5, nd_cursor_row4, nd_cursor_row3, nd_cursor_row2, )((cursor), __VA_ARGS__)
#endif

/* ---- Parts and tiles ------------------------------------------------------------------------------------------------- */

/*
 * Returns the cursor of a part, as a block of a picture: `rows` rows from row `top` on, and `columns` columns from column `left` on. What
 * was accepted needs no second check, so this is four comparisons, inline. Where the part isn't within the cursor, the one that is
 * returned has the shape (0,0).
 *
 * Compilers make vectors of a loop over a block where its lengths are constants, and its stride along rows is a 1 that is compared
 * once: the project's bindings/c/examples/yuv.h has blends and sums.
 *
 *    view: (4,6), strides (6,1), over 24
 *    nd_view_cursor2(&view, &at) == {0, {4,6}, {6,1}}
 *    nd_cursor2_crop(at, 1, 2, 3, 4) == {8, {3,4}, {6,1}}
 *    nd_cursor2_crop(at, 2, 2, 3, 4).shape[0] == 0
 */
ND_INLINE ND_USED ND_WRAPS nd_cursor2 nd_cursor2_crop(nd_cursor2 at, size_t top, size_t left, size_t rows, size_t columns) {
    const nd_cursor2 none = {0, {0, 0}, {0, 0}};
    if (rows > at.shape[0] || top > at.shape[0] - rows) return none;
    if (columns > at.shape[1] || left > at.shape[1] - columns) return none;
    at.start += ND_MOVED(at, 0, top) + ND_MOVED(at, 1, left);
    at.shape[0] = rows;
    at.shape[1] = columns;
    return at;
}

/* An iterator over tiles: the cursor, the lengths of a tile, and where the next one begins. */
typedef struct nd_tiles2 {
    nd_cursor2 of;
    size_t rows, columns;
    size_t top, left;
} nd_tiles2;

/*
 * Returns the iterator, for nd_next_tile2, over the tiles of a cursor: `rows` rows and `columns` columns each, from left to right and from
 * the top down. The last ones at the right and at the bottom have the rest. With 0 `rows` or 0 `columns` there is no tile.
 *
 *    view: (3,6), strides (6,1), over 18
 *    nd_view_cursor2(&view, &at) == ND_OK
 *    nd_tiles2 tiles = nd_cursor2_tiles(at, 3, 4);
 *    nd_next_tile2(&tiles, &tile) == {0, {3,4}, {6,1}}
 *    nd_next_tile2(&tiles, &tile) == {4, {3,2}, {6,1}}
 *    nd_next_tile2(&tiles, &tile) == 0
 */
ND_INLINE ND_USED nd_tiles2 nd_cursor2_tiles(nd_cursor2 of, size_t rows, size_t columns) {
    nd_tiles2 tiles;
    if (rows == 0 || columns == 0 || of.shape[1] == 0) of.shape[0] = 0;
    tiles.of = of;
    tiles.rows = rows;
    tiles.columns = columns;
    tiles.top = tiles.left = 0;
    return tiles;
}

/* Writes the cursor of the next tile and returns 1; after the last one returns 0, and writes nothing. */
ND_CHECKED((1, 2)) int nd_next_tile2(nd_tiles2 *tiles, nd_cursor2 *tile) {
    const size_t rows = tiles->of.shape[0] - tiles->top, columns = tiles->of.shape[1] - tiles->left;
    if (rows == 0) return 0;
    *tile = nd_cursor2_crop(tiles->of, tiles->top, tiles->left, rows < tiles->rows ? rows : tiles->rows,
                            columns < tiles->columns ? columns : tiles->columns);
    tiles->left += tile->shape[1];
    if (columns > tiles->columns) return 1;
    tiles->left = 0;
    tiles->top += tile->shape[0];
    return 1;
}

#endif
