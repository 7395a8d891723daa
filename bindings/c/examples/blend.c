/*
 * Pastes a part of one picture over a part of another, by an alpha of the pasted part's own: three views of one shape, whose rows
 * are gone over in step. Each picture has lines of its own length.
 */
#include "ndarray_layout.h"

#include <stdint.h>
#include <stdio.h>
#include <stdlib.h>

enum { ROWS = 4, COLUMNS = 6, STAMP_ROWS = 3, STAMP_COLUMNS = 4, OPAQUE = 4 };

static void expect_ok(int32_t status) {
    if (status == ND_OK) return;
    fprintf(stderr, "%s\n", nd_status_message(status));
    exit(EXIT_FAILURE);
}

/* A view of rows and columns of bytes, without gaps, cut by a slice. */
static nd_view cut(size_t rows, size_t columns, const nd_slice_elem *elems, int32_t mode) {
    const size_t shape[2] = {rows, columns};
    const nd_data data = {1, rows * columns};
    nd_view view;
    expect_ok(nd_view_from_shape(shape, 2, ND_ROW_MAJOR, data, mode, &view));
    expect_ok(nd_layout_slice(&view.layout, elems, 2, ND_STRICT, &view.layout));
    return view;
}

/* Blends each element of a row over that of another, by that of a third: from 0, which leaves it, to OPAQUE. */
static void blend_row(uint8_t *to, const uint8_t *from, const uint8_t *alpha, const nd_row *rows) {
    for (size_t at = 0; at < rows[0].len; at++) {
        uint8_t *const under = to + rows[0].start + at;
        const int over = from[rows[1].start + at], part = alpha[rows[2].start + at];
        *under = (uint8_t)((over * part + *under * (OPAQUE - part)) / OPAQUE);
    }
}

/* The views are of one shape and their rows have the stride 1, or else nothing is written. */
static int32_t blend(uint8_t *to, const uint8_t *from, const uint8_t *alpha, const nd_view views[3]) {
    nd_rows_iter rows;
    nd_row each[3];
    const int32_t status = nd_views_joined_rows(views, 3, ND_ROW_MAJOR, &rows);
    if (status != ND_OK) return status;
    for (size_t view = 0; view < 3; view++)
        if (rows.strides[view] != 1) return ND_UNSUPPORTED;
    while (nd_next_rows(&rows, each)) blend_row(to, from, alpha, each);
    return ND_OK;
}

static void print(const uint8_t *picture) {
    for (size_t row = 0; row < ROWS; row++)
        for (size_t column = 0; column < COLUMNS; column++)
            printf("%2d%c", picture[row * COLUMNS + column], column + 1 < COLUMNS ? ' ' : '\n');
}

int main(void) {
    const nd_slice_elem under[2] = {ND_FROM(2), ND_RANGE(1, 4)}, over[2] = {ND_RANGE(1, 3), ND_RANGE(0, 3)};
    const nd_slice_elem wider[2] = {ND_RANGE(1, 3), ND_ALL};
    uint8_t picture[ROWS * COLUMNS], stamp[STAMP_ROWS * STAMP_COLUMNS], alpha[STAMP_ROWS * STAMP_COLUMNS];
    nd_view views[3] = {cut(ROWS, COLUMNS, under, ND_OWNED), cut(STAMP_ROWS, STAMP_COLUMNS, over, ND_READ_ONLY),
                        cut(STAMP_ROWS, STAMP_COLUMNS, over, ND_READ_ONLY)};
    nd_reason reason;
    char text[80];
    for (size_t at = 0; at < sizeof picture; at++) picture[at] = 8;
    for (size_t at = 0; at < sizeof stamp; at++) {
        stamp[at] = (uint8_t)(at * 4);
        alpha[at] = (uint8_t)(at % STAMP_COLUMNS * 2);
    }
    expect_ok(blend(picture, stamp, alpha, views));
    print(picture);
    views[2] = cut(STAMP_ROWS, STAMP_COLUMNS, wider, ND_READ_ONLY);
    if (blend(picture, stamp, alpha, views) == ND_OK) return EXIT_FAILURE;
    expect_ok(nd_views_reason(views, 3, &reason));
    nd_reason_text(&reason, text, sizeof text);
    puts(text);
    return EXIT_SUCCESS;
}
