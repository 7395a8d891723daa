/*
 * Cuts a part out of a picture as decoders give them: lines of `linesize` bytes, of which some are padding, from the last line
 * to the first. Nothing is copied but what is written, a line at a time.
 */
#include "ndarray_layout.h"

#include <stdio.h>
#include <stdlib.h>

enum { ROWS = 4, COLUMNS = 5, BYTES = 3, LINESIZE = 19 };

static void expect_ok(int32_t status) {
    if (status == ND_OK) return;
    fprintf(stderr, "%s\n", nd_status_message(status));
    exit(EXIT_FAILURE);
}

/* Writes the lines of a view of rows, columns and bytes: its rows are those of bytes, of which each line has joined ones. */
static void write_lines(const nd_view *picture, const char *buffer) {
    nd_row_iter rows;
    nd_row row;
    expect_ok(nd_view_joined_rows(picture, ND_ROW_MAJOR, &rows));
    while (nd_next_row(&rows, &row)) {
        printf("%2d bytes from %2d: ", (int)row.len, (int)row.start);
        fwrite(buffer + row.start, 1, row.len, stdout); /* (whose stride is 1) */
        putchar('\n');
    }
}

int main(void) {
    const size_t shape[3] = {ROWS, COLUMNS, BYTES};
    const ptrdiff_t byte_strides[3] = {-LINESIZE, BYTES, 1};
    const nd_slice_elem crop[3] = {ND_RANGE(1, 3), ND_RANGE(1, -1), ND_ALL};
    char buffer[ROWS * LINESIZE];
    nd_view picture;

    /* the pixel of row 1 and column 2 is `c1.` */
    for (size_t line = 0; line < ROWS; line++) {
        for (size_t at = 0; at < LINESIZE; at++) {
            const char pixel[BYTES] = {(char)('a' + at / BYTES), (char)('0' + ROWS - 1 - line), '.'};
            buffer[line * LINESIZE + at] = at < BYTES * COLUMNS ? pixel[at % BYTES] : '#';
        }
    }

    expect_ok(nd_view_from_byte_strides(shape, 3, byte_strides, 3, 1, sizeof buffer, ND_READ_ONLY, &picture));
    puts("the picture:");
    write_lines(&picture, buffer);
    expect_ok(nd_layout_slice(&picture.layout, crop, 3, ND_STRICT, &picture.layout));
    puts("rows 1 and 2, columns 1 to 3:");
    write_lines(&picture, buffer);
    return EXIT_SUCCESS;
}
