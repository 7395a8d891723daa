/* Crops a picture, turns it over and prints it, without moving a pixel: only the start, the shape and the strides change. */
#include "ndarray_layout.h"

#include <stdio.h>
#include <stdlib.h>

static const char pixels[] =
    ".........."
    "..###....."
    "..#..#...."
    "..###....."
    "..#......."
    "..#.......";

/* Ends the program where a call failed, with what its status means. */
static void expect_ok(int32_t status) {
    if (status == ND_OK) return;
    fprintf(stderr, "%s\n", nd_status_message(status));
    exit(EXIT_FAILURE);
}

/* Ends the program where it has loaded a library that doesn't serve for its header: ndarray_layout.h, of versions. */
static void expect_library(void) {
    int32_t major, minor, patch;
    expect_ok(nd_version(&major, &minor, &patch));
    if (major == ND_VERSION_MAJOR && minor == ND_VERSION_MINOR && patch >= ND_VERSION_PATCH) return;
    fprintf(stderr, "the library is of version %d.%d.%d, the header of %s\n", (int)major, (int)minor, (int)patch, ND_VERSION);
    exit(EXIT_FAILURE);
}

/* Prints the pixels of a view of two axes, a row a line. */
static void print_picture(const nd_view *picture) {
    nd_row_iter rows;
    nd_row row;
    size_t column;
    expect_ok(nd_view_rows(picture, ND_ROW_MAJOR, &rows));
    while (nd_next_row(&rows, &row)) {
        for (column = 0; column < row.len; column++) putchar(pixels[(ptrdiff_t)row.start + (ptrdiff_t)column * row.stride]);
        putchar('\n');
    }
}

/* Prints one pixel, if there is one. */
static void print_pixel(const nd_view *picture, size_t row, size_t column) {
    const size_t place = nd_at2(picture, row, column); /* in C99 and C++11 nd_at(picture, row, column) */
    if (place == ND_NO_PLACE) printf("no pixel at %d, %d\n", (int)row, (int)column);
    else printf("%c at %d, %d\n", pixels[place], (int)row, (int)column);
}

int main(void) {
    const size_t shape[2] = {6, 10}, swapped[2] = {1, 0};
    const nd_slice_elem crop[2] = {ND_FROM(1), ND_RANGE(2, 6)}, flip[2] = {ND_FROM_BY(0, -1), ND_ALL};
    const nd_data data = {1, sizeof pixels - 1};
    nd_view picture;

    expect_library();
    expect_ok(nd_view_from_shape(shape, 2, ND_ROW_MAJOR, data, ND_READ_ONLY, &picture));
    expect_ok(nd_layout_slice(&picture.layout, crop, 2, ND_STRICT, &picture.layout));
    print_picture(&picture);
    print_pixel(&picture, 1, 3);
    print_pixel(&picture, 5, 0);

    puts("transposed:");
    expect_ok(nd_layout_permuted_axes(&picture.layout, swapped, 2, &picture.layout));
    print_picture(&picture);

    puts("its rows in the opposite order:");
    expect_ok(nd_layout_slice(&picture.layout, flip, 2, ND_STRICT, &picture.layout));
    print_picture(&picture);
    return EXIT_SUCCESS;
}
