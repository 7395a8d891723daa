/*
 * The mean of each pixel and its neighbours, 3x3: by three rows of a cursor, which are checked once for a line, so the inner loop
 * checks nothing; the same by `nd_at` has the same pixels.
 */
#include "ndarray_layout.h"

#include <stdio.h>
#include <stdlib.h>

enum { ROWS = 5, COLUMNS = 9, ROWS_LEFT = ROWS - 2, COLUMNS_LEFT = COLUMNS - 2 };

static void expect_ok(int32_t status) {
    if (status == ND_OK) return;
    fprintf(stderr, "%s\n", nd_status_message(status));
    exit(EXIT_FAILURE);
}

/* One row of means, of three rows of pixels. */
static inline void mean_row(const unsigned char *a, const unsigned char *b, const unsigned char *c, ptrdiff_t next, size_t count,
                            unsigned char *means) {
    for (size_t at = 0; at < count; at++, a += next, b += next, c += next) {
        const int sum = a[0] + a[next] + a[2 * next] + b[0] + b[next] + b[2 * next] + c[0] + c[next] + c[2 * next];
        means[at] = (unsigned char)(sum / 9);
    }
}

/* Writes the means of a picture of three rows and columns or more, two fewer of each. */
static void blur(nd_cursor2 picture, const unsigned char *pixels, unsigned char *means) {
    for (size_t line = 1; line + 1 < picture.shape[0]; line++) {
        const nd_row up = nd_cursor_row(picture, line - 1), middle = nd_cursor_row(picture, line);
        const nd_row down = nd_cursor_row(picture, line + 1);
        const unsigned char *a = pixels + up.start, *b = pixels + middle.start, *c = pixels + down.start;
        if (middle.stride == 1) mean_row(a, b, c, 1, middle.len - 2, means); /* (a loop that compilers know more of) */
        else mean_row(a, b, c, middle.stride, middle.len - 2, means);
        means += middle.len - 2;
    }
}

/* One mean, each of whose nine places is checked. */
static int mean_at(const nd_view *picture, const unsigned char *pixels, size_t row, size_t column) {
    int sum = 0;
    for (size_t neighbour = 0; neighbour < 9; neighbour++) {
        const size_t place = nd_at(picture, row + neighbour / 3, column + neighbour % 3);
        if (place == ND_NO_PLACE) return -1;
        sum += pixels[place];
    }
    return sum / 9;
}

int main(void) {
    const size_t shape[2] = {ROWS, COLUMNS};
    const nd_data data = {1, ROWS * COLUMNS};
    unsigned char pixels[ROWS * COLUMNS], means[ROWS_LEFT * COLUMNS_LEFT];
    size_t differ = 0;
    nd_view picture;
    nd_cursor2 cursor;

    for (size_t at = 0; at < sizeof pixels; at++) pixels[at] = at % COLUMNS == 4 || at / COLUMNS == 2 ? 90 : 0;
    expect_ok(nd_view_from_shape(shape, 2, ND_ROW_MAJOR, data, ND_READ_ONLY, &picture));
    expect_ok(nd_view_cursor2(&picture, &cursor));
    blur(cursor, pixels, means);
    for (size_t row = 0; row < ROWS_LEFT; row++) {
        for (size_t column = 0; column < COLUMNS_LEFT; column++) {
            const int mean = means[row * COLUMNS_LEFT + column];
            printf("%3d", mean);
            if (mean != mean_at(&picture, pixels, row, column)) differ++;
        }
        putchar('\n');
    }
    printf("%d differ\n", (int)differ);
    return differ == 0 ? EXIT_SUCCESS : EXIT_FAILURE;
}
