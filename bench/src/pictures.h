/*
 * What the loops over pictures share in C and C++: two pictures of 4:2:0, each loop by hand, with strides that are known at run time, and
 * rows of which what a loop writes is compared. A loop is over the planes of `pictures`; its view is that of the first picture's luma.
 */
#ifndef PICTURES_H
#define PICTURES_H

#include "loops.h"

#include <string.h>

enum { ROWS = 1088, COLUMNS = 1920, PITCH = 1984, CHANNELS = 3, BLOCK = 8, TILE = 16 };

typedef unsigned char byte;

typedef struct pictures {
    byte to[3][PITCH * ROWS], from[3][PITCH * ROWS]; /* (of chroma half as many rows and columns) */
    byte packed[ROWS * COLUMNS * CHANNELS], apart[CHANNELS * ROWS * COLUMNS], means[ROWS * COLUMNS];
    unsigned sums[ROWS / TILE * (COLUMNS / TILE)];
} pictures;

static pictures now, fresh, expected;
static size_t volatile channels = CHANNELS; /* (of the packed picture, known at run time) */

/* How much a block is blended: 0 to 255. */
static inline int alpha_of(size_t top, size_t left) {
    return (int)((top * 5 + left * 3) / BLOCK % 256);
}
static inline byte blended(byte under, byte over, int alpha) {
    return (byte)((under * (256 - alpha) + over * alpha) >> 8);
}

static size_t fill_by_hand(const nd_view *view, void *items) {
    const ptrdiff_t down = view->layout.strides[0], right = view->layout.strides[1];
    const size_t rows = view->layout.shape[0], columns = view->layout.shape[1];
    size_t row, column;
    for (row = 0; row < rows; row++) {
        byte *const first = (byte *)items + (ptrdiff_t)row * down;
        for (column = 0; column < columns; column++) first[(ptrdiff_t)column * right] = 7;
    }
    return 0;
}

static size_t invert_by_hand(const nd_view *view, void *items) {
    const ptrdiff_t down = view->layout.strides[0], right = view->layout.strides[1];
    const size_t rows = view->layout.shape[0], columns = view->layout.shape[1];
    size_t row, column;
    for (row = 0; row < rows; row++) {
        byte *const first = (byte *)items + (ptrdiff_t)row * down;
        for (column = 0; column < columns; column++) first[(ptrdiff_t)column * right] = (byte)~first[(ptrdiff_t)column * right];
    }
    return 0;
}

static size_t copy_by_hand(const nd_view *view, void *items) {
    const ptrdiff_t down = view->layout.strides[0], right = view->layout.strides[1];
    const size_t rows = view->layout.shape[0], columns = view->layout.shape[1];
    size_t row, column;
    for (row = 0; row < rows; row++) {
        byte *const to = (byte *)items + (ptrdiff_t)row * down;
        const byte *const from = now.from[0] + (ptrdiff_t)row * down;
        for (column = 0; column < columns; column++) to[(ptrdiff_t)column * right] = from[(ptrdiff_t)column * right];
    }
    return 0;
}

/* One row of means, of three rows of bytes: inlined, so that there is one for a stride of 1. */
static inline __attribute__((always_inline)) void mean_row(const byte *a, const byte *b, const byte *c, ptrdiff_t next, size_t count, byte *means) {
    size_t at;
    for (at = 0; at < count; at++, a += next, b += next, c += next) {
        const int sum = a[0] + a[next] + a[2 * next] + b[0] + b[next] + b[2 * next] + c[0] + c[next] + c[2 * next];
        means[at] = (byte)(sum / 9);
    }
}

static size_t blur_by_hand(const nd_view *view, void *items) {
    const ptrdiff_t down = view->layout.strides[0];
    const size_t rows = view->layout.shape[0], columns = view->layout.shape[1];
    size_t row;
    for (row = 0; row + 2 < rows; row++) {
        const byte *const first = (byte *)items + (ptrdiff_t)row * down;
        mean_row(first, first + down, first + 2 * down, 1, columns - 2, now.means + row * (columns - 2));
    }
    return 0;
}

static size_t planes_by_hand(const nd_view *view, void *items) {
    const size_t rows = view->layout.shape[0], columns = view->layout.shape[1], count = channels;
    size_t channel, row, column;
    (void)items;
    for (channel = 0; channel < count; channel++) {
        for (row = 0; row < rows; row++) {
            const byte *const from = now.packed + row * columns * count + channel;
            byte *const to = now.apart + (channel * rows + row) * columns;
            for (column = 0; column < columns; column++) to[column] = from[column * count];
        }
    }
    return 0;
}

static inline void blend_by_hand(byte *to, const byte *from, ptrdiff_t down, size_t side, int alpha) {
    size_t row, column;
    for (row = 0; row < side; row++, to += down, from += down)
        for (column = 0; column < side; column++) to[column] = blended(to[column], from[column], alpha);
}

static size_t blends_by_hand(const nd_view *view, void *items) {
    const ptrdiff_t down = view->layout.strides[0];
    const size_t rows = view->layout.shape[0], columns = view->layout.shape[1];
    size_t top, left;
    (void)items;
    for (top = 0; top + BLOCK <= rows; top += BLOCK) {
        for (left = 0; left + BLOCK <= columns; left += BLOCK) {
            const ptrdiff_t luma = (ptrdiff_t)top * down + (ptrdiff_t)left, chroma = (ptrdiff_t)(top / 2) * (down / 2) + (ptrdiff_t)(left / 2);
            const int alpha = alpha_of(top, left);
            blend_by_hand(now.to[0] + luma, now.from[0] + luma, down, BLOCK, alpha);
            blend_by_hand(now.to[1] + chroma, now.from[1] + chroma, down / 2, BLOCK / 2, alpha);
            blend_by_hand(now.to[2] + chroma, now.from[2] + chroma, down / 2, BLOCK / 2, alpha);
        }
    }
    return 0;
}

static size_t sums_by_hand(const nd_view *view, void *items) {
    const ptrdiff_t down = view->layout.strides[0];
    const size_t rows = view->layout.shape[0], columns = view->layout.shape[1];
    size_t top, left, row, column, count = 0;
    for (top = 0; top + TILE <= rows; top += TILE) {
        for (left = 0; left + TILE <= columns; left += TILE) {
            const byte *first = (byte *)items + (ptrdiff_t)top * down + (ptrdiff_t)left;
            unsigned sum = 0;
            for (row = 0; row < TILE; row++, first += down)
                for (column = 0; column < TILE; column++) sum += first[column];
            now.sums[count++] = sum;
        }
    }
    return 0;
}

/* Prints the row of a loop, after both have written the same from the same pictures. */
static void print_alike(const char *name, const char *what, loop ours, loop by_hand, const nd_view *view) {
    now = fresh;
    must(by_hand(view, now.to[0]) == 0 ? ND_OK : ND_UNSUPPORTED);
    expected = now;
    now = fresh;
    must(ours(view, now.to[0]) == 0 && memcmp(&now, &expected, sizeof now) == 0 ? ND_OK : ND_UNSUPPORTED);
    print_row(name, what, ours, by_hand, view, now.to[0]);
}

/* The view of a plane of 4:2:0, 0 to 2. */
static nd_view plane_view(int plane) {
    nd_plane of;
    nd_view view;
    of.offset = 0;
    of.pitch = plane == 0 ? PITCH : PITCH / 2;
    of.step = 1;
    of.rows = plane == 0 ? ROWS : ROWS / 2;
    of.columns = plane == 0 ? COLUMNS : COLUMNS / 2;
    must(nd_views_over_planes(&of, 1, 1, sizeof now.to[0], ND_OWNED, &view));
    return view;
}

static void begin(int count, char **words) {
    byte *const bytes = (byte *)&fresh;
    size_t at;
    read_rounds(count, words);
    for (at = 0; at < sizeof fresh; at++) bytes[at] = (byte)(at * 7 + at / 256);
}

#endif
