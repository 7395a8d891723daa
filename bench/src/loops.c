/* Loops from C over accepted views, each beside one written by hand. */
#define _POSIX_C_SOURCE 199309L
#include "loops.h"

enum { SIDE = 1000 };

/* ---- Elements over two axes, of both types ---- */

#define ITEM unsigned char
#define LOOP(name) name##_bytes
#include "elements.h"
#undef ITEM
#undef LOOP
#define ITEM unsigned short
#define LOOP(name) name##_words
#include "elements.h"

/* ---- A sum by rows, without a check of each place ---- */

static size_t sum_rows(const nd_view *view, void *bytes) {
    const unsigned char *const items = (const unsigned char *)bytes;
    nd_row_iter rows;
    nd_row row;
    size_t column, sum = 0;
    must(nd_view_joined_rows(view, ND_ROW_MAJOR, &rows));
    while (nd_next_row(&rows, &row)) {
        const unsigned char *item = items + row.start;
        for (column = 0; column < row.len; column++) sum += item[(ptrdiff_t)column * row.stride];
    }
    return sum;
}

static size_t sum_by_hand(const nd_view *view, void *bytes) {
    const unsigned char *const items = (const unsigned char *)bytes;
    const ptrdiff_t down = view->layout.strides[0], right = view->layout.strides[1];
    size_t row, column, sum = 0;
    for (row = 0; row < view->layout.shape[0]; row++) {
        const unsigned char *item = items + view->layout.start + row * (size_t)down;
        for (column = 0; column < view->layout.shape[1]; column++) sum += item[(ptrdiff_t)column * right];
    }
    return sum;
}

/* (of three axes, the last two of which are joined) */
static size_t sum_pixels_by_hand(const nd_view *view, void *bytes) {
    const unsigned char *const items = (const unsigned char *)bytes;
    const ptrdiff_t *strides = view->layout.strides;
    size_t row, column, colour, sum = 0;
    for (row = 0; row < view->layout.shape[0]; row++) {
        for (column = 0; column < view->layout.shape[1]; column++) {
            const unsigned char *item = items + view->layout.start + row * (size_t)strides[0] + column * (size_t)strides[1];
            for (colour = 0; colour < view->layout.shape[2]; colour++) sum += item[(ptrdiff_t)colour * strides[2]];
        }
    }
    return sum;
}

/* The rows of one type of items, in 1000 rows of 1000 of 2000. */
static void print_elements(const char *type, const loop *loops, const nd_view *view, void *items) {
    print_row("`nd_cursor_at`, written", type, loops[0], loops[1], view, items);
    print_row("`nd_cursor_at`, read", type, loops[2], loops[3], view, items);
    print_row("`nd_at` of a copied view, written", type, loops[4], loops[5], view, items);
    print_row("`nd_at` by a pointer, written", type, loops[6], loops[5], view, items);
    print_row("`nd_at` by a pointer, read", type, loops[7], loops[8], view, items);
}

int main(int count, char **words) {
    const size_t square[2] = {SIDE, SIDE}, pixels[3] = {100, 800, 3};
    const nd_slice_elem cut[3] = {ND_ALL, ND_RANGE(300, 500), ND_ALL}, left[2] = {ND_ALL, ND_FROM_BY(0, -1)};
    const loop bytes[9] = {write_cursor_bytes, write_by_hand_bytes, read_cursor_bytes, read_by_hand_bytes,
                           write_copied_bytes, write_checked_by_hand_bytes, write_by_pointer_bytes, read_by_pointer_bytes, read_checked_by_hand_bytes};
    const loop numbers[9] = {write_cursor_words, write_by_hand_words, read_cursor_words, read_by_hand_words,
                             write_copied_words, write_checked_by_hand_words, write_by_pointer_words, read_by_pointer_words, read_checked_by_hand_words};
    const nd_data data = {1, SIDE * SIDE}, wide = {2, 2 * SIDE * SIDE};
    const size_t lines[2] = {SIDE, 2 * SIDE};
    const nd_slice_elem half[2] = {ND_ALL, ND_RANGE(3, SIDE + 3)};
    unsigned char *items = malloc(wide.elem_size * wide.len);
    nd_view view;
    size_t at;
    if (items == NULL) return 1;
    read_rounds(count, words);
    for (at = 0; at < wide.elem_size * wide.len; at++) items[at] = (unsigned char)(at * 7 + at / 256);
    must(nd_view_from_shape(square, 2, ND_ROW_MAJOR, data, ND_OWNED, &view));
    must(nd_layout_slice(&view.layout, left, 2, ND_STRICT, &view.layout));
    print_row("`nd_next_row`: a sum of 1000 rows of 1000, stride -1", "", sum_rows, sum_by_hand, &view, items);
    must(nd_view_from_shape(pixels, 3, ND_ROW_MAJOR, data, ND_OWNED, &view));
    must(nd_layout_slice(&view.layout, cut, 3, ND_STRICT, &view.layout));
    print_row("`nd_next_row`: a sum of 20,000 rows of 3, joined", "", sum_rows, sum_pixels_by_hand, &view, items);
    must(nd_view_from_shape(lines, 2, ND_ROW_MAJOR, wide, ND_OWNED, &view));
    must(nd_layout_slice(&view.layout, half, 2, ND_STRICT, &view.layout));
    print_elements(": bytes", bytes, &view, items);
    print_elements(": 16 bits", numbers, &view, items);
    free(items);
    return 0;
}
