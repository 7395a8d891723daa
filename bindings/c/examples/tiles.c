/* Threads that write one picture, a tile each: that no two tiles share a pixel is known before the first one begins. */
#include "ndarray_layout.h"

#include <pthread.h>
#include <stdio.h>
#include <stdlib.h>

enum { ROWS = 7, COLUMNS = 12, TILE = 4, DOWN = 2, ACROSS = 3, TILES = DOWN * ACROSS };

typedef struct tile {
    nd_view view;
    char *pixels;
    char letter;
} tile;

static void expect_ok(int32_t status) {
    if (status == ND_OK) return;
    fprintf(stderr, "%s\n", nd_status_message(status));
    exit(EXIT_FAILURE);
}

/* Writes the pixels of a tile, each at a place that is checked. */
static void *write_tile(void *argument) {
    const tile *own = argument;
    for (size_t row = 0; row < own->view.layout.shape[0]; row++) {
        for (size_t column = 0; column < own->view.layout.shape[1]; column++) {
            const size_t place = nd_at(&own->view, row, column);
            if (place != ND_NO_PLACE) own->pixels[place] = own->letter;
        }
    }
    return NULL;
}

/* Says which two of some slices share a pixel, and whether any do. */
static int share_pixels(const nd_layout *picture, const nd_slice_elem *elems, const size_t *counts) {
    size_t pair[2];
    int32_t found;
    expect_ok(nd_layout_first_intersection(picture, elems, 2 * TILES, counts, TILES, ND_CLAMPED, pair, &found));
    if (found) printf("tiles %d and %d share pixels\n", (int)pair[0], (int)pair[1]);
    return found;
}

int main(void) {
    const size_t shape[2] = {ROWS, COLUMNS};
    const nd_data data = {1, ROWS * COLUMNS};
    nd_slice_elem elems[2 * TILES];
    size_t counts[TILES];
    char pixels[ROWS * COLUMNS];
    tile tiles[TILES];
    pthread_t threads[TILES];
    nd_view picture;

    expect_ok(nd_view_from_shape(shape, 2, ND_ROW_MAJOR, data, ND_OWNED, &picture));
    for (size_t at = 0; at < TILES; at++) {
        const size_t top = at / ACROSS * TILE, left = at % ACROSS * TILE;
        const nd_slice_elem rows = ND_RANGE(top, top + TILE), columns = ND_RANGE(left, left + TILE);
        elems[2 * at] = rows; /* (the last tiles reach past the picture: ND_CLAMPED cuts them) */
        elems[2 * at + 1] = columns;
        counts[at] = 2;
    }
    elems[3].start--; /* (tile 1, by a column to the left) */
    share_pixels(&picture.layout, elems, counts);
    elems[3].start++;
    if (share_pixels(&picture.layout, elems, counts)) return EXIT_FAILURE;

    for (size_t at = 0; at < TILES; at++) {
        tiles[at].view = picture;
        tiles[at].pixels = pixels;
        tiles[at].letter = (char)('A' + at);
        expect_ok(nd_layout_slice(&picture.layout, elems + 2 * at, 2, ND_CLAMPED, &tiles[at].view.layout));
        if (pthread_create(&threads[at], NULL, write_tile, &tiles[at]) != 0) return EXIT_FAILURE;
    }
    for (size_t at = 0; at < TILES; at++) pthread_join(threads[at], NULL);
    for (size_t row = 0; row < ROWS; row++) printf("%.*s\n", COLUMNS, pixels + row * COLUMNS);
    return EXIT_SUCCESS;
}
