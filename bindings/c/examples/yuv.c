/* Random pictures by yuv.h, planar and packed: each crop, mirror, blend and sum beside the same by hand. */
#include "yuv.h"

#include <stdio.h>
#include <stdlib.h>

enum { ROUNDS = 2000, MOST = 40, MOST_TILES = 9 };

/* A picture by hand: the first sample of each plane's row 0, and the blocks of memory, past whose ends sanitizers look. */
typedef struct frame {
    uint8_t *allocated[3], *first[3];
    ptrdiff_t pitch[3], step[3];
    size_t rows, columns, down;
    yuv picture;
} frame;

static int failed, packed;

static void check(int holds, const char *what) {
    if (!holds && failed++ < 10) printf("%s\n", what);
}

static size_t below(size_t bound) {
    static unsigned state = 1;
    state = state * 1664525u + 1013904223u;
    return (state >> 8) % bound;
}

static size_t part(size_t count, int plane, size_t by) { return plane > 0 ? count / by : count; }

static uint8_t *sample(const frame *of, int plane, size_t row, size_t column) {
    return of->first[plane] + (ptrdiff_t)row * of->pitch[plane] + (ptrdiff_t)column * of->step[plane];
}

/* Allocates the lines of a plane, which lie in either order, and fills them. */
static void put_lines(frame *of, int plane, size_t rows, size_t bytes) {
    const size_t pitch = bytes + below(4), size = (rows - 1) * pitch + bytes;
    const int is_down = below(2) == 0;
    if ((of->allocated[plane] = malloc(size)) == NULL) exit(EXIT_FAILURE);
    for (size_t at = 0; at < size; at++) of->allocated[plane][at] = (uint8_t)below(256);
    of->pitch[plane] = is_down ? (ptrdiff_t)pitch : -(ptrdiff_t)pitch;
    of->first[plane] = of->allocated[plane] + (is_down ? 0 : (rows - 1) * pitch);
}

static void put_planar(frame *of) {
    for (int plane = 0; plane < 3; plane++) {
        put_lines(of, plane, part(of->rows, plane, of->down), part(of->columns, plane, 2));
        of->step[plane] = 1;
    }
    check(yuv_planar(of->first, of->pitch, of->rows, of->columns, of->down, &of->picture) == ND_OK, "planar");
    check(yuv_planar(of->first, of->pitch, of->rows, of->columns + 1, of->down, &of->picture) == ND_UNSUPPORTED, "an odd column");
}

static void put_packed(frame *of) {
    put_lines(of, 0, of->rows, 2 * of->columns);
    const size_t offset = (size_t)(of->first[0] - of->allocated[0]), reach = (of->rows - 1) * (size_t)of->pitch[0];
    const size_t size = (of->pitch[0] > 0 ? reach : offset) + 2 * of->columns;
    for (int plane = 0; plane < 3; plane++) {
        of->first[plane] = of->first[0] + (plane == 0 ? 0 : 2 * plane - 1);
        of->pitch[plane] = of->pitch[0];
        of->step[plane] = plane == 0 ? 2 : 4;
    }
    check(yuv_packed(of->allocated[0], size, offset, of->pitch[0], of->rows, of->columns, &of->picture) == ND_OK, "packed");
    check(yuv_packed(of->allocated[0], size - 1, offset, of->pitch[0], of->rows, of->columns, &of->picture) == ND_OUT_OF_BOUNDS, "less");
    packed++;
}

/* Crops a picture, and mirrors it now and then, by yuv.h and by hand. */
static void crop(frame *of, size_t rows, size_t columns) {
    const size_t top = below((of->rows - rows) / 2 + 1) * 2, left = below((of->columns - columns) / 2 + 1) * 2, past = of->rows - top + 2;
    const int is_mirrored = below(2) == 0;
    check(yuv_crop(&of->picture, top, left, past, columns, 0, &of->picture) == ND_OUT_OF_BOUNDS, "a crop past the end");
    check(yuv_crop(&of->picture, top, left, rows, columns, is_mirrored, &of->picture) == ND_OK, "a crop");
    for (int plane = 0; plane < 3; plane++) {
        const size_t first = part(left, plane, 2), last = part(left + columns, plane, 2) - 1;
        of->first[plane] = sample(of, plane, part(top, plane, of->down), is_mirrored ? last : first);
        if (is_mirrored) of->step[plane] = -of->step[plane];
    }
    of->rows = rows;
    of->columns = columns;
}

/* Blends a block, and compares each sample of both pictures with what it is by hand. */
static void check_block(const frame *to, const frame *from, size_t top, size_t left) {
    uint8_t expected[3][YUV_BLOCK][YUV_BLOCK];
    const size_t rows = to->rows - top < YUV_BLOCK ? to->rows - top : YUV_BLOCK;
    const size_t columns = to->columns - left < YUV_BLOCK ? to->columns - left : YUV_BLOCK;
    const int alpha = (int)below(YUV_OPAQUE + 1);
    check(yuv_blend(&to->picture, &from->picture, top, left, to->rows - top + 2, 2, alpha) == ND_OUT_OF_BOUNDS, "a block past the end");
    for (int is_blended = 0; is_blended < 2; is_blended++) {
        for (int plane = 0; plane < 3; plane++) {
            for (size_t row = 0; row < part(rows, plane, to->down); row++) {
                for (size_t column = 0; column < part(columns, plane, 2); column++) {
                    const size_t at[2] = {part(top, plane, to->down) + row, part(left, plane, 2) + column};
                    const int under = *sample(to, plane, at[0], at[1]), over = *sample(from, plane, at[0], at[1]);
                    if (is_blended) check(under == expected[plane][row][column], "a sample of a block");
                    else expected[plane][row][column] = (uint8_t)((under * (YUV_OPAQUE - alpha) + over * alpha) / YUV_OPAQUE);
                }
            }
        }
        if (!is_blended) check(yuv_blend(&to->picture, &from->picture, top, left, rows, columns, alpha) == ND_OK, "a block");
    }
}

static void check_sums(const frame *of) {
    unsigned sums[MOST_TILES], expected[MOST_TILES] = {0};
    const size_t across = (of->columns + YUV_TILE - 1) / YUV_TILE, down = (of->rows + YUV_TILE - 1) / YUV_TILE;
    for (size_t row = 0; row < of->rows; row++)
        for (size_t column = 0; column < of->columns; column++)
            expected[row / YUV_TILE * across + column / YUV_TILE] += *sample(of, 0, row, column);
    check(yuv_sums(&of->picture, sums) == across * down, "how many tiles");
    for (size_t tile = 0; tile < across * down; tile++) check(sums[tile] == expected[tile], "the sum of a tile");
}

int main(void) {
    for (int round = 0; round < ROUNDS; round++) {
        const size_t down = 1 + below(2), rows = 2 + 2 * below(MOST / 2), columns = 2 + 2 * below(MOST / 2);
        const size_t high = 2 + 2 * below(rows / 2), wide = 2 + 2 * below(columns / 2);
        frame frames[2] = {{.rows = rows, .columns = columns, .down = down}, {.rows = rows, .columns = columns, .down = down}};
        for (int at = 0; at < 2; at++) {
            (down == 1 && below(2) == 0 ? put_packed : put_planar)(&frames[at]);
            crop(&frames[at], high, wide);
        }
        for (size_t top = 0; top < high; top += YUV_BLOCK)
            for (size_t left = 0; left < wide; left += YUV_BLOCK) check_block(&frames[0], &frames[1], top, left);
        for (int at = 0; at < 2; at++) check_sums(&frames[at]);
        for (int at = 0; at < 6; at++) free(frames[at / 3].allocated[at % 3]);
    }
    printf("%d pictures, %d of them packed: %d failed\n", 2 * ROUNDS, packed, failed);
    return failed ? EXIT_FAILURE : EXIT_SUCCESS;
}
