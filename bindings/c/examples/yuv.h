/*
 * YUV pictures, planar or packed, as a codec's author would have them: three views, which the library has accepted, and their cursors,
 * whose parts are blocks and tiles. What returns a status has written nothing where that isn't ND_OK.
 */
#ifndef YUV_H
#define YUV_H

#include "ndarray_layout.h"

enum { YUV_BLOCK = 8, YUV_TILE = 16, YUV_OPAQUE = 256 };

typedef struct yuv {
    uint8_t *bytes[3]; /* of Y, U and V: place 0 of each plane */
    nd_view views[3];  /* rows and columns of each */
    nd_cursor2 planes[3];
    size_t down; /* by what U and V have fewer rows than Y: 2 of 4:2:0, 1 of 4:2:2 */
} yuv;

/* The number of rows, or of columns, that a plane has where Y has this number of them. */
static inline size_t yuv_rows(const yuv *of, int plane, size_t rows) { return plane > 0 ? rows / of->down : rows; }
static inline size_t yuv_columns(int plane, size_t columns) { return plane > 0 ? columns / 2 : columns; }

/* Keeps a picture whose views a call made with a status: the cursors of all three have one more. */
static inline int32_t yuv_keep(int32_t status, yuv *made, yuv *picture) {
    if (status == ND_OK) status = nd_views_cursor2(made->views, 3, made->planes);
    if (status == ND_OK) *picture = *made;
    return status;
}

/* A picture in planes, by pointers to their row 0 and the bytes from row to row: `data` and `linesize` of an AVFrame. */
static inline int32_t yuv_planar(uint8_t *const *data, const ptrdiff_t *linesize, size_t rows, size_t columns, size_t down, yuv *picture) {
    yuv made;
    nd_plane planes[3];
    made.down = down;
    if (down == 0 || rows % down != 0 || columns % 2 != 0) return ND_UNSUPPORTED;
    for (int plane = 0; plane < 3; plane++)
        planes[plane] = (nd_plane){0, linesize[plane], 1, yuv_rows(&made, plane, rows), yuv_columns(plane, columns)};
    const int32_t status = nd_views_from_row0(planes, 3, 1, ND_OWNED, made.views);
    for (int plane = 0; status == ND_OK && plane < 3; plane++) made.bytes[plane] = data[plane] - made.views[plane].layout.start;
    return yuv_keep(status, &made, picture);
}

/* A packed picture, Y U Y V, in a buffer of `size` bytes, whose row 0 begins at byte `offset`, and each other one `pitch` bytes further. */
static inline int32_t yuv_packed(uint8_t *bytes, size_t size, size_t offset, ptrdiff_t pitch, size_t rows, size_t columns, yuv *picture) {
    const nd_plane planes[3] = {
        {offset, pitch, 2, rows, columns}, {offset + 1, pitch, 4, rows, columns / 2}, {offset + 3, pitch, 4, rows, columns / 2}};
    yuv made = {{bytes, bytes, bytes}, .down = 1};
    if (columns % 2 != 0) return ND_UNSUPPORTED;
    return yuv_keep(nd_views_over_planes(planes, 3, 1, size, ND_OWNED, made.views), &made, picture);
}

/* A part of a picture, over the same bytes; where `is_mirrored` with left and right exchanged. */
static inline int32_t yuv_crop(const yuv *of, size_t top, size_t left, size_t rows, size_t columns, int is_mirrored, yuv *picture) {
    yuv made = *of;
    int32_t status = top % of->down + rows % of->down + left % 2 + columns % 2 == 0 ? ND_OK : ND_UNSUPPORTED;
    for (int plane = 0; status == ND_OK && plane < 3; plane++) {
        const size_t row = yuv_rows(of, plane, top), column = yuv_columns(plane, left);
        const size_t end = row + yuv_rows(of, plane, rows), right = column + yuv_columns(plane, columns);
        const nd_slice_elem elems[2] = {ND_RANGE(row, end), ND_RANGE_BY(column, right, is_mirrored ? -1 : 1)};
        status = nd_layout_slice(&of->views[plane].layout, elems, 2, ND_STRICT, &made.views[plane].layout);
    }
    return yuv_keep(status, &made, picture);
}

/* Blends rows and columns of a plane over those of another; compilers make vectors where their numbers are constants. */
static inline void yuv_blend_part(uint8_t *under, nd_cursor2 to, const uint8_t *over, nd_cursor2 from, size_t rows, size_t columns,
                                  ptrdiff_t right, ptrdiff_t beside, int alpha) {
    for (size_t row = 0; row < rows; row++) {
        uint8_t *item = under + nd_cursor_row(to, row).start;
        const uint8_t *read = over + nd_cursor_row(from, row).start;
        for (size_t column = 0; column < columns; column++, item += right, read += beside)
            *item = (uint8_t)((*item * (YUV_OPAQUE - alpha) + *read * alpha) / YUV_OPAQUE);
    }
}

/*
 * Blends a block over one at the same place, by an alpha from 0, which leaves it, to YUV_OPAQUE: a part of what was accepted. The pictures
 * share no byte, and have U and V alike. ND_OUT_OF_BOUNDS, of a plane in which the block isn't within both.
 */
static inline int32_t yuv_blend(const yuv *to, const yuv *from, size_t top, size_t left, size_t rows, size_t columns, int alpha) {
    enum { ALL = YUV_BLOCK, HALF = YUV_BLOCK / 2 };
    for (int plane = 0; plane < 3; plane++) {
        const size_t row = yuv_rows(to, plane, top), column = yuv_columns(plane, left);
        const size_t high = yuv_rows(to, plane, rows), wide = yuv_columns(plane, columns);
        const nd_cursor2 under = nd_cursor2_crop(to->planes[plane], row, column, high, wide);
        const nd_cursor2 over = nd_cursor2_crop(from->planes[plane], row, column, high, wide);
        const int is_dense = under.strides[1] == 1 && over.strides[1] == 1;
        uint8_t *const bytes = to->bytes[plane], *const read = from->bytes[plane];
        if (under.shape[0] != high || over.shape[0] != high) return ND_OUT_OF_BOUNDS;
        if (is_dense && high == ALL && wide == ALL) yuv_blend_part(bytes, under, read, over, ALL, ALL, 1, 1, alpha);
        else if (is_dense && high == HALF && wide == HALF) yuv_blend_part(bytes, under, read, over, HALF, HALF, 1, 1, alpha);
        else yuv_blend_part(bytes, under, read, over, high, wide, under.strides[1], over.strides[1], alpha);
    }
    return ND_OK;
}

static inline unsigned yuv_sum(const uint8_t *bytes, nd_cursor2 part, size_t rows, size_t columns, ptrdiff_t right) {
    unsigned sum = 0;
    for (size_t row = 0; row < rows; row++) {
        const uint8_t *item = bytes + nd_cursor_row(part, row).start;
        for (size_t column = 0; column < columns; column++, item += right) sum += *item;
    }
    return sum;
}

/* Writes the sum of each tile of Y, of up to 16x16, and returns how many there are. */
static inline size_t yuv_sums(const yuv *of, unsigned *sums) {
    nd_tiles2 tiles = nd_cursor2_tiles(of->planes[0], YUV_TILE, YUV_TILE);
    nd_cursor2 tile;
    size_t count = 0;
    while (nd_next_tile2(&tiles, &tile)) {
        const int is_whole = tile.shape[0] == YUV_TILE && tile.shape[1] == YUV_TILE && tile.strides[1] == 1;
        sums[count++] = is_whole ? yuv_sum(of->bytes[0], tile, YUV_TILE, YUV_TILE, 1)
                                 : yuv_sum(of->bytes[0], tile, tile.shape[0], tile.shape[1], tile.strides[1]);
    }
    return count;
}

#endif
