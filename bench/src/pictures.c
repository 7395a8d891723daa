/* Loops of codecs from C over cursors of accepted views, each beside one written by hand: pictures.h. */
#define _POSIX_C_SOURCE 199309L
#include "pictures.h"

static nd_cursor2 to[3], from[3];
static nd_cursor3 apart, packed; /* both by channel, row and column */

/* ---- Rows ---- */

static size_t fill_rows(const nd_view *view, void *items) {
    nd_cursor2 at;
    size_t line, column;
    must(nd_view_cursor2(view, &at));
    for (line = 0; line < at.shape[0]; line++) {
        const nd_row row = nd_cursor_row(at, line);
        byte *const first = (byte *)items + row.start;
        for (column = 0; column < row.len; column++) first[(ptrdiff_t)column * row.stride] = 7;
    }
    return 0;
}

static size_t invert_rows(const nd_view *view, void *items) {
    nd_cursor2 at;
    size_t line, column;
    must(nd_view_cursor2(view, &at));
    for (line = 0; line < at.shape[0]; line++) {
        const nd_row row = nd_cursor_row(at, line);
        byte *const first = (byte *)items + row.start;
        for (column = 0; column < row.len; column++)
            first[(ptrdiff_t)column * row.stride] = (byte)~first[(ptrdiff_t)column * row.stride];
    }
    return 0;
}

static size_t copy_rows(const nd_view *view, void *items) {
    const nd_cursor2 source = from[0];
    nd_cursor2 at;
    size_t line, column;
    must(nd_view_cursor2(view, &at));
    for (line = 0; line < at.shape[0]; line++) {
        const nd_row row = nd_cursor_row(at, line), beside = nd_cursor_row(source, line);
        byte *const first = (byte *)items + row.start;
        const byte *const read = now.from[0] + beside.start;
        for (column = 0; column < row.len; column++) first[(ptrdiff_t)column * row.stride] = read[(ptrdiff_t)column * beside.stride];
    }
    return 0;
}

static size_t blur_rows(const nd_view *view, void *items) {
    const byte *const pixels = (const byte *)items;
    byte *means = now.means;
    nd_cursor2 at;
    size_t line;
    must(nd_view_cursor2(view, &at));
    for (line = 1; line + 1 < at.shape[0]; line++) {
        const nd_row up = nd_cursor_row(at, line - 1), row = nd_cursor_row(at, line), down = nd_cursor_row(at, line + 1);
        const byte *const a = pixels + up.start, *const b = pixels + row.start, *const c = pixels + down.start;
        if (row.stride == 1) mean_row(a, b, c, 1, row.len - 2, means);
        else mean_row(a, b, c, row.stride, row.len - 2, means);
        means += row.len - 2;
    }
    return 0;
}

static size_t blur_at(const nd_view *view, void *items) {
    const byte *const pixels = (const byte *)items;
    size_t row, column, neighbour, written = 0;
    for (row = 0; row + 2 < view->layout.shape[0]; row++) {
        for (column = 0; column + 2 < view->layout.shape[1]; column++) {
            int sum = 0;
            for (neighbour = 0; neighbour < 9; neighbour++) {
                const size_t place = nd_at(view, row + neighbour / 3, column + neighbour % 3);
                if (place == ND_NO_PLACE) return 1;
                sum += pixels[place];
            }
            now.means[written++] = (byte)(sum / 9);
        }
    }
    return 0;
}

static inline void copy_row(byte *first, ptrdiff_t right, const byte *read, ptrdiff_t beside, size_t count) {
    for (; count > 0; count--, first += right, read += beside) *first = *read;
}

static size_t planes_rows(const nd_view *view, void *items) {
    const nd_cursor3 source = packed, target = apart;
    size_t channel, line;
    (void)view;
    (void)items;
    for (channel = 0; channel < target.shape[0]; channel++) {
        for (line = 0; line < target.shape[1]; line++) {
            const nd_row row = nd_cursor_row(target, channel, line), beside = nd_cursor_row(source, channel, line);
            if (row.stride == 1) copy_row(now.apart + row.start, 1, now.packed + beside.start, beside.stride, row.len);
            else copy_row(now.apart + row.start, row.stride, now.packed + beside.start, beside.stride, row.len);
        }
    }
    return 0;
}

/* ---- Blocks and tiles ---- */

/* A block of planes whose elements follow one another along rows. */
static inline void blend_block(int plane, size_t top, size_t left, size_t side, int alpha) {
    const nd_cursor2 under = nd_cursor2_crop(to[plane], top, left, side, side), over = nd_cursor2_crop(from[plane], top, left, side, side);
    size_t line, column;
    if (under.shape[0] != side || over.shape[0] != side) return;
    for (line = 0; line < side; line++) {
        byte *const first = now.to[plane] + nd_cursor_row(under, line).start;
        const byte *const read = now.from[plane] + nd_cursor_row(over, line).start;
        for (column = 0; column < side; column++) first[column] = blended(first[column], read[column], alpha);
    }
}

static size_t blends_of_parts(const nd_view *view, void *items) {
    size_t top, left;
    int plane;
    (void)items;
    for (plane = 0; plane < 3; plane++)
        if (to[plane].strides[1] != 1 || from[plane].strides[1] != 1) return 1;
    for (top = 0; top + BLOCK <= view->layout.shape[0]; top += BLOCK) {
        for (left = 0; left + BLOCK <= view->layout.shape[1]; left += BLOCK) {
            const int alpha = alpha_of(top, left);
            blend_block(0, top, left, BLOCK, alpha);
            blend_block(1, top / 2, left / 2, BLOCK / 2, alpha);
            blend_block(2, top / 2, left / 2, BLOCK / 2, alpha);
        }
    }
    return 0;
}

static inline unsigned sum_of(const byte *pixels, nd_cursor2 part, size_t rows, size_t columns, ptrdiff_t right) {
    unsigned sum = 0;
    size_t line, column;
    for (line = 0; line < rows; line++) {
        const byte *const first = pixels + nd_cursor_row(part, line).start;
        for (column = 0; column < columns; column++) sum += first[(ptrdiff_t)column * right];
    }
    return sum;
}

static size_t sums_of_tiles(const nd_view *view, void *items) {
    nd_tiles2 tiles = nd_cursor2_tiles(to[0], TILE, TILE);
    nd_cursor2 tile;
    size_t count = 0;
    (void)view;
    while (nd_next_tile2(&tiles, &tile)) {
        const int is_whole = tile.shape[0] == TILE && tile.shape[1] == TILE && tile.strides[1] == 1;
        now.sums[count++] = is_whole ? sum_of((const byte *)items, tile, TILE, TILE, 1)
                                     : sum_of((const byte *)items, tile, tile.shape[0], tile.shape[1], tile.strides[1]);
    }
    return 0;
}

/* ---- The rows of the table ---- */

/* Cursors of all planes, and of the packed picture, whose channels come first. */
static void accept(void) {
    const size_t shape[3] = {ROWS, COLUMNS, CHANNELS}, channels[3] = {CHANNELS, ROWS, COLUMNS}, axes[3] = {2, 0, 1};
    const nd_data data = {1, ROWS * COLUMNS * CHANNELS};
    const nd_view planes[3] = {plane_view(0), plane_view(1), plane_view(2)};
    nd_view view;
    must(nd_views_cursor2(planes, 3, to));
    must(nd_views_cursor2(planes, 3, from));
    must(nd_view_from_shape(channels, 3, ND_ROW_MAJOR, data, ND_OWNED, &view));
    must(nd_view_cursor3(&view, &apart));
    must(nd_view_from_shape(shape, 3, ND_ROW_MAJOR, data, ND_READ_ONLY, &view));
    must(nd_layout_permuted_axes(&view.layout, axes, 3, &view.layout));
    must(nd_view_cursor3(&view, &packed));
}

int main(int count, char **words) {
    const nd_view view = plane_view(0);
    begin(count, words);
    accept();
    print_alike("C: ", "fill", fill_rows, fill_by_hand, &view);
    print_alike("C: ", "invert", invert_rows, invert_by_hand, &view);
    print_alike("C: ", "copy", copy_rows, copy_by_hand, &view);
    print_alike("C: ", "blur by 3x3", blur_rows, blur_by_hand, &view);
    print_alike("C: ", "blur by 3x3, each place by `nd_at`", blur_at, blur_by_hand, &view);
    print_alike("C: ", "nhwc to nchw", planes_rows, planes_by_hand, &view);
    print_alike("C: ", "blends of 8x8, 4:2:0", blends_of_parts, blends_by_hand, &view);
    print_alike("C: ", "sums of 16x16", sums_of_tiles, sums_by_hand, &view);
    return 0;
}
