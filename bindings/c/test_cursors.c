/* What ndarray_layout_cursors.h has, beside nd_at and slices of the library, over random views: C89, C99, C++. */
#include "testing_views.h"

static const size_t two_three[2] = {2, 3};
static const nd_data six_bytes = {1, 6};

/* The status of a cursor of as many axes as a view has, of 1 to 4, and what it has for an index: what `at` has of the view. */
#define AT_CURSOR(type, of_view, at_index) \
    do { \
        type at; \
        const int32_t status = of_view(view, &at); \
        if (status == ND_OK) *place = at_index; \
        return status; \
    } while (0)

static int32_t at_cursor(const nd_view *view, const size_t *index, size_t *place) {
    switch (view->layout.axes) {
    case 1: AT_CURSOR(nd_cursor1, nd_view_cursor1, nd_cursor_at1(at, index[0]));
    case 2: AT_CURSOR(nd_cursor2, nd_view_cursor2, nd_cursor_at2(at, index[0], index[1]));
    case 3: AT_CURSOR(nd_cursor3, nd_view_cursor3, nd_cursor_at3(at, index[0], index[1], index[2]));
    default: AT_CURSOR(nd_cursor4, nd_view_cursor4, nd_cursor_at4(at, index[0], index[1], index[2], index[3]));
    }
}

/* The row of a cursor of two or more axes. */
#define ROW_OF(type, of_view, of_index) \
    do { \
        type at; \
        if (of_view(view, &at) == ND_OK) row = of_index; \
    } while (0)

static nd_row cursor_row(const nd_view *view, const size_t *index) {
    nd_row row = {7, 7, 7};
    if (view->layout.axes == 2) ROW_OF(nd_cursor2, nd_view_cursor2, nd_cursor_row2(at, index[0]));
    if (view->layout.axes == 3) ROW_OF(nd_cursor3, nd_view_cursor3, nd_cursor_row3(at, index[0], index[1]));
    if (view->layout.axes == 4) ROW_OF(nd_cursor4, nd_view_cursor4, nd_cursor_row4(at, index[0], index[1], index[2]));
    return row;
}

/* Whether the row there is what nd_at has of its first element, or none where the coordinates have no row. */
static int is_cursor_row(const nd_view *view, size_t *index) {
    const size_t last = view->layout.axes - 1;
    const nd_row row = cursor_row(view, index);
    size_t axis, len = view->layout.shape[last];
    index[last] = 0;
    for (axis = 0; axis < last; axis++)
        if (index[axis] >= view->layout.shape[axis]) len = 0;
    return row.len == len && (len == 0 || (row.start == at(view, index) && row.stride == view->layout.strides[last]));
}

static void test_cursors(void) {
    int round, inside = 0, outside = 0;
    nd_view view, views[2];
    nd_cursor1 one;
    nd_cursor2 two, both[2];
    for (round = 0; round < 40000; round++) {
        size_t index[4], axis, place = 7;
        if (random_view(&view, 1, ND_READ_ONLY) != ND_OK || view.layout.axes == 0) continue;
        for (axis = 0; axis < view.layout.axes; axis++)
            index[axis] = below(12) == 0 ? (size_t)-1 - below(2) : below(view.layout.shape[axis] + (below(6) == 0) + 1);
        CHECK_QUIETLY(at_cursor(&view, index, &place) == ND_OK && place == at(&view, index));
        if (place == ND_NO_PLACE) outside++;
        if (place != ND_NO_PLACE) inside++;
        if (view.layout.axes > 1) CHECK_QUIETLY(is_cursor_row(&view, index));
    }
    CHECK(inside > 2000 && outside > 5000);
    two.start = 7;
    CHECK(nd_view_from_shape(LIST(two_three), ND_ROW_MAJOR, six_bytes, ND_OWNED, &view) == ND_OK);
    CHECK(nd_view_cursor1(&view, &one) == ND_INCOMPATIBLE_SHAPE);
    view.layout.start = 1;
    CHECK(nd_view_cursor2(&view, &two) == ND_OUT_OF_BOUNDS && two.start == 7);
    view.layout.start = 0;
    CHECK(nd_view_cursor2(&view, &two) == ND_OK && two.shape[1] == 3 && nd_cursor_at2(two, 1, 2) == 5);
    views[0] = views[1] = view;
    views[1].layout.axes = 1;
    both[0] = both[1] = two;
    both[0].start = 9;
    CHECK(nd_views_cursor2(views, 2, both) == ND_INCOMPATIBLE_SHAPE && both[0].start == 9 && nd_views_cursor2(views, 0, both) == ND_OK);
    views[1] = view;
    CHECK(nd_views_cursor2(views, 2, both) == ND_OK && both[0].start == 0 && both[1].shape[1] == 3);
    CHECK(nd_cursor_row2(two, 1).start == 3 && nd_cursor_row2(two, 1).len == 3 && nd_cursor_row2(two, 2).len == 0);
}

/* Whether two cursors have one shape and the same places. (A slice has a stride of 0 along an axis of one coordinate.) */
static int is_cursor(nd_cursor2 one, nd_cursor2 other) {
    size_t row, column;
    if (one.shape[0] != other.shape[0] || one.shape[1] != other.shape[1]) return 0;
    for (row = 0; row < one.shape[0]; row++)
        for (column = 0; column < one.shape[1]; column++)
            if (nd_cursor_at2(one, row, column) != nd_cursor_at2(other, row, column)) return 0;
    return 1;
}

/* The part that the library's slice of a view is, or a cursor of no row where it refuses one. */
static nd_cursor2 sliced(nd_view view, const size_t *first, const size_t *counts) {
    nd_cursor2 part = {0, {0, 0}, {0, 0}};
    nd_slice_elem elems[2] = {ND_ALL, ND_ALL};
    size_t axis;
    for (axis = 0; axis < 2; axis++) {
        if (first[axis] > (size_t)-1 / 2 || counts[axis] > (size_t)-1 / 2 - first[axis]) return part;
        elems[axis].has_end = 1;
        elems[axis].start = (ptrdiff_t)first[axis];
        elems[axis].end = (ptrdiff_t)(first[axis] + counts[axis]);
    }
    if (nd_layout_slice(&view.layout, elems, 2, ND_STRICT, &view.layout) != ND_OK) return part;
    CHECK_QUIETLY(nd_view_cursor2(&view, &part) == ND_OK);
    return part;
}

/* A length, or where an axis may be cut; now and then past it, up to the greatest number. */
static size_t any_bound(size_t len) {
    static const size_t numbers[] = {(size_t)-1, (size_t)-1 / 2, (size_t)-2, (size_t)-1 / 2 + 1};
    return below(20) == 0 ? numbers[below(COUNT(numbers))] : below(len + 1 + (below(4) == 0));
}

static void test_crops(void) {
    int round, inside = 0, outside = 0;
    for (round = 0; round < 80000; round++) {
        nd_view view;
        nd_cursor2 at, part, expected;
        size_t first[2], counts[2], axis, is_some;
        if (random_view(&view, 1, ND_READ_ONLY) != ND_OK || nd_view_cursor2(&view, &at) != ND_OK) continue;
        for (axis = 0; axis < 2; axis++) {
            first[axis] = any_bound(at.shape[axis]);
            counts[axis] = any_bound(at.shape[axis] < first[axis] ? 1 : at.shape[axis] - first[axis]);
        }
        part = nd_cursor2_crop(at, first[0], first[1], counts[0], counts[1]);
        expected = sliced(view, first, counts);
        is_some = expected.shape[0] * expected.shape[1];
        CHECK_QUIETLY(is_cursor(part, expected));
        inside += is_some > 0;
        outside += is_some == 0 && counts[0] > 0 && counts[1] > 0;
    }
    CHECK(inside > 1000 && outside > 1000);
}

static void test_tiles(void) {
    int round, whole = 0, less = 0;
    for (round = 0; round < 40000; round++) {
        nd_view view;
        nd_cursor2 at, tile = {7, {7, 7}, {7, 7}}, last;
        nd_tiles2 tiles;
        size_t top, left;
        const size_t rows = below(5), columns = below(5);
        if (random_view(&view, 1, ND_READ_ONLY) != ND_OK || nd_view_cursor2(&view, &at) != ND_OK) continue;
        tiles = nd_cursor2_tiles(at, rows, columns);
        for (top = 0; rows > 0 && columns > 0 && top < at.shape[0]; top += rows) {
            for (left = 0; left < at.shape[1]; left += columns) {
                const size_t down = at.shape[0] - top, right = at.shape[1] - left;
                const size_t high = down < rows ? down : rows, wide = right < columns ? right : columns;
                CHECK_QUIETLY(nd_next_tile2(&tiles, &tile) == 1);
                CHECK_QUIETLY(is_cursor(tile, nd_cursor2_crop(at, top, left, high, wide)) && tile.shape[0] == high);
                whole += high == rows && wide == columns;
                less += high != rows || wide != columns;
            }
        }
        last = tile;
        CHECK_QUIETLY(nd_next_tile2(&tiles, &tile) == 0 && nd_next_tile2(&tiles, &tile) == 0 && is_cursor(last, tile));
    }
    CHECK(whole > 2000 && less > 2000);
}

int main(void) {
    test_cursors();
    test_crops();
    test_tiles();
    printf("%d checked, %d failed\n", checked, failed);
    return failed != 0;
}
