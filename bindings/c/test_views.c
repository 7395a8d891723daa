/* What ndarray_layout_inline.h has, beside the calls of the library, over random layouts and edited ones: C89, C99, C++. */
#include "testing_views.h"

#include <stdlib.h>
#include <string.h>

static const size_t two_three[2] = {2, 3}, many[ND_MAX_AXES + 1] = {1};
static const ptrdiff_t up[2] = {-3, 1};
static const nd_data five_bytes = {1, 5}, six_bytes = {1, 6}, six_words = {4, 6};

static void test_new_views(void) {
    nd_layout layout;
    nd_view view, before;
    memset(&view, 7, sizeof view);
    before = view;
    CHECK(nd_layout_from_shape(LIST(two_three), ND_ROW_MAJOR, &layout) == ND_OK);
    CHECK(nd_view_of(&layout, five_bytes, ND_OWNED, &view) == ND_OUT_OF_BOUNDS);
    CHECK(nd_view_of(&layout, six_bytes, 2, &view) == ND_BAD_ARGUMENT);
    CHECK(nd_view_from_shape(LIST(two_three), ND_ROW_MAJOR, five_bytes, ND_OWNED, &view) == ND_OUT_OF_BOUNDS);
    CHECK(nd_view_from_shape(LIST(two_three), 2, six_bytes, ND_OWNED, &view) == ND_BAD_ARGUMENT);
    CHECK(nd_view_from_shape(LIST(two_three), ND_ROW_MAJOR, six_bytes, 2, &view) == ND_BAD_ARGUMENT);
    CHECK(nd_view_from_shape(LIST(many), ND_ROW_MAJOR, six_bytes, ND_OWNED, &view) == ND_BAD_ARGUMENT);
    CHECK(nd_view_from_strides(LIST(two_three), up, 1, six_bytes, ND_OWNED, &view) == ND_INCOMPATIBLE_LAYOUT);
    layout.axes = ND_MAX_AXES + 1;
    CHECK(nd_view_of(&layout, six_bytes, ND_OWNED, &view) == ND_BAD_ARGUMENT);
    CHECK(memcmp(&view, &before, sizeof view) == 0);
    CHECK(nd_view_from_shape(LIST(two_three), ND_COLUMN_MAJOR, six_bytes, ND_OWNED, &view) == ND_OK);
    CHECK(view.layout.start == 0 && view.layout.strides[0] == 1 && view.layout.strides[1] == 2 && view.data.len == 6);
    CHECK(nd_view_of(&view.layout, six_bytes, ND_OWNED, &view) == ND_OK && view.layout.strides[1] == 2);
    CHECK(nd_view_from_strides(LIST(two_three), LIST(up), six_bytes, ND_OWNED, &view) == ND_OK && view.layout.start == 3);
    CHECK(nd_view_of(&view.layout, six_words, ND_OWNED, &view) == ND_OK && view.data.place_size == 4);
    CHECK(nd_view_from_strides(LIST(two_three), LIST(up), six_words, ND_OWNED, &view) == ND_OK && view.data.place_size == 4);
    CHECK(nd_view_of(&view.layout, six_bytes, ND_OWNED, &view) == ND_OK && view.layout.start == 3);
    CHECK(view.data.place_size == 1 && view.data.len == 6 && view.data.elem_places == 1);
    CHECK(nd_view_check(&view, ND_OWNED) == ND_OK && nd_view_check(&view, ND_READ_ONLY) == ND_OK);
    CHECK(nd_view_check(&view, 2) == ND_BAD_ARGUMENT && nd_view_check(&view, -1) == ND_BAD_ARGUMENT);
    view.data.elem_places = 0; /* (as a list of the other two numbers leaves it) */
    CHECK(nd_view_check(&view, ND_OWNED) == ND_OK);
    view.layout.shape[0] = 0;
    view.layout.start = 4; /* (without an index: 2 columns further lies the count) */
    CHECK(nd_view_check(&view, ND_OWNED) == ND_OK && nd_view_check(&view, ND_READ_ONLY) == ND_OK);
    view.layout.shape[0] = 2;
    view.layout.strides[0] = 1;
    view.layout.start = 2;
    CHECK(nd_view_check(&view, ND_OWNED) == ND_UNSUPPORTED && nd_view_check(&view, ND_READ_ONLY) == ND_OK);
    view.layout.start = 3;
    CHECK(nd_view_check(&view, ND_OWNED) == ND_OUT_OF_BOUNDS && nd_view_check(&view, ND_READ_ONLY) == ND_OUT_OF_BOUNDS);
    view.layout.start = 0;
    view.layout.strides[0] = (ptrdiff_t)((size_t)-1 / 2 - 2);
    view.data.len = (size_t)-1;
    CHECK(nd_view_check(&view, ND_READ_ONLY) == ND_OK);
    view.data.place_size = 2;
    CHECK(nd_view_check(&view, ND_READ_ONLY) == ND_OVERFLOW);
}

static void test_at(void) {
    const size_t last[3] = {1, 2, 0};
    nd_view view;
    size_t axis;
    CHECK(nd_view_from_strides(LIST(two_three), LIST(up), six_bytes, ND_OWNED, &view) == ND_OK);
    CHECK(nd_at2(&view, 1, 2) == 2 && nd_at2(&view, 0, 2) == 5 && nd_at_n(&view, last, 2) == 2);
    CHECK(nd_at2(&view, 2, 0) == ND_NO_PLACE && nd_at2(&view, 0, 3) == ND_NO_PLACE);
    CHECK(nd_at2(&view, (size_t)-1, 0) == ND_NO_PLACE && nd_at2(&view, 0, (size_t)-1) == ND_NO_PLACE);
    CHECK(nd_at1(&view, 0) == ND_NO_PLACE && nd_at3(&view, 0, 0, 0) == ND_NO_PLACE);
    CHECK(nd_at4(&view, 0, 0, 0, 0) == ND_NO_PLACE && nd_at_n(&view, last, 3) == ND_NO_PLACE);
    CHECK(nd_at_n(&view, last, 0) == ND_NO_PLACE);
#ifdef nd_at
    CHECK(nd_at(&view, 1, 2) == 2 && nd_at(&view, 2, 0) == ND_NO_PLACE && nd_at(&view, 1) == ND_NO_PLACE);
    CHECK(nd_at(&view, 0, 0, 0) == ND_NO_PLACE && nd_at(&view, 0, 0, 0, 0) == ND_NO_PLACE);
#endif
    view.data.len = 2; /* (a buffer that has become less) */
    CHECK(nd_at2(&view, 1, 2) == ND_NO_PLACE && nd_at2(&view, 1, 1) == 1);
    view.layout.shape[2] = view.layout.shape[3] = 1;
    view.layout.strides[2] = view.layout.strides[3] = 0;
    view.layout.axes = 1;
    CHECK(nd_at2(&view, 1, 1) == ND_NO_PLACE && nd_at3(&view, 1, 1, 0) == ND_NO_PLACE && nd_at1(&view, 1) == 0);
    view.layout.axes = 3;
    CHECK(nd_at2(&view, 1, 1) == ND_NO_PLACE && nd_at1(&view, 1) == ND_NO_PLACE && nd_at3(&view, 1, 1, 0) == 1);
    view.layout.axes = 4;
    CHECK(nd_at3(&view, 1, 1, 0) == ND_NO_PLACE && nd_at4(&view, 1, 1, 0, 0) == 1);
    for (axis = 0; axis < ND_MAX_AXES; axis++) view.layout.shape[axis] = 2;
    for (axis = 0; axis < ND_MAX_AXES; axis++) view.layout.strides[axis] = axis == 0;
    view.layout.start = 0;
    view.layout.axes = ND_MAX_AXES;
    CHECK(nd_at_n(&view, many, ND_MAX_AXES) == 1);
    view.layout.axes = ND_MAX_AXES + 1; /* (the numbers after the last length are strides) */
    CHECK(nd_at_n(&view, many, ND_MAX_AXES + 1) == ND_NO_PLACE);
}

/* Coordinates on the axes and past them: nd_at beside nd_place. */
static void test_at_beside_place(void) {
    int round, found = 0, none = 0;
    for (round = 0; round < 200000; round++) {
        nd_view view;
        size_t index[4] = {0, 0, 0, 0}, axis, place = 77, got;
        int32_t status;
        if (random_view(&view, 1, ND_READ_ONLY) != ND_OK) continue;
        for (axis = 0; axis < view.layout.axes; axis++) index[axis] = below(view.layout.shape[axis] + 1 + 2 * (below(4) == 0));
        status = nd_layout_place(&view.layout, index, view.layout.axes, &place);
        got = at(&view, index);
        CHECK_QUIETLY(got == nd_at_n(&view, index, view.layout.axes));
        CHECK_QUIETLY(status == ND_OK ? got == place && got < view.data.len : got == ND_NO_PLACE);
        if (status == ND_OK) found++;
        else none++;
    }
    CHECK(found > 20000 && none > 20000);
}

/* A number that an editor may put anywhere. */
static size_t any_number(void) {
    static const size_t numbers[] = {0, 1, 2, 3, 7, 40, (size_t)-1 / 2, (size_t)-1 / 2 + 1, (size_t)-1, (size_t)-2};
    if (below(3) == 0) return below(50);
    return below(2) == 0 ? numbers[below(COUNT(numbers))] : (below(1u << 24) << 40) + below(1u << 24);
}

/* Edits one number of a layout. */
static void edit(nd_layout *layout) {
    switch (below(4)) {
    case 0: layout->start = any_number(); break;
    case 1: layout->shape[below(4)] = any_number(); break;
    case 2: layout->strides[below(4)] = (ptrdiff_t)any_number(); break;
    default: layout->axes = below(8) == 0 ? any_number() : below(6); break;
    }
}

/* Writes what a layout's lists hold after its axes. */
static void write_rest(nd_layout *layout) {
    size_t axis;
    for (axis = layout->axes; axis < ND_MAX_AXES; axis++) {
        layout->shape[axis] = any_number();
        layout->strides[axis] = (ptrdiff_t)any_number();
    }
}

/* Reads the byte at each place that a view gives, and by each row, in a buffer of exactly its length. */
static int read_through(const nd_view *view, const char *buffer, unsigned *sum) {
    size_t index[ND_MAX_AXES], axis, place, left;
    nd_row_iter rows;
    nd_row row;
    int found = 0, round;
    for (round = 0; round < 8; round++) {
        for (axis = 0; axis < ND_MAX_AXES; axis++) index[axis] = below(2) == 0 ? below(5) : any_number();
        place = view->layout.axes <= 4 ? at(view, index) : nd_at_n(view, index, view->layout.axes);
        if (place == ND_NO_PLACE) continue;
        *sum += (unsigned char)buffer[place];
        found = 1;
    }
    if ((below(2) == 0 ? nd_view_rows : nd_view_joined_rows)(view, (int32_t)below(2), &rows) != ND_OK) return found;
    if (rows.left > 1000) return found;
    while (nd_next_row(&rows, &row))
        for (left = row.len < 1000 ? row.len : 1000, place = row.start; left-- > 0; place += (size_t)row.stride)
            *sum += (unsigned char)buffer[place];
    return found | 2;
}

/* Layouts that are edited after they were accepted, over buffers of their own, whose ends the sanitizers and valgrind know. */
static void test_edited(void) {
    int round, edits, at_some = 0, rows_of_some = 0;
    unsigned sum = 0;
    for (round = 0; round < 30000; round++) {
        nd_view view;
        char *buffer;
        int found;
        if (random_view(&view, 1, ND_READ_ONLY) != ND_OK || view.data.len == 0) continue;
        buffer = (char *)calloc(view.data.len, 1);
        if (buffer == NULL) continue;
        write_rest(&view.layout);
        for (edits = (int)below(4); edits-- > 0;) edit(&view.layout);
        found = read_through(&view, buffer, &sum);
        at_some += found & 1;
        rows_of_some += found >> 1;
        free(buffer);
    }
    CHECK(sum == 0 && at_some > 5000 && rows_of_some > 5000);
}

/* Whether the rows of a view have the places of nd_layout_places, in their order. */
static int has_places_of_rows(const nd_view *view, int32_t order, nd_row_iter *rows) {
    size_t places[2304], count = nd_layout_size(&view->layout), at_place = 0, column;
    nd_row row;
    if (count > COUNT(places) || nd_layout_places(&view->layout, order, places, count) != ND_OK) return 0;
    while (nd_next_row(rows, &row))
        for (column = 0; column < row.len; column++)
            if (at_place >= count || places[at_place++] != row.start + column * (size_t)row.stride) return 0;
    return at_place == count && !nd_next_row(rows, &row);
}

static void test_rows_beside_places(void) {
    int round, fewer = 0, none = 0, several = 0;
    for (round = 0; round < 40000; round++) {
        const int32_t order = (int32_t)below(2);
        nd_view view;
        nd_row_iter rows, joined;
        nd_layout layout;
        if (random_view(&view, 1, ND_READ_ONLY) != ND_OK) continue;
        if (nd_view_rows(&view, order, &rows) != ND_OK || nd_view_joined_rows(&view, order, &joined) != ND_OK ||
            nd_layout_join_axes(&view.layout, order, &layout) != ND_OK) {
            CHECK(0);
            continue;
        }
        CHECK_QUIETLY(rows.left == nd_layout_row_count(&view.layout, order));
        CHECK_QUIETLY(joined.left == nd_layout_row_count(&layout, order) && joined.left <= rows.left);
        CHECK_QUIETLY(nd_layout_size(&layout) == nd_layout_size(&view.layout) && layout.axes <= view.layout.axes);
        if (joined.left < rows.left) fewer++;
        if (rows.left == 0) none++;
        if (joined.left > 1) several++;
        CHECK_QUIETLY(has_places_of_rows(&view, order, &rows) && has_places_of_rows(&view, order, &joined));
    }
    CHECK(fewer > 2000 && none > 1000 && several > 5000);
}

/* Whether a status is this one, after which an iterator has no row; then it has one again, for what comes next. */
static int has_none(int32_t status, int32_t expected, nd_row_iter *rows) {
    nd_row row;
    const int has_row = nd_next_row(rows, &row);
    rows->left = 1;
    return status == expected && !has_row;
}

static void test_rows(void) {
    const size_t whole[3] = {100, 800, 3}, none[2] = {0, 4};
    const nd_slice_elem cut[3] = {ND_ALL, ND_RANGE(10, 210), ND_ALL};
    const nd_data data = {1, 240000};
    nd_view view;
    nd_row_iter rows;
    nd_row row;
    nd_layout joined;
    CHECK(nd_view_from_shape(LIST(whole), ND_ROW_MAJOR, data, ND_OWNED, &view) == ND_OK);
    CHECK(nd_view_joined_rows(&view, ND_ROW_MAJOR, &rows) == ND_OK && rows.left == 1 && rows.len == 240000);
    CHECK(nd_layout_slice(&view.layout, LIST(cut), ND_STRICT, &view.layout) == ND_OK);
    CHECK(nd_view_rows(&view, ND_ROW_MAJOR, &rows) == ND_OK && rows.left == 20000 && rows.len == 3);
    CHECK(nd_view_joined_rows(&view, ND_ROW_MAJOR, &rows) == ND_OK && rows.left == 100);
    CHECK(nd_next_row(&rows, &row) && row.start == 30 && row.len == 600 && row.stride == 1 && rows.left == 99);
    CHECK(nd_next_row(&rows, &row) && row.start == 2430);
    CHECK(nd_layout_join_axes(&view.layout, ND_ROW_MAJOR, &joined) == ND_OK && joined.axes == 2 && joined.shape[1] == 600);
    CHECK(nd_view_joined_rows(&view, ND_COLUMN_MAJOR, &rows) == ND_OK && rows.left == 600 && rows.len == 100);
    CHECK(has_none(nd_view_rows(&view, 2, &rows), ND_BAD_ARGUMENT, &rows));
    CHECK(has_none(nd_view_joined_rows(&view, 2, &rows), ND_BAD_ARGUMENT, &rows));
    CHECK(nd_layout_join_axes(&view.layout, -1, &joined) == ND_BAD_ARGUMENT);
    view.data.len = 2000;
    CHECK(has_none(nd_view_rows(&view, ND_ROW_MAJOR, &rows), ND_OUT_OF_BOUNDS, &rows));
    CHECK(has_none(nd_view_joined_rows(&view, ND_ROW_MAJOR, &rows), ND_OUT_OF_BOUNDS, &rows));
    view.layout.strides[0] = (ptrdiff_t)((size_t)-1 / 2);
    CHECK(has_none(nd_view_rows(&view, ND_ROW_MAJOR, &rows), ND_OVERFLOW, &rows));
    CHECK(nd_layout_join_axes(&view.layout, ND_ROW_MAJOR, &joined) == ND_OVERFLOW && joined.axes == 2);
    view.layout.axes = ND_MAX_AXES + 1;
    CHECK(has_none(nd_view_rows(&view, ND_ROW_MAJOR, &rows), ND_BAD_ARGUMENT, &rows));
    CHECK(nd_layout_join_axes(&view.layout, ND_ROW_MAJOR, &joined) == ND_BAD_ARGUMENT && joined.axes == 2);
    CHECK(nd_view_from_shape(LIST(none), ND_ROW_MAJOR, data, ND_OWNED, &view) == ND_OK);
    CHECK(nd_view_rows(&view, ND_ROW_MAJOR, &rows) == ND_OK && !nd_next_row(&rows, &row) && row.start == 2430);
    CHECK(nd_layout_join_axes(&view.layout, ND_ROW_MAJOR, &joined) == ND_OK && joined.axes == 2 && joined.shape[1] == 4);
    CHECK(nd_view_from_shape(none, 0, ND_ROW_MAJOR, data, ND_OWNED, &view) == ND_OK);
    CHECK(nd_view_rows(&view, ND_COLUMN_MAJOR, &rows) == ND_OK && nd_next_row(&rows, &row));
    CHECK(row.start == 0 && row.len == 1 && row.stride == 0 && !nd_next_row(&rows, &row));
}

static int is_elem(nd_slice_elem elem, int32_t kind, int32_t has_end, ptrdiff_t start, ptrdiff_t end, ptrdiff_t step) {
    return elem.kind == kind && elem.has_end == has_end && elem.start == start && elem.end == end && elem.step == step;
}

static void test_elems(void) {
    const nd_slice_elem elems[] = {ND_ALL,      ND_RANGE(1, -2),   ND_RANGE_BY(1, 9, -3), ND_FROM(4),
                                   ND_INDEX(5), ND_FROM_BY(0, -1), ND_NEW_AXIS()};
    const nd_slice_elem past[] = {ND_RANGE(2u, (size_t)-1), ND_FROM_BY((size_t)-3, -1), ND_INDEX((size_t)-1 / 2 + 1),
                                  ND_RANGE_BY((size_t)-1 / 2, -1, 2)};
    const ptrdiff_t limit = (ptrdiff_t)((size_t)-1 / 2);
    const int32_t kinds[] = {ND_SLICE, ND_INDEX, ND_NEW_AXIS}; /* (which are numbers still) */
    CHECK(kinds[0] == 0 && kinds[1] == 1 && kinds[2] == 2);
    CHECK(is_elem(elems[0], ND_SLICE, 0, 0, 0, 1) && is_elem(elems[1], ND_SLICE, 1, 1, -2, 1));
    CHECK(is_elem(elems[2], ND_SLICE, 1, 1, 9, -3) && is_elem(elems[3], ND_SLICE, 0, 4, 0, 1));
    CHECK(is_elem(elems[4], ND_INDEX, 0, 5, 0, 0) && is_elem(elems[5], ND_SLICE, 0, 0, 0, -1));
    CHECK(elems[6].kind == ND_NEW_AXIS);
    CHECK(is_elem(past[0], ND_SLICE, 1, 2, limit, 1) && is_elem(past[1], ND_SLICE, 0, limit, 0, -1));
    CHECK(is_elem(past[2], ND_INDEX, 0, limit, 0, 0) && is_elem(past[3], ND_SLICE, 1, limit, -1, 2));
}

/* The calls for one view or layout, beside those of the library, over layouts of which some are edited. */
static void test_twins_beside_calls(void) {
    int round, merged_some = 0, refused = 0;
    for (round = 0; round < 40000; round++) {
        nd_view view;
        nd_view of_one;
        nd_layout one, made, other;
        int32_t answer = 7, expected = 7, status, got;
        size_t first = 7, end = 7, expected_first = 7, expected_end = 7, take = below(4), into = below(4);
        const int32_t order = (int32_t)below(3);
        if (random_view(&view, 1, ND_READ_ONLY) != ND_OK) continue;
        one = view.layout;
        write_rest(&one);
        if (below(4) == 0) edit(&one);
        if (one.axes > 4) one.axes = 4;
        of_one = view;
        of_one.layout = one;
        status = nd_has_overlap(one.shape, one.axes, one.strides, one.axes, &expected);
        if (status != ND_OK) refused++;
        got = nd_view_has_overlap(&of_one, &answer);
        CHECK_QUIETLY(is_same(got, answer, status, expected));
        status = nd_is_contiguous(one.shape, one.axes, one.strides, one.axes, &expected);
        got = nd_view_is_contiguous(&of_one, &answer);
        CHECK_QUIETLY(is_same(got, answer, status, expected));
        status = nd_is_layout_c(one.shape, one.axes, one.strides, one.axes, &expected);
        got = nd_view_is_layout_c(&of_one, &answer);
        CHECK_QUIETLY(is_same(got, answer, status, expected));
        status = nd_is_layout_f(one.shape, one.axes, one.strides, one.axes, &expected);
        got = nd_view_is_layout_f(&of_one, &answer);
        CHECK_QUIETLY(is_same(got, answer, status, expected));
        status = nd_stretch(one.start, one.shape, one.axes, one.strides, one.axes, order, &expected_first, &expected_end,
                            &expected);
        got = nd_view_stretch(&of_one, order, &first, &end, &answer);
        CHECK_QUIETLY(is_same(got, answer, status, expected));
        CHECK_QUIETLY(first == expected_first && end == expected_end);
        other = one;
        made = one;
        made.axes = 3;
        status = nd_merge_axes(other.shape, other.axes, other.strides, other.axes, take, into, &expected);
        got = nd_layout_merge_axes(&one, take, into, &answer, &made);
        CHECK_QUIETLY(is_same(got, answer, status, expected));
        CHECK_QUIETLY(status == ND_OK ? memcmp(&made, &other, sizeof made) == 0 : made.axes == 3);
        if (status == ND_OK && answer) merged_some++;
        made.axes = 3;
        status = nd_diag(one.shape, one.axes, one.strides, one.axes, other.shape, other.strides);
        CHECK_QUIETLY(nd_layout_diag(&one, &made) == status);
        CHECK_QUIETLY(status != ND_OK ? made.axes == 3
                                      : made.start == one.start && made.axes == 1 && made.shape[0] == other.shape[0] &&
                                            made.strides[0] == other.strides[0]);
    }
    CHECK(merged_some > 2000 && refused > 200);
}

static void test_slices_of_layouts(void) {
    const nd_slice_elem rows[6] = {ND_INDEX(0), ND_ALL, ND_INDEX(1), ND_ALL, ND_ALL, ND_INDEX(-1)};
    const size_t counts[3] = {2, 2, 2};
    nd_layout layout;
    size_t pair[2] = {7, 7}, count = 7;
    int32_t found = 7;
    CHECK(nd_layout_from_shape(LIST(two_three), ND_ROW_MAJOR, &layout) == ND_OK);
    CHECK(nd_layout_picked(&layout, rows, 1, ND_STRICT, &count) == ND_INCOMPATIBLE_SHAPE && count == 7);
    CHECK(nd_layout_picked(&layout, rows, 2, ND_STRICT, &count) == ND_OK && count == 3);
    CHECK(nd_layout_slices_intersect(&layout, rows, 2, rows + 2, 1, ND_STRICT, &found) == ND_INCOMPATIBLE_SHAPE && found == 7);
    CHECK(nd_layout_slices_intersect(&layout, rows, 2, rows + 2, 2, ND_STRICT, &found) == ND_OK && found == 0);
    CHECK(nd_layout_slices_intersect(&layout, rows, 2, rows + 4, 2, ND_STRICT, &found) == ND_OK && found == 1);
    CHECK(nd_layout_first_intersection(&layout, rows, 6, counts, 2, ND_STRICT, pair, &found) == ND_BAD_ARGUMENT);
    CHECK(pair[0] == 7 && found == 1);
    CHECK(nd_layout_first_intersection(&layout, rows, 4, counts, 2, ND_STRICT, pair, &found) == ND_OK && found == 0);
    CHECK(nd_layout_first_intersection(&layout, rows, 6, counts, 3, ND_STRICT, pair, &found) == ND_OK && found == 1);
    CHECK(pair[0] < pair[1] && pair[1] == 2);
    layout.axes = ND_MAX_AXES + 1;
    CHECK(nd_layout_picked(&layout, rows, 2, ND_STRICT, &count) == ND_BAD_ARGUMENT);
    CHECK(nd_layout_slices_intersect(&layout, rows, 2, rows + 4, 2, ND_STRICT, &found) == ND_BAD_ARGUMENT);
    CHECK(nd_layout_first_intersection(&layout, rows, 6, counts, 3, ND_STRICT, pair, &found) == ND_BAD_ARGUMENT);
}

static void test_co_broadcast(void) {
    const size_t column[2] = {2, 1}, row[1] = {3}, four[1] = {4};
    nd_layout first, second, third, made;
    CHECK(nd_layout_from_shape(LIST(column), ND_ROW_MAJOR, &first) == ND_OK);
    CHECK(nd_layout_from_shape(LIST(row), ND_ROW_MAJOR, &second) == ND_OK);
    CHECK(nd_layout_from_shape(LIST(four), ND_ROW_MAJOR, &third) == ND_OK);
    CHECK(nd_layout_co_broadcast(&second, &third, &second, &third) == ND_INCOMPATIBLE_SHAPE);
    CHECK(second.axes == 1 && second.shape[0] == 3 && third.axes == 1 && third.shape[0] == 4);
    CHECK(nd_layout_co_broadcast(&second, &first, &third, &made) == ND_OK && third.axes == 2 && made.axes == 2);
    CHECK(third.shape[0] == 2 && third.strides[0] == 0 && made.shape[1] == 3 && made.strides[1] == 0);
    CHECK(nd_layout_co_broadcast(&first, &second, &second, &first) == ND_OK); /* (crosswise) */
    CHECK(first.axes == 2 && first.shape[0] == 2 && first.shape[1] == 3 && first.strides[0] == 0 && first.strides[1] == 1);
    CHECK(second.axes == 2 && second.shape[1] == 3 && second.strides[0] == 1 && second.strides[1] == 0);
    first.axes = ND_MAX_AXES + 1;
    CHECK(nd_layout_co_broadcast(&first, &second, &first, &second) == ND_BAD_ARGUMENT);
    CHECK(nd_layout_co_broadcast(&second, &first, &first, &second) == ND_BAD_ARGUMENT);
}

/* Each call for one view or layout at as many axes as there is room for, of length 1 but for the first and the last. */
static void test_most_axes(void) {
    nd_view view, other;
    size_t shape[ND_MAX_AXES], axis, first = 7, end = 7;
    int32_t answer = 7;
    for (axis = 0; axis < ND_MAX_AXES; axis++) shape[axis] = axis == 0 || axis == ND_MAX_AXES - 1 ? 2 : 1;
    CHECK(nd_view_from_shape(LIST(shape), ND_ROW_MAJOR, six_bytes, ND_OWNED, &view) == ND_OK);
    CHECK(nd_view_check(&view, ND_OWNED) == ND_OK);
    CHECK(nd_view_has_overlap(&view, &answer) == ND_OK && answer == 0);
    CHECK(nd_view_is_contiguous(&view, &answer) == ND_OK && answer == 1);
    CHECK(nd_view_is_layout_f(&view, &answer) == ND_OK && answer == 0);
    CHECK(nd_view_is_layout_c(&view, &answer) == ND_OK && answer == 1);
    CHECK(nd_view_stretch(&view, ND_ROW_MAJOR, &first, &end, &answer) == ND_OK && answer == 1 && first == 0 && end == 4);
    CHECK(nd_layout_diag(&view.layout, &other.layout) == ND_OK && other.layout.shape[0] == 1);
    CHECK(nd_layout_merge_axes(&view.layout, 0, ND_MAX_AXES - 1, &answer, &other.layout) == ND_OK && answer == 1);
    CHECK(other.layout.shape[0] == 1 && other.layout.shape[ND_MAX_AXES - 1] == 4);
    CHECK(nd_layout_join_axes(&view.layout, ND_ROW_MAJOR, &other.layout) == ND_OK);
    CHECK(other.layout.axes == 1 && other.layout.shape[0] == 4 && other.layout.strides[0] == 1);
}

/* The calls that read or make a layout of as many axes. */
static void test_layouts_of_most_axes(void) {
    size_t shape[ND_MAX_AXES], index[ND_MAX_AXES], axis, numbers[4] = {7, 7, 7, 7}, len = 7;
    ptrdiff_t stride = 7;
    nd_slice_elem whole[ND_MAX_AXES];
    nd_layout layout, made, second;
    int32_t has_next = 7;
    for (axis = 0; axis < ND_MAX_AXES; axis++) {
        const nd_slice_elem all = ND_ALL;
        whole[axis] = all;
        shape[axis] = axis == 0 || axis == ND_MAX_AXES - 1 ? 2 : 1;
        index[axis] = shape[axis] - 1;
    }
    CHECK(nd_layout_from_shape(LIST(shape), ND_ROW_MAJOR, &layout) == ND_OK && nd_layout_size(&layout) == 4);
    CHECK(nd_layout_row_count(&layout, ND_ROW_MAJOR) == 2);
    CHECK(nd_layout_place(&layout, LIST(index), numbers) == ND_OK && numbers[0] == 3);
    CHECK(nd_layout_places(&layout, ND_COLUMN_MAJOR, LIST(numbers)) == ND_OK && numbers[0] == 0 && numbers[1] == 2);
    CHECK(nd_layout_rows(&layout, ND_ROW_MAJOR, numbers, 2, &stride, &len) == ND_OK && numbers[1] == 2 && len == 2);
    CHECK(nd_layout_next_index(&layout, LIST(index), ND_ROW_MAJOR, &has_next) == ND_OK && has_next == 0 && index[0] == 0);
    CHECK(nd_layout_slice(&layout, LIST(whole), ND_STRICT, &made) == ND_OK && made.axes == ND_MAX_AXES);
    CHECK(nd_layout_reshape(&layout, LIST(shape), ND_ROW_MAJOR, &made) == ND_OK && made.axes == ND_MAX_AXES);
    CHECK(nd_layout_broadcast(&layout, LIST(shape), &made) == ND_OK && made.axes == ND_MAX_AXES);
    CHECK(nd_layout_co_broadcast(&layout, &made, &made, &second) == ND_OK && second.axes == ND_MAX_AXES);
    CHECK(nd_layout_picked(&layout, LIST(whole), ND_STRICT, &len) == ND_OK && len == 4);
    CHECK(nd_layout_slices_intersect(&layout, LIST(whole), LIST(whole), ND_STRICT, &has_next) == ND_OK && has_next == 1);
    len = ND_MAX_AXES;
    CHECK(nd_layout_first_intersection(&layout, LIST(whole), &len, 1, ND_STRICT, numbers, &has_next) == ND_OK && has_next == 0);
    layout.axes = ND_MAX_AXES / 2;
    CHECK(nd_layout_windows(&layout, shape + 1, ND_MAX_AXES / 2, &made) == ND_OK && made.axes == ND_MAX_AXES);
    CHECK(nd_layout_exact_chunks(&layout, shape + 1, ND_MAX_AXES / 2, &made) == ND_OK && made.axes == ND_MAX_AXES);
}

static void test_too_many_axes(void) {
    nd_view view;
    nd_layout made;
    size_t first = 7, end = 7;
    int32_t answer = 7;
    CHECK(nd_view_from_shape(LIST(two_three), ND_ROW_MAJOR, six_bytes, ND_OWNED, &view) == ND_OK);
    view.layout.axes = ND_MAX_AXES + 1;
    made.axes = 7;
    CHECK(nd_view_check(&view, ND_OWNED) == ND_BAD_ARGUMENT && nd_view_check(&view, ND_READ_ONLY) == ND_BAD_ARGUMENT);
    CHECK(nd_view_has_overlap(&view, &answer) == ND_BAD_ARGUMENT);
    CHECK(nd_view_is_contiguous(&view, &answer) == ND_BAD_ARGUMENT);
    CHECK(nd_view_is_layout_c(&view, &answer) == ND_BAD_ARGUMENT);
    CHECK(nd_view_is_layout_f(&view, &answer) == ND_BAD_ARGUMENT);
    CHECK(nd_view_stretch(&view, ND_ROW_MAJOR, &first, &end, &answer) == ND_BAD_ARGUMENT);
    CHECK(nd_layout_merge_axes(&view.layout, 0, 1, &answer, &made) == ND_BAD_ARGUMENT);
    CHECK(nd_layout_diag(&view.layout, &made) == ND_BAD_ARGUMENT);
    CHECK(first == 7 && end == 7 && answer == 7 && made.axes == 7);
}

int main(void) {
    test_new_views();
    test_at();
    test_at_beside_place();
    test_edited();
    test_rows();
    test_rows_beside_places();
    test_elems();
    test_twins_beside_calls();
    test_slices_of_layouts();
    test_co_broadcast();
    test_most_axes();
    test_layouts_of_most_axes();
    test_too_many_axes();
    printf("%d checked, %d failed\n", checked, failed);
    return failed != 0;
}
