/* What ndarray_layout_rows.h has for rows of several views, beside the places of each, over random views: C89, C99, C++. */
#include "testing_views.h"

enum { MOST_AXES = 4, MOST_PLACES = 256 };

static const size_t two_three[2] = {2, 3};

/* Views of one shape at random, of which some have their axes one after another. Whether all are accepted. */
static int random_views(nd_view *views, size_t count) {
    const nd_data data = {1, 4096};
    const size_t axes = below(MOST_AXES + 1);
    size_t shape[MOST_AXES], axis, at;
    for (axis = 0; axis < axes; axis++) shape[axis] = below(12) == 0 ? 0 : 1 + below(4);
    for (at = 0; at < count; at++) {
        const int is_turned = below(3) == 0, has_gaps = below(2) == 0;
        ptrdiff_t strides[MOST_AXES], reach = 1;
        for (axis = 0; axis < axes; axis++) {
            const size_t slow = is_turned ? axis : axes - 1 - axis;
            strides[slow] = reach * (below(4) == 0 ? -1 : 1);
            if (below(12) == 0) strides[slow] = (ptrdiff_t)below(5);
            if (shape[slow] > 0) reach *= (ptrdiff_t)shape[slow] + (has_gaps && below(3) == 0);
        }
        if (nd_view_from_strides(shape, axes, strides, axes, data, ND_READ_ONLY, views + at) != ND_OK) return 0;
    }
    return 1;
}

/* Whether the places of a list lie evenly in stretches of a length, all by one stride. */
static int lie_evenly(const size_t *places, size_t count, size_t len) {
    size_t at;
    for (at = 0; at < count; at++)
        if (len > 1 && places[at] - places[at - at % len] != (at % len) * (places[1] - places[0])) return 0;
    return 1;
}

/* The longest rows of which each view has all places: as many axes as lie evenly in all of them. */
static size_t longest_rows(const nd_view *views, size_t count, int32_t order, size_t (*places)[MOST_PLACES]) {
    const nd_layout *const first = &views[0].layout;
    const size_t size = nd_layout_size(first);
    size_t done, at, len = 1, longest = 1;
    for (done = 0; done < first->axes; done++) {
        len *= first->shape[order == ND_ROW_MAJOR ? first->axes - 1 - done : done];
        for (at = 0; at < count && lie_evenly(places[at], size, len); at++) continue;
        if (at == count) longest = len;
    }
    return longest;
}

/* Whether the rows of each view have its places, in their order. */
static int has_places(nd_rows_iter *rows, size_t count, size_t size, size_t (*places)[MOST_PLACES]) {
    nd_row each[ND_MAX_VIEWS];
    size_t done = 0, at, column;
    while (nd_next_rows(rows, each)) {
        for (at = 0; at < count; at++)
            for (column = 0; column < each[at].len; column++)
                if (done + column >= size || each[at].len != each[0].len ||
                    places[at][done + column] != each[at].start + column * (size_t)each[at].stride)
                    return 0;
        done += each[0].len;
    }
    return done == size;
}

static void test_beside_places(void) {
    static nd_view views[ND_MAX_VIEWS];
    static size_t places[ND_MAX_VIEWS][MOST_PLACES];
    int round, none = 0, joined = 0, apart = 0;
    for (round = 0; round < 40000; round++) {
        const int32_t order = (int32_t)below(2);
        const size_t count = 1 + below(ND_MAX_VIEWS);
        size_t at, size, len;
        nd_rows_iter rows;
        nd_row_iter alone;
        if (!random_views(views, count)) continue;
        size = nd_layout_size(&views[0].layout);
        for (at = 0; at < count; at++)
            CHECK_QUIETLY(nd_layout_places(&views[at].layout, order, places[at], size) == ND_OK);
        CHECK_QUIETLY(nd_views_joined_rows(views, count, order, &rows) == ND_OK);
        CHECK_QUIETLY(nd_view_joined_rows(views, order, &alone) == ND_OK);
        if (size == 0) none++;
        len = rows.len;
        CHECK_QUIETLY(size == 0 ? rows.left == 0 : len == longest_rows(views, count, order, places));
        CHECK_QUIETLY(rows.left * len == size && rows.left >= alone.left && (count > 1 || rows.left == alone.left));
        if (count > 1 && rows.left > alone.left) apart++;
        if (count > 1 && nd_layout_row_count(&views[0].layout, order) > rows.left) joined++;
        CHECK_QUIETLY(has_places(&rows, count, size, places));
    }
    CHECK(none > 2000 && joined > 2000 && apart > 2000);
}

/* Whether a status is this one, after which an iterator has no row. */
static int has_none(int32_t status, int32_t expected, nd_rows_iter *rows) {
    nd_row each[ND_MAX_VIEWS];
    const int has_row = nd_next_rows(rows, each);
    rows->left = 1;
    return status == expected && !has_row;
}

static void test_refused(void) {
    const nd_data data = {1, 24};
    const size_t two_four[2] = {2, 4}, two[1] = {2};
    nd_view views[ND_MAX_VIEWS + 1];
    nd_rows_iter rows;
    nd_reason reason;
    size_t at;
    rows.left = 1;
    rows.views = 1;
    for (at = 0; at < COUNT(views); at++)
        CHECK(nd_view_from_shape(LIST(two_three), ND_ROW_MAJOR, data, ND_OWNED, views + at) == ND_OK);
    CHECK(nd_views_reason(views, ND_MAX_VIEWS, &reason) == ND_OK && reason.status == ND_OK && reason.rule == ND_RULE_NONE);
    CHECK(nd_views_joined_rows(views, ND_MAX_VIEWS, ND_ROW_MAJOR, &rows) == ND_OK && rows.len == 6 && rows.left == 1);
    CHECK(has_none(nd_views_joined_rows(views, ND_MAX_VIEWS + 1, 0, &rows), ND_BAD_ARGUMENT, &rows));
    CHECK(has_none(nd_views_joined_rows(views, 0, 0, &rows), ND_BAD_ARGUMENT, &rows));
    CHECK(has_none(nd_views_joined_rows(views, 2, 2, &rows), ND_BAD_ARGUMENT, &rows));
    CHECK(nd_views_reason(views, ND_MAX_VIEWS + 1, &reason) == ND_BAD_ARGUMENT);
    CHECK(nd_views_reason(views, 0, &reason) == ND_BAD_ARGUMENT);
    CHECK(nd_view_from_shape(LIST(two_four), ND_ROW_MAJOR, data, ND_OWNED, views + 2) == ND_OK);
    CHECK(nd_view_from_shape(LIST(two), ND_ROW_MAJOR, data, ND_OWNED, views + 3) == ND_OK);
    CHECK(nd_views_joined_rows(views, 2, ND_ROW_MAJOR, &rows) == ND_OK);
    CHECK(has_none(nd_views_joined_rows(views, 4, 0, &rows), ND_INCOMPATIBLE_SHAPE, &rows));
    CHECK(nd_views_reason(views, 4, &reason) == ND_OK && reason.status == ND_INCOMPATIBLE_SHAPE);
    CHECK(reason.rule == ND_RULE_OTHER_LENGTH && reason.axis == 1 && reason.number == 2 && reason.size == 4 && reason.other == 3);
    views[2] = views[1];
    CHECK(has_none(nd_views_joined_rows(views, 4, 0, &rows), ND_INCOMPATIBLE_SHAPE, &rows));
    CHECK(nd_views_reason(views, 4, &reason) == ND_OK && reason.status == ND_INCOMPATIBLE_SHAPE);
    CHECK(reason.rule == ND_RULE_COUNT && reason.list == ND_LIST_VIEW && reason.number == 3 && reason.size == 1);
    views[3] = views[1];
    views[3].layout.start = 24;
    CHECK(has_none(nd_views_joined_rows(views, 4, 0, &rows), ND_OUT_OF_BOUNDS, &rows));
    views[3].layout.axes = ND_MAX_AXES + 1;
    CHECK(has_none(nd_views_joined_rows(views, 4, 0, &rows), ND_BAD_ARGUMENT, &rows));
    CHECK(nd_views_reason(views, 4, &reason) == ND_BAD_ARGUMENT);
}

/* Two crops of one shape, of pictures of other widths: rows of all bytes of a line, and one where each is a whole picture. */
static void test_crops(void) {
    const size_t wide[3] = {100, 400, 3}, narrow[3] = {100, 200, 3};
    const nd_data much = {1, 120000};
    nd_view views[2];
    nd_rows_iter rows;
    nd_row each[2];
    CHECK(nd_view_from_shape(LIST(wide), ND_ROW_MAJOR, much, ND_OWNED, views) == ND_OK);
    CHECK(nd_view_from_shape(LIST(narrow), ND_ROW_MAJOR, much, ND_OWNED, views + 1) == ND_OK);
    views[0].layout.start = 30;
    views[0].layout.shape[1] = 200;
    CHECK(nd_views_joined_rows(views, 2, ND_ROW_MAJOR, &rows) == ND_OK && rows.left == 100 && rows.len == 600);
    CHECK(nd_next_rows(&rows, each) && each[0].start == 30 && each[1].start == 0 && each[0].len == 600 && each[1].len == 600);
    CHECK(nd_next_rows(&rows, each) && each[0].start == 1230 && each[1].start == 600 && each[1].stride == 1 && rows.left == 98);
    CHECK(nd_views_joined_rows(views + 1, 1, ND_ROW_MAJOR, &rows) == ND_OK && rows.left == 1 && rows.len == 60000);
    CHECK(nd_views_joined_rows(views, 2, ND_COLUMN_MAJOR, &rows) == ND_OK && rows.left == 600 && rows.len == 100);
    CHECK(nd_next_rows(&rows, each) && each[0].stride == 1200 && each[1].stride == 600);
}

/* As many axes as there is room for, and none. */
static void test_counts_of_axes(void) {
    const nd_data six = {1, 6};
    size_t shape[ND_MAX_AXES], axis;
    nd_view views[2];
    nd_rows_iter rows;
    nd_row each[2];
    for (axis = 0; axis < ND_MAX_AXES; axis++) shape[axis] = axis == 0 || axis == ND_MAX_AXES - 1 ? 2 : 1;
    CHECK(nd_view_from_shape(LIST(shape), ND_ROW_MAJOR, six, ND_OWNED, views) == ND_OK);
    CHECK(nd_view_from_shape(LIST(shape), ND_COLUMN_MAJOR, six, ND_OWNED, views + 1) == ND_OK);
    CHECK(nd_views_joined_rows(views, 2, ND_ROW_MAJOR, &rows) == ND_OK && rows.left == 2 && rows.len == 2);
    CHECK(nd_next_rows(&rows, each) && each[0].stride == 1 && each[1].stride == 2);
    CHECK(nd_next_rows(&rows, each) && each[0].start == 2 && each[1].start == 1 && !nd_next_rows(&rows, each));
    CHECK(nd_view_from_shape(shape, 0, ND_ROW_MAJOR, six, ND_OWNED, views) == ND_OK);
    views[1] = views[0];
    CHECK(nd_views_joined_rows(views, 2, ND_ROW_MAJOR, &rows) == ND_OK && rows.left == 1);
    CHECK(nd_next_rows(&rows, each) && each[1].start == 0 && each[1].len == 1 && each[1].stride == 0);
    CHECK(!nd_next_rows(&rows, each));
}

/* What the library's own call refuses, and writes then: nothing. */
static void test_joined_in_all(void) {
    const size_t cube[3] = {4, 2, 3}, far[1] = {3};
    const ptrdiff_t strides[6] = {12, 3, 1, 6, 3, 1}, two_far[2] = {1, (ptrdiff_t)((size_t)-1 / 2)};
    ptrdiff_t joined[2] = {77, 77};
    size_t count = 77, len = 77;
    CHECK(nd_joined_in_all(LIST(cube), strides, 6, 2, joined, 2, &count, &len) == ND_BAD_ARGUMENT);
    CHECK(nd_joined_in_all(LIST(cube), strides, 0, 0, joined, 0, &count, &len) == ND_BAD_ARGUMENT);
    CHECK(nd_joined_in_all(LIST(cube), strides, 5, 0, joined, 2, &count, &len) == ND_INCOMPATIBLE_LAYOUT);
    CHECK(nd_joined_in_all(LIST(cube), strides, 3, 0, joined, 2, &count, &len) == ND_INCOMPATIBLE_LAYOUT);
    CHECK(nd_joined_in_all(LIST(far), two_far, 2, 0, joined, 2, &count, &len) == ND_OVERFLOW);
    CHECK(joined[0] == 77 && joined[1] == 77 && count == 77 && len == 77);
    CHECK(nd_joined_in_all(LIST(cube), strides, 6, 0, joined, 2, &count, &len) == ND_OK);
    CHECK(count == 2 && len == 6 && joined[0] == 1 && joined[1] == 1);
    CHECK(nd_joined_in_all(LIST(cube), strides + 3, 3, 0, joined, 1, &count, &len) == ND_OK && count == 3 && len == 24);
    CHECK(nd_joined_in_all(cube, 0, strides, 0, 0, joined, 2, &count, &len) == ND_OK && count == 0 && len == 1);
    CHECK(joined[0] == 1 && joined[1] == 1);
}

int main(void) {
    test_beside_places();
    test_refused();
    test_crops();
    test_counts_of_axes();
    test_joined_in_all();
    printf("%d checked, %d failed\n", checked, failed);
    return failed != 0;
}
