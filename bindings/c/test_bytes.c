/* Strides in bytes, and what a view over bytes says of its elements, beside the bytes themselves: C89, C99, C++. */
#include "testing_views.h"

#include <string.h>

#define LIMIT ((size_t)-1 / 2)

static const size_t two_three[2] = {2, 3}, many[ND_MAX_AXES + 1] = {1};
static const ptrdiff_t by_rows[2] = {3, 1};

static void test_bytes(void) {
    const size_t three[1] = {3}, none[2] = {3, 0};
    const ptrdiff_t seven[1] = {7}, lines[2] = {-12, 4}, back[2] = {-7, 4};
    ptrdiff_t strides[2] = {77, 77};
    nd_view view, before;
    memset(&view, 7, sizeof view);
    before = view;
    CHECK(nd_strides_from_bytes(seven, 1, 4, strides) == ND_INCOMPATIBLE_LAYOUT && strides[0] == 77);
    CHECK(nd_strides_from_bytes(back, 2, 4, strides) == ND_INCOMPATIBLE_LAYOUT && strides[0] == 77);
    CHECK(nd_strides_from_bytes(lines, 2, 0, strides) == ND_BAD_ARGUMENT && strides[0] == 77);
    CHECK(nd_strides_from_bytes(lines, 2, LIMIT + 1, strides) == ND_BAD_ARGUMENT && strides[0] == 77);
    CHECK(nd_strides_from_bytes(lines, 2, LIMIT, strides) == ND_INCOMPATIBLE_LAYOUT && strides[0] == 77);
    CHECK(nd_strides_from_bytes(lines, 2, 4, strides) == ND_OK && strides[0] == -3 && strides[1] == 1);
    CHECK(nd_view_over_bytes(2, LIST(three), LIST(seven), 4, 19, ND_OWNED, &view) == ND_OUT_OF_BOUNDS);
    CHECK(nd_view_over_bytes(2, LIST(three), LIST(seven), 8, 99, ND_OWNED, &view) == ND_UNSUPPORTED);
    CHECK(nd_view_over_bytes(2, LIST(three), LIST(seven), 0, 99, ND_OWNED, &view) == ND_BAD_ARGUMENT);
    CHECK(nd_view_over_bytes(2, LIST(three), LIST(seven), LIMIT + 1, (size_t)-1, ND_OWNED, &view) == ND_OVERFLOW);
    CHECK(nd_view_over_bytes(2, LIST(none), LIST(lines), LIMIT + 1, (size_t)-1, ND_OWNED, &view) == ND_OVERFLOW);
    CHECK(nd_view_from_byte_strides(LIST(none), LIST(lines), (size_t)-1, 9, ND_OWNED, &view) == ND_OVERFLOW);
    CHECK(nd_view_over_bytes(2, LIST(three), LIST(seven), 4, 99, 2, &view) == ND_BAD_ARGUMENT);
    CHECK(nd_view_over_bytes(2, LIST(three), lines, 2, 4, 99, 2, &view) == ND_BAD_ARGUMENT);
    CHECK(nd_view_over_bytes(2, LIST(many), LIST(seven), 4, 99, ND_OWNED, &view) == ND_BAD_ARGUMENT);
    CHECK(nd_view_over_bytes(2, LIST(three), lines, 2, 4, 99, ND_OWNED, &view) == ND_INCOMPATIBLE_LAYOUT);
    CHECK(nd_view_from_byte_strides(LIST(three), lines, 2, 4, 99, ND_OWNED, &view) == ND_INCOMPATIBLE_LAYOUT);
    CHECK(nd_view_from_byte_strides(LIST(three), lines, 2, 4, 99, 2, &view) == ND_BAD_ARGUMENT);
    CHECK(nd_view_from_byte_strides(LIST(three), LIST(seven), 0, 99, ND_OWNED, &view) == ND_BAD_ARGUMENT);
    CHECK(nd_view_from_byte_strides(LIST(three), LIST(seven), 4, 99, 2, &view) == ND_BAD_ARGUMENT);
    CHECK(nd_view_from_byte_strides(LIST(two_three), LIST(lines), 4, 23, 2, &view) == ND_BAD_ARGUMENT);
    CHECK(nd_view_from_byte_strides(LIST(two_three), LIST(lines), 4, 23, ND_OWNED, &view) == ND_OUT_OF_BOUNDS);
    CHECK(memcmp(&view, &before, sizeof view) == 0);
    CHECK(nd_view_over_bytes(24, none, 2, lines, 2, LIMIT, LIMIT, ND_OWNED, &view) == ND_OK && view.data.len == 1);
    CHECK(nd_view_over_bytes(2, none, 2, lines, 2, 9, 30, ND_READ_ONLY, &view) == ND_OUT_OF_BOUNDS);
    CHECK(nd_view_over_bytes(24, none, 2, lines, 2, 28, 28, ND_READ_ONLY, &view) == ND_OK && view.data.len == 1);
    CHECK(nd_view_over_bytes(2, LIST(three), LIST(seven), 8, 24, ND_READ_ONLY, &view) == ND_OK && nd_at1(&view, 2) == 16);
    CHECK(nd_view_over_bytes(2, LIST(three), LIST(seven), 4, 20, ND_OWNED, &view) == ND_OK && view.data.len == 17);
    CHECK(view.data.place_size == 1 && view.data.elem_places == 4);
    CHECK(nd_at1(&view, 0) == 2 && nd_at1(&view, 1) == 9 && nd_at1(&view, 2) == 16 && nd_at1(&view, 3) == ND_NO_PLACE);
    view.layout.shape[0] = 4; /* (its last byte would be past the buffer) */
    CHECK(nd_at1(&view, 3) == ND_NO_PLACE);
    CHECK(nd_view_from_byte_strides(LIST(two_three), LIST(lines), 4, 24, ND_OWNED, &view) == ND_OK);
    CHECK(nd_at2(&view, 0, 0) == 12 && nd_at2(&view, 1, 2) == 8 && nd_at2(&view, 0, 2) == 20);
    CHECK(nd_view_from_byte_strides(LIST(none), LIST(back), 4, 14, ND_OWNED, &view) == ND_OK && view.layout.start == 0);
    CHECK(nd_view_from_byte_strides(none, 2, by_rows, 2, 9, 6, ND_OWNED, &view) == ND_OK && view.data.len == 0);
    CHECK(nd_view_check(&view, ND_OWNED) == ND_OK && nd_at2(&view, 0, 0) == ND_NO_PLACE);
    CHECK(nd_view_from_byte_strides(LIST(none), LIST(back), 4, 13, ND_OWNED, &view) == ND_OUT_OF_BOUNDS);
}

/* Strides in bytes: multiples of the elements' size beside the layout of elements, and any, whose elements lie within. */
static void test_bytes_beside_elements(void) {
    int round, accepted = 0;
    for (round = 0; round < 40000; round++) {
        const size_t size = 1 + below(5);
        nd_view view, bytes;
        ptrdiff_t strides[4];
        size_t index[4], axis, place;
        if (random_view(&view, size, ND_READ_ONLY) != ND_OK) continue;
        for (axis = 0; axis < view.layout.axes; axis++) {
            strides[axis] = view.layout.strides[axis] * (ptrdiff_t)size;
            index[axis] = below(4);
        }
        CHECK_QUIETLY(nd_view_from_byte_strides(view.layout.shape, view.layout.axes, strides, view.layout.axes, size,
                                                view.data.len * size, ND_READ_ONLY, &bytes) == ND_OK);
        place = at(&view, index);
        CHECK_QUIETLY(at(&bytes, index) == (place == ND_NO_PLACE ? place : place * size));
        for (axis = 0; axis < view.layout.axes; axis++) strides[axis] += (ptrdiff_t)below(5) - 2;
        if (nd_view_over_bytes(view.layout.start * size, view.layout.shape, view.layout.axes, strides, view.layout.axes, size,
                               view.data.len * size, (int32_t)below(2), &bytes) != ND_OK)
            continue;
        place = at(&bytes, index);
        if (place == ND_NO_PLACE) continue;
        accepted++;
        CHECK_QUIETLY(place + size <= view.data.len * size);
    }
    CHECK(accepted > 2000);
}

/* What the calls for one view say. */
typedef struct answers {
    int32_t statuses[7];
    int32_t has_overlap, is_contiguous, is_layout_c, is_layout_f, is_owned, found[2];
    size_t first[2], end[2];
} answers;

static answers ask(const nd_view *view) {
    answers got;
    int32_t order;
    memset(&got, 0, sizeof got);
    got.statuses[0] = nd_view_has_overlap(view, &got.has_overlap);
    got.statuses[1] = nd_view_is_contiguous(view, &got.is_contiguous);
    got.statuses[2] = nd_view_is_layout_c(view, &got.is_layout_c);
    got.statuses[3] = nd_view_is_layout_f(view, &got.is_layout_f);
    for (order = 0; order < 2; order++)
        got.statuses[4 + order] = nd_view_stretch(view, order, &got.first[order], &got.end[order], &got.found[order]);
    got.statuses[6] = nd_view_check(view, ND_READ_ONLY);
    got.is_owned = nd_view_check(view, ND_OWNED);
    return got;
}

/* Whether all calls but that for owned layouts are ND_OK, and these are the answers. */
static int says(const nd_view *view, int has_overlap, int is_contiguous, int is_layout_c, int is_layout_f) {
    const answers got = ask(view);
    size_t call;
    for (call = 0; call < COUNT(got.statuses); call++)
        if (got.statuses[call] != ND_OK) return 0;
    return got.has_overlap == has_overlap && got.is_contiguous == is_contiguous && got.is_layout_c == is_layout_c &&
           got.is_layout_f == is_layout_f;
}

static void test_elements(void) {
    const ptrdiff_t rows[2] = {12, 4}, columns[2] = {4, 8}, packed[2] = {9, 3};
    const nd_slice_elem back[2] = {ND_FROM_BY(0, -1), ND_ALL}, second[2] = {ND_ALL, ND_INDEX(1)};
    const nd_slice_elem empty[2] = {ND_ALL, ND_RANGE(1, 1)};
    nd_view view, part;
    size_t first = 7, end = 7;
    int32_t found = 7;
    CHECK(nd_view_over_bytes(0, LIST(two_three), LIST(packed), 4, 99, ND_OWNED, &view) == ND_UNSUPPORTED);
    CHECK(nd_view_over_bytes(0, LIST(two_three), LIST(packed), 4, 99, ND_READ_ONLY, &view) == ND_OK);
    CHECK(nd_view_check(&view, ND_OWNED) == ND_UNSUPPORTED && nd_view_check(&view, ND_READ_ONLY) == ND_OK);
    CHECK(says(&view, 1, 0, 0, 0));
    CHECK(nd_view_over_bytes(0, LIST(two_three), LIST(packed), 3, 99, ND_READ_ONLY, &view) == ND_OK);
    CHECK(nd_view_check(&view, ND_OWNED) == ND_OK && says(&view, 0, 1, 1, 0));
    CHECK(nd_view_over_bytes(5, LIST(two_three), LIST(rows), 4, 29, ND_OWNED, &view) == ND_OK);
    CHECK(says(&view, 0, 1, 1, 0) && nd_view_check(&view, ND_OWNED) == ND_OK);
    CHECK(nd_view_stretch(&view, ND_COLUMN_MAJOR, &first, &end, &found) == ND_OK && found == 0 && first == 7 && end == 7);
    CHECK(nd_view_stretch(&view, ND_ROW_MAJOR, &first, &end, &found) == ND_OK && found == 1 && first == 5 && end == 29);
    CHECK(nd_view_stretch(&view, 2, &first, &end, &found) == ND_BAD_ARGUMENT);
    part = view;
    CHECK(nd_layout_slice(&view.layout, LIST(back), ND_STRICT, &part.layout) == ND_OK && says(&part, 0, 1, 0, 0));
    CHECK(nd_layout_slice(&view.layout, LIST(second), ND_STRICT, &part.layout) == ND_OK && says(&part, 0, 0, 0, 0));
    CHECK(nd_layout_slice(&view.layout, LIST(empty), ND_STRICT, &part.layout) == ND_OK && says(&part, 0, 0, 1, 1));
    part.layout.shape[0] = 1;
    part.layout.strides[1] = 7; /* (one element and a part of the next: rounded, it is the stride of a shape without gaps) */
    CHECK(says(&part, 0, 1, 1, 1));
    part.layout.start = 29; /* (without an index the highest place may be the count of bytes) */
    CHECK(nd_view_check(&part, ND_OWNED) == ND_OK && nd_view_check(&part, ND_READ_ONLY) == ND_OK);
    part.layout.start = 30;
    CHECK(nd_view_check(&part, ND_OWNED) == ND_OUT_OF_BOUNDS && nd_view_check(&part, ND_READ_ONLY) == ND_OUT_OF_BOUNDS);
    view.data.len--; /* (a buffer that has become less by a byte) */
    CHECK(nd_view_check(&view, ND_OWNED) == ND_OUT_OF_BOUNDS && nd_view_check(&view, ND_READ_ONLY) == ND_OUT_OF_BOUNDS);
    CHECK(nd_view_over_bytes(0, LIST(two_three), LIST(rows), 2, 24, ND_OWNED, &view) == ND_OK && says(&view, 0, 0, 0, 0));
    CHECK(nd_view_over_bytes(0, LIST(two_three), LIST(rows), 5, 25, ND_READ_ONLY, &view) == ND_OK);
    CHECK(says(&view, 1, 0, 0, 0) && nd_view_check(&view, ND_OWNED) == ND_UNSUPPORTED);
    CHECK(nd_view_over_bytes(0, LIST(two_three), LIST(columns), 4, 24, ND_OWNED, &view) == ND_OK);
    CHECK(says(&view, 0, 1, 0, 1));
    CHECK(nd_view_stretch(&view, ND_COLUMN_MAJOR, &first, &end, &found) == ND_OK && found == 1 && first == 0 && end == 24);
}

/* Sizes up to the limit: of strides in bytes, and of elements that all have one place, whose bytes aren't counted. */
static void test_limits(void) {
    const size_t two[1] = {2}, one[1] = {1}, most[1] = {LIMIT / 2 + 1};
    const ptrdiff_t far[1] = {(ptrdiff_t)(LIMIT - 2)}, none[1] = {0};
    nd_view view;
    nd_row_iter rows;
    CHECK(nd_view_over_bytes(0, LIST(two), LIST(far), 2, LIMIT, ND_OWNED, &view) == ND_OK && nd_at1(&view, 1) == LIMIT - 2);
    CHECK(nd_view_from_byte_strides(LIST(two), LIST(far), 2, LIMIT, ND_OWNED, &view) == ND_OK);
    CHECK(nd_view_check(&view, ND_OWNED) == ND_OK && nd_view_check(&view, ND_READ_ONLY) == ND_OK);
    CHECK(nd_view_over_bytes(0, LIST(two), LIST(far), 3, LIMIT, ND_OWNED, &view) == ND_OUT_OF_BOUNDS);
    CHECK(nd_view_over_bytes(7, LIST(one), LIST(none), 2, 9, ND_OWNED, &view) == ND_OK);
    CHECK(nd_layout_broadcast(&view.layout, LIST(most), &view.layout) == ND_OK && view.layout.shape[0] == most[0]);
    CHECK(nd_view_check(&view, ND_READ_ONLY) == ND_OK && nd_view_check(&view, ND_OWNED) == ND_OVERFLOW);
    CHECK(nd_view_rows(&view, ND_ROW_MAJOR, &rows) == ND_OK && rows.left == 1 && rows.len == most[0] && rows.start == 7);
}

/* A view over bytes at as many axes as there is room for, of length 1 but for the first and the last. */
static void test_most_axes(void) {
    size_t shape[ND_MAX_AXES + 1], axis;
    ptrdiff_t strides[ND_MAX_AXES + 1];
    nd_view view;
    for (axis = 0; axis <= ND_MAX_AXES; axis++) {
        shape[axis] = axis == 0 || axis == ND_MAX_AXES - 1 ? 2 : 1;
        strides[axis] = axis == 0 ? 8 : 4;
    }
    CHECK(nd_view_over_bytes(0, shape, ND_MAX_AXES, strides, ND_MAX_AXES, 4, 16, ND_OWNED, &view) == ND_OK);
    CHECK(nd_view_from_byte_strides(shape, ND_MAX_AXES, strides, ND_MAX_AXES, 4, 16, ND_OWNED, &view) == ND_OK);
    CHECK(says(&view, 0, 1, 1, 0) && nd_view_check(&view, ND_OWNED) == ND_OK);
    view.layout.axes = ND_MAX_AXES + 1;
    CHECK(nd_view_check(&view, ND_OWNED) == ND_BAD_ARGUMENT && nd_view_check(&view, ND_READ_ONLY) == ND_BAD_ARGUMENT);
    CHECK(nd_view_over_bytes(0, LIST(shape), LIST(strides), 4, 16, ND_OWNED, &view) == ND_BAD_ARGUMENT);
    CHECK(nd_view_from_byte_strides(LIST(shape), LIST(strides), 4, 16, ND_OWNED, &view) == ND_BAD_ARGUMENT);
}

/* A view over bytes says of its elements what one of elements says of them; so does a slice of it, also without an index. */
static void test_twins_of_elements(void) {
    int round, empty = 0, contiguous[2] = {0, 0}, owned[2] = {0, 0};
    for (round = 0; round < 40000; round++) {
        const size_t size = 1 + below(5);
        nd_view view, bytes;
        nd_slice_elem elems[4];
        ptrdiff_t strides[4];
        answers of_elements, of_bytes;
        size_t axis, axes, order;
        if (random_view(&view, size, ND_READ_ONLY) != ND_OK) continue;
        axes = view.layout.axes;
        for (axis = 0; axis < axes; axis++) {
            elems[axis].kind = ND_SLICE;
            elems[axis].has_end = 1;
            elems[axis].start = (ptrdiff_t)below(5);
            elems[axis].end = (ptrdiff_t)below(5);
            elems[axis].step = below(4) == 0 ? -1 : 1 + (ptrdiff_t)below(2);
            strides[axis] = view.layout.strides[axis] * (ptrdiff_t)size;
        }
        if (nd_view_over_bytes(view.layout.start * size, view.layout.shape, axes, strides, axes, size, view.data.len * size,
                               ND_READ_ONLY, &bytes) != ND_OK) {
            CHECK(0);
            continue;
        }
        for (axis = 0; axis < axes; axis++) bytes.layout.strides[axis] = strides[axis]; /* (also without an index) */
        bytes.layout.start = view.layout.start * size;
        if (below(2) == 0 && nd_layout_slice(&view.layout, elems, axes, ND_CLAMPED, &view.layout) == ND_OK)
            CHECK_QUIETLY(nd_layout_slice(&bytes.layout, elems, axes, ND_CLAMPED, &bytes.layout) == ND_OK);
        of_elements = ask(&view);
        if (nd_layout_size(&view.layout) == 0) empty++;
        for (order = 0; order < 2; order++) {
            of_elements.first[order] *= size;
            of_elements.end[order] *= size;
        }
        of_bytes = ask(&bytes);
        contiguous[of_bytes.is_contiguous]++;
        owned[of_bytes.is_owned == ND_OK]++;
        CHECK_QUIETLY(memcmp(&of_elements, &of_bytes, sizeof of_bytes) == 0);
    }
    CHECK(empty > 2000 && contiguous[0] > 2000 && contiguous[1] > 2000 && owned[0] > 200 && owned[1] > 2000);
}

#define MOST_BYTES 600

/* Marks the bytes of each element, at these places: the first, the one after the last, whether two elements share one, and
 * whether there is neither that nor a gap. */
static void mark(const size_t *places, size_t count, size_t size, size_t *lowest, size_t *end, int *is_shared, int *is_dense) {
    unsigned char marks[MOST_BYTES];
    size_t at, byte, found = 0;
    memset(marks, 0, sizeof marks);
    *lowest = MOST_BYTES;
    *end = 0;
    *is_shared = 0;
    for (at = 0; at < count; at++)
        for (byte = places[at]; byte < places[at] + size && byte < MOST_BYTES; byte++) {
            if (marks[byte]++) *is_shared = 1;
            else found++;
            if (byte < *lowest) *lowest = byte;
            if (byte >= *end) *end = byte + 1;
        }
    *is_dense = !*is_shared && *end - *lowest == found;
}

/* Whether places follow one another by an element's size. */
static int follow(const size_t *places, size_t count, size_t size) {
    size_t at;
    for (at = 1; at < count; at++)
        if (places[at] != places[at - 1] + size) return 0;
    return 1;
}

/* Elements at any bytes, beside marks at each byte of each of them. */
static void test_beside_marks(void) {
    int round, shared = 0, dense[2] = {0, 0}, ordered[2] = {0, 0};
    for (round = 0; round < 60000; round++) {
        const size_t size = 1 + below(5);
        size_t places[2][64], axis, count, lowest, end, reach = size;
        ptrdiff_t strides[3];
        size_t shape[3], axes = below(4);
        nd_view view;
        answers got;
        int is_shared, is_dense, order;
        for (axis = axes; axis-- > 0;) {
            shape[axis] = 1 + below(4);
            strides[axis] = (ptrdiff_t)(below(3) == 0 ? reach + below(4) - 1 : reach) * (below(4) == 0 ? -1 : 1);
            reach *= shape[axis];
        }
        if (axes > 1 && below(3) == 0) { /* (another order of the axes) */
            const ptrdiff_t stride = strides[0];
            const size_t len = shape[0];
            strides[0] = strides[axes - 1];
            shape[0] = shape[axes - 1];
            strides[axes - 1] = stride;
            shape[axes - 1] = len;
        }
        if (nd_view_from_byte_strides(shape, axes, strides, axes, size, MOST_BYTES, ND_READ_ONLY, &view) != ND_OK) continue;
        got = ask(&view);
        count = nd_layout_size(&view.layout);
        for (order = 0; order < 2; order++)
            CHECK_QUIETLY(nd_layout_places(&view.layout, order, places[order], count) == ND_OK);
        mark(places[0], count, size, &lowest, &end, &is_shared, &is_dense);
        CHECK_QUIETLY(got.has_overlap || !is_shared);
        CHECK_QUIETLY(got.is_owned == (got.has_overlap ? ND_UNSUPPORTED : ND_OK));
        CHECK_QUIETLY(got.is_contiguous == is_dense);
        CHECK_QUIETLY(got.is_layout_c == follow(places[0], count, size) && got.found[0] == got.is_layout_c);
        CHECK_QUIETLY(got.is_layout_f == follow(places[1], count, size) && got.found[1] == got.is_layout_f);
        for (order = 0; order < 2; order++)
            CHECK_QUIETLY(!got.found[order] || (got.first[order] == lowest && got.end[order] == end));
        shared += is_shared;
        dense[is_dense]++;
        ordered[0] += got.is_layout_c && !got.is_layout_f;
        ordered[1] += got.is_layout_f && !got.is_layout_c;
    }
    CHECK(shared > 2000 && dense[0] > 2000 && dense[1] > 2000 && ordered[0] > 1000 && ordered[1] > 200);
}

/* Planes of a buffer, and of row 0 alone: statuses in their order, and views that no status has written. */
static void test_planes(void) {
    const nd_plane yuv[3] = {{0, 4, 1, 2, 4}, {8, 2, 1, 1, 2}, {10, 2, 1, 1, 2}};
    nd_plane packed[3] = {{0, 8, 2, 2, 4}, {1, 8, 4, 2, 2}, {3, 8, 4, 2, 2}}, up = {99, -6, 1, 2, 4};
    nd_view views[3];
    memset(views, 7, sizeof views);
    CHECK(nd_views_over_planes(yuv, 3, 1, 11, ND_OWNED, views) == ND_OUT_OF_BOUNDS && views[0].layout.start != 0);
    CHECK(nd_views_over_planes(yuv, 3, 0, 12, ND_OWNED, views) == ND_BAD_ARGUMENT && views[0].layout.start != 0);
    CHECK(nd_views_over_planes(yuv, 0, 1, 0, ND_OWNED, views) == ND_OK && views[0].layout.start != 0);
    CHECK(nd_views_over_planes(yuv, 3, 1, 12, ND_OWNED, views) == ND_OK && nd_at2(&views[2], 0, 1) == 11 && views[1].data.len == 12);
    CHECK(nd_views_over_planes(packed, 3, 1, 16, ND_OWNED, views) == ND_OK);
    CHECK(nd_at2(&views[0], 1, 3) == 14 && nd_at2(&views[1], 1, 1) == 13 && nd_at2(&views[2], 1, 1) == 15);
    CHECK(nd_views_over_planes(packed, 3, 2, 32, ND_OWNED, views) == ND_INCOMPATIBLE_LAYOUT);
    packed[0].offset = 2;
    CHECK(nd_views_over_planes(packed, 1, 2, 18, ND_OWNED, views) == ND_OK && views[0].layout.start == 1 && views[0].data.len == 9);
    CHECK(nd_views_over_planes(packed, 1, 2, 17, ND_OWNED, views) == ND_OUT_OF_BOUNDS && views[0].layout.start == 1);
    packed[0].pitch = 9;
    CHECK(nd_views_over_planes(packed, 1, 2, 99, ND_OWNED, views) == ND_INCOMPATIBLE_LAYOUT);
    packed[0].pitch = 4;
    CHECK(nd_views_over_planes(packed, 1, 2, 99, ND_OWNED, views) == ND_UNSUPPORTED);
    CHECK(nd_views_over_planes(packed, 1, 2, 99, 2, views) == ND_BAD_ARGUMENT && nd_views_from_row0(&up, 1, 1, 2, views) == ND_BAD_ARGUMENT);
    CHECK(nd_views_over_planes(&up, 1, 1, 200, ND_OWNED, views) == ND_OK && nd_at2(&views[0], 1, 0) == 93);
    CHECK(nd_views_over_planes(&up, 1, 1, 102, ND_OWNED, views) == ND_OUT_OF_BOUNDS);
    CHECK(nd_views_from_row0(&up, 1, 1, ND_OWNED, views) == ND_OK && views[0].layout.start == 6 && views[0].data.len == 10);
    up.rows = 0;
    CHECK(nd_views_from_row0(&up, 1, 1, ND_OWNED, views) == ND_OK && nd_layout_size(&views[0].layout) == 0);
    up.rows = (size_t)-1 / 2;
    CHECK(nd_views_from_row0(&up, 1, 1, ND_OWNED, views) == ND_OVERFLOW);
}

/* Planes of row 0 at random: all places lie in the buffer that the view says, from its first element to its last. */
static void test_planes_from_row0(void) {
    int round, found = 0;
    for (round = 0; round < 20000; round++) {
        const size_t size = 1 + below(3);
        nd_plane plane;
        nd_view view;
        size_t row, column, least = (size_t)-1, greatest = 0;
        plane.offset = below(50);
        plane.rows = below(5);
        plane.columns = below(5);
        plane.pitch = (ptrdiff_t)(size * below(8)) * (below(2) == 0 ? 1 : -1);
        plane.step = (ptrdiff_t)(size * below(4)) * (below(3) == 0 ? -1 : 1);
        CHECK_QUIETLY(nd_views_from_row0(&plane, 1, size, ND_READ_ONLY, &view) == ND_OK && nd_view_check(&view, ND_READ_ONLY) == ND_OK);
        for (row = 0; row < plane.rows; row++) {
            for (column = 0; column < plane.columns; column++) {
                const size_t place = nd_at2(&view, row, column);
                const ptrdiff_t from = (ptrdiff_t)(place * size) - (ptrdiff_t)(view.layout.start * size);
                CHECK_QUIETLY(from == (ptrdiff_t)row * plane.pitch + (ptrdiff_t)column * plane.step);
                least = place < least ? place : least;
                greatest = place > greatest ? place : greatest;
            }
        }
        if (plane.rows * plane.columns == 0) continue;
        CHECK_QUIETLY(least == 0 && greatest + 1 == view.data.len);
        found++;
    }
    CHECK(found > 10000);
}

int main(void) {
    test_planes();
    test_planes_from_row0();
    test_bytes();
    test_bytes_beside_elements();
    test_elements();
    test_limits();
    test_most_axes();
    test_twins_of_elements();
    test_beside_marks();
    printf("%d checked, %d failed\n", checked, failed);
    return failed != 0;
}
