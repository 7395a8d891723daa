/* The functions that ndarray_layout.h itself has, and what it promises of new layouts and of empty lists: C89, C99, C++. */
#include "testing_sizes.h"

#include <stdio.h>
#include <string.h>

#define COUNT(list) (sizeof(list) / sizeof *(list))
/* A list and its count, as the calls take them. */
#define LIST(list) (list), COUNT(list)

static int checked, failed;

static void check(int holds, int line, const char *what) {
    checked++;
    if (holds) return;
    failed++;
    printf("test_layouts.c:%d: %s\n", line, what);
}

#define CHECK(fact) check((fact), __LINE__, #fact)
/* A fact of many rounds, which counts where it fails. */
#define CHECK_QUIETLY(fact) \
    do { \
        if (!(fact)) check(0, __LINE__, #fact); \
    } while (0)

static const size_t two_three[2] = {2, 3}, many[ND_MAX_AXES + 1] = {1};
static const ptrdiff_t up[2] = {-3, 1}, by_rows[2] = {3, 1}, zeros[ND_MAX_AXES + 1] = {0};
static const nd_data five_bytes = {1, 5}, six_bytes = {1, 6};

/* Whether a layout of one or two axes has this start, shape and strides. */
static int is(const nd_layout *layout, size_t start, size_t axes, size_t len, size_t last_len, ptrdiff_t stride,
              ptrdiff_t last_stride) {
    return layout->start == start && layout->axes == axes && layout->shape[0] == len && layout->strides[0] == stride &&
           layout->shape[axes - 1] == last_len && layout->strides[axes - 1] == last_stride;
}

static void test_versions(void) {
    char text[32];
    int32_t major = -1, minor = -1, patch = -1;
    sprintf(text, "%d.%d.%d", ND_VERSION_MAJOR, ND_VERSION_MINOR, ND_VERSION_PATCH);
    CHECK(strcmp(nd_header_version(), text) == 0);
    CHECK(nd_version(&major, &minor, &patch) == ND_OK);
    CHECK(major == ND_VERSION_MAJOR && minor == ND_VERSION_MINOR && patch == ND_VERSION_PATCH);
}

static void test_status_message(void) {
    int32_t status;
    for (status = -3; status < 100; status++) {
        char text[ND_TEXT_SIZE];
        size_t used;
        if (nd_status_text(status, LIST(text), &used) == ND_OK) {
            CHECK(strcmp(nd_status_message(status), text) == 0);
        } else {
            CHECK(status < ND_OK || status > ND_OUT_OF_MEMORY);
            CHECK(strcmp(nd_status_message(status), "a number that is no status") == 0);
        }
    }
}

static void test_new_layouts(void) {
    static const size_t huge[2] = {(size_t)-1 / 2, 2};
    nd_layout layout, before;
    memset(&layout, 7, sizeof layout);
    before = layout;
    CHECK(nd_layout_from_shape(LIST(two_three), 2, &layout) == ND_BAD_ARGUMENT);
    CHECK(nd_layout_from_shape(LIST(many), ND_ROW_MAJOR, &layout) == ND_BAD_ARGUMENT);
    CHECK(nd_layout_from_shape(LIST(huge), ND_COLUMN_MAJOR, &layout) == ND_OVERFLOW);
    CHECK(nd_layout_from_strides(LIST(two_three), LIST(up), five_bytes, ND_OWNED, &layout) == ND_OUT_OF_BOUNDS);
    CHECK(nd_layout_from_strides(LIST(two_three), up, 1, six_bytes, ND_OWNED, &layout) == ND_INCOMPATIBLE_LAYOUT);
    CHECK(nd_layout_from_strides(LIST(two_three), LIST(up), six_bytes, 2, &layout) == ND_BAD_ARGUMENT);
    CHECK(nd_layout_from_strides(LIST(many), LIST(zeros), six_bytes, ND_READ_ONLY, &layout) == ND_BAD_ARGUMENT);
    CHECK(memcmp(&layout, &before, sizeof layout) == 0);
    CHECK(nd_layout_from_shape(LIST(two_three), ND_ROW_MAJOR, &layout) == ND_OK && is(&layout, 0, 2, 2, 3, 3, 1));
    CHECK(nd_layout_from_shape(LIST(two_three), ND_COLUMN_MAJOR, &layout) == ND_OK && is(&layout, 0, 2, 2, 3, 1, 2));
    CHECK(nd_layout_from_shape(many, ND_MAX_AXES, ND_ROW_MAJOR, &layout) == ND_OK && layout.axes == ND_MAX_AXES);
    CHECK(nd_layout_from_strides(LIST(two_three), LIST(up), six_bytes, ND_OWNED, &layout) == ND_OK);
    CHECK(is(&layout, 3, 2, 2, 3, -3, 1));
}

static void test_places(void) {
    static const size_t last[2] = {1, 2}, past[2] = {2, 0};
    nd_layout layout;
    size_t place = 77, places[6] = {7, 7, 7, 7, 7, 7};
    CHECK(nd_layout_from_strides(LIST(two_three), LIST(up), six_bytes, ND_OWNED, &layout) == ND_OK);
    CHECK(nd_layout_check(&layout, six_bytes, ND_OWNED) == ND_OK);
    CHECK(nd_layout_check(&layout, five_bytes, ND_OWNED) == ND_OUT_OF_BOUNDS);
    CHECK(nd_layout_place(&layout, LIST(past), &place) == ND_OUT_OF_BOUNDS && place == 77);
    CHECK(nd_layout_place(&layout, LIST(last), &place) == ND_OK && place == 2);
    CHECK(nd_layout_places(&layout, ND_ROW_MAJOR, places, 5) == ND_BAD_ARGUMENT && places[0] == 7);
    CHECK(nd_layout_places(&layout, ND_COLUMN_MAJOR, LIST(places)) == ND_OK);
    CHECK(places[0] == 3 && places[1] == 0 && places[2] == 4 && places[5] == 2);
    layout.axes = ND_MAX_AXES + 1;
    CHECK(nd_layout_check(&layout, six_bytes, ND_OWNED) == ND_BAD_ARGUMENT);
    CHECK(nd_layout_place(&layout, LIST(last), &place) == ND_BAD_ARGUMENT);
    CHECK(nd_layout_places(&layout, ND_ROW_MAJOR, LIST(places)) == ND_BAD_ARGUMENT);
}

static void test_rows(void) {
    static const size_t no_columns[2] = {4, 0}, no_rows[2] = {0, 4}, cube[3] = {4, 3, 2}, limits[3] = {(size_t)-1 / 2, 0, 1};
    nd_layout layout;
    size_t starts[4] = {7, 7, 7, 7}, places[1] = {7}, len = 77, axis;
    ptrdiff_t stride = 77;
    CHECK(nd_layout_from_strides(LIST(two_three), LIST(up), six_bytes, ND_OWNED, &layout) == ND_OK);
    CHECK(nd_layout_size(&layout) == 6);
    CHECK(nd_layout_row_count(&layout, ND_ROW_MAJOR) == 2 && nd_layout_row_count(&layout, ND_COLUMN_MAJOR) == 3);
    CHECK(nd_layout_row_count(&layout, 2) == 0 && nd_layout_row_count(&layout, -1) == 0);
    CHECK(nd_layout_rows(&layout, 2, starts, 2, &stride, &len) == ND_BAD_ARGUMENT);
    CHECK(nd_layout_rows(&layout, ND_ROW_MAJOR, starts, 3, &stride, &len) == ND_BAD_ARGUMENT);
    CHECK(starts[0] == 7 && stride == 77 && len == 77);
    CHECK(nd_layout_rows(&layout, ND_ROW_MAJOR, starts, 2, &stride, &len) == ND_OK && stride == 1 && len == 3);
    CHECK(starts[0] == 3 && starts[1] == 0 && starts[2] == 7);
    CHECK(nd_layout_rows(&layout, ND_COLUMN_MAJOR, starts, 3, &stride, &len) == ND_OK && stride == -3 && len == 2);
    CHECK(starts[0] == 3 && starts[1] == 4 && starts[2] == 5 && starts[3] == 7);
    for (axis = 0; axis < ND_MAX_AXES; axis++) layout.shape[axis] = 1;
    layout.axes = ND_MAX_AXES + 1;
    CHECK(nd_layout_size(&layout) == 0 && nd_layout_row_count(&layout, ND_ROW_MAJOR) == 0);
    CHECK(nd_layout_rows(&layout, ND_ROW_MAJOR, starts, 0, &stride, &len) == ND_BAD_ARGUMENT);
    CHECK(nd_layout_from_shape(LIST(no_columns), ND_ROW_MAJOR, &layout) == ND_OK && nd_layout_size(&layout) == 0);
    CHECK(nd_layout_row_count(&layout, ND_ROW_MAJOR) == 0 && nd_layout_row_count(&layout, ND_COLUMN_MAJOR) == 0);
    CHECK(nd_layout_from_shape(LIST(no_rows), ND_ROW_MAJOR, &layout) == ND_OK && nd_layout_size(&layout) == 0);
    CHECK(nd_layout_row_count(&layout, ND_ROW_MAJOR) == 0 && nd_layout_row_count(&layout, ND_COLUMN_MAJOR) == 0);
    CHECK(nd_layout_rows(&layout, ND_COLUMN_MAJOR, starts, 0, &stride, &len) == ND_OK && len == 0);
    CHECK(nd_layout_from_shape(LIST(cube), ND_ROW_MAJOR, &layout) == ND_OK && nd_layout_size(&layout) == 24);
    CHECK(nd_layout_row_count(&layout, ND_ROW_MAJOR) == 12 && nd_layout_row_count(&layout, ND_COLUMN_MAJOR) == 6);
    CHECK(nd_layout_from_shape(LIST(limits), ND_ROW_MAJOR, &layout) == ND_OK && nd_layout_size(&layout) == 0);
    CHECK(nd_layout_row_count(&layout, ND_ROW_MAJOR) == 0 && nd_layout_row_count(&layout, ND_COLUMN_MAJOR) == 0);
    layout.shape[1] = 4; /* not accepted, since the product wraps */
    CHECK(nd_layout_places(&layout, ND_ROW_MAJOR, places, 1) == ND_OVERFLOW && places[0] == 7);
    layout.shape[1] = 1;
    CHECK(nd_layout_size(&layout) == limits[0] && nd_layout_row_count(&layout, ND_ROW_MAJOR) == limits[0]);
    CHECK(nd_layout_row_count(&layout, ND_COLUMN_MAJOR) == 1);
    CHECK(nd_layout_from_shape(cube, 0, ND_ROW_MAJOR, &layout) == ND_OK && nd_layout_size(&layout) == 1);
    CHECK(nd_layout_row_count(&layout, ND_ROW_MAJOR) == 1 && nd_layout_row_count(&layout, ND_COLUMN_MAJOR) == 1);
    CHECK(nd_layout_rows(&layout, ND_ROW_MAJOR, starts, 1, &stride, &len) == ND_OK && stride == 0 && len == 1);
    CHECK(starts[0] == 0);
}

static void test_next_index(void) {
    nd_layout layout;
    size_t index[2] = {0, 2};
    int32_t has_next = 77;
    CHECK(nd_layout_from_strides(LIST(two_three), LIST(up), six_bytes, ND_OWNED, &layout) == ND_OK);
    CHECK(nd_layout_next_index(&layout, LIST(index), 2, &has_next) == ND_BAD_ARGUMENT);
    CHECK(nd_layout_next_index(&layout, index, 1, ND_ROW_MAJOR, &has_next) == ND_OUT_OF_BOUNDS && has_next == 77);
    CHECK(nd_layout_next_index(&layout, LIST(index), ND_ROW_MAJOR, &has_next) == ND_OK && has_next == 1);
    CHECK(index[0] == 1 && index[1] == 0);
    CHECK(nd_layout_next_index(&layout, LIST(index), ND_COLUMN_MAJOR, &has_next) == ND_OK && has_next == 1);
    CHECK(index[0] == 0 && index[1] == 1);
    index[0] = 1;
    index[1] = 2;
    CHECK(nd_layout_next_index(&layout, LIST(index), ND_ROW_MAJOR, &has_next) == ND_OK && has_next == 0);
    CHECK(index[0] == 0 && index[1] == 0);
    layout.axes = ND_MAX_AXES + 1;
    CHECK(nd_layout_next_index(&layout, LIST(index), ND_ROW_MAJOR, &has_next) == ND_BAD_ARGUMENT);
}

/* Layouts without an index, which have a start and strides all the same. */
static void test_no_index(void) {
    static const size_t no_columns[2] = {2, 0};
    static const ptrdiff_t back[2] = {-3, -1};
    static const nd_slice_elem backwards[1] = {{ND_SLICE, 1, 3, 1, 1}}, one[1] = {{ND_SLICE, 1, 2, 3, 1}};
    static const nd_slice_elem nothing[1] = {{ND_SLICE, 1, 2, 2, -1}}, last[1] = {{ND_SLICE, 0, -1, 0, -1}};
    static const nd_slice_elem corner[3] = {{ND_SLICE, 1, 2, 2, 1}, {ND_NEW_AXIS, 0, 0, 0, 0}, {ND_SLICE, 0, 1, 0, 1}};
    static const nd_layout far = {5, 1, {4}, {3}};
    nd_layout layout, first, second;
    int32_t merged = 77;
    CHECK(nd_layout_from_strides(LIST(no_columns), LIST(back), five_bytes, ND_OWNED, &layout) == ND_OK);
    CHECK(is(&layout, 3, 2, 2, 0, -3, -1));
    CHECK(nd_layout_split_at(&layout, 0, 1, &first, &second) == ND_OK);
    CHECK(is(&first, 3, 2, 1, 0, -3, -1) && is(&second, 0, 2, 1, 0, -3, -1));
    CHECK(nd_layout_split_at(&layout, 0, 2, &first, &second) == ND_OK);
    CHECK(is(&first, 3, 2, 2, 0, -3, -1) && is(&second, 3, 2, 0, 0, -3, -1));
    CHECK(nd_merge_axes(layout.shape, 2, layout.strides, 2, 0, 1, &merged) == ND_OK && merged == 1);
    CHECK(is(&layout, 3, 2, 0, 0, -3, -3));
    CHECK(nd_layout_slice(&far, LIST(backwards), ND_STRICT, &first) == ND_OK && is(&first, 5, 1, 0, 0, 0, 0));
    CHECK(nd_layout_slice(&far, LIST(nothing), ND_STRICT, &first) == ND_OK && is(&first, 5, 1, 0, 0, 0, 0));
    CHECK(nd_layout_slice(&far, LIST(one), ND_STRICT, &first) == ND_OK && is(&first, 11, 1, 1, 1, 0, 0));
    CHECK(nd_layout_slice(&far, LIST(last), ND_STRICT, &first) == ND_OK && is(&first, 14, 1, 1, 1, 0, 0));
    CHECK(nd_layout_from_strides(LIST(two_three), LIST(by_rows), six_bytes, ND_OWNED, &layout) == ND_OK);
    CHECK(nd_layout_slice(&layout, LIST(corner), ND_STRICT, &first) == ND_OK && is(&first, 1, 3, 0, 2, 0, 1));
    CHECK(first.shape[1] == 1 && first.strides[1] == 0);
}

static void test_layouts_of_layouts(void) {
    static const nd_slice_elem row[2] = {{ND_INDEX, 0, -1, 0, 0}, {ND_SLICE, 0, 0, 0, -1}};
    static const size_t swapped[2] = {1, 0}, six[1] = {6}, five[1] = {5}, rows[2] = {4, 3};
    static const size_t pairs[2] = {1, 2}, ones[2] = {1, 1};
    nd_layout layout, other, part;
    CHECK(nd_layout_from_strides(LIST(two_three), LIST(by_rows), six_bytes, ND_OWNED, &layout) == ND_OK);
    CHECK(nd_layout_permuted_axes(&layout, LIST(swapped), &other) == ND_OK && is(&other, 0, 2, 3, 2, 1, 3));
    CHECK(nd_layout_permuted_axes(&layout, swapped, 1, &other) == ND_INCOMPATIBLE_SHAPE && is(&other, 0, 2, 3, 2, 1, 3));
    CHECK(nd_layout_reshape(&layout, LIST(six), ND_ROW_MAJOR, &other) == ND_OK && is(&other, 0, 1, 6, 6, 1, 1));
    CHECK(nd_layout_reshape(&layout, LIST(five), ND_ROW_MAJOR, &other) == ND_INCOMPATIBLE_SHAPE);
    CHECK(nd_layout_slice(&layout, row, 1, ND_STRICT, &other) == ND_INCOMPATIBLE_SHAPE);
    CHECK(is(&other, 0, 1, 6, 6, 1, 1));
    CHECK(nd_layout_windows(&layout, five, 1, &other) == ND_INCOMPATIBLE_SHAPE && is(&other, 0, 1, 6, 6, 1, 1));
    CHECK(nd_layout_exact_chunks(&layout, five, 1, &other) == ND_INCOMPATIBLE_SHAPE && is(&other, 0, 1, 6, 6, 1, 1));
    CHECK(nd_layout_windows(&layout, LIST(pairs), &other) == ND_OK && is(&other, 0, 4, 2, 2, 3, 1));
    CHECK(other.shape[1] == 2 && other.shape[2] == 1 && other.strides[1] == 1 && other.strides[2] == 3);
    CHECK(nd_layout_exact_chunks(&layout, LIST(pairs), &other) == ND_OK && is(&other, 0, 4, 2, 2, 3, 1));
    CHECK(other.shape[1] == 1 && other.shape[2] == 1 && other.strides[1] == 0 && other.strides[2] == 3);
    CHECK(nd_layout_split_at(&layout, 1, 4, &other, &part) == ND_OUT_OF_BOUNDS && is(&other, 0, 4, 2, 2, 3, 1));
    CHECK(nd_layout_split_at(&layout, 1, 1, &other, &part) == ND_OK);
    CHECK(is(&other, 0, 2, 2, 1, 3, 1) && is(&part, 1, 2, 2, 2, 3, 1));
    /* over itself */
    CHECK(nd_layout_split_at(&part, 0, 1, &other, &part) == ND_OK);
    CHECK(is(&other, 1, 2, 1, 2, 3, 1) && is(&part, 4, 2, 1, 2, 3, 1));
    CHECK(nd_layout_windows(&part, LIST(ones), &part) == ND_OK && is(&part, 4, 4, 1, 1, 3, 1));
    CHECK(nd_layout_exact_chunks(&other, LIST(ones), &other) == ND_OK && is(&other, 1, 4, 1, 1, 0, 1));
    CHECK(nd_layout_slice(&layout, LIST(row), ND_STRICT, &layout) == ND_OK && is(&layout, 5, 1, 3, 3, -1, -1));
    CHECK(nd_layout_broadcast(&layout, LIST(five), &layout) == ND_INCOMPATIBLE_SHAPE);
    CHECK(nd_layout_broadcast(&layout, LIST(rows), &layout) == ND_OK && is(&layout, 5, 2, 4, 3, 0, -1));
    CHECK(nd_layout_permuted_axes(&layout, LIST(swapped), &layout) == ND_OK && is(&layout, 5, 2, 3, 4, -1, 0));
}

static void test_too_many_axes(void) {
    nd_slice_elem axes[ND_MAX_AXES + 1];
    nd_layout layout, other;
    size_t axis, numbers[ND_MAX_AXES + 1];
    for (axis = 0; axis <= ND_MAX_AXES; axis++) {
        axes[axis].kind = ND_NEW_AXIS;
        numbers[axis] = axis;
    }
    CHECK(nd_layout_from_shape(many, 0, ND_ROW_MAJOR, &layout) == ND_OK && layout.axes == 0);
    CHECK(nd_layout_slice(&layout, axes, ND_MAX_AXES + 1, ND_STRICT, &layout) == ND_BAD_ARGUMENT && layout.axes == 0);
    CHECK(nd_layout_broadcast(&layout, LIST(many), &layout) == ND_BAD_ARGUMENT && layout.axes == 0);
    CHECK(nd_layout_reshape(&layout, LIST(many), ND_ROW_MAJOR, &layout) == ND_BAD_ARGUMENT && layout.axes == 0);
    CHECK(nd_layout_slice(&layout, axes, ND_MAX_AXES, ND_STRICT, &layout) == ND_OK && layout.axes == ND_MAX_AXES);
    CHECK(nd_layout_permuted_axes(&layout, numbers, ND_MAX_AXES, &other) == ND_OK && other.axes == ND_MAX_AXES);
    CHECK(nd_layout_windows(&layout, layout.shape, ND_MAX_AXES, &other) == ND_BAD_ARGUMENT);
    CHECK(nd_layout_exact_chunks(&layout, layout.shape, ND_MAX_AXES, &other) == ND_BAD_ARGUMENT);
    CHECK(nd_layout_split_at(&layout, ND_MAX_AXES - 1, 1, &layout, &other) == ND_OK && other.axes == ND_MAX_AXES);
    CHECK(layout.shape[ND_MAX_AXES - 1] == 1 && other.shape[ND_MAX_AXES - 1] == 0 && other.shape[0] == 1);
    layout.axes = ND_MAX_AXES + 1;
    CHECK(nd_layout_slice(&layout, LIST(axes), ND_STRICT, &other) == ND_BAD_ARGUMENT);
    CHECK(nd_layout_permuted_axes(&layout, LIST(numbers), &other) == ND_BAD_ARGUMENT);
    CHECK(nd_layout_reshape(&layout, many, 1, ND_ROW_MAJOR, &other) == ND_BAD_ARGUMENT);
    CHECK(nd_layout_broadcast(&layout, many, 1, &other) == ND_BAD_ARGUMENT);
    CHECK(nd_layout_split_at(&layout, 0, 0, &other, &layout) == ND_BAD_ARGUMENT && layout.axes == ND_MAX_AXES + 1);
    layout.axes = ND_MAX_AXES / 2;
    CHECK(nd_layout_windows(&layout, layout.shape, ND_MAX_AXES / 2, &other) == ND_OK && other.axes == ND_MAX_AXES);
    CHECK(nd_layout_exact_chunks(&layout, layout.shape, ND_MAX_AXES / 2, &other) == ND_OK && other.axes == ND_MAX_AXES);
}

/* A number from 0 to before `bound`, by a fixed sequence. */
static size_t below(size_t bound) {
    static unsigned state = 1;
    state = state * 1664525u + 1013904223u;
    return (state >> 8) % bound;
}

/* A layout of up to four axes, most often without aliases, over a buffer of bytes. */
static int32_t random_layout(nd_layout *layout, nd_data *data, int32_t mode) {
    size_t shape[4], axes = below(5), axis, reach = 1;
    ptrdiff_t strides[4];
    for (axis = axes; axis-- > 0;) {
        shape[axis] = below(9) == 0 ? 0 : 1 + below(4);
        strides[axis] = (ptrdiff_t)(below(8) == 0 ? below(5) : reach) * (below(3) == 0 ? -1 : 1);
        reach *= shape[axis] > 0 ? shape[axis] + below(2) : 1;
    }
    data->elem_size = 1;
    data->len = below(3) == 0 ? reach : reach + below(9);
    return nd_layout_from_strides(shape, axes, strides, axes, *data, mode, layout);
}

static int32_t random_slice(const nd_layout *layout, nd_layout *slice) {
    nd_slice_elem elems[12];
    size_t axis, count = 0;
    for (axis = 0; axis < layout->axes; axis++) {
        nd_slice_elem elem;
        if (below(6) == 0) {
            elem.kind = ND_NEW_AXIS;
            elems[count++] = elem;
        }
        elem.kind = below(5) == 0 ? ND_INDEX : ND_SLICE;
        elem.has_end = below(2) == 0;
        elem.start = (ptrdiff_t)below(7) - 3;
        elem.end = (ptrdiff_t)below(9) - 4;
        elem.step = (ptrdiff_t)below(7) - 3;
        elems[count++] = elem;
    }
    return nd_layout_slice(layout, elems, count, ND_CLAMPED, slice);
}

static int32_t random_permutation(const nd_layout *layout, nd_layout *permuted) {
    size_t axes[ND_MAX_AXES], axis;
    for (axis = 0; axis < layout->axes; axis++) {
        size_t other = below(axis + 1);
        axes[axis] = axes[other];
        axes[other] = axis;
    }
    return nd_layout_permuted_axes(layout, axes, layout->axes, permuted);
}

static int32_t random_reshape(const nd_layout *layout, nd_layout *reshaped) {
    size_t shape[ND_MAX_AXES], axes = 0, axis;
    for (axis = 0; axis < layout->axes; axis++) {
        size_t len = layout->shape[axis];
        if (axes > 0 && below(3) == 0) {
            shape[axes - 1] *= len;
        } else if (len % 2 == 0 && below(2) == 0) {
            shape[axes++] = 2;
            shape[axes++] = len / 2;
        } else {
            shape[axes++] = len;
        }
    }
    return nd_layout_reshape(layout, shape, axes, (int32_t)below(2), reshaped);
}

static int32_t random_broadcast(const nd_layout *layout, nd_layout *broadcast) {
    size_t shape[ND_MAX_AXES], added = below(3), axis;
    for (axis = 0; axis < added; axis++) shape[axis] = below(4);
    for (axis = 0; axis < layout->axes; axis++)
        shape[added + axis] = layout->shape[axis] == 1 ? below(4) : layout->shape[axis];
    return nd_layout_broadcast(layout, shape, added + layout->axes, broadcast);
}

/* The lengths of a block of a layout, most often not greater than its own. */
static void random_block(const nd_layout *layout, size_t block[ND_MAX_AXES]) {
    size_t axis;
    for (axis = 0; axis < layout->axes; axis++) block[axis] = 1 + below(layout->shape[axis] + 1);
}

static int32_t random_windows(const nd_layout *layout, nd_layout *windows) {
    size_t window[ND_MAX_AXES];
    random_block(layout, window);
    return nd_layout_windows(layout, window, layout->axes, windows);
}

static int32_t random_chunks(const nd_layout *layout, nd_layout *chunks) {
    size_t chunk[ND_MAX_AXES];
    random_block(layout, chunk);
    return nd_layout_exact_chunks(layout, chunk, layout->axes, chunks);
}

/* One of the two parts. */
static int32_t random_part(const nd_layout *layout, nd_layout *part) {
    nd_layout other;
    size_t axis = below(layout->axes + 1), index = axis < layout->axes ? below(layout->shape[axis] + 1) : 0;
    if (below(2) == 0) return nd_layout_split_at(layout, axis, index, part, &other);
    return nd_layout_split_at(layout, axis, index, &other, part);
}

/* Axes are merged in place. Where they don't fit it is ND_UNSUPPORTED, as it is for one axis twice. */
static int32_t random_merge(const nd_layout *layout, nd_layout *merged) {
    int32_t is_merged = 0, status;
    *merged = *layout;
    if (layout->axes == 0) return ND_OUT_OF_BOUNDS;
    status = nd_merge_axes(merged->shape, merged->axes, merged->strides, merged->axes, below(layout->axes),
                           below(layout->axes), &is_merged);
    return status == ND_OK && !is_merged ? ND_UNSUPPORTED : status;
}

#define MOST_PLACES 2304

/* How many places the indices of a layout have, with repetitions, of which it writes each. */
static size_t places_of(const nd_layout *layout, size_t places[MOST_PLACES]) {
    size_t count = nd_layout_size(layout);
    CHECK_QUIETLY(count <= MOST_PLACES && nd_layout_places(layout, ND_ROW_MAJOR, places, count) == ND_OK);
    return count;
}

/* Whether a number is among these. */
static int is_among(size_t number, const size_t *numbers, size_t count) {
    while (count-- > 0)
        if (numbers[count] == number) return 1;
    return 0;
}

/* Whether each index of a layout has the place of one of another layout, and where `is_distinct` no two have one. */
static int keeps_places(const nd_layout *made, const nd_layout *layout, int is_distinct) {
    static size_t places[MOST_PLACES], given[MOST_PLACES];
    size_t count = places_of(made, places), given_count = places_of(layout, given), at;
    for (at = 0; at < count; at++) {
        if (!is_among(places[at], given, given_count)) return 0;
        if (is_distinct && is_among(places[at], places, at)) return 0;
    }
    return 1;
}

/* Who makes layouts of layouts; what the last two make is only to be read. */
#define MAKERS 8
#define OWNED_MAKERS 6

/* What the header promises of new layouts, in 20,000 rounds. */
static void test_what_is_kept(int32_t mode) {
    int32_t (*const makers[MAKERS])(const nd_layout *, nd_layout *) = {random_slice, random_permutation, random_reshape,
                                                                       random_merge, random_chunks,      random_part,
                                                                       random_broadcast, random_windows};
    int made[MAKERS] = {0, 0, 0, 0, 0, 0, 0, 0}, aliased[MAKERS] = {0, 0, 0, 0, 0, 0, 0, 0}, round, maker;
    for (round = 0; round < 20000; round++) {
        nd_layout layout, other;
        nd_data data;
        if (random_layout(&layout, &data, mode) != ND_OK) continue;
        for (maker = 0; maker < MAKERS; maker++) {
            int32_t kept = maker < OWNED_MAKERS ? mode : ND_READ_ONLY;
            if (makers[maker](&layout, &other) != ND_OK) continue;
            made[maker]++;
            CHECK_QUIETLY(keeps_places(&other, &layout, kept == ND_OWNED));
            CHECK_QUIETLY(nd_layout_check(&other, data, kept) == ND_OK);
            if (nd_layout_check(&other, data, ND_OWNED) == ND_UNSUPPORTED) aliased[maker]++;
        }
    }
    for (maker = 0; maker < MAKERS; maker++) CHECK(made[maker] > 4000);
    for (maker = OWNED_MAKERS; maker < MAKERS; maker++) CHECK(aliased[maker] > 1000);
}

/* The library that cargo makes looks at no pointer of a list with the count 0. */
static void test_no_lists(void) {
    nd_slice_elem *no_elems = NULL;
    size_t *none = NULL, number, pair[2];
    ptrdiff_t *no_strides = NULL, stride;
    int32_t answer;
    CHECK(nd_layout_start(none, 0, no_strides, 0, 1, 1, ND_OWNED, &number) == ND_OK && number == 0);
    CHECK(nd_check_layout(0, none, 0, no_strides, 0, 1, 1, ND_OWNED) == ND_OK);
    CHECK(nd_has_overlap(none, 0, no_strides, 0, &answer) == ND_OK && answer == 0);
    CHECK(nd_default_strides(none, 0, no_strides, 0) == ND_OK);
    CHECK(nd_fortran_strides(none, 0, no_strides, 0) == ND_OK);
    CHECK(nd_is_contiguous(none, 0, no_strides, 0, &answer) == ND_OK && answer == 1);
    CHECK(nd_is_layout_c(none, 0, no_strides, 0, &answer) == ND_OK && answer == 1);
    CHECK(nd_is_layout_f(none, 0, no_strides, 0, &answer) == ND_OK && answer == 1);
    CHECK(nd_place(5, none, 0, no_strides, 0, none, 0, &number) == ND_OK && number == 5);
    CHECK(nd_next_index(none, 0, none, 0, ND_ROW_MAJOR, &answer) == ND_OK && answer == 0);
    CHECK(nd_places(5, none, 0, no_strides, 0, ND_ROW_MAJOR, none, 0) == ND_BAD_ARGUMENT);
    CHECK(nd_slice(5, none, 0, no_strides, 0, no_elems, 0, ND_STRICT, &number, none, 0, no_strides, 0) == ND_OK);
    CHECK(nd_slices_intersect(none, 0, no_elems, 0, no_elems, 0, ND_STRICT, &answer) == ND_OK && answer == 1);
    CHECK(nd_picked(none, 0, no_elems, 0, ND_STRICT, &number) == ND_OK && number == 1);
    CHECK(nd_co_broadcast(none, 0, none, 0, none, 0) == ND_OK);
    CHECK(nd_broadcast(none, 0, no_strides, 0, none, 0, no_strides, 0) == ND_OK);
    CHECK(nd_merge_axes(none, 0, no_strides, 0, 0, 1, &answer) == ND_OUT_OF_BOUNDS);
    CHECK(nd_reshape(none, 0, no_strides, 0, none, 0, ND_ROW_MAJOR, no_strides, 0) == ND_OK);
    CHECK(nd_permuted_axes(none, 0, no_strides, 0, none, 0, none, 0, no_strides, 0) == ND_OK);
    CHECK(nd_rows(5, none, 0, no_strides, 0, ND_ROW_MAJOR, none, 0, &stride, &number) == ND_BAD_ARGUMENT);
    CHECK(nd_first_intersection(none, 0, no_elems, 0, none, 0, ND_STRICT, pair, 2, &answer) == ND_OK && answer == 0);
    CHECK(nd_windows(none, 0, no_strides, 0, none, 0, none, 0, no_strides, 0) == ND_OK);
    CHECK(nd_exact_chunks(none, 0, no_strides, 0, none, 0, none, 0, no_strides, 0) == ND_OK);
    CHECK(nd_split_at(5, none, 0, no_strides, 0, 0, 0, pair, 2, none, 0, no_strides, 0) == ND_OUT_OF_BOUNDS);
    CHECK(nd_status_text(ND_OK, NULL, 0, &number) == ND_BAD_ARGUMENT);
}

/* Calls over the lists of a layout: its diagonal, and whether its places follow one another. */
static void test_diagonals_and_stretches(void) {
    const size_t rows[2] = {2, 3}, cube[3] = {3, 2, 4}, no_rows[2] = {0, 3}, one[1] = {1};
    const ptrdiff_t by_rows[2] = {3, 1}, back[3] = {-8, 4, 1}, backwards[2] = {-3, 1}, far[1] = {9};
    size_t len = 77, first = 77, end = 77;
    ptrdiff_t stride = 77;
    int32_t found = 77;
    CHECK(nd_diag(LIST(rows), by_rows, 1, &len, &stride) == ND_INCOMPATIBLE_LAYOUT && len == 77 && stride == 77);
    CHECK(nd_diag(LIST(rows), LIST(by_rows), &len, &stride) == ND_OK && len == 2 && stride == 4);
    CHECK(nd_diag(LIST(cube), LIST(back), &len, &stride) == ND_OK && len == 2 && stride == -3);
    CHECK(nd_diag(LIST(no_rows), LIST(by_rows), &len, &stride) == ND_OK && len == 0 && stride == 0);
    CHECK(nd_diag(LIST(one), LIST(far), &len, &stride) == ND_OK && len == 1 && stride == 0);
    CHECK(nd_stretch(4, LIST(rows), by_rows, 1, 2, &first, &end, &found) == ND_BAD_ARGUMENT);
    CHECK(nd_stretch(4, LIST(rows), by_rows, 1, ND_ROW_MAJOR, &first, &end, &found) == ND_INCOMPATIBLE_LAYOUT);
    CHECK(nd_stretch(2, LIST(rows), LIST(backwards), ND_ROW_MAJOR, &first, &end, &found) == ND_OUT_OF_BOUNDS);
    CHECK(first == 77 && end == 77 && found == 77);
    CHECK(nd_stretch(4, LIST(rows), LIST(by_rows), ND_COLUMN_MAJOR, &first, &end, &found) == ND_OK && found == 0);
    CHECK(nd_stretch(3, LIST(rows), LIST(backwards), ND_ROW_MAJOR, &first, &end, &found) == ND_OK && found == 0);
    CHECK(first == 77 && end == 77);
    CHECK(nd_stretch(4, LIST(rows), LIST(by_rows), ND_ROW_MAJOR, &first, &end, &found) == ND_OK);
    CHECK(found == 1 && first == 4 && end == 10);
    CHECK(nd_stretch(4, LIST(one), LIST(far), ND_COLUMN_MAJOR, &first, &end, &found) == ND_OK);
    CHECK(found == 1 && first == 4 && end == 5);
    CHECK(nd_stretch(4, LIST(no_rows), LIST(by_rows), ND_ROW_MAJOR, &first, &end, &found) == ND_OK);
    CHECK(found == 1 && first == 0 && end == 0);
}

int main(int count, char **arguments) {
    test_versions();
    test_status_message();
    test_new_layouts();
    test_places();
    test_rows();
    test_next_index();
    test_no_index();
    test_layouts_of_layouts();
    test_too_many_axes();
    test_diagonals_and_stretches();
    test_what_is_kept(ND_READ_ONLY);
    test_what_is_kept(ND_OWNED);
    if (count > 1 && strcmp(arguments[1], "--null") == 0) test_no_lists();
    printf("%d checked, %d failed\n", checked, failed);
    return failed != 0;
}
