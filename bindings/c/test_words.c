/* What ndarray_layout.h says in words, read as a small program, beside what its calls write for all small layouts. */
#include "ndarray_layout.h"

#include <stdio.h>
#include <stdlib.h>

#define COUNT(list) (sizeof(list) / sizeof *(list))
/* A list and its count, as the calls take them. */
#define LIST(list) (list), COUNT(list)

enum { AXES = 3, LONGEST = 3, FARTHEST = 4, STRIDES = 2 * FARTHEST + 1 };

static int checked, failed;

static void check(int holds, int line, const char *what) {
    checked++;
    if (holds) return;
    failed++;
    printf("test_words.c:%d: %s\n", line, what);
}

#define CHECK(fact) check((fact), __LINE__, #fact)

/* Writes the layout of a number: lengths from 0 and strides from -FARTHEST. Returns 0 after the last one. */
static int read_layout(unsigned number, size_t axes, size_t *shape, ptrdiff_t *strides) {
    for (size_t axis = 0; axis < axes; axis++) {
        shape[axis] = number % (LONGEST + 1);
        number /= LONGEST + 1;
        strides[axis] = (ptrdiff_t)(number % STRIDES) - FARTHEST;
        number /= STRIDES;
    }
    return number == 0;
}

static int compare_places(const void *first, const void *second) {
    const size_t one = *(const size_t *)first, other = *(const size_t *)second;
    return (one > other) - (one < other);
}

/* No two indices have one place, and all fill a stretch: in their order the places are neighbours. */
static int fills_a_stretch(const size_t *shape, const ptrdiff_t *strides, size_t size) {
    size_t places[LONGEST * LONGEST * LONGEST], place = 0;
    CHECK(nd_places(100, shape, AXES, strides, AXES, ND_ROW_MAJOR, places, size) == ND_OK);
    qsort(places, size, sizeof *places, compare_places);
    while (place + 1 < size && places[place] + 1 == places[place + 1]) place++;
    return place + 1 == size;
}

/* The product of the lengths of the axes with a lesser stride; of two equal ones that of the lower axis is less. */
static size_t product_of_lesser(const size_t *shape, const ptrdiff_t *strides, size_t axis) {
    size_t product = 1;
    for (size_t other = 0; other < AXES; other++) {
        const long gap = labs((long)strides[other]) - labs((long)strides[axis]);
        if (gap < 0 || (gap == 0 && other < axis)) product *= shape[other];
    }
    return product;
}

static int is_contiguous_without_index(const size_t *shape, const ptrdiff_t *strides) {
    int all_zero = 1, all_expected = 1;
    for (size_t axis = 0; axis < AXES; axis++) {
        const size_t stride = (size_t)labs((long)strides[axis]);
        all_zero &= stride == 0;
        all_expected &= shape[axis] == 1 || stride == product_of_lesser(shape, strides, axis);
    }
    return all_zero || all_expected;
}

static void test_is_contiguous(void) {
    size_t shape[AXES];
    ptrdiff_t strides[AXES];
    for (unsigned number = 0; read_layout(number, AXES, shape, strides); number++) {
        const size_t size = shape[0] * shape[1] * shape[2];
        int32_t answer = 77;
        const int expected = size > 0 ? fills_a_stretch(shape, strides, size) : is_contiguous_without_index(shape, strides);
        CHECK(nd_is_contiguous(LIST(shape), LIST(strides), &answer) == ND_OK && answer == expected);
    }
}

/* The stride of `into` is its own, or that of `take` where only the length of `take` is greater than 1. */
static void test_merged_strides(void) {
    size_t shape[2], old_shape[2];
    ptrdiff_t strides[2], old_strides[2];
    for (unsigned number = 0; read_layout(number, 2, old_shape, old_strides); number++) {
        const ptrdiff_t expected = old_strides[old_shape[0] > 1 && old_shape[1] <= 1 ? 0 : 1];
        int32_t merged = 77;
        read_layout(number, 2, shape, strides);
        CHECK(nd_merge_axes(LIST(shape), LIST(strides), 0, 1, &merged) == ND_OK);
        CHECK(strides[0] == old_strides[0] && strides[1] == (merged ? expected : old_strides[1]));
    }
}

/* Whether the stride of an axis of length 1 is 1, that of an old one, or what steps over the next faster axis. */
static int is_stride_of_one(const ptrdiff_t *strides, const size_t *shape, size_t axis, ptrdiff_t old) {
    return strides[axis] == 1 || strides[axis] == old ||
           (axis + 1 < 5 && strides[axis] == (ptrdiff_t)shape[axis + 1] * strides[axis + 1]);
}

static void test_reshaped_strides(void) {
    const size_t shape[3] = {4, 1, 3};
    const ptrdiff_t strides[3] = {30, 99, 10};
    for (size_t number = 0; number < 4 * 4 * 4 * 4 * 4; number++) {
        const size_t target[5] = {number % 4 + 1, number / 4 % 4 + 1, number / 16 % 4 + 1, number / 64 % 4 + 1,
                                  number / 256 + 1};
        ptrdiff_t written[5];
        if (nd_reshape(LIST(shape), LIST(strides), LIST(target), ND_ROW_MAJOR, LIST(written)) != ND_OK) continue;
        for (size_t axis = 0; axis < 5; axis++)
            CHECK(target[axis] != 1 || is_stride_of_one(written, target, axis, strides[1]));
    }
}

static void test_examples(void) {
    const size_t four_three[2] = {4, 3}, split[5] = {1, 2, 1, 2, 3}, two_two[2] = {2, 2}, last[2] = {1, 0}, one[1] = {0};
    const ptrdiff_t by_rows[2] = {3, 1}, ones[2] = {1, 1};
    size_t place = 77, index[1] = {0};
    ptrdiff_t strides[5] = {7, 7, 7, 7, 7}, stride[1] = {1};
    size_t shape[2] = {2, 3};
    int32_t answer = 77;
    CHECK(nd_reshape(LIST(four_three), LIST(by_rows), LIST(split), ND_ROW_MAJOR, LIST(strides)) == ND_OK);
    CHECK(strides[0] == 1 && strides[1] == 6 && strides[2] == 6 && strides[3] == 3 && strides[4] == 1);
    CHECK(nd_place(0, LIST(two_two), LIST(ones), LIST(last), &place) == ND_OK && place == 1);
    CHECK(nd_next_index(LIST(shape), LIST(index), ND_ROW_MAJOR, &answer) == ND_OUT_OF_BOUNDS && answer == 77);
    CHECK(nd_merge_axes(LIST(shape), LIST(stride), 0, 1, &answer) == ND_INCOMPATIBLE_LAYOUT && answer == 77);
    CHECK(nd_place(0, LIST(two_two), LIST(ones), LIST(one), &place) == ND_OUT_OF_BOUNDS);
}

/* Bounds from minus the length to the length, which is one as well, are kept; the next ones aren't. */
static void test_bounds(void) {
    const size_t four[1] = {4};
    for (ptrdiff_t bound = -6; bound <= 6; bound++) {
        const nd_slice_elem from[1] = {{ND_SLICE, 0, bound, 0, 1}}, to[1] = {{ND_SLICE, 1, 0, bound, 1}};
        const nd_slice_elem at[1] = {{ND_INDEX, 0, bound, 0, 0}};
        const size_t before = (size_t)(bound < 0 ? bound + 4 : bound);
        const int32_t expected = bound < -4 || bound > 4 ? ND_OUT_OF_BOUNDS : ND_OK;
        size_t count = 4 - before;
        CHECK(nd_picked(LIST(four), LIST(from), ND_STRICT, &count) == expected && count == 4 - before);
        count = before;
        CHECK(nd_picked(LIST(four), LIST(to), ND_STRICT, &count) == expected && count == before);
        CHECK(nd_picked(LIST(four), LIST(at), ND_CLAMPED, &count) == (bound == 4 ? ND_OUT_OF_BOUNDS : expected));
    }
}

/* A list of as many items as one byte has rows: what malloc would be asked for is the size of one item. */
static void test_how_lists_are_allocated(void) {
    const size_t shape[2] = {(size_t)-1 / sizeof(size_t) + 2, 1};
    const ptrdiff_t zeros[2] = {0, 0};
    const nd_data one_byte = {1, 1};
    nd_layout layout;
    volatile size_t rows;
    size_t *starts;
    CHECK(nd_layout_from_strides(LIST(shape), LIST(zeros), one_byte, ND_READ_ONLY, &layout) == ND_OK);
    rows = nd_layout_row_count(&layout, ND_ROW_MAJOR);
    CHECK(rows == shape[0] && rows * sizeof *starts == sizeof *starts);
    starts = calloc(rows, sizeof *starts);
    CHECK(starts == NULL);
    free(starts);
}

int main(void) {
    test_is_contiguous();
    test_merged_strides();
    test_reshaped_strides();
    test_examples();
    test_bounds();
    test_how_lists_are_allocated();
    printf("%d checked, %d failed\n", checked, failed);
    return failed != 0;
}
