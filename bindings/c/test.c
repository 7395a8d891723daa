/* The calls of ndarray_layout.h: rows worked out by hand, each status, and bad input, after which nothing is written. */
#include "ndarray_layout.h"

#include <stdio.h>
#include <string.h>

#define COUNT(list) (sizeof(list) / sizeof *(list))
/* A list and its count, as the calls take them. */
#define LIST(list) (list), COUNT(list)

static int checked, failed;

static void check(int holds, int line, const char *what) {
    checked++;
    if (holds) return;
    failed++;
    printf("test.c:%d: %s\n", line, what);
}

#define CHECK(fact) check((fact), __LINE__, #fact)
#define SAME(list, ...) \
    CHECK(sizeof(list) == sizeof((__typeof__(*(list))[]){__VA_ARGS__}) && \
          memcmp((list), (__typeof__(*(list))[]){__VA_ARGS__}, sizeof(list)) == 0)

static const size_t none[1] = {0};
static const ptrdiff_t no_strides[1] = {0};
static const size_t two_three[2] = {2, 3}, three_two[2] = {3, 2}, huge[2] = {PTRDIFF_MAX, 2};
static const ptrdiff_t by_rows[2] = {3, 1}, up[2] = {-3, 1}, crossed[2] = {2, 3}, back_both[2] = {-3, -1};

static void test_layout_start(void) {
    const size_t three[1] = {3};
    const size_t no_rows[2] = {0, 3}, no_columns[2] = {4, 0};
    const ptrdiff_t back[1] = {-1}, far[1] = {PTRDIFF_MAX}, by_columns[2] = {1, 4}, far_columns[2] = {1, PTRDIFF_MAX};
    size_t start = 77;
    CHECK(nd_layout_start(LIST(three), LIST(back), 4, 3, ND_OWNED, &start) == ND_OK && start == 2);
    start = 77;
    CHECK(nd_layout_start(LIST(three), LIST(back), 4, 2, ND_OWNED, &start) == ND_OUT_OF_BOUNDS);
    CHECK(nd_layout_start(LIST(two_three), LIST(back), 4, 6, ND_OWNED, &start) == ND_INCOMPATIBLE_LAYOUT);
    CHECK(nd_layout_start(LIST(three), LIST(far), 4, 6, ND_READ_ONLY, &start) == ND_OVERFLOW);
    CHECK(nd_layout_start(LIST(three_two), LIST(crossed), 4, 8, ND_OWNED, &start) == ND_UNSUPPORTED);
    CHECK(nd_layout_start(LIST(three), LIST(back), 4, 6, 2, &start) == ND_BAD_ARGUMENT);
    CHECK(nd_layout_start(LIST(three), LIST(back), 4, 6, -1, &start) == ND_BAD_ARGUMENT);
    CHECK(nd_layout_start(LIST(three), LIST(back), PTRDIFF_MAX / 2 + 1, 3, ND_READ_ONLY, &start) == ND_OVERFLOW);
    CHECK(nd_layout_start(LIST(no_columns), LIST(by_columns), 4, 2, ND_OWNED, &start) == ND_OUT_OF_BOUNDS);
    CHECK(nd_layout_start(LIST(no_rows), LIST(far_columns), 1, SIZE_MAX, ND_READ_ONLY, &start) == ND_OVERFLOW);
    CHECK(start == 77);
    CHECK(nd_layout_start(LIST(three), LIST(back), PTRDIFF_MAX / 2, 3, ND_READ_ONLY, &start) == ND_OK && start == 2);
    CHECK(nd_layout_start(LIST(three), no_strides, 1, PTRDIFF_MAX, 1, ND_READ_ONLY, &start) == ND_OK && start == 0);
    CHECK(nd_layout_start(LIST(no_columns), LIST(back_both), 4, 9, ND_OWNED, &start) == ND_OK && start == 9);
    CHECK(nd_layout_start(LIST(no_columns), LIST(by_columns), 4, 3, ND_OWNED, &start) == ND_OK && start == 0);
    CHECK(nd_layout_start(LIST(three_two), LIST(crossed), 4, 8, ND_READ_ONLY, &start) == ND_OK && start == 0);
    CHECK(nd_layout_start(none, 0, no_strides, 0, 4, 1, ND_OWNED, &start) == ND_OK && start == 0);
    CHECK(nd_layout_start(none, 0, no_strides, 0, 4, 0, ND_OWNED, &start) == ND_OUT_OF_BOUNDS);
}

static void test_check_layout(void) {
    const size_t three[1] = {3};
    const ptrdiff_t back[1] = {-1};
    CHECK(nd_check_layout(4, LIST(three), LIST(back), 1, 5, ND_OWNED) == ND_OK);
    CHECK(nd_check_layout(1, LIST(three), LIST(back), 1, 5, ND_OWNED) == ND_OUT_OF_BOUNDS);
    CHECK(nd_check_layout(5, LIST(three), LIST(back), 1, 5, ND_OWNED) == ND_OUT_OF_BOUNDS);
    CHECK(nd_check_layout(SIZE_MAX, LIST(three), LIST(back), 1, SIZE_MAX, ND_OWNED) == ND_OUT_OF_BOUNDS);
    CHECK(nd_check_layout(4, LIST(three), LIST(up), 1, 5, ND_OWNED) == ND_INCOMPATIBLE_LAYOUT);
    CHECK(nd_check_layout(0, LIST(three_two), LIST(crossed), 1, 8, ND_OWNED) == ND_UNSUPPORTED);
    CHECK(nd_check_layout(4, LIST(three), LIST(back), 1, 5, 7) == ND_BAD_ARGUMENT);
    CHECK(nd_check_layout(PTRDIFF_MAX, LIST(three), LIST(back), 1, SIZE_MAX, ND_OWNED) == ND_OK);
    CHECK(nd_check_layout((size_t)PTRDIFF_MAX + 1, LIST(three), LIST(back), 1, SIZE_MAX, ND_OWNED) == ND_OUT_OF_BOUNDS);
    CHECK(nd_check_layout(5, none, 1, LIST(back), 1, 5, ND_OWNED) == ND_OK);
    CHECK(nd_check_layout(6, none, 1, LIST(back), 1, 5, ND_OWNED) == ND_OUT_OF_BOUNDS);
}

static void test_questions(void) {
    const size_t no_rows[2] = {0, 3};
    const ptrdiff_t by_columns[2] = {1, 2}, nines[2] = {9, 9}, zeros[2] = {0, 0};
    int32_t answer = 77;
    CHECK(nd_has_overlap(LIST(two_three), no_strides, 1, &answer) == ND_INCOMPATIBLE_LAYOUT);
    CHECK(nd_is_contiguous(LIST(huge), LIST(by_rows), &answer) == ND_OVERFLOW);
    CHECK(nd_is_layout_c(LIST(two_three), no_strides, 1, &answer) == ND_INCOMPATIBLE_LAYOUT);
    CHECK(nd_is_layout_f(LIST(huge), LIST(by_rows), &answer) == ND_OVERFLOW);
    CHECK(answer == 77);
    CHECK(nd_has_overlap(LIST(two_three), LIST(by_rows), &answer) == ND_OK && answer == 0);
    CHECK(nd_has_overlap(LIST(three_two), LIST(crossed), &answer) == ND_OK && answer == 1);
    CHECK(nd_is_contiguous(LIST(two_three), LIST(up), &answer) == ND_OK && answer == 1);
    CHECK(nd_is_contiguous(LIST(three_two), LIST(crossed), &answer) == ND_OK && answer == 0);
    CHECK(nd_is_contiguous(LIST(no_rows), LIST(by_rows), &answer) == ND_OK && answer == 1);
    CHECK(nd_is_contiguous(LIST(no_rows), LIST(nines), &answer) == ND_OK && answer == 0);
    CHECK(nd_is_contiguous(LIST(no_rows), LIST(zeros), &answer) == ND_OK && answer == 1);
    CHECK(nd_is_contiguous(none, 1, nines, 1, &answer) == ND_OK && answer == 1);
    CHECK(nd_is_layout_c(LIST(no_rows), LIST(nines), &answer) == ND_OK && answer == 1);
    CHECK(nd_is_layout_f(LIST(no_rows), LIST(nines), &answer) == ND_OK && answer == 1);
    CHECK(nd_is_layout_c(LIST(two_three), LIST(by_rows), &answer) == ND_OK && answer == 1);
    CHECK(nd_is_layout_c(LIST(two_three), LIST(up), &answer) == ND_OK && answer == 0);
    CHECK(nd_is_layout_f(LIST(two_three), LIST(by_columns), &answer) == ND_OK && answer == 1);
    CHECK(nd_is_layout_f(LIST(two_three), LIST(by_rows), &answer) == ND_OK && answer == 0);
}

static void test_own_strides(void) {
    const size_t shape[3] = {3, 4, 5}, long_shape[6] = {1, 2, 3, 1, 2, 2};
    ptrdiff_t strides[3] = {7, 7, 7}, long_strides[6];
    CHECK(nd_default_strides(LIST(shape), strides, 2) == ND_BAD_ARGUMENT);
    CHECK(nd_fortran_strides(LIST(huge), LIST(strides)) == ND_BAD_ARGUMENT);
    CHECK(nd_fortran_strides(LIST(huge), strides, 2) == ND_OVERFLOW);
    SAME(strides, 7, 7, 7);
    CHECK(nd_default_strides(LIST(shape), LIST(strides)) == ND_OK);
    SAME(strides, 20, 5, 1);
    CHECK(nd_fortran_strides(LIST(shape), LIST(strides)) == ND_OK);
    SAME(strides, 1, 3, 12);
    CHECK(nd_default_strides(LIST(long_shape), LIST(long_strides)) == ND_OK);
    SAME(long_strides, 24, 12, 4, 4, 2, 1);
    CHECK(nd_default_strides(none, 0, strides, 0) == ND_OK);
}

static void test_places(void) {
    const size_t last[2] = {1, 2}, past[2] = {2, 0};
    size_t place = 77, places[6] = {7, 7, 7, 7, 7, 7};
    CHECK(nd_place(3, LIST(two_three), LIST(up), LIST(past), &place) == ND_OUT_OF_BOUNDS);
    CHECK(nd_place(3, LIST(two_three), LIST(up), last, 1, &place) == ND_OUT_OF_BOUNDS);
    CHECK(nd_place(2, LIST(two_three), LIST(up), LIST(last), &place) == ND_OUT_OF_BOUNDS);
    CHECK(nd_place(3, LIST(two_three), up, 1, LIST(last), &place) == ND_INCOMPATIBLE_LAYOUT);
    CHECK(place == 77);
    CHECK(nd_place(3, LIST(two_three), LIST(up), LIST(last), &place) == ND_OK && place == 2);
    CHECK(nd_place(9, none, 0, no_strides, 0, none, 0, &place) == ND_OK && place == 9);
    CHECK(nd_places(3, LIST(two_three), LIST(up), 3, LIST(places)) == ND_BAD_ARGUMENT);
    CHECK(nd_places(3, LIST(two_three), LIST(up), ND_ROW_MAJOR, places, 5) == ND_BAD_ARGUMENT);
    CHECK(nd_places(2, LIST(two_three), LIST(up), ND_ROW_MAJOR, LIST(places)) == ND_OUT_OF_BOUNDS);
    SAME(places, 7, 7, 7, 7, 7, 7);
    CHECK(nd_places(3, LIST(two_three), LIST(up), ND_ROW_MAJOR, LIST(places)) == ND_OK);
    SAME(places, 3, 4, 5, 0, 1, 2);
    CHECK(nd_places(3, LIST(two_three), LIST(up), ND_COLUMN_MAJOR, LIST(places)) == ND_OK);
    SAME(places, 3, 0, 4, 1, 5, 2);
}

static void test_next_index(void) {
    size_t index[2] = {0, 2};
    int32_t has_next = 77;
    CHECK(nd_next_index(LIST(two_three), LIST(index), 2, &has_next) == ND_BAD_ARGUMENT);
    CHECK(nd_next_index(LIST(three_two), LIST(index), ND_ROW_MAJOR, &has_next) == ND_OUT_OF_BOUNDS);
    CHECK(nd_next_index(LIST(two_three), index, 1, ND_ROW_MAJOR, &has_next) == ND_OUT_OF_BOUNDS);
    CHECK(has_next == 77);
    CHECK(nd_next_index(LIST(two_three), LIST(index), ND_ROW_MAJOR, &has_next) == ND_OK && has_next == 1);
    SAME(index, 1, 0);
    CHECK(nd_next_index(LIST(two_three), LIST(index), ND_COLUMN_MAJOR, &has_next) == ND_OK && has_next == 1);
    SAME(index, 0, 1);
    index[0] = 1;
    index[1] = 2;
    CHECK(nd_next_index(LIST(two_three), LIST(index), ND_ROW_MAJOR, &has_next) == ND_OK && has_next == 0);
    SAME(index, 0, 0);
}

static const nd_slice_elem row[2] = {{ND_INDEX, 0, 0, 0, 0}, {ND_SLICE, 0, 0, 0, 1}};
static const nd_slice_elem last_row[2] = {{ND_INDEX, 0, -1, 0, 0}, {ND_SLICE, 0, 0, 0, 1}};
static const nd_slice_elem last_column[2] = {{ND_SLICE, 0, 0, 0, 1}, {ND_INDEX, 0, -1, 0, 0}};
static const nd_slice_elem back_by_two[1] = {{ND_SLICE, 0, 1, 0, -2}};
static const nd_slice_elem no_step[1] = {{ND_SLICE, 0, 0, 0, 0}};
static const nd_slice_elem past_end[1] = {{ND_SLICE, 1, 0, 9, 1}};
static const nd_slice_elem no_kind[1] = {{3, 0, 0, 0, 1}};
static const nd_slice_elem below_kind[1] = {{-1, 0, 0, 0, 1}};
static const nd_slice_elem many[7] = {{ND_NEW_AXIS, 0, 0, 0, 0}, {ND_SLICE, 0, 0, 0, 1}, {ND_NEW_AXIS, 0, 0, 0, 0},
                                      {ND_NEW_AXIS, 0, 0, 0, 0}, {ND_SLICE, 1, 1, 3, 1}, {ND_NEW_AXIS, 0, 0, 0, 0},
                                      {ND_NEW_AXIS, 0, 0, 0, 0}};

static void test_slice(void) {
    const size_t four[1] = {4};
    const ptrdiff_t three[1] = {3};
    size_t start = 77, shape[1] = {77}, long_shape[7];
    ptrdiff_t strides[1] = {77}, long_strides[7];
#define SLICE(elems, fit) nd_slice(5, LIST(four), LIST(three), LIST(elems), fit, &start, LIST(shape), LIST(strides))
    CHECK(SLICE(back_by_two, 2) == ND_BAD_ARGUMENT);
    CHECK(SLICE(no_kind, ND_STRICT) == ND_BAD_ARGUMENT);
    CHECK(SLICE(below_kind, ND_STRICT) == ND_BAD_ARGUMENT);
    CHECK(SLICE(row, ND_STRICT) == ND_INCOMPATIBLE_SHAPE);
    CHECK(SLICE(no_step, ND_STRICT) == ND_UNSUPPORTED);
    CHECK(SLICE(past_end, ND_STRICT) == ND_OUT_OF_BOUNDS);
    CHECK(nd_slice(5, LIST(four), LIST(three), LIST(back_by_two), ND_STRICT, &start, shape, 0, LIST(strides)) ==
          ND_BAD_ARGUMENT);
    CHECK(nd_slice(5, LIST(four), LIST(three), LIST(back_by_two), ND_STRICT, &start, LIST(shape), strides, 0) ==
          ND_BAD_ARGUMENT);
    CHECK(nd_slice(SIZE_MAX, LIST(four), LIST(three), LIST(back_by_two), ND_STRICT, &start, LIST(shape), LIST(strides)) ==
          ND_OUT_OF_BOUNDS);
    CHECK(start == 77 && shape[0] == 77 && strides[0] == 77);
    CHECK(SLICE(back_by_two, ND_STRICT) == ND_OK && start == 14 && shape[0] == 2 && strides[0] == -6);
    CHECK(SLICE(past_end, ND_CLAMPED) == ND_OK && start == 5 && shape[0] == 4 && strides[0] == 3);
    CHECK(nd_slice(0, LIST(two_three), LIST(by_rows), LIST(many), ND_STRICT, &start, LIST(long_shape),
                   LIST(long_strides)) == ND_OK && start == 1);
    SAME(long_shape, 1, 2, 1, 1, 2, 1, 1);
    SAME(long_strides, 0, 3, 0, 0, 1, 0, 0);
}

static void test_slices_of_shapes(void) {
    const size_t four[1] = {4};
    int32_t answer = 77;
    size_t count = 77;
    CHECK(nd_slices_intersect(LIST(two_three), LIST(row), LIST(no_kind), ND_STRICT, &answer) == ND_BAD_ARGUMENT);
    CHECK(nd_slices_intersect(LIST(two_three), LIST(row), LIST(row), 2, &answer) == ND_BAD_ARGUMENT);
    CHECK(nd_slices_intersect(LIST(two_three), LIST(row), LIST(no_step), ND_STRICT, &answer) == ND_INCOMPATIBLE_SHAPE);
    CHECK(nd_slices_intersect(LIST(huge), LIST(row), LIST(row), ND_STRICT, &answer) == ND_OVERFLOW);
    CHECK(answer == 77);
    CHECK(nd_slices_intersect(LIST(two_three), LIST(row), LIST(last_column), ND_STRICT, &answer) == ND_OK && answer == 1);
    CHECK(nd_slices_intersect(LIST(two_three), LIST(row), LIST(last_row), ND_STRICT, &answer) == ND_OK && answer == 0);
    CHECK(nd_picked(LIST(four), LIST(no_step), ND_STRICT, &count) == ND_UNSUPPORTED);
    CHECK(nd_picked(LIST(four), LIST(past_end), ND_STRICT, &count) == ND_OUT_OF_BOUNDS);
    CHECK(nd_picked(LIST(four), LIST(no_kind), ND_STRICT, &count) == ND_BAD_ARGUMENT);
    CHECK(nd_picked(LIST(huge), LIST(row), ND_STRICT, &count) == ND_OVERFLOW);
    CHECK(count == 77);
    CHECK(nd_picked(LIST(four), LIST(back_by_two), ND_STRICT, &count) == ND_OK && count == 2);
    CHECK(nd_picked(LIST(two_three), LIST(many), ND_STRICT, &count) == ND_OK && count == 4);
}

static void test_co_broadcast(void) {
    const size_t column[2] = {4, 1}, three[1] = {3}, two[1] = {2};
    size_t common[2] = {7, 7};
    CHECK(nd_co_broadcast(LIST(two_three), LIST(two), LIST(common)) == ND_INCOMPATIBLE_SHAPE);
    CHECK(nd_co_broadcast(LIST(three), LIST(column), common, 1) == ND_BAD_ARGUMENT);
    SAME(common, 7, 7);
    CHECK(nd_co_broadcast(LIST(three), LIST(column), LIST(common)) == ND_OK);
    SAME(common, 4, 3);
    CHECK(nd_co_broadcast(none, 0, none, 0, common, 0) == ND_OK);
}

static void test_broadcast(void) {
    const size_t flat[2] = {1, 4}, target[3] = {2, 3, 4}, other[3] = {2, 3, 5}, wide[3] = {PTRDIFF_MAX, 2, 4};
    const ptrdiff_t strides[2] = {9, -1};
    ptrdiff_t new_strides[3] = {7, 7, 7};
    CHECK(nd_broadcast(LIST(flat), LIST(strides), LIST(target), new_strides, 2) == ND_BAD_ARGUMENT);
    CHECK(nd_broadcast(LIST(flat), strides, 1, LIST(target), LIST(new_strides)) == ND_INCOMPATIBLE_LAYOUT);
    CHECK(nd_broadcast(LIST(flat), LIST(strides), LIST(other), LIST(new_strides)) == ND_INCOMPATIBLE_SHAPE);
    CHECK(nd_broadcast(LIST(flat), LIST(strides), LIST(wide), LIST(new_strides)) == ND_OVERFLOW);
    SAME(new_strides, 7, 7, 7);
    CHECK(nd_broadcast(LIST(flat), LIST(strides), LIST(target), LIST(new_strides)) == ND_OK);
    SAME(new_strides, 0, 0, -1);
}

static void test_merge(void) {
    size_t shape[2] = {2, 3};
    ptrdiff_t strides[2] = {-3, 1};
    int32_t merged = 77;
    CHECK(nd_merge_axes(LIST(shape), strides, 1, 0, 1, &merged) == ND_INCOMPATIBLE_LAYOUT);
    CHECK(nd_merge_axes(LIST(shape), LIST(strides), 0, 2, &merged) == ND_OUT_OF_BOUNDS);
    CHECK(nd_merge_axes(LIST(shape), LIST(strides), 1, 1, &merged) == ND_UNSUPPORTED);
    CHECK(merged == 77);
    CHECK(nd_merge_axes(LIST(shape), LIST(strides), 0, 1, &merged) == ND_OK && merged == 0);
    SAME(shape, 2, 3);
    SAME(strides, -3, 1);
    strides[0] = 3;
    CHECK(nd_merge_axes(LIST(shape), LIST(strides), 0, 1, &merged) == ND_OK && merged == 1);
    SAME(shape, 1, 6);
    SAME(strides, 3, 1);
}

static void test_reshape(void) {
    const size_t empty[2] = {0, 3}, five[1] = {5}, two[1] = {2}, two_four[2] = {2, 4};
    const ptrdiff_t with_gap[2] = {4, 1};
    ptrdiff_t strides[2] = {7, 7};
#define RESHAPE(order, target) nd_reshape(LIST(two_three), LIST(by_rows), LIST(target), order, LIST(strides))
    CHECK(RESHAPE(2, three_two) == ND_BAD_ARGUMENT);
    CHECK(RESHAPE(ND_ROW_MAJOR, five) == ND_BAD_ARGUMENT);
    CHECK(RESHAPE(ND_COLUMN_MAJOR, three_two) == ND_INCOMPATIBLE_LAYOUT);
    CHECK(RESHAPE(ND_ROW_MAJOR, huge) == ND_OVERFLOW);
    CHECK(RESHAPE(ND_ROW_MAJOR, empty) == ND_INCOMPATIBLE_SHAPE);
    CHECK(nd_reshape(LIST(two_three), LIST(by_rows), LIST(five), ND_ROW_MAJOR, strides, 1) == ND_INCOMPATIBLE_SHAPE);
#define RESHAPE_GAP(target) nd_reshape(LIST(two_three), LIST(with_gap), LIST(target), ND_ROW_MAJOR, strides, COUNT(target))
    CHECK(RESHAPE_GAP(five) == ND_INCOMPATIBLE_LAYOUT && RESHAPE_GAP(three_two) == ND_INCOMPATIBLE_LAYOUT);
    CHECK(RESHAPE_GAP(two) == ND_INCOMPATIBLE_SHAPE && RESHAPE_GAP(two_four) == ND_INCOMPATIBLE_SHAPE);
    SAME(strides, 7, 7);
    CHECK(RESHAPE(ND_ROW_MAJOR, three_two) == ND_OK);
    SAME(strides, 2, 1);
}

static void test_permuted_axes(void) {
    const size_t shape[3] = {2, 3, 4}, axes[3] = {2, 0, 1}, twice[3] = {0, 0, 1}, past[3] = {0, 1, 3};
    const size_t long_shape[5] = {2, 3, 4, 5, 6}, back[5] = {4, 3, 2, 1, 0};
    const ptrdiff_t strides[3] = {12, 4, 1}, long_strides[5] = {360, 120, 30, 6, 1};
    size_t new_shape[3] = {7, 7, 7}, long_new_shape[5];
    ptrdiff_t new_strides[3] = {7, 7, 7}, long_new_strides[5];
#define PERMUTE(axes) nd_permuted_axes(LIST(shape), LIST(strides), LIST(axes), LIST(new_shape), LIST(new_strides))
    CHECK(PERMUTE(twice) == ND_INCOMPATIBLE_SHAPE);
    CHECK(PERMUTE(past) == ND_INCOMPATIBLE_SHAPE);
    CHECK(PERMUTE(two_three) == ND_INCOMPATIBLE_SHAPE);
    CHECK(nd_permuted_axes(LIST(shape), LIST(strides), LIST(axes), new_shape, 2, LIST(new_strides)) == ND_BAD_ARGUMENT);
    CHECK(nd_permuted_axes(LIST(shape), LIST(strides), LIST(axes), LIST(new_shape), new_strides, 2) == ND_BAD_ARGUMENT);
    CHECK(nd_permuted_axes(LIST(shape), LIST(strides), LIST(twice), LIST(new_shape), new_strides, 2) == ND_BAD_ARGUMENT);
    SAME(new_shape, 7, 7, 7);
    SAME(new_strides, 7, 7, 7);
    CHECK(PERMUTE(axes) == ND_OK);
    SAME(new_shape, 4, 2, 3);
    SAME(new_strides, 1, 12, 4);
    CHECK(nd_permuted_axes(LIST(long_shape), LIST(long_strides), LIST(back), LIST(long_new_shape), LIST(long_new_strides)) ==
          ND_OK);
    SAME(long_new_shape, 6, 5, 4, 3, 2);
    SAME(long_new_strides, 1, 6, 30, 120, 360);
}

static void test_blocks(void) {
    const size_t two[2] = {2, 2}, zero[2] = {2, 0}, wide[2] = {2, 4}, wide_shape[1] = {(size_t)1 << 33};
    const size_t half[1] = {(size_t)1 << 32}, long_shape[3] = {2, 3, 4}, long_block[3] = {1, 2, 2};
    const ptrdiff_t far[2] = {PTRDIFF_MAX, 1}, one[1] = {1}, long_strides[3] = {12, -4, 1};
    size_t shape[4] = {7, 7, 7, 7}, long_new_shape[6];
    ptrdiff_t strides[4] = {7, 7, 7, 7}, long_new_strides[6];
#define WINDOWS(window) nd_windows(LIST(two_three), LIST(up), LIST(window), LIST(shape), LIST(strides))
#define CHUNKS(chunk) nd_exact_chunks(LIST(two_three), LIST(up), LIST(chunk), LIST(shape), LIST(strides))
    CHECK(nd_windows(LIST(two_three), up, 1, LIST(two), shape, 3, LIST(strides)) == ND_BAD_ARGUMENT);
    CHECK(nd_windows(LIST(two_three), up, 1, LIST(two), LIST(shape), strides, 2) == ND_BAD_ARGUMENT);
    CHECK(nd_windows(LIST(two_three), up, 1, LIST(half), LIST(shape), LIST(strides)) == ND_INCOMPATIBLE_LAYOUT);
    CHECK(nd_windows(LIST(two_three), LIST(far), LIST(half), LIST(shape), LIST(strides)) == ND_OVERFLOW);
    CHECK(WINDOWS(half) == ND_INCOMPATIBLE_SHAPE && WINDOWS(long_block) == ND_INCOMPATIBLE_SHAPE);
    CHECK(WINDOWS(zero) == ND_UNSUPPORTED && WINDOWS(huge) == ND_OVERFLOW);
    CHECK(nd_windows(LIST(wide_shape), LIST(one), LIST(half), shape, 2, strides, 2) == ND_OVERFLOW);
    CHECK(nd_exact_chunks(LIST(two_three), up, 1, LIST(two), shape, 5, LIST(strides)) == ND_BAD_ARGUMENT);
    CHECK(nd_exact_chunks(LIST(two_three), up, 1, LIST(two), LIST(shape), strides, 0) == ND_BAD_ARGUMENT);
    CHECK(nd_exact_chunks(LIST(two_three), up, 1, LIST(half), LIST(shape), LIST(strides)) == ND_INCOMPATIBLE_LAYOUT);
    CHECK(nd_exact_chunks(LIST(two_three), LIST(far), LIST(half), LIST(shape), LIST(strides)) == ND_OVERFLOW);
    CHECK(CHUNKS(half) == ND_INCOMPATIBLE_SHAPE && CHUNKS(long_block) == ND_INCOMPATIBLE_SHAPE);
    CHECK(CHUNKS(zero) == ND_UNSUPPORTED && CHUNKS(huge) == ND_OVERFLOW);
    SAME(shape, 7, 7, 7, 7);
    SAME(strides, 7, 7, 7, 7);
    CHECK(WINDOWS(two) == ND_OK);
    SAME(shape, 1, 2, 2, 2);
    SAME(strides, -3, 1, -3, 1);
    CHECK(CHUNKS(two) == ND_OK);
    SAME(shape, 1, 1, 2, 2);
    SAME(strides, 0, 0, -3, 1);
    CHECK(WINDOWS(wide) == ND_OK);
    SAME(shape, 1, 0, 2, 4);
    SAME(strides, 0, 0, 0, 0);
    CHECK(nd_windows(LIST(long_shape), LIST(long_strides), LIST(long_block), LIST(long_new_shape),
                     LIST(long_new_strides)) == ND_OK);
    SAME(long_new_shape, 2, 2, 3, 1, 2, 2);
    SAME(long_new_strides, 12, -4, 1, 12, -4, 1);
    CHECK(nd_exact_chunks(LIST(long_shape), LIST(long_strides), LIST(long_block), LIST(long_new_shape),
                          LIST(long_new_strides)) == ND_OK);
    SAME(long_new_shape, 2, 1, 2, 1, 2, 2);
    SAME(long_new_strides, 12, 0, 2, 12, -4, 1);
}

static void test_split_at(void) {
    const size_t long_shape[5] = {1, 2, 1, 3, 1};
    const ptrdiff_t long_strides[5] = {9, 3, 9, -1, 9};
    size_t starts[2] = {7, 7}, shapes[4] = {7, 7, 7, 7}, long_shapes[10];
    ptrdiff_t strides[2] = {7, 7}, long_new_strides[5];
#define SPLIT(axis, index) \
    nd_split_at(3, LIST(two_three), LIST(up), axis, index, LIST(starts), LIST(shapes), LIST(strides))
    CHECK(nd_split_at(3, LIST(two_three), up, 1, 9, 9, starts, 1, LIST(shapes), LIST(strides)) == ND_BAD_ARGUMENT);
    CHECK(nd_split_at(3, LIST(two_three), up, 1, 9, 9, LIST(starts), shapes, 2, LIST(strides)) == ND_BAD_ARGUMENT);
    CHECK(nd_split_at(3, LIST(two_three), up, 1, 9, 9, LIST(starts), LIST(shapes), strides, 1) == ND_BAD_ARGUMENT);
    CHECK(nd_split_at(3, LIST(two_three), up, 1, 9, 9, LIST(starts), LIST(shapes), LIST(strides)) ==
          ND_INCOMPATIBLE_LAYOUT);
    CHECK(nd_split_at(3, LIST(huge), LIST(up), 9, 9, LIST(starts), LIST(shapes), LIST(strides)) == ND_OVERFLOW);
    CHECK(nd_split_at(2, LIST(two_three), LIST(up), 1, 1, LIST(starts), LIST(shapes), LIST(strides)) == ND_OUT_OF_BOUNDS);
    CHECK(SPLIT(2, 0) == ND_OUT_OF_BOUNDS && SPLIT(0, 3) == ND_OUT_OF_BOUNDS);
    SAME(starts, 7, 7);
    SAME(shapes, 7, 7, 7, 7);
    SAME(strides, 7, 7);
    CHECK(SPLIT(0, 1) == ND_OK);
    SAME(starts, 3, 0);
    SAME(shapes, 1, 3, 1, 3);
    SAME(strides, -3, 1);
    CHECK(SPLIT(1, 0) == ND_OK);
    SAME(starts, 3, 3);
    SAME(shapes, 2, 0, 2, 3);
    CHECK(SPLIT(1, 3) == ND_OK);
    SAME(starts, 3, 3);
    SAME(shapes, 2, 3, 2, 0);
    CHECK(nd_split_at(2, LIST(long_shape), LIST(long_strides), 3, 2, LIST(starts), LIST(long_shapes),
                      LIST(long_new_strides)) == ND_OK);
    SAME(starts, 2, 0);
    SAME(long_shapes, 1, 2, 1, 2, 1, 1, 2, 1, 1, 1);
    SAME(long_new_strides, 9, 3, 9, -1, 9);
}

static void test_rows(void) {
    const size_t empty[2] = {0, 3}, cube[3] = {2, 1, 3};
    const ptrdiff_t cube_strides[3] = {-3, 9, 1};
    size_t starts[3] = {7, 7, 7}, len = 77;
    ptrdiff_t stride = 77;
#define ROWS(start, order, count) nd_rows(start, LIST(two_three), LIST(up), order, starts, count, &stride, &len)
    CHECK(nd_rows(3, LIST(two_three), up, 1, 2, starts, 2, &stride, &len) == ND_BAD_ARGUMENT);
    CHECK(nd_rows(3, LIST(two_three), up, 1, ND_ROW_MAJOR, starts, 9, &stride, &len) == ND_INCOMPATIBLE_LAYOUT);
    CHECK(nd_rows(3, LIST(huge), LIST(up), ND_ROW_MAJOR, starts, 9, &stride, &len) == ND_OVERFLOW);
    CHECK(ROWS(2, ND_ROW_MAJOR, 9) == ND_OUT_OF_BOUNDS);
    CHECK(ROWS(3, ND_ROW_MAJOR, 3) == ND_BAD_ARGUMENT && ROWS(3, ND_COLUMN_MAJOR, 2) == ND_BAD_ARGUMENT);
    CHECK(nd_rows(0, LIST(empty), LIST(up), ND_ROW_MAJOR, starts, 1, &stride, &len) == ND_BAD_ARGUMENT);
    SAME(starts, 7, 7, 7);
    CHECK(stride == 77 && len == 77);
    CHECK(ROWS(3, ND_ROW_MAJOR, 2) == ND_OK && stride == 1 && len == 3);
    SAME(starts, 3, 0, 7);
    CHECK(ROWS(3, ND_COLUMN_MAJOR, 3) == ND_OK && stride == -3 && len == 2);
    SAME(starts, 3, 4, 5);
    CHECK(nd_rows(3, LIST(cube), LIST(cube_strides), ND_ROW_MAJOR, starts, 2, &stride, &len) == ND_OK);
    CHECK(starts[0] == 3 && starts[1] == 0 && stride == 1 && len == 3);
    CHECK(nd_rows(0, LIST(empty), LIST(up), ND_COLUMN_MAJOR, starts, 0, &stride, &len) == ND_OK);
    CHECK(stride == -3 && len == 0);
    CHECK(nd_rows(5, none, 0, no_strides, 0, ND_ROW_MAJOR, starts, 1, &stride, &len) == ND_OK);
    CHECK(starts[0] == 5 && stride == 0 && len == 1);
}

/* Slices of (2,3), one after another: the first row, the last row, the last column, and row 9. */
static const nd_slice_elem slices[8] = {{ND_INDEX, 0, 0, 0, 0},  {ND_SLICE, 0, 0, 0, 1}, {ND_INDEX, 0, -1, 0, 0},
                                        {ND_SLICE, 0, 0, 0, 1},  {ND_SLICE, 0, 0, 0, 1}, {ND_INDEX, 0, -1, 0, 0},
                                        {ND_INDEX, 0, 9, 0, 0},  {ND_SLICE, 0, 0, 0, 1}};

static void test_first_intersection(void) {
    const size_t four[1] = {4}, each[4] = {2, 2, 2, 2}, short_one[4] = {2, 2, 1, 3};
    const size_t too_many[2] = {SIZE_MAX, 9}, ones[6] = {0, 0, 0, 0, 0, 1};
    const nd_slice_elem parts[3] = {{ND_SLICE, 1, 2, 4, 1}, {ND_SLICE, 1, 1, 3, 1}, {ND_SLICE, 1, 0, 2, 1}};
    const size_t one_each[3] = {1, 1, 1};
    size_t pair[2] = {7, 7};
    int32_t found = 77;
#define INTERSECTION(shape, elems, elems_len, counts, counts_len, fit) \
    nd_first_intersection(LIST(shape), elems, elems_len, counts, counts_len, fit, LIST(pair), &found)
    CHECK(INTERSECTION(huge, slices, 6, each, 3, 2) == ND_BAD_ARGUMENT);
    CHECK(INTERSECTION(huge, no_kind, 1, ones + 5, 1, ND_STRICT) == ND_BAD_ARGUMENT);
    CHECK(INTERSECTION(huge, slices, 6, each, 2, ND_STRICT) == ND_BAD_ARGUMENT);
    CHECK(INTERSECTION(huge, slices, 6, each, 4, ND_STRICT) == ND_BAD_ARGUMENT);
    CHECK(INTERSECTION(huge, slices, 8, too_many, 2, ND_STRICT) == ND_BAD_ARGUMENT);
    CHECK(nd_first_intersection(LIST(huge), slices, 6, each, 3, ND_STRICT, pair, 1, &found) == ND_BAD_ARGUMENT);
    CHECK(INTERSECTION(huge, slices, 8, each, 4, ND_STRICT) == ND_OVERFLOW);
    CHECK(INTERSECTION(two_three, slices, 8, each, 4, ND_STRICT) == ND_OUT_OF_BOUNDS);
    CHECK(INTERSECTION(two_three, slices, 8, each, 4, ND_CLAMPED) == ND_OUT_OF_BOUNDS);
    CHECK(INTERSECTION(two_three, slices, 8, short_one, 4, ND_STRICT) == ND_INCOMPATIBLE_SHAPE);
    CHECK(INTERSECTION(four, no_step, 1, ones + 5, 1, ND_STRICT) == ND_UNSUPPORTED);
    SAME(pair, 7, 7);
    CHECK(found == 77);
    CHECK(INTERSECTION(two_three, slices, 4, each, 2, ND_STRICT) == ND_OK && found == 0);
    CHECK(INTERSECTION(two_three, slices, 0, each, 0, ND_STRICT) == ND_OK && found == 0);
    CHECK(INTERSECTION(four, past_end, 1, ones, 6, ND_CLAMPED) == ND_INCOMPATIBLE_SHAPE);
    CHECK(INTERSECTION(four, past_end, 1, ones + 5, 1, ND_CLAMPED) == ND_OK && found == 0);
    SAME(pair, 7, 7);
    CHECK(INTERSECTION(two_three, slices, 6, each, 3, ND_STRICT) == ND_OK && found == 1);
    SAME(pair, 0, 2);
    CHECK(INTERSECTION(four, parts, 3, one_each, 3, ND_STRICT) == ND_OK && found == 1);
    SAME(pair, 1, 2); /* not 0 1 */
    CHECK(INTERSECTION(two_three, slices + 2, 4, each, 2, ND_STRICT) == ND_OK && found == 1);
    SAME(pair, 0, 1);
    CHECK(nd_first_intersection(none, 0, slices, 0, LIST(ones) - 1, ND_STRICT, LIST(pair), &found) == ND_OK && found == 1);
    SAME(pair, 0, 1);
}

static void test_status_text(void) {
    char text[ND_TEXT_SIZE], other[ND_TEXT_SIZE];
    size_t used = 77;
    memset(text, 'x', sizeof text);
    CHECK(nd_status_text(9, LIST(text), &used) == ND_BAD_ARGUMENT);
    CHECK(nd_status_text(-1, LIST(text), &used) == ND_BAD_ARGUMENT);
    CHECK(nd_status_text(ND_OK, text, ND_TEXT_SIZE - 1, &used) == ND_BAD_ARGUMENT);
    CHECK(used == 77 && text[0] == 'x' && text[ND_TEXT_SIZE - 1] == 'x');
    for (int32_t status = ND_OK; status <= ND_OUT_OF_MEMORY; status++) {
        memset(text, 'x', sizeof text);
        CHECK(nd_status_text(status, LIST(text), &used) == ND_OK);
        CHECK(used > 0 && used < ND_TEXT_SIZE && text[used] == 0 && strlen(text) == used);
        CHECK(used + 1 == ND_TEXT_SIZE || text[ND_TEXT_SIZE - 1] == 'x');
        CHECK(status == ND_OK || strcmp(text, other) != 0);
        memcpy(other, text, sizeof other);
    }
    CHECK(nd_status_text(ND_OUT_OF_BOUNDS, LIST(text), &used) == ND_OK);
    CHECK(strcmp(text, "OutOfBounds: out of bounds indexing") == 0);
}

/* What the library names inside is its own: functions of the same names in a program are not what it calls. */
static int calls;

void *rattle_alloc(void) {
    calls++;
    return NULL;
}

void *rattle_realloc(void) {
    calls++;
    return NULL;
}

void rattle_dealloc(void) {
    calls++;
}

int main(void) {
    test_layout_start();
    test_check_layout();
    test_questions();
    test_own_strides();
    test_places();
    test_next_index();
    test_slice();
    test_slices_of_shapes();
    test_co_broadcast();
    test_broadcast();
    test_merge();
    test_reshape();
    test_permuted_axes();
    test_blocks();
    test_split_at();
    test_rows();
    test_first_intersection();
    test_status_text();
    CHECK(calls == 0);
    printf("%d checked, %d failed\n", checked, failed);
    return failed != 0;
}
