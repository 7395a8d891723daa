/* Why calls return their statuses: rows worked out by hand, one of each rule, and bad input, after which nothing is written. */
#include "ndarray_layout.h"

#include <stdio.h>
#include <string.h>

/* A list and its count, as the calls take them. */
#define LIST(list) (list), (sizeof(list) / sizeof *(list))

static int checked, failed;

static void check(int holds, int line, const char *what) {
    checked++;
    if (holds) return;
    failed++;
    printf("test_reasons.c:%d: %s\n", line, what);
}

#define CHECK(fact) check((fact), __LINE__, #fact)
/* The call succeeds, and writes these numbers: of a list, or of none. */
#define TOLD_OF(list, call, status, rule, axis, number, size, other) \
    do { \
        const nd_reason expected = {status, rule, list, ND_ELEMENTS, axis, number, size, other}; \
        memset(&reason, 7, sizeof reason); \
        CHECK((call) == ND_OK); \
        CHECK(is_same(&reason, &expected)); \
    } while (0)
#define TOLD(call, status, rule, axis, number, size, other) TOLD_OF(0, call, status, rule, axis, number, size, other)
/* The call returns ND_BAD_ARGUMENT, and writes nothing. */
#define BAD(call) \
    do { \
        nd_reason before; \
        memset(&before, 7, sizeof before); \
        reason = before; \
        CHECK((call) == ND_BAD_ARGUMENT); \
        CHECK(is_same(&reason, &before)); \
    } while (0)

static nd_reason reason;

static int is_same(const nd_reason *one, const nd_reason *other) {
    return one->status == other->status && one->rule == other->rule && one->list == other->list && one->unit == other->unit
           && one->axis == other->axis && one->number == other->number && one->size == other->size && one->other == other->other;
}

static const size_t none[1] = {0}, three[1] = {3}, four[1] = {4}, two_three[2] = {2, 3}, three_two[2] = {3, 2};
static const size_t three_axes[3] = {2, 3, 5};
static const ptrdiff_t back[1] = {-1}, by_rows[2] = {3, 1}, crossed[2] = {2, 3}, no_strides[1] = {0};
#define WHOLE {ND_SLICE, 0, 0, 0, 1}
#define NEW_AXIS {ND_NEW_AXIS, 1, 9, 9, 0}

static void test_slices(void) {
    const nd_slice_elem third[4] = {{ND_INDEX, 0, 0, 0, 0}, NEW_AXIS, WHOLE, {ND_INDEX, 0, 9, 0, 0}};
    const nd_slice_elem second[3] = {{ND_INDEX, 0, -2, 0, 0}, {ND_INDEX, 0, -4, 0, 0}, {ND_INDEX, 0, 9, 0, 0}};
    const nd_slice_elem many[6] = {NEW_AXIS, WHOLE, NEW_AXIS, WHOLE, NEW_AXIS, {ND_INDEX, 0, 5, 0, 0}};
    const nd_slice_elem start[1] = {{ND_SLICE, 1, 5, -9, 0}}, end[1] = {{ND_SLICE, 1, 4, -5, 0}};
    const nd_slice_elem last_bounds[1] = {{ND_SLICE, 1, -4, 4, -1}}, no_step[1] = {{ND_SLICE, 0, 4, 99, 0}};
    const nd_slice_elem row[1] = {{ND_INDEX, 0, 0, 0, 0}}, no_kind[1] = {{3, 0, 0, 0, 1}};
    TOLD(nd_slice_reason(LIST(three_axes), LIST(third), ND_STRICT, &reason), ND_OUT_OF_BOUNDS, ND_RULE_INDEX, 2, 9, 5, 0);
    TOLD(nd_slice_reason(LIST(three_axes), LIST(third), ND_CLAMPED, &reason), ND_OUT_OF_BOUNDS, ND_RULE_INDEX, 2, 9, 5, 0);
    TOLD(nd_slice_reason(LIST(three_axes), LIST(second), ND_STRICT, &reason), ND_OUT_OF_BOUNDS, ND_RULE_INDEX, 1, -4, 3, 0);
    TOLD(nd_slice_reason(LIST(three_axes), LIST(many), ND_STRICT, &reason), ND_OUT_OF_BOUNDS, ND_RULE_INDEX, 2, 5, 5, 0);
    TOLD(nd_slice_reason(LIST(four), LIST(start), ND_STRICT, &reason), ND_OUT_OF_BOUNDS, ND_RULE_BOUND, 0, 5, 4, 0);
    TOLD(nd_slice_reason(LIST(four), LIST(end), ND_STRICT, &reason), ND_OUT_OF_BOUNDS, ND_RULE_BOUND, 0, -5, 4, 0);
    TOLD(nd_slice_reason(LIST(four), LIST(start), ND_CLAMPED, &reason), ND_UNSUPPORTED, ND_RULE_STEP, 0, 0, 4, 0);
    TOLD(nd_slice_reason(LIST(four), LIST(no_step), ND_STRICT, &reason), ND_UNSUPPORTED, ND_RULE_STEP, 0, 0, 4, 0);
    TOLD_OF(ND_LIST_SLICE, nd_slice_reason(LIST(two_three), LIST(row), ND_STRICT, &reason), ND_INCOMPATIBLE_SHAPE,
         ND_RULE_COUNT, 0, 0, 1, 2);
    TOLD_OF(ND_LIST_SLICE, nd_slice_reason(LIST(two_three), LIST(third), ND_STRICT, &reason), ND_INCOMPATIBLE_SHAPE,
         ND_RULE_COUNT, 0, 0, 3, 2);
    TOLD(nd_slice_reason(LIST(four), LIST(last_bounds), ND_STRICT, &reason), ND_OK, ND_RULE_NONE, 0, 0, 0, 0);
    TOLD(nd_slice_reason(none, 0, row, 0, ND_STRICT, &reason), ND_OK, ND_RULE_NONE, 0, 0, 0, 0);
    BAD(nd_slice_reason(LIST(four), LIST(no_kind), ND_STRICT, &reason));
    BAD(nd_slice_reason(LIST(four), LIST(start), 2, &reason));
}

static void test_layout_start(void) {
    const size_t huge[2] = {PTRDIFF_MAX, 2}, no_rows[2] = {0, 3}, long_shape[6] = {1, 1, 3, 1, 2, 1};
    const ptrdiff_t far[1] = {PTRDIFF_MAX}, long_strides[6] = {0, 0, 2, 9, -2, 9};
    TOLD_OF(ND_LIST_STRIDES, nd_layout_start_reason(LIST(two_three), LIST(back), 1, 6, ND_OWNED, &reason),
         ND_INCOMPATIBLE_LAYOUT, ND_RULE_COUNT, 0, 0, 1, 2);
    TOLD(nd_layout_start_reason(LIST(huge), LIST(by_rows), 1, 6, ND_OWNED, &reason), ND_OVERFLOW, ND_RULE_SIZE, 0, 0, 0, 0);
    TOLD(nd_layout_start_reason(LIST(three), LIST(far), 1, 6, ND_OWNED, &reason), ND_OVERFLOW, ND_RULE_SPAN, 0, 0, 0, 0);
    TOLD(nd_layout_start_reason(LIST(three), LIST(back), PTRDIFF_MAX, 6, ND_OWNED, &reason), ND_OVERFLOW, ND_RULE_BYTES, 0, 0,
         2, PTRDIFF_MAX);
    TOLD(nd_layout_start_reason(LIST(three), LIST(back), 1, 2, ND_OWNED, &reason), ND_OUT_OF_BOUNDS, ND_RULE_LENGTH, 0, 0, 2,
         2);
    TOLD(nd_layout_start_reason(LIST(no_rows), LIST(by_rows), 1, 1, ND_OWNED, &reason), ND_OUT_OF_BOUNDS, ND_RULE_LENGTH, 0, 0,
         2, 1);
    TOLD(nd_layout_start_reason(LIST(no_rows), LIST(by_rows), 1, 2, ND_OWNED, &reason), ND_OK, ND_RULE_NONE, 0, 0, 0, 0);
    TOLD(nd_layout_start_reason(LIST(three_two), LIST(crossed), 1, 8, ND_OWNED, &reason), ND_UNSUPPORTED, ND_RULE_ALIAS, 1, 3,
         4, 0);
    TOLD(nd_layout_start_reason(LIST(three_two), LIST(crossed), 1, 8, ND_READ_ONLY, &reason), ND_OK, ND_RULE_NONE, 0, 0, 0, 0);
    TOLD(nd_layout_start_reason(LIST(long_shape), LIST(long_strides), 1, 8, ND_OWNED, &reason), ND_UNSUPPORTED, ND_RULE_ALIAS,
         2, 2, 2, 0);
    BAD(nd_layout_start_reason(LIST(three), LIST(back), 1, 3, 2, &reason));
}

static void test_check_layout(void) {
    TOLD(nd_check_layout_reason(1, LIST(three), LIST(back), 1, 5, ND_OWNED, &reason), ND_OUT_OF_BOUNDS, ND_RULE_LOWEST, 0, 0, 2,
         1);
    TOLD(nd_check_layout_reason(5, LIST(three), LIST(back), 1, 5, ND_OWNED, &reason), ND_OUT_OF_BOUNDS, ND_RULE_LENGTH, 0, 0, 5,
         5);
    TOLD(nd_check_layout_reason(4, LIST(three), LIST(back), 1, 5, ND_OWNED, &reason), ND_OK, ND_RULE_NONE, 0, 0, 0, 0);
    TOLD(nd_check_layout_reason(PTRDIFF_MAX, LIST(two_three), LIST(by_rows), 1, SIZE_MAX, ND_OWNED, &reason), ND_OUT_OF_BOUNDS,
         ND_RULE_HIGHEST, 0, 0, 5, PTRDIFF_MAX);
    TOLD(nd_check_layout_reason(SIZE_MAX, none, 0, no_strides, 0, 1, SIZE_MAX, ND_OWNED, &reason), ND_OUT_OF_BOUNDS,
         ND_RULE_HIGHEST, 0, 0, 0, SIZE_MAX);
    TOLD(nd_check_layout_reason(5, none, 1, LIST(back), 1, 5, ND_OWNED, &reason), ND_OK, ND_RULE_NONE, 0, 0, 0, 0);
    TOLD(nd_check_layout_reason(6, none, 1, LIST(back), 1, 5, ND_OWNED, &reason), ND_OUT_OF_BOUNDS, ND_RULE_LENGTH, 0, 0, 6,
         5);
    TOLD(nd_check_layout_reason(0, LIST(three_two), LIST(crossed), 1, 8, ND_OWNED, &reason), ND_UNSUPPORTED, ND_RULE_ALIAS, 1,
         3, 4, 0);
    TOLD_OF(ND_LIST_STRIDES, nd_check_layout_reason(0, LIST(three_two), LIST(back), 1, 8, ND_OWNED, &reason),
         ND_INCOMPATIBLE_LAYOUT, ND_RULE_COUNT, 0, 0, 1, 2);
    BAD(nd_check_layout_reason(4, LIST(three), LIST(back), 1, 5, -1, &reason));
}

static void test_reshapes(void) {
    const size_t rows[3] = {4, 1, 4}, across[4] = {2, 1, 4, 2}, halves[2] = {4, 4}, long_shape[6] = {2, 1, 2, 1, 3, 1};
    const size_t no_index[2] = {0, 6}, six[1] = {6}, huge[2] = {PTRDIFF_MAX, 2}, eight[2] = {2, 8}, long_new[5] = {6, 1, 1, 1, 2};
    const ptrdiff_t gaps[3] = {8, 9, 1}, far[2] = {PTRDIFF_MAX, 1}, long_strides[6] = {1, 9, 2, 9, 5, 9};
    TOLD(nd_reshape_reason(LIST(rows), LIST(gaps), LIST(across), ND_ROW_MAJOR, &reason), ND_INCOMPATIBLE_LAYOUT, ND_RULE_COPY,
         2, 1, 4, 0);
    TOLD(nd_reshape_reason(LIST(rows), LIST(gaps), LIST(halves), ND_ROW_MAJOR, &reason), ND_OK, ND_RULE_NONE, 0, 0, 0, 0);
    TOLD(nd_reshape_reason(LIST(rows), LIST(gaps), LIST(eight), ND_ROW_MAJOR, &reason), ND_INCOMPATIBLE_LAYOUT, ND_RULE_COPY, 2,
         1, 4, 0);
    TOLD(nd_reshape_reason(LIST(two_three), LIST(by_rows), LIST(three_two), ND_ROW_MAJOR, &reason), ND_OK, ND_RULE_NONE, 0, 0,
         0, 0);
    TOLD(nd_reshape_reason(LIST(two_three), LIST(by_rows), LIST(three_two), ND_COLUMN_MAJOR, &reason), ND_INCOMPATIBLE_LAYOUT,
         ND_RULE_COPY, 0, 3, 2, 0);
    TOLD(nd_reshape_reason(LIST(long_shape), LIST(long_strides), LIST(long_new), ND_COLUMN_MAJOR, &reason),
         ND_INCOMPATIBLE_LAYOUT, ND_RULE_COPY, 2, 2, 2, 0);
    TOLD(nd_reshape_reason(LIST(two_three), LIST(by_rows), LIST(four), ND_ROW_MAJOR, &reason), ND_INCOMPATIBLE_SHAPE,
         ND_RULE_OTHER_SIZE, 0, 0, 4, 6);
    TOLD(nd_reshape_reason(LIST(two_three), LIST(by_rows), LIST(no_index), ND_ROW_MAJOR, &reason), ND_INCOMPATIBLE_SHAPE,
         ND_RULE_OTHER_SIZE, 0, 0, 0, 6);
    TOLD(nd_reshape_reason(LIST(two_three), LIST(by_rows), LIST(huge), ND_ROW_MAJOR, &reason), ND_OVERFLOW, ND_RULE_SIZE, 0, 0,
         0, 0);
    TOLD(nd_reshape_reason(LIST(two_three), LIST(far), LIST(six), ND_ROW_MAJOR, &reason), ND_OVERFLOW, ND_RULE_SPAN, 0, 0, 0,
         0);
    TOLD_OF(ND_LIST_STRIDES, nd_reshape_reason(LIST(two_three), LIST(back), LIST(four), ND_ROW_MAJOR, &reason),
         ND_INCOMPATIBLE_LAYOUT, ND_RULE_COUNT, 0, 0, 1, 2);
    BAD(nd_reshape_reason(LIST(two_three), LIST(by_rows), LIST(six), 2, &reason));
}

static void test_axes(void) {
    const size_t twice[3] = {0, 2, 2}, one_more[3] = {1, 0, 1}, swapped[2] = {1, 0}, past[2] = {1, 2};
    TOLD(nd_permuted_axes_reason(LIST(three_axes), LIST(twice), &reason), ND_INCOMPATIBLE_SHAPE, ND_RULE_MISSING, 1, 0, 3, 3);
    TOLD(nd_permuted_axes_reason(LIST(two_three), LIST(past), &reason), ND_INCOMPATIBLE_SHAPE, ND_RULE_MISSING, 0, 0, 2, 2);
    TOLD_OF(ND_LIST_AXES, nd_permuted_axes_reason(LIST(two_three), LIST(one_more), &reason), ND_INCOMPATIBLE_SHAPE,
         ND_RULE_COUNT, 0, 0, 3, 2);
    TOLD(nd_permuted_axes_reason(LIST(two_three), LIST(swapped), &reason), ND_OK, ND_RULE_NONE, 0, 0, 0, 0);
    TOLD(nd_permuted_axes_reason(none, 0, none, 0, &reason), ND_OK, ND_RULE_NONE, 0, 0, 0, 0);
}

static void test_indices(void) {
    const size_t past[3] = {1, 3, 9}, last[3] = {1, 2, 4}, long_shape[6] = {2, 1, 3, 1, 2, 1};
    const size_t long_index[6] = {1, 0, 2, 0, SIZE_MAX, 1}, no_index[2] = {0, 6};
    TOLD(nd_index_reason(LIST(three_axes), LIST(past), &reason), ND_OUT_OF_BOUNDS, ND_RULE_COORDINATE, 1, 0, 3, 3);
    TOLD(nd_index_reason(LIST(long_shape), LIST(long_index), &reason), ND_OUT_OF_BOUNDS, ND_RULE_COORDINATE, 4, 0, SIZE_MAX,
         2);
    TOLD(nd_index_reason(LIST(no_index), none, 2, &reason), ND_OUT_OF_BOUNDS, ND_RULE_COORDINATE, 0, 0, 0, 0);
    TOLD_OF(ND_LIST_INDEX, nd_index_reason(LIST(two_three), LIST(past), &reason), ND_OUT_OF_BOUNDS, ND_RULE_COUNT, 0, 0, 3,
         2);
    TOLD_OF(ND_LIST_INDEX, nd_index_reason(LIST(two_three), LIST(four), &reason), ND_OUT_OF_BOUNDS, ND_RULE_COUNT, 0, 0, 1,
         2);
    TOLD(nd_index_reason(LIST(three_axes), LIST(last), &reason), ND_OK, ND_RULE_NONE, 0, 0, 0, 0);
    TOLD(nd_index_reason(none, 0, none, 0, &reason), ND_OK, ND_RULE_NONE, 0, 0, 0, 0);
}

static void test_broadcasts(void) {
    const size_t one_four[2] = {1, 4}, two_four[2] = {2, 4}, wide[3] = {2, 5, 3}, wider[3] = {2, 5, 4}, tall[3] = {4, 2, 5};
    const size_t three_one[2] = {3, 1}, no_rows[2] = {0, 1}, huge[2] = {PTRDIFF_MAX, 2}, both[3] = {3, 7, 4}, seven[2] = {6, 7};
    TOLD(nd_co_broadcast_reason(LIST(tall), LIST(three_one), &reason), ND_INCOMPATIBLE_SHAPE, ND_RULE_COMMON, 1, 0, 2, 3);
    TOLD(nd_co_broadcast_reason(LIST(three_one), LIST(tall), &reason), ND_INCOMPATIBLE_SHAPE, ND_RULE_COMMON, 1, 0, 3, 2);
    TOLD(nd_co_broadcast_reason(LIST(both), LIST(seven), &reason), ND_INCOMPATIBLE_SHAPE, ND_RULE_COMMON, 1, 0, 7, 6);
    TOLD(nd_co_broadcast_reason(LIST(two_four), LIST(no_rows), &reason), ND_INCOMPATIBLE_SHAPE, ND_RULE_COMMON, 0, 0, 2, 0);
    TOLD(nd_co_broadcast_reason(LIST(one_four), LIST(no_rows), &reason), ND_OK, ND_RULE_NONE, 0, 0, 0, 0);
    TOLD(nd_co_broadcast_reason(none, 0, LIST(wide), &reason), ND_OK, ND_RULE_NONE, 0, 0, 0, 0);
    TOLD(nd_broadcast_reason(LIST(one_four), LIST(wide), &reason), ND_INCOMPATIBLE_SHAPE, ND_RULE_STRETCH, 2, 0, 4, 3);
    TOLD(nd_broadcast_reason(LIST(two_four), LIST(one_four), &reason), ND_INCOMPATIBLE_SHAPE, ND_RULE_STRETCH, 0, 0, 2, 1);
    TOLD_OF(ND_LIST_TARGET, nd_broadcast_reason(LIST(one_four), LIST(four), &reason), ND_INCOMPATIBLE_SHAPE, ND_RULE_COUNT, 0,
         0, 1, 2);
    TOLD(nd_broadcast_reason(LIST(no_rows), LIST(three_one), &reason), ND_INCOMPATIBLE_SHAPE, ND_RULE_STRETCH, 0, 0, 0, 3);
    TOLD(nd_broadcast_reason(LIST(three), LIST(huge), &reason), ND_INCOMPATIBLE_SHAPE, ND_RULE_STRETCH, 1, 0, 3, 2);
    TOLD(nd_broadcast_reason(none, 0, LIST(huge), &reason), ND_OVERFLOW, ND_RULE_SIZE, 0, 0, 0, 0);
    TOLD(nd_broadcast_reason(LIST(one_four), LIST(wider), &reason), ND_OK, ND_RULE_NONE, 0, 0, 0, 0);
}

static void test_blocks(void) {
    const size_t fours[2] = {4, 4}, no_column[2] = {2, 0}, none_of_two[2] = {0, 0}, larger[2] = {5, 9}, all[1] = {SIZE_MAX};
    const size_t far[1] = {(size_t)1 << 33}, half[1] = {(size_t)1 << 32}, huge[2] = {PTRDIFF_MAX, 2}, small[2] = {1, 1};
    TOLD_OF(ND_LIST_WINDOW, nd_windows_reason(LIST(fours), LIST(no_column), &reason), ND_UNSUPPORTED, ND_RULE_EMPTY, 1, 0, 0,
         0);
    TOLD_OF(ND_LIST_CHUNK, nd_exact_chunks_reason(LIST(fours), LIST(no_column), &reason), ND_UNSUPPORTED, ND_RULE_EMPTY, 1, 0,
         0, 0);
    TOLD_OF(ND_LIST_CHUNK, nd_exact_chunks_reason(LIST(fours), LIST(none_of_two), &reason), ND_UNSUPPORTED, ND_RULE_EMPTY, 0, 0,
         0, 0);
    TOLD_OF(ND_LIST_WINDOW, nd_windows_reason(LIST(fours), none, 1, &reason), ND_INCOMPATIBLE_SHAPE, ND_RULE_COUNT, 0, 0, 1,
         2);
    TOLD_OF(ND_LIST_CHUNK, nd_exact_chunks_reason(LIST(fours), LIST(three_axes), &reason), ND_INCOMPATIBLE_SHAPE, ND_RULE_COUNT,
         0, 0, 3, 2);
    TOLD(nd_windows_reason(LIST(far), LIST(half), &reason), ND_OVERFLOW, ND_RULE_SIZE, 0, 0, 0, 0);
    TOLD(nd_exact_chunks_reason(LIST(far), LIST(half), &reason), ND_OK, ND_RULE_NONE, 0, 0, 0, 0);
    TOLD(nd_windows_reason(LIST(small), LIST(huge), &reason), ND_OVERFLOW, ND_RULE_SIZE, 0, 0, 0, 0);
    TOLD(nd_exact_chunks_reason(LIST(small), LIST(huge), &reason), ND_OVERFLOW, ND_RULE_SIZE, 0, 0, 0, 0);
    TOLD(nd_windows_reason(LIST(all), LIST(all), &reason), ND_OVERFLOW, ND_RULE_SIZE, 0, 0, 0, 0);
    TOLD(nd_windows_reason(LIST(fours), LIST(larger), &reason), ND_OK, ND_RULE_NONE, 0, 0, 0, 0);
    TOLD(nd_exact_chunks_reason(none, 0, none, 0, &reason), ND_OK, ND_RULE_NONE, 0, 0, 0, 0);
}

static void test_named_axes(void) {
    TOLD(nd_split_at_reason(LIST(two_three), 1, 4, &reason), ND_OUT_OF_BOUNDS, ND_RULE_SPLIT, 1, 0, 3, 4);
    TOLD(nd_split_at_reason(LIST(two_three), 0, SIZE_MAX, &reason), ND_OUT_OF_BOUNDS, ND_RULE_SPLIT, 0, 0, 2, SIZE_MAX);
    TOLD(nd_split_at_reason(LIST(two_three), 2, 4, &reason), ND_OUT_OF_BOUNDS, ND_RULE_AXIS, 2, 0, 2, 0);
    TOLD(nd_split_at_reason(none, 0, SIZE_MAX, 0, &reason), ND_OUT_OF_BOUNDS, ND_RULE_AXIS, SIZE_MAX, 0, 0, 0);
    TOLD(nd_split_at_reason(LIST(two_three), 1, 3, &reason), ND_OK, ND_RULE_NONE, 0, 0, 0, 0);
    TOLD(nd_merge_axes_reason(LIST(two_three), 7, 5, &reason), ND_OUT_OF_BOUNDS, ND_RULE_AXIS, 7, 0, 2, 0);
    TOLD(nd_merge_axes_reason(LIST(two_three), 1, 2, &reason), ND_OUT_OF_BOUNDS, ND_RULE_AXIS, 2, 0, 2, 0);
    TOLD(nd_merge_axes_reason(LIST(two_three), 5, 5, &reason), ND_OUT_OF_BOUNDS, ND_RULE_AXIS, 5, 0, 2, 0);
    TOLD(nd_merge_axes_reason(LIST(two_three), 1, 1, &reason), ND_UNSUPPORTED, ND_RULE_SAME_AXIS, 1, 0, 0, 0);
    TOLD(nd_merge_axes_reason(LIST(two_three), 1, 0, &reason), ND_OK, ND_RULE_NONE, 0, 0, 0, 0);
}

/* The status of a reason is that of the call. */
static void test_statuses(void) {
    size_t start, len, shape[2], strides_and_lengths = 0;
    ptrdiff_t strides[2];
    for (shape[0] = 0; shape[0] < 4; shape[0]++)
        for (shape[1] = 0; shape[1] < 4; shape[1]++)
            for (strides[0] = -3; strides[0] < 4; strides[0]++)
                for (strides[1] = -3; strides[1] < 4; strides[1]++)
                    for (len = 0; len < 8; len++)
                        for (start = 0; start < 8; start++) {
                            strides_and_lengths++;
                            CHECK(nd_check_layout_reason(start, LIST(shape), LIST(strides), 1, len, ND_OWNED, &reason) == ND_OK
                                  && reason.status == nd_check_layout(start, LIST(shape), LIST(strides), 1, len, ND_OWNED)
                                  && (reason.rule == ND_RULE_NONE) == (reason.status == ND_OK));
                        }
    CHECK(strides_and_lengths == 50176);
}

int main(void) {
    test_slices();
    test_layout_start();
    test_check_layout();
    test_reshapes();
    test_axes();
    test_indices();
    test_broadcasts();
    test_blocks();
    test_named_axes();
    test_statuses();
    printf("%d checked, %d failed\n", checked, failed);
    return failed != 0;
}
