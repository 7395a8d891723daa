/* What ndarray_layout_reasons.h has: each reason beside the status of its call, and as a sentence: C89, C99, C++. */
#include "testing_views.h"

#include <string.h>

enum { ROUNDS = 100000, LIST_LEN = 6 };

/* Whether a reason has this text, of this length, in room of each size. */
static int reads(const nd_reason *reason, const char *text) {
    char room[200];
    const size_t len = strlen(text);
    size_t size;
    if (nd_reason_text(reason, NULL, 0) != len || len >= sizeof room) return 0;
    for (size = 1; size <= len + 2; size++) {
        const size_t kept = size <= len ? size - 1 : len;
        memset(room, '#', sizeof room);
        if (nd_reason_text(reason, room, size) != len || strlen(room) != kept || memcmp(room, text, kept) != 0) return 0;
        if (room[size] != '#') return 0;
    }
    return 1;
}

static nd_reason reason_of(int32_t rule, size_t axis, ptrdiff_t number, size_t size) {
    nd_reason reason;
    memset(&reason, 0, sizeof reason);
    reason.rule = rule;
    reason.axis = axis;
    reason.number = number;
    reason.size = size;
    return reason;
}

/* Whether a rule, of a list, has this text where its axis is 1, its number 2, its size 4 and the other one 6. */
static int says(int32_t rule, int32_t list, const char *text) {
    nd_reason reason = reason_of(rule, 1, 2, 4);
    reason.list = list;
    reason.other = 6;
    return reads(&reason, text);
}

/* Each rule has a text, with what its fields hold; and no other number has. */
static void test_texts(void) {
    int32_t rule, list;
    CHECK(says(ND_RULE_COUNT, ND_LIST_STRIDES, "the shape has 6 lengths and the strides have 4, one for each axis is needed"));
    CHECK(says(ND_RULE_COUNT, ND_LIST_SLICE, "the slice has 4 elements for 6 axes, and needs one for each"));
    CHECK(says(ND_RULE_COUNT, ND_LIST_INDEX, "4 coordinates for 6 axes"));
    CHECK(says(ND_RULE_COUNT, ND_LIST_AXES, "4 axes are listed of 6"));
    CHECK(says(ND_RULE_COUNT, ND_LIST_TARGET, "6 axes can't be broadcast to 4"));
    CHECK(says(ND_RULE_COUNT, ND_LIST_WINDOW, "a window has 4 lengths for 6 axes, and needs one for each"));
    CHECK(says(ND_RULE_COUNT, ND_LIST_CHUNK, "a chunk has 4 lengths for 6 axes, and needs one for each"));
    CHECK(says(ND_RULE_COUNT, ND_LIST_VIEW, "view 2 has 4 axes, and the first one 6"));
    CHECK(says(ND_RULE_COUNT, 0, "a list of another count than there are axes"));
    CHECK(says(ND_RULE_EMPTY, ND_LIST_WINDOW, "axis 1: the length of a window is 0, and has to be above 0"));
    CHECK(says(ND_RULE_EMPTY, ND_LIST_CHUNK, "axis 1: the length of a chunk is 0, and has to be above 0"));
    CHECK(says(ND_RULE_COORDINATE, 0, "axis 1: index 4 is out of bounds of length 6"));
    CHECK(says(ND_RULE_SPLIT, 0, "axis 1: index 6 is past length 4"));
    CHECK(says(ND_RULE_LOWEST, 0, "the lowest place, 4 before the start 6, is below 0 (in elements)"));
    CHECK(says(ND_RULE_COPY, 0, "axis 1: the new shape joins it to the axis read before it, whose stride isn't length 4 times "
                                "stride 2 (in elements)"));
    CHECK(says(ND_RULE_OTHER_LENGTH, 0, "axis 1: view 2 has length 4, and the first one 6"));
    CHECK(says(ND_RULE_ROOM, 0, "a layout would have 4 axes, and there is room for 32"));
    CHECK(says(ND_RULE_ROOM + 1, 0, "a number that is no rule"));
    for (rule = ND_RULE_NONE; rule <= ND_RULE_ROOM; rule++) CHECK(strstr(nd_rule_text(rule), "no rule") == NULL || rule == 0);
    for (list = ND_LIST_STRIDES; list <= ND_LIST_VIEW; list++) CHECK(nd_count_text(list) != nd_count_text(0));
}

/* Numbers that are far are written by the power of two that they are, or are next to. */
static void test_numbers(void) {
    const ptrdiff_t least = -(ptrdiff_t)((size_t)-1 / 2) - 1;
    nd_reason reason = reason_of(ND_RULE_INDEX, 2, 9, 5);
    CHECK(reads(&reason, "axis 2: index 9 is out of bounds of length 5"));
    reason = reason_of(ND_RULE_INDEX, (size_t)-1, least, (size_t)1 << 32);
    CHECK(reads(&reason, "axis 2**64 - 1: index -2**63 is out of bounds of length 2**32"));
    reason = reason_of(ND_RULE_INDEX, ((size_t)1 << 32) - 1, -(ptrdiff_t)((size_t)-1 / 2), ((size_t)1 << 33) - 2);
    CHECK(reads(&reason, "axis 4294967295: index -9223372036854775807 is out of bounds of length 8589934590"));
    reason = reason_of(ND_RULE_SPAN, 0, 0, 0);
    reason.unit = ND_BYTES;
    CHECK(reads(&reason, "the span is above the limit 2**63 - 1 (in bytes)"));
    reason = reason_of(ND_RULE_HIGHEST, 0, 0, 0);
    reason.other = (size_t)-1 / 2 + 1;
    CHECK(reads(&reason, "the highest place, 0 after the start 2**63, is above the limit 2**63 - 1 (in elements)"));
}

/* A list of up to five numbers, mostly small and seldom great. */
static size_t random_list(size_t *list, size_t bound) {
    const size_t count = below(LIST_LEN);
    size_t at;
    for (at = 0; at < count; at++) list[at] = below(60) == 0 ? (size_t)1 << (40 + below(24)) : below(bound);
    return count;
}

/* A layout at random, that mostly breaks no rule. */
static void random_layout(nd_layout *layout) {
    size_t axis, reach = 1;
    layout->axes = below(5);
    layout->start = below(12);
    for (axis = layout->axes; axis-- > 0;) {
        layout->shape[axis] = below(9) == 0 ? 0 : 1 + below(4);
        layout->strides[axis] = (ptrdiff_t)(below(8) == 0 ? below(5) : reach) * (below(6) == 0 ? -1 : 1);
        if (below(60) == 0) layout->strides[axis] = (ptrdiff_t)((size_t)1 << (55 + below(8)));
        reach *= layout->shape[axis] > 0 ? layout->shape[axis] : 1;
    }
    if (below(60) == 0) layout->start = (size_t)-1 / 2 - below(3);
    if (below(60) == 0) layout->axes = ND_MAX_AXES - 3 + below(6);
    for (axis = 5; axis < layout->axes && axis < ND_MAX_AXES; axis++) {
        layout->shape[axis] = 1;
        layout->strides[axis] = 1;
    }
}

/* Whether a call that writes a reason returned ND_OK and wrote the status of its call, or had the same bad argument. */
static int agrees(int32_t of_reason, const nd_reason *reason, int32_t of_call) {
    if (of_reason != ND_OK) return of_reason == ND_BAD_ARGUMENT && of_call == ND_BAD_ARGUMENT;
    return reason->status == of_call && (reason->rule == ND_RULE_NONE) == (of_call == ND_OK);
}

static int refused[ND_RULE_ROOM + 1];

#define CHECK_REASON(reason_call, call) \
    do { \
        const int32_t of_call = (call), of_reason = (reason_call); \
        CHECK_QUIETLY(agrees(of_reason, &reason, of_call)); \
        if (of_reason == ND_OK) refused[reason.rule]++; \
    } while (0)

/* The elements of a slice at random. */
static size_t random_elems(nd_slice_elem *elems) {
    const size_t count = below(LIST_LEN);
    size_t at;
    for (at = 0; at < count; at++) {
        elems[at].kind = (int32_t)below(below(30) == 0 ? 4 : 3);
        elems[at].has_end = (int32_t)below(2);
        elems[at].start = (ptrdiff_t)below(5) - 1;
        elems[at].end = (ptrdiff_t)below(6) - 1;
        elems[at].step = (ptrdiff_t)below(12) - 2;
    }
    return count;
}

static void check_layout_calls(const nd_layout *layout) {
    nd_layout made, second;
    nd_slice_elem elems[LIST_LEN];
    nd_reason reason = reason_of(0, 0, 0, 0);
    size_t list[LIST_LEN], few[2], count = random_list(list, 5);
    const int32_t choice = (int32_t)below(below(20) == 0 ? 3 : 2);
    const size_t elems_len = random_elems(elems);
    const nd_data data = {1, 40};
    int32_t merged;
    few[0] = below(5);
    few[1] = below(5);
    CHECK_REASON(nd_layout_check_reason(layout, data, choice, &reason), nd_layout_check(layout, data, choice));
    CHECK_REASON(nd_layout_slice_reason(layout, elems, elems_len, choice, &reason),
                 nd_layout_slice(layout, elems, elems_len, choice, &made));
    CHECK_REASON(nd_layout_permuted_axes_reason(layout, list, count, &reason), nd_layout_permuted_axes(layout, list, count, &made));
    CHECK_REASON(nd_layout_reshape_reason(layout, list, count, choice, &reason),
                 nd_layout_reshape(layout, list, count, choice, &made));
    CHECK_REASON(nd_layout_broadcast_reason(layout, list, count, &reason), nd_layout_broadcast(layout, list, count, &made));
    CHECK_REASON(nd_layout_windows_reason(layout, list, count, &reason), nd_layout_windows(layout, list, count, &made));
    CHECK_REASON(nd_layout_exact_chunks_reason(layout, list, count, &reason), nd_layout_exact_chunks(layout, list, count, &made));
    CHECK_REASON(nd_layout_split_at_reason(layout, few[0], few[1], &reason),
                 nd_layout_split_at(layout, few[0], few[1], &made, &second));
    CHECK_REASON(nd_layout_merge_axes_reason(layout, few[0], few[1], &reason),
                 nd_layout_merge_axes(layout, few[0], few[1], &merged, &made));
}

static void check_new_views(const nd_layout *layout) {
    nd_view view;
    nd_reason reason = reason_of(0, 0, 0, 0);
    const size_t strides_len = layout->axes <= ND_MAX_AXES && below(20) > 0 ? layout->axes : below(4), elem_size = below(5);
    const int32_t mode = (int32_t)below(below(20) == 0 ? 3 : 2);
    nd_data data;
    data.elem_size = below(20) == 0 ? (size_t)1 << 62 : 1 + below(4);
    data.len = below(60);
    CHECK_REASON(nd_view_from_strides_reason(layout->shape, layout->axes, layout->strides, strides_len, data, mode, &reason),
                 nd_view_from_strides(layout->shape, layout->axes, layout->strides, strides_len, data, mode, &view));
    CHECK_REASON(nd_view_over_bytes_reason(layout->start, layout->shape, layout->axes, layout->strides, strides_len, elem_size,
                                           data.len, mode, &reason),
                 nd_view_over_bytes(layout->start, layout->shape, layout->axes, layout->strides, strides_len, elem_size, data.len,
                                    mode, &view));
    if (reason.rule == ND_RULE_ALIAS) CHECK_QUIETLY(reason.axis < layout->axes);
}

static void test_beside_calls(void) {
    int round, rule, missing = 0;
    nd_layout layout;
    memset(&layout, 0, sizeof layout);
    for (round = 0; round < ROUNDS; round++) {
        random_layout(&layout);
        check_layout_calls(&layout);
        check_new_views(&layout);
    }
    for (rule = ND_RULE_NONE; rule <= ND_RULE_ROOM; rule++)
        if (refused[rule] < 20) missing += rule != ND_RULE_COORDINATE && rule != ND_RULE_COMMON && rule != ND_RULE_OTHER_LENGTH;
    CHECK(missing == 0);
}

int main(void) {
    test_texts();
    test_numbers();
    test_beside_calls();
    printf("%d checked, %d failed\n", checked, failed);
    return failed != 0;
}
