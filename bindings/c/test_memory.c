/*
 * The calls of ndarray_layout.h where memory is refused: each is made with its first request refused, then its second, and so
 * on until it makes no more. Linked with -Wl,--wrap=malloc,--wrap=realloc.
 */
#include "ndarray_layout.h"

#include <stdio.h>
#include <string.h>

#define COUNT(list) (sizeof(list) / sizeof *(list))
/* A list and its count, as the calls take them. */
#define LIST(list) (list), COUNT(list)

static int checked, failed;

static void check(int holds, int line, const char *what) {
    checked++;
    if (holds) return;
    failed++;
    printf("test_memory.c:%d: %s\n", line, what);
}

#define CHECK(fact) check((fact), __LINE__, #fact)

/* How many requests were made, and the number of the one that is refused. */
static size_t requests, refused;

void *__real_malloc(size_t size);
void *__real_realloc(void *block, size_t size);
void *__wrap_malloc(size_t size);
void *__wrap_realloc(void *block, size_t size);

void *__wrap_malloc(size_t size) {
    return ++requests == refused ? NULL : __real_malloc(size);
}

void *__wrap_realloc(void *block, size_t size) {
    return ++requests == refused ? NULL : __real_realloc(block, size);
}

/* All that calls write: nothing else is compared. */
static struct {
    size_t number, starts[60], shape[12];
    ptrdiff_t stride, strides[12];
    int32_t answer;
    nd_layout layouts[2];
    nd_view view;
    nd_reason reason;
} written;

/* A call that makes so many requests, or none: after a refused one it returns ND_OUT_OF_MEMORY, and has written nothing. */
#define REQUESTS(expected, call) \
    do { \
        unsigned char before[sizeof written]; \
        int32_t status; \
        for (refused = 1;; refused++) { \
            memset(&written, 0x5a, sizeof written); \
            memcpy(before, &written, sizeof written); \
            requests = 0; \
            status = (call); \
            if (requests < refused) break; \
            CHECK(status == ND_OUT_OF_MEMORY && memcmp(before, &written, sizeof written) == 0); \
        } \
        CHECK(status == ND_OK && requests == (expected)); \
    } while (0)

static const size_t long_shape[6] = {2, 1, 3, 1, 2, 1}, long_index[6] = {1, 0, 2, 0, 1, 0}, long_axes[6] = {5, 4, 3, 2, 1, 0};
static const size_t ones[6] = {1, 1, 1, 1, 1, 1}, target[6] = {2, 4, 3, 1, 2, 1}, regrouped[6] = {2, 3, 1, 1, 2, 1};
static const ptrdiff_t long_strides[6] = {6, 9, 2, 9, 1, 9};
static const size_t shape[2] = {2, 3}, index_of_shape[2] = {1, 2}, axes[2] = {1, 0}, two[2] = {1, 1};
static const size_t third_target[3] = {4, 2, 3}, flat[1] = {6}, counts[2] = {2, 2}, long_counts[6] = {1, 1, 1, 1, 1, 1};
static const size_t square[4] = {2, 2, 1, 1};
static const ptrdiff_t strides[2] = {3, 1};
#define LAYOUT LIST(shape), LIST(strides)
#define LONG_LAYOUT LIST(long_shape), LIST(long_strides)

/* Six whole axes. */
static const nd_slice_elem elems[6] = {{ND_SLICE, 0, 0, 0, 1}, {ND_SLICE, 0, 0, 0, 1}, {ND_SLICE, 0, 0, 0, 1},
                                       {ND_SLICE, 0, 0, 0, 1}, {ND_SLICE, 0, 0, 0, 1}, {ND_SLICE, 0, 0, 0, 1}};

/* Lists of at most four items, of layouts of at most four axes, need no memory. */
static void test_short_lists(void) {
    REQUESTS(0, nd_check_layout(0, LAYOUT, 1, 6, ND_OWNED));
    REQUESTS(0, nd_default_strides(LIST(shape), written.strides, 2));
    REQUESTS(0, nd_fortran_strides(LIST(shape), written.strides, 2));
    REQUESTS(0, nd_is_contiguous(LAYOUT, &written.answer));
    REQUESTS(0, nd_is_layout_c(LAYOUT, &written.answer));
    REQUESTS(0, nd_is_layout_f(LAYOUT, &written.answer));
    REQUESTS(0, nd_place(0, LAYOUT, LIST(index_of_shape), &written.number));
    REQUESTS(0, nd_places(0, LAYOUT, ND_COLUMN_MAJOR, written.starts, 6));
    REQUESTS(0, nd_rows(0, LAYOUT, ND_COLUMN_MAJOR, written.starts, 3, &written.stride, &written.number));
    REQUESTS(0, nd_slice(0, LAYOUT, elems, 2, ND_STRICT, &written.number, written.shape, 2, written.strides, 2));
    REQUESTS(0, nd_slices_intersect(LIST(shape), elems, 2, elems, 2, ND_STRICT, &written.answer));
    REQUESTS(0, nd_first_intersection(LIST(shape), elems, 4, LIST(counts), ND_STRICT, written.starts, 2, &written.answer));
    REQUESTS(0, nd_picked(LIST(shape), elems, 2, ND_STRICT, &written.number));
    REQUESTS(0, nd_broadcast(LAYOUT, LIST(third_target), written.strides, 3));
    REQUESTS(0, nd_reshape(LAYOUT, LIST(flat), ND_ROW_MAJOR, written.strides, 1));
    REQUESTS(0, nd_permuted_axes(LAYOUT, LIST(axes), written.shape, 2, written.strides, 2));
    REQUESTS(0, nd_windows(LAYOUT, LIST(two), written.shape, 4, written.strides, 4));
    REQUESTS(0, nd_exact_chunks(LAYOUT, LIST(two), written.shape, 4, written.strides, 4));
    REQUESTS(0, nd_diag(LAYOUT, &written.number, &written.stride));
    REQUESTS(0, nd_stretch(0, LAYOUT, ND_ROW_MAJOR, &written.number, written.starts, &written.answer));
    REQUESTS(0, nd_split_at(0, LAYOUT, 1, 1, written.starts, 2, written.shape, 4, written.strides, 2));
    REQUESTS(0, nd_slice_reason(LIST(shape), elems, 2, ND_STRICT, &written.reason));
    REQUESTS(0, nd_layout_start_reason(LAYOUT, 1, 6, ND_OWNED, &written.reason));
    REQUESTS(0, nd_check_layout_reason(0, LAYOUT, 1, 6, ND_OWNED, &written.reason));
    REQUESTS(0, nd_reshape_reason(LAYOUT, LIST(flat), ND_ROW_MAJOR, &written.reason));
}

/* Calls that need none for longer lists either. */
static void test_no_memory(void) {
    char text[ND_TEXT_SIZE];
    int32_t minor, patch;
    size_t lens[6] = {2, 1, 3, 1, 2, 1};
    ptrdiff_t steps[6] = {6, 9, 2, 9, 1, 9};
    REQUESTS(0, nd_layout_start(LONG_LAYOUT, 1, 12, ND_OWNED, &written.number));
    REQUESTS(0, nd_has_overlap(LONG_LAYOUT, &written.answer));
    REQUESTS(0, nd_next_index(LIST(long_shape), memset(written.shape, 0, sizeof long_shape), 6, ND_ROW_MAJOR,
                              &written.answer));
    REQUESTS(0, nd_co_broadcast(LIST(long_shape), LIST(target), written.shape, 6));
    REQUESTS(0, nd_merge_axes(LIST(lens), LIST(steps), 0, 2, &written.answer));
    REQUESTS(0, nd_permuted_axes_reason(LIST(long_shape), LIST(long_axes), &written.reason));
    REQUESTS(0, nd_index_reason(LIST(long_shape), LIST(long_index), &written.reason));
    REQUESTS(0, nd_co_broadcast_reason(LIST(long_shape), LIST(target), &written.reason));
    REQUESTS(0, nd_broadcast_reason(LIST(long_shape), LIST(target), &written.reason));
    REQUESTS(0, nd_windows_reason(LIST(long_shape), LIST(ones), &written.reason));
    REQUESTS(0, nd_exact_chunks_reason(LIST(long_shape), LIST(ones), &written.reason));
    REQUESTS(0, nd_split_at_reason(LIST(long_shape), 2, 1, &written.reason));
    REQUESTS(0, nd_merge_axes_reason(LIST(long_shape), 0, 2, &written.reason));
    REQUESTS(0, nd_status_text(ND_OK, LIST(text), &written.number));
    REQUESTS(0, nd_version(&written.answer, &minor, &patch));
}

static void test_long_lists(void) {
    REQUESTS(2, nd_check_layout(0, LONG_LAYOUT, 1, 12, ND_OWNED));
    REQUESTS(2, nd_default_strides(LIST(long_shape), written.strides, 6));
    REQUESTS(2, nd_fortran_strides(LIST(long_shape), written.strides, 6));
    REQUESTS(2, nd_is_contiguous(LONG_LAYOUT, &written.answer));
    REQUESTS(2, nd_is_layout_c(LONG_LAYOUT, &written.answer));
    REQUESTS(2, nd_is_layout_f(LONG_LAYOUT, &written.answer));
    REQUESTS(3, nd_place(0, LONG_LAYOUT, LIST(long_index), &written.number));
    REQUESTS(2, nd_places(0, LONG_LAYOUT, ND_COLUMN_MAJOR, written.starts, 12));
    REQUESTS(2, nd_rows(0, LONG_LAYOUT, ND_COLUMN_MAJOR, written.starts, 6, &written.stride, &written.number));
    REQUESTS(5, nd_slice(0, LONG_LAYOUT, LIST(elems), ND_STRICT, &written.number, written.shape, 6, written.strides, 6));
    REQUESTS(4, nd_slices_intersect(LIST(long_shape), LIST(elems), LIST(elems), ND_STRICT, &written.answer));
    REQUESTS(3, nd_picked(LIST(long_shape), LIST(elems), ND_STRICT, &written.number));
    REQUESTS(5, nd_broadcast(LONG_LAYOUT, LIST(target), written.strides, 6));
    REQUESTS(5, nd_reshape(LONG_LAYOUT, LIST(regrouped), ND_ROW_MAJOR, written.strides, 6));
    REQUESTS(5, nd_permuted_axes(LONG_LAYOUT, LIST(long_axes), written.shape, 6, written.strides, 6));
    REQUESTS(5, nd_windows(LONG_LAYOUT, LIST(ones), written.shape, 12, written.strides, 12));
    REQUESTS(5, nd_exact_chunks(LONG_LAYOUT, LIST(ones), written.shape, 12, written.strides, 12));
    REQUESTS(2, nd_diag(LONG_LAYOUT, &written.number, &written.stride));
    REQUESTS(2, nd_stretch(0, LONG_LAYOUT, ND_ROW_MAJOR, &written.number, written.starts, &written.answer));
    REQUESTS(4, nd_split_at(0, LONG_LAYOUT, 2, 1, written.starts, 2, written.shape, 12, written.strides, 6));
    REQUESTS(1, nd_slice_reason(LIST(long_shape), LIST(elems), ND_STRICT, &written.reason));
    REQUESTS(1, nd_layout_start_reason(LONG_LAYOUT, 1, 12, ND_OWNED, &written.reason));
    REQUESTS(1, nd_check_layout_reason(0, LONG_LAYOUT, 1, 12, ND_OWNED, &written.reason));
    REQUESTS(5, nd_reshape_reason(LONG_LAYOUT, LIST(regrouped), ND_ROW_MAJOR, &written.reason));
}

/* After two requests for lists, those for a sort of the slices: where one of them is refused, the slices are compared without. */
static void test_sorted_slices(void) {
    int32_t status;
    for (refused = 1;; refused++) {
        memset(&written, 0x5a, sizeof written);
        requests = 0;
        status = nd_first_intersection(flat, 1, LIST(elems), LIST(long_counts), ND_STRICT, written.starts, 2, &written.answer);
        if (refused <= 2)
            CHECK(status == ND_OUT_OF_MEMORY && written.answer == 0x5a5a5a5a && requests == refused);
        else
            CHECK(status == ND_OK && written.answer == 1 && written.starts[0] < written.starts[1] && written.starts[1] < 6);
        if (requests < refused) break;
    }
    CHECK(requests == 7 && refused == 8);
}

/* Makes the iterator of a view; ND_BAD_ARGUMENT where it has a row after an error. */
static int32_t make_rows(int32_t (*make)(const nd_view *, int32_t, nd_row_iter *), const nd_view *view) {
    nd_row_iter rows;
    int32_t status;
    rows.left = 77;
    status = make(view, ND_ROW_MAJOR, &rows);
    return status == ND_OK || rows.left == 0 ? status : ND_BAD_ARGUMENT;
}

/* The header's own functions that make several calls. */
static void test_inline_functions(void) {
    static const nd_data data = {1, 12};
    static nd_view view;
    static nd_layout other;
    refused = 0;
    CHECK(nd_view_from_strides(LONG_LAYOUT, data, ND_OWNED, &view) == ND_OK);
    CHECK(nd_layout_from_shape(LIST(target), ND_ROW_MAJOR, &other) == ND_OK);
    REQUESTS(2, nd_view_of(&view.layout, data, ND_OWNED, &written.view));
    REQUESTS(0, nd_view_from_strides(LONG_LAYOUT, data, ND_OWNED, &written.view));
    REQUESTS(4, nd_view_from_shape(LIST(long_shape), ND_ROW_MAJOR, data, ND_OWNED, &written.view));
    REQUESTS(2, nd_view_over_bytes(0, LONG_LAYOUT, 1, 12, ND_OWNED, &written.view));
    REQUESTS(2, nd_view_from_byte_strides(LONG_LAYOUT, 1, 12, ND_OWNED, &written.view));
    REQUESTS(0, nd_layout_join_axes(&view.layout, ND_ROW_MAJOR, &written.layouts[0]));
    REQUESTS(10, nd_layout_co_broadcast(&view.layout, &other, &written.layouts[0], &written.layouts[1]));
    REQUESTS(2, make_rows(nd_view_rows, &view));
    REQUESTS(2, make_rows(nd_view_joined_rows, &view));
    REQUESTS(1, nd_layout_check_reason(&view.layout, data, ND_OWNED, &written.reason));
    REQUESTS(2, nd_layout_slice_reason(&view.layout, LIST(elems), ND_STRICT, &written.reason));
    REQUESTS(1, nd_layout_permuted_axes_reason(&view.layout, LIST(long_axes), &written.reason));
    REQUESTS(5, nd_layout_reshape_reason(&view.layout, LIST(regrouped), ND_ROW_MAJOR, &written.reason));
    REQUESTS(1, nd_layout_broadcast_reason(&view.layout, LIST(target), &written.reason));
    REQUESTS(1, nd_layout_windows_reason(&view.layout, LIST(ones), &written.reason));
    REQUESTS(1, nd_layout_exact_chunks_reason(&view.layout, LIST(ones), &written.reason));
    REQUESTS(1, nd_layout_split_at_reason(&view.layout, 2, 1, &written.reason));
    REQUESTS(1, nd_layout_merge_axes_reason(&view.layout, 0, 2, &written.reason));
    REQUESTS(1, nd_view_over_bytes_reason(0, LONG_LAYOUT, 1, 12, ND_OWNED, &written.reason));
}

/* The calls for one view: over bytes they have an axis more. */
static void test_views(void) {
    static const nd_data data = {2, 4};
    static const ptrdiff_t byte_strides[4] = {4, 2, 2, 2};
    static nd_view few, many, elements;
    refused = 0;
    CHECK(nd_view_from_shape(square, 4, ND_ROW_MAJOR, data, ND_OWNED, &elements) == ND_OK);
    CHECK(nd_view_over_bytes(0, square, 3, byte_strides, 3, 2, 8, ND_OWNED, &few) == ND_OK);
    CHECK(nd_view_over_bytes(0, square, 4, byte_strides, 4, 2, 8, ND_OWNED, &many) == ND_OK);
    REQUESTS(0, nd_view_check(&elements, ND_OWNED));
    REQUESTS(0, nd_view_check(&few, ND_OWNED));
    REQUESTS(0, nd_view_check(&many, ND_READ_ONLY));
    REQUESTS(2, nd_view_check(&many, ND_OWNED));
    REQUESTS(0, nd_view_has_overlap(&many, &written.answer));
    REQUESTS(0, nd_view_is_contiguous(&elements, &written.answer));
    REQUESTS(0, nd_view_is_contiguous(&few, &written.answer));
    REQUESTS(2, nd_view_is_contiguous(&many, &written.answer));
    REQUESTS(0, nd_view_is_layout_c(&elements, &written.answer));
    REQUESTS(2, nd_view_is_layout_c(&many, &written.answer));
    REQUESTS(0, nd_view_is_layout_f(&elements, &written.answer));
    REQUESTS(2, nd_view_is_layout_f(&many, &written.answer));
    REQUESTS(0, nd_view_stretch(&elements, ND_ROW_MAJOR, &written.number, written.starts, &written.answer));
    REQUESTS(2, nd_view_stretch(&many, ND_ROW_MAJOR, &written.number, written.starts, &written.answer));
}

int main(void) {
    test_inline_functions();
    test_views();
    test_short_lists();
    test_no_memory();
    test_long_lists();
    test_sorted_slices();
    printf("%d checked, %d failed\n", checked, failed);
    return failed != 0;
}
