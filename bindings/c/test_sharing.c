/* What ndarray_layout_sharing.h says of two views, beside the bytes of their elements, over random views: C89, C99, C++. */
#include "testing_views.h"

#include <string.h>

#define LIMIT ((size_t)-1 / 2)

enum { BYTES = 4096 };

/* Marks the bytes of a view's elements; or says whether one is marked. */
static int mark(const nd_view *view, unsigned char *bytes, int is_asked) {
    static size_t places[BYTES];
    const size_t count = nd_layout_size(&view->layout), size = view->data.place_size * view->data.elem_places;
    size_t at, byte;
    if (count > BYTES || nd_layout_places(&view->layout, ND_ROW_MAJOR, places, count) != ND_OK) return -1;
    for (at = 0; at < count; at++)
        for (byte = 0; byte < size; byte++) {
            unsigned char *const one = bytes + places[at] * view->data.place_size + byte;
            if (is_asked && *one) return 1;
            if (!is_asked) *one = 1;
        }
    return 0;
}

/* A view at random, of elements or over bytes, from a place near the lowest one. */
static int random_one(nd_view *view) {
    size_t shape[4], axes = below(5), axis, reach = 1, low = 0;
    const size_t size = 1 + below(4), most = BYTES / size;
    ptrdiff_t strides[4];
    for (axis = axes; axis-- > 0;) {
        const size_t far = below(4) == 0 ? below(9) : reach * (1 + below(3));
        shape[axis] = below(15) == 0 ? 0 : 1 + below(4);
        strides[axis] = (ptrdiff_t)far * (below(3) == 0 ? -1 : 1);
        if (strides[axis] < 0 && shape[axis] > 0) low += far * (shape[axis] - 1);
        reach = far * shape[axis] > 0 ? far * shape[axis] : 1;
    }
    if (below(2) == 0)
        return nd_view_over_bytes(low + below(40), shape, axes, strides, axes, size, BYTES, ND_READ_ONLY, view) == ND_OK;
    view->layout.start = low + below(40);
    view->layout.axes = axes;
    view->data.place_size = size;
    view->data.len = most;
    view->data.elem_places = 1;
    for (axis = 0; axis < axes; axis++) {
        view->layout.shape[axis] = shape[axis];
        view->layout.strides[axis] = strides[axis];
    }
    return nd_view_check(view, ND_READ_ONLY) == ND_OK;
}

static void test_beside_bytes(void) {
    static unsigned char bytes[BYTES];
    int round, apart = 0, shared = 0;
    for (round = 0; round < 60000; round++) {
        nd_view first, second;
        int32_t answer = 7, backwards = 7;
        int expected;
        if (!random_one(&first) || !random_one(&second)) continue;
        memset(bytes, 0, sizeof bytes);
        if (mark(&first, bytes, 0) != 0) continue;
        expected = mark(&second, bytes, 1);
        CHECK_QUIETLY(nd_views_share_element(&first, &second, &answer) == ND_OK && answer == (expected == 1));
        CHECK_QUIETLY(nd_views_share_element(&second, &first, &backwards) == ND_OK && backwards == answer);
        if (answer) shared++;
        if (!answer) apart++;
    }
    CHECK(apart > 5000 && shared > 5000);
}

/* Views of two axes over so many elements. */
static nd_view view_of(size_t start, size_t rows, size_t columns, ptrdiff_t down, ptrdiff_t right, size_t len) {
    nd_view view;
    const size_t shape[2] = {0, 0};
    const nd_data data = {1, 1};
    CHECK(nd_view_from_shape(LIST(shape), ND_ROW_MAJOR, data, ND_READ_ONLY, &view) == ND_OK);
    view.layout.start = start;
    view.layout.shape[0] = rows;
    view.layout.shape[1] = columns;
    view.layout.strides[0] = down;
    view.layout.strides[1] = right;
    view.data.len = len;
    return view;
}

/* Large ones: parts of a picture, of which some interleave, and such as no list could hold. */
static void test_large(void) {
    const size_t line = 7680, all = 7680 * 4320;
    const nd_view left = view_of(0, 4320, 3840, 7680, 1, all), right = view_of(3840, 4320, 3840, 7680, 1, all);
    const nd_view over = view_of(3839, 4320, 3840, 7680, 1, all), even = view_of(0, 2160, 3840, 2 * 7680, 2, all);
    const nd_view odd = view_of(1, 2160, 3840, 2 * 7680, 2, all), third = view_of(2, 1440, 2560, 3 * 7680, 3, all);
    const nd_view far = view_of(0, LIMIT / 4, 2, 4, 1, LIMIT), beside = view_of(2, LIMIT / 4, 2, 4, 1, LIMIT);
    const nd_view last = view_of(LIMIT - 2, 1, 1, 0, 0, LIMIT);
    int32_t answer = 7;
    CHECK(nd_views_share_element(&left, &right, &answer) == ND_OK && answer == 0);
    CHECK(nd_views_share_element(&left, &over, &answer) == ND_OK && answer == 1);
    CHECK(nd_views_share_element(&over, &right, &answer) == ND_OK && answer == 1);
    CHECK(nd_views_share_element(&even, &odd, &answer) == ND_OK && answer == 0);
    CHECK(nd_views_share_element(&odd, &third, &answer) == ND_OK && answer == 1);
    CHECK(nd_views_share_element(&even, &third, &answer) == ND_OK && answer == 1);
    CHECK(nd_views_share_element(&far, &beside, &answer) == ND_OK && answer == 0);
    CHECK(nd_views_share_element(&far, &last, &answer) == ND_OK && answer == 0);
    CHECK(nd_views_share_element(&beside, &last, &answer) == ND_OK && answer == 0);
    CHECK(line == 7680);
}

static void test_statuses(void) {
    nd_view first = view_of(0, 2, 3, 3, 1, 6), second = view_of(5, 1, 1, 0, 0, 6);
    int32_t answer = 7;
    CHECK(nd_views_share_element(&first, &second, &answer) == ND_OK && answer == 1);
    answer = 7;
    second.layout.start = 6;
    CHECK(nd_views_share_element(&first, &second, &answer) == ND_OUT_OF_BOUNDS && answer == 7);
    CHECK(nd_views_share_element(&second, &first, &answer) == ND_OUT_OF_BOUNDS && answer == 7);
    second.layout.axes = ND_MAX_AXES + 1;
    CHECK(nd_views_share_element(&first, &second, &answer) == ND_BAD_ARGUMENT && answer == 7);
    second = view_of(LIMIT / 4, 1, 1, 0, 0, LIMIT);
    second.data.place_size = 8;
    CHECK(nd_views_share_element(&first, &second, &answer) == ND_OVERFLOW && answer == 7);
    second = view_of(0, 1, 1, 0, 0, 6);
    second.data.place_size = 0;
    CHECK(nd_views_share_element(&first, &second, &answer) == ND_OK && answer == 0);
    first.layout.shape[1] = 0;
    answer = 7;
    CHECK(nd_views_share_element(&first, &second, &answer) == ND_OK && answer == 0);
}

/* Strides with no common divisor, of axes that are as long: what takes too many steps is said to. */
static void test_steps(void) {
    const size_t len = (size_t)1 << 60;
    const nd_view first = view_of(0, 40000000, 40000000, 100000007, 200000033, len);
    const nd_view second = view_of(3, 40000000, 40000000, 300000007, 400000009, len);
    int32_t answer = 7;
    const int32_t status = nd_views_share_element(&first, &second, &answer);
    CHECK((status == ND_UNSUPPORTED && answer == 7) || (status == ND_OK && answer == 1));
}

int main(void) {
    test_beside_bytes();
    test_large();
    test_statuses();
    test_steps();
    printf("%d checked, %d failed\n", checked, failed);
    return failed != 0;
}
