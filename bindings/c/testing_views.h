/* What the tests of views share: facts that are counted, and views at random. C89, C99, C++. */
#ifndef ND_TESTING_VIEWS_H
#define ND_TESTING_VIEWS_H

#include "testing_sizes.h"

#include <stdio.h>

#define COUNT(list) (sizeof(list) / sizeof *(list))
/* A list and its count, as the calls take them. */
#define LIST(list) (list), COUNT(list)

static int checked, failed;

ND_INLINE void check(int holds, const char *file, int line, const char *what) {
    checked++;
    if (holds) return;
    failed++;
    printf("%s:%d: %s\n", file, line, what);
}

#define CHECK(fact) check((fact), __FILE__, __LINE__, #fact)
/* A fact of many rounds, which counts where it fails. */
#define CHECK_QUIETLY(fact) \
    do { \
        if (!(fact)) check(0, __FILE__, __LINE__, #fact); \
    } while (0)

/* A number from 0 to before `bound`, by a fixed sequence. */
ND_INLINE size_t below(size_t bound) {
    static unsigned state = 1;
    state = state * 1664525u + 1013904223u;
    return (state >> 8) % bound;
}

/* A view of up to four axes over a buffer of `elem_size` bytes an element, where one is accepted. */
ND_INLINE int32_t random_view(nd_view *view, size_t elem_size, int32_t mode) {
    size_t shape[4], axes = below(5), axis, reach = 1;
    ptrdiff_t strides[4];
    nd_data data;
    for (axis = axes; axis-- > 0;) {
        shape[axis] = below(9) == 0 ? 0 : 1 + below(4);
        strides[axis] = (ptrdiff_t)(below(8) == 0 ? below(5) : reach) * (below(3) == 0 ? -1 : 1);
        reach *= shape[axis] > 0 ? shape[axis] + below(2) : 1;
    }
    data.elem_size = elem_size;
    data.len = below(3) == 0 ? reach : reach + below(9);
    return nd_view_from_strides(shape, axes, strides, axes, data, mode, view);
}

/* What nd_at has for as many coordinates as there are axes. */
ND_INLINE size_t at(const nd_view *view, const size_t *index) {
    switch (view->layout.axes) {
    case 1: return nd_at1(view, index[0]);
    case 2: return nd_at2(view, index[0], index[1]);
    case 3: return nd_at3(view, index[0], index[1], index[2]);
    case 4: return nd_at4(view, index[0], index[1], index[2], index[3]);
    default: return nd_at_n(view, index, view->layout.axes);
    }
}

/* Whether two answers, and their statuses, are the same. */
ND_INLINE int is_same(int32_t status, int32_t answer, int32_t expected_status, int32_t expected) {
    return status == expected_status && (status != ND_OK || answer == expected);
}

#endif
