/*
 * What C says of calls that it reads, one in each line: the rule that is broken, its list and its unit, and the sentence of
 * nd_reason_text. python/texts_alike.py writes the calls, and compares what is said with what C++ and Python say.
 *
 * A call is its name, a mode, an order or a fit, a start, a shape, strides, two numbers, a list, and the elements of a slice. Each
 * list is its numbers with a comma after each, or `-`. The elements are a list of five fields for each.
 */
#include "ndarray_layout.h"

#include <stdio.h>
#include <stdlib.h>
#include <string.h>

enum { MOST = 8, FIELD = 400 };

typedef struct call {
    nd_layout layout;
    size_t strides_len, one, other, list_len, elems_len, list[MOST];
    int32_t choice;
    nd_slice_elem elems[MOST];
} call;

static size_t read_sizes(const char *text, size_t *list) {
    size_t count = 0;
    char *end;
    for (; *text != '-' && *text != 0; text = end + 1) list[count++] = (size_t)strtoull(text, &end, 10);
    return count;
}

static size_t read_strides(const char *text, ptrdiff_t *strides) {
    size_t count = 0;
    char *end;
    if (strcmp(text, "-") == 0) return 0;
    for (; *text != 0; text = end + 1) strides[count++] = (ptrdiff_t)strtoll(text, &end, 10);
    return count;
}

static size_t read_elems(const char *text, nd_slice_elem *elems) {
    ptrdiff_t numbers[5 * MOST];
    const size_t count = read_strides(text, numbers);
    for (size_t at = 0; at < count; at += 5) {
        const ptrdiff_t *const of = numbers + at;
        const nd_slice_elem elem = {(int32_t)of[0], (int32_t)of[1], of[2], of[3], of[4]};
        elems[at / 5] = elem;
    }
    return count / 5;
}

static int32_t of_start(const call *of, nd_reason *reason) {
    const nd_data data = {of->one, of->other};
    return nd_view_from_strides_reason(of->layout.shape, of->layout.axes, of->layout.strides, of->strides_len, data, of->choice,
                                       reason);
}

static int32_t of_check(const call *of, nd_reason *reason) {
    return nd_check_layout_reason(of->layout.start, of->layout.shape, of->layout.axes, of->layout.strides, of->strides_len,
                                  of->one, of->other, of->choice, reason);
}

static int32_t of_bytes(const call *of, nd_reason *reason) {
    return nd_view_over_bytes_reason(of->layout.start, of->layout.shape, of->layout.axes, of->layout.strides, of->strides_len,
                                     of->one, of->other, of->choice, reason);
}

static int32_t of_slice(const call *of, nd_reason *reason) {
    return nd_layout_slice_reason(&of->layout, of->elems, of->elems_len, of->choice, reason);
}

static int32_t of_permuted_axes(const call *of, nd_reason *reason) {
    return nd_layout_permuted_axes_reason(&of->layout, of->list, of->list_len, reason);
}

static int32_t of_reshape(const call *of, nd_reason *reason) {
    return nd_layout_reshape_reason(&of->layout, of->list, of->list_len, of->choice, reason);
}

static int32_t of_broadcast(const call *of, nd_reason *reason) {
    return nd_layout_broadcast_reason(&of->layout, of->list, of->list_len, reason);
}

static int32_t of_windows(const call *of, nd_reason *reason) {
    return nd_layout_windows_reason(&of->layout, of->list, of->list_len, reason);
}

static int32_t of_exact_chunks(const call *of, nd_reason *reason) {
    return nd_layout_exact_chunks_reason(&of->layout, of->list, of->list_len, reason);
}

static int32_t of_split_at(const call *of, nd_reason *reason) {
    return nd_layout_split_at_reason(&of->layout, of->one, of->other, reason);
}

static int32_t of_merge_axes(const call *of, nd_reason *reason) {
    return nd_layout_merge_axes_reason(&of->layout, of->one, of->other, reason);
}

static int32_t of_next_index(const call *of, nd_reason *reason) {
    return nd_index_reason(of->layout.shape, of->layout.axes, of->list, of->list_len, reason);
}

static int32_t of_co_broadcast(const call *of, nd_reason *reason) {
    return nd_co_broadcast_reason(of->layout.shape, of->layout.axes, of->list, of->list_len, reason);
}

static const struct {
    const char *name;
    int32_t (*reason)(const call *of, nd_reason *reason);
} calls[] = {
    {"layout_start", of_start}, {"check_layout", of_check}, {"lay_over", of_bytes}, {"slice_view", of_slice},
    {"permuted_axes", of_permuted_axes}, {"reshape", of_reshape}, {"broadcast", of_broadcast}, {"windows", of_windows},
    {"exact_chunks", of_exact_chunks}, {"split_at", of_split_at}, {"merge_axes", of_merge_axes},
    {"next_index", of_next_index}, {"broadcast_shapes", of_co_broadcast},
};

static int say(const char *name, const call *of) {
    char text[300];
    nd_reason reason;
    for (size_t at = 0; at < sizeof calls / sizeof *calls; at++) {
        if (strcmp(calls[at].name, name) != 0) continue;
        if (calls[at].reason(of, &reason) != ND_OK || nd_reason_text(&reason, text, sizeof text) >= sizeof text) return 0;
        printf("%d %d %d\t%s\n", (int)reason.rule, (int)reason.list, (int)reason.unit, text);
        return 1;
    }
    return 0;
}

int main(void) {
    char name[32], shape[FIELD], strides[FIELD], list[FIELD], elems[FIELD];
    int choice;
    call of;
    while (scanf("%31s %d %zu %399s %399s %zu %zu %399s %399s", name, &choice, &of.layout.start, shape, strides, &of.one,
                 &of.other, list, elems) == 9) {
        of.choice = choice;
        of.layout.axes = read_sizes(shape, of.layout.shape);
        of.strides_len = read_strides(strides, of.layout.strides);
        of.list_len = read_sizes(list, of.list);
        of.elems_len = read_elems(elems, of.elems);
        if (!say(name, &of)) return EXIT_FAILURE;
    }
    return feof(stdin) ? EXIT_SUCCESS : EXIT_FAILURE;
}
