/*
 * Calls from C over one layout that was accepted before, each in a loop: the name of a row, a tab, and nanoseconds, the least
 * of many rounds. doors.py prints the same names.
 */
#define _POSIX_C_SOURCE 199309L
#include "ndarray_layout.h"

#include <stdio.h>
#include <stdlib.h>
#include <time.h>

enum { SIDE = 1000, MANY = 100000, ROUNDS = 20 };
#define ROUND_NS 5e6

static const size_t SHAPE[2] = {SIDE, SIDE};
static const ptrdiff_t STRIDES[2] = {SIDE, 1};
static const nd_slice_elem WHOLE = {ND_SLICE, 0, 0, 0, 1}, ODD = {ND_SLICE, 0, 1, 0, 2}, THIRD = {ND_INDEX, 0, 3, 0, 0};

static nd_layout layout;
static nd_slice_elem *elems;        /* of MANY slices: each takes one row, the first the first */
static size_t *counts;              /* of the elements of each */
static size_t starts[SIDE], sum;    /* (what is read of all results) */

static void must(int32_t status) {
    if (status != ND_OK) {
        fprintf(stderr, "doors: %s\n", nd_status_message(status));
        exit(1);
    }
}

static void accept(size_t count) {
    const nd_data data = {1, SIDE * SIDE};
    (void)count;
    must(nd_layout_from_strides(SHAPE, 2, STRIDES, 2, data, ND_OWNED, &layout));
    sum += layout.start;
}

static void place(size_t count) {
    const size_t index[2] = {count, 7};
    size_t found = 0;
    must(nd_layout_place(&layout, index, 2, &found));
    sum += found;
}

static void slice(size_t count) {
    const nd_slice_elem both[2] = {ODD, THIRD};
    nd_layout made;
    (void)count;
    must(nd_layout_slice(&layout, both, 2, ND_CLAMPED, &made));
    sum += made.start;
}

static void intersect(size_t count) {
    const nd_slice_elem odd[2] = {ODD, THIRD}, even[2] = {{ND_SLICE, 0, 0, 0, 2}, WHOLE};
    int32_t answer = 0;
    (void)count;
    must(nd_slices_intersect(layout.shape, layout.axes, odd, 2, even, 2, ND_CLAMPED, &answer));
    sum += (size_t)answer;
}

static void rows(size_t count) {
    ptrdiff_t stride = 0;
    size_t length = 0;
    must(nd_rows(layout.start, layout.shape, layout.axes, layout.strides, layout.axes, ND_ROW_MAJOR, starts, count, &stride,
                 &length));
    sum += starts[count - 1] + length;
}

static void first_intersection(size_t count) {
    const size_t shape[2] = {count, 8};
    size_t pair[2] = {0, 0};
    int32_t found = 0;
    must(nd_first_intersection(shape, 2, elems, 2 * count, counts, count, ND_CLAMPED, pair, 2, &found));
    sum += (size_t)found;
}

static double time_ns(void (*call)(size_t), size_t count, size_t calls) {
    struct timespec begun, ended;
    clock_gettime(CLOCK_MONOTONIC, &begun);
    while (calls-- > 0) call(count);
    clock_gettime(CLOCK_MONOTONIC, &ended);
    return (double)(ended.tv_sec - begun.tv_sec) * 1e9 + (double)(ended.tv_nsec - begun.tv_nsec);
}

/* Prints the nanoseconds of a call, by how many parts it has. */
static void print_row(const char *name, void (*call)(size_t), size_t count, size_t parts) {
    const size_t calls = 1 + (size_t)(ROUND_NS / (1 + time_ns(call, count, 1)));
    double least = time_ns(call, count, calls);
    int round;
    for (round = 1; round < ROUNDS; round++) {
        const double ns = time_ns(call, count, calls);
        if (ns < least) least = ns;
    }
    printf("%s\t%g\n", name, least / (double)calls / (double)parts);
}

int main(void) {
    size_t at;
    elems = malloc(2 * MANY * sizeof *elems);
    counts = malloc(MANY * sizeof *counts);
    if (elems == NULL || counts == NULL) return 1;
    for (at = 0; at < MANY; at++) {
        const nd_slice_elem row = {ND_INDEX, 0, (ptrdiff_t)at, 0, 0};
        elems[2 * at] = row;
        elems[2 * at + 1] = WHOLE;
        counts[at] = 2;
    }
    print_row("a layout, accepted", accept, 0, 1);
    print_row("place", place, 5, 1);
    print_row("slice", slice, 0, 1);
    print_row("intersect", intersect, 0, 1);
    print_row("rows of 1000x1000, a row", rows, SIDE, SIDE);
    print_row("first_intersection of 10, a slice", first_intersection, 10, 10);
    print_row("first_intersection of 1,000, a slice", first_intersection, 1000, 1000);
    print_row("first_intersection of 100,000, a slice", first_intersection, MANY, MANY);
    return sum == 0;
}
