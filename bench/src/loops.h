/*
 * What the loops in C and C++ share. Each prints rows: the name, a tab, and nanoseconds for an element of a loop over a view and of one by hand,
 * the least of rounds by turns, of which the first argument is the number. They are the processor's time, of which other programs take none.
 */
#ifndef LOOPS_H
#define LOOPS_H

#include "ndarray_layout.h"

#include <stdio.h>
#include <stdlib.h>
#include <time.h>

typedef size_t (*loop)(const nd_view *view, void *items);

static int rounds = 1;

static void read_rounds(int count, char **words) {
    if (count > 1) rounds = atoi(words[1]);
}

static void must(int32_t status) {
    if (status != ND_OK) {
        fprintf(stderr, "loops: %s\n", nd_status_message(status));
        exit(1);
    }
}

static double time_ns(loop volatile run, const nd_view *view, void *items, size_t expected) {
    struct timespec begun, ended;
    clock_gettime(CLOCK_PROCESS_CPUTIME_ID, &begun);
    if (run(view, items) != expected) must(ND_UNSUPPORTED);
    clock_gettime(CLOCK_PROCESS_CPUTIME_ID, &ended);
    return (double)(ended.tv_sec - begun.tv_sec) * 1e9 + (double)(ended.tv_nsec - begun.tv_nsec);
}

static void print_row(const char *name, const char *type, loop ours, loop by_hand, const nd_view *view, void *items) {
    const size_t expected = by_hand(view, items), elements = nd_layout_size(&view->layout);
    double least[2] = {1e18, 1e18};
    int round;
    for (round = 0; round < rounds; round++) {
        const double ns[2] = {time_ns(ours, view, items, expected), time_ns(by_hand, view, items, expected)};
        if (ns[0] < least[0]) least[0] = ns[0];
        if (ns[1] < least[1]) least[1] = ns[1];
    }
    printf("%s%s\t%g\t%g\n", name, type, least[0] / (double)elements, least[1] / (double)elements);
}

#endif
