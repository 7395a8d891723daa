/*
 * Reasons of the library for C, whose cost growth.rs measures: each is asked for on a layout of so many axes, of which the first
 * and the last have length 2 and the others length 1, where it is found at the last axis.
 */
#include "ndarray_layout.h"

#include <stdlib.h>

static nd_reason reason;

static size_t *numbers(size_t count, size_t number) {
    size_t *const list = malloc(count * sizeof *list);
    size_t at;
    if (list == NULL) abort();
    for (at = 0; at < count; at++) list[at] = number;
    return list;
}

/* Why a layout isn't to be written: by the strides 2, 1, .., 1, 0 the first and the last axis alias. */
static int32_t of_start(const size_t *shape, const size_t *strides, size_t axes) {
    return nd_layout_start_reason(shape, axes, (const ptrdiff_t *)strides, axes, 1, 4, ND_OWNED, &reason);
}

/* Why it can't be read as one of a single axis: by the strides 7, 1, .., 1 it has a gap. */
static int32_t of_reshape(const size_t *shape, const size_t *strides, size_t axes) {
    const size_t along[1] = {axes > 1 ? 4 : 2};
    return nd_reshape_reason(shape, axes, (const ptrdiff_t *)strides, axes, along, 1, ND_ROW_MAJOR, &reason);
}

/* Which axis is missing of a list that has each but the last, and the first one twice. */
static int32_t of_permuted(const size_t *shape, const size_t *order, size_t axes) {
    return nd_permuted_axes_reason(shape, axes, order, axes, &reason);
}

size_t growth_reasons(size_t call, size_t axes, size_t passes);

/* Asks for one of the three so many times, and returns what the last reason is, or the greatest number where there is none. */
size_t growth_reasons(size_t call, size_t axes, size_t passes) {
    size_t *const shape = numbers(axes, 1), *const list = numbers(axes, 1);
    int32_t (*const asked)(const size_t *, const size_t *, size_t) = call == 0 ? of_start : call == 1 ? of_reshape : of_permuted;
    size_t at, failed = 0;
    shape[0] = shape[axes - 1] = 2;
    list[0] = call == 0 ? 2 : 7;
    if (call == 0) list[axes - 1] = 0;
    for (at = 0; call == 2 && at < axes; at++) list[at] = at % (axes > 1 ? axes - 1 : 1);
    for (at = 0; at < passes; at++) failed |= asked(shape, list, axes) != ND_OK;
    free(shape);
    free(list);
    return failed ? (size_t)-1 : passes ? reason.axis + 1 : 0;
}
