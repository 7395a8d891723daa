/*
 * Reads an array from a file of which nothing is trusted: the count of axes, the shape, the strides in bytes, the start, and how
 * long the file is. A file is a header of 64-bit numbers, then the elements, of 4 bytes each.
 */
#include "ndarray_layout.h"

#include <inttypes.h>
#include <stdio.h>
#include <stdlib.h>
#include <string.h>

enum { ELEM_SIZE = 4, MOST_AXES = 4, MOST_BYTES = 4096 };

typedef struct array {
    nd_view view;
    unsigned char bytes[MOST_BYTES];
} array;

/* Reads the header and the elements; ND_BAD_ARGUMENT where the file is too short for its header, or has too many axes. */
static int32_t read_array(FILE *file, array *made) {
    uint64_t axes, start, shape[MOST_AXES];
    int64_t strides[MOST_AXES];
    size_t lens[MOST_AXES], nbytes, axis;
    ptrdiff_t steps[MOST_AXES];
    if (fread(&axes, sizeof axes, 1, file) != 1 || axes > MOST_AXES) return ND_BAD_ARGUMENT;
    if (fread(&start, sizeof start, 1, file) != 1) return ND_BAD_ARGUMENT;
    if (fread(shape, sizeof *shape, axes, file) != axes || fread(strides, sizeof *strides, axes, file) != axes)
        return ND_BAD_ARGUMENT;
    nbytes = fread(made->bytes, 1, sizeof made->bytes, file);
    for (axis = 0; axis < axes; axis++) {
        lens[axis] = (size_t)shape[axis];
        steps[axis] = (ptrdiff_t)strides[axis];
    }
    return nd_view_over_bytes((size_t)start, lens, (size_t)axes, steps, (size_t)axes, ELEM_SIZE, nbytes, ND_READ_ONLY,
                              &made->view);
}

/* The sum of an array of two axes. An element's first byte may lie anywhere: it is copied. */
static uint64_t sum_of(const array *read) {
    uint64_t sum = 0;
    for (size_t row = 0; row < read->view.layout.shape[0]; row++) {
        for (size_t column = 0; column < read->view.layout.shape[1]; column++) {
            const size_t place = nd_at(&read->view, row, column);
            uint32_t element;
            if (place == ND_NO_PLACE) return 0;
            memcpy(&element, read->bytes + place, sizeof element);
            sum += element;
        }
    }
    return sum;
}

/* Writes a file of 2 axes and 6 elements, 1 to 6, and says what is read of it. */
static void try_file(const char *what, uint64_t axes, uint64_t start, uint64_t rows, int64_t down, int64_t right) {
    const uint64_t header[4] = {axes, start, rows, 3};
    const int64_t strides[2] = {down, right};
    const uint32_t elements[6] = {1, 2, 3, 4, 5, 6};
    FILE *file = tmpfile();
    array *read = malloc(sizeof *read);
    if (file == NULL || read == NULL) exit(EXIT_FAILURE);
    fwrite(header, sizeof header, 1, file);
    fwrite(strides, sizeof strides, 1, file);
    fwrite(elements, sizeof elements, 1, file);
    rewind(file);
    const int32_t status = read_array(file, read);
    if (status != ND_OK) printf("%s: %s\n", what, nd_status_message(status));
    else if (read->view.layout.axes != 2) printf("%s: %d axes\n", what, (int)read->view.layout.axes);
    else printf("%s: the sum is %" PRIu64 "\n", what, sum_of(read));
    free(read);
    fclose(file);
}

int main(void) {
    try_file("as it was written", 2, 0, 2, 12, 4);
    try_file("the last row first", 2, 12, 2, -12, 4);
    try_file("one row too many", 2, 0, 3, 12, 4);
    try_file("a start past the end", 2, 1 << 20, 2, 12, 4);
    try_file("a byte past the end", 2, 1, 2, 12, 4);
    try_file("a row before the start", 2, 11, 2, -12, 4);
    try_file("a shape whose product wraps", 2, 0, UINT64_MAX / 3 + 1, 12, 4);
    try_file("a stride whose span wraps", 2, 0, 2, INT64_MIN, 4);
    try_file("no row", 2, 0, 0, 12, 4);
    try_file("too many axes", UINT64_MAX, 0, 2, 12, 4);
    return EXIT_SUCCESS;
}
