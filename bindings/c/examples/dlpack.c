/* Tensors of DLPack as views, sliced, and given back, without a copy; and some that are refused. */
#include "dlpack.h"

#include <stdio.h>
#include <stdlib.h>

static const DLDataType float32 = {kDLFloat, 32, 1};

static void expect_ok(int32_t status) {
    if (status == ND_OK) return;
    fprintf(stderr, "%s\n", nd_status_message(status));
    exit(EXIT_FAILURE);
}

static void print_status(const char *what, int32_t status) {
    printf("%s: %s\n", what, nd_status_message(status));
}

/* Prints a tensor of two axes, or why it is none for a view. */
static void print_tensor(const char *what, const DLTensor *tensor) {
    nd_tensor read;
    const int32_t status = nd_tensor_from_dlpack(tensor, ND_READ_ONLY, &read);
    if (status != ND_OK) {
        print_status(what, status);
        return;
    }
    printf("%s: %d elements reached\n", what, (int)read.view.data.len);
    for (size_t row = 0; row < read.view.layout.shape[0]; row++) {
        for (size_t column = 0; column < read.view.layout.shape[1]; column++) {
            const size_t place = nd_at(&read.view, row, column);
            if (place != ND_NO_PLACE) printf("%3.0f", (double)((const float *)read.lowest)[place]);
        }
        putchar('\n');
    }
}

static int deleted;

static void note_deleted(DLManagedTensorVersioned *self) {
    self->dl_tensor.data = NULL;
    deleted++;
}

/* A tensor that another program lends, only to be read, and takes back. */
static void print_managed(const DLTensor *tensor) {
    DLManagedTensorVersioned lent = {{1, 0}, NULL, note_deleted, DLPACK_FLAG_BITMASK_READ_ONLY, *tensor};
    nd_tensor read;
    expect_ok(nd_tensor_from_managed(&lent, ND_READ_ONLY, &read));
    printf("lent, only to be read: %d elements reached\n", (int)read.view.data.len);
    print_status("to be written", nd_tensor_from_managed(&lent, ND_OWNED, &read));
    lent.flags = 0;
    expect_ok(nd_tensor_from_managed(&lent, ND_OWNED, &read));
    lent.version.major = 2;
    print_status("of another version", nd_tensor_from_managed(&lent, ND_READ_ONLY, &read));
    lent.deleter(&lent);
    printf("given back %d times\n", deleted);
}

int main(void) {
    const nd_slice_elem back[2] = {ND_FROM_BY(0, -1), ND_RANGE_BY(0, 4, 2)};
    const size_t lens[2] = {2, 3};
    const ptrdiff_t byte_strides[2] = {16, 4};
    float numbers[12];
    int64_t shape[2] = {3, 4}, new_shape[2], new_strides[2];
    DLTensor tensor = {numbers, {kDLCPU, 0}, 2, {kDLFloat, 32, 1}, shape, NULL, 0}, sliced;
    nd_tensor read;
    int32_t status;

    for (int at = 0; at < 12; at++) numbers[at] = (float)at;
    print_tensor("row-major", &tensor);
    print_managed(&tensor);
    expect_ok(nd_tensor_from_dlpack(&tensor, ND_OWNED, &read));
    expect_ok(nd_layout_slice(&read.view.layout, back, 2, ND_STRICT, &read.view.layout));
    expect_ok(nd_tensor_to_dlpack(&read.view, read.lowest, float32, new_shape, new_strides, &sliced));
    print_tensor("the last row first, each second column", &sliced);
    printf("strides %d and %d, from byte %d\n", (int)new_strides[0], (int)new_strides[1], (int)sliced.byte_offset);

    sliced.data = numbers + 8; /* (as NumPy lends it: the first element, and no offset to it) */
    sliced.byte_offset = 0;
    print_tensor("the same from its first element", &sliced);
    sliced.byte_offset = 4;
    print_tensor("and from the next", &sliced);
    sliced.byte_offset = UINT64_MAX;
    print_tensor("past all memory", &sliced);
    sliced.data = (void *)(uintptr_t)32; /* (of its elements the lowest would lie at null) */
    sliced.byte_offset = 0;
    print_tensor("below all memory", &sliced);
    sliced.data = (void *)(UINTPTR_MAX - 11); /* (from 32 bytes lower on 44 bytes) */
    print_tensor("up to past all memory", &sliced);
    sliced.data = NULL;
    print_tensor("no data", &sliced);
    sliced.data = numbers;
    sliced.byte_offset = 32;

    new_strides[0] = new_strides[1] = 0;
    print_tensor("one element, read as 3x2", &sliced);
    print_status("owned", nd_tensor_from_dlpack(&sliced, ND_OWNED, &read));
    new_shape[0] = 0;
    print_tensor("no element", &sliced);
    sliced.data = NULL;
    print_tensor("no element, and no data", &sliced);
    sliced.data = numbers;
    new_shape[0] = -1;
    print_tensor("a length below 0", &sliced);
    new_shape[0] = INT64_MAX;
    print_tensor("more than memory has", &sliced);
    new_shape[0] = 3;
    sliced.shape = NULL;
    print_tensor("no shape", &sliced);
    sliced.shape = new_shape;
    sliced.device.device_type = 2;
    print_tensor("another device", &sliced);

    expect_ok(nd_view_over_bytes(4, lens, 2, byte_strides, 2, sizeof(float), sizeof numbers, ND_READ_ONLY, &read.view));
    expect_ok(nd_tensor_to_dlpack(&read.view, numbers, float32, new_shape, new_strides, &sliced));
    print_tensor("by strides in bytes", &sliced);
    read.view.layout.strides[0] = 10;
    status = nd_tensor_to_dlpack(&read.view, numbers, float32, new_shape, new_strides, &sliced);
    print_status("a stride of two and a half elements", status);
    sliced.dtype.bits = 8;
    status = nd_tensor_to_dlpack(&read.view, numbers, sliced.dtype, new_shape, new_strides, &sliced);
    print_status("given back as bytes", status);
    sliced.dtype.bits = 36;
    status = nd_tensor_to_dlpack(&read.view, numbers, sliced.dtype, new_shape, new_strides, &sliced);
    print_status("given back as elements of four bytes and a half", status);
    return EXIT_SUCCESS;
}
