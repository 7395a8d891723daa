/*
 * What DLPack lays down of a tensor in memory, and tensors as views and back. The declarations have the fields and the order of
 * DLPack's C interface, of version 1; a program that has its own header includes that one first, and defines HAS_DLPACK.
 */
#ifndef ND_DLPACK_H
#define ND_DLPACK_H

#include "ndarray_layout.h"

#ifndef HAS_DLPACK
enum { kDLCPU = 1 };
enum { kDLInt = 0, kDLUInt = 1, kDLFloat = 2 };

typedef struct DLDevice {
    int32_t device_type;
    int32_t device_id;
} DLDevice;

typedef struct DLDataType {
    uint8_t code;
    uint8_t bits;
    uint16_t lanes;
} DLDataType;

typedef struct DLTensor {
    void *data;
    DLDevice device;
    int32_t ndim;
    DLDataType dtype;
    int64_t *shape;
    int64_t *strides; /* in elements; null where the tensor is row-major without gaps */
    uint64_t byte_offset;
} DLTensor;

/* What one program hands to another, which calls the deleter once it has read all. */
typedef struct DLManagedTensor {
    DLTensor dl_tensor;
    void *manager_ctx;
    void (*deleter)(struct DLManagedTensor *self);
} DLManagedTensor;

typedef struct DLPackVersion {
    uint32_t major;
    uint32_t minor;
} DLPackVersion;

/* The same, with its version first, and flags. */
typedef struct DLManagedTensorVersioned {
    DLPackVersion version;
    void *manager_ctx;
    void (*deleter)(struct DLManagedTensorVersioned *self);
    uint64_t flags;
    DLTensor dl_tensor;
} DLManagedTensorVersioned;

#define DLPACK_FLAG_BITMASK_READ_ONLY 1UL
#endif

/* A view of a tensor, and its lowest element, which has place 0: DLPack doesn't say how far the memory reaches. */
typedef struct nd_tensor {
    nd_view view;
    unsigned char *lowest;
} nd_tensor;

/* (of this header alone) The shape and the strides of a tensor; whether they fit. */
ND_CHECKED((1, 2)) int nd_put_tensor(const DLTensor *tensor, nd_layout *layout) {
    int32_t axis;
    if (tensor->ndim < 0 || tensor->ndim > ND_MAX_AXES) return 0;
    if (tensor->ndim > 0 && tensor->shape == NULL) return 0;
    layout->axes = (size_t)tensor->ndim;
    for (axis = 0; axis < tensor->ndim; axis++) {
        if (tensor->shape[axis] < 0 || tensor->shape[axis] > PTRDIFF_MAX) return 0;
        layout->shape[axis] = (size_t)tensor->shape[axis];
        if (tensor->strides == NULL) continue;
        if (tensor->strides[axis] < PTRDIFF_MIN || tensor->strides[axis] > PTRDIFF_MAX) return 0;
        layout->strides[axis] = (ptrdiff_t)tensor->strides[axis];
    }
    return 1;
}

/* (of this header alone) How many elements an accepted layout reaches. Without an index none, and it starts at 0. */
ND_INLINE void nd_take_reach(nd_layout *layout, size_t *len) {
    const int has_index = nd_layout_size(layout) > 0;
    *len = has_index ? layout->start + 1 : 0;
    if (!has_index) layout->start = 0;
    for (size_t axis = 0; axis < layout->axes; axis++) {
        if (!has_index) layout->strides[axis] = 0;
        else if (layout->strides[axis] > 0) *len += (layout->shape[axis] - 1) * (size_t)layout->strides[axis];
    }
}

/*
 * (of this header alone) The lowest of the `nbytes` bytes of elements, of which the first element has `below` bytes below it.
 * NumPy lends the first element's pointer without an offset, so that the lowest one may be less than `data`. All is compared
 * before it is added or subtracted: a pointer to no byte of the elements isn't made.
 */
ND_CHECKED((1, 4)) int32_t nd_put_lowest(const DLTensor *tensor, size_t below, size_t nbytes, unsigned char **lowest) {
    unsigned char *const data = tensor->data;
    const uint64_t address = (uintptr_t)data, offset = tensor->byte_offset;
    const uint64_t up = offset > below ? offset - below : 0, down = offset < below ? below - offset : 0;
    *lowest = data;
    if (nbytes == 0) return ND_OK;
    if (data == NULL) return ND_BAD_ARGUMENT;
    if (down >= address || up > UINTPTR_MAX - address || nbytes > UINTPTR_MAX - (address + up - down)) return ND_OUT_OF_BOUNDS;
    *lowest = down > 0 ? data - down : data + up;
    return ND_OK;
}

/*
 * Makes a view of a tensor in the memory of this machine, of elements of whole bytes. ND_BAD_ARGUMENT: of another device, of
 * elements that aren't whole bytes, of too many axes, of a number below 0, or null where numbers or elements are read; the
 * statuses of nd_layout_start; ND_OUT_OF_BOUNDS where an element would lie outside all memory.
 */
ND_CHECKED((1, 3)) int32_t nd_tensor_from_dlpack(const DLTensor *tensor, int32_t mode, nd_tensor *made) {
    const size_t bits = (size_t)tensor->dtype.bits * tensor->dtype.lanes;
    nd_data data;
    nd_layout layout;
    unsigned char *lowest;
    int32_t status;
    if (tensor->device.device_type != kDLCPU || bits == 0 || bits % 8 != 0) return ND_BAD_ARGUMENT;
    if (!nd_put_tensor(tensor, &layout)) return ND_BAD_ARGUMENT;
    data.elem_size = bits / 8;
    data.len = PTRDIFF_MAX / data.elem_size; /* (as much as there may be; what the tensor reaches is found below) */
    status = tensor->strides == NULL ? nd_default_strides(layout.shape, layout.axes, layout.strides, layout.axes) : ND_OK;
    if (status == ND_OK)
        status = nd_layout_from_strides(layout.shape, layout.axes, layout.strides, layout.axes, data, mode, &layout);
    if (status != ND_OK) return status;
    nd_take_reach(&layout, &data.len);
    status = nd_put_lowest(tensor, layout.start * data.elem_size, data.len * data.elem_size, &lowest);
    if (status == ND_OK) status = nd_view_of(&layout, data, mode, &made->view);
    if (status == ND_OK) made->lowest = lowest;
    return status;
}

/*
 * nd_tensor_from_dlpack of a managed tensor, whose deleter stays the caller's to call, also after an error. ND_UNSUPPORTED first: of
 * another version than 1, in which fields may lie elsewhere, or owned where the flags say that it is only to be read. A
 * DLManagedTensor has no version and no flags: pass its `dl_tensor` to nd_tensor_from_dlpack, and write only what its maker lets
 * you write.
 */
ND_CHECKED((1, 3)) int32_t nd_tensor_from_managed(const DLManagedTensorVersioned *tensor, int32_t mode, nd_tensor *made) {
    if (tensor->version.major != 1) return ND_UNSUPPORTED;
    if (mode == ND_OWNED && (tensor->flags & DLPACK_FLAG_BITMASK_READ_ONLY) != 0) return ND_UNSUPPORTED;
    return nd_tensor_from_dlpack(&tensor->dl_tensor, mode, made);
}

/*
 * Writes a tensor of a view over a buffer. `shape` and `strides`: room for as many numbers as the view has axes, which the
 * tensor keeps. ND_BAD_ARGUMENT: elements of no bytes, or of other sizes than the view's; then the statuses of nd_view_check;
 * ND_INCOMPATIBLE_LAYOUT: over bytes, a stride that is no multiple of an element's bytes, as DLPack's strides are.
 */
ND_CHECKED((1, 2, 4, 5, 6)) int32_t nd_tensor_to_dlpack(const nd_view *view, void *buffer, DLDataType dtype, int64_t *shape,
                                                        int64_t *strides, DLTensor *tensor) {
    const DLDevice cpu = {kDLCPU, 0};
    const size_t bits = (size_t)dtype.bits * dtype.lanes, places = view->data.elem_places > 1 ? view->data.elem_places : 1;
    ptrdiff_t steps[ND_MAX_AXES];
    int32_t status = nd_view_check(view, ND_READ_ONLY);
    if (bits == 0 || bits % 8 != 0 || bits / 8 != view->data.place_size * places) return ND_BAD_ARGUMENT;
    if (status == ND_OK) status = nd_strides_from_bytes(view->layout.strides, view->layout.axes, places, steps);
    if (status != ND_OK) return status;
    for (size_t axis = 0; axis < view->layout.axes; axis++) {
        shape[axis] = (int64_t)view->layout.shape[axis];
        strides[axis] = (int64_t)steps[axis];
    }
    tensor->data = buffer;
    tensor->device = cpu;
    tensor->ndim = (int32_t)view->layout.axes;
    tensor->dtype = dtype;
    tensor->shape = shape;
    tensor->strides = strides;
    tensor->byte_offset = (uint64_t)view->layout.start * view->data.place_size;
    return ND_OK;
}

#endif
