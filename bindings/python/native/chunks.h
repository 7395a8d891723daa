/* Whether two regions of an array have indices in one chunk of its store. */
#ifndef NATIVE_CHUNKS_H
#define NATIVE_CHUNKS_H

/* Makes of the indices that an element takes of an axis the numbers of their chunks. */
static int count_chunks(ptrdiff_t length, ptrdiff_t chunk, nd_slice_elem *elem) {
    const ptrdiff_t step = elem->step > 0 ? elem->step : -elem->step;
    ptrdiff_t first, past;
    if (elem->kind == ND_INDEX) {
        elem->start = (elem->start < 0 ? elem->start + length : elem->start) / chunk;
        return YES;
    }
    if (!elem->has_end) elem->end = length, elem->has_end = 1;
    if (elem->start >= elem->end || chunk == 1) return YES;
    if (step > chunk) return UNUSUAL;
    past = (elem->end - 1 - elem->start) / step * step; /* the first index, to the last */
    first = elem->step > 0 ? elem->start : elem->end - 1 - past;
    elem->start = first / chunk;
    elem->end = (first + past) / chunk + 1;
    elem->step = 1;
    return YES;
}

static int count_chunks_of_key(const List *shape, const List *chunks, Elems *elems) {
    size_t at, axis = 0;
    int said_of = YES;
    for (at = 0; at < elems->count && said_of == YES; at++) {
        if (elems->items[at].kind == ND_NEW_AXIS) continue;
        said_of = count_chunks((ptrdiff_t)shape->items[axis], (ptrdiff_t)chunks->items[axis], &elems->items[at]);
        axis++;
    }
    return said_of;
}

/* Whether two keys that share no index have indices in one chunk. */
static int keys_share_chunk(List *shape, const List *chunks, Elems *first, Elems *second) {
    int said_of = count_chunks_of_key(shape, chunks, first);
    size_t axis;
    if (said_of == YES) said_of = count_chunks_of_key(shape, chunks, second);
    if (said_of != YES) return said_of;
    for (axis = 0; axis < shape->count; axis++)
        shape->items[axis] = shape->items[axis] / chunks->items[axis] + (shape->items[axis] % chunks->items[axis] != 0);
    return keys_intersect(shape->items, shape->count, first, second);
}

/* share_chunk(shape, first, second, chunks): whether two usual keys have indices in one chunk. */
static PyObject *share_chunk(PyObject *self, PyObject *const *args, Py_ssize_t count) {
    LIST(shape);
    LIST(chunks);
    ELEMS(first);
    ELEMS(second);
    size_t axis;
    int said_of = UNUSUAL;
    (void)self;
    if (count != 4 || !PyTuple_CheckExact(args[0]) || !PyTuple_CheckExact(args[3])) Py_RETURN_NONE;
    if (read_usual(args[0], "length", 0, &shape) > 0 && read_usual(args[3], "chunk", 0, &chunks) > 0 && shape.count == chunks.count) {
        said_of = read_keys(args + 1, shape.items, shape.count, &first, &second);
        for (axis = 0; axis < chunks.count; axis++)
            if (chunks.items[axis] == 0 || chunks.items[axis] > PTRDIFF_MAX) said_of = UNUSUAL;
    }
    if (PyErr_Occurred()) said_of = unusual_or_failed();
    if (said_of == YES) said_of = keys_intersect(shape.items, shape.count, &first, &second); /* (which also refuses an index that is none) */
    return returned(said_of == NO ? keys_share_chunk(&shape, &chunks, &first, &second) : said_of);
}

#endif
