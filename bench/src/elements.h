/* (for loops.c) Loops over two axes of ITEM, whose names end as LOOP says. A loop that stops at a place that is none returns 1. */

/* By hand: nothing is compared; or each place, with the length of the buffer. */
static size_t LOOP(write_by_hand)(const nd_view *view, void *elements) {
    ITEM *const items = (ITEM *)elements;
    const size_t start = view->layout.start, rows = view->layout.shape[0], columns = view->layout.shape[1];
    const ptrdiff_t down = view->layout.strides[0], right = view->layout.strides[1];
    size_t row, column;
    for (row = 0; row < rows; row++) {
        for (column = 0; column < columns; column++) {
            const size_t place = start + row * (size_t)down + column * (size_t)right;
            items[place] = (ITEM)(row + column);
        }
    }
    return 0;
}

static size_t LOOP(read_by_hand)(const nd_view *view, void *elements) {
    ITEM *const items = (ITEM *)elements;
    const size_t start = view->layout.start, rows = view->layout.shape[0], columns = view->layout.shape[1];
    const ptrdiff_t down = view->layout.strides[0], right = view->layout.strides[1];
    size_t row, column, sum = 0;
    for (row = 0; row < rows; row++) {
        for (column = 0; column < columns; column++) {
            const size_t place = start + row * (size_t)down + column * (size_t)right;
            sum += items[place];
        }
    }
    return sum;
}

static size_t LOOP(write_checked_by_hand)(const nd_view *view, void *elements) {
    ITEM *const items = (ITEM *)elements;
    const size_t start = view->layout.start, rows = view->layout.shape[0], columns = view->layout.shape[1];
    const ptrdiff_t down = view->layout.strides[0], right = view->layout.strides[1];
    const size_t len = view->data.len;
    size_t row, column;
    for (row = 0; row < rows; row++) {
        for (column = 0; column < columns; column++) {
            const size_t place = start + row * (size_t)down + column * (size_t)right;
            if (place >= len) return 1;
            items[place] = (ITEM)(row + column);
        }
    }
    return 0;
}

static size_t LOOP(read_checked_by_hand)(const nd_view *view, void *elements) {
    ITEM *const items = (ITEM *)elements;
    const size_t start = view->layout.start, rows = view->layout.shape[0], columns = view->layout.shape[1];
    const ptrdiff_t down = view->layout.strides[0], right = view->layout.strides[1];
    const size_t len = view->data.len;
    size_t row, column, sum = 0;
    for (row = 0; row < rows; row++) {
        for (column = 0; column < columns; column++) {
            const size_t place = start + row * (size_t)down + column * (size_t)right;
            if (place >= len) return 1;
            sum += items[place];
        }
    }
    return sum;
}

/* By a cursor, which is a value, by a view that is copied, and by the view that another function has. */
static size_t LOOP(write_cursor)(const nd_view *view, void *elements) {
    ITEM *const items = (ITEM *)elements;
    nd_cursor2 at;
    size_t row, column;
    must(nd_view_cursor2(view, &at));
    for (row = 0; row < at.shape[0]; row++) {
        for (column = 0; column < at.shape[1]; column++) {
            const size_t place = nd_cursor_at(at, row, column);
            if (place == ND_NO_PLACE) return 1;
            items[place] = (ITEM)(row + column);
        }
    }
    return 0;
}

static size_t LOOP(read_cursor)(const nd_view *view, void *elements) {
    ITEM *const items = (ITEM *)elements;
    nd_cursor2 at;
    size_t row, column, sum = 0;
    must(nd_view_cursor2(view, &at));
    for (row = 0; row < at.shape[0]; row++) {
        for (column = 0; column < at.shape[1]; column++) {
            const size_t place = nd_cursor_at(at, row, column);
            if (place == ND_NO_PLACE) return 1;
            sum += items[place];
        }
    }
    return sum;
}

static size_t LOOP(write_copied)(const nd_view *view, void *elements) {
    ITEM *const items = (ITEM *)elements;
    const nd_view own = *view;
    size_t row, column;
    for (row = 0; row < own.layout.shape[0]; row++) {
        for (column = 0; column < own.layout.shape[1]; column++) {
            const size_t place = nd_at(&own, row, column);
            if (place == ND_NO_PLACE) return 1;
            items[place] = (ITEM)(row + column);
        }
    }
    return 0;
}

static size_t LOOP(write_by_pointer)(const nd_view *view, void *elements) {
    ITEM *const items = (ITEM *)elements;
    size_t row, column;
    for (row = 0; row < view->layout.shape[0]; row++) {
        for (column = 0; column < view->layout.shape[1]; column++) {
            const size_t place = nd_at(view, row, column);
            if (place == ND_NO_PLACE) return 1;
            items[place] = (ITEM)(row + column);
        }
    }
    return 0;
}

static size_t LOOP(read_by_pointer)(const nd_view *view, void *elements) {
    ITEM *const items = (ITEM *)elements;
    size_t row, column, sum = 0;
    for (row = 0; row < view->layout.shape[0]; row++) {
        for (column = 0; column < view->layout.shape[1]; column++) {
            const size_t place = nd_at(view, row, column);
            if (place == ND_NO_PLACE) return 1;
            sum += items[place];
        }
    }
    return sum;
}
