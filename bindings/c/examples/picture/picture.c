#include "picture.h"

#include <string.h>

/* ---- What is refused, as a sentence ---------------------------------------------------------------------------------- */

/* Says why a call refused: by the rule that its arguments break, or else by its status alone. */
static bool refuse(int32_t status, const nd_reason *reason, picture_error *why) {
    if (reason->status == status && reason->rule != ND_RULE_NONE)
        nd_reason_text(reason, why->text, sizeof why->text);
    else
        strcpy(why->text, nd_status_message(status));
    return false;
}

static bool refuse_shared(picture_error *why) {
    strcpy(why->text, "what is written shares a byte with what is read");
    return false;
}

/* ---- Pictures and parts ---------------------------------------------------------------------------------------------- */

bool picture_over(uint8_t *bytes, size_t size, const picture_header *header, picture *made, picture_error *why) {
    const nd_data data = {1, size};
    nd_reason reason = {0};
    nd_layout layout = {header->start, 3, {0}, {0}};
    memcpy(layout.shape, header->shape, sizeof header->shape);
    memcpy(layout.strides, header->strides, sizeof header->strides);
    const int32_t status = nd_view_of(&layout, data, ND_OWNED, &made->view);
    if (status == ND_OK) {
        made->bytes = bytes;
        return true;
    }
    if (nd_layout_check_reason(&layout, data, ND_OWNED, &reason) != ND_OK) reason.status = ND_OK;
    return refuse(status, &reason, why);
}

/* The slice of an axis from a coordinate on, so many; what is past the limit is past the end of any axis. */
static nd_slice_elem some_of(size_t first, size_t count) {
    const size_t most = (size_t)-1 / 2, from = first < most ? first : most, to = count < most - from ? from + count : most;
    return (nd_slice_elem)ND_RANGE((ptrdiff_t)from, (ptrdiff_t)to);
}

bool picture_crop(const picture *of, picture_part part, picture *made, picture_error *why) {
    const nd_slice_elem elems[3] = {some_of(part.top, part.rows), some_of(part.left, part.columns), ND_ALL};
    picture cropped = *of;
    nd_reason reason = {0};
    const int32_t status = nd_layout_slice(&of->view.layout, elems, 3, ND_STRICT, &cropped.view.layout);
    if (status == ND_OK) {
        *made = cropped;
        return true;
    }
    if (nd_layout_slice_reason(&of->view.layout, elems, 3, ND_STRICT, &reason) != ND_OK) reason.status = ND_OK;
    return refuse(status, &reason, why);
}

/* ---- Pictures in step ------------------------------------------------------------------------------------------------ */

enum { MOST = 3 };

/* The rows of several pictures in step. */
static bool begin(const picture *const *pictures, size_t count, nd_rows_iter *rows, picture_error *why) {
    nd_view views[MOST];
    nd_reason reason = {0};
    for (size_t at = 0; at < count; at++) views[at] = pictures[at]->view;
    const int32_t status = nd_views_joined_rows(views, count, ND_ROW_MAJOR, rows);
    if (status == ND_OK) return true;
    if (nd_views_reason(views, count, &reason) != ND_OK) reason.status = ND_OK;
    return refuse(status, &reason, why);
}

/* Whether a picture that is written shares a byte with one that is read, where both are over one buffer. */
static bool is_apart(const picture *to, const picture *from, picture_error *why) {
    const nd_reason none = {0};
    int32_t shares = 0;
    if (to->bytes != from->bytes) return true;
    const int32_t status = nd_views_share_element(&to->view, &from->view, &shares);
    if (status != ND_OK) return refuse(status, &none, why);
    return shares ? refuse_shared(why) : true;
}

/* The byte of a row at a position. */
static uint8_t *byte_of(const picture *of, const nd_row *row, size_t at) {
    return of->bytes + (row->start + at * (size_t)row->stride);
}

static void copy_row(const picture *to, const picture *from, const nd_row *each) {
    if (each[0].stride == 1 && each[1].stride == 1) {
        memcpy(to->bytes + each[0].start, from->bytes + each[1].start, each[0].len);
        return;
    }
    for (size_t at = 0; at < each[0].len; at++) *byte_of(to, &each[0], at) = *byte_of(from, &each[1], at);
}

bool picture_copy(const picture *to, const picture *from, picture_error *why) {
    const picture *const both[2] = {to, from};
    nd_rows_iter rows;
    nd_row each[2];
    if (!begin(both, 2, &rows, why) || !is_apart(to, from, why)) return false;
    while (nd_next_rows(&rows, each)) copy_row(to, from, each);
    return true;
}

static void blend_row(const picture *const *all, const nd_row *each) {
    for (size_t at = 0; at < each[0].len; at++) {
        uint8_t *const under = byte_of(all[0], &each[0], at);
        const unsigned over = *byte_of(all[1], &each[1], at), part = *byte_of(all[2], &each[2], at);
        *under = (uint8_t)((over * part + *under * (255 - part) + 127) / 255);
    }
}

bool picture_blend(const picture *to, const picture *from, const picture *alpha, picture_error *why) {
    const picture *const all[3] = {to, from, alpha};
    nd_rows_iter rows;
    nd_row each[3];
    if (!begin(all, 3, &rows, why) || !is_apart(to, from, why) || !is_apart(to, alpha, why)) return false;
    while (nd_next_rows(&rows, each)) blend_row(all, each);
    return true;
}

bool picture_compare(const picture *one, const picture *other, size_t *different, picture_error *why) {
    const picture *const both[2] = {one, other};
    nd_rows_iter rows;
    nd_row each[2];
    size_t count = 0;
    if (!begin(both, 2, &rows, why)) return false;
    while (nd_next_rows(&rows, each))
        for (size_t at = 0; at < each[0].len; at++) count += *byte_of(one, &each[0], at) != *byte_of(other, &each[1], at);
    *different = count;
    return true;
}

bool picture_paste(const picture *to, const picture *from, size_t top, size_t left, picture_error *why) {
    const picture_part part = {top, left, from->view.layout.shape[0], from->view.layout.shape[1]};
    picture under;
    return picture_crop(to, part, &under, why) && picture_copy(&under, from, why);
}
