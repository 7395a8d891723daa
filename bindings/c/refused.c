/*
 * What compilers warn of in calls of the headers, never run: by the line, a result that nobody looks at (`unused`), and null
 * where a function of the headers takes none (`null`). The lines without a mark have neither: test_refused.
 */
#include "ndarray_layout.h"

void unused(void);
size_t nulls(void);
size_t none(void);

static const size_t sizes[2] = {1, 1};
static const ptrdiff_t strides[2] = {1, 1};
static const nd_slice_elem elems[2] = {ND_ALL, ND_ALL};
static const nd_data data = {1, 1};
static nd_layout layout, made;
static nd_view view, other;
static nd_lists lists;
static nd_row_iter rows;
static nd_row row;
static nd_rows_iter rows_of_all;
static nd_row each[2];
static nd_joined axis;
static nd_sums sums;
static nd_extent extent;
static nd_cursor1 first;
static nd_cursor2 second;
static nd_cursor3 third;
static nd_cursor4 fourth;
static nd_tiles2 tiles;
static nd_plane plane;
static const nd_view *const both[2] = {&view, &other};
static nd_reason reason;
static size_t room[4];
static ptrdiff_t steps[4];
static int32_t number;
static char text[ND_TEXT_SIZE];

void unused(void) {
    nd_layout_start(sizes, 2, strides, 2, 2, 2, 1, room); /* unused */
    nd_check_layout(2, sizes, 2, strides, 2, 2, 2, 1); /* unused */
    nd_has_overlap(sizes, 2, strides, 2, &number); /* unused */
    nd_default_strides(sizes, 2, steps, 2); /* unused */
    nd_fortran_strides(sizes, 2, steps, 2); /* unused */
    nd_is_contiguous(sizes, 2, strides, 2, &number); /* unused */
    nd_is_layout_c(sizes, 2, strides, 2, &number); /* unused */
    nd_is_layout_f(sizes, 2, strides, 2, &number); /* unused */
    nd_place(2, sizes, 2, strides, 2, sizes, 2, room); /* unused */
    nd_next_index(sizes, 2, room, 2, 1, &number); /* unused */
    nd_places(2, sizes, 2, strides, 2, 1, room, 2); /* unused */
    nd_rows(2, sizes, 2, strides, 2, 1, room, 2, steps, room); /* unused */
    nd_joined_in_all(sizes, 2, strides, 2, 1, steps, 1, room, room); /* unused */
    nd_slice(2, sizes, 2, strides, 2, elems, 2, 1, room, room, 2, steps, 2); /* unused */
    nd_slices_intersect(sizes, 2, elems, 2, elems, 2, 1, &number); /* unused */
    nd_first_intersection(sizes, 2, elems, 2, sizes, 2, 1, room, 2, &number); /* unused */
    nd_picked(sizes, 2, elems, 2, 1, room); /* unused */
    nd_co_broadcast(sizes, 2, sizes, 2, room, 2); /* unused */
    nd_broadcast(sizes, 2, strides, 2, sizes, 2, steps, 2); /* unused */
    nd_merge_axes(room, 2, steps, 2, 2, 2, &number); /* unused */
    nd_reshape(sizes, 2, strides, 2, sizes, 2, 1, steps, 2); /* unused */
    nd_permuted_axes(sizes, 2, strides, 2, sizes, 2, room, 2, steps, 2); /* unused */
    nd_windows(sizes, 2, strides, 2, sizes, 2, room, 2, steps, 2); /* unused */
    nd_exact_chunks(sizes, 2, strides, 2, sizes, 2, room, 2, steps, 2); /* unused */
    nd_split_at(2, sizes, 2, strides, 2, 2, 2, room, 2, room, 2, steps, 2); /* unused */
    nd_diag(sizes, 2, strides, 2, room, steps); /* unused */
    nd_stretch(2, sizes, 2, strides, 2, 1, room, room, &number); /* unused */
    nd_slice_reason(sizes, 2, elems, 2, 1, &reason); /* unused */
    nd_layout_start_reason(sizes, 2, strides, 2, 2, 2, 1, &reason); /* unused */
    nd_check_layout_reason(2, sizes, 2, strides, 2, 2, 2, 1, &reason); /* unused */
    nd_reshape_reason(sizes, 2, strides, 2, sizes, 2, 1, &reason); /* unused */
    nd_permuted_axes_reason(sizes, 2, sizes, 2, &reason); /* unused */
    nd_index_reason(sizes, 2, sizes, 2, &reason); /* unused */
    nd_co_broadcast_reason(sizes, 2, sizes, 2, &reason); /* unused */
    nd_broadcast_reason(sizes, 2, sizes, 2, &reason); /* unused */
    nd_windows_reason(sizes, 2, sizes, 2, &reason); /* unused */
    nd_exact_chunks_reason(sizes, 2, sizes, 2, &reason); /* unused */
    nd_split_at_reason(sizes, 2, 2, 2, &reason); /* unused */
    nd_merge_axes_reason(sizes, 2, 2, 2, &reason); /* unused */
    nd_status_text(1, text, 2, room); /* unused */
    nd_version(&number, &number, &number); /* unused */
    nd_put_shape(&made, sizes, 2); /* unused */
    nd_keep(1, &layout, &made); /* unused */
    nd_layout_from_shape(sizes, 2, 1, &made); /* unused */
    nd_layout_from_strides(sizes, 2, strides, 2, data, 1, &made); /* unused */
    nd_layout_check(&layout, data, 1); /* unused */
    nd_layout_place(&layout, sizes, 2, room); /* unused */
    nd_layout_places(&layout, 1, room, 2); /* unused */
    nd_layout_rows(&layout, 1, room, 2, steps, room); /* unused */
    nd_layout_next_index(&layout, room, 2, 1, &number); /* unused */
    nd_layout_size(&layout); /* unused */
    nd_layout_row_count(&layout, 1); /* unused */
    nd_layout_slice(&layout, elems, 2, 1, &made); /* unused */
    nd_layout_permuted_axes(&layout, sizes, 2, &made); /* unused */
    nd_layout_reshape(&layout, sizes, 2, 1, &made); /* unused */
    nd_layout_broadcast(&layout, sizes, 2, &made); /* unused */
    nd_layout_windows(&layout, sizes, 2, &made); /* unused */
    nd_layout_exact_chunks(&layout, sizes, 2, &made); /* unused */
    nd_layout_split_at(&layout, 2, 2, &made, &made); /* unused */
    nd_put_lists(&view, 1, &lists); /* unused */
    nd_view_check(&view, 1); /* unused */
    nd_view_of(&layout, data, 1, &other); /* unused */
    nd_view_from_shape(sizes, 2, 1, data, 1, &other); /* unused */
    nd_view_from_strides(sizes, 2, strides, 2, data, 1, &other); /* unused */
    nd_at_n(&view, sizes, 2); /* unused */
    nd_moved(&view, 2, 2); /* unused */
    nd_at1(&view, 2); /* unused */
    nd_at2(&view, 2, 2); /* unused */
    nd_at3(&view, 2, 2, 2); /* unused */
    nd_at4(&view, 2, 2, 2, 2); /* unused */
    nd_check_cursor(&view, 2); /* unused */
    nd_view_cursor1(&view, &first); /* unused */
    nd_view_cursor2(&view, &second); /* unused */
    nd_view_cursor3(&view, &third); /* unused */
    nd_view_cursor4(&view, &fourth); /* unused */
    nd_views_cursor2(&view, 1, &second); /* unused */
    nd_cursor_at1(first, 2); /* unused */
    nd_cursor_at2(second, 2, 2); /* unused */
    nd_cursor_at3(third, 2, 2, 2); /* unused */
    nd_cursor_at4(fourth, 2, 2, 2, 2); /* unused */
    nd_put_row(1, 2, 2, 1); /* unused */
    nd_cursor_row2(second, 2); /* unused */
    nd_cursor_row3(third, 2, 2); /* unused */
    nd_cursor_row4(fourth, 2, 2, 2); /* unused */
    nd_cursor2_crop(second, 2, 2, 2, 2); /* unused */
    nd_cursor2_tiles(second, 2, 2); /* unused */
    nd_next_tile2(&tiles, &second); /* unused */
    nd_view_has_overlap(&view, &number); /* unused */
    nd_view_is_contiguous(&view, &number); /* unused */
    nd_view_is_layout_c(&view, &number); /* unused */
    nd_view_is_layout_f(&view, &number); /* unused */
    nd_view_stretch(&view, 1, room, room, &number); /* unused */
    nd_layout_diag(&layout, &made); /* unused */
    nd_layout_merge_axes(&layout, 2, 2, &number, &made); /* unused */
    nd_layout_picked(&layout, elems, 2, 1, room); /* unused */
    nd_layout_slices_intersect(&layout, elems, 2, elems, 2, 1, &number); /* unused */
    nd_layout_first_intersection(&layout, elems, 2, sizes, 2, 1, room, &number); /* unused */
    nd_layout_co_broadcast(&layout, &layout, &made, &made); /* unused */
    nd_layout_join_axes(&layout, 1, &made); /* unused */
    nd_view_rows(&view, 1, &rows); /* unused */
    nd_view_joined_rows(&view, 1, &rows); /* unused */
    nd_next_row(&rows, &row); /* unused */
    nd_fastest(&layout, 1); /* unused */
    nd_is_order(1); /* unused */
    nd_axis_after(1, 2, 1); /* unused */
    nd_join_after(&layout, 1, 0, &axis); /* unused */
    nd_other_length(&layout, &made); /* unused */
    nd_check_views(both, 2, 1); /* unused */
    nd_join_views(both, 1, &rows_of_all, room); /* unused */
    nd_views_of_joined_rows(both, 2, 1, &rows_of_all); /* unused */
    nd_views_joined_rows(&view, 1, 1, &rows_of_all); /* unused */
    nd_views_reason(&view, 1, &reason); /* unused */
    nd_next_rows(&rows_of_all, each); /* unused */
    nd_common_divisor(2, 2); /* unused */
    nd_sum_to_limit(2, 2); /* unused */
    nd_product_to_limit(2, 2); /* unused */
    nd_add_view(&view, &sums, &extent); /* unused */
    nd_reaches(&sums, 2, 2); /* unused */
    nd_extents_reach(&sums, &extent, &extent); /* unused */
    nd_views_share_element(&view, &other, &number); /* unused */
    nd_has_no_room(2, &reason); /* unused */
    nd_reason_of_layout(&layout, 2, &reason); /* unused */
    nd_reason_of_blocks(&layout, &reason); /* unused */
    nd_reason_of_layout_from(&layout, 2, &reason); /* unused */
    nd_layout_check_reason(&layout, data, 1, &reason); /* unused */
    nd_layout_slice_reason(&layout, elems, 2, 1, &reason); /* unused */
    nd_layout_permuted_axes_reason(&layout, sizes, 2, &reason); /* unused */
    nd_layout_reshape_reason(&layout, sizes, 2, 1, &reason); /* unused */
    nd_layout_broadcast_reason(&layout, sizes, 2, &reason); /* unused */
    nd_layout_windows_reason(&layout, sizes, 2, &reason); /* unused */
    nd_layout_exact_chunks_reason(&layout, sizes, 2, &reason); /* unused */
    nd_layout_split_at_reason(&layout, 2, 2, &reason); /* unused */
    nd_layout_merge_axes_reason(&layout, 2, 2, &reason); /* unused */
    nd_view_from_strides_reason(sizes, 2, strides, 2, data, 1, &reason); /* unused */
    nd_view_over_bytes_reason(2, sizes, 2, strides, 2, 2, 2, 1, &reason); /* unused */
    nd_strides_from_bytes(strides, 2, 2, steps); /* unused */
    nd_put_bytes(sizes, 2, strides, 2, 2, 2, &other); /* unused */
    nd_view_over_bytes(2, sizes, 2, strides, 2, 2, 2, 1, &other); /* unused */
    nd_view_from_byte_strides(sizes, 2, strides, 2, 2, 2, 1, &other); /* unused */
    nd_put_plane(&plane, 2, 1, &made); /* unused */
    nd_view_of_plane(&plane, data, 1, 1, &other); /* unused */
    nd_views_of_planes(&plane, 1, data, 1, 1, &other); /* unused */
    nd_views_over_planes(&plane, 1, 2, 2, 1, &other); /* unused */
    nd_views_from_row0(&plane, 1, 2, 1, &other); /* unused */
}

size_t nulls(void) {
    size_t used = 0;
    used += (size_t)nd_put_shape(NULL, sizes, 2); /* null */
    used += (size_t)nd_keep(1, NULL, &made); /* null */
    used += (size_t)nd_keep(1, &layout, NULL); /* null */
    used += (size_t)nd_layout_from_shape(sizes, 2, 1, NULL); /* null */
    used += (size_t)nd_layout_from_strides(sizes, 2, strides, 2, data, 1, NULL); /* null */
    used += (size_t)nd_layout_check(NULL, data, 1); /* null */
    used += (size_t)nd_layout_place(NULL, sizes, 2, room); /* null */
    used += (size_t)nd_layout_place(&layout, sizes, 2, NULL); /* null */
    used += (size_t)nd_layout_places(NULL, 1, room, 2); /* null */
    used += (size_t)nd_layout_rows(NULL, 1, room, 2, steps, room); /* null */
    used += (size_t)nd_layout_rows(&layout, 1, room, 2, NULL, room); /* null */
    used += (size_t)nd_layout_rows(&layout, 1, room, 2, steps, NULL); /* null */
    used += (size_t)nd_layout_next_index(NULL, room, 2, 1, &number); /* null */
    used += (size_t)nd_layout_next_index(&layout, room, 2, 1, NULL); /* null */
    used += (size_t)nd_layout_size(NULL); /* null */
    used += (size_t)nd_layout_row_count(NULL, 1); /* null */
    used += (size_t)nd_layout_slice(NULL, elems, 2, 1, &made); /* null */
    used += (size_t)nd_layout_slice(&layout, elems, 2, 1, NULL); /* null */
    used += (size_t)nd_layout_permuted_axes(NULL, sizes, 2, &made); /* null */
    used += (size_t)nd_layout_permuted_axes(&layout, sizes, 2, NULL); /* null */
    used += (size_t)nd_layout_reshape(NULL, sizes, 2, 1, &made); /* null */
    used += (size_t)nd_layout_reshape(&layout, sizes, 2, 1, NULL); /* null */
    used += (size_t)nd_layout_broadcast(NULL, sizes, 2, &made); /* null */
    used += (size_t)nd_layout_broadcast(&layout, sizes, 2, NULL); /* null */
    used += (size_t)nd_layout_windows(NULL, sizes, 2, &made); /* null */
    used += (size_t)nd_layout_windows(&layout, sizes, 2, NULL); /* null */
    used += (size_t)nd_layout_exact_chunks(NULL, sizes, 2, &made); /* null */
    used += (size_t)nd_layout_exact_chunks(&layout, sizes, 2, NULL); /* null */
    used += (size_t)nd_layout_split_at(NULL, 2, 2, &made, &made); /* null */
    used += (size_t)nd_layout_split_at(&layout, 2, 2, NULL, &made); /* null */
    used += (size_t)nd_layout_split_at(&layout, 2, 2, &made, NULL); /* null */
    used += (size_t)nd_put_lists(NULL, 1, &lists); /* null */
    used += (size_t)nd_put_lists(&view, 1, NULL); /* null */
    used += (size_t)nd_view_check(NULL, 1); /* null */
    used += (size_t)nd_view_of(NULL, data, 1, &other); /* null */
    used += (size_t)nd_view_of(&layout, data, 1, NULL); /* null */
    used += (size_t)nd_view_from_shape(sizes, 2, 1, data, 1, NULL); /* null */
    used += (size_t)nd_view_from_strides(sizes, 2, strides, 2, data, 1, NULL); /* null */
    used += (size_t)nd_at_n(NULL, sizes, 2); /* null */
    used += (size_t)nd_moved(NULL, 2, 2); /* null */
    used += (size_t)nd_at1(NULL, 2); /* null */
    used += (size_t)nd_at2(NULL, 2, 2); /* null */
    used += (size_t)nd_at3(NULL, 2, 2, 2); /* null */
    used += (size_t)nd_at4(NULL, 2, 2, 2, 2); /* null */
    used += (size_t)nd_view_has_overlap(NULL, &number); /* null */
    used += (size_t)nd_view_has_overlap(&view, NULL); /* null */
    used += (size_t)nd_view_is_contiguous(NULL, &number); /* null */
    used += (size_t)nd_view_is_contiguous(&view, NULL); /* null */
    used += (size_t)nd_view_is_layout_c(NULL, &number); /* null */
    used += (size_t)nd_view_is_layout_c(&view, NULL); /* null */
    used += (size_t)nd_view_is_layout_f(NULL, &number); /* null */
    used += (size_t)nd_view_is_layout_f(&view, NULL); /* null */
    used += (size_t)nd_view_stretch(NULL, 1, room, room, &number); /* null */
    used += (size_t)nd_view_stretch(&view, 1, NULL, room, &number); /* null */
    used += (size_t)nd_view_stretch(&view, 1, room, NULL, &number); /* null */
    used += (size_t)nd_view_stretch(&view, 1, room, room, NULL); /* null */
    used += (size_t)nd_layout_diag(NULL, &made); /* null */
    used += (size_t)nd_layout_diag(&layout, NULL); /* null */
    used += (size_t)nd_layout_merge_axes(NULL, 2, 2, &number, &made); /* null */
    used += (size_t)nd_layout_merge_axes(&layout, 2, 2, NULL, &made); /* null */
    used += (size_t)nd_layout_merge_axes(&layout, 2, 2, &number, NULL); /* null */
    used += (size_t)nd_layout_picked(NULL, elems, 2, 1, room); /* null */
    used += (size_t)nd_layout_picked(&layout, elems, 2, 1, NULL); /* null */
    used += (size_t)nd_layout_slices_intersect(NULL, elems, 2, elems, 2, 1, &number); /* null */
    used += (size_t)nd_layout_slices_intersect(&layout, elems, 2, elems, 2, 1, NULL); /* null */
    used += (size_t)nd_layout_first_intersection(NULL, elems, 2, sizes, 2, 1, room, &number); /* null */
    used += (size_t)nd_layout_first_intersection(&layout, elems, 2, sizes, 2, 1, NULL, &number); /* null */
    used += (size_t)nd_layout_first_intersection(&layout, elems, 2, sizes, 2, 1, room, NULL); /* null */
    used += (size_t)nd_layout_co_broadcast(NULL, &layout, &made, &made); /* null */
    used += (size_t)nd_layout_co_broadcast(&layout, NULL, &made, &made); /* null */
    used += (size_t)nd_layout_co_broadcast(&layout, &layout, NULL, &made); /* null */
    used += (size_t)nd_layout_co_broadcast(&layout, &layout, &made, NULL); /* null */
    used += (size_t)nd_layout_join_axes(NULL, 1, &made); /* null */
    used += (size_t)nd_layout_join_axes(&layout, 1, NULL); /* null */
    used += (size_t)nd_view_rows(NULL, 1, &rows); /* null */
    used += (size_t)nd_view_rows(&view, 1, NULL); /* null */
    used += (size_t)nd_view_joined_rows(NULL, 1, &rows); /* null */
    used += (size_t)nd_view_joined_rows(&view, 1, NULL); /* null */
    used += (size_t)nd_views_joined_rows(NULL, 1, 1, &rows_of_all); /* null */
    used += (size_t)nd_views_joined_rows(&view, 1, 1, NULL); /* null */
    used += (size_t)nd_views_of_joined_rows(NULL, 1, 1, &rows_of_all); /* null */
    used += (size_t)nd_views_of_joined_rows(both, 1, 1, NULL); /* null */
    used += (size_t)nd_views_reason(NULL, 1, &reason); /* null */
    used += (size_t)nd_views_reason(&view, 1, NULL); /* null */
    used += (size_t)nd_next_rows(NULL, each); /* null */
    used += (size_t)nd_views_share_element(NULL, &other, &number); /* null */
    used += (size_t)nd_views_share_element(&view, NULL, &number); /* null */
    used += (size_t)nd_views_share_element(&view, &other, NULL); /* null */
    used += (size_t)nd_next_rows(&rows_of_all, NULL); /* null */
    used += (size_t)nd_next_row(NULL, &row); /* null */
    used += (size_t)nd_next_row(&rows, NULL); /* null */
    used += (size_t)nd_put_bytes(sizes, 2, strides, 2, 2, 2, NULL); /* null */
    used += (size_t)nd_view_over_bytes(2, sizes, 2, strides, 2, 2, 2, 1, NULL); /* null */
    used += (size_t)nd_view_from_byte_strides(sizes, 2, strides, 2, 2, 2, 1, NULL); /* null */
    used += (size_t)nd_views_cursor2(NULL, 1, &second); /* null */
    used += (size_t)nd_views_cursor2(&view, 1, NULL); /* null */
    used += (size_t)nd_next_tile2(NULL, &second); /* null */
    used += (size_t)nd_next_tile2(&tiles, NULL); /* null */
    used += (size_t)nd_views_over_planes(NULL, 1, 2, 2, 1, &other); /* null */
    used += (size_t)nd_views_over_planes(&plane, 1, 2, 2, 1, NULL); /* null */
    used += (size_t)nd_views_from_row0(NULL, 1, 2, 1, &other); /* null */
    used += (size_t)nd_views_from_row0(&plane, 1, 2, 1, NULL); /* null */
    return used;
}

/* Lists of no items may be null, and results are looked at. */
size_t none(void) {
    size_t used = 0;
    used += (size_t)nd_layout_from_shape(NULL, 0, 1, &made);
    used += (size_t)nd_layout_from_strides(NULL, 0, NULL, 0, data, 1, &made);
    used += (size_t)nd_view_from_strides(NULL, 0, NULL, 0, data, 1, &view);
    used += (size_t)nd_view_over_bytes(0, NULL, 0, NULL, 0, 1, 1, 1, &view);
    used += (size_t)nd_view_from_byte_strides(NULL, 0, NULL, 0, 1, 1, 1, &view);
    used += (size_t)nd_strides_from_bytes(NULL, 0, 1, NULL);
    used += (size_t)nd_layout_slice(&layout, NULL, 0, 1, &made);
    used += (size_t)nd_layout_rows(&layout, 1, NULL, 0, steps, room);
    used += nd_at_n(&view, NULL, 0);
    used += (size_t)nd_has_overlap(NULL, 0, NULL, 0, &number);
    return used;
}
