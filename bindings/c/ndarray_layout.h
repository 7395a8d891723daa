/*
 * ndarray_layout: shapes, signed strides and slices turned into places in a buffer, as ndarray 0.17.2 has them. The sources of
 * the calls are proved: each returns, for every input that keeps to the rules below, and its status is the one that is stated.
 *
 * Words. A shape is a list of lengths, one for each axis. A stride is how many elements lie between two neighbours of an
 * axis, with its sign. A place is a position in the buffer, counted in elements from its first one. The start of a layout is
 * the place of its index (0, .., 0). Strides and places count elements, and never bytes. The limit is PTRDIFF_MAX.
 *
 * Lists. A list is a pointer and, after it, its count. Every list has a count of its own: counts that don't go together are
 * a status. A list that a call writes (no `const`) is lent by the caller, with exactly the count that its comment says. That may be as
 * much as the limit even over one byte, as for the rows of (2^61+1,1), strides (0,0), read-only. Allocate such a list by
 * `calloc(count, sizeof *list)`, which returns null then: the product in `malloc(count * sizeof *list)` wraps to 8 bytes.
 *
 * Statuses. Each call returns one of ND_OK to ND_OUT_OF_MEMORY. After any status but ND_OK nothing has been written.
 * ND_BAD_ARGUMENT is a number that has no meaning (an order, a mode, a fit, a kind of element), or a list that is only
 * written and has the wrong length. It comes before every other status, ND_OUT_OF_MEMORY too. Only the counts of what
 * nd_places, nd_rows and nd_slice write are tested last. Where a list is read as well, another count is ND_OUT_OF_BOUNDS of
 * nd_next_index, and ND_INCOMPATIBLE_LAYOUT of nd_merge_axes. ND_OUT_OF_MEMORY may come where a list that is read has more than
 * four items, or the new layout of nd_windows or nd_exact_chunks more than four axes, in place of every status but a
 * ND_BAD_ARGUMENT that comes first.
 *
 * Accepted layouts. The reach of an axis is its length less 1, times its stride without the sign; 0 where the length is 0. The
 * span is the sum of the reaches. The product of the lengths that are not 0, the span, and the span in bytes are each at most
 * the limit. The lowest place, the start less the reaches of the axes with a negative stride, is at least 0. The highest one,
 * the lowest and the span, is less than the count of the buffer's elements, and at most the limit. A layout without an index
 * is held to the same bounds, but for its highest place, which may be the count: (4,0), strides (1,4), fits 3 elements, and
 * not 2. An owned layout that has an index satisfies the no-alias rule, in which strides have no signs: for each axis of length
 * greater than 1, the reaches of the other axes whose stride is at most its own add up to less than its stride. Then no two
 * indices have one place. The rule is not necessary for that: (3,2), strides (2,3), breaks it. The project's docs/RULES.md has
 * examples.
 *
 * New layouts. Each index of what nd_slice, nd_permuted_axes, nd_reshape, nd_broadcast, nd_windows, nd_exact_chunks or
 * nd_split_at writes has the place of an index of the layout that it was given. So the new layout lies in every buffer in
 * which the given one lies. Where no two indices of the given one have one place, no two of a slice, a permutation, a reshape,
 * the chunks or a part have: what was accepted as owned may be written through them. A broadcast and windows are only to be
 * read: along an axis that a broadcast stretches all coordinates have one place, and windows overlap. nd_merge_axes keeps
 * both: the indices of what it writes have the places of the indices of what it was given.
 *
 * What the caller ensures. Nothing else can make a call misbehave:
 *   - no pointer is null, and each is aligned as its type asks. The library that `bindings/c/build` makes doesn't look at
 *     the pointer of a list whose count is 0, which may be null. The one of `build --proved` doesn't promise this: pass it
 *     the address of anything of the type;
 *   - each count is true: so many numbers can be read, and written where the list is written. What a call only writes need not have
 *     a value before; `index` of nd_next_index and the lists of nd_merge_axes are read as well;
 *   - what a call writes, a list or a number, shares no byte with a list that it reads, nor with anything else that it
 *     writes, and no other thread uses it meanwhile. Lists that a call only reads may share bytes. A number that is passed
 *     by its value may be the one that is written: nd_slice(start, .., &start, ..);
 *   - `malloc`, `realloc` and `free` are those of one allocator, which aligns a block to each power of two up to 16 that
 *     divides its size;
 *   - no call is made from a signal handler, or from the forked child of a process with threads.
 * Calls keep nothing: any threads may call at once. They set `errno` as `malloc`, `realloc` and `free` do, and not otherwise. No
 * call prints or ends the process: the library of `bindings/c/build` would `abort` where Rust panics, which the proof of the sources
 * rules out.
 *
 * Numbers of slices have signs. An unsigned one past the limit becomes negative in `nd_slice_elem`, as C converts it: (size_t)-1 is
 * the bound -1, which counts from the end. Compare what comes of a file with the length first, or with the limit.
 *
 * Examples. `==` stands between a call and what it writes, where it returns ND_OK, or else the status. A list is in parentheses, and
 * its count isn't said again. Of a reason stand the fields that aren't 0. A test runs these lines.
 *
 * Sanitizers. The address, undefined and integer sanitizers of a program take these headers as they are. The memory sanitizer
 * doesn't see what the libraries write, which aren't compiled with it: after a call, `__msan_unpoison` of what it wrote says so.
 *
 * This header is C89, C99 and C++. Where there is no <stdint.h>, define ND_NO_STDINT and the type int32_t before it.
 */
#ifndef NDARRAY_LAYOUT_H
#define NDARRAY_LAYOUT_H

#include <stddef.h>
#ifndef ND_NO_STDINT
#include <stdint.h>
#endif

#if defined(__SIZEOF_SIZE_T__) && __SIZEOF_SIZE_T__ != 8
#error "ndarray_layout needs a target of 64 bits, where size_t has 8 bytes: its proofs are of numbers of that width"
#endif

/*
 * The version of this header. A library serves for each header that has the same first number, or while that is 0 the same
 * first two, and whose version is not later: nd_version says what a program has loaded. Those numbers end the name by which
 * programs load the shared library, libndarray_layout.so.0.1, and the names of the calls in both libraries: nd_place_0_1.
 * So parts of one process may use versions that don't go together, each its own. With those numbers the structs of this header
 * keep their fields and their size: nd_reason has 48 bytes where pointers have eight, and another size of it is a version 0.2.
 */
#define ND_VERSION_MAJOR 0
#define ND_VERSION_MINOR 1
#define ND_VERSION_PATCH 0
#define ND_VERSION "0.1.0"

/* The name that a call has in the libraries, by which `dlsym` and other languages find it. */
#define ND_NAME(call) call##_0_1
#define nd_layout_start ND_NAME(nd_layout_start)
#define nd_check_layout ND_NAME(nd_check_layout)
#define nd_has_overlap ND_NAME(nd_has_overlap)
#define nd_default_strides ND_NAME(nd_default_strides)
#define nd_fortran_strides ND_NAME(nd_fortran_strides)
#define nd_is_contiguous ND_NAME(nd_is_contiguous)
#define nd_is_layout_c ND_NAME(nd_is_layout_c)
#define nd_is_layout_f ND_NAME(nd_is_layout_f)
#define nd_place ND_NAME(nd_place)
#define nd_next_index ND_NAME(nd_next_index)
#define nd_places ND_NAME(nd_places)
#define nd_rows ND_NAME(nd_rows)
#define nd_joined_in_all ND_NAME(nd_joined_in_all)
#define nd_slice ND_NAME(nd_slice)
#define nd_slices_intersect ND_NAME(nd_slices_intersect)
#define nd_first_intersection ND_NAME(nd_first_intersection)
#define nd_picked ND_NAME(nd_picked)
#define nd_co_broadcast ND_NAME(nd_co_broadcast)
#define nd_broadcast ND_NAME(nd_broadcast)
#define nd_merge_axes ND_NAME(nd_merge_axes)
#define nd_reshape ND_NAME(nd_reshape)
#define nd_permuted_axes ND_NAME(nd_permuted_axes)
#define nd_windows ND_NAME(nd_windows)
#define nd_exact_chunks ND_NAME(nd_exact_chunks)
#define nd_split_at ND_NAME(nd_split_at)
#define nd_diag ND_NAME(nd_diag)
#define nd_stretch ND_NAME(nd_stretch)
#define nd_slice_reason ND_NAME(nd_slice_reason)
#define nd_layout_start_reason ND_NAME(nd_layout_start_reason)
#define nd_check_layout_reason ND_NAME(nd_check_layout_reason)
#define nd_reshape_reason ND_NAME(nd_reshape_reason)
#define nd_permuted_axes_reason ND_NAME(nd_permuted_axes_reason)
#define nd_index_reason ND_NAME(nd_index_reason)
#define nd_co_broadcast_reason ND_NAME(nd_co_broadcast_reason)
#define nd_broadcast_reason ND_NAME(nd_broadcast_reason)
#define nd_windows_reason ND_NAME(nd_windows_reason)
#define nd_exact_chunks_reason ND_NAME(nd_exact_chunks_reason)
#define nd_split_at_reason ND_NAME(nd_split_at_reason)
#define nd_merge_axes_reason ND_NAME(nd_merge_axes_reason)
#define nd_status_text ND_NAME(nd_status_text)
#define nd_version ND_NAME(nd_version)

#if defined(__cplusplus) || (defined(__STDC_VERSION__) && __STDC_VERSION__ >= 199901L)
#define ND_INLINE static inline
#elif defined(__GNUC__)
#define ND_INLINE static __inline__
#else
#define ND_INLINE static
#endif

/* A call whose result is to be looked at, and a function of this header whose parameters at these positions are no null. */
#ifdef __GNUC__
#define ND_USED __attribute__((warn_unused_result))
#define ND_CHECKED(positions) ND_INLINE __attribute__((warn_unused_result, nonnull positions))
#else
#define ND_USED
#define ND_CHECKED(positions) ND_INLINE
#endif

/* (of these headers alone) A function whose unsigned numbers wrap, as they are to, where a sanitizer looks for it. */
#ifdef __clang__
#define ND_WRAPS __attribute__((no_sanitize("unsigned-integer-overflow")))
#else
#define ND_WRAPS
#endif

/* (of these headers alone) A cast as C++ has it, in macros that programs use. */
#ifdef __cplusplus
#define ND_CAST(type, number) static_cast<type>(number)
#else
#define ND_CAST(type, number) ((type)(number))
#endif

/* (of these headers alone) What holds, which a compiler may use. */
#ifdef __GNUC__
#define ND_ASSUME(holds) \
    do { \
        if (!(holds)) __builtin_unreachable(); \
    } while (0)
#else
#define ND_ASSUME(holds) ((void)0)
#endif

#ifdef __cplusplus
#ifdef __GNUC__
#pragma GCC diagnostic push
#pragma GCC diagnostic ignored "-Wold-style-cast"
#endif
extern "C" {
#endif

/* Statuses. */
enum {
    ND_OK = 0,
    ND_INCOMPATIBLE_SHAPE = 1,  /* counts of axes or lengths do not go together */
    ND_INCOMPATIBLE_LAYOUT = 2, /* the strides do not go with the shape, or with the data as it lies */
    ND_RANGE_LIMITED = 3,       /* never returned */
    ND_OUT_OF_BOUNDS = 4,       /* an index, or a layout as a whole, leaves its bounds */
    ND_UNSUPPORTED = 5,         /* what is asked for is not offered */
    ND_OVERFLOW = 6,            /* a size or a span is greater than the limit */
    ND_BAD_ARGUMENT = 7,
    ND_OUT_OF_MEMORY = 8
};

/* The order in which indices are read: the last axis moves fastest, or the first one. */
enum { ND_ROW_MAJOR = 0, ND_COLUMN_MAJOR = 1 };

/* How a layout is used: elements are only read, or owned and written, and the layout satisfies the no-alias rule. */
enum { ND_READ_ONLY = 0, ND_OWNED = 1 };

/* What becomes of a bound of a slice that lies outside its axis: ND_OUT_OF_BOUNDS, or the nearest bound. */
enum { ND_STRICT = 0, ND_CLAMPED = 1 };

/* Kinds of elements of a slice. */
enum { ND_SLICE = 0, ND_INDEX = 1, ND_NEW_AXIS = 2 };

/*
 * An element of a slice. ND_SLICE keeps an axis: from `start` to before `end`, or to the end of the axis where `has_end` is
 * 0, each `step`-th coordinate, from the last one back where `step` is negative; nothing where `end` isn't after `start`.
 * ND_INDEX takes the coordinate `start` and drops the axis. ND_NEW_AXIS adds an axis of length 1. A `start` or an `end` below
 * 0 counts from the end of the axis. As bounds of ND_SLICE both may be the length of the axis: `4..4` of 4 is nothing. Fields
 * that a kind doesn't name are not looked at.
 */
typedef struct nd_slice_elem {
    int32_t kind;
    int32_t has_end;
    ptrdiff_t start;
    ptrdiff_t end;
    ptrdiff_t step;
} nd_slice_elem;

/* ---- Layouts --------------------------------------------------------------------------------------------------------- */

/*
 * Accepts a layout over a buffer of `len` elements of `elem_size` bytes, and writes the place of its first index, where its
 * lowest place is 0. `mode`: ND_READ_ONLY or ND_OWNED.
 *
 * ND_INCOMPATIBLE_LAYOUT: not one stride for each length. ND_OVERFLOW: the product of the lengths that are not 0, the span,
 * or the span times `elem_size` is greater than the limit. ND_OUT_OF_BOUNDS: the span is `len` or more; for a layout without
 * an index, more than `len`. ND_UNSUPPORTED: owned, there is an index, and the no-alias rule is broken.
 *
 *    nd_layout_start((3), (-1), 1, 3, ND_READ_ONLY) == 2
 *    nd_layout_start((2,0), (-3,-1), 1, 3, ND_READ_ONLY) == 3
 *    nd_layout_start((0,3), (1,PTRDIFF_MAX), 1, 3, ND_READ_ONLY) == ND_OVERFLOW
 */
int32_t nd_layout_start(const size_t *shape, size_t shape_len, const ptrdiff_t *strides, size_t strides_len,
                        size_t elem_size, size_t len, int32_t mode, size_t *start) ND_USED;

/*
 * Accepts a layout whose first index lies at `start`, over a buffer of `len` elements of `elem_size` bytes.
 *
 * The statuses of nd_layout_start, in their order; ND_OUT_OF_BOUNDS where the lowest place is below 0, or the highest is `len`
 * or more, or past the limit. Without an index the highest may be `len`.
 *
 *    nd_check_layout(4, (3), (-1), 1, 5, ND_READ_ONLY) == ND_OK
 *    nd_check_layout(1, (3), (-1), 1, 5, ND_READ_ONLY) == ND_OUT_OF_BOUNDS
 *    nd_check_layout(5, (0), (1), 1, 5, ND_READ_ONLY) == ND_OK
 *    nd_check_layout(6, (0), (1), 1, 5, ND_READ_ONLY) == ND_OUT_OF_BOUNDS
 */
int32_t nd_check_layout(size_t start, const size_t *shape, size_t shape_len, const ptrdiff_t *strides, size_t strides_len,
                        size_t elem_size, size_t len, int32_t mode) ND_USED;

/*
 * Writes 1 where two indices of a layout may alias, else 0: it has an index, and breaks the no-alias rule. After 0 no two
 * indices have one place.
 *
 * ND_INCOMPATIBLE_LAYOUT and ND_OVERFLOW as of nd_layout_start with an element of one byte.
 *
 *    nd_has_overlap((2,3), (3,1)) == 0
 *    nd_has_overlap((3,2), (2,3)) == 1
 */
int32_t nd_has_overlap(const size_t *shape, size_t shape_len, const ptrdiff_t *strides, size_t strides_len,
                       int32_t *answer) ND_USED;

/*
 * Writes the strides by which the last axis of a shape moves fastest (nd_default_strides) or the first one
 * (nd_fortran_strides); all 0 where a length is 0. `strides`: one for each axis.
 *
 * ND_OVERFLOW: the product of the lengths that are not 0 is greater than the limit.
 *
 *    nd_default_strides((3,4,5)) == (20,5,1)
 *    nd_fortran_strides((3,4,5)) == (1,3,12)
 */
int32_t nd_default_strides(const size_t *shape, size_t shape_len, ptrdiff_t *strides, size_t strides_len) ND_USED;
int32_t nd_fortran_strides(const size_t *shape, size_t shape_len, ptrdiff_t *strides, size_t strides_len) ND_USED;

/*
 * Writes 1 or 0. nd_is_contiguous: whether no two indices have one place, and all fill a stretch of the buffer without a gap,
 * whatever their order. Where a length is 0: whether all strides are 0, there is one axis, or each axis has length 1 or a
 * stride that is, without its sign, the product of the lengths of the axes with a lesser one; of two equal strides that of the
 * lower axis is less. nd_is_layout_c: whether the places of all indices in row-major order follow one another without a gap,
 * or there is no index. nd_is_layout_f: the same in column-major order.
 *
 * The statuses of nd_has_overlap.
 *
 *    nd_is_contiguous((2,3), (-3,1)) == 1
 *    nd_is_layout_c((2,3), (-3,1)) == 0
 *    nd_is_contiguous((2,2), (1,1)) == 0
 *    nd_is_contiguous((0,3), (9,9)) == 0
 *    nd_is_contiguous((0,3), (3,1)) == 1
 *    nd_is_layout_c((0,3), (9,9)) == 1
 *    nd_is_layout_f((0,3), (9,9)) == 1
 */
int32_t nd_is_contiguous(const size_t *shape, size_t shape_len, const ptrdiff_t *strides, size_t strides_len,
                         int32_t *answer) ND_USED;
int32_t nd_is_layout_c(const size_t *shape, size_t shape_len, const ptrdiff_t *strides, size_t strides_len,
                       int32_t *answer) ND_USED;
int32_t nd_is_layout_f(const size_t *shape, size_t shape_len, const ptrdiff_t *strides, size_t strides_len,
                       int32_t *answer) ND_USED;

/* ---- Indices --------------------------------------------------------------------------------------------------------- */

/*
 * Writes the place of an index: the start plus, for each axis, the coordinate times the stride.
 *
 * Those of nd_check_layout, read-only, for a buffer of bytes at all places up to the limit; then ND_OUT_OF_BOUNDS where the
 * list is no index of the shape: not one coordinate for each axis, or one that is not less than its length.
 *
 *    nd_place(3, (2,3), (-3,1), (1,2)) == 2
 *    nd_place(0, (2,2), (1,1), (0,1)) == 1
 *    nd_place(0, (2,2), (1,1), (1,0)) == 1
 */
int32_t nd_place(size_t start, const size_t *shape, size_t shape_len, const ptrdiff_t *strides, size_t strides_len,
                 const size_t *index, size_t index_len, size_t *place) ND_USED;

/*
 * Moves an index of a shape to the next one in an order, and writes 1. The last index becomes the first one, (0, .., 0),
 * with 0. `order`: ND_ROW_MAJOR or ND_COLUMN_MAJOR.
 *
 * ND_OUT_OF_BOUNDS: `index` is no index of the shape.
 *
 *    nd_next_index((2,3), (0,2), ND_ROW_MAJOR) == (1,0), 1
 *    nd_next_index((2,3), (0,2), ND_COLUMN_MAJOR) == (1,2), 1
 *    nd_next_index((2,3), (1,2), ND_ROW_MAJOR) == (0,0), 0
 */
int32_t nd_next_index(const size_t *shape, size_t shape_len, size_t *index, size_t index_len, int32_t order,
                      int32_t *has_next) ND_USED;

/*
 * Writes the places of all indices, in an order. `places`: as many as the product of the lengths.
 *
 * ND_BAD_ARGUMENT for the order; then those of nd_place for the layout; then ND_BAD_ARGUMENT for another count of places.
 *
 *    nd_places(3, (2,3), (-3,1), ND_ROW_MAJOR) == (3,4,5,0,1,2)
 *    nd_places(3, (2,3), (-3,1), ND_COLUMN_MAJOR) == (3,0,4,1,5,2)
 */
int32_t nd_places(size_t start, const size_t *shape, size_t shape_len, const ptrdiff_t *strides, size_t strides_len,
                  int32_t order, size_t *places, size_t places_len) ND_USED;

/*
 * Writes the start of each row of a layout in an order: the places along the axis that moves fastest, one row for each index
 * of the other axes. All rows have one stride and one length, which are written too. Without axes there is one row, of one
 * place and the stride 0; without an index none. `starts`: as many as there are rows.
 *
 * ND_BAD_ARGUMENT for the order; then those of nd_place for the layout; then ND_BAD_ARGUMENT for another count of starts.
 *
 *    nd_rows(3, (2,3), (-3,1), ND_ROW_MAJOR) == (3,0), 1, 3
 *    nd_rows(3, (2,3), (-3,1), ND_COLUMN_MAJOR) == (3,4,5), -3, 2
 */
int32_t nd_rows(size_t start, const size_t *shape, size_t shape_len, const ptrdiff_t *strides, size_t strides_len,
                int32_t order, size_t *starts, size_t starts_len, ptrdiff_t *stride, size_t *len) ND_USED;

/*
 * Writes how many of the axes that move fastest in an order are one in each of several layouts of a shape, as many as there can
 * be; the length of that axis; and its stride in each layout. Axes are one where the places of each layout are those along the
 * slower axes and this one. A layout without axes has no such axis: `count` 0, `len` 1, and each stride is unchanged.
 * `strides`: those of one layout after another. `new_strides`: one for each layout.
 *
 * ND_BAD_ARGUMENT for the order, and where there is no layout. ND_INCOMPATIBLE_LAYOUT: not one stride for each length of each
 * layout. ND_OVERFLOW as of nd_has_overlap, for any of them.
 *
 *    nd_joined_in_all((4,2,3), (12,3,1,6,3,1), ND_ROW_MAJOR) == (1,1), 2, 6
 *    nd_joined_in_all((4,2,3), (6,3,1), ND_ROW_MAJOR) == (1), 3, 24
 */
int32_t nd_joined_in_all(const size_t *shape, size_t shape_len, const ptrdiff_t *strides, size_t strides_len, int32_t order,
                         ptrdiff_t *new_strides, size_t new_strides_len, size_t *count, size_t *len) ND_USED;

/* ---- Slices ---------------------------------------------------------------------------------------------------------- */

/*
 * Slices a layout: writes the start, the shape and the strides of what is left. The new start is the place of the first
 * coordinate that is picked of each axis, or of 0 where none is. An axis with fewer than two coordinates left, and a new one,
 * has the stride 0. `new_shape`, `new_strides`: one for each element but an ND_INDEX. `fit`: ND_STRICT or ND_CLAMPED.
 *
 * Those of nd_place for the layout; then ND_INCOMPATIBLE_SHAPE where the elements are for more axes than there are or for
 * fewer; then that of the first element with one: ND_OUT_OF_BOUNDS for an index that is not on its axis, or a bound that is
 * neither on it nor its length and is not to be clamped, ND_UNSUPPORTED for a step of 0; then ND_BAD_ARGUMENT for another
 * count of what is written.
 *
 *    nd_slice(5, (4), (3), (ND_FROM_BY(1, -2)), ND_STRICT) == 14, (2), (-6)
 *    nd_slice(5, (4), (3), (ND_RANGE(2, 3)), ND_STRICT) == 11, (1), (0)
 *    nd_slice(5, (4), (3), (ND_RANGE(3, 1)), ND_STRICT) == 5, (0), (0)
 *    nd_slice(5, (4), (3), (ND_INDEX(4)), ND_STRICT) == ND_OUT_OF_BOUNDS
 */
int32_t nd_slice(size_t start, const size_t *shape, size_t shape_len, const ptrdiff_t *strides, size_t strides_len,
                 const nd_slice_elem *elems, size_t elems_len, int32_t fit, size_t *new_start, size_t *new_shape,
                 size_t new_shape_len, ptrdiff_t *new_strides, size_t new_strides_len) ND_USED;

/*
 * Writes 1 where two slices of a shape share an index, else 0. Where no two indices of a layout of the shape alias, this is
 * whether they share an element.
 *
 * ND_OVERFLOW: the product of the lengths that are not 0 is greater than the limit; then those of nd_slice for `first`, then
 * for `second`.
 *
 *    nd_slices_intersect((2,3), (ND_INDEX(0), ND_ALL), (ND_ALL, ND_INDEX(-1)), ND_STRICT) == 1
 *    nd_slices_intersect((2,3), (ND_INDEX(0), ND_ALL), (ND_INDEX(-1), ND_ALL), ND_STRICT) == 0
 */
int32_t nd_slices_intersect(const size_t *shape, size_t shape_len, const nd_slice_elem *first, size_t first_len,
                            const nd_slice_elem *second, size_t second_len, int32_t fit, int32_t *answer) ND_USED;

/*
 * Writes the positions of two of many slices of a shape that share an index, the less first, and 1; else writes 0 and leaves
 * `pair`. Where several pairs do, it is one of them, and need not be the least. `elems`: those of all slices, one slice after
 * another. `counts`: how many each slice has. `pair`: two.
 *
 * Tiles from the first to the last, or from the last to the first, take time in proportion to their count k. Others are sorted,
 * and cut at gaps between them, on one axis after another: if that parts most of them, as tiles in any order, they take time in
 * proportion to k * log(k). 16,384 tiles took half a millisecond in order, and 3 in no order. Slices with new axes, or that no
 * gap parts, are compared pair by pair, up to k * (k - 1) / 2 times, and so are all if memory for the sort is lacking.
 *
 * ND_BAD_ARGUMENT, first, also where the counts don't add up to that of the elements. ND_OVERFLOW as of nd_slices_intersect;
 * then those of nd_slice for the elements of the first slice with one.
 *
 *    nd_first_intersection((4), (ND_RANGE(2, 4), ND_RANGE(1, 3), ND_RANGE(0, 2)), (1,1,1), ND_STRICT) == (1,2), 1
 *    nd_first_intersection((4), (ND_RANGE(2, 4), ND_RANGE(0, 2)), (1,1), ND_STRICT) == (0,0), 0
 */
int32_t nd_first_intersection(const size_t *shape, size_t shape_len, const nd_slice_elem *elems, size_t elems_len,
                              const size_t *counts, size_t counts_len, int32_t fit, size_t *pair, size_t pair_len,
                              int32_t *found) ND_USED;

/*
 * Writes how many indices a slice leaves of a shape.
 *
 * ND_OVERFLOW as of nd_slices_intersect; then those of nd_slice for the elements.
 *
 *    nd_picked((4), (ND_FROM_BY(1, -2)), ND_STRICT) == 2
 */
int32_t nd_picked(const size_t *shape, size_t shape_len, const nd_slice_elem *elems, size_t elems_len, int32_t fit,
                  size_t *count) ND_USED;

/* ---- Shapes ---------------------------------------------------------------------------------------------------------- */

/*
 * Writes the shape that two shapes have in common, by NumPy's rule. `common`: as many as the longer of the two.
 *
 * ND_INCOMPATIBLE_SHAPE: they have none.
 *
 *    nd_co_broadcast((4,1), (3)) == (4,3)
 */
int32_t nd_co_broadcast(const size_t *first, size_t first_len, const size_t *second, size_t second_len, size_t *common,
                        size_t common_len) ND_USED;

/*
 * Writes the strides along which a layout is read as one of the shape `target`: 0 along new axes, which come first, and
 * along axes of length 1 that have another length now. The start is unchanged. `new_strides`: one for each axis of `target`.
 *
 * ND_INCOMPATIBLE_LAYOUT and ND_OVERFLOW as of nd_has_overlap; then ND_INCOMPATIBLE_SHAPE where `target` is not the shape
 * that both have in common; then ND_OVERFLOW where it is too large.
 *
 *    nd_broadcast((1,4), (9,-1), (2,3,4)) == (0,0,-1)
 */
int32_t nd_broadcast(const size_t *shape, size_t shape_len, const ptrdiff_t *strides, size_t strides_len,
                     const size_t *target, size_t target_len, ptrdiff_t *new_strides, size_t new_strides_len) ND_USED;

/*
 * Merges the axis `take` into the axis `into`, in place, where one stride serves for both, and writes 1; else writes
 * 0 and changes neither list. Then the axis `into` has the coordinates of both, that of `take` moving slowest, and `take`
 * keeps one coordinate, or none where one of the two has none. One stride serves where one of the two has a length of 0 or 1,
 * or the stride of `take` is the length times the stride of `into`. It is that of `into`, or that of `take` where only the
 * length of `take` is greater than 1. The stride of `take` is unchanged.
 *
 * ND_INCOMPATIBLE_LAYOUT and ND_OVERFLOW as of nd_has_overlap; then ND_OUT_OF_BOUNDS where there is no such axis; then
 * ND_UNSUPPORTED for one axis twice.
 *
 *    nd_merge_axes((2,3), (3,1), 0, 1) == (1,6), (3,1), 1
 *    nd_merge_axes((2,0), (3,1), 0, 1) == (0,0), (3,3), 1
 */
int32_t nd_merge_axes(size_t *shape, size_t shape_len, ptrdiff_t *strides, size_t strides_len, size_t take, size_t into,
                      int32_t *merged) ND_USED;

/*
 * Writes the strides along which the shape `new_shape` has the places of a layout in an order. The start is unchanged.
 * Where there is no index they are 0. An axis of length 1 has the stride 1, that of an axis of length 1 of the layout, or the
 * length times the stride of the next faster axis. `new_strides`: one for each axis of `new_shape`. `order`: ND_ROW_MAJOR or
 * ND_COLUMN_MAJOR.
 *
 * ND_INCOMPATIBLE_LAYOUT and ND_OVERFLOW as of nd_has_overlap; then ND_OVERFLOW where `new_shape` is too large; then
 * ND_INCOMPATIBLE_SHAPE where one of the two shapes alone has no index; then ND_INCOMPATIBLE_LAYOUT where two axes would have
 * to step as one and don't; then ND_INCOMPATIBLE_SHAPE where the sizes differ. Two neighbours among the axes of length greater
 * than 1 step as one where the stride of the slower is the length times the stride of the faster. They have to unless p, the
 * product of the lengths from the slowest axis to the slower of the two, is the size of `new_shape` or more, or the product of
 * its lengths from its slowest axis to some axis.
 *
 *    nd_reshape((2,3), (3,1), (3,2), ND_ROW_MAJOR) == (2,1)
 *    nd_reshape((2,3), (3,1), (3,2), ND_COLUMN_MAJOR) == ND_INCOMPATIBLE_LAYOUT
 *    nd_reshape((2,3), (4,1), (5), ND_ROW_MAJOR) == ND_INCOMPATIBLE_LAYOUT
 *    nd_reshape((2,3), (4,1), (2,4), ND_ROW_MAJOR) == ND_INCOMPATIBLE_SHAPE
 *    nd_reshape((2,3), (4,1), (2), ND_ROW_MAJOR) == ND_INCOMPATIBLE_SHAPE
 *    nd_reshape((4,3), (3,1), (1,2,1,2,3), ND_ROW_MAJOR) == (1,6,6,3,1)
 *
 * Of strides (4,1), whose axes don't step as one, p is 2.
 */
int32_t nd_reshape(const size_t *shape, size_t shape_len, const ptrdiff_t *strides, size_t strides_len,
                   const size_t *new_shape, size_t new_shape_len, int32_t order, ptrdiff_t *new_strides,
                   size_t new_strides_len) ND_USED;

/*
 * Writes the shape and the strides with the axes in another order: axis k is axis `axes[k]`. The start is unchanged.
 * `new_shape`, `new_strides`: one for each axis of `shape`.
 *
 * ND_INCOMPATIBLE_LAYOUT and ND_OVERFLOW as of nd_has_overlap; then ND_INCOMPATIBLE_SHAPE where `axes` doesn't have each
 * axis once.
 *
 *    nd_permuted_axes((2,3,4), (12,4,1), (2,0,1)) == (4,2,3), (1,12,4)
 */
int32_t nd_permuted_axes(const size_t *shape, size_t shape_len, const ptrdiff_t *strides, size_t strides_len,
                         const size_t *axes, size_t axes_len, size_t *new_shape, size_t new_shape_len,
                         ptrdiff_t *new_strides, size_t new_strides_len) ND_USED;

/*
 * Writes the shape and the strides of all windows of a layout: first an axis for each axis along which the windows move, then
 * those in a window. The start is unchanged. `window`: the shape of a window. An axis has len - window + 1 windows, none where
 * the window is longer; strides are 0 where there is no index. `new_shape`, `new_strides`: two for each axis of `shape`.
 *
 * ND_INCOMPATIBLE_LAYOUT and ND_OVERFLOW as of nd_has_overlap; then ND_INCOMPATIBLE_SHAPE where `window` has not one length
 * for each axis; then ND_UNSUPPORTED for a length of 0; then ND_OVERFLOW where what is written is too large.
 *
 *    nd_windows((4), (1), (2)) == (3,2), (1,1)
 */
int32_t nd_windows(const size_t *shape, size_t shape_len, const ptrdiff_t *strides, size_t strides_len,
                   const size_t *window, size_t window_len, size_t *new_shape, size_t new_shape_len,
                   ptrdiff_t *new_strides, size_t new_strides_len) ND_USED;

/*
 * The same for the chunks that lie side by side from the first index on: an axis has len / chunk of them, and what is left
 * over at its end is left out. The stride of an axis with fewer than two chunks is 0.
 *
 * The statuses of nd_windows, in their order.
 *
 *    nd_exact_chunks((5), (1), (2)) == (2,2), (2,1)
 */
int32_t nd_exact_chunks(const size_t *shape, size_t shape_len, const ptrdiff_t *strides, size_t strides_len,
                        const size_t *chunk, size_t chunk_len, size_t *new_shape, size_t new_shape_len,
                        ptrdiff_t *new_strides, size_t new_strides_len) ND_USED;

/*
 * Splits a layout along an axis: the first part has the coordinates below `index`, the second those from `index` on. Writes
 * both starts, the lengths of the first part and then those of the second, and the strides, which are those of both parts.
 * Where `index` is the length of the axis, the second part starts where the layout does; else at the coordinate `index`, even
 * where another axis has the length 0. `new_starts`: two. `new_shapes`: two for each axis. `new_strides`: one for each axis.
 *
 * Those of nd_place for the layout; then ND_OUT_OF_BOUNDS where there is no such axis, or `index` is greater than its length.
 *
 *    nd_split_at(0, (2,3), (3,1), 1, 1) == (0,1), (2,1,2,2), (3,1)
 *    nd_split_at(3, (2,0), (-3,-1), 0, 1) == (3,0), (1,0,1,0), (-3,-1)
 *    nd_split_at(3, (2,0), (-3,-1), 0, 2) == (3,3), (2,0,0,0), (-3,-1)
 */
int32_t nd_split_at(size_t start, const size_t *shape, size_t shape_len, const ptrdiff_t *strides, size_t strides_len,
                    size_t axis, size_t index, size_t *new_starts, size_t new_starts_len, size_t *new_shapes,
                    size_t new_shapes_len, ptrdiff_t *new_strides, size_t new_strides_len) ND_USED;

/*
 * Writes the length and the stride of the diagonal of a layout, whose start stays: the indices that have the same coordinate
 * on each axis. The length is the least of the shape's, and 1 without axes; the stride is the sum of all, and 0 where the
 * length is less than 2.
 *
 * ND_INCOMPATIBLE_LAYOUT and ND_OVERFLOW as of nd_has_overlap.
 *
 *    nd_diag((2,3), (3,1)) == 2, 4
 */
int32_t nd_diag(const size_t *shape, size_t shape_len, const ptrdiff_t *strides, size_t strides_len, size_t *len,
                ptrdiff_t *stride) ND_USED;

/*
 * Writes whether the places of a layout follow one another without a gap in an order (1) or don't (0); where they do, the
 * first of them and the one after the last as well, both 0 where there is no index. `order`: ND_ROW_MAJOR or
 * ND_COLUMN_MAJOR.
 *
 * Those of nd_place for the layout.
 *
 *    nd_stretch(4, (2,3), (3,1), ND_ROW_MAJOR) == 4, 10, 1
 *    nd_stretch(4, (2,3), (3,1), ND_COLUMN_MAJOR) == 0, 0, 0
 */
int32_t nd_stretch(size_t start, const size_t *shape, size_t shape_len, const ptrdiff_t *strides, size_t strides_len,
                   int32_t order, size_t *first, size_t *end, int32_t *found) ND_USED;

/* ---- Reasons --------------------------------------------------------------------------------------------------------- */

/*
 * The rules that a call's arguments can break. After each: its status, and which fields of nd_reason it has beside `status`
 * and `rule`; the others are 0.
 */
enum {
    ND_RULE_NONE = 0,        /* ND_OK: no rule is broken */
    ND_RULE_COUNT = 1,       /* a list is of another count than there are axes, of a smaller one where a layout is broadcast
                                to it. `list`; `size`: its count, of a slice without new axes; `other`: how many axes there
                                are. ND_INCOMPATIBLE_SHAPE of a slice, of axes, of a shape or of a block,
                                ND_INCOMPATIBLE_LAYOUT of strides, ND_OUT_OF_BOUNDS of an index */
    ND_RULE_INDEX = 2,       /* ND_OUT_OF_BOUNDS: an index is no coordinate of its axis. `axis`; `number`: the index;
                                `size`: the length of the axis */
    ND_RULE_BOUND = 3,       /* ND_OUT_OF_BOUNDS: a bound of a range means no number from 0 to the length of its axis.
                                `axis`; `number`: the bound, the start where both do; `size`: the length */
    ND_RULE_STEP = 4,        /* ND_UNSUPPORTED: a step is 0. `axis`; `size`: the length of the axis */
    ND_RULE_SIZE = 5,        /* ND_OVERFLOW: the product of the lengths that are not 0 is past the limit */
    ND_RULE_SPAN = 6,        /* ND_OVERFLOW: the span is past the limit */
    ND_RULE_BYTES = 7,       /* ND_OVERFLOW: the span in bytes is past the limit. `size`: the span in elements; `other`: the
                                size of one */
    ND_RULE_LOWEST = 8,      /* ND_OUT_OF_BOUNDS: the lowest place is below 0. `size`: how far it lies below the start;
                                `other`: the start */
    ND_RULE_HIGHEST = 9,     /* ND_OUT_OF_BOUNDS: the highest place is past the limit. `size`: how far it lies above the
                                start; `other`: the start */
    ND_RULE_LENGTH = 10,     /* ND_OUT_OF_BOUNDS: the highest place is past the buffer. `size`: the highest place; `other`:
                                how long the buffer is */
    ND_RULE_ALIAS = 11,      /* ND_UNSUPPORTED: the no-alias rule. `axis`: the first of length greater than 1 whose stride
                                isn't past the reach of the others whose stride is at most its own; `number`: its stride;
                                `size`: that reach */
    ND_RULE_OTHER_SIZE = 12, /* ND_INCOMPATIBLE_SHAPE: a new shape has another count of indices. `size`: its count;
                                `other`: that of the layout */
    ND_RULE_COPY = 13,       /* ND_INCOMPATIBLE_LAYOUT: a new shape joins axes of other strides. `axis`: in the order of reading,
                                the first up to which the axes alone can't be read along the new shape: the stride of the
                                axis of length greater than 1 that is read before it isn't its length times its stride,
                                and the new shape has no boundary there; `number`: its stride; `size`: its length */
    ND_RULE_MISSING = 14,    /* ND_INCOMPATIBLE_SHAPE: an axis isn't listed. `axis`: the first such; `size`: the count of
                                the list; `other`: how many axes there are */
    ND_RULE_COORDINATE = 15, /* ND_OUT_OF_BOUNDS: a coordinate isn't below the length of its axis. `axis`: the first such;
                                `size`: the coordinate; `other`: the length */
    ND_RULE_COMMON = 16,     /* ND_INCOMPATIBLE_SHAPE: two lengths of an axis are unequal, and neither is 1. `axis`: the first
                                such of the common shape; `size`: the first shape's length; `other`: the second's */
    ND_RULE_STRETCH = 17,    /* ND_INCOMPATIBLE_SHAPE: a length is neither 1 nor that of the axis that it is broadcast to.
                                `axis`: the first such of the new shape; `size`: the length; `other`: that of the new
                                shape */
    ND_RULE_EMPTY = 18,      /* ND_UNSUPPORTED: a length of a block is 0. `list`; `axis`: the first such */
    ND_RULE_AXIS = 19,       /* ND_OUT_OF_BOUNDS: there is no such axis. `axis`: its number; `size`: how many axes there are */
    ND_RULE_SAME_AXIS = 20,  /* ND_UNSUPPORTED: an axis is merged into itself. `axis` */
    ND_RULE_SPLIT = 21,      /* ND_OUT_OF_BOUNDS: a split lies past the end of its axis. `axis`; `size`: its length; `other`:
                                the coordinate of the split */
    ND_RULE_OTHER_LENGTH = 22, /* ND_INCOMPATIBLE_SHAPE: a view has another length than the first one. `axis`: the first such;
                                `number`: the view's position; `size`: its length; `other`: the first one's */
    ND_RULE_ROOM = 23        /* ND_BAD_ARGUMENT: a layout has, or would have, more than ND_MAX_AXES axes. `size`: how many */
};

/* Which list breaks ND_RULE_COUNT or ND_RULE_EMPTY. */
enum {
    ND_LIST_STRIDES = 1, /* the strides of a layout */
    ND_LIST_SLICE = 2,   /* the elements of a slice, but for new axes */
    ND_LIST_INDEX = 3,   /* the coordinates of an index */
    ND_LIST_AXES = 4,    /* the axes in their new order */
    ND_LIST_TARGET = 5,  /* the shape that a layout is broadcast to */
    ND_LIST_WINDOW = 6,  /* the lengths of a window */
    ND_LIST_CHUNK = 7,   /* the lengths of a chunk */
    ND_LIST_VIEW = 8     /* the axes of a view, beside those of the first one; `number`: its position */
};

/* What places, spans and strides of a reason count. It is ND_BYTES of nd_view_over_bytes_reason alone. */
enum { ND_ELEMENTS = 0, ND_BYTES = 1 };

/*
 * Why a call returns its status: the first rule that its arguments break, in the order in which the call tests them. Each call
 * below takes what its call reads, writes a reason and returns ND_OK, also where the call would return ND_OK: then all fields
 * are 0. `status` is what the call returns, apart from ND_BAD_ARGUMENT and ND_OUT_OF_MEMORY. nd_reason_text writes it as a
 * sentence.
 */
typedef struct nd_reason {
    int32_t status;
    int32_t rule;
    int32_t list;
    int32_t unit;
    size_t axis;
    ptrdiff_t number;
    size_t size;
    size_t other;
} nd_reason;

/*
 * Writes why the elements of a slice don't fit a shape: of nd_slice, nd_slices_intersect, nd_first_intersection and nd_picked
 * after the rules on the layout or the shape. The first axis whose element doesn't fit is told.
 *
 * ND_BAD_ARGUMENT: another `fit`, or a kind of element without a meaning.
 *
 *    nd_slice_reason((2,3,5), (ND_INDEX(0), ND_ALL, ND_INDEX(9)), ND_STRICT) == ND_OUT_OF_BOUNDS, ND_RULE_INDEX, axis 2, number 9, size 5
 *    nd_slice_reason((4), (ND_FROM_BY(9, 0)), ND_STRICT) == ND_OUT_OF_BOUNDS, ND_RULE_BOUND, number 9, size 4
 *    nd_slice_reason((4), (ND_FROM_BY(9, 0)), ND_CLAMPED) == ND_UNSUPPORTED, ND_RULE_STEP, size 4
 *    nd_slice_reason((2,3), (ND_INDEX(0)), ND_STRICT) == ND_INCOMPATIBLE_SHAPE, ND_RULE_COUNT, ND_LIST_SLICE, size 1, other 2
 */
int32_t nd_slice_reason(const size_t *shape, size_t shape_len, const nd_slice_elem *elems, size_t elems_len, int32_t fit,
                        nd_reason *reason) ND_USED;

/*
 * Writes why nd_layout_start doesn't accept a layout. The lowest place is 0, so ND_RULE_LOWEST and ND_RULE_HIGHEST never come.
 *
 * ND_BAD_ARGUMENT: another `mode`.
 *
 *    nd_layout_start_reason((3), (-1), 1, 2, ND_READ_ONLY) == ND_OUT_OF_BOUNDS, ND_RULE_LENGTH, size 2, other 2
 *    nd_layout_start_reason((3,2), (2,3), 1, 8, ND_OWNED) == ND_UNSUPPORTED, ND_RULE_ALIAS, axis 1, number 3, size 4
 */
int32_t nd_layout_start_reason(const size_t *shape, size_t shape_len, const ptrdiff_t *strides, size_t strides_len,
                               size_t elem_size, size_t len, int32_t mode, nd_reason *reason) ND_USED;

/*
 * Writes why nd_check_layout doesn't accept a layout. With an element of one byte and `len` SIZE_MAX, read-only, that is why
 * each call that takes a start and a layout doesn't.
 *
 * ND_BAD_ARGUMENT: another `mode`.
 *
 *    nd_check_layout_reason(1, (3), (-1), 1, 5, ND_READ_ONLY) == ND_OUT_OF_BOUNDS, ND_RULE_LOWEST, size 2, other 1
 *    nd_check_layout_reason(6, (3), (-1), 1, 5, ND_READ_ONLY) == ND_OUT_OF_BOUNDS, ND_RULE_LENGTH, size 6, other 5
 */
int32_t nd_check_layout_reason(size_t start, const size_t *shape, size_t shape_len, const ptrdiff_t *strides,
                               size_t strides_len, size_t elem_size, size_t len, int32_t mode, nd_reason *reason) ND_USED;

/*
 * Writes why a layout can't be read along another shape. On the layout that is what nd_layout_start_reason writes, with an
 * element of one byte and `len` SIZE_MAX, read-only; then ND_RULE_SIZE of the new shape, ND_RULE_OTHER_SIZE where one of the
 * two shapes alone has no index, ND_RULE_COPY, and ND_RULE_OTHER_SIZE.
 *
 * ND_BAD_ARGUMENT: another `order`. Takes the time of nd_reshape for each axis, where there is a reason of strides.
 *
 *    nd_reshape_reason((4,4), (8,1), (2,8), ND_ROW_MAJOR) == ND_INCOMPATIBLE_LAYOUT, ND_RULE_COPY, axis 1, number 1, size 4
 *    nd_reshape_reason((4,4), (8,1), (2,2,2,2), ND_ROW_MAJOR) == ND_OK
 *    nd_reshape_reason((2,3), (3,1), (4), ND_ROW_MAJOR) == ND_INCOMPATIBLE_SHAPE, ND_RULE_OTHER_SIZE, size 4, other 6
 *
 * The first one is refused as 4 times 1 isn't 8.
 */
int32_t nd_reshape_reason(const size_t *shape, size_t shape_len, const ptrdiff_t *strides, size_t strides_len,
                          const size_t *new_shape, size_t new_shape_len, int32_t order, nd_reason *reason) ND_USED;

/*
 * Writes why a list of axes is no order of the axes of a shape: of nd_permuted_axes after the rules on the layout. Always
 * ND_OK. ND_RULE_MISSING comes before ND_RULE_COUNT.
 *
 *    nd_permuted_axes_reason((2,3,4), (0,2,2)) == ND_INCOMPATIBLE_SHAPE, ND_RULE_MISSING, axis 1, size 3, other 3
 *    nd_permuted_axes_reason((2,3), (1,0,1)) == ND_INCOMPATIBLE_SHAPE, ND_RULE_COUNT, ND_LIST_AXES, size 3, other 2
 */
int32_t nd_permuted_axes_reason(const size_t *shape, size_t shape_len, const size_t *axes, size_t axes_len,
                                nd_reason *reason) ND_USED;

/*
 * Writes why a list is no index of a shape: of nd_place after the rules on the layout, and of nd_next_index. Always ND_OK.
 * ND_RULE_COUNT comes before ND_RULE_COORDINATE.
 *
 *    nd_index_reason((2,3), (1,3)) == ND_OUT_OF_BOUNDS, ND_RULE_COORDINATE, axis 1, size 3, other 3
 *    nd_index_reason((2,3), (2)) == ND_OUT_OF_BOUNDS, ND_RULE_COUNT, ND_LIST_INDEX, size 1, other 2
 */
int32_t nd_index_reason(const size_t *shape, size_t shape_len, const size_t *index, size_t index_len,
                        nd_reason *reason) ND_USED;

/*
 * Writes why two shapes have no common one. Always ND_OK.
 *
 *    nd_co_broadcast_reason((4,2,5), (3,1)) == ND_INCOMPATIBLE_SHAPE, ND_RULE_COMMON, axis 1, size 2, other 3
 */
int32_t nd_co_broadcast_reason(const size_t *first, size_t first_len, const size_t *second, size_t second_len,
                               nd_reason *reason) ND_USED;

/*
 * Writes why a layout of a shape can't be broadcast to another: of nd_broadcast after the rules on the layout. Always ND_OK.
 * ND_RULE_COUNT comes before ND_RULE_STRETCH, and then ND_RULE_SIZE of `target`.
 *
 *    nd_broadcast_reason((1,4), (2,5,3)) == ND_INCOMPATIBLE_SHAPE, ND_RULE_STRETCH, axis 2, size 4, other 3
 *    nd_broadcast_reason((1,4), (4)) == ND_INCOMPATIBLE_SHAPE, ND_RULE_COUNT, ND_LIST_TARGET, size 1, other 2
 */
int32_t nd_broadcast_reason(const size_t *shape, size_t shape_len, const size_t *target, size_t target_len,
                            nd_reason *reason) ND_USED;

/*
 * Write why the windows of a shape, or its chunks, can't be taken: of nd_windows and nd_exact_chunks after the rules on the
 * layout. Always ND_OK. ND_RULE_COUNT comes before ND_RULE_EMPTY, and then ND_RULE_SIZE of the counts of blocks and the block.
 *
 *    nd_windows_reason((4,4), (2,0)) == ND_UNSUPPORTED, ND_RULE_EMPTY, ND_LIST_WINDOW, axis 1
 *    nd_windows_reason((4,4), (0)) == ND_INCOMPATIBLE_SHAPE, ND_RULE_COUNT, ND_LIST_WINDOW, size 1, other 2
 *    nd_windows_reason((0x200000000), (0x100000000)) == ND_OVERFLOW, ND_RULE_SIZE
 *    nd_exact_chunks_reason((0x200000000), (0x100000000)) == ND_OK
 */
int32_t nd_windows_reason(const size_t *shape, size_t shape_len, const size_t *window, size_t window_len,
                          nd_reason *reason) ND_USED;
int32_t nd_exact_chunks_reason(const size_t *shape, size_t shape_len, const size_t *chunk, size_t chunk_len,
                               nd_reason *reason) ND_USED;

/*
 * Writes why a shape can't be split along an axis: of nd_split_at after the rules on the layout. Always ND_OK.
 *
 *    nd_split_at_reason((2,3), 1, 4) == ND_OUT_OF_BOUNDS, ND_RULE_SPLIT, axis 1, size 3, other 4
 *    nd_split_at_reason((2,3), 2, 0) == ND_OUT_OF_BOUNDS, ND_RULE_AXIS, axis 2, size 2
 */
int32_t nd_split_at_reason(const size_t *shape, size_t shape_len, size_t axis, size_t index, nd_reason *reason) ND_USED;

/*
 * Writes why an axis can't be merged into another: of nd_merge_axes after the rules on the layout. Always ND_OK. ND_RULE_AXIS
 * of `take` comes before that of `into`, and then ND_RULE_SAME_AXIS. That no stride has the coordinates of both is no error.
 *
 *    nd_merge_axes_reason((2,3), 1, 2) == ND_OUT_OF_BOUNDS, ND_RULE_AXIS, axis 2, size 2
 *    nd_merge_axes_reason((2,3), 1, 1) == ND_UNSUPPORTED, ND_RULE_SAME_AXIS, axis 1
 */
int32_t nd_merge_axes_reason(const size_t *shape, size_t shape_len, size_t take, size_t into, nd_reason *reason) ND_USED;

/* ---- Statuses -------------------------------------------------------------------------------------------------------- */

/* How much room a text needs: none has more bytes, with the 0 that ends it. */
#define ND_TEXT_SIZE 80

/*
 * Writes what a status means, in English, as ASCII text that ends with a 0, and how many bytes it has without that 0.
 * `text`: room for ND_TEXT_SIZE bytes or more; bytes after the 0 are unchanged.
 *
 * ND_BAD_ARGUMENT: a number that is no status, or less room.
 */
int32_t nd_status_text(int32_t status, char *text, size_t text_len, size_t *used) ND_USED;

/* Writes the three numbers of the version of the library that a program has loaded. Always ND_OK. */
int32_t nd_version(int32_t *major, int32_t *minor, int32_t *patch) ND_USED;

/* The version of the header that a program was compiled with. */
ND_INLINE const char *nd_header_version(void) {
    return ND_VERSION;
}

/* What a status means, in the words of nd_status_text; of another number, that it is no status. */
ND_INLINE const char *nd_status_message(int32_t status) {
    switch (status) {
    case ND_OK: return "Ok: the call succeeded";
    case ND_INCOMPATIBLE_SHAPE: return "IncompatibleShape: incompatible shapes";
    case ND_INCOMPATIBLE_LAYOUT: return "IncompatibleLayout: incompatible memory layout";
    case ND_RANGE_LIMITED: return "RangeLimited: the shape does not fit in type limits";
    case ND_OUT_OF_BOUNDS: return "OutOfBounds: out of bounds indexing";
    case ND_UNSUPPORTED: return "Unsupported: unsupported operation";
    case ND_OVERFLOW: return "Overflow: arithmetic overflow";
    case ND_BAD_ARGUMENT: return "BadArgument: a number without a meaning, or a list of the wrong length";
    case ND_OUT_OF_MEMORY: return "OutOfMemory: memory was refused";
    default: return "a number that is no status";
    }
}

/* ---- Layouts as one value -------------------------------------------------------------------------------------------- */

/*
 * The functions below are of this header, and not of the library; ndarray_layout_inline.h, ndarray_layout_cursors.h,
 * ndarray_layout_rows.h, ndarray_layout_bytes.h, ndarray_layout_sharing.h and ndarray_layout_reasons.h, which it includes, have
 * more of them. Each here but the two that count makes one call from above with the fields of a layout, or several. It returns
 * the call's status, and after any but ND_OK nothing has been written. The layout that is written comes last, and may be the one
 * that is read. ND_BAD_ARGUMENT, before every other status, also says that a layout has more than ND_MAX_AXES axes, or would have.
 *
 * ND_MAX_AXES is 32, or what a program defines it as before it includes this header: a number from 4 on, in digits alone. With
 * another number than 32 the types that have that room end with it, and none is declared without it: with 4 they are nd_layout_4,
 * nd_view_4, nd_row_iter_4 and nd_rows_iter_4, and a view takes 104 bytes and an iterator of rows 136, where those of 32 axes take
 * 552 and 808. So a file doesn't compile that shares a header with files of another number. The library takes lists, and knows
 * no number.
 */
#ifndef ND_MAX_AXES
#define ND_MAX_AXES 32
#elif ND_MAX_AXES < 4
#error "ND_MAX_AXES is 4 or more"
#endif

/* (of these headers alone) With room for another count of axes, types have names of their own: below, nd_view is nd_view_4. */
#if ND_MAX_AXES != 32
#define ND_SIZED_AS(name, axes) name##_##axes
#define ND_SIZED_BY(name, axes) ND_SIZED_AS(name, axes)
#define ND_SIZED(name) ND_SIZED_BY(name, ND_MAX_AXES)
#define nd_layout ND_SIZED(nd_layout)
#define nd_view ND_SIZED(nd_view)
#define nd_row_iter ND_SIZED(nd_row_iter)
#define nd_rows_iter ND_SIZED(nd_rows_iter)
#endif

/* A start, a count of axes, and a length and a stride for each. What the lists hold after these is not looked at. */
typedef struct nd_layout {
    size_t start;
    size_t axes;
    size_t shape[ND_MAX_AXES];
    ptrdiff_t strides[ND_MAX_AXES];
} nd_layout;

/* (of this header alone) Whether there is room for so many axes; where there is, it writes their lengths. */
ND_CHECKED((1)) int nd_put_shape(nd_layout *layout, const size_t *shape, size_t shape_len) {
    size_t axis;
    if (shape_len > ND_MAX_AXES) return 0;
    layout->axes = shape_len;
    layout->shape[0] = 0; /* (so that compilers don't warn of a list that nothing has written, where there are no axes) */
    for (axis = 0; axis < shape_len; axis++) layout->shape[axis] = shape[axis];
    return 1;
}

/* (of this header alone) Writes a layout where the call that made it returned ND_OK. */
ND_CHECKED((2, 3)) int32_t nd_keep(int32_t status, const nd_layout *made, nd_layout *layout) {
    if (status == ND_OK) *layout = *made;
    return status;
}

/*
 * The layout of a shape without gaps, from the place 0: nd_default_strides for ND_ROW_MAJOR, nd_fortran_strides for
 * ND_COLUMN_MAJOR.
 */
ND_CHECKED((4)) int32_t nd_layout_from_shape(const size_t *shape, size_t shape_len, int32_t order, nd_layout *layout) {
    nd_layout made;
    if (!nd_put_shape(&made, shape, shape_len)) return ND_BAD_ARGUMENT;
    made.start = 0;
    if (order == ND_ROW_MAJOR)
        return nd_keep(nd_default_strides(made.shape, made.axes, made.strides, made.axes), &made, layout);
    if (order == ND_COLUMN_MAJOR)
        return nd_keep(nd_fortran_strides(made.shape, made.axes, made.strides, made.axes), &made, layout);
    return ND_BAD_ARGUMENT;
}

/* A buffer of `len` elements of `elem_size` bytes. */
typedef struct nd_data {
    size_t elem_size;
    size_t len;
} nd_data;

/* nd_layout_start: accepts a shape and strides over a buffer whose first element is the lowest one. */
ND_CHECKED((7)) int32_t nd_layout_from_strides(const size_t *shape, size_t shape_len, const ptrdiff_t *strides,
                                               size_t strides_len, nd_data data, int32_t mode, nd_layout *layout) {
    nd_layout made;
    size_t axis;
    int32_t status;
    if (!nd_put_shape(&made, shape, shape_len)) return ND_BAD_ARGUMENT;
    status = nd_layout_start(shape, shape_len, strides, strides_len, data.elem_size, data.len, mode, &made.start);
    if (status != ND_OK) return status;
    for (axis = 0; axis < made.axes; axis++) made.strides[axis] = strides[axis];
    return nd_keep(status, &made, layout);
}

/* nd_check_layout: whether a layout fits a buffer. */
ND_CHECKED((1)) int32_t nd_layout_check(const nd_layout *layout, nd_data data, int32_t mode) {
    if (layout->axes > ND_MAX_AXES) return ND_BAD_ARGUMENT;
    return nd_check_layout(layout->start, layout->shape, layout->axes, layout->strides, layout->axes, data.elem_size,
                           data.len, mode);
}

/* nd_place: the place of an index. */
ND_CHECKED((1, 4)) int32_t nd_layout_place(const nd_layout *layout, const size_t *index, size_t index_len, size_t *place) {
    if (layout->axes > ND_MAX_AXES) return ND_BAD_ARGUMENT;
    return nd_place(layout->start, layout->shape, layout->axes, layout->strides, layout->axes, index, index_len, place);
}

/* nd_places: the places of all indices, in an order. */
ND_CHECKED((1)) int32_t nd_layout_places(const nd_layout *layout, int32_t order, size_t *places, size_t places_len) {
    if (layout->axes > ND_MAX_AXES) return ND_BAD_ARGUMENT;
    return nd_places(layout->start, layout->shape, layout->axes, layout->strides, layout->axes, order, places, places_len);
}

/* nd_rows: the start of each row in an order, and the stride and the length of all rows. */
ND_CHECKED((1, 5, 6)) int32_t nd_layout_rows(const nd_layout *layout, int32_t order, size_t *starts, size_t starts_len,
                                             ptrdiff_t *stride, size_t *len) {
    if (layout->axes > ND_MAX_AXES) return ND_BAD_ARGUMENT;
    return nd_rows(layout->start, layout->shape, layout->axes, layout->strides, layout->axes, order, starts, starts_len,
                   stride, len);
}

/* nd_next_index: moves an index to the next one in an order. */
ND_CHECKED((1, 5)) int32_t nd_layout_next_index(const nd_layout *layout, size_t *index, size_t index_len, int32_t order,
                                                int32_t *has_next) {
    if (layout->axes > ND_MAX_AXES) return ND_BAD_ARGUMENT;
    return nd_next_index(layout->shape, layout->axes, index, index_len, order, has_next);
}

/* (of this header alone) The product of lengths; 0 where one is 0. */
ND_INLINE ND_WRAPS size_t nd_product(const size_t *lengths, size_t count) {
    size_t product = 1;
    while (count > 0) product *= lengths[--count];
    return product;
}

/*
 * How many indices a layout has, which is how many places nd_layout_places writes. It is at most the limit, and never wraps,
 * where a call has accepted the layout or made it; nd_layout_places refuses every other count. 0 where there are more than
 * ND_MAX_AXES axes.
 */
ND_CHECKED((1)) size_t nd_layout_size(const nd_layout *layout) {
    return layout->axes > ND_MAX_AXES ? 0 : nd_product(layout->shape, layout->axes);
}

/*
 * How many rows a layout has in an order, which is how many starts nd_layout_rows writes: 1 without axes, 0 without an index.
 * What nd_layout_size says of its number holds of this one too. 0 for a number that is no order.
 */
ND_CHECKED((1)) size_t nd_layout_row_count(const nd_layout *layout, int32_t order) {
    if (order != ND_ROW_MAJOR && order != ND_COLUMN_MAJOR) return 0;
    if (layout->axes == 0 || nd_layout_size(layout) == 0) return nd_layout_size(layout);
    return nd_product(layout->shape + (order == ND_COLUMN_MAJOR), layout->axes - 1);
}

/* nd_slice. */
ND_CHECKED((1, 5)) int32_t nd_layout_slice(const nd_layout *layout, const nd_slice_elem *elems, size_t elems_len, int32_t fit,
                                           nd_layout *slice) {
    nd_layout made;
    size_t elem;
    made.axes = 0;
    for (elem = 0; elem < elems_len; elem++)
        if (elems[elem].kind != ND_INDEX) made.axes++;
    if (layout->axes > ND_MAX_AXES || made.axes > ND_MAX_AXES) return ND_BAD_ARGUMENT;
    return nd_keep(nd_slice(layout->start, layout->shape, layout->axes, layout->strides, layout->axes, elems, elems_len,
                            fit, &made.start, made.shape, made.axes, made.strides, made.axes),
                   &made, slice);
}

/* nd_permuted_axes: axis k of what is written is axis `axes[k]` of the layout. */
ND_CHECKED((1, 4)) int32_t nd_layout_permuted_axes(const nd_layout *layout, const size_t *axes, size_t axes_len,
                                                   nd_layout *permuted) {
    nd_layout made;
    if (layout->axes > ND_MAX_AXES) return ND_BAD_ARGUMENT;
    made.start = layout->start;
    made.axes = layout->axes;
    return nd_keep(nd_permuted_axes(layout->shape, layout->axes, layout->strides, layout->axes, axes, axes_len,
                                   made.shape, made.axes, made.strides, made.axes),
                   &made, permuted);
}

/* nd_reshape: the same places along another shape, in an order. */
ND_CHECKED((1, 5)) int32_t nd_layout_reshape(const nd_layout *layout, const size_t *new_shape, size_t new_shape_len,
                                             int32_t order, nd_layout *reshaped) {
    nd_layout made;
    if (layout->axes > ND_MAX_AXES || !nd_put_shape(&made, new_shape, new_shape_len)) return ND_BAD_ARGUMENT;
    made.start = layout->start;
    return nd_keep(nd_reshape(layout->shape, layout->axes, layout->strides, layout->axes, made.shape, made.axes, order,
                              made.strides, made.axes),
                   &made, reshaped);
}

/* nd_broadcast: the layout read as one of the shape `target`. */
ND_CHECKED((1, 4)) int32_t nd_layout_broadcast(const nd_layout *layout, const size_t *target, size_t target_len,
                                               nd_layout *broadcast) {
    nd_layout made;
    if (layout->axes > ND_MAX_AXES || !nd_put_shape(&made, target, target_len)) return ND_BAD_ARGUMENT;
    made.start = layout->start;
    return nd_keep(nd_broadcast(layout->shape, layout->axes, layout->strides, layout->axes, made.shape, made.axes,
                                        made.strides, made.axes),
                   &made, broadcast);
}

/* nd_windows: what is written has twice as many axes, those along which the windows move and then those in a window. */
ND_CHECKED((1, 4)) int32_t nd_layout_windows(const nd_layout *layout, const size_t *window, size_t window_len,
                                             nd_layout *windows) {
    nd_layout made;
    if (layout->axes > ND_MAX_AXES / 2) return ND_BAD_ARGUMENT;
    made.start = layout->start;
    made.axes = 2 * layout->axes;
    return nd_keep(nd_windows(layout->shape, layout->axes, layout->strides, layout->axes, window, window_len, made.shape,
                              made.axes, made.strides, made.axes),
                   &made, windows);
}

/* nd_exact_chunks: what is written has twice as many axes, those of the chunks' numbers and then those in a chunk. */
ND_CHECKED((1, 4)) int32_t nd_layout_exact_chunks(const nd_layout *layout, const size_t *chunk, size_t chunk_len,
                                                  nd_layout *chunks) {
    nd_layout made;
    if (layout->axes > ND_MAX_AXES / 2) return ND_BAD_ARGUMENT;
    made.start = layout->start;
    made.axes = 2 * layout->axes;
    return nd_keep(nd_exact_chunks(layout->shape, layout->axes, layout->strides, layout->axes, chunk, chunk_len, made.shape,
                                   made.axes, made.strides, made.axes),
                   &made, chunks);
}

/*
 * nd_split_at: the parts below a coordinate of an axis and from it on, in two layouts that are not one. One of them may be the
 * layout that is read.
 */
ND_CHECKED((1, 4, 5)) int32_t nd_layout_split_at(const nd_layout *layout, size_t axis, size_t index, nd_layout *first,
                                                 nd_layout *second) {
    nd_layout made;
    size_t starts[2], shapes[2 * ND_MAX_AXES], other;
    int32_t status;
    if (layout->axes > ND_MAX_AXES) return ND_BAD_ARGUMENT;
    made.axes = layout->axes;
    status = nd_split_at(layout->start, layout->shape, layout->axes, layout->strides, layout->axes, axis, index, starts, 2,
                         shapes, 2 * made.axes, made.strides, made.axes);
    if (status != ND_OK) return status;
    made.start = starts[0];
    for (other = 0; other < made.axes; other++) made.shape[other] = shapes[other];
    *first = made;
    made.start = starts[1];
    for (other = 0; other < made.axes; other++) made.shape[other] = shapes[made.axes + other];
    *second = made;
    return ND_OK;
}

#include "ndarray_layout_inline.h"
#include "ndarray_layout_cursors.h"
#include "ndarray_layout_rows.h"
#include "ndarray_layout_bytes.h"
#include "ndarray_layout_sharing.h"
#include "ndarray_layout_reasons.h"

#ifdef ND_SIZED
#undef nd_layout
#undef nd_view
#undef nd_row_iter
#undef nd_rows_iter
#endif

#ifdef __cplusplus
}
#ifdef __GNUC__
#pragma GCC diagnostic pop
#endif
#endif

#endif
