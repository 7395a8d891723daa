//! The calls of the crate in ffi/.
#![allow(dead_code)] // each program calls some of them
use super::tables::{Lists, Parts, RawAxis, RawElem, Reshapes};

// In Rattle each pair of a pointer and a length is one slice, and the parameter of type `Global` takes no bytes.
type N = *const usize;
unsafe extern "C" {
    fn bench_ffi_layouts(
        kind: usize,
        call: usize,
        axes: usize,
        dims: N,
        n: usize,
        strides: N,
        m: usize,
        index: N,
        k: usize,
        lens: N,
        l: usize,
        passes: usize,
    ) -> usize;
    fn bench_ffi_stride_offset(
        kind: usize,
        dims: N,
        n: usize,
        strides: N,
        m: usize,
        index: N,
        k: usize,
        passes: usize,
    ) -> usize;
    fn bench_ffi_default_strides(axes: usize, dims: N, n: usize, passes: usize) -> usize;
    fn bench_ffi_co_broadcast(
        kind: usize,
        axes: usize,
        firsts: N,
        n: usize,
        seconds: N,
        m: usize,
        passes: usize,
    ) -> usize;
    fn bench_ffi_edits(
        kind: usize,
        call: usize,
        dims: N,
        n: usize,
        strides: N,
        m: usize,
        places: N,
        k: usize,
        passes: usize,
    ) -> usize;
    fn bench_ffi_do_slice(axes: *const RawAxis, n: usize, passes: usize) -> usize;
    fn bench_ffi_slice_two(
        dims: N,
        n: usize,
        strides: N,
        m: usize,
        lens: N,
        l: usize,
        elems: *const RawElem,
        e: usize,
        passes: usize,
    ) -> usize;
    fn bench_ffi_slice_four(
        dims: N,
        n: usize,
        strides: N,
        m: usize,
        lens: N,
        l: usize,
        elems: *const RawElem,
        e: usize,
        passes: usize,
    ) -> usize;
    fn bench_ffi_places(
        rows: usize,
        columns: usize,
        row_stride: usize,
        column_stride: usize,
        len: usize,
        passes: usize,
    ) -> usize;
    fn bench_ffi_iter_places(
        kind: usize,
        reads: usize,
        dim: N,
        n: usize,
        strides: N,
        m: usize,
        data: *const u8,
        l: usize,
        passes: usize,
    ) -> usize;
    fn bench_ffi_reshape(
        kind: usize,
        by_columns: usize,
        dims: N,
        n: usize,
        strides: N,
        m: usize,
        tos: N,
        k: usize,
        passes: usize,
    ) -> usize;
    fn bench_ffi_intersect(
        axes: usize,
        dims: N,
        n: usize,
        firsts: *const RawElem,
        m: usize,
        seconds: *const RawElem,
        k: usize,
        passes: usize,
    ) -> usize;
    fn bench_ffi_run(rows: N, n: usize, elems: *const RawElem, e: usize, passes: usize) -> usize;
    fn bench_ffi_owned(
        call: usize,
        rows: usize,
        columns: usize,
        size: usize,
        elems: *const RawElem,
        e: usize,
        places: N,
        k: usize,
        count: usize,
        passes: usize,
    ) -> usize;
    fn bench_ffi_indices_two(by_columns: usize, rows: usize, columns: usize, passes: usize) -> usize;
    fn bench_ffi_indices_three(planes: usize, rows: usize, columns: usize, passes: usize) -> usize;
    fn bench_ffi_slice_axes(dims: N, n: usize, strides: N, m: usize, len: usize, passes: usize) -> usize;
    fn bench_ffi_steps(count: usize, passes: usize) -> usize;
    fn bench_ffi_rows(
        rows: usize,
        columns: usize,
        size: usize,
        first: isize,
        step: isize,
        passes: usize,
    ) -> usize;
    fn bench_ffi_tiles(
        count: usize,
        side: isize,
        items: usize,
        lines: usize,
        size: usize,
        passes: usize,
    ) -> usize;
}

// SAFETY (all): each pointer and length are those of one slice, borrowed for the call, and the declarations above
// fit the Rattle source. The only facts asked for are those of `RawAxis`, which `axes` in the tables keeps.
pub fn layouts(call: usize, t: &Lists, passes: usize) -> usize {
    let (d, s, i, l) = (&t.dims, &t.strides, &t.index, &t.lens);
    unsafe {
        bench_ffi_layouts(
            t.kind,
            call,
            t.axes,
            d.as_ptr(),
            d.len(),
            s.as_ptr(),
            s.len(),
            i.as_ptr(),
            i.len(),
            l.as_ptr(),
            l.len(),
            passes,
        )
    }
}
pub fn stride_offset(t: &Lists, passes: usize) -> usize {
    let (d, s, i) = (&t.dims, &t.strides, &t.index);
    unsafe { bench_ffi_stride_offset(t.kind, d.as_ptr(), d.len(), s.as_ptr(), s.len(), i.as_ptr(), i.len(), passes) }
}
pub fn default_strides(axes: usize, dims: &[usize], passes: usize) -> usize {
    unsafe { bench_ffi_default_strides(axes, dims.as_ptr(), dims.len(), passes) }
}
pub fn co_broadcast(kind: usize, axes: usize, firsts: &[usize], seconds: &[usize], passes: usize) -> usize {
    let (f, s) = (firsts, seconds);
    unsafe { bench_ffi_co_broadcast(kind, axes, f.as_ptr(), f.len(), s.as_ptr(), s.len(), passes) }
}
pub fn edits(call: usize, kind: usize, t: &Lists, places: &[usize], passes: usize) -> usize {
    let (d, s) = (&t.dims, &t.strides);
    unsafe {
        bench_ffi_edits(kind, call, d.as_ptr(), d.len(), s.as_ptr(), s.len(), places.as_ptr(), places.len(), passes)
    }
}
pub fn do_slice(axes: &[RawAxis], passes: usize) -> usize {
    unsafe { bench_ffi_do_slice(axes.as_ptr(), axes.len(), passes) }
}
pub fn slice(t: &Lists, elems: &[RawElem], passes: usize) -> usize {
    let call = if t.axes == 2 { bench_ffi_slice_two } else { bench_ffi_slice_four };
    let (d, s, l) = (&t.dims, &t.strides, &t.lens);
    unsafe {
        call(d.as_ptr(), d.len(), s.as_ptr(), s.len(), l.as_ptr(), l.len(), elems.as_ptr(), elems.len(), passes)
    }
}
pub fn places(rows: usize, columns: usize, strides: [usize; 2], len: usize, passes: usize) -> usize {
    unsafe { bench_ffi_places(rows, columns, strides[0], strides[1], len, passes) }
}
pub fn iter_places(kind: usize, reads: bool, [d, s]: [&[usize]; 2], data: &[u8], passes: usize) -> usize {
    let reads = reads as usize;
    unsafe {
        bench_ffi_iter_places(kind, reads, d.as_ptr(), d.len(), s.as_ptr(), s.len(), data.as_ptr(), data.len(), passes)
    }
}
pub fn indices_two(by_columns: bool, shape: [usize; 2], passes: usize) -> usize {
    unsafe { bench_ffi_indices_two(by_columns as usize, shape[0], shape[1], passes) }
}
pub fn indices_three(shape: [usize; 3], passes: usize) -> usize {
    unsafe { bench_ffi_indices_three(shape[0], shape[1], shape[2], passes) }
}
pub fn reshapes(kind: usize, t: &Reshapes, passes: usize) -> usize {
    let (d, s, o) = (&t.dims, &t.strides, &t.tos);
    unsafe {
        bench_ffi_reshape(
            kind,
            t.by_columns as usize,
            d.as_ptr(),
            d.len(),
            s.as_ptr(),
            s.len(),
            o.as_ptr(),
            o.len(),
            passes,
        )
    }
}
pub fn intersect(axes: usize, dims: &[usize], [firsts, seconds]: &[Vec<RawElem>; 2], passes: usize) -> usize {
    unsafe {
        bench_ffi_intersect(
            axes,
            dims.as_ptr(),
            dims.len(),
            firsts.as_ptr(),
            firsts.len(),
            seconds.as_ptr(),
            seconds.len(),
            passes,
        )
    }
}
pub fn run(rows: &[usize], elems: &[RawElem], passes: usize) -> usize {
    unsafe { bench_ffi_run(rows.as_ptr(), rows.len(), elems.as_ptr(), elems.len(), passes) }
}
pub fn owned(writes: bool, [rows, columns]: [usize; 2], t: &Parts, passes: usize) -> usize {
    let (e, p) = (&t.elems, &t.places);
    unsafe {
        bench_ffi_owned(
            writes as usize,
            rows,
            columns,
            rows * columns,
            e.as_ptr(),
            e.len(),
            p.as_ptr(),
            p.len(),
            t.count,
            passes,
        )
    }
}
pub fn slice_axes(dim: &[usize], strides: &[usize], len: usize, passes: usize) -> usize {
    unsafe { bench_ffi_slice_axes(dim.as_ptr(), dim.len(), strides.as_ptr(), strides.len(), len, passes) }
}
pub fn steps(count: usize, passes: usize) -> usize {
    unsafe { bench_ffi_steps(count, passes) }
}
pub fn tiles(count: usize, side: usize, passes: usize) -> usize {
    let lines = count * side;
    unsafe { bench_ffi_tiles(count, side as isize, side * side, lines, lines * lines, passes) }
}
pub fn rows(rows: usize, columns: usize, [first, step]: [isize; 2], passes: usize) -> usize {
    unsafe { bench_ffi_rows(rows, columns, rows * columns, first, step, passes) }
}
