//! Slices of an axis and of views, and the places of a view.
use super::*;
use std::convert::TryFrom;

struct AxisCase {
    len: usize,
    stride: usize,
    slice: Slice,
}

#[inline(never)]
fn sliced_axis(case: &AxisCase) -> (usize, usize, isize) {
    let (mut len, mut stride) = (case.len, case.stride);
    let offset = do_slice(&mut len, &mut stride, case.slice);
    (len, stride, offset)
}

pub fn do_slice_loop(axes: &[RawAxis], passes: usize) -> usize {
    let case = |raw: &RawAxis| {
        let end = if raw.has_end == 0 { None } else { Some(raw.end) };
        AxisCase { len: raw.len, stride: raw.stride, slice: Slice { start: raw.start, end, step: raw.step } }
    };
    let cases: Vec<AxisCase> = axes.iter().map(case).collect();
    let mut sum = 0usize;
    for _ in 0..passes {
        for case in &cases {
            let (len, stride, offset) = sliced_axis(case);
            sum = sum.wrapping_add(len.wrapping_add(stride).wrapping_add(offset as usize));
        }
    }
    sum
}

struct ViewCase<D, I> {
    view: View<D>,
    info: I,
}

type Two = SliceInfo<[SliceInfoElem; 2], Ix2, Ix1>;

#[inline(never)]
fn slice_two(case: &ViewCase<Ix2, Two>) -> View<Ix1> {
    slice_view(&case.view, &case.info)
}

#[inline(never)]
fn slice_four(case: &ViewCase<IxDyn, [SliceInfoElem; 4]>) -> View<IxDyn> {
    slice_view(&case.view, &case.info[..])
}

fn view_cases<D: Dimension, I>(
    t: &Lists,
    elems: &[RawElem],
    info: impl Fn(Vec<SliceInfoElem>) -> I,
) -> Vec<ViewCase<D, I>> {
    let n = t.axes;
    let each = t.dims.chunks_exact(n).zip(t.strides.chunks_exact(n)).zip(elems.chunks_exact(n));
    each.map(|((dim, strides), elems)| {
        let (dim, strides): (D, D) = (dimension(dim), dimension(strides));
        let start = offset_from_low_addr_ptr_to_logical_ptr(&dim, &strides);
        ViewCase { view: View { start, dim, strides }, info: info(elems.iter().map(elem_of).collect()) }
    })
    .collect()
}

pub fn slice(t: &Lists, elems: &[RawElem], passes: usize) -> usize {
    let mut sum = 0usize;
    if t.axes == 2 {
        let cases = view_cases(t, elems, |e| Two::try_from([e[0], e[1]]).unwrap());
        for _ in 0..passes {
            for case in &cases {
                sum = sum.wrapping_add(number_of_view(&slice_two(case)));
            }
        }
    } else {
        let cases = view_cases(t, elems, |e| [e[0], e[1], e[2], e[3]]);
        for _ in 0..passes {
            for case in &cases {
                sum = sum.wrapping_add(number_of_view(&slice_four(case)));
            }
        }
    }
    sum
}

/// The places of all indices by the layer's `next_for`, the way of the real iterator's `next`.
#[inline(never)]
fn places_by_next(view: &View<Ix2>) -> Vec<usize> {
    let mut places = Vec::with_capacity(view.dim.size());
    let mut next = view.dim.first_index();
    while let Some(index) = next {
        places.push((view.start as isize + Ix2::stride_offset(&index, &view.strides)) as usize);
        next = view.dim.next_for(index);
    }
    places
}

/// The same with a loop over each row, the way of the real iterator's `fold`.
#[inline(never)]
fn places_by_rows(view: &View<Ix2>) -> Vec<usize> {
    let mut places = Vec::with_capacity(view.dim.size());
    let mut next = view.dim.first_index();
    let (len, stride) = (view.dim.last_elem(), view.strides.last_elem() as isize);
    while let Some(mut index) = next {
        let row = view.start as isize + Ix2::stride_offset(&index, &view.strides);
        places.extend((0..len as isize).map(|i| (row + i * stride) as usize));
        index.set_last_elem(len - 1);
        next = view.dim.next_for(index);
    }
    places
}

pub fn places(by_rows: bool, rows: usize, columns: usize, strides: [usize; 2], passes: usize) -> usize {
    let (dim, strides) = (Ix2(rows, columns), Ix2(strides[0], strides[1]));
    let start = offset_from_low_addr_ptr_to_logical_ptr(&dim, &strides);
    let view = View { start, dim, strides };
    let mut sum = 0usize;
    for _ in 0..passes {
        let places = if by_rows { places_by_rows(&view) } else { places_by_next(&view) };
        sum = sum.wrapping_add(places.last().copied().unwrap_or(0));
    }
    sum
}
