//! Calls that read a layout.
use super::*;

struct Case<'a, D> {
    dim: D,
    strides: D,
    index: D,
    data: &'a [u32],
}

fn cases<'a, D: Dimension>(t: &Lists, data: &'a [u32]) -> Vec<Case<'a, D>> {
    let n = t.axes;
    let mut cases = Vec::new();
    for (((dim, strides), index), len) in
        t.dims.chunks_exact(n).zip(t.strides.chunks_exact(n)).zip(t.index.chunks_exact(n)).zip(&t.lens)
    {
        let (dim, strides, index): (D, D, D) = (dimension(dim), dimension(strides), dimension(index));
        assert!(can_index_slice(&data[..*len], &dim, &strides, CanIndexCheckMode::OwnedMutable).is_ok());
        cases.push(Case { dim, strides, index, data: &data[..*len] });
    }
    cases
}

#[inline(never)]
fn accepts<D: Dimension>(case: &Case<D>) -> Result<(), ShapeError> {
    can_index_slice(case.data, &case.dim, &case.strides, CanIndexCheckMode::OwnedMutable)
}

fn run_accepts<D: Dimension>(cases: &[Case<D>], passes: usize) -> usize {
    let mut sum = 0usize;
    for _ in 0..passes {
        for case in cases {
            let number = match accepts(case) {
                Ok(()) => 7,
                Err(error) => number_of_kind(error.kind()),
            };
            sum = sum.wrapping_add(number);
        }
    }
    sum
}

#[inline(never)]
fn overlaps<D: Dimension>(case: &Case<D>) -> bool {
    dim_stride_overlap(&case.dim, &case.strides)
}

fn run_overlaps<D: Dimension>(cases: &[Case<D>], passes: usize) -> usize {
    let mut sum = 0usize;
    for _ in 0..passes {
        for case in cases {
            sum = sum.wrapping_add(if overlaps(case) { 3 } else { 1 });
        }
    }
    sum
}

#[inline(never)]
fn offset<D: Dimension>(case: &Case<D>) -> Option<isize> {
    case.index.index_checked(&case.dim, &case.strides)
}

fn run_offset<D: Dimension>(cases: &[Case<D>], passes: usize) -> usize {
    let mut sum = 0usize;
    for _ in 0..passes {
        for case in cases {
            let number = match offset(case) {
                Some(offset) => offset as usize,
                None => 1_000_000,
            };
            sum = sum.wrapping_add(number);
        }
    }
    sum
}

#[inline(never)]
fn is_gapless<D: Dimension>(case: &Case<D>) -> bool {
    D::is_contiguous(&case.dim, &case.strides)
}

fn run_gapless<D: Dimension>(cases: &[Case<D>], passes: usize) -> usize {
    let mut sum = 0usize;
    for _ in 0..passes {
        for case in cases {
            sum = sum.wrapping_add(if is_gapless(case) { 3 } else { 1 });
        }
    }
    sum
}

#[inline(never)]
fn lies_by_rows<D: Dimension>(case: &Case<D>) -> bool {
    is_layout_c(&case.dim, &case.strides)
}

fn run_by_rows<D: Dimension>(cases: &[Case<D>], passes: usize) -> usize {
    let mut sum = 0usize;
    for _ in 0..passes {
        for case in cases {
            sum = sum.wrapping_add(if lies_by_rows(case) { 3 } else { 1 });
        }
    }
    sum
}

#[inline(never)]
fn least_axis<D: Dimension>(case: &Case<D>) -> Axis {
    case.dim.min_stride_axis(&case.strides)
}

fn run_least_axis<D: Dimension>(cases: &[Case<D>], passes: usize) -> usize {
    let mut sum = 0usize;
    for _ in 0..passes {
        for case in cases {
            sum = sum.wrapping_add(least_axis(case).index());
        }
    }
    sum
}

fn run<D: Dimension>(call: usize, cases: &[Case<D>], passes: usize) -> usize {
    match call {
        0 => run_accepts(cases, passes),
        1 => run_overlaps(cases, passes),
        2 => run_offset(cases, passes),
        3 => run_gapless(cases, passes),
        4 => run_by_rows(cases, passes),
        _ => run_least_axis(cases, passes),
    }
}

pub fn layouts(call: usize, t: &Lists, data: &[u32], passes: usize) -> usize {
    match t.kind {
        2 => run(call, &cases::<Ix2>(t, data), passes),
        3 => run(call, &cases::<Ix3>(t, data), passes),
        4 => run(call, &cases::<Ix4>(t, data), passes),
        6 => run(call, &cases::<Ix6>(t, data), passes),
        _ => run(call, &cases::<IxDyn>(t, data), passes),
    }
}

struct IndexCase<D> {
    index: D,
    strides: D,
}

#[inline(never)]
fn unchecked_offset<D: Dimension>(case: &IndexCase<D>) -> isize {
    D::stride_offset(&case.index, &case.strides)
}

fn run_unchecked<D: Dimension>(t: &Lists, passes: usize) -> usize {
    let each = t.strides.chunks_exact(t.axes).zip(t.index.chunks_exact(t.axes));
    let cases: Vec<IndexCase<D>> =
        each.map(|(strides, index)| IndexCase { index: dimension(index), strides: dimension(strides) }).collect();
    let mut sum = 0usize;
    for _ in 0..passes {
        for case in &cases {
            sum = sum.wrapping_add(unchecked_offset(case) as usize);
        }
    }
    sum
}

pub fn stride_offset_loop(t: &Lists, passes: usize) -> usize {
    match t.kind {
        3 => run_unchecked::<Ix3>(t, passes),
        _ => run_unchecked::<IxDyn>(t, passes),
    }
}
