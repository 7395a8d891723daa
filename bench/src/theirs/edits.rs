//! Calls that change a layout in place, each of a copy of its arguments.
use super::*;

struct EditCase<D> {
    dim: D,
    strides: D,
    take: usize,
    into: usize,
    coordinate: usize,
}

#[inline(never)]
fn merged<D: Dimension>(case: &EditCase<D>) -> usize {
    let mut dim = case.dim.clone();
    let mut strides = case.strides.clone();
    let merged = merge_axes(&mut dim, &mut strides, Axis(case.take), Axis(case.into));
    let len = dim.slice().last().copied().unwrap_or(0);
    let stride = strides.slice().last().copied().unwrap_or(0);
    len.wrapping_add(stride).wrapping_add(if merged { 3 } else { 1 })
}

#[inline(never)]
fn collapsed<D: Dimension>(case: &EditCase<D>) -> usize {
    let mut dim = case.dim.clone();
    let offset = do_collapse_axis(&mut dim, &case.strides, case.take, case.coordinate);
    let len = dim.slice().last().copied().unwrap_or(0);
    len.wrapping_add(offset as usize)
}

fn run_edits<D: Dimension>(call: usize, t: &Lists, places: &[usize], passes: usize) -> usize {
    let each = t.dims.chunks_exact(4).zip(t.strides.chunks_exact(4)).zip(places.chunks_exact(3));
    let case = |((dim, strides), places): ((&[usize], &[usize]), &[usize])| EditCase {
        dim: dimension(dim),
        strides: dimension(strides),
        take: places[0],
        into: places[1],
        coordinate: places[2],
    };
    let cases: Vec<EditCase<D>> = each.map(case).collect();
    let mut sum = 0usize;
    if call == 0 {
        for _ in 0..passes {
            for case in &cases {
                sum = sum.wrapping_add(merged(case));
            }
        }
    } else {
        for _ in 0..passes {
            for case in &cases {
                sum = sum.wrapping_add(collapsed(case));
            }
        }
    }
    sum
}

pub fn edits(call: usize, kind: usize, t: &Lists, places: &[usize], passes: usize) -> usize {
    match kind {
        4 => run_edits::<Ix4>(call, t, places, passes),
        _ => run_edits::<IxDyn>(call, t, places, passes),
    }
}
