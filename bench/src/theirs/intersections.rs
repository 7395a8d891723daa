//! Whether two slice arguments share an element.
use super::*;
use std::convert::TryFrom;

struct PairOfSlices<D, I> {
    dim: D,
    first: I,
    second: I,
}

type TwoAxes = SliceInfo<[SliceInfoElem; 2], Ix2, IxDyn>;

#[inline(never)]
fn intersect_two(case: &PairOfSlices<Ix2, TwoAxes>) -> bool {
    slices_intersect(&case.dim, &case.first, &case.second)
}

#[inline(never)]
fn intersect_four(case: &PairOfSlices<IxDyn, [SliceInfoElem; 4]>) -> bool {
    slices_intersect(&case.dim, &case.first[..], &case.second[..])
}

fn slice_pairs<D: Dimension, I>(
    axes: usize,
    dims: &[usize],
    [firsts, seconds]: &[Vec<RawElem>; 2],
    info: impl Fn(&[RawElem]) -> I,
) -> Vec<PairOfSlices<D, I>> {
    let each = dims.chunks_exact(axes).zip(firsts.chunks_exact(axes)).zip(seconds.chunks_exact(axes));
    each.map(|((dim, first), second)| PairOfSlices { dim: dimension(dim), first: info(first), second: info(second) })
        .collect()
}

pub fn intersect(axes: usize, dims: &[usize], elems: &[Vec<RawElem>; 2], passes: usize) -> usize {
    let mut sum = 0usize;
    if axes == 2 {
        let info = |raw: &[RawElem]| TwoAxes::try_from([elem_of(&raw[0]), elem_of(&raw[1])]).unwrap();
        let cases = slice_pairs(axes, dims, elems, info);
        for _ in 0..passes {
            for case in &cases {
                sum = sum.wrapping_add(if intersect_two(case) { 9 } else { 8 });
            }
        }
    } else {
        let cases = slice_pairs(axes, dims, elems, |raw| [0, 1, 2, 3].map(|axis| elem_of(&raw[axis])));
        for _ in 0..passes {
            for case in &cases {
                sum = sum.wrapping_add(if intersect_four(case) { 9 } else { 8 });
            }
        }
    }
    sum
}
