//! Calls that make lists of shapes.
use super::*;
use ndarray_layer::broadcast::co_broadcast;

#[inline(never)]
fn strides_of<D: Dimension>(dim: &D) -> D {
    dim.default_strides()
}

pub fn default_strides(dims: &[usize], passes: usize) -> usize {
    let cases: Vec<IxDyn> = dims.chunks_exact(4).map(IxDyn).collect();
    let mut sum = 0usize;
    for _ in 0..passes {
        for case in &cases {
            let strides = strides_of(case);
            sum = sum.wrapping_add(strides.slice().first().copied().unwrap_or(0));
        }
    }
    sum
}

struct PairCase<D> {
    first: D,
    second: D,
}

#[inline(never)]
fn common_of<D: Dimension>(case: &PairCase<D>) -> Result<D, ShapeError> {
    co_broadcast::<D, D, D>(&case.first, &case.second)
}

fn run_common<D: Dimension>(firsts: &[usize], seconds: &[usize], passes: usize) -> usize {
    let each = firsts.chunks_exact(4).zip(seconds.chunks_exact(4));
    let cases: Vec<PairCase<D>> =
        each.map(|(first, second)| PairCase { first: dimension(first), second: dimension(second) }).collect();
    let mut sum = 0usize;
    for _ in 0..passes {
        for case in &cases {
            let number = match common_of(case) {
                Ok(common) => common.slice().first().copied().unwrap_or(0),
                Err(error) => number_of_kind(error.kind()),
            };
            sum = sum.wrapping_add(number);
        }
    }
    sum
}

pub fn co_broadcast_loop(kind: usize, firsts: &[usize], seconds: &[usize], passes: usize) -> usize {
    match kind {
        4 => run_common::<Ix4>(firsts, seconds, passes),
        _ => run_common::<IxDyn>(firsts, seconds, passes),
    }
}
