//! Iterators over all indices of a shape.
use super::*;

#[inline(never)]
fn by_rows_of_two(dim: &Ix2, before: usize) -> usize {
    let mut sum = before;
    for (i, j) in indices(*dim) {
        sum = sum.wrapping_add(i ^ j);
    }
    sum
}

#[inline(never)]
fn by_columns_of_two(dim: &Ix2, before: usize) -> usize {
    let mut sum = before;
    for (i, j) in indices_iter_f(*dim) {
        sum = sum.wrapping_add(i ^ j);
    }
    sum
}

#[inline(never)]
fn by_rows_of_three(dim: &Ix3, before: usize) -> usize {
    let mut sum = before;
    for (i, j, k) in indices(*dim) {
        sum = sum.wrapping_add(i ^ j ^ k);
    }
    sum
}

pub fn indices_two(by_columns: bool, shape: [usize; 2], passes: usize) -> usize {
    let dim = Ix2(shape[0], shape[1]);
    let mut sum = 0usize;
    for _ in 0..passes {
        sum = if by_columns { by_columns_of_two(&dim, sum) } else { by_rows_of_two(&dim, sum) };
    }
    sum
}

pub fn indices_three(shape: [usize; 3], passes: usize) -> usize {
    let dim = Ix3(shape[0], shape[1], shape[2]);
    let mut sum = 0usize;
    for _ in 0..passes {
        sum = by_rows_of_three(&dim, sum);
    }
    sum
}
