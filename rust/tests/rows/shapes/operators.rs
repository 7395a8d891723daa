//! The operators of dimensions: by the bound alone, and each at the types themselves.

use ndarray_layout::{Arithmetic, Ix1, Ix2, Ix3, IxDyn, Scale};

/// Asserts a sum, a difference and a product of two values, also in place.
fn assert_calculated<D: Arithmetic>(values: impl Fn() -> (D, D), [sum, difference, product]: [D; 3]) {
    let (dim, other) = values();
    assert_eq!(dim + other, sum);
    let (dim, other) = values();
    assert_eq!(dim - other, difference);
    let (dim, other) = values();
    assert_eq!(dim * other, product);
    let (mut dim, other) = values();
    dim += other;
    assert_eq!(dim, sum);
    let (mut dim, other) = values();
    dim -= other;
    assert_eq!(dim, difference);
    let (mut dim, other) = values();
    dim *= other;
    assert_eq!(dim, product);
}

/// A value so many times, and another one in place.
fn scaled<D: Scale>(dim: D, mut other: D, factor: usize) -> (D, D) {
    other *= factor;
    (dim * factor, other)
}

#[test]
fn operators_by_the_bound_alone() {
    assert_calculated(|| (Ix2(3, 5), Ix2(1, 2)), [Ix2(4, 7), Ix2(2, 3), Ix2(3, 10)]);
    assert_eq!(scaled(Ix2(4, 6), Ix2(3, 5), 2), (Ix2(8, 12), Ix2(6, 10)));
}

#[test]
fn operators_of_any_number_of_axes() {
    let dynamic = |lens| IxDyn(lens);
    assert_calculated(|| (dynamic(&[3, 5]), dynamic(&[1, 2])), [dynamic(&[4, 7]), dynamic(&[2, 3]), dynamic(&[3, 10])]);
}

// Those that take a lent value, or a number on one axis.
#[test]
fn operators_of_fixed_types() {
    let mut dim = Ix2(3, 5);
    dim += &Ix2(1, 2);
    dim -= &Ix2(2, 1);
    dim *= &Ix2(2, 3);
    let mut one = Ix1(4) + 3 - 2;
    one += 4;
    one -= 8;
    assert_eq!((dim, one), (Ix2(4, 18), Ix1(1)));
    assert_eq!(Ix3::zero(), Ix3(0, 0, 0));
    assert!(Ix2(0, 0).is_zero() && !Ix2(0, 1).is_zero());
}
