//! Shapes with an order or with strides: what builds them, and which strides they have.

use ndarray_layout::{
    CanIndexCheckMode, Ix2, Ix3, IxDyn, Lengths, Shape, ShapeBuilder, StrideShape, Strides,
    can_index_slice_with_strides, co_broadcast,
};

/// What a builder builds: lengths, their product, their own strides in its order, whether that is by rows, and strides
/// that are given.
#[derive(Clone, Copy)]
pub struct Built<'a> {
    pub lens: &'a [usize],
    pub size: usize,
    pub strides: &'a [usize],
    pub is_c: bool,
    pub given: &'a [usize],
}

fn assert_shape<D: Lengths>(shape: Shape<D>, built: Built, is_c: bool) {
    assert_eq!(shape.raw_dim().slice(), built.lens);
    assert_eq!((shape.size(), shape.is_c()), (built.size, is_c));
}

/// Asserts the lengths and the strides of a shape, along which data may be read; its own, or given ones.
fn assert_strides<D: Lengths>(shape: StrideShape<D>, built: Built, strides: &[usize], is_custom: bool) {
    assert_eq!(shape.raw_dim().slice(), built.lens);
    assert_eq!((shape.size(), shape.strides.is_custom()), (built.size, is_custom));
    let StrideShape { dim, strides: kept } = shape;
    assert_eq!(can_index_slice_with_strides(1, usize::MAX, &dim, &kept, CanIndexCheckMode::ReadOnly), Ok(()));
    assert_eq!(kept.strides_for_dim(&dim).unwrap().slice(), strides);
}

/// Asserts what a builder builds in each order, with its own strides and with given ones.
pub fn assert_builds<T: ShapeBuilder + Copy>(builder: T, given: T::Strides, built: Built) {
    assert_strides(builder.strides(given).unwrap(), built, built.given, true);
    assert_strides(StrideShape::from_builder(builder).unwrap(), built, built.strides, false);
    assert_shape(builder.into_shape_with_order().unwrap(), built, built.is_c);
    assert_shape(builder.f().unwrap(), built, false);
    assert_shape(builder.set_f(true).unwrap(), built, false);
    assert_shape(builder.set_f(false).unwrap(), built, true);
    assert!(format!("{:?}", builder.f().unwrap()).starts_with("Shape "));
    assert!(format!("{:?}", StrideShape::from_builder(builder).unwrap()).starts_with("StrideShape "));
}

#[test]
fn builders_of_two_axes() {
    let built = Built { lens: &[2, 3], size: 6, strides: &[3, 1], is_c: true, given: &[4, 7] };
    let shape = Shape::from(Ix2(2, 3));
    assert_builds((2, 3), (4, 7), built);
    assert_builds(shape, Ix2(4, 7), built);
    assert_builds(shape.f().unwrap(), Ix2(4, 7), Built { strides: &[1, 2], is_c: false, ..built });
}

#[test]
fn builders_of_any_number_of_axes() {
    let built =
        Built { lens: &[2, 3, 1, 2, 2], size: 24, strides: &[12, 4, 4, 2, 1], is_c: true, given: &[1, 2, 9, 6, 12] };
    assert_builds(built.lens, built.given, built);
    let columns = StrideShape::from_builder(built.lens.f().unwrap()).unwrap();
    assert_strides(columns, built, &[1, 2, 6, 6, 12], false);
}

// A shape with strides is copied where its dimension is, and hands on its parts.
#[test]
fn shapes_are_copied() {
    let shape = StrideShape { dim: Ix2(2, 3), strides: Strides::C };
    let copy = shape;
    assert_eq!((copy.dim, copy.size()), (shape.dim, 6));
}

#[test]
fn common_shape_of_two_types() {
    let common: IxDyn = co_broadcast(&Ix2(2, 3), &Ix3(4, 1, 3)).unwrap();
    assert_eq!(common, IxDyn(&[4, 2, 3]));
}
