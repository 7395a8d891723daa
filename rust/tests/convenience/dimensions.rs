//! Dimensions by the names of their types, and the types of results.

use ndarray_layout::CanIndexCheckMode::ReadOnly;
use ndarray_layout::{
    AllocError, Axis, Dim, DimAdd, DimMax, Dimension, DimensionExt, ErrorKind, FixedCount, IntoDimension, Ix0, Ix1,
    Ix2, Ix3, Ix4, Ix5, Ix6, IxDyn, IxDynImpl, LayoutError, Lengths, StrideShape, Strided, co_broadcast, from_kind,
};
use std::any::{TypeId, type_name};

/// A type of a caller that becomes a shape.
struct Size {
    width: usize,
    height: usize,
}

impl IntoDimension for Size {
    type Dim = Ix2;

    fn into_dimension(self) -> Result<Ix2, AllocError> {
        Ok(Ix2(self.height, self.width))
    }
}

/// Conversions aren't sealed: what they make is a shape, and a layout of it is checked as any is.
#[test]
fn callers_may_implement_conversions() {
    let shape = StrideShape::from(Size { width: 3, height: 2 });
    assert_eq!(Strided::from_shape(shape, 1, 6, ReadOnly).map(|view| *view.dim()), Ok(Ix2(2, 3)));
    assert_eq!(Dim(Size { width: 3, height: 2 }), Ix2(2, 3));
}

#[test]
fn functions_have_the_names_of_the_types() {
    let none: Ix0 = Ix0();
    let dynamic: IxDyn = IxDyn(&[2, 3]);
    assert_eq!(none.slice(), []);
    assert_eq!(Ix1(2).slice(), [2]);
    assert_eq!(Ix2(2, 3).slice(), [2, 3]);
    assert_eq!(Ix3(2, 3, 4).slice(), [2, 3, 4]);
    assert_eq!(Ix4(2, 3, 4, 5).slice(), [2, 3, 4, 5]);
    assert_eq!(Ix5(2, 3, 4, 5, 6).slice(), [2, 3, 4, 5, 6]);
    assert_eq!(Ix6(2, 3, 4, 5, 6, 7).slice(), [2, 3, 4, 5, 6, 7]);
    assert_eq!(dynamic.slice(), [2, 3]);
    assert_eq!(IxDyn(&[2, 3, 4, 5, 6, 7, 8]).slice(), [2, 3, 4, 5, 6, 7, 8]);
    const SHAPE: Ix2 = Ix2(3, 5);
    assert_eq!(SHAPE[1], 5);
}

#[test]
fn dim_takes_what_lengths_are_written_as() {
    assert_eq!(Dim(()), Ix0());
    assert_eq!(Dim(4), Ix1(4));
    assert_eq!(Dim((4,)), Ix1(4));
    assert_eq!(Dim((3, 2)), Ix2(3, 2));
    assert_eq!(Dim((1, 2, 3)), Ix3(1, 2, 3));
    assert_eq!(Dim((1, 2, 3, 4)), Ix4(1, 2, 3, 4));
    assert_eq!(Dim((1, 2, 3, 4, 5)), Ix5(1, 2, 3, 4, 5));
    assert_eq!(Dim((1, 2, 3, 4, 5, 6)), Ix6(1, 2, 3, 4, 5, 6));
    assert_eq!(Dim([3, 2]), Ix2(3, 2));
    assert_eq!(Dim(Ix2(3, 2)), Ix2(3, 2));
    assert_eq!(Dim(&[3, 2][..]), IxDyn(&[3, 2]));
    assert_eq!(Dim(vec![3, 2]), IxDyn(&[3, 2]));
    assert_eq!(Dim(IxDyn(&[3, 2])), IxDyn(&[3, 2]));
    assert_eq!(Dim(IxDynImpl::from(vec![3, 2])), IxDyn(&[3, 2]));
}

#[test]
fn dimensions_equal_what_they_hold() {
    assert!(Ix2(3, 2) == [3, 2]);
    assert!(Ix2(3, 2) != [2, 3]);
    assert!(IxDyn(&[3, 2]) == IxDynImpl::from(&[3, 2][..]));
    assert!(IxDyn(&[3, 2]) != IxDynImpl::from(&[3, 2, 1][..]));
}

#[test]
fn every_dimension_has_a_default_and_a_clone() {
    assert_eq!(Ix0::default(), Ix0());
    assert_eq!(Ix3::default(), Ix3(0, 0, 0));
    assert_eq!(IxDyn::default(), IxDyn(&[0]));
    assert_eq!(IxDynImpl::default().as_slice(), [0]);
    for lens in [&[][..], &[5], &[2, 3, 4, 5], &[2, 3, 4, 5, 6], &[1; 9]] {
        let mut shape = IxDyn(lens);
        let copy = shape.clone();
        assert_eq!(copy.slice(), lens);
        shape.slice_mut().fill(7);
        assert_eq!(copy.slice(), lens);
    }
}

#[test]
fn a_list_of_lengths_is_a_slice() {
    let mut lens = IxDynImpl::from(vec![2, 3, 4, 5, 6]);
    assert_eq!((lens.len(), lens.first(), lens.iter().sum::<usize>()), (5, Some(&2), 20));
    assert_eq!((&lens[1..3], &lens[3..], &lens[..2]), (&[3, 4][..], &[5, 6][..], &[2, 3][..]));
    assert_eq!((&lens[1..=2], &lens[..=1], &lens[..]), (&[3, 4][..], &[2, 3][..], &[2, 3, 4, 5, 6][..]));
    lens[1..3].fill(9);
    lens[0] = 1;
    lens.reverse();
    assert_eq!(lens.as_slice(), [6, 5, 9, 9, 1]);
}

#[test]
fn an_axis_has_a_length() {
    let mut shape = IxDyn(&[2, 3]);
    shape.set_axis(Axis(1), 7);
    assert_eq!((shape.axis(Axis(0)), shape.axis(Axis(1))), (2, 7));
    let lens: &mut [usize] = &mut [2, 3];
    lens.set_axis(Axis(0), 5);
    assert_eq!((lens.axis(Axis(0)), lens.axis(Axis(1))), (5, 3));
}

/// Checks that two types are one.
fn is_type<Given: 'static, Expected: 'static>() {
    assert_eq!(TypeId::of::<Given>(), TypeId::of::<Expected>(), "{}", type_name::<Given>());
}

/// Checks what two traits make of two types: the sum and the greater count of axes.
fn have_outputs<A, B, Sum: 'static, Max: 'static>()
where
    A: DimAdd<B, Output: 'static> + DimMax<B, Output: 'static>,
    B: DimAdd<A, Output: 'static> + DimMax<A, Output: 'static> + Dimension,
    A: Dimension,
{
    is_type::<<A as DimAdd<B>>::Output, Sum>();
    is_type::<<B as DimAdd<A>>::Output, Sum>();
    is_type::<<A as DimMax<B>>::Output, Max>();
    is_type::<<B as DimMax<A>>::Output, Max>();
}

#[test]
fn two_dimension_types_have_a_sum_and_a_greater_one() {
    have_outputs::<Ix0, Ix0, Ix0, Ix0>();
    have_outputs::<Ix0, Ix6, Ix6, Ix6>();
    have_outputs::<Ix1, Ix1, Ix2, Ix1>();
    have_outputs::<Ix1, Ix5, Ix6, Ix5>();
    have_outputs::<Ix1, Ix6, IxDyn, Ix6>();
    have_outputs::<Ix2, Ix3, Ix5, Ix3>();
    have_outputs::<Ix2, Ix4, Ix6, Ix4>();
    have_outputs::<Ix3, Ix3, Ix6, Ix3>();
    have_outputs::<Ix3, Ix4, IxDyn, Ix4>();
    have_outputs::<Ix5, Ix6, IxDyn, Ix6>();
    have_outputs::<Ix4, IxDyn, IxDyn, IxDyn>();
    have_outputs::<IxDyn, IxDyn, IxDyn, IxDyn>();
}

/// Checks, of a pair of types that both traits know, the outputs against the counts of axes.
fn counts_agree<A: Dimension + DimAdd<B> + DimMax<B>, B: Dimension>() {
    let counts = A::NDIM.zip(B::NDIM);
    let sum = counts.map(|(own, other)| own + other).filter(|sum| *sum <= 6);
    assert_eq!(<A as DimAdd<B>>::Output::NDIM, if A::NDIM == Some(0) { B::NDIM } else { sum });
    assert_eq!(<A as DimMax<B>>::Output::NDIM, counts.map(|(own, other)| own.max(other)));
}

#[test]
fn each_pair_of_dimension_types_has_outputs() {
    macro_rules! rows {
        ($($left:ty),*) => { $( rows!(@row $left); )* };
        (@row $left:ty) => {
            counts_agree::<$left, Ix0>();
            counts_agree::<$left, Ix1>();
            counts_agree::<$left, Ix2>();
            counts_agree::<$left, Ix3>();
            counts_agree::<$left, Ix4>();
            counts_agree::<$left, Ix5>();
            counts_agree::<$left, Ix6>();
            counts_agree::<$left, IxDyn>();
        };
    }
    rows!(Ix0, Ix1, Ix2, Ix3, Ix4, Ix5, Ix6, IxDyn);
}

/// The shape that two others broadcast to, of the type that theirs say.
fn common<A: Dimension + DimMax<B>, B: Dimension>(a: A, b: B) -> Result<<A as DimMax<B>>::Output, LayoutError> {
    co_broadcast(&a, &b)
}

#[test]
fn the_greater_type_is_that_of_a_broadcast() {
    assert_eq!(common(Ix2(2, 1), Ix1(3)), Ok(Ix2(2, 3)));
    assert_eq!(common(IxDyn(&[4, 1, 3]), Ix2(2, 3)), Ok(IxDyn(&[4, 2, 3])));
    assert_eq!(common(Ix2(2, 2), Ix1(3)), Err(from_kind(ErrorKind::IncompatibleShape).into()));
}
