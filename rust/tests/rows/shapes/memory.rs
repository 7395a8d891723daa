//! Calls with ample memory: what has more than four lengths needs some, and much where it has 1,100, which take more
//! than 8,192 bytes. What calls return where an allocation fails, `refusal_tests` shows.

use super::builders::{Built, assert_builds};
use super::values::hash_of;
use ndarray_layout::{
    Axis, IndexCursor, IndexCursorF, IntoDimension, IxDyn, IxDynImpl, Lengths, Order, RemoveAxis, ShapeArg,
    co_broadcast, new_dim, new_ixdyn,
};

/// The lengths with an axis of length 1 more.
fn inserted(lens: &[usize], place: usize) -> IxDynImpl {
    IxDynImpl::copy_from(lens).unwrap().insert(place).unwrap()
}

/// Asserts that the lengths without an axis are those of a list, with its hash.
fn assert_removed(lens: &[usize], place: usize, narrower: &[usize]) {
    let (left, made) =
        (IxDynImpl::copy_from(lens).unwrap().remove(place).unwrap(), IxDynImpl::copy_from(narrower).unwrap());
    assert_eq!((hash_of(&left), left), (hash_of(&made), made));
}

/// Asserts what the calls of a dimension of ones make: as many lengths, one more, and one less.
fn assert_made<D: RemoveAxis>(dim: &D, ones: &[usize], wider: &[usize]) {
    let count = ones.len();
    assert_eq!(dim.duplicate().unwrap().slice(), ones);
    assert_eq!(dim.first_index().unwrap().unwrap().ndim(), count);
    assert_eq!(D::from_dimension(dim).unwrap().unwrap().ndim(), count);
    assert_eq!(dim._fastest_varying_stride_order().unwrap().ndim(), count);
    assert_eq!(dim.insert_axis(Axis(count)).unwrap().slice(), wider);
    assert_eq!(dim.remove_axis(Axis(0)).unwrap().slice(), &ones[1..]);
    assert_eq!(co_broadcast::<D, D, D>(dim, dim).unwrap().slice(), ones);
}

/// Asserts that values of any number of axes are made of a list, and of a shape with an order.
fn assert_made_of(lens: &[usize]) {
    assert_eq!(new_ixdyn(lens).unwrap().slice(), lens);
    assert_eq!(new_dim(lens).unwrap().slice(), lens);
    assert_eq!(lens.into_dimension().unwrap().slice(), lens);
    let (dim, order) = (lens, Order::F).into_shape_and_order().unwrap();
    assert_eq!((dim.slice(), order), (lens, Some(Order::F)));
    assert_eq!(IxDyn::zeros(lens.len()).unwrap().ndim(), lens.len());
}

#[test]
fn ample_memory() {
    let all = [1; 1101];
    for count in [5, 6, 100, 1100] {
        let (ones, wider) = (&all[..count], &all[..count + 1]);
        assert_made_of(ones);
        assert_eq!(IndexCursor::new(IxDyn(ones)).unwrap().len(), 1);
        assert_eq!(IndexCursorF::new(IxDyn(ones)).unwrap().len(), 1);
        assert_builds(ones, ones, Built { lens: ones, size: 1, strides: ones, is_c: true, given: ones });
        assert_eq!(inserted(ones, count).as_slice(), wider);
        assert_removed(wider, 0, ones);
        assert_made(&IxDyn(ones), ones, wider);
    }
}

// Lists of four lengths, which need no memory, and of five.
#[test]
fn four_lengths_and_five() {
    assert_eq!(new_ixdyn(&[1, 2, 3, 4]).unwrap().slice(), [1, 2, 3, 4]);
    assert_eq!(new_ixdyn(&[1, 2, 3, 4, 5]).unwrap().slice(), [1, 2, 3, 4, 5]);
    assert_eq!(inserted(&[1, 2, 3], 1).as_slice(), [1, 1, 2, 3]);
    assert_eq!(inserted(&[1, 2, 3, 4], 4).as_slice(), [1, 2, 3, 4, 1]);
}
