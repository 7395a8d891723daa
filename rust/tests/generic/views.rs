//! Views of any type, by the names of ndarray's, and what indexes them and slices them.

use ndarray_layout::{
    ArrayView, ArrayView0, ArrayView1, ArrayView2, ArrayView3, ArrayView4, ArrayView5, ArrayView6, ArrayViewD,
    ArrayViewMut, ArrayViewMut0, ArrayViewMut1, ArrayViewMut2, ArrayViewMut3, ArrayViewMut4, ArrayViewMut5,
    ArrayViewMut6, ArrayViewMutD, Dim, Dimension, Ix0, Ix1, Ix2, Ix3, Ix4, Ix5, Ix6, IxDyn, IxDynImpl, LayoutError,
    Lengths, NdIndex, SliceArg, SliceInfo, SliceInfoElem, Strided, all_indices, s,
};
use std::ops::Bound::{Excluded, Included, Unbounded};

/// The greatest item, with its index.
fn greatest<D: Dimension>(view: &ArrayView<'_, i32, D>) -> Option<(D::Pattern, i32)>
where
    D::Pattern: NdIndex<D>,
{
    let indices = all_indices(view.dim().clone()).ok()?;
    indices.into_iter().map(|index| (view.get(&index).copied(), index)).fold(None, |best, (item, index)| {
        let item = item?;
        Some(best.filter(|&(_, most)| most >= item).unwrap_or((index, item)))
    })
}

fn item<D: Dimension, I: NdIndex<D>>(view: &ArrayView<'_, i32, D>, index: I) -> i32 {
    view.get(&index).copied().expect("an index of the view")
}

/// Adds to the item of each index the sum of its coordinates.
fn add_coordinates<D: Dimension>(view: &mut ArrayViewMut<'_, i32, D>) {
    for pattern in all_indices(view.dim().clone()).expect("memory") {
        let index = Dim(pattern);
        let sum = index.slice().iter().sum::<usize>() as i32;
        let item = *view.get(&index).expect("an index of the view");
        assert!(view.set(&index, item + sum));
    }
}

#[test]
fn a_view_of_any_type_is_read_and_written() -> Result<(), LayoutError> {
    let mut items = [5, 0, 1, 4, 3, 9];
    let view = ArrayView::from_shape(Ix2(2, 3), &items)?;
    assert_eq!(greatest(&view), Some(((1, 2), 9)));
    assert_eq!((item(&view, [1, 0]), item(&view, (0, 2)), item(&view, Ix2(0, 0))), (4, 1, 5));
    let view = ArrayView::from_shape(IxDyn(&[3, 2]), &items)?;
    assert_eq!(greatest(&view), Some((IxDyn(&[2, 1]), 9)));
    add_coordinates(&mut ArrayViewMut::from_shape(IxDyn(&[2, 3]), &mut items)?);
    assert_eq!(items, [5, 1, 3, 5, 5, 12]);
    Ok(())
}

/// How many items a slice picks, and how many of them stand in the last place along each axis.
fn sizes<D: Dimension, I: SliceArg<D>>(view: &Strided<D>, slices: I) -> Result<(usize, usize), LayoutError> {
    let shape = view.sliced(slices)?.dim().clone();
    let is_last = |index: &I::OutDim| index.slice().iter().zip(shape.slice()).all(|(i, len)| i + 1 == *len);
    Ok((shape.size(), all_indices(shape.clone())?.into_iter().map(Dim).filter(is_last).count()))
}

/// The view of the inner coordinates: without the first and the last on each axis.
fn inner<'a, D: Dimension>(view: &ArrayView<'a, i32, D>) -> Option<ArrayView<'a, i32, D>> {
    let mut starts = view.dim().clone();
    starts.slice_mut().fill(1);
    let mut ends = view.dim().clone();
    ends -= &starts;
    view.crop(&starts, &ends)
}

#[test]
fn a_view_of_any_type_is_sliced_and_cropped() -> Result<(), LayoutError> {
    let mut items: Vec<i32> = (0..60).collect();
    let view = ArrayView::from_shape(Ix3(3, 4, 5), &items)?;
    assert_eq!(sizes(view.strided(), s![1, .., ..;2])?, (12, 1));
    assert_eq!(inner(&view).map(|inner| inner.iter().copied().collect()), Some(vec![26, 27, 28, 31, 32, 33]));
    let view = ArrayView::from_shape(IxDyn(&[3, 4, 5]), &items)?;
    assert_eq!(sizes(view.strided(), s![1, .., ..;2])?, (12, 1));
    assert_eq!(inner(&view).map(|inner| inner.iter().sum()), Some(26 + 27 + 28 + 31 + 32 + 33));
    assert!(view.strided().crop(&IxDyn(&[0, 0]), &IxDyn(&[1, 1])).is_none());
    let view = ArrayViewMut::from_shape(IxDyn(&[3, 4, 5]), &mut items)?;
    view.crop(&IxDyn(&[1, 1, 1]), &IxDyn(&[2, 2, 2])).expect("a part").fill(-1);
    assert_eq!(items.iter().position(|&item| item == -1), Some(26));
    assert_eq!(items.iter().filter(|&&item| item == -1).count(), 1);
    Ok(())
}

/// What a function takes by the names of ndarray's aliases.
type Views<'a> = (ArrayView0<'a, u8>, ArrayView1<'a, u8>, ArrayView2<'a, u8>, ArrayView3<'a, u8>, ArrayView4<'a, u8>);

type ViewsMut<'a> = (ArrayViewMut0<'a, u8>, ArrayViewMut1<'a, u8>, ArrayViewMut2<'a, u8>);

fn counts(views: &Views<'_>) -> [usize; 5] {
    [views.0.len(), views.1.len(), views.2.len(), views.3.len(), views.4.len()]
}

#[test]
fn an_alias_is_the_view_of_its_count_of_axes() -> Result<(), LayoutError> {
    let items = [7; 24];
    let (four, five) = (ArrayView::from_shape(Ix4(1, 2, 3, 4), &items)?, Ix5(1, 1, 2, 3, 4));
    let three = ArrayView::from_shape(Ix3(2, 3, 1), &items)?;
    let (two, one) = (ArrayView::from_shape(Ix2(2, 2), &items)?, ArrayView::from_shape(Ix1(3), &items)?);
    assert_eq!(counts(&(ArrayView::from_shape(Ix0(), &items)?, one, two, three, four)), [1, 3, 4, 6, 24]);
    let five: ArrayView5<'_, u8> = ArrayView::from_shape(five, &items)?;
    let six: ArrayView6<'_, u8> = ArrayView::from_shape(Ix6(1, 1, 1, 2, 3, 4), &items)?;
    let any: ArrayViewD<'_, u8> = ArrayView::from_shape(IxDyn(&[24]), &items)?;
    assert_eq!((five.len(), six.len(), any.len()), (24, 24, 24));
    Ok(())
}

#[test]
fn an_alias_is_the_view_to_be_written_of_its_count_of_axes() -> Result<(), LayoutError> {
    let (mut first, mut second, mut third) = ([7; 24], [7; 24], [7; 24]);
    let two: ArrayViewMut2<'_, u8> = ArrayViewMut::from_shape(Ix2(4, 6), &mut third)?;
    let mut views: ViewsMut<'_> =
        (ArrayViewMut::from_shape(Ix0(), &mut first)?, ArrayViewMut::from_shape(Ix1(24), &mut second)?, two);
    assert!(views.0.set(&(), 1) && views.1.set(&2, 1) && views.2.set(&(3, 5), 1));
    let mut three: ArrayViewMut3<'_, u8> = ArrayViewMut::from_shape(Ix3(2, 3, 4), &mut first)?;
    assert!(three.set(&(1, 2, 3), 2));
    let mut four: ArrayViewMut4<'_, u8> = ArrayViewMut::from_shape(Ix4(1, 2, 3, 4), &mut first)?;
    assert!(four.set(&(0, 0, 0, 1), 3));
    let mut five: ArrayViewMut5<'_, u8> = ArrayViewMut::from_shape(Ix5(1, 1, 2, 3, 4), &mut first)?;
    assert!(five.set(&(0, 0, 0, 0, 2), 4));
    let mut six: ArrayViewMut6<'_, u8> = ArrayViewMut::from_shape(Ix6(1, 1, 1, 2, 3, 4), &mut first)?;
    assert!(six.set(&(0, 0, 0, 0, 0, 3), 5));
    let mut any: ArrayViewMutD<'_, u8> = ArrayViewMut::from_shape(IxDyn(&[24]), &mut first)?;
    assert!(any.set(&4, 6));
    assert_eq!((&first[..5], first[23], second[2], third[23]), (&[1, 3, 4, 5, 6][..], 2, 1, 1));
    Ok(())
}

#[test]
fn elements_in_a_vector_are_copied() {
    let elems = vec![SliceInfoElem::Index(1), SliceInfoElem::NewAxis, SliceInfoElem::from(..)];
    let info: SliceInfo<Vec<SliceInfoElem>, Ix2, Ix2> = elems.try_into().expect("two axes before and after");
    let copy = info.clone();
    assert_eq!((copy.in_ndim(), copy.out_ndim(), copy.indices()), (2, 2, info.indices()));
}

#[test]
fn a_list_of_lengths_has_an_index_by_two_bounds() {
    let mut lens = IxDynImpl::from(vec![2, 3, 4, 5]);
    assert_eq!(lens[(Excluded(0), Included(2))], [3, 4]);
    lens[(Unbounded, Excluded(1))][0] = 7;
    assert_eq!(lens[..], [7, 3, 4, 5]);
}
