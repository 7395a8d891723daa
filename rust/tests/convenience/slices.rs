//! Ranges as slices, and the macro `s!`.

use super::{counted, view_of};
use ndarray_layout::{
    ArrayViewMut, ErrorKind, Fit, FixedCount, Ix0, Ix1, Ix2, Ix3, IxDyn, LayoutError, Lengths, NewAxis, Order, Slice,
    SliceArg, SliceElems, SliceInfo, SliceInfoElem, SliceNextDim, Strided, check_slice, from_kind, s, slices_intersect,
};

/// What a slice argument is: its elements as they print, and the counts of axes that its types fix before and after.
fn parts<T: SliceElems, Din: FixedCount, Dout: FixedCount>(
    info: SliceInfo<T, Din, Dout>,
) -> (String, Option<usize>, Option<usize>) {
    let elems: Vec<String> = info.elems().iter().map(SliceInfoElem::to_string).collect();
    (elems.join(", "), Din::NDIM, Dout::NDIM)
}

#[test]
fn ranges_of_each_number_become_slices() {
    let expected = [Slice::new(1, Some(3), 1), Slice::new(1, None, 1), Slice::new(0, Some(3), 1)];
    assert_eq!([Slice::from(1_usize..3), Slice::from(1_usize..), Slice::from(..3_usize)], expected);
    assert_eq!([Slice::from(1_isize..3), Slice::from(1_isize..), Slice::from(..3_isize)], expected);
    assert_eq!([Slice::from(1..3), Slice::from(1..), Slice::from(..3)], expected);
    let expected = [Slice::new(1, Some(4), 1), Slice::new(0, Some(4), 1)];
    assert_eq!([Slice::from(1_usize..=3), Slice::from(..=3_usize)], expected);
    assert_eq!([Slice::from(1_isize..=3), Slice::from(..=3_isize)], expected);
    assert_eq!([Slice::from(1..=3), Slice::from(..=3)], expected);
    assert_eq!(Slice::from(..), Slice::new(0, None, 1));
}

#[test]
fn an_inclusive_range_up_to_the_last_coordinate_has_no_end() {
    let (last, last_of_i32) = (-1_isize, -1_i32);
    assert_eq!(Slice::from(1..=last), Slice::new(1, None, 1));
    assert_eq!(Slice::from(..=last), Slice::new(0, None, 1));
    assert_eq!(Slice::from(last - 2..=last - 1), Slice::new(-3, Some(-1), 1));
    assert_eq!(Slice::from(1..=last_of_i32), Slice::new(1, None, 1));
}

#[test]
fn ranges_and_indices_become_elements() {
    let elem = |start, end| SliceInfoElem::Slice { start, end, step: 1 };
    assert_eq!(SliceInfoElem::from(1_usize..3), elem(1, Some(3)));
    assert_eq!(SliceInfoElem::from(1_usize..), elem(1, None));
    assert_eq!(SliceInfoElem::from(..3_usize), elem(0, Some(3)));
    assert_eq!(SliceInfoElem::from(1_usize..=3), elem(1, Some(4)));
    assert_eq!(SliceInfoElem::from(..=3_usize), elem(0, Some(4)));
    assert_eq!(SliceInfoElem::from(-3_isize..=-1), elem(-3, None));
    assert_eq!(SliceInfoElem::from(..=-2_isize), elem(0, Some(-1)));
    assert_eq!(SliceInfoElem::from(2_usize), SliceInfoElem::Index(2));
}

/// A number past `isize::MAX` is past every axis, where ndarray's becomes negative.
#[test]
fn numbers_past_the_type_stay_past_the_axis() {
    const MAX: isize = isize::MAX;
    assert_eq!(Slice::from(usize::MAX..usize::MAX), Slice::new(MAX, Some(MAX), 1));
    assert_eq!(Slice::from(1_usize << 63..), Slice::new(MAX, None, 1));
    assert_eq!(Slice::from(..1_usize << 63), Slice::new(0, Some(MAX), 1));
    assert_eq!(Slice::from(1..=usize::MAX), Slice::new(1, Some(MAX), 1));
    assert_eq!(Slice::from(..=MAX as usize), Slice::new(0, Some(MAX), 1));
    assert_eq!(Slice::from(..=MAX), Slice::new(0, Some(MAX), 1));
    assert_eq!(Slice::from(MAX..=MAX), Slice::new(MAX, Some(MAX), 1));
    assert_eq!(SliceInfoElem::from(usize::MAX), SliceInfoElem::Index(MAX));
    assert_eq!(check_slice(&Ix1(4), &s![..usize::MAX], Fit::Strict), Err(from_kind(ErrorKind::OutOfBounds)));
    assert_eq!(check_slice(&Ix1(4), &s![usize::MAX], Fit::Strict), Err(from_kind(ErrorKind::OutOfBounds)));
    assert_eq!(check_slice(&Ix1(4), &s![..usize::MAX], Fit::Clamp), Ok(()));
}

#[test]
fn the_macro_lists_elements_with_their_types() {
    assert_eq!(parts(s![]), (String::new(), Some(0), Some(0)));
    assert_eq!(parts(s![..]), ("..".to_string(), Some(1), Some(1)));
    assert_eq!(parts(s![..,]), ("..".to_string(), Some(1), Some(1)));
    assert_eq!(parts(s![3]), ("3".to_string(), Some(1), Some(0)));
    assert_eq!(parts(s![NewAxis]), ("NewAxis".to_string(), Some(0), Some(1)));
    assert_eq!(parts(s![1.., ..;-1, 0]), ("1.., ..;-1, 0".to_string(), Some(3), Some(2)));
    assert_eq!(parts(s![0..4;2, 6, 1..5, NewAxis]), ("..4;2, 6, 1..5, NewAxis".to_string(), Some(3), Some(3)));
    assert_eq!(parts(s![..;2, ..=-2;3,]), ("..;2, ..-1;3".to_string(), Some(2), Some(2)));
    assert_eq!(parts(s![-1, -4..=-1, ..=3]), ("-1, -4.., ..4".to_string(), Some(3), Some(2)));
    assert_eq!(parts(s![.., .., .., .., .., ..]).1, Some(6));
}

#[test]
fn more_than_six_axes_have_a_type_of_any_count() {
    let (text, before, after) = parts(s![.., .., .., 0, .., .., ..]);
    assert_eq!((text.as_str(), before, after), (".., .., .., 0, .., .., ..", None, Some(6)));
    let (_, before, after) = parts(s![.., .., .., .., .., .., NewAxis]);
    assert_eq!((before, after), (Some(6), None));
    let (_, before, after) = parts(s![0, 0, 0, 0, 0, 0, 0, 0]);
    assert_eq!((before, after), (None, Some(0)));
}

#[test]
fn the_macro_takes_numbers_of_each_type_and_slices() {
    let (a, b, c) = (1_usize, -2_isize, 3_i32);
    assert_eq!(parts(s![a, b, c]).0, "1, -2, 3");
    assert_eq!(parts(s![a.., b.., c..]).0, "1.., -2.., 3..");
    assert_eq!(parts(s![..a, ..b, ..c]).0, "..1, ..-2, ..3");
    assert_eq!(parts(s![a..5, b..5, c..5]).0, "1..5, -2..5, 3..5");
    assert_eq!(parts(s![a..=5, b..=5, c..=5]).0, "1..6, -2..6, 3..6");
    assert_eq!(parts(s![..=a, ..=b, ..=c]).0, "..2, ..-1, ..4");
    assert_eq!(parts(s![a..;a, b..;b, c..;c]).0, "1.., -2..;-2, 3..;3");
    assert_eq!(parts(s![a + 1, (a + 1)..;-2_i8, a..a + 2]).0, "2, 2..;-2, 1..3");
    let slice = Slice::new(1, Some(-1), 2);
    assert_eq!(parts(s![slice, slice;-3]), ("1..-1;2, 1..-1;-6".to_string(), Some(2), Some(2)));
    let axis = NewAxis;
    assert_eq!(parts(s![axis, ..]), ("NewAxis, ..".to_string(), Some(1), Some(2)));
}

#[test]
fn a_step_is_of_any_type_of_integers() {
    assert_eq!(
        parts(s![..;2_u8, ..;-2_i16, ..;2_u32, ..;-2_i64, ..;2_u128, ..;2_usize]).0,
        "..;2, ..;-2, ..;2, ..;-2, ..;2, ..;2"
    );
    assert_eq!(parts(s![..;isize::MIN, ..;isize::MAX as u64]).0, format!("..;{}, ..;{}", isize::MIN, isize::MAX));
    let back = Slice::new(0, None, -1);
    assert_eq!(parts(s![back;isize::MAX, back;isize::MIN + 1]).0, format!("..;{}, ..;{}", -isize::MAX, isize::MAX));
    assert_eq!(parts(s![back;0]).0, "..;0");
}

/// ndarray's cast makes -1 of it, and so picks backwards.
#[test]
#[should_panic(expected = "the step of a slice is past isize")]
fn a_step_past_the_type_is_refused() {
    let _ = s![..;usize::MAX];
}

/// ndarray's cast makes 2 of it.
#[test]
#[should_panic(expected = "the step of a slice is past isize")]
fn a_step_whose_last_bits_look_right_is_refused() {
    let _ = s![..;(1_i128 << 64) + 2];
}

/// In ndarray the product wraps to the step 2^62.
#[test]
#[should_panic(expected = "the step of a slice is past isize")]
fn a_product_of_steps_past_the_type_is_refused() {
    let _ = s![Slice::new(0, None, 1 << 62);5];
}

#[test]
#[should_panic(expected = "the step of a slice is past isize")]
fn the_least_step_has_no_opposite() {
    let _ = s![Slice::new(0, None, isize::MIN);-1];
}

/// Each expression between the brackets is evaluated once, from the first to the last.
#[test]
fn the_macro_evaluates_each_expression_once() {
    let mut calls = Vec::new();
    let mut next = |number: isize| {
        calls.push(number);
        number
    };
    assert_eq!(parts(s![next(1), next(2)..next(3);next(4), next(5)]).0, "1, 2..3;4, 5");
    assert_eq!(calls, [1, 2, 3, 4, 5]);
}

/// The types of the elements decide, where a generic function names only them.
fn pair<A, B>(a: A, b: B) -> SliceInfo<[SliceInfoElem; 2], Ix2, Ix1>
where
    A: SliceNextDim<InDim = Ix1, OutDim = Ix0> + Into<SliceInfoElem>,
    B: SliceNextDim<InDim = Ix1, OutDim = Ix1> + Into<SliceInfoElem>,
{
    s![a, b]
}

#[test]
fn elements_may_have_generic_types() {
    assert_eq!(parts(pair(1_usize, 2..)).0, "1, 2..");
}

#[test]
fn a_bare_number_leaves_no_type_open() -> Result<(), LayoutError> {
    let mut numbers = [0, 1, 2, 3, 4, 5];
    let mut rows = ArrayViewMut::from_shape(Ix2(2, 3), &mut numbers)?;
    let (mut column, other) = rows.multi_slice_mut((s![.., 0], s![.., -2]))?;
    column[0] = other[1];
    let [mut item, _] = rows.multi_slice_mut([s![1, 0], s![1, 1]])?;
    item[()] += 5;
    assert_eq!(rows.slice(s![1, ..])?.dim().slice(), [3]);
    assert_eq!(parts(s![0, 1_i32, 2_isize, 3_usize, -1]).0, "0, 1, 2, 3, -1");
    assert_eq!(numbers, [4, 1, 2, 8, 4, 5]);
    Ok(())
}

/// The places that slices of `[2,3,4]` have, in row-major order.
fn places<I: SliceArg<Ix3>>(slices: I) -> Result<Vec<usize>, LayoutError> {
    let part = view_of(Ix3(2, 3, 4))?.sliced(slices)?;
    Ok(part.iter_places(Order::RowMajor).collect())
}

#[test]
fn slices_by_the_macro_have_the_places_of_ndarray() -> Result<(), LayoutError> {
    assert_eq!(places(s![1, .., 0])?, [12, 16, 20]);
    assert_eq!(places(s![.., 1.., ..;-3])?, [7, 4, 11, 8, 19, 16, 23, 20]);
    assert_eq!(places(s![-1, 0..2;-1, 1..=2])?, [17, 18, 13, 14]);
    let lent = &s![-1, 0..2;-1, 1..=2];
    assert_eq!(places(lent)?, [17, 18, 13, 14]);
    assert_eq!(places(s![1, 2, 3])?, [23]);
    assert_eq!(places(s![.., 1..1, ..])?, []);
    let out_of_bounds = LayoutError::from(from_kind(ErrorKind::OutOfBounds));
    assert_eq!(places(s![2, .., ..]), Err(out_of_bounds.clone()));
    assert_eq!(places(s![.., 0..4, ..]), Err(out_of_bounds));
    assert_eq!(places(s![.., ..;0, ..]), Err(from_kind(ErrorKind::Unsupported).into()));
    Ok(())
}

#[test]
fn the_types_of_a_slice_are_those_of_the_result() -> Result<(), LayoutError> {
    let view = view_of(Ix3(2, 3, 4))?;
    let part: Strided<Ix2> = view.sliced(s![1, .., ..;2])?;
    assert_eq!((part.start(), *part.dim(), *part.strides()), (12, Ix2(3, 2), Ix2(4, 2)));
    let part: Strided<Ix3> = view.sliced(s![1, NewAxis, .., ..])?;
    assert_eq!((part.start(), *part.dim()), (12, Ix3(1, 3, 4)));
    let same: Strided<Ix2> = view.slice(&s![1, .., ..;2], Fit::Strict)?;
    assert_eq!(same, view.sliced(s![1, .., ..;2])?);
    let clamped: Strided<Ix3> = view.slice(&s![.., 1..9, ..], Fit::Clamp)?;
    assert_eq!(*clamped.dim(), Ix3(2, 2, 4));
    Ok(())
}

#[test]
fn a_view_of_any_count_of_axes_takes_each_slice() -> Result<(), LayoutError> {
    let view = view_of(IxDyn(&[2, 3]))?;
    let row: Strided<Ix1> = view.sliced(s![1, ..])?;
    assert_eq!((row.start(), *row.dim()), (3, Ix1(3)));
    let elems = [SliceInfoElem::from(..), SliceInfoElem::from(-1)];
    let column: Strided<IxDyn> = view.sliced(&elems[..])?;
    assert_eq!((column.start(), column.dim().slice()), (2, &[2][..]));
    assert_eq!(view.sliced(s![1]).err(), Some(from_kind(ErrorKind::IncompatibleShape).into()));
    Ok(())
}

#[test]
fn a_slice_argument_gives_its_elements() {
    let info = s![1, .., NewAxis, NewAxis];
    assert_eq!(info.len(), 4);
    assert_eq!(info.as_ref().first(), Some(&SliceInfoElem::Index(1)));
    assert_eq!(info.to_vec(), info.elems());
    let copy = info;
    assert_eq!(copy.elems(), info.elems());
    let bare: &[SliceInfoElem] = info.as_ref();
    assert_eq!((SliceArg::<IxDyn>::in_ndim(bare), SliceArg::<IxDyn>::out_ndim(bare)), (2, 3));
    assert_eq!((SliceArg::<IxDyn>::in_ndim(&bare), SliceArg::<IxDyn>::out_ndim(&bare)), (2, 3));
    assert_eq!((SliceArg::<Ix2>::in_ndim(&&info), SliceArg::<Ix2>::out_ndim(&&info)), (2, 3));
    assert_eq!((bare.elems().len(), SliceElems::elems(&&info).len()), (4, 4));
}

#[test]
fn calls_that_take_slices_take_the_macro() -> Result<(), LayoutError> {
    let shape = Ix2(2, 3);
    assert_eq!(slices_intersect(&shape, &s![0, ..], &s![.., -1], Fit::Strict), Ok(true));
    assert_eq!(slices_intersect(&shape, &s![0, ..], &s![1, ..], Fit::Strict), Ok(false));
    let view = view_of(shape)?;
    assert_eq!(view.meets(&s![.., ..;2], &s![.., 1..;2], Fit::Strict), Ok(false));
    assert_eq!(view.picked(&s![.., ..;2], Fit::Strict), Ok(4));
    let mut array = counted(shape)?;
    assert_eq!(array.items(&s![..;-1, 1..])?, [4, 5, 1, 2]);
    array.multi_set(&[(s![0, ..].to_vec(), vec![7, 8, 9]), (s![1, ..;2].to_vec(), vec![5, 6])])?;
    assert_eq!(array.stored(), [7, 8, 9, 5, 4, 6]);
    Ok(())
}
