//! Slice arguments whose type says the counts of axes before and after.

use ndarray_layout::{
    Dimension, ErrorKind, FixedCount, Ix1, Ix2, Ix3, IxDyn, ShapeError, SliceArg, SliceElems, SliceInfo, SliceInfoElem,
    from_kind,
};

/// An index and a range.
fn row_of_a_matrix() -> [SliceInfoElem; 2] {
    [0.into(), (1..).into()]
}

/// The argument of them.
fn argument() -> SliceInfo<[SliceInfoElem; 2], Ix2, Ix1> {
    SliceInfo::try_from(row_of_a_matrix()).expect("the counts fit")
}

/// The counts of elements that are tried as an argument, or their fault.
fn counts<T: SliceElems, Din: FixedCount, Dout: FixedCount>(
    info: Result<SliceInfo<T, Din, Dout>, ShapeError>,
) -> Result<(usize, usize), ShapeError> {
    info.map(|info| (info.in_ndim(), info.out_ndim()))
}

/// Asserts the counts, or the fault, of the elements in an array, a slice and a vector between two types.
fn assert_counts<Din: FixedCount, Dout: FixedCount>(expected: Result<(usize, usize), ShapeError>) {
    let elems = row_of_a_matrix();
    assert_eq!(counts(SliceInfo::<[SliceInfoElem; 2], Din, Dout>::try_from(elems)), expected);
    assert_eq!(counts(SliceInfo::<&[SliceInfoElem], Din, Dout>::try_from(&elems[..])), expected);
    assert_eq!(counts(SliceInfo::<Vec<SliceInfoElem>, Din, Dout>::try_from(elems.to_vec())), expected);
}

#[test]
fn counts_between_types() {
    let failed = || Err(from_kind(ErrorKind::IncompatibleShape));
    assert_counts::<Ix2, Ix1>(Ok((2, 1)));
    assert_counts::<Ix2, Ix2>(failed());
    assert_counts::<Ix3, Ix1>(failed());
    assert_counts::<IxDyn, IxDyn>(Ok((2, 1)));
}

/// Asserts that an argument for shapes of a type is for two axes, leaves one, and has these elements.
fn assert_argument<D: FixedCount>(argument: &impl SliceArg<D>, elems: &[SliceInfoElem]) {
    assert_eq!((argument.in_ndim(), argument.out_ndim(), argument.elems()), (2, 1, elems));
}

/// Asserts the same of an argument, and of one with its elements lent, at its own type and at that of any count.
fn assert_arguments<T: SliceElems, Dout: Dimension>(info: &SliceInfo<T, Ix2, Dout>, elems: &[SliceInfoElem]) {
    let lent = SliceInfo::<&[SliceInfoElem], Ix2, Dout>::from(info);
    assert_argument::<Ix2>(info, elems);
    assert_argument::<IxDyn>(info, elems);
    assert_argument::<Ix2>(&lent, elems);
    assert_eq!(info.indices().elems(), elems);
}

#[test]
fn an_argument_by_its_type() {
    let info = argument();
    #[expect(clippy::clone_on_copy)]
    let clone = info.clone();
    let copy = info;
    for argument in [info, copy, clone] {
        assert_arguments(&argument, &row_of_a_matrix());
    }
}

#[test]
fn an_argument_shows_its_elements() {
    let text = format!("{:?}", argument());
    assert!(text.contains("[Index(0), Slice { start: 1, end: None, step: 1 }]"), "{text}");
}
