//! What arrays say of themselves, and copies of them.

use crate::allocator::failing_at;
use crate::layouts::{Layout, rounds};
use crate::{NUMBERS, kind, of_count, owned, rows, rows_mut, texts};
use ndarray_layout::CanIndexCheckMode::OwnedMutable;
use ndarray_layout::ErrorKind::IncompatibleShape;
use ndarray_layout::{ArrayView, ArrayViewMut, Axis, Ix1, Ix2, Ix3, IxDyn, Lengths, OwnedArray, ShapeBuilder};
use std::ops::Range;

#[test]
fn shapes_and_strides_are_read() {
    let mut numbers = NUMBERS;
    let (lent, array) = (rows(&NUMBERS).reversed_axes(), owned(NUMBERS.to_vec()));
    assert_eq!((lent.ndim(), lent.shape(), lent.len_of(Axis(0)), lent.stride_of(Axis(1))), (2, &[3, 2][..], 3, 3));
    assert_eq!((lent.nrows(), lent.ncols(), lent.is_square(), lent.is_standard_layout()), (3, 2, false, false));
    assert_eq!((array.ndim(), array.nrows(), array.ncols(), array.is_standard_layout()), (2, 2, 3, true));
    let mut array = rows_mut(&mut numbers);
    array.invert_axis(Axis(1)).unwrap();
    assert_eq!(
        (array.shape(), array.stride_of(Axis(1)), array.first(), array.last()),
        (&[2, 3][..], -1, Some(&2), Some(&3))
    );
}

#[test]
#[should_panic]
fn an_axis_that_is_not_there_has_no_length() {
    let _ = rows(&NUMBERS).len_of(Axis(2));
}

#[test]
fn a_slice_is_lent_where_items_lie_in_order() {
    let texts = texts();
    let array = rows(&texts);
    assert_eq!(array.as_slice(), Some(&texts[..6]));
    assert_eq!((array.t().as_slice(), array.t().as_slice_memory_order()), (None, Some(&texts[..6])));
    let row = array.index_axis(Axis(0), 1).unwrap();
    assert_eq!((row.as_slice(), row.first(), row.last()), (Some(&texts[3..6]), Some(&texts[3]), Some(&texts[5])));
    let column = array.column(1).unwrap();
    assert_eq!((column.as_slice_memory_order(), column.to_vec().unwrap().concat()), (None, "14".to_string()));
}

#[test]
fn arrays_are_mapped_and_copied() {
    let texts = texts();
    let lens = rows(&texts).t().map(|text| text.len() + 1).unwrap();
    assert_eq!((lens.shape(), lens.stored()), (&[3, 2][..], &[2; 6][..]));
    let mut numbers = NUMBERS;
    let mut array = rows_mut(&mut numbers);
    array.invert_axis(Axis(0)).unwrap();
    assert_eq!(array.to_vec().unwrap(), [3, 4, 5, 0, 1, 2]);
    assert_eq!(array.map(|number| number.to_string()).unwrap().into_stored().concat(), "345012");
    let copy = owned(texts.clone()).to_array().unwrap();
    assert_eq!((copy.stored(), copy == owned(texts.clone())), (&texts[..6], true));
}

#[test]
fn lists_are_arrays_of_one_axis() {
    let (mut list, mut numbers) = (texts(), NUMBERS);
    assert_eq!(ArrayView::from(&list[..]).last().map(String::as_str), Some("6"));
    ArrayViewMut::from(&mut list[1..3]).first_mut().unwrap().push('a');
    ArrayViewMut::from(&mut numbers[..]).invert_axis(Axis(0)).unwrap();
    let mut array = OwnedArray::from(list);
    ArrayViewMut::from(&mut array)[6].push('b');
    assert_eq!(ArrayView::from(&array).to_vec().unwrap().concat(), "01a23456b");
    assert!(ArrayView::from(&numbers[..0]).is_empty() && OwnedArray::from(Vec::<String>::new()).is_empty());
}

#[test]
fn a_dimension_of_another_type_has_as_many_axes() {
    let array = owned(texts()).into_dyn();
    assert_eq!((array.ndim(), array[[1, 2]].as_str()), (2, "5"));
    assert!(array.into_dimensionality::<Ix2>().is_ok());
    assert_eq!(kind(rows(&NUMBERS).into_dimensionality::<Ix3>()), Some(IncompatibleShape));
    assert_eq!(kind(rows_mut(&mut NUMBERS.clone()).into_dyn().into_dimensionality::<Ix1>()), Some(IncompatibleShape));
    let six = ArrayView::from_shape(ndarray_layout::Ix6(1, 2, 1, 3, 1, 1), &NUMBERS).unwrap();
    assert_eq!(six.into_dyn().into_iter().sum::<u8>(), 15);
}

#[test]
fn arrays_of_other_layouts_and_types_are_equal_by_items() {
    let columns = ndarray_layout::StrideShape { dim: Ix2(2, 3), strides: ndarray_layout::Strides::F };
    let by_columns = OwnedArray::from_shape_vec(columns, vec!["0", "3", "1", "4", "2", "5"]);
    let by_columns = by_columns.unwrap_or_else(|_| panic!("two rows"));
    assert!(owned(texts()) == by_columns);
    assert!(owned(vec!["0", "1", "2", "3", "4", "6"]) != by_columns);
}

/// A layout, and the range of the items that it has in the order in which they are stored, where there is one.
type MemoryRow = (&'static [usize], &'static [isize], usize, Option<Range<usize>>);

const MEMORY_ROWS: [MemoryRow; 14] = [
    (&[2, 3], &[3, 1], 1, Some(1..7)),
    (&[3, 2], &[1, 3], 0, Some(0..6)),
    (&[2, 3], &[-3, -1], 5, Some(0..6)),
    (&[2, 3], &[-1, 2], 4, Some(3..9)),
    (&[2, 2], &[3, 1], 0, None),
    (&[3], &[2], 0, None),
    (&[2, 3], &[0, 1], 0, None),
    (&[2, 2], &[1, 1], 0, None),
    (&[1, 3], &[-7, 1], 2, Some(2..5)),
    (&[3, 1], &[-1, isize::MIN], 2, Some(0..3)),
    (&[2, 1, 2, 1, 2, 1, 2], &[1, 5, -2, 0, 4, -9, -8], 11, Some(1..17)),
    (&[2, 1, 2, 1, 2, 1, 2], &[1, 5, -2, 0, 4, -9, -9], 12, None),
    (&[0, 3], &[5, -9], 20, Some(0..0)),
    (&[], &[], 1, Some(1..2)),
];

#[test]
fn a_slice_is_lent_in_the_order_of_memory_without_an_allocation() {
    for (shape, strides, start, range) in MEMORY_ROWS {
        let layout = Layout { shape: shape.to_vec(), strides: strides.to_vec(), start, count: 20 };
        let (items, expected) = (Vec::from_iter(0..20), range.map(Vec::from_iter));
        let array = layout.array(&items);
        assert_eq!(failing_at(0, || array.as_slice_memory_order()).0, expected.as_deref(), "{layout:?}");
        let Ok(view) = layout.view(OwnedMutable) else { continue };
        let mut items = items.clone();
        let mut array = ArrayViewMut::over(view, &mut items).unwrap();
        assert_eq!(failing_at(0, || array.as_slice_memory_order()).0, expected.as_deref(), "{layout:?}");
        assert_eq!(array.as_slice_memory_order_mut().map(|slice| slice.to_vec()), expected, "{layout:?}");
        match (failing_at(0, || array.into_slice_memory_order()).0, &expected) {
            (Ok(slice), Some(expected)) => assert_eq!(slice, expected, "{layout:?}"),
            (Err(array), None) => assert_eq!((array.shape(), array.first()), (shape, Some(&start)), "{layout:?}"),
            _ => panic!("{layout:?}"),
        }
    }
}

/// Whether places follow one another from the lowest on.
fn is_block(places: &[usize]) -> bool {
    places.windows(2).all(|pair| pair[0] + 1 == pair[1])
}

/// The items of places, where there are such.
fn block<'a>(items: &'a [usize], places: &[usize]) -> Option<&'a [usize]> {
    match places.first() {
        None => Some(&[]),
        Some(first) => is_block(places).then(|| &items[*first..*first + places.len()]),
    }
}

#[test]
fn reads_are_the_models() {
    rounds(10_000, 10, |numbers| {
        let layout = Layout::random(numbers);
        let items: Vec<usize> = (0..layout.count).collect();
        let (array, places) = (layout.array(&items), layout.places());
        let mut sorted = places.clone();
        sorted.sort_unstable();
        assert_eq!((array.first(), array.last()), (places.first(), places.last()), "{layout:?}");
        assert_eq!(
            (array.as_slice(), array.is_standard_layout()),
            (block(&items, &places), is_block(&places)),
            "{layout:?}"
        );
        assert_eq!(array.as_slice_memory_order(), block(&items, &sorted), "{layout:?}");
        let mut written = items.clone();
        let mut part = layout.array_mut(&mut written);
        let slice = part.as_slice_memory_order_mut();
        assert_eq!(slice.as_deref(), block(&items, &sorted), "{layout:?}");
        assert_eq!(array.to_vec().unwrap(), places, "{layout:?}");
        let doubled = array.map(|item| item * 2).unwrap();
        assert_eq!(doubled.dim().slice(), layout.shape, "{layout:?}");
        assert!(
            doubled.stored().iter().eq(places.iter().map(|place| place * 2).collect::<Vec<_>>().iter()),
            "{layout:?}"
        );
    });
}

#[test]
fn copies_of_shared_items_are_the_models() {
    rounds(5_000, 11, |numbers| {
        let layout = Layout::shared(numbers);
        let items: Vec<String> = (0..layout.count).map(|place| place.to_string()).collect();
        let expected: Vec<String> = layout.places().iter().map(usize::to_string).collect();
        let (array, other) = (layout.array(&items), layout.array(&items).to_array().unwrap());
        assert_eq!((array.to_vec().unwrap(), other.stored()), (expected.clone(), &expected[..]), "{layout:?}");
        of_count!(layout.shape.len(), D => {
            let fixed = array.into_dimensionality::<D>().unwrap();
            assert_eq!((fixed.first(), fixed.last()), (expected.first(), expected.last()), "{layout:?}");
        });
        let same = other.t().to_array().unwrap().t().to_array().unwrap();
        assert!(same == other, "{layout:?}");
        if let Some(place) = numbers.below(expected.len() + 1).checked_sub(1) {
            let mut changed = other.to_array().unwrap();
            changed.stored_mut()[place].push('a');
            assert!(changed != other, "{layout:?} at {place}");
        }
    });
}

#[test]
fn items_that_a_closure_makes_are_those_of_their_indices() {
    rounds(2_000, 24, |numbers| {
        let layout = Layout::random(numbers);
        let is_f = numbers.once_in(2);
        let mut made = Vec::new();
        let array = OwnedArray::from_shape_fn(IxDyn(&layout.shape).set_f(is_f).unwrap(), |index| {
            made.push(index.clone());
            index
        });
        assert!(array.indexed_iter().all(|(index, item)| index == *item), "{layout:?}");
        assert_eq!((array.len(), array.stored()), (layout.indices().len(), &made[..]), "{layout:?}");
        let again = OwnedArray::from_elem(IxDyn(&layout.shape).set_f(is_f).unwrap(), 7);
        assert_eq!((again.dim(), again.stored()), (array.dim(), &vec![7; made.len()][..]), "{layout:?}");
        let strides = |axis| (array.stride_of(Axis(axis)), again.stride_of(Axis(axis)));
        assert!((0..array.ndim()).map(strides).all(|(one, other)| one == other), "{layout:?}");
    });
}
