//! Random layouts and slices beside the model of `rust/tests/parts`: what is sliced, compared, hashed, cropped and printed.

use crate::model::{Picked, Plain, index_of};
use crate::numbers::Numbers;
use crate::values::hash_of;
use ndarray_layout::{
    ArrayView, ArrayViewMut, CanIndexCheckMode, Ix3, IxDyn, Lengths, OwnedArray, SliceInfoElem, StrideShape, Strided,
    Strides, all_indices, unsigned,
};
use std::fmt::Debug;

const CALLS: usize = 10_000;

fn view_of(plain: &Plain) -> Strided<IxDyn> {
    let strides: Vec<usize> = plain.strides.iter().map(|stride| unsigned(*stride)).collect();
    let mode = CanIndexCheckMode::OwnedMutable;
    Strided::from_parts(plain.start, IxDyn(&plain.shape), IxDyn(&strides), 1, plain.len, mode).expect("a layout")
}

/// Ranges with steps and indices of a shape, all within it.
fn slice_of(numbers: &mut Numbers, shape: &[usize]) -> Vec<SliceInfoElem> {
    let elem = |len: &usize| {
        if *len > 0 && numbers.once_in(5) {
            return SliceInfoElem::Index(
                numbers.below(*len) as isize - if numbers.once_in(3) { *len as isize } else { 0 },
            );
        }
        let bounds = [numbers.below(len + 1) as isize, numbers.below(len + 1) as isize];
        let (start, end) = (bounds[0].min(bounds[1]), Some(bounds[0].max(bounds[1])));
        SliceInfoElem::Slice { start, end, step: numbers.pick(&[1, 1, 2, 3, -1, -2]) }
    };
    shape.iter().map(elem).collect()
}

/// Asserts that a slice of an array is the model's, read and written.
fn slices<T: Clone + PartialEq + Debug>(
    plain: &Plain,
    elems: &[SliceInfoElem],
    picked: &Picked,
    item: impl Fn(usize) -> T,
) {
    let mut items: Vec<T> = (0..plain.len).map(&item).collect();
    let expected: Vec<T> = picked.places.iter().map(|place| item(*place)).collect();
    let array = ArrayView::over(view_of(plain), &items).expect("room for the layout");
    let part = array.slice(elems).expect("a slice within the shape");
    assert_eq!((part.dim().slice(), part.iter().cloned().collect::<Vec<_>>()), (&picked.shape[..], expected));
    let mut array = ArrayViewMut::over(view_of(plain), &mut items).expect("room for the layout");
    assert_eq!(array.slice(elems).expect("a slice").len(), picked.places.len());
    array.slice_mut(elems).expect("a slice").map_in_place(|written| *written = item(1000));
    let is_picked = |place: usize| picked.places.contains(&place);
    assert!(items.iter().enumerate().all(|(place, left)| *left == item(if is_picked(place) { 1000 } else { place })));
}

#[test]
fn slices_of_arrays_are_the_models() {
    let mut numbers = Numbers::new(2_900_001);
    for _ in 0..CALLS {
        let plain = Plain::any(&mut numbers);
        let elems = slice_of(&mut numbers, &plain.shape);
        let picked = plain.picked(&elems).expect("a slice within the shape");
        slices::<u8>(&plain, &elems, &picked, |place| place as u8);
        slices::<Vec<usize>>(&plain, &elems, &picked, |place| vec![place; place % 2]);
    }
}

#[test]
fn arrays_of_equal_items_are_equal_in_every_layout() {
    let mut numbers = Numbers::new(2_900_003);
    for _ in 0..CALLS {
        let plain = Plain::any(&mut numbers);
        let whole = vec![SliceInfoElem::from(..); plain.shape.len()];
        let places = plain.picked(&whole).expect("the whole array").places;
        let words: Vec<String> = (0..plain.len).map(|place| format!("{}", place / 2)).collect();
        let is_by_rows = numbers.once_in(2);
        let shape =
            || StrideShape { dim: IxDyn(&plain.shape), strides: if is_by_rows { Strides::C } else { Strides::F } };
        let view = ArrayView::over(view_of(&plain), &words).expect("room for the layout");
        let mut copy = vec![String::new(); places.len()];
        let copied: ArrayViewMut<'_, String, IxDyn> = ArrayViewMut::from_shape(shape(), &mut copy).expect("a copy");
        let copy_places: Vec<usize> = copied.strided().iter_places(ndarray_layout::Order::RowMajor).collect();
        copy_places.iter().zip(&places).for_each(|(own, place)| copy[*own] = words[*place].clone());
        let mut owned = OwnedArray::from_shape_vec(shape(), copy).expect("as many items");
        assert_eq!((&owned, hash_of(&owned)), (&owned.clone(), hash_of(&view)));
        assert_eq!(owned, view);
        if let Some(place) = (!places.is_empty()).then(|| copy_places[numbers.below(places.len())]) {
            owned.stored_mut()[place].push('!');
            assert_ne!(owned, view);
        }
    }
}

/// The items of a shape as nested lists, by a recursion over its axes.
fn nested(shape: &[usize], depth: usize, items: &[u8]) -> String {
    let [len, others @ ..] = shape else { return items[0].to_string() };
    if shape.contains(&0) {
        return ["[".repeat(shape.len()), "]".repeat(shape.len())].concat();
    }
    let each = items.len() / len;
    let lists: Vec<String> = items.chunks(each).map(|items| nested(others, depth + 1, items)).collect();
    let separator = match others.len() {
        0 => ", ".to_owned(),
        more => format!(",{}{}", "\n".repeat(more), " ".repeat(depth + 1)),
    };
    format!("[{}]", lists.join(&separator))
}

#[test]
fn arrays_print_as_nested_lists() {
    let mut numbers = Numbers::new(2_900_005);
    for _ in 0..CALLS / 10 {
        let plain = Plain::any(&mut numbers);
        let whole = vec![SliceInfoElem::from(..); plain.shape.len()];
        let items: Vec<u8> = (0..plain.len).map(|place| place as u8).collect();
        let array = ArrayView::over(view_of(&plain), &items).expect("room for the layout");
        let in_order: Vec<u8> =
            plain.picked(&whole).expect("the whole array").places.iter().map(|place| items[*place]).collect();
        let expected = format!(
            "{}, shape={:?}, strides={:?}, layout=",
            nested(&plain.shape, 0, &in_order),
            plain.shape,
            plain.strides
        );
        let printed = format!("{array:#?}");
        assert!(printed.starts_with(&expected), "{printed}\n{expected}");
        assert!(printed.ends_with(&format!(", dynamic ndim={}", plain.shape.len())));
    }
}

#[test]
fn crops_and_indices_of_any_count_of_axes_are_the_models() {
    let mut numbers = Numbers::new(2_900_007);
    for _ in 0..CALLS {
        let plain = Plain::any(&mut numbers);
        let (mut starts, mut ends) = (Vec::new(), Vec::new());
        for len in &plain.shape {
            let past = usize::from(numbers.once_in(20));
            let bounds = [numbers.below(len + 1), numbers.below(len + 1 + past)];
            starts.push(if numbers.once_in(30) { bounds[0].max(bounds[1]) } else { bounds[0].min(bounds[1]) });
            ends.push(if numbers.once_in(30) { bounds[0].min(bounds[1]) } else { bounds[0].max(bounds[1]) });
        }
        let part = view_of(&plain).crop(&IxDyn(&starts), &IxDyn(&ends));
        let fits = (0..starts.len()).all(|axis| starts[axis] <= ends[axis] && ends[axis] <= plain.shape[axis]);
        assert_eq!(part.is_some(), fits);
        let Some(part) = part else { continue };
        let fixed = part.clone().into_dimensionality::<Ix3>().map(Strided::into_dyn);
        assert_eq!(fixed.ok(), (starts.len() == 3).then(|| part.clone()));
        let elem = |(start, end): (&usize, &usize)| SliceInfoElem::from(*start..*end);
        let picked = plain.picked(&starts.iter().zip(&ends).map(elem).collect::<Vec<_>>()).expect("a part");
        let by_index = all_indices(part.dim().clone()).expect("memory").into_iter().map(|index| part.place(&index));
        assert!(by_index.eq(picked.places.iter().copied().map(Some)));
        assert_eq!((part.dim().slice(), part.strides()), (&picked.shape[..], view_of(&plain).strides()));
        assert!((0..picked.places.len()).all(|number| part.place(&&index_of(&picked.shape, number)[..]).is_some()));
    }
}
