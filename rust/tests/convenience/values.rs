//! Views, arrays, iterators and errors as values that are copied, compared and printed.

use super::{counted, view_of};
use ndarray_layout::CanIndexCheckMode::ReadOnly;
use ndarray_layout::{
    Axis, CanIndexCheckMode, ErrorKind, Fit, Forward, IndexCursor, IndexCursorF, Ix1, Ix2, Ix3, Ix6, IxDyn, IxDynImpl,
    LayoutError, Lengths, Order, OwnedArray, Reverse, Shape, ShapeBuilder, SliceInfo, SliceInfoElem, Step, Stopped,
    StrideShape, Strided, Strides, all_indices, from_kind, indices_iter_f, memory, run, s, signed, unsigned,
};
use std::collections::HashSet;
use std::error::Error;
use std::hash::{DefaultHasher, Hash, Hasher};

pub fn hash_of(value: &impl Hash) -> u64 {
    let mut hasher = DefaultHasher::new();
    value.hash(&mut hasher);
    hasher.finish()
}

/// The array of a shape and a list, in a function whose errors are those of any kind.
fn exact<S: Into<StrideShape<Ix2>>>(shape: S, items: Vec<u8>) -> Result<OwnedArray<u8, Ix2>, Box<dyn Error>> {
    Ok(OwnedArray::from_exact_vec(shape, items)?)
}

/// The error of such an array.
fn exact_fault<S: Into<StrideShape<Ix2>>>(shape: S, count: usize) -> Option<ErrorKind> {
    match *exact(shape, vec![0; count]).err()?.downcast::<LayoutError>().expect("an error of the layout") {
        LayoutError::Shape(error) => Some(error.kind()),
        LayoutError::Memory(error) => panic!("{error}"),
    }
}

#[test]
fn a_list_of_another_length_than_the_shape_is_refused() -> Result<(), Box<dyn Error>> {
    assert_eq!(exact(Ix2(2, 3), vec![7, 8, 9, 10, 11, 12])?[(1, 0)], 10);
    assert_eq!(exact((2, 3).f()?, vec![7, 8, 9, 10, 11, 12])?[(1, 0)], 8);
    for (count, expected) in [(5, ErrorKind::OutOfBounds), (7, ErrorKind::IncompatibleShape)] {
        assert_eq!(exact_fault(Ix2(2, 3), count), Some(expected));
        assert_eq!(exact_fault((2, 3).f()?, count), Some(expected));
    }
    // rows of three, with one item between them
    let spaced = || Ix2(2, 3).strides(Ix2(4, 1));
    assert_eq!(exact(spaced()?, (0..9).collect())?[(1, 2)], 6);
    assert_eq!(exact_fault(spaced()?, 6), Some(ErrorKind::OutOfBounds));
    assert_eq!(exact_fault(Ix2(0, 3), 1), Some(ErrorKind::IncompatibleShape));
    Ok(())
}

#[test]
fn a_list_of_coordinates_is_an_index() -> Result<(), LayoutError> {
    let mut table = OwnedArray::from_exact_vec(IxDyn(&[2, 2]), vec![7, 8, 9, 10])?;
    let index = vec![1, 0];
    assert_eq!((table.get(&index), table.strided().place(&index), table[&index[..]]), (Some(9), Some(2), 9));
    assert!(table.set(&index, 5) && !table.set(&vec![0, 2], 5) && !table.set(&vec![0], 5));
    table[vec![0, 1]] = 6;
    assert_eq!(table.stored(), [7, 6, 5, 10]);
    Ok(())
}

#[test]
fn a_range_that_ends_before_the_last_coordinate_is_no_empty_one() -> Result<(), LayoutError> {
    let table = OwnedArray::from_exact_vec(Ix2(4, 2), (0..8).collect())?;
    assert_eq!(table.sliced(s![1..-1, ..])?.to_vec()?, [2, 3, 4, 5]);
    assert_eq!(table.sliced(s![2..-1;-1, 1])?.to_vec()?, [5]);
    Ok(())
}

#[test]
fn builders_become_shapes_with_strides() -> Result<(), LayoutError> {
    let shape: StrideShape<Ix2> = (2, 3).into();
    assert!(matches!(shape.strides, Strides::C));
    let shape: StrideShape<Ix2> = (2, 3).f()?.into();
    assert!(matches!(shape.strides, Strides::F));
    let view = Strided::from_shape(shape, 1, 6, CanIndexCheckMode::OwnedMutable)?;
    assert_eq!(*view.strides(), Ix2(1, 2));
    Ok(())
}

#[test]
fn shapes_and_steps_have_clones() -> Result<(), LayoutError> {
    let shape = Shape::from(IxDyn(&[2, 3, 4, 5, 6]));
    assert_eq!(shape.clone().raw_dim(), shape.raw_dim());
    let shape: StrideShape<IxDyn> = shape.strides(IxDyn(&[360, 120, 30, 6, 1]))?;
    assert!(matches!(shape.clone().strides, Strides::Custom(strides) if strides == IxDyn(&[360, 120, 30, 6, 1])));
    let steps = [
        Step::Slice(s![.., 1].to_vec(), Fit::Strict),
        Step::Collapse(Axis(0), 1),
        Step::Merge(Axis(0), Axis(1)),
        Step::Reshape(IxDyn(&[6]), Order::C),
        Step::Broadcast(IxDyn(&[2, 6])),
    ];
    assert_eq!(format!("{:?}", steps.clone()), format!("{steps:?}"));
    Ok(())
}

#[test]
fn a_copy_of_a_view_is_its_own() -> Result<(), LayoutError> {
    let view = view_of(IxDyn(&[1, 2, 1, 3, 1]))?;
    let mut copy = view.clone();
    assert_eq!(copy, view);
    copy.collapse(Axis(1), 1)?;
    assert_ne!(copy, view);
    assert_eq!((view.start(), view.dim().slice()), (0, &[1, 2, 1, 3, 1][..]));
    Ok(())
}

#[test]
fn views_are_equal_by_start_shape_and_strides() -> Result<(), LayoutError> {
    let view = |start, len, stride| Strided::from_parts(start, Ix1(len), Ix1(stride), 1, 9, ReadOnly);
    assert_eq!(view(1, 2, 3)?, view(1, 2, 3)?);
    assert_ne!(view(1, 2, 3)?, view(2, 2, 3)?);
    assert_ne!(view(1, 2, 3)?, view(1, 1, 3)?);
    assert_ne!(view(1, 2, 3)?, view(1, 2, 2)?);
    Ok(())
}

/// The arrays `[2]` with the stride `[-1]` over 7 8 9, and `[2]` over 8 7.
fn equal_arrays() -> Result<[OwnedArray<i32, Ix1>; 2], LayoutError> {
    let backward = StrideShape { dim: Ix1(2), strides: Strides::Custom(Ix1(unsigned(-1))) };
    Ok([OwnedArray::from_shape_vec(backward, vec![7, 8, 9])?, OwnedArray::from_shape_vec(Ix1(2), vec![8, 7])?])
}

#[test]
fn arrays_are_equal_by_shape_and_items() -> Result<(), LayoutError> {
    let [a, b] = equal_arrays()?;
    assert_eq!(a, b);
    assert_eq!(hash_of(&a), hash_of(&b));
    assert_eq!(HashSet::from([a.clone(), b]).len(), 1);
    let other = OwnedArray::from_shape_vec(Ix1(2), vec![8, 9])?;
    assert_ne!(a, other);
    assert_ne!(hash_of(&a), hash_of(&other));
    assert_ne!(a, OwnedArray::from_shape_vec(Ix1(1), vec![8])?);
    let (tall, wide) = (counted(Ix2(3, 2))?, counted(Ix2(2, 3))?);
    assert_ne!(tall, wide);
    assert_ne!(hash_of(&tall), hash_of(&wide));
    assert_eq!(counted(IxDyn(&[2, 0]))?, counted(IxDyn(&[2, 0]))?);
    Ok(())
}

#[test]
fn a_copy_of_an_array_has_its_layout() -> Result<(), LayoutError> {
    for shape in [&[][..], &[0], &[2, 0, 3], &[2, 3], &[2, 1, 2, 1, 2]] {
        let array = counted(IxDyn(shape))?;
        let copy = array.clone();
        assert_eq!((copy.strided(), copy.stored()), (array.strided(), array.stored()));
    }
    let [mut array, _] = equal_arrays()?;
    let copy = array.clone();
    array[0] = 1;
    assert_eq!((copy.stored(), array.stored()), (&[7, 8, 9][..], &[7, 1, 9][..]));
    assert_eq!((copy.strided().start(), signed(copy.strided().strides()[0])), (1, -1));
    Ok(())
}

#[test]
fn arrays_are_indexed_and_iterated_over() -> Result<(), LayoutError> {
    let mut array = counted(Ix2(2, 3))?;
    assert_eq!((array[[1, 2]], array[(0, 1)], array[Ix2(1, 0)]), (5, 1, 3));
    array[[1, 1]] += 10;
    assert_eq!((&array).into_iter().collect::<Vec<_>>(), [0, 1, 2, 3, 14, 5]);
    let array = counted(IxDyn(&[2, 3]))?;
    assert_eq!((array[[1, 2]], array[&IxDyn(&[0, 2])], array[Ix2(1, 0)]), (5, 2, 3));
    Ok(())
}

#[test]
#[should_panic(expected = "index [1, 3] is out of bounds of the shape [2, 3]")]
fn an_index_out_of_bounds_panics() {
    let array = counted(Ix2(2, 3)).expect("an array of six items");
    let _ = array[[1, 3]];
}

#[test]
#[should_panic(expected = "index [2, 0] is out of bounds of the shape [2, 3]")]
fn a_write_out_of_bounds_panics() {
    let mut array = counted(Ix2(2, 3)).expect("an array of six items");
    array[[2, 0]] = 1;
}

#[test]
fn indices_of_any_count_of_axes_are_iterated_over() -> Result<(), LayoutError> {
    let shape = IxDyn(&[2, 1, 2, 1, 1]);
    let by_rows: Vec<IxDyn> = IndexCursor::new(shape.clone())?.into_iter().collect();
    let by_columns: Vec<IxDyn> = IndexCursorF::new(shape)?.into_iter().collect();
    assert_eq!(by_rows, [[0; 5], [0, 0, 1, 0, 0], [1, 0, 0, 0, 0], [1, 0, 1, 0, 0]].map(|index| IxDyn(&index)));
    assert_eq!(by_columns, [[0; 5], [1, 0, 0, 0, 0], [0, 0, 1, 0, 0], [1, 0, 1, 0, 0]].map(|index| IxDyn(&index)));
    let mut indices = IndexCursor::new(IxDyn(&[]))?.into_iter();
    assert_eq!((indices.len(), indices.next(), indices.next(), indices.next()), (1, Some(IxDyn(&[])), None, None));
    assert_eq!(IndexCursor::new(IxDyn(&[2, 0]))?.into_iter().count(), 0);
    Ok(())
}

/// Checks that an iterator knows its length from each item on, and ends for good.
fn knows_its_length<I: ExactSizeIterator + std::iter::FusedIterator>(mut items: I, count: usize) {
    for left in (0..count).rev() {
        assert!(items.next().is_some());
        assert_eq!((items.len(), items.size_hint()), (left, (left, Some(left))));
    }
    assert!(items.next().is_none() && items.next().is_none());
}

#[test]
fn iterators_know_their_lengths() -> Result<(), LayoutError> {
    let shape = Ix3(2, 3, 4);
    let view = view_of(shape)?;
    knows_its_length(view.axes(), 3);
    knows_its_length(view.axes().rev(), 3);
    knows_its_length(view.iter_places(Order::C), 24);
    knows_its_length(view.iter_places(Order::F), 24);
    knows_its_length(view.rows(Order::C), 6);
    knows_its_length(view.rows(Order::F), 12);
    knows_its_length(all_indices(shape)?.into_iter(), 24);
    knows_its_length(indices_iter_f(shape)?, 24);
    knows_its_length(counted(shape)?.iter(), 24);
    knows_its_length(IndexCursor::new(IxDyn(&[2, 3, 4]))?.into_iter(), 24);
    knows_its_length(IndexCursorF::new(IxDyn(&[2, 3, 4]))?.into_iter(), 24);
    knows_its_length(IxDynImpl::default().into_iter(), 1);
    Ok(())
}

#[test]
fn errors_print_and_convert() -> Result<(), Box<dyn Error>> {
    let shape = LayoutError::from(from_kind(ErrorKind::IncompatibleShape));
    let memory = LayoutError::from(memory::AllocError);
    assert_eq!(shape.to_string(), "ShapeError/IncompatibleShape: incompatible shapes");
    assert_eq!(memory.to_string(), "out of memory");
    assert_eq!((&shape, &memory), (&shape.clone(), &memory.clone()));
    assert_ne!(shape, memory);
    assert_ne!(shape, from_kind(ErrorKind::OutOfBounds).into());
    let failed = memory::AllocFailed { value: 3 };
    assert_eq!(Box::<dyn Error>::from(failed).to_string(), "out of memory");
    let boxed = Box::<dyn Error + Send + Sync>::from(shape.clone());
    assert_eq!(boxed.downcast_ref(), Some(&shape));
    let refused = OwnedArray::from_shape_vec(Ix2(2, 3), vec![1]).map_err(LayoutError::from);
    assert_eq!(refused.err(), Some(from_kind(ErrorKind::OutOfBounds).into()));
    Ok(())
}

#[test]
fn a_stopped_run_says_where_and_why() -> Result<(), Box<dyn Error>> {
    let view = view_of(IxDyn(&[2, 3]))?;
    let steps = [Step::Collapse(Axis(0), 1), Step::Collapse(Axis(1), 3)];
    let stopped: Stopped = run(view, &steps).expect_err("a coordinate past the axis");
    assert_eq!(stopped.to_string(), "step 1: ShapeError/OutOfBounds: out of bounds indexing");
    let copy = stopped.clone();
    assert_eq!((copy.at, &copy.fault, &copy.view), (stopped.at, &stopped.fault, &stopped.view));
    let _: &dyn Error = &stopped;
    Ok(())
}

#[test]
fn every_type_prints() -> Result<(), LayoutError> {
    let view = view_of(Ix1(2))?;
    assert!(format!("{view:?}").starts_with("Strided { start: 0"));
    assert_eq!(format!("{:?}", view.iter_places(Order::C)), "Places { left: 2, .. }");
    assert_eq!(format!("{:?}", view.rows(Order::F)), "Rows { left: 1, .. }");
    let [array, _] = equal_arrays()?;
    assert_eq!(format!("{array:?}"), "[8, 7], shape=[2], strides=[-1], layout=Custom (0x0), const ndim=1");
    assert_eq!(format!("{:?}", array.iter()), "Items { left: 2, .. }");
    assert_eq!(format!("{:?}", all_indices(Ix2(2, 3))?.into_iter()), "IndicesIter { left: 6, .. }");
    assert_eq!(format!("{:?}", indices_iter_f(Ix2(2, 3))?), "IndicesIterF { left: 6, .. }");
    let cursor = IndexCursor::new(IxDyn(&[2, 3]))?;
    assert_eq!(format!("{cursor:?}"), "IndexCursor { left: 6, .. }");
    assert_eq!(format!("{:?}", IndexCursorF::new(IxDyn(&[]))?), "IndexCursorF { left: 1, .. }");
    assert!(format!("{:?}", cursor.into_iter()).starts_with("IndexCopies"));
    assert_eq!(format!("{:?} {ReadOnly:?}", CanIndexCheckMode::OwnedMutable), "OwnedMutable ReadOnly");
    assert_eq!(format!("{:?} {:?}", Forward(&[1, 2][..]), Reverse(3)), "Forward([1, 2]) Reverse(3)");
    Ok(())
}

/// Types may be sent to other threads, and lent to them.
fn is_send_and_sync<T: Send + Sync>() {}

#[test]
fn types_are_send_and_sync() {
    is_send_and_sync::<IxDyn>();
    is_send_and_sync::<Strided<IxDyn>>();
    is_send_and_sync::<OwnedArray<u8, Ix6>>();
    is_send_and_sync::<SliceInfo<Vec<SliceInfoElem>, Ix2, IxDyn>>();
    is_send_and_sync::<LayoutError>();
    is_send_and_sync::<Stopped>();
}
