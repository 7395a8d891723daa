//! Parts whose memory runs out: each allocation fails in turn.

use crate::allocator::failing_at;
use crate::{NUMBERS, rows_mut};
use ndarray_layout::CanIndexCheckMode::ReadOnly;
use ndarray_layout::{
    ArrayView, ArrayViewMut, Axis, Fit, Ix1, Ix2, IxDyn, LayoutError, Lengths, OwnedArray, Strided, new_dim, s,
};

/// Asserts that a call returns that memory ran out, whichever of its allocations fails, and how many it makes.
fn refuses_each(allocations: usize, call: impl Fn() -> Result<(), LayoutError>) {
    for failing in 0..allocations {
        let (returned, made) = failing_at(failing, &call);
        assert!(matches!(returned, Err(LayoutError::Memory(_))) && made > failing, "{failing}: {returned:?}");
    }
    let (returned, made) = failing_at(allocations, call);
    assert_eq!((returned, made), (Ok(()), allocations));
}

#[test]
fn lending_returns_that_memory_ran_out() {
    // the list of the parts; a tuple has none
    refuses_each(1, || {
        let mut numbers = NUMBERS;
        let mut rows = rows_mut(&mut numbers);
        rows.multi_slice_mut([s![0, ..], s![1, ..]]).map(drop)
    });
    refuses_each(0, || {
        let mut numbers = NUMBERS;
        let mut rows = rows_mut(&mut numbers);
        rows.multi_slice_mut((s![.., 0], s![0, 1..])).map(drop)
    });
    // of more than four axes also a shape and strides: of the array, and of its view once more
    refuses_each(5, || {
        let mut numbers = NUMBERS;
        let shape = new_dim(&[1, 1, 1, 1, 6][..])?;
        let mut array = ArrayViewMut::from_shape(shape, &mut numbers)?;
        array.multi_slice_mut([s![.., .., .., .., ..2]]).map(drop)
    });
}

#[test]
fn cutting_takes_no_memory_and_rows_take_a_list() {
    refuses_each(0, || {
        let mut numbers = NUMBERS;
        let (left, right) = rows_mut(&mut numbers).split_at(Axis(1), 1)?;
        left.split_at(Axis(0), 1)?.0.fill(9);
        assert!(right.reversed_axes().set(&(1, 1), 9));
        Ok(())
    });
    refuses_each(1, || {
        let mut numbers = NUMBERS;
        Ok(rows_mut(&mut numbers).reversed_axes().into_row_slices().map(drop)?)
    });
}

#[test]
fn running_over_takes_no_memory_and_lending_again_a_view_of_many_axes() {
    refuses_each(0, || {
        let mut numbers = NUMBERS;
        let mut part = rows_mut(&mut numbers).reversed_axes();
        part.reborrow()?.into_items().for_each(|item| *item += 1);
        part.into_rows().for_each(|mut row| row.fill(9));
        Ok(())
    });
    // of more than four axes a shape and strides, twice: of the array, and of the part once more
    refuses_each(4, || {
        let mut numbers = NUMBERS;
        let shape = new_dim(&[1, 1, 1, 3, 2][..])?;
        let mut part = ArrayViewMut::from_shape(shape, &mut numbers)?;
        part.reborrow()?.into_rows().for_each(|mut row| row.fill(9));
        part.into_items().for_each(|item| *item += 1);
        Ok(())
    });
}

#[test]
fn items_are_filled_and_mapped_without_memory() -> Result<(), LayoutError> {
    for shape in [&[1, 1, 1, 3, 2][..], &[3, 2], &[1, 1, 1, 1, 1, 3, 2]] {
        let mut numbers = NUMBERS;
        let array = ArrayViewMut::from_shape(new_dim(shape)?, &mut numbers)?;
        let mut part = array.reversed_axes();
        let ((), filled) = failing_at(0, || part.fill(9));
        let ((), mapped) = failing_at(0, || part.map_in_place_nearest(|item| *item += 1));
        assert_eq!((filled, mapped), (0, 0));
        assert_eq!((&numbers[..6], &numbers[6..]), (&[10; 6][..], &NUMBERS[6..]));
    }
    Ok(())
}

/// Asserts that a view is that of five axes whose last one was inverted, over six items.
fn assert_inverted(view: &Strided<IxDyn>) {
    let strides: Vec<isize> = view.strides().slice().iter().map(|stride| *stride as isize).collect();
    assert_eq!((view.dim().slice(), &strides[..], view.start()), (&[1, 1, 1, 2, 3][..], &[6, 6, 6, 3, -1][..], 2));
}

#[test]
fn what_lends_is_as_before_where_memory_ran_out() {
    let shape = || new_dim(&[1, 1, 1, 2, 3][..]).unwrap();
    let mut numbers = NUMBERS;
    let mut part = ArrayViewMut::from_shape(shape(), &mut numbers).unwrap();
    part.invert_axis(Axis(4)).unwrap();
    let mut owned = OwnedArray::from_shape_vec(shape(), NUMBERS.to_vec()).unwrap();
    let all = s![.., .., .., .., ..];
    let mut turned = owned.try_view_mut().unwrap();
    turned.invert_axis(Axis(4)).unwrap();
    for failing in 0..2 {
        assert!(failing_at(failing, || part.reborrow().is_err()).0);
        assert_inverted(part.strided());
        let sliced: Result<ArrayViewMut<'_, u8, IxDyn>, _> =
            failing_at(failing, || part.slice_mut_with(&all, Fit::Strict)).0;
        assert!(matches!(sliced, Err(LayoutError::Memory(_))));
        assert_inverted(part.strided());
        assert!(failing_at(failing, || turned.multi_slice_mut([&all]).is_err()).0);
        assert_inverted(turned.strided());
    }
    for failing in 0..2 {
        assert!(failing_at(failing, || owned.try_view_mut().is_err()).0);
        assert_eq!((owned.strided().start(), owned.strided().strides().slice()), (0, &[6, 6, 6, 3, 1][..]));
    }
    assert_eq!((&numbers, owned.stored()), (&NUMBERS, &NUMBERS[..]));
}

#[test]
fn axes_slices_and_pairs_take_no_memory_at_fixed_types() {
    refuses_each(0, || {
        let (mut numbers, others) = (NUMBERS, NUMBERS);
        let mut part = rows_mut(&mut numbers);
        part.axis_iter_mut(Axis(1))?.step_by(2).for_each(|mut column| column.fill(1));
        part.axis_iter_mut(Axis(1))?.rev().for_each(|mut column| column.fill(1));
        part.axis_chunks_iter_mut(Axis(1), 2)?.skip(1).for_each(|mut columns| columns.fill(2));
        part.axis_chunks_iter_mut(Axis(1), 2)?.rev().for_each(|mut columns| columns.fill(2));
        part.index_axis_mut(Axis(1), 2)?.fill(3);
        part.slice_mut(s![.., ..;2])?.fill(4);
        let others = ArrayView::from_shape(Ix2(3, 2), &others)?.reversed_axes();
        part.assign(&others)?;
        part.zip_mut_with(&others, |item, other| *item += other)?;
        part.zip_mut_with_two(&others, &others, |item, other, third| *item = *other.min(third))?;
        assert!(part.swap(&(0, 0), &(1, 2)));
        part.indexed_iter_mut().for_each(|((row, _), item)| *item += row as u8);
        part.into_dyn().into_dimensionality::<Ix2>()?.slice_move(s![0, ..])?.fill(5);
        Ok(())
    });
}

#[test]
fn an_axis_among_many_takes_memory_for_views() {
    // of more than four axes a shape and strides: of the array, and of the part once more
    refuses_each(4, || {
        let mut numbers = NUMBERS;
        let mut part = ArrayViewMut::from_shape(new_dim(&[1, 1, 1, 2, 3][..])?, &mut numbers)?;
        part.axis_iter_mut(Axis(4)).map(drop)
    });
    // and of what has an axis fewer, which has four
    refuses_each(4, || {
        let mut numbers = NUMBERS;
        let mut part = ArrayViewMut::from_shape(new_dim(&[1, 1, 1, 2, 3][..])?, &mut numbers)?;
        part.index_axis_mut(Axis(4), 2).map(drop)
    });
    // an error comes before any of it
    refuses_each(2, || {
        let mut numbers = NUMBERS;
        let mut part = ArrayViewMut::from_shape(new_dim(&[1, 1, 1, 2, 3][..])?, &mut numbers)?;
        assert!(part.index_axis_mut(Axis(4), 3).is_err() && part.axis_iter_mut(Axis(5)).is_err());
        assert!(part.axis_chunks_iter_mut(Axis(4), 0).is_err());
        Ok(())
    });
    refuses_each(2, || {
        let mut numbers = NUMBERS;
        let shape = new_dim(&[1, 1, 1, 1, 1, 1, 2, 3][..])?;
        let part = ArrayViewMut::from_shape(shape, &mut numbers)?;
        assert!(part.into_dimensionality::<Ix1>().is_err());
        Ok(())
    });
}

#[test]
fn a_view_takes_memory_for_its_places_where_the_no_alias_rule_is_broken_alone() {
    for (lens, strides, expected) in [(Ix2(2, 3), Ix2(1, 2), 0), (Ix2(3, 2), Ix2(2, 3), 1), (Ix2(3, 0), Ix2(0, 0), 0)] {
        let view = Strided::from_parts(0, lens, strides, 1, 8, ReadOnly).expect("a view of eight items");
        let (_, made) = failing_at(usize::MAX, || ArrayViewMut::new(view, &mut [0_u8; 8]).len());
        assert_eq!(made, expected, "{lens:?}");
    }
}
