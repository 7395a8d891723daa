//! Which layouts are accepted, what they are like, and where their indices lie.

use crate::arguments;
use crate::compare::{CALLS, MODES, ORDERS, compare};
use crate::model::layouts as model;
use crate::model::{View, layouts};
use crate::numbers::Numbers;
use crate::types::{axes_of, dimension, kept, lists_of, of_types, signed_list, strided, strides_of};
use ndarray_layout::CanIndexCheckMode::ReadOnly;
use ndarray_layout::{
    CanIndexCheckMode, Dimension, ErrorKind, IndexCursor, IndexCursorF, LayoutError, Lengths, Order, Row, ShapeError,
    StrideShape, Strided, Strides, accept, advance_column_major, advance_row_major, can_index_slice, default_strides,
    dim_stride_overlap, fortran_strides, from_kind, is_index, is_layout_c, is_layout_f, low_span, new_ixdyn,
    offset_from_low_addr_ptr_to_logical_ptr, size_of_shape_checked, span_of_lengths,
};
use std::sync::atomic::{AtomicUsize, Ordering::Relaxed};

const LAYOUT: [&str; 3] = ["Ok", "IncompatibleLayout", "Overflow"];
const ACCEPTED: [&str; 5] = ["Ok", "IncompatibleLayout", "Overflow", "OutOfBounds", "Unsupported"];

/// The start of a layout that a function of ndarray accepts.
fn start_of<D: Lengths>(
    shape: &[usize],
    strides: &[isize],
    elem_size: usize,
    len: usize,
    mode: CanIndexCheckMode,
) -> Result<usize, ShapeError> {
    let (dim, strides) = (dimension::<D>(shape), strides_of::<D>(strides));
    can_index_slice(elem_size, len, &dim, &strides, mode)?;
    Ok(offset_from_low_addr_ptr_to_logical_ptr(&dim, &strides))
}

#[test]
fn starts_of_layouts_are_the_models() {
    let arguments = |numbers: &mut Numbers| {
        let (shape, strides) = numbers.layout();
        let elem_size = numbers.pick(&[0, 1, 1, 2, 4, 8, 1 << 40, usize::MAX]);
        let len = arguments::buffer_len(numbers, &shape, &strides);
        (shape, strides, elem_size, len, numbers.pick(&MODES))
    };
    compare(
        "layout_start",
        &ACCEPTED,
        arguments,
        |(shape, strides, elem_size, len, mode)| {
            let of_view = of_types!(axes_of(shape, strides), D => {
                Strided::<D>::new(dimension(shape), strides_of(strides), *elem_size, *len, *mode).map(|view| view.start())
            });
            let of_dimension =
                of_types!(axes_of(shape, strides), D => start_of::<D>(shape, strides, *elem_size, *len, *mode));
            let strides = kept(strides);
            let of_lists = accept(*elem_size, *len, shape, &strides, *mode).map(|()| low_span(shape, &strides));
            [of_view, of_dimension, vec![of_lists]].concat()
        },
        |(shape, strides, elem_size, len, mode)| model::layout_start(shape, strides, *elem_size, *len, *mode),
    );
}

#[test]
fn accepted_starts_are_the_models() {
    let arguments = |numbers: &mut Numbers| {
        let view = arguments::view(numbers);
        let len = arguments::buffer_len(numbers, &view.shape, &view.strides).saturating_add(numbers.below(20));
        (view, numbers.pick(&[1, 1, 2, 8, 1 << 62]), len, numbers.pick(&MODES))
    };
    compare(
        "from_parts",
        &ACCEPTED,
        arguments,
        |(view, elem_size, len, mode)| {
            of_types!(axes_of(&view.shape, &view.strides), D => {
                let (dim, strides) = (dimension(&view.shape), strides_of(&view.strides));
                Strided::<D>::from_parts(view.start, dim, strides, *elem_size, *len, *mode).map(|found| lists_of(&found))
            })
        },
        |(view, elem_size, len, mode)| {
            model::check_layout(view.start, &view.shape, &view.strides, *elem_size, *len, *mode)?;
            Ok(view.clone())
        },
    );
}

/// A question about a layout that is asked where it is valid.
fn compare_answer(
    call: &str,
    ours: impl Fn(&[usize], &[isize]) -> Vec<bool> + Sync,
    model: impl Fn(&[usize], &[isize]) -> bool + Sync,
) {
    let yes = AtomicUsize::new(0);
    compare(
        call,
        &LAYOUT,
        Numbers::layout,
        |(shape, strides)| match span_of_lengths(1, shape, &kept(strides)) {
            Ok(_) => ours(shape, strides).into_iter().map(Ok).collect(),
            Err(error) => vec![Err(error)],
        },
        |(shape, strides)| {
            layouts::check_valid(shape, strides)?;
            let answer = model(shape, strides);
            yes.fetch_add(usize::from(answer), Relaxed);
            Ok(answer)
        },
    );
    println!("{call}: {} yes", yes.load(Relaxed));
    assert!((1_000..CALLS - 1_000).contains(&yes.load(Relaxed)), "{call}: {} yes", yes.load(Relaxed));
}

#[test]
fn dim_stride_overlap_is_the_models() {
    compare_answer(
        "dim_stride_overlap",
        |shape, strides| of_types!(Some(shape.len()), D => dim_stride_overlap::<D>(&dimension(shape), &strides_of(strides))),
        model::has_overlap,
    );
}

/// The model of the rule itself holds what the rule promises: after no, all places differ.
#[test]
fn layouts_without_overlap_have_distinct_places() {
    let mut numbers = Numbers::new(77);
    let mut checked = 0;
    for _ in 0..CALLS / 4 {
        let (shape, strides) = numbers.layout();
        let is_apart = layouts::check_valid(&shape, &strides).is_ok() && !layouts::has_overlap(&shape, &strides);
        if !is_apart || layouts::size(&shape) > 1_000 {
            continue;
        }
        let mut places = layouts::places(0, &shape, &strides, Order::RowMajor);
        places.sort_unstable();
        assert!(places.windows(2).all(|pair| pair[0] < pair[1]), "{shape:?} with {strides:?}");
        checked += 1;
    }
    assert!(checked > 5_000, "{checked} checked");
}

#[test]
fn is_contiguous_is_the_models() {
    compare_answer(
        "is_contiguous",
        |shape, strides| of_types!(Some(shape.len()), D => D::is_contiguous(&dimension(shape), &strides_of(strides))),
        model::is_contiguous,
    );
}

#[test]
fn is_layout_c_is_the_models() {
    compare_answer(
        "is_layout_c",
        |shape, strides| of_types!(Some(shape.len()), D => is_layout_c::<D>(&dimension(shape), &strides_of(strides))),
        |shape, strides| model::is_layout(shape, strides, Order::C),
    );
}

#[test]
fn is_layout_f_is_the_models() {
    compare_answer(
        "is_layout_f",
        |shape, strides| of_types!(Some(shape.len()), D => is_layout_f::<D>(&dimension(shape), &strides_of(strides))),
        |shape, strides| model::is_layout(shape, strides, Order::F),
    );
}

/// The strides of a shape by the function of its order, and by the view of the shape.
fn strides_of_shape<D: Lengths>(shape: &[usize], order: Order) -> Result<Vec<isize>, LayoutError> {
    let dim = dimension::<D>(shape);
    size_of_shape_checked(&dim)?;
    let (strides, rule) = match order {
        Order::RowMajor => (default_strides(&dim)?, Strides::C),
        Order::ColumnMajor => (fortran_strides(&dim)?, Strides::F),
    };
    let view = Strided::from_shape(StrideShape { dim, strides: rule }, 1, usize::MAX, ReadOnly)?;
    assert!(view.strides().equal(&strides), "{shape:?} {order:?}");
    Ok(signed_list(&strides))
}

#[test]
fn strides_of_shapes_are_the_models() {
    for order in ORDERS {
        compare(
            "strides",
            &["Ok", "Overflow"],
            Numbers::shape,
            |shape| of_types!(Some(shape.len()), D => strides_of_shape::<D>(shape, order)),
            |shape| model::strides_in(shape, order),
        );
    }
}

fn place_of<D: Lengths>(view: &View, index: &[usize]) -> Result<usize, LayoutError> {
    let place = strided::<D>(view)?.place(&dimension::<D>(index));
    place.ok_or(from_kind(ErrorKind::OutOfBounds).into())
}

#[test]
fn places_of_indices_are_the_models() {
    let arguments = |numbers: &mut Numbers| {
        let view = arguments::view(numbers);
        let index = arguments::index(numbers, &view.shape);
        (view, index)
    };
    compare(
        "place",
        &["Ok", "IncompatibleLayout", "Overflow", "OutOfBounds"],
        arguments,
        |(view, index)| {
            let axes = axes_of(&view.shape, &view.strides).filter(|axes| *axes == index.len());
            of_types!(axes, D => place_of::<D>(view, index))
        },
        |(view, index)| {
            layouts::check_view(view)?;
            layouts::check_index(&view.shape, index)?;
            Ok(layouts::place_at(view.start as i128, &view.strides, index) as usize)
        },
    );
}

/// Whether an index of a shape has a next one, and which; the first one after the last.
fn next_of<D: Dimension>(shape: &[usize], index: &[usize], order: Order) -> (bool, Vec<usize>) {
    let (dim, mut next) = (dimension::<D>(shape), dimension::<D>(index));
    match order {
        Order::RowMajor => match dim.next_for(next) {
            Some(next) => (true, next.slice().to_vec()),
            None => (false, vec![0; shape.len()]),
        },
        Order::ColumnMajor => (dim.next_for_f(&mut next), next.slice().to_vec()),
    }
}

fn next_in_list(shape: &[usize], index: &[usize], order: Order) -> (bool, Vec<usize>) {
    let mut next = index.to_vec();
    let step = if order == Order::RowMajor { advance_row_major } else { advance_column_major };
    (step(shape, &mut next), next)
}

#[test]
fn next_indices_are_the_models() {
    let arguments = |numbers: &mut Numbers| {
        let shape = numbers.shape();
        let mut index = arguments::index(numbers, &shape);
        if numbers.once_in(4) && index.len() == shape.len() {
            index = shape.iter().map(|len| len.saturating_sub(1)).collect();
        }
        (shape, index, numbers.pick(&ORDERS))
    };
    compare(
        "next_index",
        &["Ok", "OutOfBounds"],
        arguments,
        |(shape, index, order)| {
            if !is_index(shape, index) {
                return vec![Err(from_kind(ErrorKind::OutOfBounds))];
            }
            let mut results = of_types!(Some(shape.len()), D => next_of::<D>(shape, index, *order));
            results.push(next_in_list(shape, index, *order));
            results.into_iter().map(Ok).collect()
        },
        |(shape, index, order)| {
            layouts::check_index(shape, index)?;
            Ok(layouts::next_index(shape, index, *order))
        },
    );
}

/// All indices of a shape, as the iterators of `IxDyn` lend them.
fn all_indices(shape: &[usize], order: Order) -> Vec<Vec<usize>> {
    let dim = new_ixdyn(shape).expect("memory for a few lengths");
    let mut found = Vec::new();
    match order {
        Order::RowMajor => {
            let mut cursor = IndexCursor::new(dim).expect("memory for an index");
            while let Some(index) = cursor.next() {
                found.push(index.to_vec());
            }
        }
        Order::ColumnMajor => {
            let mut cursor = IndexCursorF::new(dim).expect("memory for an index");
            while let Some(index) = cursor.next() {
                found.push(index.to_vec());
            }
        }
    }
    found
}

#[test]
fn iterators_go_over_all_indices_in_order() {
    let mut numbers = Numbers::new(5);
    for _ in 0..2_000 {
        let (shape, order) = (numbers.small_shape(), numbers.pick(&ORDERS));
        assert_eq!(all_indices(&shape, order), layouts::indices(&shape, order), "{shape:?} {order:?}");
    }
}

/// The places of a row.
fn of_row(row: Row) -> impl Iterator<Item = usize> {
    (0..row.len).map(move |i| row.start.wrapping_add_signed(row.stride.wrapping_mul(i as isize)))
}

/// The places of all indices, from iterators that count them.
fn places_of<D: Lengths>(view: &View, order: Order) -> Result<Vec<usize>, LayoutError> {
    let view = strided::<D>(view)?;
    let places = view.places(order)?;
    assert_eq!(view.iter_places(order).len(), places.len());
    assert!(view.iter_places(order).eq(places.iter().copied()), "{places:?}");
    assert!(view.rows(order).flat_map(of_row).eq(places.iter().copied()), "{places:?}");
    assert!(view.rows(order).all(|row| row.len > 0 && row.len * view.rows(order).len() == places.len()));
    let nth_row = |number| view.nth_row(order, number);
    assert!(
        view.rows(order)
            .enumerate()
            .all(|(k, row)| nth_row(k).is_some_and(|nth| nth.iter_places(order).eq(of_row(row))))
    );
    assert!(nth_row(view.rows(order).len()).is_none());
    Ok(places)
}

#[test]
fn places_are_the_models() {
    let arguments = |numbers: &mut Numbers| {
        let mut view = arguments::view(numbers);
        while (1_001..=layouts::LIMIT).contains(&layouts::size(&view.shape)) {
            view = arguments::view(numbers);
        }
        (view, numbers.pick(&ORDERS))
    };
    compare(
        "places",
        &["Ok", "IncompatibleLayout", "Overflow", "OutOfBounds"],
        arguments,
        |(view, order)| of_types!(axes_of(&view.shape, &view.strides), D => places_of::<D>(view, *order)),
        |(view, order)| {
            layouts::check_view(view)?;
            let places = layouts::places(view.start as i128, &view.shape, &view.strides, *order);
            Ok(places.into_iter().map(|place| place as usize).collect())
        },
    );
}
