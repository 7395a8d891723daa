//! Crops of a batch of pictures, and pictures of three axes whose items lie in another order, beside loops over slices.

use super::timing::{Row, row};
use ndarray_layout::{ArrayView, ArrayViewMut, CanIndexCheckMode, Ix2, Ix3, Ix4, Lengths, Strided};
use std::hint::black_box;

/// Rows, pixels in a row, and items of a pixel of a picture; pictures of a batch; rows and pixels that are cut off on each side.
const HIGH: usize = 240;
const WIDE: usize = 320;
const COLOURS: usize = 3;
const PICTURES: usize = 10;
const BORDER: usize = 5;

const ROW: usize = WIDE * COLOURS;
const ITEMS: usize = HIGH * ROW;

/// How a view of the picture's items lies.
#[derive(Clone, Copy, PartialEq)]
pub enum Form {
    Crops,
    Turned,
    Transposed,
    Columns,
}

use Form::{Columns, Crops, Transposed, Turned};

impl Form {
    const ALL: [(Form, &'static str); 4] = [
        (Crops, "ten crops"),
        (Turned, "a picture backwards"),
        (Transposed, "a picture transposed"),
        (Columns, "columns of bytes"),
    ];

    fn count(self) -> usize {
        match self {
            Crops => PICTURES * (HIGH / PICTURES - 2 * BORDER) * (WIDE - 2 * BORDER) * COLOURS,
            Turned | Transposed | Columns => ITEMS,
        }
    }
}

/// The rows that each of ten crops has of a picture.
fn has_row(row: usize) -> bool {
    let high = HIGH / PICTURES;
    (BORDER..high - BORDER).contains(&(row % high))
}

/// A layout of these lengths and strides from a start.
fn view<D: Lengths>(start: usize, shape: D, strides: D) -> Strided<D> {
    Strided::from_parts(start, shape, strides, 1, ITEMS, CanIndexCheckMode::OwnedMutable).expect("a layout")
}

/// Calls `$call` with the layout of a form, whose type is that of its count of axes.
macro_rules! with_layout {
    ($form:expr, $layout:ident => $call:expr) => {{
        let steps = Ix3(ROW, COLOURS, 1);
        match $form {
            Crops => {
                let (each, high, wide) = (HIGH / PICTURES, HIGH / PICTURES - 2 * BORDER, WIDE - 2 * BORDER);
                let $layout = view(
                    BORDER * (ROW + COLOURS),
                    Ix4(PICTURES, high, wide, COLOURS),
                    Ix4(each * ROW, ROW, COLOURS, 1),
                );
                $call
            }
            Turned => {
                let back = |step: usize| step.wrapping_neg();
                let $layout = view(ITEMS - 1, Ix3(HIGH, WIDE, COLOURS), Ix3(back(ROW), back(COLOURS), back(1)));
                $call
            }
            Transposed => {
                let $layout = view(0, Ix3(WIDE, HIGH, COLOURS), Ix3(COLOURS, ROW, 1));
                $call
            }
            Columns => {
                let $layout = view(0, Ix2(ROW, HIGH), Ix2(1, ROW));
                $call
            }
        }
    }};
}

mod by_hand {
    use super::*;

    /// Calls a function at each item, in row-major order.
    #[inline(always)]
    pub fn each(form: Form, items: &[u8], mut f: impl FnMut(&u8)) {
        match form {
            Crops => rows(items).for_each(|row| row.iter().for_each(&mut f)),
            Turned => items.iter().rev().for_each(f),
            Transposed => (0..WIDE).for_each(|pixel| {
                items.chunks_exact(ROW).for_each(|row| row[pixel * COLOURS..][..COLOURS].iter().for_each(&mut f));
            }),
            Columns => (0..ROW).for_each(|at| items[at..].iter().step_by(ROW).for_each(&mut f)),
        }
    }

    /// Calls a function at each item, in the order of memory.
    #[inline(always)]
    pub fn each_mut(form: Form, items: &mut [u8], mut f: impl FnMut(&mut u8)) {
        match form {
            Crops => rows_mut(items).for_each(|row| row.iter_mut().for_each(&mut f)),
            Turned | Transposed | Columns => items.iter_mut().for_each(f),
        }
    }

    /// The rows of crops.
    #[inline(always)]
    fn rows(items: &[u8]) -> impl Iterator<Item = &[u8]> {
        let rows = items.chunks_exact(ROW).enumerate().filter(|(row, _)| has_row(*row));
        rows.map(|(_, row)| &row[BORDER * COLOURS..ROW - BORDER * COLOURS])
    }

    #[inline(always)]
    fn rows_mut(items: &mut [u8]) -> impl Iterator<Item = &mut [u8]> {
        let rows = items.chunks_exact_mut(ROW).enumerate().filter(|(row, _)| has_row(*row));
        rows.map(|(_, row)| &mut row[BORDER * COLOURS..ROW - BORDER * COLOURS])
    }

    #[inline(never)]
    pub fn fill(form: Form, items: &mut [u8]) {
        match form {
            Crops => rows_mut(items).for_each(|row| row.fill(7)),
            Turned | Transposed | Columns => items.fill(7),
        }
    }

    #[inline(never)]
    pub fn map_in_place(form: Form, items: &mut [u8]) {
        each_mut(form, items, |item| *item = item.wrapping_mul(3));
    }

    #[inline(never)]
    pub fn assign(form: Form, items: &mut [u8], others: &[u8]) {
        match form {
            Crops => rows_mut(items).zip(rows(others)).for_each(|(row, other)| row.copy_from_slice(other)),
            Turned | Transposed | Columns => items.copy_from_slice(others),
        }
    }

    #[inline(never)]
    pub fn zip_mut_with(form: Form, items: &mut [u8], others: &[u8]) {
        let add = |(item, other): (&mut u8, &u8)| *item = item.wrapping_add(*other);
        match form {
            Crops => {
                rows_mut(items).zip(rows(others)).for_each(|(row, other)| row.iter_mut().zip(other).for_each(add));
            }
            Turned | Transposed | Columns => items.iter_mut().zip(others).for_each(add),
        }
    }

    #[inline(never)]
    pub fn equal(form: Form, items: &[u8], others: &[u8]) -> usize {
        usize::from(match form {
            Crops => rows(items).zip(rows(others)).all(|(row, other)| row == other),
            Turned | Transposed | Columns => items == others,
        })
    }

    #[inline(never)]
    pub fn sum(form: Form, items: &[u8], _: &[u8]) -> usize {
        let mut sum = 0;
        each(form, items, |item| sum += u64::from(*item));
        sum as usize
    }
}

mod by_package {
    use super::*;

    #[inline(never)]
    pub fn fill(form: Form, items: &mut [u8]) {
        with_layout!(form, layout => array_mut(layout, items).fill(7));
    }

    #[inline(never)]
    pub fn map_in_place(form: Form, items: &mut [u8]) {
        with_layout!(form, layout => array_mut(layout, items).map_in_place(|item| *item = item.wrapping_mul(3)));
    }

    #[inline(never)]
    pub fn map_in_place_nearest(form: Form, items: &mut [u8]) {
        with_layout!(form, layout => array_mut(layout, items).map_in_place_nearest(|item| *item = item.wrapping_mul(3)));
    }

    #[inline(never)]
    pub fn assign(form: Form, items: &mut [u8], others: &[u8]) {
        with_layout!(form, layout => array_mut(layout, items).assign(&array(layout, others)).expect("one shape"));
    }

    #[inline(never)]
    pub fn zip_mut_with(form: Form, items: &mut [u8], others: &[u8]) {
        let add = |item: &mut u8, other: &u8| *item = item.wrapping_add(*other);
        with_layout!(form, layout => array_mut(layout, items).zip_mut_with(&array(layout, others), add).expect("one shape"));
    }

    #[inline(never)]
    pub fn zip_mut_with_nearest(form: Form, items: &mut [u8], others: &[u8]) {
        let add = |item: &mut u8, other: &u8| *item = item.wrapping_add(*other);
        with_layout!(form, layout => {
            array_mut(layout, items).zip_mut_with_nearest(&array(layout, others), add).expect("one shape");
        });
    }

    #[inline(never)]
    pub fn equal(form: Form, items: &[u8], others: &[u8]) -> usize {
        with_layout!(form, layout => usize::from(array(layout, items) == array(layout, others)))
    }

    #[inline(never)]
    pub fn total(form: Form, items: &[u8], _: &[u8]) -> usize {
        with_layout!(form, layout => array(layout, items).sum().expect("a sum") as usize)
    }

    #[inline(never)]
    pub fn fold(form: Form, items: &[u8], _: &[u8]) -> usize {
        with_layout!(form, layout => array(layout, items).fold(0, |sum, item| sum + u64::from(*item)) as usize)
    }

    #[inline(never)]
    pub fn fold_nearest(form: Form, items: &[u8], _: &[u8]) -> usize {
        with_layout!(form, layout => array(layout, items).fold_nearest(0, |sum, item| sum + u64::from(*item)) as usize)
    }

    #[inline(never)]
    pub fn sum(form: Form, items: &[u8], _: &[u8]) -> usize {
        with_layout!(form, layout => array(layout, items).iter().map(|item| u64::from(*item)).sum::<u64>() as usize)
    }

    fn array<D: Lengths>(layout: Strided<D>, items: &[u8]) -> ArrayView<'_, u8, D> {
        ArrayView::over(layout, items).expect("room for the layout")
    }

    fn array_mut<D: Lengths>(layout: Strided<D>, items: &mut [u8]) -> ArrayViewMut<'_, u8, D> {
        ArrayViewMut::over(layout, items).expect("room for the layout")
    }
}

fn items() -> Vec<u8> {
    (0..ITEMS as u32).map(|number| (number.wrapping_mul(2_654_435_761) >> 24) as u8).collect()
}

fn told(items: &[u8]) -> usize {
    items.iter().enumerate().map(|(place, item)| (place + 1) * usize::from(*item)).fold(0, usize::wrapping_add)
}

/// A call of both sides that writes, given other items too; a sum over what is left.
fn writing(name: String, form: Form, theirs: fn(Form, &mut [u8], &[u8]), ours: fn(Form, &mut [u8], &[u8])) -> Row {
    let side = |call: fn(Form, &mut [u8], &[u8])| {
        move |passes| {
            let (mut items, others) = (vec![1; ITEMS], items());
            (0..passes).for_each(|_| call(black_box(form), black_box(&mut items), black_box(&others)));
            told(&items)
        }
    };
    row(name, form.count(), side(theirs), side(ours))
}

/// A call of both sides that reads items, and other ones; the sum of its results.
fn reading(
    name: String,
    form: Form,
    theirs: fn(Form, &[u8], &[u8]) -> usize,
    ours: fn(Form, &[u8], &[u8]) -> usize,
) -> Row {
    let side = |call: fn(Form, &[u8], &[u8]) -> usize| {
        move |passes| {
            let (items, others) = (items(), items());
            (0..passes)
                .map(|_| call(black_box(form), black_box(&items), black_box(&others)))
                .fold(0, usize::wrapping_add)
        }
    };
    row(name, form.count(), side(theirs), side(ours))
}

pub fn rows() -> Vec<Row> {
    let mut rows = vec![];
    for (form, name) in Form::ALL {
        let named = |call: &str| format!("{call}, {name}");
        let (fill, fills): (fn(_, &mut _, &_), fn(_, &mut _, &_)) =
            (|form, items, _| by_hand::fill(form, items), |form, items, _| by_package::fill(form, items));
        rows.push(writing(named("fill"), form, fill, fills));
        rows.push(reading(named("sum"), form, by_hand::sum, by_package::total));
        let map: fn(_, &mut _, &_) = |form, items, _| by_hand::map_in_place(form, items);
        if form == Crops {
            let maps: fn(_, &mut _, &_) = |form, items, _| by_package::map_in_place(form, items);
            rows.push(writing(named("map_in_place"), form, map, maps));
            rows.push(writing(named("assign"), form, by_hand::assign, by_package::assign));
            rows.push(writing(named("zip_mut_with"), form, by_hand::zip_mut_with, by_package::zip_mut_with));
            rows.push(reading(named("=="), form, by_hand::equal, by_package::equal));
            rows.push(reading(named("fold"), form, by_hand::sum, by_package::fold));
            rows.push(reading(named("iter().sum()"), form, by_hand::sum, by_package::sum));
        } else {
            let zips = by_package::zip_mut_with_nearest;
            let maps: fn(_, &mut _, &_) = |form, items, _| by_package::map_in_place_nearest(form, items);
            rows.push(writing(named("map_in_place_nearest"), form, map, maps));
            rows.push(reading(named("fold_nearest"), form, by_hand::sum, by_package::fold_nearest));
            rows.push(writing(named("zip_mut_with_nearest"), form, by_hand::zip_mut_with, zips));
        }
    }
    rows
}
