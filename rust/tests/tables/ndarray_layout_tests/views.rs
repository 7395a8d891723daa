// Made by `rust/erase` of `crates/ndarray_layout_tests/src/views.rt`: edit that.
//! Views of layouts and of shapes, at the dimension type that a row names.

use crate::test_tables::{AtType, Reading, Words, at_type, layout_fault_name, meaning};
use ::ndarray_layout::{
    CanIndexCheckMode, Fit, LayoutError, Lengths, Order, StrideShape, Strided, Strides, is_layout_c, is_layout_f,
    size_of_shape_checked,
};
use CanIndexCheckMode::{OwnedMutable, ReadOnly};
use Fit::Strict;

/// What a row about a view tells.
#[derive(Clone, Copy)]
pub enum OfView {
    /// `LEN owned|read SHAPE STRIDES => VIEW`, or the fault.
    New,
    /// `LEN SHAPE C|F|STRIDES => VIEW`, or the fault, in owned mode.
    FromShape,
    /// `LEN owned|read SHAPE STRIDES ARGUMENT => WAY SHAPE STRIDES`: in which ways the places of a slice lie in order.
    SliceInOrder,
    /// `LEN owned|read SHAPE STRIDES C|F NUMBER => VIEW`: the row of a number, or `None`.
    NthRow,
}

static ORDERS: [(&str, Order); 2] = [("C", Order::RowMajor), ("F", Order::ColumnMajor)];

static MODES: [(&str, CanIndexCheckMode); 2] = [("owned", OwnedMutable), ("read", ReadOnly)];

/// The view of the next words, `LEN owned|read SHAPE STRIDES`, or the fault.
pub fn view<D: Lengths>(words: &mut Words<'_>) -> Option<Result<Strided<D>, LayoutError>> {
    let len = words.length()?;
    let mode = meaning(&MODES, words.word()?)?;
    let dim: D = words.dim()?;
    let strides: D = words.dim()?;
    Some(viewed(dim, strides, len, mode))
}

/// The view of a shape and strides over so many elements of one byte.
fn viewed<D: Lengths>(dim: D, strides: D, len: usize, mode: CanIndexCheckMode) -> Result<Strided<D>, LayoutError> {
    Ok(Strided::new(dim, strides, 1, len, mode)?)
}

/// The shape of the next words, `SHAPE C|F|STRIDES`.
pub fn shape<D: Lengths>(words: &mut Words<'_>) -> Option<StrideShape<D>> {
    let dim: D = words.dim()?;
    let strides = match words.word()? {
        "C" => Strides::C,
        "F" => Strides::F,
        word => Strides::Custom(Words::of(word).dim()?),
    };
    Some(StrideShape { dim, strides })
}

/// Whether the next words of the answer are the shape, the strides and the start of a view.
pub fn is_left<D: Lengths>(row: &mut Reading<'_>, view: &Strided<D>) -> bool {
    row.answer.is_list(view.dim().slice())
        && row.answer.is_list(view.strides().slice())
        && row.answer.is_length(view.start())
}

/// Whether the next words of the answer are what a view tells, shape, strides, start and places by rows, or the fault.
pub fn is_told<D: Lengths>(row: &mut Reading<'_>, view: Result<Strided<D>, LayoutError>) -> bool {
    match view {
        Ok(view) => match view.places(Order::RowMajor) {
            Ok(places) => is_left(row, &view) && row.answer.is_list(places.as_slice()),
            Err(_) => false,
        },
        Err(fault) => row.answer.is(layout_fault_name(&fault)),
    }
}

/// In which ways the places of a view lie in order, as a word.
fn ways_of<D: Lengths>(view: &Strided<D>) -> &'static str {
    let (dim, strides) = (view.dim(), view.strides());
    if dim.ndim() != strides.ndim() || size_of_shape_checked(dim).is_err() {
        return "not_asked";
    }
    match (is_layout_c(dim, strides), is_layout_f(dim, strides)) {
        (true, true) => "both_ways",
        (true, false) => "by_rows",
        (false, true) => "by_columns",
        (false, false) => "neither_way",
    }
}

/// Whether a row tells the ways in which the places of a slice lie in order.
fn is_in_order<D: Lengths>(row: &mut Reading<'_>) -> Option<bool> {
    let view = view::<D>(&mut row.given)?.ok()?;
    let elems = row.given.elems()?;
    let slice: Strided<D> = view.slice(&elems, Strict).ok()?;
    let (dim, strides) = (slice.dim().slice(), slice.strides().slice());
    Some(row.answer.is(ways_of(&slice)) && row.answer.is_list(dim) && row.answer.is_list(strides))
}

/// Whether a row of a table tells the row of a view by its number.
fn is_nth_row<D: Lengths>(row: &mut Reading<'_>) -> Option<bool> {
    let view = view::<D>(&mut row.given)?.ok()?;
    let order = meaning(&ORDERS, row.given.word()?)?;
    let number = row.given.length()?;
    match view.nth_row(order, number) {
        Some(nth) => Some(is_told(row, Ok(nth))),
        None => Some(row.answer.is("None")),
    }
}

/// A row about a view.
struct OfRow<'a, 'b> {
    row: &'a mut Reading<'b>,
    asked: OfView,
}

impl AtType for OfRow<'_, '_> {
    fn at<D: Lengths>(self) -> Option<bool> {
        let OfRow { row, asked } = self;
        match asked {
            OfView::New => {
                let view = view::<D>(&mut row.given)?;
                Some(is_told(row, view))
            }
            OfView::FromShape => {
                let len = row.given.length()?;
                let shape = shape::<D>(&mut row.given)?;
                let view = Strided::from_shape(shape, 1, len, OwnedMutable);
                Some(is_told(row, view))
            }
            OfView::SliceInOrder => is_in_order::<D>(row),
            OfView::NthRow => is_nth_row::<D>(row),
        }
    }
}

/// Whether a row about a view holds, at the type that it names.
pub fn view_holds(row: &mut Reading<'_>, asked: OfView) -> Option<bool> {
    let ndim = row.given.ndim()?;
    at_type(ndim, OfRow { row, asked })
}
