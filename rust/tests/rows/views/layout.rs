//! Layouts as rows tell them, and views as rows answer them.

use crate::table::{Words, dim_of, layout_kind, lengths, list, strides};
use ndarray_layout::CanIndexCheckMode::{OwnedMutable, ReadOnly};
use ndarray_layout::{CanIndexCheckMode, LayoutError, Lengths, Order, ShapeError, StrideShape, Strided, Strides};

/// A layout over some elements.
pub struct Layout {
    len: usize,
    mode: CanIndexCheckMode,
    shape: Vec<usize>,
    strides: Vec<usize>,
}

impl Layout {
    /// The layout of the next words: `LEN owned|read SHAPE STRIDES`.
    pub fn read(words: &mut Words) -> Self {
        let len = words.number();
        let mode = match words.word() {
            "owned" => OwnedMutable,
            "read" => ReadOnly,
            word => panic!("no mode: {word}"),
        };
        Layout { len, mode, shape: words.list(), strides: words.list() }
    }

    /// Its lengths and its strides at a type that has as many axes.
    fn lists<D: Lengths>(&self) -> (D, D) {
        (dim_of(&self.shape).expect("lengths of the type"), dim_of(&self.strides).expect("strides of the type"))
    }

    /// Its view over elements of one byte.
    pub fn view<D: Lengths>(&self) -> Result<Strided<D>, ShapeError> {
        let (dim, strides) = self.lists();
        Strided::new(dim, strides, 1, self.len, self.mode)
    }

    /// Its view from a start, over elements of a size.
    pub fn view_from<D: Lengths>(&self, start: usize, elem_size: usize) -> Result<Strided<D>, ShapeError> {
        let (dim, strides) = self.lists();
        Strided::from_parts(start, dim, strides, elem_size, self.len, self.mode)
    }
}

/// The view of the layout of the next words.
pub fn read_view<D: Lengths>(words: &mut Words) -> Strided<D> {
    Layout::read(words).view().expect("an accepted layout")
}

/// The view of a shape in owned mode, over so many elements of one byte.
pub fn shaped<D: Lengths>(dim: D, strides: Strides<D>, len: usize) -> Result<Strided<D>, LayoutError> {
    Strided::from_shape(StrideShape { dim, strides }, 1, len, OwnedMutable)
}

/// The strides that a word names (`C` or `F`) or lists.
pub fn read_strides<D: Lengths>(words: &mut Words) -> Strides<D> {
    match words.word() {
        "C" => Strides::C,
        "F" => Strides::F,
        word => Strides::Custom(Words::of(word).dim()),
    }
}

/// The shape, the strides and the start of a view.
pub fn parts<D: Lengths>(view: &Strided<D>) -> String {
    format!("{} {} {}", lengths(view.dim()), strides(view.strides()), view.start())
}

/// The same and its places by rows; or the fault.
pub fn told<D: Lengths>(view: Result<Strided<D>, impl Into<LayoutError>>) -> String {
    match view {
        Ok(view) => format!("{} {}", parts(&view), list(view.places(Order::C).unwrap())),
        Err(error) => layout_kind(error.into()),
    }
}
