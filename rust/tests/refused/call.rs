//! The call that a row tells, and what it is made with.

use crate::allocator::failing_at;
use crate::written::Written;
use CanIndexCheckMode::ReadOnly;
use ndarray_layout::{Axis, CanIndexCheckMode, IxDyn, Slice, SliceInfoElem, StrideShape, Strided, Strides};
use std::cell::Cell;

/// A call by its name, what it is made at, the rest of its row, and which of its allocations fails.
pub struct Call<'a> {
    pub name: &'a str,
    pub at: &'a str,
    pub given: &'a str,
    failing: usize,
    made: Cell<usize>,
}

impl<'a> Call<'a> {
    /// The call that a row tells.
    pub fn read(told: &'a str, failing: usize) -> Self {
        let (name, rest) = told.split_once(' ').unwrap_or((told, ""));
        let (at, given) = rest.split_once(' ').unwrap_or((rest, ""));
        Call { name, at, given, failing, made: Cell::new(0) }
    }

    /// The call under test, with its allocation failing.
    pub fn makes<T>(&self, call: impl FnOnce() -> T) -> T {
        let (returned, made) = failing_at(self.failing, call);
        self.made.set(made);
        returned
    }

    /// What that returns, as the table writes it.
    pub fn told<T: Written>(&self, call: impl FnOnce() -> T) -> String {
        self.makes(call).written()
    }

    /// How many allocations it has made.
    pub fn made(&self) -> usize {
        self.made.get()
    }

    /// One of its lists of numbers; strides below 0 become great ones.
    pub fn list(&self, place: usize) -> Vec<usize> {
        let word = self.given.split(' ').nth(place).unwrap_or("-");
        let number = |text: &str| text.parse().or_else(|_| text.parse().map(ndarray_layout::unsigned));
        word.split(',').filter(|text| *text != "-").map(|text| number(text).expect("a number")).collect()
    }

    /// One of its lists as a value of any number of axes.
    pub fn dim(&self, place: usize) -> IxDyn {
        IxDyn(&self.list(place))
    }

    /// Its first two lists, as a shape and its strides.
    pub fn laid(&self) -> StrideShape<IxDyn> {
        StrideShape { dim: self.dim(0), strides: Strides::Custom(self.dim(1)) }
    }

    /// The same as a view of data that has room for it.
    pub fn view(&self) -> Strided<IxDyn> {
        Strided::new(self.dim(0), self.dim(1), 1, 99, ReadOnly).expect("a view")
    }

    /// Its third list, as an axis and a coordinate.
    pub fn axis_and_index(&self) -> (Axis, usize) {
        let list = self.list(2);
        (Axis(list.first().copied().unwrap_or_default()), list.get(1).copied().unwrap_or_default())
    }

    /// All axes of the first list, each from the last coordinate back.
    pub fn reversed(&self) -> Vec<SliceInfoElem> {
        vec![Slice::new(0, None, -1).into(); self.list(0).len()]
    }

    /// The same axes from the last one on.
    pub fn back(&self) -> Vec<Axis> {
        (0..self.list(0).len()).rev().map(Axis).collect()
    }
}
