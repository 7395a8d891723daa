//! Random layouts and a plain model of them: a list of the places of all indices.

use crate::numbers::Numbers;
use ndarray_layout::CanIndexCheckMode::{OwnedMutable, ReadOnly};
use ndarray_layout::{ArrayView, ArrayViewMut, CanIndexCheckMode, IxDyn, ShapeError, Strided, unsigned};

/// A shape, its strides, the place of the first index, and how many items there are.
#[derive(Clone, Debug)]
pub struct Layout {
    pub shape: Vec<usize>,
    pub strides: Vec<isize>,
    pub start: usize,
    pub count: usize,
}

impl Layout {
    /// A layout whose strides leave each index an item to itself, with axes in any order, gaps, and axes backwards.
    pub fn random(numbers: &mut Numbers) -> Layout {
        let axes = numbers.below(6);
        let longest = [1, 9, 6, 5, 4, 3][axes];
        let shape: Vec<usize> = (0..axes).map(|_| length(numbers, longest)).collect();
        let order = match numbers.below(3) {
            0 => numbers.axis_order(axes),
            _ => (0..axes).rev().collect(),
        };
        let (gaps, turns) = (numbers.once_in(2), numbers.once_in(2));
        let mut strides = vec![0; axes];
        let mut reach = 1;
        for axis in order {
            let gap = if gaps { numbers.below(3) } else { 0 };
            let sign = if turns && numbers.once_in(2) { -1 } else { 1 };
            strides[axis] = sign * (reach + gap) as isize;
            reach += (reach + gap) * shape[axis].saturating_sub(1);
        }
        Layout::over(shape, strides, numbers)
    }

    /// A layout of a shape whose axes often go on where others end.
    pub fn of_shape(shape: Vec<usize>, numbers: &mut Numbers) -> Layout {
        let mut strides = vec![0; shape.len()];
        let mut stride = numbers.between(-3, 4);
        for axis in (0..shape.len()).rev() {
            strides[axis] = stride;
            stride = if numbers.once_in(3) { numbers.between(-9, 10) } else { stride * shape[axis] as isize };
        }
        Layout::over(shape, strides, numbers)
    }

    /// A layout in which indices may share an item, as after a broadcast or in windows.
    pub fn shared(numbers: &mut Numbers) -> Layout {
        let axes = numbers.below(5);
        let shape: Vec<usize> = (0..axes).map(|_| length(numbers, 4)).collect();
        let strides = (0..axes).map(|_| numbers.between(-3, 4)).collect();
        Layout::over(shape, strides, numbers)
    }

    /// A layout with some spare items before it and after it.
    fn over(shape: Vec<usize>, strides: Vec<isize>, numbers: &mut Numbers) -> Layout {
        let reach = |sign: isize| -> usize {
            let reaches = shape
                .iter()
                .zip(&strides)
                .map(|(len, stride)| if stride * sign > 0 { len.saturating_sub(1) * stride.unsigned_abs() } else { 0 });
            reaches.sum()
        };
        let start = reach(-1) + numbers.below(3);
        let count = start + reach(1) + 1 + numbers.below(3);
        Layout { shape, strides, start, count }
    }

    /// The coordinates of all indices, in row-major order.
    pub fn indices(&self) -> Vec<Vec<usize>> {
        let mut indices = vec![Vec::new()];
        for len in &self.shape {
            let longer = |index: Vec<usize>| (0..*len).map(move |coordinate| [&index[..], &[coordinate]].concat());
            indices = indices.into_iter().flat_map(longer).collect();
        }
        indices
    }

    /// The place of an index.
    pub fn place(&self, index: &[usize]) -> usize {
        let offsets = index.iter().zip(&self.strides).map(|(coordinate, stride)| *coordinate as isize * stride);
        self.start.checked_add_signed(offsets.sum()).expect("a place")
    }

    /// The places of all indices, in row-major order.
    pub fn places(&self) -> Vec<usize> {
        self.indices().iter().map(|index| self.place(index)).collect()
    }

    /// The layout at a coordinate of an axis, without the axis.
    pub fn at(&self, axis: usize, coordinate: usize) -> Layout {
        let mut part = self.clone();
        part.start = part.start.wrapping_add_signed(coordinate as isize * part.strides[axis]);
        part.shape.remove(axis);
        part.strides.remove(axis);
        part
    }

    /// The layouts of the rows along an axis, in row-major order of the other coordinates.
    pub fn lanes(&self, axis: usize) -> Vec<Layout> {
        let mut rows = self.clone();
        let (len, stride) = (rows.shape.remove(axis), rows.strides.remove(axis));
        let row = |start| Layout { shape: vec![len], strides: vec![stride], start, count: self.count };
        if len == 0 { Vec::new() } else { rows.places().into_iter().map(row).collect() }
    }

    /// The view.
    pub fn view(&self, mode: CanIndexCheckMode) -> Result<Strided<IxDyn>, ShapeError> {
        let strides: Vec<usize> = self.strides.iter().map(|stride| unsigned(*stride)).collect();
        Strided::from_parts(self.start, IxDyn(&self.shape), IxDyn(&strides), 1, self.count, mode)
    }

    /// The array of items, to be read.
    pub fn array<'a, T>(&self, items: &'a [T]) -> ArrayView<'a, T, IxDyn> {
        ArrayView::over(self.view(ReadOnly).unwrap(), items).unwrap()
    }

    /// The array of items, to be written.
    pub fn array_mut<'a, T>(&self, items: &'a mut [T]) -> ArrayViewMut<'a, T, IxDyn> {
        ArrayViewMut::over(self.view(OwnedMutable).unwrap(), items).unwrap()
    }
}

/// A length: seldom 0, sometimes 1.
fn length(numbers: &mut Numbers, longest: usize) -> usize {
    match numbers.below(20) {
        0 => 0,
        1..=3 => 1,
        _ => 1 + numbers.below(longest),
    }
}

/// Calls a function with a generator for each of so many rounds.
pub fn rounds(count: usize, seed: u64, mut round: impl FnMut(&mut Numbers)) {
    let mut numbers = Numbers::new(seed);
    for _ in 0..count {
        round(&mut numbers);
    }
}

/// Calls a body with the type of dimension that fixes a count of axes.
#[macro_export]
macro_rules! of_count {
    ($axes:expr, $D:ident => $body:expr) => {
        match $axes {
            0 => {
                type $D = ndarray_layout::Ix0;
                $body
            }
            1 => {
                type $D = ndarray_layout::Ix1;
                $body
            }
            2 => {
                type $D = ndarray_layout::Ix2;
                $body
            }
            3 => {
                type $D = ndarray_layout::Ix3;
                $body
            }
            4 => {
                type $D = ndarray_layout::Ix4;
                $body
            }
            5 => {
                type $D = ndarray_layout::Ix5;
                $body
            }
            axes => panic!("{axes} axes"),
        }
    };
}
