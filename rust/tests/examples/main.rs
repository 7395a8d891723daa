//! The callers that `docs/CALLING.md` lists, and the edits of `tiles`.

mod blurs;
mod example_callers;
#[path = "../../programs/example_tiles_edits/mod.rs"]
mod example_tiles_edits;
mod histograms;
mod foreign;
mod pictures;
mod tasks;
mod tiles;
mod views;
mod writes;

use ndarray_layout::CanIndexCheckMode::OwnedMutable;
use ndarray_layout::{ErrorKind, IxDyn, LayoutError, Strided, unsigned};

/// Shape, strides, and how many elements they lie over.
type Layout = (&'static [usize], &'static [isize], usize);

/// A shape of six axes with 10,000 indices, and its strides from the last place back.
const SIX_AXES: &[usize] = &[10, 2, 5, 10, 2, 5];
const SIX_BACK: &[isize] = &[-1000, -500, -100, -10, -5, -1];

/// Places in a buffer, or the pixels at these.
#[derive(Clone, Copy)]
enum Places {
    Listed(&'static [usize]),
    /// A hundred rows of a hundred: the first one, and how far it is from there to the next row and to the next column.
    Hundreds(usize, isize, isize),
}
use Places::{Hundreds, Listed};

impl Places {
    fn list(self) -> Vec<usize> {
        match self {
            Listed(places) => places.to_vec(),
            Hundreds(first, to_row, to_column) => (0..10_000)
                .map(|number| first.checked_add_signed(number / 100 * to_row + number % 100 * to_column).unwrap())
                .collect(),
        }
    }

    fn pixels(self) -> Vec<u8> {
        self.list().into_iter().map(pixel_at).collect()
    }
}

/// The pixel at a place: 0 at the first one, 1 at the next. After 250 they begin anew.
fn pixel_at(place: usize) -> u8 {
    (place % 251) as u8
}

fn pixels(count: usize) -> Vec<u8> {
    (0..count).map(pixel_at).collect()
}

/// The numbers of strides, as a dimension keeps them.
fn strides(strides: &[isize]) -> IxDyn {
    IxDyn(&strides.iter().map(|stride| unsigned(*stride)).collect::<Vec<_>>())
}

/// The view of a layout, in which no two indices alias.
fn view_of((shape, by, len): Layout) -> Strided<IxDyn> {
    Strided::new(IxDyn(shape), strides(by), 1, len, OwnedMutable).unwrap()
}

/// The kind of an error that is none of memory.
fn kind(error: LayoutError) -> ErrorKind {
    match error {
        LayoutError::Shape(error) => error.kind(),
        LayoutError::Memory(error) => panic!("{error}"),
    }
}
