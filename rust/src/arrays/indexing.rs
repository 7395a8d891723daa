//! Items by an index in brackets, and what a wrong one is told.

use crate::convenience::OUT_OF_MEMORY;
use crate::nd_base::Lengths;
use crate::nd_shape::NdIndex;
use crate::{ArrayViewMut, Ix1, LentRow};
use core::fmt;
use core::ops::{Index, IndexMut};

/// Panics with an index, and the shape that it is no index of. The index comes by value, so that a loop keeps it in registers.
#[cold]
#[inline(never)]
#[track_caller]
pub(crate) fn no_such_index<I: fmt::Debug, D: Lengths>(index: I, dim: &D) -> ! {
    panic!("index {index:?} is out of bounds of the shape {:?}", dim.slice())
}

/// The item of an index, to be written. Not proved.
///
/// # Panics
///
/// Where it is no index of the shape; the message has both. `get_mut` returns `None`.
///
/// ```
/// use ndarray_layout::*;
///
/// let mut items = [1, 2, 3, 4, 5, 6];
/// let mut rows = ArrayViewMut::from_shape(Ix2(2, 3), &mut items)?;
/// rows[(1, 0)] += 30;
/// assert_eq!(items, [1, 2, 3, 34, 5, 6]);
/// # Ok::<(), LayoutError>(())
/// ```
///
/// ```should_panic
/// use ndarray_layout::*;
///
/// let mut items = [1, 2, 3, 4, 5, 6];
/// let mut rows = ArrayViewMut::from_shape(Ix2(2, 3), &mut items).unwrap();
/// rows[(2, 0)] = 7; // index (2, 0) is out of bounds of the shape [2, 3]
/// ```
impl<T, D: Lengths, I: NdIndex<D>> IndexMut<I> for ArrayViewMut<'_, T, D> {
    #[inline]
    #[track_caller]
    fn index_mut(&mut self, index: I) -> &mut T {
        if self.strided().place(&index).is_none() {
            // (of a copy: a loop keeps the part in registers where no other call is told where it lies)
            no_such_index(index, &self.dim().duplicate().expect(OUT_OF_MEMORY));
        }
        match self.get_mut(&index) {
            Some(item) => item,
            None => unreachable!("an index of the shape"),
        }
    }
}

/// The item of a coordinate of a row, to be read. Not proved; `get` is.
///
/// # Panics
///
/// Where the row has no such coordinate; the message has it and the length.
///
/// ```
/// use ndarray_layout::*;
///
/// let firsts: Vec<i32> = array![[1, 2, 3], [4, 5, 6]].rows().map(|row| row[0]).collect();
/// assert_eq!(firsts, [1, 4]);
/// ```
impl<T> Index<usize> for LentRow<'_, T> {
    type Output = T;

    #[track_caller]
    fn index(&self, coordinate: usize) -> &T {
        match self.get(coordinate) {
            Some(item) => item,
            None => no_such_index(coordinate, &Ix1(self.len())),
        }
    }
}
