//! What arrays print: their items as nested lists, by `{:?}` with their shapes and strides. ndarray's `Display` and `Debug` of arrays.

use crate::nd_base::{Lengths, signed};
use crate::nd_dim::product;
use crate::nd_shape::{Layout, is_layout_c, is_layout_f};
use crate::{ArrayView, ArrayViewMut, LentRow, OwnedArray};
use core::fmt::{self, Formatter};

/// How many items are printed whole; of more, `{:#?}` prints all.
const WHOLE: usize = 500;

/// How many coordinates are printed of the last axis and of the one before where not all items are.
const OF_LAST_AXES: usize = 11;

/// As many of each axis before these.
const OF_AXIS: usize = 6;

fn print_times(f: &mut Formatter<'_>, text: &str, count: usize) -> fmt::Result {
    (0..count).try_for_each(|_| f.write_str(text))
}

/// What stands between two coordinates of an axis: in a line along the last one, else on lines of their own, an empty line more
/// for each axis between.
fn print_separator(f: &mut Formatter<'_>, ndim: usize, axis: usize) -> fmt::Result {
    if axis + 1 == ndim {
        return f.write_str(", ");
    }
    f.write_str(",")?;
    print_times(f, "\n", ndim - axis - 1)?;
    print_times(f, " ", axis + 1)
}

/// The coordinate of an axis that is printed after another one, where at most so many are; `None` after the last one.
fn next_shown(coordinate: usize, len: usize, most: usize) -> Option<usize> {
    let next = if len > most && coordinate + 1 == most / 2 { len - most / 2 } else { coordinate + 1 };
    (next < len).then_some(next)
}

/// Prints what follows the item of an index, and moves to the next one that is printed. Returns how many lists are still open;
/// `None` after the last item.
fn print_step<D: Lengths>(f: &mut Formatter<'_>, dim: &D, index: &mut D) -> Result<Option<usize>, fmt::Error> {
    let ndim = dim.ndim();
    let is_whole = f.alternate() || product(dim.slice()) <= WHOLE;
    for axis in (0..ndim).rev() {
        let most = if axis + 2 < ndim { OF_AXIS } else { OF_LAST_AXES };
        let Some(next) = next_shown(index[axis], dim[axis], if is_whole { usize::MAX } else { most }) else {
            f.write_str("]")?;
            index[axis] = 0;
            continue;
        };
        print_separator(f, ndim, axis)?;
        if next > index[axis] + 1 {
            f.write_str("...")?;
            print_separator(f, ndim, axis)?;
        }
        index[axis] = next;
        return Ok(Some(axis + 1));
    }
    Ok(None)
}

/// Prints the items of an array as nested lists, each by a function.
fn print_nested<T, D: Lengths>(
    f: &mut Formatter<'_>,
    array: &ArrayView<'_, T, D>,
    print_item: impl Fn(&T, &mut Formatter<'_>) -> fmt::Result,
) -> fmt::Result {
    let (dim, ndim) = (array.dim(), array.ndim());
    if dim.slice().contains(&0) {
        print_times(f, "[", ndim)?;
        return print_times(f, "]", ndim);
    }
    let mut index = D::zeros(ndim).map_err(|_| fmt::Error)?;
    let mut open = Some(0);
    while let Some(lists) = open {
        print_times(f, "[", ndim - lists)?;
        print_item(array.get(&index).ok_or(fmt::Error)?, f)?;
        open = print_step(f, dim, &mut index)?;
    }
    Ok(())
}

/// Strides with their signs.
pub(super) struct Signed<'a>(pub &'a [usize]);

/// Not proved.
impl fmt::Debug for Signed<'_> {
    fn fmt(&self, f: &mut Formatter<'_>) -> fmt::Result {
        f.debug_list().entries(self.0.iter().map(|stride| signed(*stride))).finish()
    }
}

/// In which orders a layout can be iterated over, or which one is better.
pub(crate) fn layout_of<D: Lengths>(dim: &D, strides: &D) -> Layout {
    let (lens, steps) = (dim.slice(), strides.slice());
    let is_next = |axis: usize| lens[axis] > 1 && steps[axis] == 1;
    let has_one_axis = lens.iter().filter(|&&len| len > 1).count() <= 1;
    match lens.len() {
        _ if is_layout_c(dim, strides) && has_one_axis => Layout::one_dimensional(),
        _ if is_layout_c(dim, strides) => Layout::c(),
        _ if is_layout_f(dim, strides) => Layout::f(),
        _ if is_next(0) => Layout::fpref(),
        count if is_next(count - 1) => Layout::cpref(),
        _ => Layout::none(),
    }
}

/// Prints the items of a view, and then its shape, strides and order.
fn print_array<T: fmt::Debug, D: Lengths>(f: &mut Formatter<'_>, array: &ArrayView<'_, T, D>) -> fmt::Result {
    print_nested(f, array, T::fmt)?;
    let view = array.strided();
    write!(f, ", shape={:?}, strides={:?}", view.dim().slice(), Signed(view.strides().slice()))?;
    write!(f, ", layout={:?}", layout_of(view.dim(), view.strides()))?;
    let kind = if D::NDIM.is_some() { "const" } else { "dynamic" };
    write!(f, ", {kind} ndim={}", view.dim().ndim())
}

/// What a type of arrays prints, by `{:?}` and by other traits.
macro_rules! printed {
    ($array:ty: $($of:ident)*) => {
        $(
            /// Prints the items as nested lists, each as the format says: `{}`, `{:.1}`, `{:x}`. Of more than 500 items `{}` prints the
            /// first and last coordinates of each axis, and `{:#}` all. ndarray's. Not proved.
            impl<T: fmt::$of, D: Lengths> fmt::$of for $array {
                fn fmt(&self, f: &mut Formatter<'_>) -> fmt::Result {
                    print_nested(f, &self.view(), T::fmt)
                }
            }
        )*

        /// Prints the items as nested lists, then the shape, and the strides with their signs. Of more than 500 items `{:?}`
        /// prints the first and last coordinates of each axis, and `{:#?}` all. ndarray's `Debug`. Not proved.
        ///
        /// ```
        /// use ndarray_layout::{ArrayView, Ix2, LayoutError, Strided, unsigned};
        ///
        /// # fn main() -> Result<(), LayoutError> {
        /// let numbers = [1, 2, 3, 4];
        /// let upwards = Strided::new(Ix2(2, 2), Ix2(unsigned(-2), 1), 4, 4, ndarray_layout::CanIndexCheckMode::ReadOnly)?;
        /// let array = ArrayView::over(upwards, &numbers)?;
        /// let expected = "[[3, 4],\n [1, 2]], shape=[2, 2], strides=[-2, 1], layout=c (0x4), const ndim=2";
        /// assert_eq!(format!("{array:?}"), expected);
        /// assert_eq!((array.to_string(), format!("{array:02}")), ("[[3, 4],\n [1, 2]]".into(), "[[03, 04],\n [01, 02]]".into()));
        /// # Ok(())
        /// # }
        /// ```
        impl<T: fmt::Debug, D: Lengths> fmt::Debug for $array {
            fn fmt(&self, f: &mut Formatter<'_>) -> fmt::Result {
                print_array(f, &self.view())
            }
        }
    };
}

printed!(ArrayView<'_, T, D>: Display LowerExp UpperExp LowerHex Binary);
printed!(ArrayViewMut<'_, T, D>: Display LowerExp UpperExp LowerHex Binary);
printed!(OwnedArray<T, D>: Display LowerExp UpperExp LowerHex Binary);

/// Prints the items of the row. Not proved.
impl<T: fmt::Debug> fmt::Debug for LentRow<'_, T> {
    fn fmt(&self, f: &mut Formatter<'_>) -> fmt::Result {
        f.debug_list().entries((0..self.len()).filter_map(|coordinate| self.get(coordinate))).finish()
    }
}
