//! The names of views by their count of axes.

use crate::{ArrayView, ArrayViewMut, Ix0, Ix1, Ix2, Ix3, Ix4, Ix5, Ix6, IxDyn};

/// One item that is lent. ndarray's `ArrayView0`. Not proved.
pub type ArrayView0<'a, T> = ArrayView<'a, T, Ix0>;

/// Items that are lent along one axis. ndarray's `ArrayView1`. Not proved.
pub type ArrayView1<'a, T> = ArrayView<'a, T, Ix1>;

/// Items that are lent along two axes. ndarray's `ArrayView2`. Not proved.
///
/// ```
/// use ndarray_layout::{ArrayView, ArrayView2, Ix2, LayoutError};
///
/// fn trace(view: &ArrayView2<'_, i32>) -> i32 {
///     view.diag().iter().sum()
/// }
///
/// # fn main() -> Result<(), LayoutError> {
/// assert_eq!(trace(&ArrayView::from_shape(Ix2(2, 3), &[1, 2, 3, 4, 5, 6])?), 1 + 5);
/// # Ok(())
/// # }
/// ```
pub type ArrayView2<'a, T> = ArrayView<'a, T, Ix2>;

/// Items that are lent along three axes. ndarray's `ArrayView3`. Not proved.
pub type ArrayView3<'a, T> = ArrayView<'a, T, Ix3>;

/// Items that are lent along four axes. ndarray's `ArrayView4`. Not proved.
pub type ArrayView4<'a, T> = ArrayView<'a, T, Ix4>;

/// Items that are lent along five axes. ndarray's `ArrayView5`. Not proved.
pub type ArrayView5<'a, T> = ArrayView<'a, T, Ix5>;

/// Items that are lent along six axes. ndarray's `ArrayView6`. Not proved.
pub type ArrayView6<'a, T> = ArrayView<'a, T, Ix6>;

/// Items that are lent along any number of axes. ndarray's `ArrayViewD`. Not proved.
pub type ArrayViewD<'a, T> = ArrayView<'a, T, IxDyn>;

/// One item that is lent to be written. ndarray's `ArrayViewMut0`. Not proved.
pub type ArrayViewMut0<'a, T> = ArrayViewMut<'a, T, Ix0>;

/// Items that are lent to be written, along one axis. ndarray's `ArrayViewMut1`. Not proved.
pub type ArrayViewMut1<'a, T> = ArrayViewMut<'a, T, Ix1>;

/// Items that are lent to be written, along two axes. ndarray's `ArrayViewMut2`. Not proved.
///
/// ```
/// use ndarray_layout::{ArrayViewMut, ArrayViewMut2, Ix2, LayoutError};
///
/// fn clear_first(mut view: ArrayViewMut2<'_, i32>) -> bool {
///     view.set(&(0, 0), 0)
/// }
///
/// # fn main() -> Result<(), LayoutError> {
/// let mut items = [1, 2, 3, 4];
/// assert!(clear_first(ArrayViewMut::from_shape(Ix2(2, 2), &mut items)?));
/// assert_eq!(items, [0, 2, 3, 4]);
/// # Ok(())
/// # }
/// ```
pub type ArrayViewMut2<'a, T> = ArrayViewMut<'a, T, Ix2>;

/// Items that are lent to be written, along three axes. ndarray's `ArrayViewMut3`. Not proved.
pub type ArrayViewMut3<'a, T> = ArrayViewMut<'a, T, Ix3>;

/// Items that are lent to be written, along four axes. ndarray's `ArrayViewMut4`. Not proved.
pub type ArrayViewMut4<'a, T> = ArrayViewMut<'a, T, Ix4>;

/// Items that are lent to be written, along five axes. ndarray's `ArrayViewMut5`. Not proved.
pub type ArrayViewMut5<'a, T> = ArrayViewMut<'a, T, Ix5>;

/// Items that are lent to be written, along six axes. ndarray's `ArrayViewMut6`. Not proved.
pub type ArrayViewMut6<'a, T> = ArrayViewMut<'a, T, Ix6>;

/// Items that are lent to be written, along any number of axes. ndarray's `ArrayViewMutD`. Not proved.
pub type ArrayViewMutD<'a, T> = ArrayViewMut<'a, T, IxDyn>;
