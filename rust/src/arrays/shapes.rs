//! What the shape and the strides of an array say.

use crate::nd_base::{Axis, Ix2, Lengths, signed};
use crate::nd_shape::is_layout_c;
use crate::{ArrayView, ArrayViewMut, OwnedArray};

/// What the layout of one of the types of arrays says, by `of_each!`.
macro_rules! shapes {
    ($array:ident [$($of:tt)*] $lent:lifetime $again:ident $setup:expr) => {
        impl<$($of)* T, D: Lengths> $array<$($of)* T, D> {
            /// How many axes there are. ndarray's `ndim`. Not proved.
            ///
            /// ```
            /// use ndarray_layout::*;
            ///
            #[doc = $setup]
            /// assert_eq!(array.ndim(), 2);
            /// # Ok::<(), LayoutError>(())
            /// ```
            #[inline]
            #[must_use]
            pub fn ndim(&self) -> usize {
                self.dim().ndim()
            }

            /// The lengths of the axes. ndarray's `shape`. Not proved.
            ///
            /// ```
            /// use ndarray_layout::*;
            ///
            #[doc = $setup]
            /// assert_eq!(array.shape(), [2, 3]);
            /// # Ok::<(), LayoutError>(())
            /// ```
            #[inline]
            #[must_use]
            pub fn shape(&self) -> &[usize] {
                self.dim().slice()
            }

            /// The length of an axis. ndarray's `len_of`. Not proved.
            ///
            /// # Panics
            ///
            /// Where there is no such axis.
            ///
            /// ```
            /// use ndarray_layout::*;
            ///
            #[doc = $setup]
            /// assert_eq!(array.len_of(Axis(1)), 3);
            /// # Ok::<(), LayoutError>(())
            /// ```
            #[inline]
            #[must_use]
            #[track_caller]
            pub fn len_of(&self, axis: Axis) -> usize {
                self.shape()[axis.index()]
            }

            /// The stride of an axis, in items. ndarray's `stride_of`. Not proved.
            ///
            /// # Panics
            ///
            /// Where there is no such axis.
            ///
            /// ```
            /// use ndarray_layout::*;
            ///
            #[doc = $setup]
            /// assert_eq!(array.stride_of(Axis(0)), 3);
            /// # Ok::<(), LayoutError>(())
            /// ```
            #[inline]
            #[must_use]
            #[track_caller]
            pub fn stride_of(&self, axis: Axis) -> isize {
                signed(self.strided().strides().slice()[axis.index()])
            }

            /// Whether the items lie one after another in row-major order. ndarray's `is_standard_layout`. Not proved.
            ///
            /// ```
            /// use ndarray_layout::*;
            ///
            #[doc = $setup]
            /// let turned = ArrayView::from_shape(Ix2(2, 3).f()?, &[1, 2, 3, 4, 5, 6])?;
            /// assert!(array.is_standard_layout() && !turned.is_standard_layout());
            /// # Ok::<(), LayoutError>(())
            /// ```
            #[inline]
            #[must_use]
            pub fn is_standard_layout(&self) -> bool {
                is_layout_c(self.dim(), self.strided().strides())
            }
        }

        impl<$($of)* T> $array<$($of)* T, Ix2> {
            /// How many rows there are: the length of the first axis. ndarray's `nrows`. Not proved.
            ///
            /// ```
            /// use ndarray_layout::*;
            ///
            #[doc = $setup]
            /// assert_eq!(array.nrows(), 2);
            /// # Ok::<(), LayoutError>(())
            /// ```
            #[inline]
            #[must_use]
            pub fn nrows(&self) -> usize {
                self.dim()[0]
            }

            /// How many columns there are: the length of the second axis. ndarray's `ncols`. Not proved.
            ///
            /// ```
            /// use ndarray_layout::*;
            ///
            #[doc = $setup]
            /// assert_eq!(array.ncols(), 3);
            /// # Ok::<(), LayoutError>(())
            /// ```
            #[inline]
            #[must_use]
            pub fn ncols(&self) -> usize {
                self.dim()[1]
            }

            /// Whether there are as many rows as columns. ndarray's `is_square`. Not proved.
            ///
            /// ```
            /// use ndarray_layout::*;
            ///
            #[doc = $setup]
            /// assert!(!array.is_square());
            /// # Ok::<(), LayoutError>(())
            /// ```
            #[inline]
            #[must_use]
            pub fn is_square(&self) -> bool {
                self.nrows() == self.ncols()
            }
        }
    };
}

of_each!(shapes);
