// Made by `rust/erase` of `crates/ndarray_layout/src/strided/readers.rt`: edit that.
//! What a view has: its start, shape and strides.

use crate::memory::prelude::Vec;
use crate::nd_base::Lengths;
use crate::nd_dim::product;
use crate::nd_shape::{Axes, axes_of};
use crate::ndarray_layout::strided::Strided;

impl<D: Lengths> Strided<D> {
    /// The place of the first index, in elements from the start of the data. The project's own.
    ///
    /// # Examples
    ///
    /// ```
    /// use ndarray_layout::{CanIndexCheckMode, Ix2, LayoutError, Strided, unsigned};
    ///
    /// # fn main() -> Result<(), LayoutError> {
    /// let view = Strided::new(Ix2(2, 3), Ix2(unsigned(-3), 1), 1, 6, CanIndexCheckMode::ReadOnly)?;
    /// assert_eq!(view.start(), 3);
    /// assert_eq!(view.place(&(0, 0)), Some(3));
    /// # Ok(())
    /// # }
    /// ```
    ///
    /// <details><summary>Contract (proved)</summary>
    ///
    /// ```text
    /// ensures place: result ≡ self.now.start
    /// ensures is_view: IsView self.now
    /// ```
    /// [How to read it](crate::contracts)
    /// </details>
    #[must_use]
    #[inline]
    pub fn start(&self) -> usize {
        self.start
    }

    /// The shape. ndarray's `raw_dim`, borrowed.
    ///
    /// # Examples
    ///
    /// ```
    /// use ndarray_layout::{CanIndexCheckMode, Ix2, LayoutError, Strided};
    ///
    /// # fn main() -> Result<(), LayoutError> {
    /// let view = Strided::new(Ix2(2, 3), Ix2(3, 1), 1, 6, CanIndexCheckMode::ReadOnly)?;
    /// assert_eq!(view.dim(), &Ix2(2, 3));
    /// assert_eq!(view.dim()[1], 3);
    /// # Ok(())
    /// # }
    /// ```
    ///
    /// <details><summary>Contract (proved)</summary>
    ///
    /// ```text
    /// ensures list: D.list result.now ≡ self.now.shape
    /// ensures is_view: IsView self.now
    /// ```
    /// [How to read it](crate::contracts)
    /// </details>
    #[must_use]
    #[inline]
    pub fn dim(&self) -> &D {
        &self.dim
    }

    /// The strides, in elements, each kept as the `usize` of the same bits (`signed`). For
    /// ndarray's `strides`.
    ///
    /// # Examples
    ///
    /// ```
    /// use ndarray_layout::{CanIndexCheckMode, Ix2, LayoutError, Strided, signed, unsigned};
    ///
    /// # fn main() -> Result<(), LayoutError> {
    /// let view = Strided::new(Ix2(2, 3), Ix2(unsigned(-3), 1), 1, 6, CanIndexCheckMode::ReadOnly)?;
    /// assert_eq!(view.strides(), &Ix2(unsigned(-3), 1));
    /// assert_eq!(signed(view.strides()[0]), -3);
    /// # Ok(())
    /// # }
    /// ```
    ///
    /// <details><summary>Contract (proved)</summary>
    ///
    /// ```text
    /// ensures list: all_signed (D.list result.now) ≡ self.now.strides
    /// ensures is_view: IsView self.now
    /// ```
    /// [How to read it](crate::contracts)
    /// </details>
    #[must_use]
    #[inline]
    pub fn strides(&self) -> &D {
        &self.strides
    }

    /// How many indices the shape has.
    ///
    /// `[2,3]`: 6. ndarray's `len`.
    ///
    /// # Examples
    ///
    /// ```
    /// use ndarray_layout::{CanIndexCheckMode, Ix2, LayoutError, Strided};
    ///
    /// # fn main() -> Result<(), LayoutError> {
    /// let view = Strided::new(Ix2(2, 3), Ix2(3, 1), 1, 6, CanIndexCheckMode::ReadOnly)?;
    /// assert_eq!(view.len(), 6);
    /// # Ok(())
    /// # }
    /// ```
    ///
    /// <details><summary>Contract (proved)</summary>
    ///
    /// ```text
    /// ensures size: result ≡ size self.now.shape
    /// ensures is_view: IsView self.now
    /// ```
    /// [How to read it](crate::contracts)
    /// </details>
    #[must_use]
    #[inline]
    pub fn len(&self) -> usize {
        product(self.dim.slice())
    }

    /// Whether the shape has no index, as one of its lengths is 0.
    ///
    /// `[2,0]`: `true`. ndarray's `is_empty`.
    ///
    /// # Examples
    ///
    /// ```
    /// use ndarray_layout::{CanIndexCheckMode, Ix2, LayoutError, Strided};
    ///
    /// # fn main() -> Result<(), LayoutError> {
    /// let empty = Strided::new(Ix2(2, 0), Ix2(0, 1), 1, 0, CanIndexCheckMode::ReadOnly)?;
    /// assert_eq!((empty.is_empty(), empty.len()), (true, 0));
    /// let view = Strided::new(Ix2(2, 3), Ix2(3, 1), 1, 6, CanIndexCheckMode::ReadOnly)?;
    /// assert_eq!((view.is_empty(), view.len()), (false, 6));
    /// # Ok(())
    /// # }
    /// ```
    ///
    /// <details><summary>Contract (proved)</summary>
    ///
    /// ```text
    /// ensures empty: result ≡ is_empty self.now.shape
    /// ensures none: IsTrue result ↔ (size self.now.shape ≡ 0)
    /// ```
    /// [How to read it](crate::contracts)
    /// </details>
    #[must_use]
    #[inline]
    pub fn is_empty(&self) -> bool {
        self.dim.slice().contains(&0)
    }

    /// Iterator over the axes with their lengths and strides, from the first axis or from the last.
    ///
    /// `[2,3]` with strides `[3,1]`: 2 and 3 of axis 0, 3 and 1 of axis 1. ndarray's `axes`.
    ///
    /// # Examples
    ///
    /// ```
    /// use ndarray_layout::{Axis, CanIndexCheckMode, Ix2, LayoutError, Strided};
    ///
    /// # fn main() -> Result<(), LayoutError> {
    /// let view = Strided::new(Ix2(2, 3), Ix2(3, 1), 1, 6, CanIndexCheckMode::ReadOnly)?;
    /// let axes: Vec<_> = view.axes().map(|axis| (axis.axis, axis.len, axis.stride)).collect();
    /// assert_eq!(axes, [(Axis(0), 2, 3), (Axis(1), 3, 1)]);
    /// assert_eq!(view.axes().next_back().map(|axis| axis.len), Some(3));
    /// # Ok(())
    /// # }
    /// ```
    ///
    /// <details><summary>Contract (proved)</summary>
    ///
    /// ```text
    /// ensures list: axes_left result ≡ axes self.now.shape self.now.strides
    /// ensures in_order: YieldsInOrder (YieldsFirst axes_left) axes_left
    /// ensures in_reverse: YieldsInReverse (YieldsLast axes_left) axes_left
    /// ensures is_view: IsView self.now
    /// ```
    /// [How to read it](crate::contracts)
    /// </details>
    #[inline]
    #[must_use]
    pub fn axes(&self) -> Axes<'_> {
        axes_of(&self.dim, &self.strides)
    }
}
