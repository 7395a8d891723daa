// Made by `rust/erase` of `crates/nd_lent/src/array_view_mut/parts.rt`: edit that.
//! Several parts of the same items one after another, each a part of its own.

use crate::lent::nd_access::Cells;
use crate::lent::nd_lent::array_view_mut::ArrayViewMut;
use crate::lent::nd_lent::views::Views;
use crate::memory::AllocError;

/// Several parts that are still to come, from both ends, each a part of its own: those along an axis (`AxisIterMut`), its chunks
/// (`AxisChunksIterMut`), or the chunks of a shape (`TilesMut`). Several may be used at once, and in threads, whatever the strides are.
pub struct Parts<'a, T, V: Views> {
    pub(super) cells: Cells<'a, T>,
    pub(super) views: V,
}

impl<'a, T: Sized, V: Views> Parts<'a, T, V> {
    /// How many parts are left.
    ///
    /// Of the columns of `[2,3]`: 3. ndarray's `len`.
    ///
    /// # Examples
    ///
    /// ```
    /// use ndarray_layout::{ArrayViewMut, Axis, Ix2, LayoutError};
    ///
    /// # fn main() -> Result<(), LayoutError> {
    /// let mut items = [1, 2, 3, 4, 5, 6];
    /// let part = ArrayViewMut::from_shape(Ix2(2, 3), &mut items)?;
    /// assert_eq!(part.into_axis_parts(Axis(1))?.len(), 3);
    /// # Ok(())
    /// # }
    /// ```
    ///
    /// <details><summary>Contract (proved)</summary>
    ///
    /// ```text
    /// ensures result ≡ length self.now.arrays
    /// ```
    /// [How to read it](crate::contracts)
    /// </details>
    #[must_use]
    #[inline]
    pub fn len(&self) -> usize {
        self.views.len()
    }

    /// Skips the next `count` parts, or all that remain. They are unchanged.
    ///
    /// Takes no memory, and no time for each of them.
    ///
    /// Of the columns of `[2,3]`, after 2 of them: the last one. What `nth` of std's iterators skips one by one.
    ///
    /// # Examples
    ///
    /// ```
    /// use ndarray_layout::{ArrayViewMut, Axis, Ix2, LayoutError};
    ///
    /// # fn main() -> Result<(), LayoutError> {
    /// let mut items = [1, 2, 3, 4, 5, 6];
    /// let mut columns = ArrayViewMut::from_shape(Ix2(2, 3), &mut items)?.into_axis_parts(Axis(1))?;
    /// columns.advance(2);
    /// columns.for_each(|mut column| column.fill(0));
    /// assert_eq!(items, [1, 2, 0, 4, 5, 0]);
    /// # Ok(())
    /// # }
    /// ```
    ///
    /// <details><summary>Contract (proved)</summary>
    ///
    /// ```text
    /// ensures left: self.new.arrays ≡ drop count self.old.arrays
    /// ensures keeps_access: self.new.access ≡ self.old.access
    /// ```
    /// [How to read it](crate::contracts)
    /// </details>
    #[inline]
    pub fn advance(&mut self, count: usize) {
        self.views.advance(count);
    }

    /// Skips the last `count` parts, or all that remain. They are unchanged.
    ///
    /// Takes no memory, and no time for each of them.
    ///
    /// Of the columns of `[2,3]`, without the last 2: the first one. What `nth_back` of std's iterators skips one by one.
    ///
    /// # Examples
    ///
    /// ```
    /// use ndarray_layout::{ArrayViewMut, Axis, Ix2, LayoutError};
    ///
    /// # fn main() -> Result<(), LayoutError> {
    /// let mut items = [1, 2, 3, 4, 5, 6];
    /// let mut columns = ArrayViewMut::from_shape(Ix2(2, 3), &mut items)?.into_axis_parts(Axis(1))?;
    /// columns.advance_back(2);
    /// columns.for_each(|mut column| column.fill(0));
    /// assert_eq!(items, [0, 2, 3, 0, 5, 6]);
    /// # Ok(())
    /// # }
    /// ```
    ///
    /// <details><summary>Contract (proved)</summary>
    ///
    /// ```text
    /// ensures left: self.new.arrays ≡ take (length self.old.arrays - count) self.old.arrays
    /// ensures keeps_access: self.new.access ≡ self.old.access
    /// ```
    /// [How to read it](crate::contracts)
    /// </details>
    #[inline]
    pub fn advance_back(&mut self, count: usize) {
        self.views.advance_back(count);
    }

    /// The next part; `None` where none is left. That the parts keep what is written is tested, and in no clause.
    ///
    /// Takes time in proportion to the count of axes.
    ///
    /// Of the columns of `[2,2]` over 5 6 7 8: 5 7, then 6 8, then `None`. ndarray's `next`.
    ///
    /// # Errors
    ///
    /// Out of memory; never where the type fixes the count of axes or a part has at most 4. The iterator is unchanged after it.
    ///
    /// # Examples
    ///
    /// ```
    /// use ndarray_layout::{ArrayViewMut, Axis, Ix2, LayoutError};
    ///
    /// # fn main() -> Result<(), LayoutError> {
    /// let mut items = [5, 6, 7, 8];
    /// let mut columns = ArrayViewMut::from_shape(Ix2(2, 2), &mut items)?.into_axis_parts(Axis(1))?;
    /// while let Some(mut column) = columns.try_next()? {
    ///     column[0] += column[1];
    /// }
    /// assert_eq!(items, [12, 14, 7, 8]);
    /// # Ok(())
    /// # }
    /// ```
    ///
    /// <details><summary>Contract (proved)</summary>
    ///
    /// ```text
    /// ensures memory: All (λ array. NeedsNoMemory V.Dim.NDIM (length array.view.shape)) self.old.arrays → IsOk result
    /// ensures unchanged: IfErr result (λ _. self.new.arrays ≡ self.old.arrays)
    /// ensures first: IfOk result (λ next. MatchOption next
    ///     ((self.old.arrays ≡ []) × (self.new.arrays ≡ []))
    ///     (λ part. self.old.arrays ≡ array_of part ∷ self.new.arrays))
    /// ```
    /// [How to read it](crate::contracts)
    /// </details>
    #[inline]
    pub fn try_next(&mut self) -> Result<Option<ArrayViewMut<'a, T, V::Dim>>, AllocError> {
        match self.views.try_next()? {
            Some(view) => Ok(Some(ArrayViewMut::take_from(&mut self.cells, view))),
            None => Ok(None),
        }
    }

    /// The last part; `None` where none is left.
    ///
    /// Takes the time of `try_next`.
    ///
    /// Of the columns of `[2,2]` over 5 6 7 8: 6 8, then 5 7, then `None`. ndarray's `next_back`.
    ///
    /// # Errors
    ///
    /// Those of `try_next`. The iterator is unchanged after one.
    ///
    /// # Examples
    ///
    /// ```
    /// use ndarray_layout::{ArrayViewMut, Axis, Ix2, LayoutError};
    ///
    /// # fn main() -> Result<(), LayoutError> {
    /// let mut items = [5, 6, 7, 8];
    /// let mut columns = ArrayViewMut::from_shape(Ix2(2, 2), &mut items)?.into_axis_parts(Axis(1))?;
    /// if let Some(mut last) = columns.try_next_back()? {
    ///     last.fill(0);
    /// }
    /// assert_eq!(items, [5, 0, 7, 0]);
    /// # Ok(())
    /// # }
    /// ```
    ///
    /// <details><summary>Contract (proved)</summary>
    ///
    /// ```text
    /// ensures memory: All (λ array. NeedsNoMemory V.Dim.NDIM (length array.view.shape)) self.old.arrays → IsOk result
    /// ensures unchanged: IfErr result (λ _. self.new.arrays ≡ self.old.arrays)
    /// ensures last: IfOk result (λ next. MatchOption next
    ///     ((self.old.arrays ≡ []) × (self.new.arrays ≡ []))
    ///     (λ part. self.old.arrays ≡ self.new.arrays ++ array_of part ∷ []))
    /// ```
    /// [How to read it](crate::contracts)
    /// </details>
    #[inline]
    pub fn try_next_back(&mut self) -> Result<Option<ArrayViewMut<'a, T, V::Dim>>, AllocError> {
        match self.views.try_next_back()? {
            Some(view) => Ok(Some(ArrayViewMut::take_from(&mut self.cells, view))),
            None => Ok(None),
        }
    }
}
