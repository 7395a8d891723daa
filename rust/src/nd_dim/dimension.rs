// Made by `rust/erase` of `crates/nd_dim/src/dimension.rt`: edit that.
//! What a shape and an index can do, whatever their type.

use crate::memory::AllocError;
use crate::nd_base::{
    Arithmetic, Axis, INLINE_AXES, IxDyn, Lengths, Scale, index_offset, new_ixdyn, stride_offset_checked,
};
use crate::nd_dim::contiguous::is_contiguous;
use crate::nd_dim::conversion::IntoDimension;
use crate::nd_dim::insert_axis::insert_axis_into;
use crate::nd_dim::last_len::{last_len, set_last_len};
use crate::nd_dim::next_index::{advance_column_major, advance_row_major};
use crate::nd_dim::remove_axis::remove_axis_into;
use crate::nd_dim::sizes::{checked_size, product};
use crate::nd_dim::stride_axes::{max_stride_axis, min_stride_axis};
use crate::nd_dim::stride_order::fill_stride_order;
use crate::nd_dim::strides::{are_equivalent, default_strides, fortran_strides};

/// A shape, an index, or a list of strides: one list of numbers, one for each axis. ndarray's
/// `Dimension`.
///
/// Sealed: no type outside this package implements it.
pub trait Dimension:
    Lengths
    + Arithmetic
    + Scale
    + crate::sealed::Sealed
    + Default
    + IntoDimension<Dim = Self>
    + crate::DimMax<Self, Output = Self>
    + crate::DimMax<crate::Ix0, Output = Self>
    + crate::DimMax<crate::IxDyn, Output = crate::IxDyn>
    + crate::DimMax<<Self as Dimension>::Smaller, Output = Self>
    + crate::DimMax<<Self as Dimension>::Larger, Output = <Self as Dimension>::Larger>
    + crate::DimAdd<Self>
    + crate::DimAdd<<Self as Dimension>::Smaller>
    + crate::DimAdd<<Self as Dimension>::Larger>
    + crate::DimAdd<crate::Ix0, Output = Self>
    + crate::DimAdd<crate::Ix1, Output = <Self as Dimension>::Larger>
    + crate::DimAdd<crate::IxDyn, Output = crate::IxDyn>
{
    /// A number, a tuple or the dimension itself: the form that a pattern takes apart. ndarray's
    /// `Pattern`.
    type Pattern: IntoDimension<Dim = Self> + Clone + core::fmt::Debug + PartialEq + Eq + Default;

    /// The type of one axis less, where there is one. ndarray's `Smaller`.
    type Smaller: Dimension;

    /// The type of one axis more. ndarray's `Larger`.
    type Larger: Dimension + crate::RemoveAxis;

    /// The same list in the form that a pattern takes apart: a number, a tuple, or the `IxDyn`
    /// itself.
    ///
    /// `[4,5]`: (4, 5). ndarray's `into_pattern`.
    ///
    /// <details><summary>Contract (proved)</summary>
    ///
    /// ```text
    /// ensures Self.Pattern.lens result ≡ Self.list self
    /// ```
    /// [How to read it](crate::contracts)
    /// </details>
    #[must_use]
    fn into_pattern(self) -> Self::Pattern;

    /// The same list, as a dimension of any number of axes.
    ///
    /// Takes time in proportion to the count of axes. ndarray's `into_dyn`.
    ///
    /// # Errors
    ///
    /// Out of memory; never where there are at most 4 axes.
    ///
    /// <details><summary>Contract (proved)</summary>
    ///
    /// ```text
    /// ensures list: IfOk result (λ dim. lengths dim ≡ Self.list self)
    /// ensures memory: length (Self.list self) ≤ INLINE_AXES → IsOk result
    /// ```
    /// [How to read it](crate::contracts)
    /// </details>
    #[inline]
    fn into_dyn(self) -> Result<IxDyn, AllocError>
    where
        Self: Sized,
    {
        new_ixdyn(self.slice())
    }

    /// The product of all lengths.
    ///
    /// Takes time in proportion to the count of axes.
    ///
    /// `[2,3]`: 6. ndarray's `size`.
    ///
    /// # Conditions
    ///
    /// The caller ensures that it is below 2^64 (`size_checked`). Otherwise this call or a later one panics or returns
    /// unspecified values.
    ///
    /// <details><summary>Contract (proved)</summary>
    ///
    /// ```text
    /// requires size (Self.list self.now) < 2 ^ 64
    /// ensures result ≡ size (Self.list self.now)
    /// ```
    /// [How to read it](crate::contracts)
    /// </details>
    #[must_use]
    #[inline]
    fn size(&self) -> usize {
        product(self.slice())
    }

    /// The product of all lengths; `None` where it is 2^64 or more. It is 0 where a length is 0,
    /// whatever the others are.
    ///
    /// Takes time in proportion to the count of axes.
    ///
    /// `[2^40,2^40,0]`: `Some(0)`. ndarray's `size_checked`.
    ///
    /// <details><summary>Contract (proved)</summary>
    ///
    /// ```text
    /// ensures SomeIff result (size (Self.list self.now) < 2 ^ 64) (size (Self.list self.now))
    /// ```
    /// [How to read it](crate::contracts)
    /// </details>
    #[must_use]
    #[inline]
    fn size_checked(&self) -> Option<usize> {
        checked_size(self.slice())
    }

    /// The strides in row-major order, in elements: each is the product of the later lengths. All
    /// are 0 where a length is 0.
    ///
    /// Takes time in proportion to the count of axes.
    ///
    /// `[2,3,4]`: `[12,4,1]`. ndarray's `default_strides`.
    ///
    /// # Errors
    ///
    /// Out of memory; never where the type fixes the count or there are at most 4 axes.
    ///
    /// # Conditions
    ///
    /// The caller ensures that the size is below 2^64 (`size_checked`). Otherwise this call or a later one panics or
    /// returns unspecified values.
    ///
    /// <details><summary>Contract (proved)</summary>
    ///
    /// ```text
    /// requires size (Self.list self.now) < 2 ^ 64
    /// ensures list: IfOk result (λ strides. Self.list strides ≡ default_strides_of (Self.list self.now))
    /// ensures memory: NeedsNoMemory Self.NDIM (length (Self.list self.now)) → IsOk result
    /// ```
    /// [How to read it](crate::contracts)
    /// </details>
    #[inline]
    fn default_strides(&self) -> Result<Self, AllocError>
    where
        Self: Sized,
    {
        default_strides(self)
    }

    /// The strides in column-major order, in elements: each is the product of the earlier lengths.
    /// All are 0 where a length is 0.
    ///
    /// Takes time in proportion to the count of axes.
    ///
    /// `[2,3,4]`: `[1,2,6]`. ndarray's `fortran_strides`.
    ///
    /// # Errors
    ///
    /// Out of memory; never where the type fixes the count or there are at most 4 axes.
    ///
    /// # Conditions
    ///
    /// The caller ensures that the size is below 2^64 (`size_checked`). Otherwise this call or a later one panics or
    /// returns unspecified values.
    ///
    /// <details><summary>Contract (proved)</summary>
    ///
    /// ```text
    /// requires size (Self.list self.now) < 2 ^ 64
    /// ensures list: IfOk result (λ strides. Self.list strides ≡ fortran_strides_of (Self.list self.now))
    /// ensures memory: NeedsNoMemory Self.NDIM (length (Self.list self.now)) → IsOk result
    /// ```
    /// [How to read it](crate::contracts)
    /// </details>
    #[inline]
    fn fortran_strides(&self) -> Result<Self, AllocError>
    where
        Self: Sized,
    {
        fortran_strides(self)
    }

    /// The first index of the shape, all 0; `None` where a length is 0, so that there is no index.
    ///
    /// Takes time in proportion to the count of axes.
    ///
    /// `[2,3]`: (0,0). ndarray's `first_index`.
    ///
    /// # Errors
    ///
    /// Out of memory; never where the type fixes the count, where there are at most 4 axes, or
    /// where a length is 0.
    ///
    /// <details><summary>Contract (proved)</summary>
    ///
    /// ```text
    /// ensures list: IfOk result (λ first. option_map Self.list first ≡
    ///     (if is_empty (Self.list self.now)
    ///     then None
    ///     else Some (replicate (length (Self.list self.now)) 0)))
    /// ensures memory: NeedsNoMemory Self.NDIM (length (Self.list self.now)) → IsOk result
    /// ensures no_index: is_empty (Self.list self.now) ≡ true → IsOk result
    /// ```
    /// [How to read it](crate::contracts)
    /// </details>
    #[inline]
    fn first_index(&self) -> Result<Option<Self>, AllocError>
    where
        Self: Sized,
    {
        let lens = self.slice();
        if lens.contains(&0) {
            return Ok(None);
        }
        Ok(Some(Self::zeros(lens.len())?))
    }

    /// The next index of the shape in row-major order, where the last axis moves fastest; `None`
    /// after the last one.
    ///
    /// Takes time in proportion to the count of axes.
    ///
    /// After (0,2) of `[2,3]`: (1,0). ndarray's `next_for`.
    ///
    /// # Conditions
    ///
    /// The caller ensures that `index` is an index of the shape (`is_index`). Otherwise this call or a later one panics
    /// or returns unspecified values.
    ///
    /// <details><summary>Contract (proved)</summary>
    ///
    /// ```text
    /// requires is_index (Self.list self.now) (Self.list index) ≡ true
    /// ensures option_map Self.list result ≡
    ///     (if nat_lt
    ///     (flat_index (Self.list self.now) (Self.list index) + 1)
    ///     (size (Self.list self.now))
    ///     then Some (index_of_flat
    ///     (Self.list self.now)
    ///     (flat_index (Self.list self.now) (Self.list index) + 1))
    ///     else None)
    /// ```
    /// [How to read it](crate::contracts)
    /// </details>
    #[must_use]
    #[inline]
    fn next_for(&self, index: Self) -> Option<Self>
    where
        Self: Sized,
    {
        let mut next = index;
        if advance_row_major(self.slice(), next.slice_mut()) { Some(next) } else { None }
    }

    /// Moves an index of the shape to the next one in column-major order, where the first axis
    /// moves fastest, and returns whether there is one; the last index becomes the first, all 0,
    /// with `false`.
    ///
    /// Takes time in proportion to the count of axes.
    ///
    /// After (1,0) of `[2,3]`: (0,1). ndarray's `next_for_f`.
    ///
    /// # Conditions
    ///
    /// The caller ensures that `index` is an index of the shape (`is_index`). Otherwise this call or a later one panics
    /// or returns unspecified values.
    ///
    /// <details><summary>Contract (proved)</summary>
    ///
    /// ```text
    /// requires is_index (Self.list self.now) (Self.list index.old) ≡ true
    /// ensures more: IsTrue result
    ///     ↔ (flat_index_in ColumnMajor (Self.list self.now) (Self.list index.old) + 1
    ///     < size (Self.list self.now))
    /// ensures next: Self.list index.new ≡
    ///     (if result
    ///     then index_of_flat_in
    ///     ColumnMajor
    ///     (Self.list self.now)
    ///     (flat_index_in ColumnMajor (Self.list self.now) (Self.list index.old) + 1)
    ///     else replicate (length (Self.list self.now)) 0)
    /// ```
    /// [How to read it](crate::contracts)
    /// </details>
    #[must_use]
    #[inline]
    fn next_for_f(&self, index: &mut Self) -> bool {
        advance_column_major(self.slice(), index.slice_mut())
    }

    /// Zeros, as many as the type fixes; one where it fixes no count.
    ///
    /// In place of ndarray's `Default`.
    ///
    /// # Errors
    ///
    /// None: it asks for no memory.
    ///
    /// <details><summary>Contract (proved)</summary>
    ///
    /// ```text
    /// ensures list: IfOk result (λ dim. Self.list dim ≡ replicate (default_count Self.NDIM) 0)
    /// ensures memory: IsOk result
    /// ```
    /// [How to read it](crate::contracts)
    /// </details>
    #[inline]
    fn default_in() -> Result<Self, AllocError>
    where
        Self: Sized,
    {
        Self::zeros(Self::NDIM.unwrap_or(1))
    }

    /// Whether both lists of strides have one for each axis, and agree on each axis of length
    /// greater than 1.
    ///
    /// Takes time in proportion to the count of axes.
    ///
    /// `[3,9]` and `[3,5]` for `[2,1]`: true. ndarray's `strides_equivalent`.
    ///
    /// <details><summary>Contract (proved)</summary>
    ///
    /// ```text
    /// ensures IsTrue result ↔ AreEquivalent (Self.list self.now) (Self.list strides.now) (D.list others.now)
    /// ```
    /// [How to read it](crate::contracts)
    /// </details>
    #[inline]
    #[must_use]
    fn strides_equivalent<D: Lengths>(&self, strides: &Self, others: &D) -> bool {
        are_equivalent(self.slice(), strides.slice(), others.slice())
    }

    /// The offset in elements, with its sign, from the first index to this one, whatever the shape:
    /// the sum of each coordinate times its stride.
    ///
    /// Takes time in proportion to the count of axes.
    ///
    /// (1,2) along the strides `[3,1]`: 5. ndarray's `stride_offset`.
    ///
    /// # Conditions
    ///
    /// The caller ensures that there is a stride for each coordinate, that no coordinate is greater than `isize::MAX`,
    /// and that the coordinates times the magnitudes of their strides add up to at most that, as of an index of a valid
    /// layout. Otherwise this call or a later one panics or returns unspecified values.
    ///
    /// <details><summary>Contract (proved)</summary>
    ///
    /// ```text
    /// requires same_count: length (Self.list index.now) ≡ length (Self.list strides.now)
    /// requires small: All (λ coordinate. coordinate ≤ limit) (Self.list index.now)
    /// requires fits: farthest_offset (all_signed (Self.list strides.now)) (Self.list index.now) ≤ limit
    /// ensures result ≡ offset_of (all_signed (Self.list strides.now)) (Self.list index.now)
    /// ```
    /// [How to read it](crate::contracts)
    /// </details>
    #[must_use]
    #[inline]
    fn stride_offset(index: &Self, strides: &Self) -> isize {
        index_offset(index.slice(), strides.slice())
    }

    /// The offset in elements, with its sign, from the first index of this shape to another one;
    /// `None` where that is no index of the shape.
    ///
    /// Takes time in proportion to the count of axes.
    ///
    /// (1,2) of `[2,3]` with the strides `[-3,1]`: -1. ndarray's `stride_offset_checked`.
    ///
    /// # Conditions
    ///
    /// The caller ensures that the layout is valid: one stride for each axis, and neither the product of the lengths
    /// that are not 0 nor the span is greater than `isize::MAX`. Otherwise this call or a later one panics or returns
    /// unspecified values.
    ///
    /// <details><summary>Contract (proved)</summary>
    ///
    /// ```text
    /// requires IsValidLayout (Self.list self.now) (all_signed (Self.list strides.now))
    /// ensures result ≡ checked_offset (Self.list self.now) (all_signed (Self.list strides.now)) (Self.list index.now)
    /// ```
    /// [How to read it](crate::contracts)
    /// </details>
    #[must_use]
    #[inline]
    fn stride_offset_checked(&self, strides: &Self, index: &Self) -> Option<isize> {
        stride_offset_checked(self.slice(), strides.slice(), index.slice())
    }

    /// The length of the last axis; 0 without axes. ndarray's `last_elem`.
    ///
    /// <details><summary>Contract (proved)</summary>
    ///
    /// ```text
    /// ensures result ≡ last_of_lengths (Self.list self.now)
    /// ```
    /// [How to read it](crate::contracts)
    /// </details>
    #[must_use]
    #[inline]
    fn last_elem(&self) -> usize {
        last_len(self.slice())
    }

    /// Gives the last axis another length.
    ///
    /// ndarray's `set_last_elem`.
    ///
    /// # Conditions
    ///
    /// The caller ensures that there is an axis. Otherwise this call or a later one panics or returns unspecified
    /// values.
    ///
    /// <details><summary>Contract (proved)</summary>
    ///
    /// ```text
    /// requires 0 < length (Self.list self.old)
    /// ensures Self.list self.new ≡ slice_set (Self.list self.old) (length (Self.list self.old) - 1) len
    /// ```
    /// [How to read it](crate::contracts)
    /// </details>
    #[inline]
    fn set_last_elem(&mut self, len: usize) {
        set_last_len(self.slice_mut(), len);
    }

    /// Whether no two indices of a shape alias and all fill an interval of memory without a gap, by a
    /// rule on lengths and strides.
    ///
    /// It is true where the strides are those in row-major order. With one axis it is also true
    /// where its length is at most 1 or its stride is -1. With another number of axes it is also
    /// true where the magnitude of the stride of each axis whose length isn't 1 is the product of
    /// the lengths of all axes before it, in the order of those magnitudes. Where no axis is empty
    /// it is true if and only if no two indices alias and their places are consecutive numbers.
    ///
    /// Takes no memory, and time in proportion to the square of the count of axes at most.
    ///
    /// `[2,3]` with the strides `[-3,1]`: true; with `[4,1]`: false. ndarray's
    /// `Dimension::is_contiguous`.
    ///
    /// # Conditions
    ///
    /// The caller ensures that there is a stride for each axis and that the product of the lengths that are not 0 is at
    /// most `isize::MAX`. Otherwise this call or a later one panics or returns unspecified values.
    ///
    /// <details><summary>Contract (proved)</summary>
    ///
    /// ```text
    /// requires same_count: length (Self.list dim.now) ≡ length (Self.list strides.now)
    /// requires size_fits: nonzero_size (Self.list dim.now) ≤ limit
    /// ensures rule: result ≡ is_contiguous_layout (Self.list dim.now) (all_signed (Self.list strides.now))
    /// ensures exact: is_empty (Self.list dim.now) ≡ false → (IsTrue result ↔
    ///     FillsInterval (Self.list dim.now) (all_signed (Self.list strides.now)))
    /// ```
    /// [How to read it](crate::contracts)
    /// </details>
    #[must_use]
    #[inline]
    fn is_contiguous(dim: &Self, strides: &Self) -> bool {
        is_contiguous(dim.slice(), strides.slice())
    }

    /// The numbers of the axes in the order of the magnitudes of these strides, the least first;
    /// axes of equal magnitudes are in the order of their numbers.
    ///
    /// `[3,-1,2]`: `[1,2,0]`. ndarray's `_fastest_varying_stride_order`.
    ///
    /// # Errors
    ///
    /// Out of memory; never where the type fixes the count or there are at most 4 axes.
    ///
    /// <details><summary>Contract (proved)</summary>
    ///
    /// ```text
    /// ensures list: IfOk result (λ order. IsStrideOrder (all_signed (Self.list self.now)) (Self.list order))
    /// ensures memory: NeedsNoMemory Self.NDIM (length (Self.list self.now)) → IsOk result
    /// ```
    /// [How to read it](crate::contracts)
    /// </details>
    #[inline]
    fn _fastest_varying_stride_order(&self) -> Result<Self, AllocError>
    where
        Self: Sized,
    {
        let mut order = Self::zeros(self.ndim())?;
        fill_stride_order(self.slice(), order.slice_mut());
        Ok(order)
    }

    /// The axis whose stride is of least magnitude among those of length greater than 1, and the
    /// last of these where several are; the last axis where there is none.
    ///
    /// Takes time in proportion to the count of axes.
    ///
    /// `[2,3,1]` with the strides `[3,-1,0]`: axis 1. ndarray's `min_stride_axis`.
    ///
    /// # Conditions
    ///
    /// The caller ensures that there is an axis, and a stride for each. Otherwise this call or a later one panics or
    /// returns unspecified values.
    ///
    /// <details><summary>Contract (proved)</summary>
    ///
    /// ```text
    /// requires some_axis: 0 < length (Self.list self.now)
    /// requires same_count: length (Self.list self.now) ≡ length (Self.list strides.now)
    /// ensures IsLeastStrideAxis (Self.list self.now) (all_signed (Self.list strides.now)) result.0
    /// ```
    /// [How to read it](crate::contracts)
    /// </details>
    #[must_use]
    #[inline]
    fn min_stride_axis(&self, strides: &Self) -> Axis {
        Axis(min_stride_axis(self.slice(), strides.slice()))
    }

    /// The axis whose stride is of greatest magnitude among those of length greater than 1, and the
    /// last of these where several are; the first axis where there is none.
    ///
    /// Takes time in proportion to the count of axes.
    ///
    /// `[2,3,1]` with the strides `[3,-1,9]`: axis 0. ndarray's `max_stride_axis`.
    ///
    /// # Conditions
    ///
    /// The caller ensures that there is an axis, and a stride for each. Otherwise this call or a later one panics or
    /// returns unspecified values.
    ///
    /// <details><summary>Contract (proved)</summary>
    ///
    /// ```text
    /// requires some_axis: 0 < length (Self.list self.now)
    /// requires same_count: length (Self.list self.now) ≡ length (Self.list strides.now)
    /// ensures IsGreatestStrideAxis (Self.list self.now) (all_signed (Self.list strides.now)) result.0
    /// ```
    /// [How to read it](crate::contracts)
    /// </details>
    #[inline]
    #[must_use]
    fn max_stride_axis(&self, strides: &Self) -> Axis {
        Axis(max_stride_axis(self.slice(), strides.slice()))
    }

    /// The same list as a dimension of this type; `None` where the type fixes another count.
    ///
    /// Takes time in proportion to the count of axes. ndarray's `from_dimension`.
    ///
    /// # Errors
    ///
    /// Out of memory; never where the type fixes the count or there are at most 4 axes.
    ///
    /// <details><summary>Contract (proved)</summary>
    ///
    /// ```text
    /// ensures list: IfOk result (λ same. IsCount Self.NDIM (length (D.list dim.now))
    ///     → option_map Self.list same ≡ Some (D.list dim.now))
    /// ensures other_count: IfOk result (λ same. (IsCount Self.NDIM (length (D.list dim.now)) → ⊥) → same ≡ None)
    /// ensures memory: NeedsNoMemory Self.NDIM (length (D.list dim.now)) → IsOk result
    /// ```
    /// [How to read it](crate::contracts)
    /// </details>
    #[inline]
    fn from_dimension<D: Lengths>(dim: &D) -> Result<Option<Self>, AllocError>
    where
        Self: Sized,
    {
        if Self::NDIM.is_some_and(|count| count != dim.ndim()) {
            return Ok(None);
        }
        let mut same = Self::zeros(dim.ndim())?;
        same.slice_mut().copy_from_slice(dim.slice());
        Ok(Some(same))
    }

    /// The lengths with a new axis of length 1 before the axis `axis`, or after all of them.
    ///
    /// Takes time in proportion to the count of axes.
    ///
    /// `[2,3]` at axis 1: `[2,1,3]`. ndarray's `insert_axis`.
    ///
    /// # Errors
    ///
    /// Out of memory; never where the result's type fixes the count or has at most 4 axes.
    ///
    /// # Conditions
    ///
    /// The caller ensures that `axis` is at most the count of axes. Otherwise this call or a later one panics or
    /// returns unspecified values.
    ///
    /// <details><summary>Contract (proved)</summary>
    ///
    /// ```text
    /// requires axis.0 ≤ length (Self.list self.now)
    /// ensures list: IfOk result (λ larger. Self.Larger.list larger ≡ insert (Self.list self.now) axis.0 1)
    /// ensures memory: NeedsNoMemory Self.Larger.NDIM (length (Self.list self.now) + 1) → IsOk result
    /// ```
    /// [How to read it](crate::contracts)
    /// </details>
    #[inline]
    fn insert_axis(&self, axis: Axis) -> Result<Self::Larger, AllocError> {
        let lens = self.slice();
        let mut larger = Self::Larger::zeros(lens.len() + 1)?;
        insert_axis_into(lens, axis.index(), larger.slice_mut());
        Ok(larger)
    }

    /// The lengths without an axis; of no axes, no axes.
    ///
    /// Takes time in proportion to the count of axes.
    ///
    /// `[2,3]` without axis 0: `[3]`. ndarray's `try_remove_axis`.
    ///
    /// # Errors
    ///
    /// Out of memory; never where the result's type fixes the count or has at most 4 axes.
    ///
    /// # Conditions
    ///
    /// The caller ensures that the shape has that axis (`has_axis`), or none at all. Otherwise this call or a later one
    /// panics or returns unspecified values.
    ///
    /// <details><summary>Contract (proved)</summary>
    ///
    /// ```text
    /// requires (axis.0 < length (Self.list self.now)) ⊎ (length (Self.list self.now) ≡ 0)
    /// ensures list: IfOk result (λ smaller. Self.Smaller.list smaller ≡ remove (Self.list self.now) axis.0)
    /// ensures memory: NeedsNoMemory Self.Smaller.NDIM (length (Self.list self.now) - 1) → IsOk result
    /// ```
    /// [How to read it](crate::contracts)
    /// </details>
    #[inline]
    fn try_remove_axis(&self, axis: Axis) -> Result<Self::Smaller, AllocError> {
        let lens = self.slice();
        if lens.is_empty() {
            return Self::Smaller::zeros(0);
        }
        let mut smaller = Self::Smaller::zeros(lens.len() - 1)?;
        remove_axis_into(lens, axis.index(), smaller.slice_mut());
        Ok(smaller)
    }
}
