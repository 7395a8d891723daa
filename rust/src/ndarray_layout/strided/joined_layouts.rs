// Made by `rust/erase` of `crates/ndarray_layout/src/strided/joined_layouts.rt`: edit that.
//! The axes that move fastest, joined in several layouts of one shape at once.

use crate::nd_base::Order;
use crate::nd_shape::goes_on;

/// The strides of layouts of one shape, each of which has a number. The project's own.
pub trait LayoutStrides {
    /// The stride of an axis in the layout of a number.
    ///
    /// # Conditions
    ///
    /// The caller ensures that there are both. Otherwise this call or a later one panics or returns unspecified values.
    ///
    /// <details><summary>Contract (proved)</summary>
    ///
    /// ```text
    /// requires axis < length (strides self.now number)
    /// ensures result ≡ slice_index (strides self.now number) axis
    /// ```
    /// [How to read it](crate::contracts)
    /// </details>
    fn stride(&self, number: usize, axis: usize) -> usize;
}

/// The item of an axis.
///
/// <details><summary>Contract (proved)</summary>
///
/// ```text
/// requires axis < length items.now
/// ensures result ≡ slice_index items.now axis
/// ```
/// [How to read it](crate::contracts)
/// </details>
#[inline(always)]
fn item_of(items: &[usize], axis: usize) -> usize {
    items[axis]
}

/// The strides of each layout in a list of its own.
pub(super) struct InLists<'a> {
    pub(super) lists: &'a [&'a [usize]],
}

impl<'a> LayoutStrides for InLists<'a> {
    #[inline(always)]
    fn stride(&self, number: usize, axis: usize) -> usize {
        item_of(self.lists[number], axis)
    }
}

/// The strides of one layout after another, `ndim` of each.
struct InOneList<'a> {
    strides: &'a [usize],
    ndim: usize,
}

impl<'a> LayoutStrides for InOneList<'a> {
    #[inline(always)]
    fn stride(&self, number: usize, axis: usize) -> usize {
        self.strides[number * self.ndim + axis]
    }
}

/// The axis that moves fastest after so many others.
///
/// <details><summary>Contract (proved)</summary>
///
/// ```text
/// requires count < ndim
/// ensures axis: result ≡ axis_after order ndim count
/// ensures exists: result < ndim
/// ```
/// [How to read it](crate::contracts)
/// </details>
#[inline(always)]
fn next_axis(order: Order, ndim: usize, count: usize) -> usize {
    match order {
        Order::RowMajor => ndim - 1 - count,
        Order::ColumnMajor => count,
    }
}

/// Whether an axis goes on where the joined one ends, in each layout.
///
/// <details><summary>Contract (proved)</summary>
///
/// ```text
/// requires long: 1 < len
/// requires small: len ≤ limit
/// requires exists: (number : ℕ) → number < length joined.now → axis < length (L.strides layouts.now number)
/// requires fits: (number : ℕ) → number < length joined.now →
///     magnitude (signed_reading (slice_index (L.strides layouts.now number) axis))
///     + reach len (signed_reading (slice_index joined.now number)) ≤ limit
/// ensures IsTrue result ↔ ((number : ℕ) → number < length joined.now →
///     signed_reading (slice_index (L.strides layouts.now number) axis)
///     ≡ pos len *ℤ signed_reading (slice_index joined.now number))
/// ```
/// [How to read it](crate::contracts)
/// </details>
#[inline(always)]
fn all_go_on<L: LayoutStrides>(layouts: &L, axis: usize, len: usize, joined: &[usize]) -> bool {
    for number in 0..joined.len() {
        if !goes_on(layouts.stride(number, axis), len, joined[number]) {
            return false;
        }
    }
    true
}

/// Begins joined axes along this one, in each layout.
///
/// <details><summary>Contract (proved)</summary>
///
/// ```text
/// requires (number : ℕ) → number < length joined.old → axis < length (L.strides layouts.now number)
/// ensures len: length joined.new ≡ length joined.old
/// ensures strides: (number : ℕ) → number < length joined.old →
///     slice_index joined.new number ≡ slice_index (L.strides layouts.now number) axis
/// ```
/// [How to read it](crate::contracts)
/// </details>
#[inline(always)]
fn begin_along<L: LayoutStrides>(joined: &mut [usize], layouts: &L, axis: usize) {
    for number in 0..joined.len() {
        joined[number] = layouts.stride(number, axis);
    }
}

/// How many of the axes that move fastest are one in each of several layouts of a shape, and its length; writes its stride in
/// each layout into `joined`.
///
/// An axis is joined where it goes on in all layouts where the faster ones end; one of length 1 joins any. `joined_in_all` is this for
/// strides in one list.
///
/// Takes no memory, and time for each axis of each layout.
///
/// Of `[4,2,3]` with the strides `[12,3,1]` and `[6,3,1]`: 2 axes are one of length 6, with the strides 1 and 1. The project's own, for
/// what ndarray's `Zip` does.
///
/// # Conditions
///
/// The caller ensures that there is a layout for each item of `joined`, one at least, and that each is valid
/// (`span_of_lengths`). Otherwise this call or a later one panics or returns unspecified values.
///
/// <details><summary>Contract (proved)</summary>
///
/// ```text
/// requires some: 0 < length joined.old
/// requires valid: (number : ℕ) → number < length joined.old →
///     IsValidLayout lens.now (all_signed (L.strides layouts.now number))
/// ensures count: result.0 ≤ length lens.now
/// ensures written: length joined.new ≡ length joined.old
/// ensures joined: AreJoinedBy order lens.now (L.strides layouts.now) result.0 result.1 joined.new
/// ensures longest: NoMoreJoinBy order lens.now (L.strides layouts.now) result.0 result.1 joined.new
/// ```
/// [How to read it](crate::contracts)
/// </details>
#[must_use]
#[inline(always)]
pub fn joined_in_each<L: LayoutStrides>(
    order: Order,
    lens: &[usize],
    layouts: &L,
    joined: &mut [usize],
) -> (usize, usize) {
    let ndim = lens.len();
    let mut len = 1;
    for count in 0..ndim {
        let axis = next_axis(order, ndim, count);
        if len > 1 {
            if lens[axis] > 1 && !all_go_on(layouts, axis, len, joined) {
                return (count, len);
            }
        } else {
            begin_along(joined, layouts, axis);
        }
        len *= lens[axis];
    }
    (ndim, len)
}

/// How many of the axes that move fastest are one in each of several layouts of a shape, and its length; writes its stride in
/// each layout into `joined`.
///
/// An axis is joined where it goes on in all layouts where the faster ones end, as `joined_rows_with` joins those of two. So
/// in each layout the places of the whole shape are those of the slower axes and of this one, and no further axis is joined.
///
/// The strides of the layouts stand one after another, as many of each as there are lengths, and there is a layout for
/// each item of `joined`.
///
/// Takes no memory, and time for each axis of each layout.
///
/// `[4,2,3]` with the strides `[12,3,1]` and `[6,3,1]` in row-major order: 2 axes are one of length 6, with the strides 1 and 1.
/// With the second alone 3 axes are one of length 24. The project's own, for what ndarray's `Zip` does.
///
/// # Conditions
///
/// The caller ensures that there is one, and that each is valid (`span_of_lengths`). Otherwise this call or a later one
/// panics or returns unspecified values.
///
/// # Examples
///
/// ```
/// use ndarray_layout::{Order, joined_in_all};
///
/// let strides = [12, 3, 1, 6, 3, 1];
/// let mut joined = [0; 2];
/// assert_eq!(joined_in_all(Order::RowMajor, &[4, 2, 3], &strides, &mut joined), (2, 6));
/// assert_eq!(joined, [1, 1]);
/// assert_eq!(joined_in_all(Order::RowMajor, &[4, 2, 3], &strides[3..], &mut joined[..1]), (3, 24));
/// ```
///
/// <details><summary>Contract (proved)</summary>
///
/// ```text
/// requires some: 0 < length joined.old
/// requires counts: length strides.now ≡ length lens.now * length joined.old
/// requires valid: (number : ℕ) → number < length joined.old →
///     IsValidLayout lens.now (all_signed (strides_of (length lens.now) number strides.now))
/// ensures count: result.0 ≤ length lens.now
/// ensures written: length joined.new ≡ length joined.old
/// ensures joined: AreJoined order lens.now strides.now result.0 result.1 joined.new
/// ensures longest: NoMoreJoin order lens.now strides.now result.0 result.1 joined.new
/// ```
/// [How to read it](crate::contracts)
/// </details>
#[inline]
#[must_use]
pub fn joined_in_all(order: Order, lens: &[usize], strides: &[usize], joined: &mut [usize]) -> (usize, usize) {
    let layouts = InOneList { strides, ndim: lens.len() };
    joined_in_each(order, lens, &layouts, joined)
}
