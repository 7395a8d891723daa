//! The macro `s!`, and slice arguments whose types say which shapes they are for and which they leave.

use super::DimAdd;
use crate::nd_base::{FixedCount, Ix0, Ix1, IxDyn, LayoutError, Lengths};
use crate::nd_dim::Dimension;
use crate::nd_slice::{Fit, NewAxis, Slice, SliceArg, SliceElems, SliceInfo, SliceInfoElem, in_ndim_of, out_ndim_of};
use crate::ndarray_layout::Strided;
use core::marker::PhantomData;
use core::ops::{Deref, Range, RangeFrom, RangeFull, RangeInclusive, RangeTo, RangeToInclusive};

/// A `SliceInfo` of the elements between the brackets, with the types of the shapes before and after. ndarray's `s!`.
/// Not proved.
///
/// Each element, separated by commas, is one of these:
///
/// - an index: an `isize`, a `usize` or an `i32`. It takes one coordinate and drops the axis.
/// - a range of such numbers: `a..b`, `a..`, `..b`, `a..=b`, `..=b` or `..`. It keeps the axis.
/// - a `Slice`, which keeps the axis.
/// - a range or a `Slice`, then `;` and a step, of any type of integers. The step multiplies that of a `Slice`.
/// - `NewAxis`, which adds an axis of length 1.
///
/// A negative number counts from the end of the axis. A negative step picks from the last coordinate of the range to the
/// first. The types before and after have as many axes as the elements take and leave, or are `IxDyn` past six.
///
/// # Errors
///
/// None here. The call that takes the slice returns `OutOfBounds` for an index or a bound past its axis and `Unsupported` for a step
/// of 0, where ndarray panics.
///
/// # Panics
///
/// Where a step, or its product with that of a `Slice`, is no `isize`: `..;usize::MAX`. ndarray takes that for `..;-1`, and
/// lets the product wrap.
///
/// Takes no memory, and time in proportion to the count of elements.
///
/// `1, ..;-1` of `[3,4]` over 0, 1, .. 11 picks 7 6 5 4.
///
/// ```
/// use ndarray_layout::{CanIndexCheckMode, Ix1, Ix2, LayoutError, Order, Strided, s};
///
/// # fn main() -> Result<(), LayoutError> {
/// let view = Strided::new(Ix2(3, 4), Ix2(4, 1), 8, 12, CanIndexCheckMode::ReadOnly)?;
/// let row: Strided<Ix1> = view.sliced(s![1, ..;-1])?;
/// assert_eq!(row.iter_places(Order::RowMajor).collect::<Vec<_>>(), [7, 6, 5, 4]);
/// # Ok(())
/// # }
/// ```
///
/// An index has no step, and half a coordinate is none, so these don't compile:
///
/// ```compile_fail,E0277
/// let slices = ndarray_layout::s![0;2];
/// ```
///
/// ```compile_fail,E0277
/// let slices = ndarray_layout::s![..;2.5];
/// ```
#[macro_export]
macro_rules! s {
    (@element $slice:expr) => { $slice };
    (@element $slice:expr; $step:expr) => { $crate::stepped($slice, $step) };
    ($($slice:expr $(; $step:expr)?),* $(,)?) => {
        match $crate::SliceBuilder::<{ <[&str]>::len(&[$(stringify!($slice)),*]) }>::new() {
            // (`1..-1` isn't empty here)
            #[allow(clippy::reversed_empty_ranges)]
            builder => builder$(.and($crate::s!(@element $slice $(; $step)?)))*.info(),
        }
    };
}

/// The range before `;` in `s!`, with its step multiplied by the one after. Not proved.
#[doc(hidden)]
#[inline]
#[track_caller]
pub fn stepped<S>(slice: S, step: impl TryInto<isize>) -> Slice
where
    Slice: From<S>,
{
    let slice = Slice::from(slice);
    let step = step.try_into().ok().and_then(|step| slice.step.checked_mul(step));
    Slice { step: step.expect("the step of a slice is past isize"), ..slice }
}

/// What an element of `s!` does to the count of axes. ndarray's `SliceNextDim`. Not proved.
///
/// ```
/// use ndarray_layout::{Ix0, Ix1, Ix2, SliceInfo, SliceInfoElem, SliceNextDim, s};
///
/// /// A row, by a number of any type that `s!` takes.
/// fn row<I>(row: I) -> SliceInfo<[SliceInfoElem; 2], Ix2, Ix1>
/// where
///     I: SliceNextDim<InDim = Ix1, OutDim = Ix0> + Into<SliceInfoElem>,
/// {
///     s![row, ..]
/// }
///
/// assert_eq!(row(1_usize).indices(), row(1_i32).indices());
/// ```
pub trait SliceNextDim {
    /// As many axes as the element takes of the shape before: one, or none for `NewAxis`.
    type InDim: Dimension;

    /// As many axes as the element leaves: one, or none for an index.
    type OutDim: Dimension;
}

/// The types of an index in `s!`. (One impl for all of them: so rustc knows how many axes a literal leaves whose type is open.)
trait Coordinate {}

/// Not proved.
impl Coordinate for isize {}

/// Not proved.
impl Coordinate for usize {}

/// Not proved.
impl Coordinate for i32 {}

/// An index: an `isize`, a `usize` or an `i32`. Not proved.
#[allow(private_bounds, reason = "no other type is an index")]
impl<I: Coordinate> SliceNextDim for I {
    type InDim = Ix1;

    type OutDim = Ix0;
}

/// The dimension types before and after, for some types of elements.
macro_rules! next_dims {
    ($in_dim:ident to $out_dim:ident: $(impl $(<$number:ident>)? for $slice:ty),*) => {$(
        /// Not proved.
        impl $(<$number>)? SliceNextDim for $slice {
            type InDim = $in_dim;

            type OutDim = $out_dim;
        }
    )*};
}

next_dims!(Ix1 to Ix1: impl for Slice, impl for RangeFull, impl<T> for Range<T>, impl<T> for RangeFrom<T>);
next_dims!(Ix1 to Ix1: impl<T> for RangeTo<T>, impl<T> for RangeInclusive<T>, impl<T> for RangeToInclusive<T>);
next_dims!(Ix0 to Ix1: impl for NewAxis);

/// The first elements of a slice argument of `N`, as `s!` lists them. Not proved.
#[doc(hidden)]
#[derive(Clone, Copy, Debug)]
pub struct SliceBuilder<const N: usize, Din = Ix0, Dout = Ix0> {
    elems: [SliceInfoElem; N],
    count: usize,
    dims: PhantomData<(Din, Dout)>,
}

impl<const N: usize> SliceBuilder<N> {
    /// No element. Not proved.
    #[allow(clippy::new_without_default)]
    #[inline]
    pub fn new() -> Self {
        SliceBuilder { elems: [SliceInfoElem::NewAxis; N], count: 0, dims: PhantomData }
    }
}

impl<const N: usize, Din, Dout> SliceBuilder<N, Din, Dout> {
    /// One element more, of `N` in all. Not proved.
    #[inline]
    pub fn and<S>(
        mut self,
        slice: S,
    ) -> SliceBuilder<N, <Din as DimAdd<S::InDim>>::Output, <Dout as DimAdd<S::OutDim>>::Output>
    where
        S: SliceNextDim + Into<SliceInfoElem>,
        Din: DimAdd<S::InDim>,
        Dout: DimAdd<S::OutDim>,
    {
        self.elems[self.count] = slice.into();
        SliceBuilder { elems: self.elems, count: self.count + 1, dims: PhantomData }
    }

    /// The slice argument of all elements. Not proved.
    #[inline]
    pub fn info(self) -> SliceInfo<[SliceInfoElem; N], Din, Dout>
    where
        Din: FixedCount,
        Dout: FixedCount,
    {
        SliceInfo::try_from(self.elems).expect("the types count the axes of the elements")
    }
}

/// Not proved.
impl<T: SliceElems, Din: FixedCount, Dout: FixedCount> Deref for SliceInfo<T, Din, Dout> {
    type Target = T;

    fn deref(&self) -> &T {
        self.indices()
    }
}

/// Not proved.
impl<T: SliceElems, Din: FixedCount, Dout: FixedCount> AsRef<[SliceInfoElem]> for SliceInfo<T, Din, Dout> {
    fn as_ref(&self) -> &[SliceInfoElem] {
        self.elems()
    }
}

/// Not proved.
impl SliceElems for [SliceInfoElem] {
    fn elems(&self) -> &[SliceInfoElem] {
        self
    }
}

/// Bare elements, for any number of axes. Not proved.
impl SliceArg<IxDyn> for [SliceInfoElem] {
    type OutDim = IxDyn;

    fn in_ndim(&self) -> usize {
        in_ndim_of(self)
    }

    fn out_ndim(&self) -> usize {
        out_ndim_of(self)
    }
}

/// Not proved.
impl<T: SliceElems> SliceElems for &T {
    fn elems(&self) -> &[SliceInfoElem] {
        T::elems(self)
    }
}

/// Not proved.
impl<D: FixedCount, T: SliceArg<D>> SliceArg<D> for &T {
    type OutDim = T::OutDim;

    fn in_ndim(&self) -> usize {
        T::in_ndim(self)
    }

    fn out_ndim(&self) -> usize {
        T::out_ndim(self)
    }
}

impl<D: Lengths> Strided<D> {
    /// The view of the same data that a slice argument leaves, of the type that the argument says. Not proved.
    ///
    /// # Errors
    ///
    /// Those of `slice` with `Fit::Strict`; no count of axes is wrong where `D` fixes one.
    ///
    /// Takes time in proportion to the count of elements.
    ///
    /// `1..;-2` of `[4]` with the stride `[3]` from 5: `[2]`, `[-6]` from 14. ndarray's `slice`, which panics.
    ///
    /// ```
    /// use ndarray_layout::{CanIndexCheckMode, Ix1, LayoutError, Strided, s, signed};
    ///
    /// # fn main() -> Result<(), LayoutError> {
    /// let view = Strided::from_parts(5, Ix1(4), Ix1(3), 8, 15, CanIndexCheckMode::ReadOnly)?;
    /// let part = view.sliced(s![1..;-2])?;
    /// assert_eq!((part.start(), part.dim()[0], signed(part.strides()[0])), (14, 2, -6));
    /// # Ok(())
    /// # }
    /// ```
    ///
    /// Two elements are no slice of three axes, so this doesn't compile:
    ///
    /// ```compile_fail,E0271
    /// use ndarray_layout::{Ix3, LayoutError, Strided, s};
    ///
    /// fn part(view: &Strided<Ix3>) -> Result<usize, LayoutError> {
    ///     Ok(view.sliced(s![.., 1])?.start())
    /// }
    /// ```
    #[inline]
    pub fn sliced<I: SliceArg<D>>(&self, slices: I) -> Result<Strided<I::OutDim>, LayoutError> {
        self.slice(&slices, Fit::Strict)
    }
}
