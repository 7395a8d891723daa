//! Shapes, signed strides and slices as buffer indices: the layer under n-dimensional arrays, made of proved sources.
//!
//! A [`Strided`] view is a shape, a stride for each axis and a start. It is made of an accepted layout, so that each
//! index is in bounds; slices, broadcasts, permutations and reshapes of it are views of the same data.
//!
//! ```
//! use ndarray_layout::{CanIndexCheckMode, Strided, new_ix2};
//!
//! // 2 rows of 3 items in 6, row-major: the strides are 3 and 1
//! let view = Strided::new(new_ix2(2, 3), new_ix2(3, 1), 1, 6, CanIndexCheckMode::OwnedMutable)?;
//! assert_eq!(view.place(&(1, 2)), Some(5));
//! assert_eq!(view.place(&(2, 0)), None);
//! # Ok::<(), ndarray_layout::ShapeError>(())
//! ```
//!
//! # Where to start
//!
//! | You want | Start with |
//! |---|---|
//! | the places of elements that you keep yourself | [`Strided`]: [`new`](Strided::new), [`place`](Strided::place), [`iter_places`](Strided::iter_places), [`rows`](Strided::rows) |
//! | a list of yours as an array, to read | [`ArrayView`]: [`from_shape`](ArrayView::from_shape), [`get`](ArrayView::get), [`rows`](ArrayView::rows), [`fold`](ArrayView::fold) |
//! | .. to write, by threads as well | [`ArrayViewMut`]: [`from_shape`](ArrayViewMut::from_shape), [`set`](ArrayViewMut::set), [`map_in_place`](ArrayViewMut::map_in_place), [`multi_slice_move`](ArrayViewMut::multi_slice_move) |
//! | parts that are written at once, each by a thread | [`ArrayViewMut`]: [`multi_slice_mut`](ArrayViewMut::multi_slice_mut), [`split_at`](ArrayViewMut::split_at), [`axis_iter_mut`](ArrayViewMut::axis_iter_mut), [`rows_mut`](ArrayViewMut::rows_mut), [`get_mut`](ArrayViewMut::get_mut), [`fill`](ArrayViewMut::fill) |
//! | an array that owns its items | [`OwnedArray`]: [`from_shape_vec`](OwnedArray::from_shape_vec), [`get`](OwnedArray::get), [`multi_set`](OwnedArray::multi_set) |
//! | a part of one of these | [`s!`] and `slice` (of a layout or an owner `sliced`); [`SliceInfoElem`], [`Slice`] and `slice_with` for bounds that are known at run time; [`Fit`] |
//! | other axes, windows, another shape | the methods of [`Strided`], which [`ArrayView`] has as well, and [`ArrayViewMut`] in part; [`run`] for several [`Step`]s |
//! | a shape, an index or strides | [`Ix1`](fn@Ix1) to [`Ix6`](fn@Ix6), [`IxDyn`](fn@IxDyn), [`Dim`](fn@Dim); what these can do: [`Dimension`] |
//! | whether a layout is accepted, and why not | [`accept`], [`CanIndexCheckMode`], [`ErrorKind`], [`LayoutError`] |
//! | whether two slices share an index | [`Strided::meets`], [`first_intersection`] |
//! | the shape that two broadcast to | [`co_broadcast`], [`DimMax`] |
//! | the calls of ndarray's lowest layer, by its names | the functions below; [`compat`] has them by ndarray's own signatures |
//!
//! [`guide`] has an example for each task, and [`prelude`] the names that most programs need.
//!
//! # What is proved
//!
//! The sources of the layer have contracts, which are proved. The package is what is left of them without the contracts: a file of
//! Rust for each. The docs of a call have its contract folded away, and [`contracts`] says how to read one. What a caller ensures
//! stands under `Conditions`. Where it is broken, a call panics or returns unspecified values: a loop over
//! `all_indices(Ix2(1 << 32, 1 << 32))` panics with overflow checks, and ends at once without them. No behaviour is undefined: the
//! only `unsafe` is proved, but for a `NonNull::as_ref` or `as_mut` in each of its six blocks, and the calls that have a condition for it
//! test it.
//!
//! The file `proved.txt` of the package has the checksums of the sources that the last gate proved, and its date. The gate makes the proofs; the
//! other steps of the check have no part in that file.
//!
//! What the package adds to the sources isn't proved, but tested: [`s!`], `Ix2(..)`, `Clone` and the like, and what [`ArrayView::new`] and
//! [`ArrayViewMut::new`] ask of a view, on which the `unsafe` rests. The docs of each such item say so, or the page of its module, as that of [`memory`].
#![no_std]
#![deny(unsafe_code)]

#[cfg(not(target_pointer_width = "64"))]
compile_error!(
    "ndarray_layout needs a target of 64 bits: its proofs take `usize` and `isize` as numbers of 64 bits, and for another \
     width each bound of theirs (a size below 2^64, lengths and spans up to 2^63 - 1) would have to be proved anew"
);

extern crate alloc;
#[cfg(feature = "std")]
extern crate std;

// The layer, made of crates/ by `rust/erase`. Its items are documented where they are re-exported.
#[doc(hidden)]
pub mod nd_base;
#[doc(hidden)]
pub mod nd_dim;
#[doc(hidden)]
pub mod nd_shape;
#[doc(hidden)]
pub mod nd_slice;
mod ndarray_layout;

// Rights to items, which these modules hand on to one another: no other file of the package sees how.
mod lent {
    mod nd_access;
    pub(crate) mod nd_items;
    pub mod nd_lent;
    pub(crate) mod nd_loops;
    pub mod nd_owned;
}
#[doc(hidden)]
pub use crate::lent::{nd_lent, nd_owned};

mod arrays;
pub mod compat;
mod convenience;
pub mod memory;
mod num_traits;
mod sealed;
mod smallvec;

#[doc = include_str!("../NOTATION.md")]
pub mod contracts {}

#[doc = include_str!("../GUIDE.md")]
pub mod guide {}

/// The page of the package, whose examples are tests.
#[cfg(doctest)]
#[doc = include_str!("../README.md")]
struct Readme;

/// What says whether something was written has to be looked at, so this doesn't compile with the lint as an error:
///
/// ```compile_fail
/// #![deny(unused_must_use)]
/// let mut items = [1, 2];
/// let mut view = ndarray_layout::ArrayViewMut::from_shape(ndarray_layout::Ix1(2), &mut items).unwrap();
/// view.set(&2, 7);
/// ```
///
/// and this does:
///
/// ```
/// #![deny(unused_must_use)]
/// let mut items = [1, 2];
/// let mut view = ndarray_layout::ArrayViewMut::from_shape(ndarray_layout::Ix1(2), &mut items).unwrap();
/// assert!(!view.set(&2, 7));
/// ```
#[cfg(doctest)]
struct MustUse;

pub use crate::arrays::MultiSliceArg;
pub use crate::convenience::*;
pub use crate::lent::nd_items::{IndexedOf, IterOf};
#[doc(inline)]
pub use crate::memory::AllocError;
pub use crate::nd_lent::{
    Arrays, AxisChunksIter, AxisChunksIterMut, AxisIter, AxisIterMut, BlocksIter, IndexedIter, IndexedIterMut, IterMut,
    LanesMut, LentRowsOf, Parts, SliceParts, TilesMut, Zip,
};
pub use crate::nd_owned::{
    ArrayView, ArrayViewMut, EqualTo, IntoRows, Items, Iter, LentRow, LentRows, OwnedArray, ReadySlice, RowItems,
    SplitViews, Unsigned, ViewIter,
};
pub use crate::ndarray_layout::*;
// (what only the types of iterators name, so that no caller can)
#[allow(unused_imports, hidden_glob_reexports)]
use crate::ndarray_layout::{KeptAxes, LentAxes, SlowerAxes};
