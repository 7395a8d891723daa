//! The names that most programs need, to be imported at once. ndarray's `prelude`, as far as the layer goes.
//!
//! ```
//! use ndarray_layout::prelude::*;
//!
//! # fn main() -> Result<(), LayoutError> {
//! let view = Strided::new(Ix2(3, 4), Ix2(4, 1), 8, 12, CanIndexCheckMode::ReadOnly)?;
//! let column: Strided<Ix1> = view.sliced(s![.., 1])?;
//! assert_eq!((column.start(), column.dim().size(), column.strides()[0]), (1, 3, 4));
//! # Ok(())
//! # }
//! ```

#[doc(no_inline)]
pub use crate::{
    ArrayView, ArrayViewMut, Axis, CanIndexCheckMode, Dim, Dimension, Fit, Ix0, Ix1, Ix2, Ix3, Ix4, Ix5, Ix6, IxDyn,
    LayoutError, Lengths, NewAxis, Order, OwnedArray, ShapeBuilder, ShapeError, Slice, SliceInfoElem, Strided, array,
    s,
};
