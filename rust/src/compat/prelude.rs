//! The names that most programs over ndarray import at once. ndarray's `prelude`, as far as this module goes.
//!
//! ```
//! use ndarray_layout::compat::prelude::*;
//!
//! let picture = Array2::<f32>::zeros((4, 5).f());
//! assert_eq!((*picture.dim(), picture.dim().size()), (Dim([4, 5]), 20));
//! assert!(picture.slice(s![1.., ..;2]).iter().all(|item| *item == 0.0));
//! ```

pub use super::{
    Array, Array0, Array1, Array2, Array3, Array4, Array5, Array6, ArrayD, ArrayExt, ArrayView, ArrayView0, ArrayView1,
    ArrayView2, ArrayView3, ArrayView4, ArrayView5, ArrayView6, ArrayViewD, ArrayViewMut, ArrayViewMut0, ArrayViewMut1,
    ArrayViewMut2, ArrayViewMut3, ArrayViewMut4, ArrayViewMut5, ArrayViewMut6, ArrayViewMutD, Axis, Dim, Dimension,
    Ix0, Ix1, Ix2, Ix3, Ix4, Ix5, Ix6, IxDyn, NdProducer, NewAxis, ShapeBuilder, ShapeError, ShapeSize, arr1, arr2,
    array, s,
};
