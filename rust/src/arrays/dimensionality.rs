//! The same array with another type of the dimension.

use crate::convenience::OUT_OF_MEMORY;
use crate::nd_base::{IxDyn, Lengths};
use crate::{ArrayView, ArrayViewMut, OwnedArray};

/// The conversions of one of the types of arrays, by `of_each!`.
macro_rules! conversions {
    ($array:ident [$($of:tt)*] $lent:lifetime $again:ident $setup:expr) => {
        impl<$($of)* T, D: Lengths> $array<$($of)* T, D> {
            /// The array with a dimension of the type for any count of axes. ndarray's `into_dyn`. Not proved.
            ///
            /// # Panics
            ///
            /// Where an allocation fails; never for at most 4 axes.
            ///
            /// ```
            /// use ndarray_layout::*;
            ///
            #[doc = $setup]
            /// assert_eq!(array.into_dyn()[[1, 2]], 6);
            /// # Ok::<(), LayoutError>(())
            /// ```
            #[must_use]
            pub fn into_dyn(self) -> $array<$($of)* T, IxDyn> {
                self.into_dimensionality().expect(OUT_OF_MEMORY)
            }
        }
    };
}

of_each!(conversions);
