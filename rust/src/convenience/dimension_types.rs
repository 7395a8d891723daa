//! The dimension type of a result, by those of two arguments.

use crate::nd_base::{Ix0, Ix1, Ix2, Ix3, Ix4, Ix5, Ix6, IxDyn};
use crate::nd_dim::Dimension;

/// The dimension type with the axes of two; more than six axes have no type but `IxDyn`. ndarray's `DimAdd`.
/// Not proved.
///
/// ```
/// use ndarray_layout::{DimAdd, Ix2, Ix3, Ix5};
///
/// let shape: <Ix2 as DimAdd<Ix3>>::Output = Ix5(1, 2, 3, 4, 5);
/// # let _ = shape;
/// ```
pub trait DimAdd<D> {
    /// The type with as many axes as both have together.
    type Output: Dimension;
}

/// The dimension type that shapes of two types broadcast to: that with more axes. ndarray's `DimMax`. Not proved.
///
/// ```
/// use ndarray_layout::{DimMax, Ix1, Ix2, LayoutError, co_broadcast};
///
/// # fn main() -> Result<(), LayoutError> {
/// let common: <Ix1 as DimMax<Ix2>>::Output = co_broadcast(&Ix1(3), &Ix2(2, 3))?;
/// assert_eq!(common, Ix2(2, 3));
/// # Ok(())
/// # }
/// ```
pub trait DimMax<D> {
    /// The type with as many axes as the one of both that has more.
    type Output: Dimension;
}

/// Not proved.
impl<D: Dimension> DimMax<D> for D {
    type Output = D;
}

/// Not proved.
impl<D: Dimension> DimAdd<D> for Ix0 {
    type Output = D;
}

/// Not proved.
impl<D: Dimension> DimAdd<D> for IxDyn {
    type Output = IxDyn;
}

/// Each type with the one that has an axis more.
macro_rules! sums {
    ($($less:ident $more:ident),*) => {$(
        /// Not proved.
        impl<D: Dimension> DimAdd<D> for $more {
            type Output = <<$less as DimAdd<D>>::Output as Dimension>::Larger;
        }
    )*};
}

sums!(Ix0 Ix1, Ix1 Ix2, Ix2 Ix3, Ix3 Ix4, Ix4 Ix5, Ix5 Ix6);

/// The types by their counts of axes, each with those after it.
macro_rules! greater {
    ($least:ident $($greater:ident)*) => {
        $(
            /// Not proved.
            impl DimMax<$greater> for $least {
                type Output = $greater;
            }

            /// Not proved.
            impl DimMax<$least> for $greater {
                type Output = $greater;
            }
        )*
        greater!($($greater)*);
    };
    () => {};
}

greater!(Ix0 Ix1 Ix2 Ix3 Ix4 Ix5 Ix6 IxDyn);
