//! Views and the steps between them as values that are copied, printed and given another type.

use super::OUT_OF_MEMORY;
use super::printing::Signed;
use crate::memory::FallibleSlice;
use crate::nd_base::{Dim, IxDyn, Lengths};
use crate::nd_shape::{ShapeBuilder, StrideShape};
use crate::ndarray_layout::{Step, Strided};
use core::fmt;

impl<D: Lengths> Strided<D> {
    /// The same view, of the type for any number of axes. ndarray's `into_dyn`. Not proved.
    ///
    /// Takes time in proportion to the count of axes.
    ///
    /// # Panics
    ///
    /// Where an allocation fails, never for at most 4 axes.
    ///
    /// ```
    /// use ndarray_layout::{CanIndexCheckMode, Ix2, IxDyn, LayoutError, Strided, signed, unsigned};
    ///
    /// # fn main() -> Result<(), LayoutError> {
    /// let view = Strided::new(Ix2(2, 3), Ix2(unsigned(-3), 1), 1, 6, CanIndexCheckMode::ReadOnly)?.into_dyn();
    /// assert_eq!((view.start(), view.dim(), signed(view.strides()[0])), (3, &IxDyn(&[2, 3]), -3));
    /// # Ok(())
    /// # }
    /// ```
    #[must_use]
    pub fn into_dyn(self) -> Strided<IxDyn> {
        self.into_dimensionality().expect(OUT_OF_MEMORY)
    }
}

/// A view of a fixed count of axes is a handful of numbers. Not proved.
///
/// ```
/// use ndarray_layout::{CanIndexCheckMode, Ix2, LayoutError, Strided};
///
/// # fn main() -> Result<(), LayoutError> {
/// let view = Strided::new(Ix2(2, 3), Ix2(3, 1), 1, 6, CanIndexCheckMode::ReadOnly)?;
/// let turned = view.reversed_axes(); // `view` is copied
/// assert_eq!((view.dim(), turned.dim()), (&Ix2(2, 3), &Ix2(3, 2)));
/// # Ok(())
/// # }
/// ```
impl<const N: usize> Copy for Strided<Dim<[usize; N]>> {}

/// Prints the start, the shape, and the strides with their signs. Not proved.
///
/// ```
/// use ndarray_layout::{CanIndexCheckMode, Ix1, LayoutError, Strided, unsigned};
///
/// # fn main() -> Result<(), LayoutError> {
/// let view = Strided::new(Ix1(3), Ix1(unsigned(-2)), 1, 5, CanIndexCheckMode::ReadOnly)?;
/// assert_eq!(format!("{view:?}"), "Strided { start: 4, dim: [3], strides: [-2] }");
/// # Ok(())
/// # }
/// ```
impl<D: Lengths> fmt::Debug for Strided<D> {
    fn fmt(&self, f: &mut fmt::Formatter<'_>) -> fmt::Result {
        let mut view = f.debug_struct("Strided");
        view.field("start", &self.start()).field("dim", &self.dim().slice());
        view.field("strides", &Signed(self.strides().slice())).finish()
    }
}

/// A copy. Panics where an allocation fails. Not proved.
impl Clone for Step {
    fn clone(&self) -> Self {
        match self {
            Step::Slice(elems, fit) => Step::Slice(elems.fallible_to_vec().expect(OUT_OF_MEMORY), *fit),
            Step::Collapse(axis, index) => Step::Collapse(*axis, *index),
            Step::Merge(take, into) => Step::Merge(*take, *into),
            Step::Reshape(shape, order) => Step::Reshape(shape.clone(), *order),
            Step::Broadcast(shape) => Step::Broadcast(shape.clone()),
        }
    }
}

/// The shape that is built, with the strides of its order. Panics where an allocation fails, never for at most 4 axes.
/// Not proved.
impl<D: Lengths, T: ShapeBuilder<Dim = D>> From<T> for StrideShape<D> {
    fn from(builder: T) -> Self {
        StrideShape::from_builder(builder).expect(OUT_OF_MEMORY)
    }
}
