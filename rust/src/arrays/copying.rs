//! New lists and arrays that are made of the items of an array.

use crate::convenience::OUT_OF_MEMORY;
use crate::memory::{AllocError, FallibleSlice};
use crate::nd_base::{LayoutError, Lengths};
use crate::nd_shape::{StrideShape, Strides};
use crate::{ArrayView, ArrayViewMut, OwnedArray};
use alloc::vec::{self, Vec};

/// The row-major array of a shape over a list of as many items. Errors: out of memory.
fn array_of<T, D: Lengths>(dim: &D, items: Vec<T>) -> Result<OwnedArray<T, D>, AllocError> {
    let shape = StrideShape { dim: dim.duplicate()?, strides: Strides::C };
    OwnedArray::from_shape_vec(shape, items).map_err(|(error, _)| match error {
        LayoutError::Memory(error) => error,
        LayoutError::Shape(fault) => unreachable!("the shape of an array is accepted: {fault}"),
    })
}

/// The copies of one of the types of arrays: its name, the lifetime of its items if it has one, the array lent, and what makes `array` in examples, which is 1 2 3 over
/// 4 5 6.
macro_rules! copies {
    ($array:ident [$($of:tt)*] $self:ident => $lent:expr, $setup:expr) => {
        impl<$($of)* T, D: Lengths> $array<$($of)* T, D> {
            /// What a closure makes of each item, in row-major order, as a new array in that order. ndarray's `map`, whose result
            /// may have another order of its axes in memory. Not proved.
            ///
            /// # Errors
            ///
            /// Out of memory.
            ///
            /// ```
            /// use ndarray_layout::*;
            ///
            #[doc = $setup]
            /// let texts = array.t().map(|item| item.to_string())?;
            /// assert_eq!((texts.shape(), texts.stored().concat()), (&[3, 2][..], "142536".to_string()));
            /// # Ok::<(), LayoutError>(())
            /// ```
            pub fn map<U, F: FnMut(&T) -> U>(&$self, f: F) -> Result<OwnedArray<U, D>, AllocError> {
                array_of($self.dim(), $lent.map_to_vec(f)?)
            }
        }

        impl<$($of)* T: Clone, D: Lengths> $array<$($of)* T, D> {
            /// Clones of the items in row-major order. ndarray's `to_vec`, for any count of axes. Not proved.
            ///
            /// # Errors
            ///
            /// Out of memory.
            ///
            /// ```
            /// use ndarray_layout::*;
            ///
            #[doc = $setup]
            /// assert_eq!(array.t().to_vec()?, [1, 4, 2, 5, 3, 6]);
            /// # Ok::<(), LayoutError>(())
            /// ```
            pub fn to_vec(&$self) -> Result<Vec<T>, AllocError> {
                match $self.as_slice() {
                    Some(items) => items.fallible_to_vec(),
                    None => $lent.map_to_vec(T::clone),
                }
            }

            /// An array of clones of the items, in row-major order, without spare ones: `to_owned`, which panics instead. Not proved.
            ///
            /// # Errors
            ///
            /// Out of memory.
            ///
            /// ```
            /// use ndarray_layout::*;
            ///
            #[doc = $setup]
            /// assert_eq!(array.t().to_array()?.into_stored(), [1, 4, 2, 5, 3, 6]);
            /// # Ok::<(), LayoutError>(())
            /// ```
            pub fn to_array(&$self) -> Result<OwnedArray<T, D>, AllocError> {
                array_of($self.dim(), $self.to_vec()?)
            }

            /// An array of clones of the items, in row-major order, without spare ones. ndarray's `to_owned`, whose result may have
            /// another order of its axes in memory. Not proved.
            ///
            /// # Panics
            ///
            /// Where an allocation fails: `to_array` returns an error instead.
            ///
            /// ```
            /// use ndarray_layout::*;
            ///
            #[doc = $setup]
            /// assert_eq!(array.t().to_owned().into_stored(), [1, 4, 2, 5, 3, 6]);
            /// # Ok::<(), LayoutError>(())
            /// ```
            #[must_use]
            pub fn to_owned(&$self) -> OwnedArray<T, D> {
                $self.to_array().expect(OUT_OF_MEMORY)
            }
        }
    };
}

copies!(ArrayView ['a,] self => self,
    "let array = ArrayView::from_shape(Ix2(2, 3), &[1, 2, 3, 4, 5, 6])?;");
copies!(ArrayViewMut ['a,] self => &self.try_view()?,
    "let mut items = [1, 2, 3, 4, 5, 6];\nlet array = ArrayViewMut::from_shape(Ix2(2, 3), &mut items)?;");
copies!(OwnedArray [] self => &self.try_view()?,
    "let array = OwnedArray::from_shape_vec(Ix2(2, 3), vec![1, 2, 3, 4, 5, 6])?;");

/// Hands out the items in row-major order; spare ones are dropped. Where they aren't stored in this order, they are moved to another
/// list first. Panics where an allocation fails. Not proved.
///
/// ```
/// use ndarray_layout::*;
///
/// let texts = ["a", "b", "c", "d"].map(String::from).to_vec();
/// let array = OwnedArray::from_shape_vec(Ix2(2, 2).f()?, texts)?;
/// assert_eq!(array.into_iter().collect::<Vec<String>>().concat(), "acbd");
/// # Ok::<(), LayoutError>(())
/// ```
impl<T, D: Lengths> IntoIterator for OwnedArray<T, D> {
    type Item = T;

    type IntoIter = vec::IntoIter<T>;

    fn into_iter(self) -> vec::IntoIter<T> {
        self.into_list().expect(OUT_OF_MEMORY).into_iter()
    }
}
