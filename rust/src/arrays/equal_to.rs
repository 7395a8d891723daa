//! Items that are compared with those of another type, which the kit's `PartialEq` doesn't have.

use crate::nd_lent::EqualTo;

/// Rust's `==` of items and of slices. Not proved.
impl<T: PartialEq<U>, U> EqualTo<U> for T {
    #[inline]
    fn is_equal_to(&self, other: &U) -> bool {
        self == other
    }

    #[inline]
    fn are_equal_to(items: &[T], others: &[U]) -> bool {
        items == others
    }
}
