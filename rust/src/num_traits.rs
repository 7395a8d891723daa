//! What the sources use of the kit's crate `num_traits`. The package trusts it.

/// A number, or the bound that it lies beyond.
#[inline]
pub(crate) fn clamp<T: Ord>(number: T, least: T, greatest: T) -> T {
    number.clamp(least, greatest)
}
