// Made by `rust/erase` of `crates/nd_base/src/indices.rt`: edit that.
//! Which lists are indices of a shape.

/// Whether a list is an index of the shape: it has one coordinate for each axis, each below the
/// length of its axis.
///
/// `stride_offset_checked` returns `Some` if and only if this is true, and `next_for` and
/// `next_for_f` ask it of their callers.
///
/// Takes time in proportion to the count of axes.
///
/// (1,2) of `[2,3]`: true; (2,0): false. The project's own.
#[must_use]
#[inline]
pub fn is_index(shape: &[usize], index: &[usize]) -> bool {
    shape.len() == index.len() && shape.iter().zip(index).all(|(len, coordinate)| coordinate < len)
}
