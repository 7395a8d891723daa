// Made by `rust/erase` of `crates/nd_dim/src/insert_axis.rt`: edit that.
//! Lists of lengths with an axis more.

/// Writes the lengths with an axis of length 1 before the axis `axis`, or after all of them.
#[inline]
pub(crate) fn insert_axis_into(lens: &[usize], axis: usize, larger: &mut [usize]) {
    larger[..axis].copy_from_slice(&lens[..axis]);
    larger[axis] = 1;
    larger[axis + 1..].copy_from_slice(&lens[axis..]);
}
