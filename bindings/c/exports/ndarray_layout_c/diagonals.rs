// Made by `rust/erase` of `crates/ndarray_layout_c/src/diagonals.rt`: edit that.
//! The diagonal of a layout.

use crate::ndarray_layout_c::lists::view;
use crate::ndarray_layout_c::statuses::{OK, OUT_OF_MEMORY, status_of};
use crate::unwritten::MaybeUninit;
use ::ndarray_layout::{IxDyn, LayoutError, Lengths, Strided, signed};

/// Writes the length and the stride of the diagonal of a view.
///
/// <details><summary>Contract (proved)</summary>
///
/// ```text
/// ensures len: len.new ≡ diagonal_len view.now.shape
/// ensures stride: stride.new ≡ diagonal_stride (diagonal_len view.now.shape) view.now.strides
/// ```
/// [How to read it](ndarray_layout::contracts)
/// </details>
fn write_diagonal(view: &Strided<IxDyn>, len: &mut MaybeUninit<usize>, stride: &mut MaybeUninit<isize>) {
    let diagonal = view.diag();
    let (lens, strides) = (diagonal.dim(), diagonal.strides());
    len.write(lens.slice()[0]);
    stride.write(signed(strides.slice()[0]));
}

/// Writes the length and the stride of the diagonal of a layout, whose start stays.
///
/// <details><summary>Contract (proved)</summary>
///
/// ```text
/// ensures status: result ≢ out_of_memory → result ≡ status_of (layout_fault shape.now (all_signed strides.now))
/// ensures memory: NeedsNoMemory None (length shape.now) →
///     NeedsNoMemory None (length strides.now) → result ≢ out_of_memory
/// ensures len: result ≡ ok → len.new ≡ diagonal_len shape.now
/// ensures stride: result ≡ ok → stride.new ≡ diagonal_stride (diagonal_len shape.now) (all_signed strides.now)
/// ensures unchanged_len: result ≢ ok → len.new ≡ len.old
/// ensures unchanged_stride: result ≢ ok → stride.new ≡ stride.old
/// ```
/// [How to read it](ndarray_layout::contracts)
/// </details>
pub fn nd_diag(
    shape: &[usize],
    strides: &[usize],
    len: &mut MaybeUninit<usize>,
    stride: &mut MaybeUninit<isize>,
) -> i32 {
    match view(shape, strides) {
        Ok(view) => {
            write_diagonal(&view, len, stride);
            OK
        }
        Err(LayoutError::Shape(error)) => status_of(error.kind()),
        Err(LayoutError::Memory(_)) => OUT_OF_MEMORY,
    }
}

pub mod exported {
    use super::*;

    /// # Safety
    ///
    /// Each pointer is aligned and leads to as many items as its count says. That of an empty list isn't looked at.
    #[unsafe(no_mangle)]
    pub unsafe extern "C" fn nd_diag(
        shape: *const usize,
        shape_count: usize,
        strides: *const usize,
        strides_count: usize,
        len: *mut MaybeUninit<usize>,
        stride: *mut MaybeUninit<isize>,
    ) -> i32 {
        unsafe {
            super::nd_diag(
                if shape_count == 0 { &[] } else { ::core::slice::from_raw_parts(shape, shape_count) },
                if strides_count == 0 { &[] } else { ::core::slice::from_raw_parts(strides, strides_count) },
                &mut *len,
                &mut *stride,
            )
        }
    }
}
