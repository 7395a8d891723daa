// Made by `rust/erase` of `crates/ndarray_layout_c/src/blocks.rt`: edit that.
//! All windows of a layout, and its chunks side by side.

use crate::ndarray_layout_c::lists::{view, write_axes};
use crate::ndarray_layout_c::statuses::{BAD_ARGUMENT, OUT_OF_MEMORY, status_of};
use crate::unwritten::MaybeUninit;
use ::ndarray_layout::{IxDyn, LayoutError, Strided, new_ixdyn};

/// Which blocks of a shape are taken of a layout: all windows, or the chunks side by side.
#[derive(Clone, Copy)]
pub(crate) enum Blocks {
    Windows,
    Chunks,
}

/// The blocks of a layout.
///
/// Errors: those of `view`, then those of `Strided::windows` or `Strided::exact_chunks`; out of memory, never for at most four
/// items and axes of the result.
///
/// <details><summary>Contract (proved)</summary>
///
/// ```text
/// ensures fits: OnOk result (option_or (layout_fault shape.now (all_signed strides.now))
///     (taken_fault blocks shape.now block.now) ≡ None)
/// ensures fault: (kind : ErrorKind) → shape_fault result ≡ Some kind →
///     option_or (layout_fault shape.now (all_signed strides.now))
///     (taken_fault blocks shape.now block.now) ≡ Some kind
/// ensures memory: NeedsNoMemory None (length shape.now + length shape.now) →
///     NeedsNoMemory None (length strides.now) → NeedsNoMemory None (length block.now) →
///     shape_fault result ≡ None → IsOk result
/// ensures blocks: IfOk result (λ v. v ≡ taken_of blocks block.now (lowest_view shape.now strides.now))
/// ensures count: IfOk result (λ v. length v.shape ≡ length shape.now + length shape.now)
/// ```
/// [How to read it](ndarray_layout::contracts)
/// </details>
fn taken(blocks: Blocks, shape: &[usize], strides: &[usize], block: &[usize]) -> Result<Strided<IxDyn>, LayoutError> {
    let view = view(shape, strides)?;
    let block = new_ixdyn(block)?;
    match blocks {
        Blocks::Windows => view.windows(&block),
        Blocks::Chunks => view.exact_chunks(&block),
    }
}

/// Writes the shape and the strides of the blocks of a layout, first the axes of the blocks, then those in a block, and returns
/// the status.
///
/// <details><summary>Contract (proved)</summary>
///
/// ```text
/// ensures status: result ≢ out_of_memory → result ≡ status_where
///     (not (length new_shape.old == length shape.now + length shape.now
///     && length new_strides.old == length shape.now + length shape.now))
///     (option_or (layout_fault shape.now (all_signed strides.now))
///     (taken_fault blocks shape.now block.now))
/// ensures bad: (length new_shape.old == length shape.now + length shape.now
///     && length new_strides.old == length shape.now + length shape.now) ≡ false →
///     result ≡ bad_argument
/// ensures memory: NeedsNoMemory None (length shape.now + length shape.now) →
///     NeedsNoMemory None (length strides.now) → NeedsNoMemory None (length block.now) →
///     result ≢ out_of_memory
/// ensures fits: result ≡ ok → option_or (layout_fault shape.now (all_signed strides.now))
///     (taken_fault blocks shape.now block.now) ≡ None
/// ensures shape: result ≡ ok → new_shape.new ≡ (taken_of blocks block.now (lowest_view shape.now strides.now)).shape
/// ensures strides: result ≡ ok → all_signed new_strides.new ≡
///     (taken_of blocks block.now (lowest_view shape.now strides.now)).strides
/// ensures unchanged: result ≢ ok → (new_shape.new ≡ new_shape.old) × (new_strides.new ≡ new_strides.old)
/// ```
/// [How to read it](ndarray_layout::contracts)
/// </details>
fn write_blocks(
    blocks: Blocks,
    shape: &[usize],
    strides: &[usize],
    block: &[usize],
    new_shape: &mut [MaybeUninit<usize>],
    new_strides: &mut [MaybeUninit<usize>],
) -> i32 {
    if new_shape.len() != 2 * shape.len() || new_strides.len() != 2 * shape.len() {
        return BAD_ARGUMENT;
    }
    match taken(blocks, shape, strides, block) {
        Ok(blocks) => write_axes(&blocks, new_shape, new_strides),
        Err(LayoutError::Shape(error)) => status_of(error.kind()),
        Err(LayoutError::Memory(_)) => OUT_OF_MEMORY,
    }
}

/// Writes the shape and the strides of all windows of a layout: first the axes of the windows, then those in a window.
///
/// <details><summary>Contract (proved)</summary>
///
/// ```text
/// ensures status: result ≢ out_of_memory → result ≡ status_where
///     (not (length new_shape.old == length shape.now + length shape.now
///     && length new_strides.old == length shape.now + length shape.now))
///     (option_or (layout_fault shape.now (all_signed strides.now))
///     (windows_fault None shape.now window.now))
/// ensures bad: (length new_shape.old == length shape.now + length shape.now
///     && length new_strides.old == length shape.now + length shape.now) ≡ false →
///     result ≡ bad_argument
/// ensures memory: NeedsNoMemory None (length shape.now + length shape.now) →
///     NeedsNoMemory None (length strides.now) → NeedsNoMemory None (length window.now) →
///     result ≢ out_of_memory
/// ensures shape: result ≡ ok → new_shape.new ≡ (windows_of window.now (lowest_view shape.now strides.now)).shape
/// ensures strides: result ≡ ok → all_signed new_strides.new ≡
///     (windows_of window.now (lowest_view shape.now strides.now)).strides
/// ensures kept: result ≡ ok → IsLayoutOf (window_source (length shape.now))
///     shape.now strides.now new_shape.new new_strides.new
/// ensures unchanged: result ≢ ok → (new_shape.new ≡ new_shape.old) × (new_strides.new ≡ new_strides.old)
/// ```
/// [How to read it](ndarray_layout::contracts)
/// </details>
pub fn nd_windows(
    shape: &[usize],
    strides: &[usize],
    window: &[usize],
    new_shape: &mut [MaybeUninit<usize>],
    new_strides: &mut [MaybeUninit<usize>],
) -> i32 {
    write_blocks(Blocks::Windows, shape, strides, window, new_shape, new_strides)
}

/// Writes the shape and the strides of the chunks of a layout: first the axes of the chunks, then those in a chunk.
///
/// <details><summary>Contract (proved)</summary>
///
/// ```text
/// ensures status: result ≢ out_of_memory → result ≡ status_where
///     (not (length new_shape.old == length shape.now + length shape.now
///     && length new_strides.old == length shape.now + length shape.now))
///     (option_or (layout_fault shape.now (all_signed strides.now))
///     (chunks_fault None shape.now chunk.now))
/// ensures bad: (length new_shape.old == length shape.now + length shape.now
///     && length new_strides.old == length shape.now + length shape.now) ≡ false →
///     result ≡ bad_argument
/// ensures memory: NeedsNoMemory None (length shape.now + length shape.now) →
///     NeedsNoMemory None (length strides.now) → NeedsNoMemory None (length chunk.now) →
///     result ≢ out_of_memory
/// ensures shape: result ≡ ok → new_shape.new ≡ (chunks_of chunk.now (lowest_view shape.now strides.now)).shape
/// ensures strides: result ≡ ok → all_signed new_strides.new ≡
///     (chunks_of chunk.now (lowest_view shape.now strides.now)).strides
/// ensures kept: result ≡ ok → DescendsInPlace (chunk_source chunk.now)
///     shape.now strides.now new_shape.new new_strides.new
/// ensures unchanged: result ≢ ok → (new_shape.new ≡ new_shape.old) × (new_strides.new ≡ new_strides.old)
/// ```
/// [How to read it](ndarray_layout::contracts)
/// </details>
pub fn nd_exact_chunks(
    shape: &[usize],
    strides: &[usize],
    chunk: &[usize],
    new_shape: &mut [MaybeUninit<usize>],
    new_strides: &mut [MaybeUninit<usize>],
) -> i32 {
    write_blocks(Blocks::Chunks, shape, strides, chunk, new_shape, new_strides)
}

pub mod exported {
    use super::*;

    /// # Safety
    ///
    /// Each pointer is aligned and leads to as many items as its count says. That of an empty list isn't looked at.
    #[unsafe(no_mangle)]
    pub unsafe extern "C" fn nd_windows(
        shape: *const usize,
        shape_count: usize,
        strides: *const usize,
        strides_count: usize,
        window: *const usize,
        window_count: usize,
        new_shape: *mut MaybeUninit<usize>,
        new_shape_count: usize,
        new_strides: *mut MaybeUninit<usize>,
        new_strides_count: usize,
    ) -> i32 {
        unsafe {
            super::nd_windows(
                if shape_count == 0 { &[] } else { ::core::slice::from_raw_parts(shape, shape_count) },
                if strides_count == 0 { &[] } else { ::core::slice::from_raw_parts(strides, strides_count) },
                if window_count == 0 { &[] } else { ::core::slice::from_raw_parts(window, window_count) },
                if new_shape_count == 0 {
                    &mut []
                } else {
                    ::core::slice::from_raw_parts_mut(new_shape, new_shape_count)
                },
                if new_strides_count == 0 {
                    &mut []
                } else {
                    ::core::slice::from_raw_parts_mut(new_strides, new_strides_count)
                },
            )
        }
    }

    /// # Safety
    ///
    /// Each pointer is aligned and leads to as many items as its count says. That of an empty list isn't looked at.
    #[unsafe(no_mangle)]
    pub unsafe extern "C" fn nd_exact_chunks(
        shape: *const usize,
        shape_count: usize,
        strides: *const usize,
        strides_count: usize,
        chunk: *const usize,
        chunk_count: usize,
        new_shape: *mut MaybeUninit<usize>,
        new_shape_count: usize,
        new_strides: *mut MaybeUninit<usize>,
        new_strides_count: usize,
    ) -> i32 {
        unsafe {
            super::nd_exact_chunks(
                if shape_count == 0 { &[] } else { ::core::slice::from_raw_parts(shape, shape_count) },
                if strides_count == 0 { &[] } else { ::core::slice::from_raw_parts(strides, strides_count) },
                if chunk_count == 0 { &[] } else { ::core::slice::from_raw_parts(chunk, chunk_count) },
                if new_shape_count == 0 {
                    &mut []
                } else {
                    ::core::slice::from_raw_parts_mut(new_shape, new_shape_count)
                },
                if new_strides_count == 0 {
                    &mut []
                } else {
                    ::core::slice::from_raw_parts_mut(new_strides, new_strides_count)
                },
            )
        }
    }
}
