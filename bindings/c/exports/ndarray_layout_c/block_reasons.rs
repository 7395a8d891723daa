// Made by `rust/erase` of `crates/ndarray_layout_c/src/block_reasons.rt`: edit that.
//! Why blocks of a shape can't be taken.

use crate::ndarray_layout_c::blocks::Blocks;
use crate::ndarray_layout_c::reasons::{CHUNK, COUNT, EMPTY, Reason, SIZE, WINDOW, no_reason, of_axis, of_list};
use crate::ndarray_layout_c::sizes::{times, times_lengths};
use crate::ndarray_layout_c::statuses::{INCOMPATIBLE_SHAPE, OK, OVERFLOW, UNSUPPORTED};
use crate::unwritten::MaybeUninit;

/// How many blocks of a length an axis has.
///
/// <details><summary>Contract (proved)</summary>
///
/// ```text
/// requires 0 < size
/// ensures result ≡ taken_count blocks len size
/// ```
/// [How to read it](ndarray_layout::contracts)
/// </details>
fn taken_count(blocks: Blocks, len: usize, size: usize) -> usize {
    match blocks {
        Blocks::Windows => len.saturating_sub(size - 1),
        Blocks::Chunks => len / size,
    }
}

/// A number that is not 0, times the counts of blocks that are not 0, where that is within the limit.
///
/// <details><summary>Contract (proved)</summary>
///
/// ```text
/// requires some: 0 < number
/// requires fits: number ≤ limit
/// requires same_count: length block.now ≡ length shape.now
/// requires has_index: is_empty block.now ≡ false
/// ensures SomeIff result
///     (number * nonzero_size (taken_counts blocks shape.now block.now) ≤ limit)
///     (number * nonzero_size (taken_counts blocks shape.now block.now))
/// ```
/// [How to read it](ndarray_layout::contracts)
/// </details>
fn times_counts(number: usize, blocks: Blocks, shape: &[usize], block: &[usize]) -> Option<usize> {
    let mut product = number;
    for axis in 0..shape.len() {
        product = times(product, taken_count(blocks, shape[axis], block[axis]))?;
    }
    Some(product)
}

/// Whether the product of the counts of blocks and of the lengths of one, but for those that are 0, is within the limit.
///
/// <details><summary>Contract (proved)</summary>
///
/// ```text
/// requires same_count: length block.now ≡ length shape.now
/// requires has_index: is_empty block.now ≡ false
/// ensures result ≡ nat_le (nonzero_size (taken_counts blocks shape.now block.now ++ block.now)) limit
/// ```
/// [How to read it](ndarray_layout::contracts)
/// </details>
fn has_size(blocks: Blocks, shape: &[usize], block: &[usize]) -> bool {
    match times_lengths(1, block) {
        Some(size) => times_counts(size, blocks, shape, block).is_some(),
        None => false,
    }
}

/// Whether a block has no coordinate along an axis.
///
/// <details><summary>Contract (proved)</summary>
///
/// ```text
/// requires axis < length block.now
/// ensures result ≡ is_none block.now axis
/// ```
/// [How to read it](ndarray_layout::contracts)
/// </details>
fn is_none(block: &[usize], axis: usize) -> bool {
    block[axis] == 0
}

/// The number of the list of the lengths of a block.
///
/// <details><summary>Contract (proved)</summary>
///
/// ```text
/// ensures result ≡ list_of blocks
/// ```
/// [How to read it](ndarray_layout::contracts)
/// </details>
fn list_of(blocks: Blocks) -> i32 {
    match blocks {
        Blocks::Windows => WINDOW,
        Blocks::Chunks => CHUNK,
    }
}

/// Why blocks of a shape can't be taken.
///
/// <details><summary>Contract (proved)</summary>
///
/// ```text
/// ensures result ≡ blocks_reason blocks shape.now block.now
/// ```
/// [How to read it](ndarray_layout::contracts)
/// </details>
fn blocks_reason(blocks: Blocks, shape: &[usize], block: &[usize]) -> Reason {
    let (list, count) = (list_of(blocks), block.len());
    if count != shape.len() {
        return of_list(INCOMPATIBLE_SHAPE, COUNT, list, 0, count, shape.len());
    }
    for axis in 0..block.len() {
        if is_none(block, axis) {
            return of_list(UNSUPPORTED, EMPTY, list, axis, 0, 0);
        }
    }
    if !has_size(blocks, shape, block) {
        return of_axis(OVERFLOW, SIZE, 0, 0, 0, 0);
    }
    no_reason()
}

/// Writes why the windows of a shape can't be taken.
///
/// <details><summary>Contract (proved)</summary>
///
/// ```text
/// ensures status: result ≡ ok
/// ensures reason: reason.new ≡ blocks_reason Blocks.Windows shape.now window.now
/// ensures agrees: reason.new.status ≡ status_of (windows_fault None shape.now window.now)
/// ```
/// [How to read it](ndarray_layout::contracts)
/// </details>
pub fn nd_windows_reason(shape: &[usize], window: &[usize], reason: &mut MaybeUninit<Reason>) -> i32 {
    reason.write(blocks_reason(Blocks::Windows, shape, window));
    OK
}

/// Writes why the chunks of a shape can't be taken.
///
/// <details><summary>Contract (proved)</summary>
///
/// ```text
/// ensures status: result ≡ ok
/// ensures reason: reason.new ≡ blocks_reason Blocks.Chunks shape.now chunk.now
/// ensures agrees: reason.new.status ≡ status_of (chunks_fault None shape.now chunk.now)
/// ```
/// [How to read it](ndarray_layout::contracts)
/// </details>
pub fn nd_exact_chunks_reason(shape: &[usize], chunk: &[usize], reason: &mut MaybeUninit<Reason>) -> i32 {
    reason.write(blocks_reason(Blocks::Chunks, shape, chunk));
    OK
}

pub mod exported {
    use super::*;

    /// # Safety
    ///
    /// Each pointer is aligned and leads to as many items as its count says. That of an empty list isn't looked at.
    #[unsafe(no_mangle)]
    pub unsafe extern "C" fn nd_windows_reason(
        shape: *const usize,
        shape_count: usize,
        window: *const usize,
        window_count: usize,
        reason: *mut MaybeUninit<Reason>,
    ) -> i32 {
        unsafe {
            super::nd_windows_reason(
                if shape_count == 0 { &[] } else { ::core::slice::from_raw_parts(shape, shape_count) },
                if window_count == 0 { &[] } else { ::core::slice::from_raw_parts(window, window_count) },
                &mut *reason,
            )
        }
    }

    /// # Safety
    ///
    /// Each pointer is aligned and leads to as many items as its count says. That of an empty list isn't looked at.
    #[unsafe(no_mangle)]
    pub unsafe extern "C" fn nd_exact_chunks_reason(
        shape: *const usize,
        shape_count: usize,
        chunk: *const usize,
        chunk_count: usize,
        reason: *mut MaybeUninit<Reason>,
    ) -> i32 {
        unsafe {
            super::nd_exact_chunks_reason(
                if shape_count == 0 { &[] } else { ::core::slice::from_raw_parts(shape, shape_count) },
                if chunk_count == 0 { &[] } else { ::core::slice::from_raw_parts(chunk, chunk_count) },
                &mut *reason,
            )
        }
    }
}
