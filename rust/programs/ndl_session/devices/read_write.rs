// Made by `rust/erase` of `crates/ndl_session/src/devices/read_write.rt`: edit that.
//! Reads a device to its end, and writes a whole text to one.
//!
//! `Read` and `Write` are not in scope here: each read and each write goes through `read_on` and
//! `write_on`, which require that no call before it failed.

use crate::ndl_session::devices::watched::Watched;
use ::ndarray_layout::memory::AllocError;
use ::ndarray_layout::memory::prelude::Vec;
use std::io;

/// Why an input was not read whole.
#[derive(Clone, Copy)]
pub(super) enum InputError {
    /// A read returned an error.
    ReadFailed,
    /// An allocation for the bytes failed.
    OutOfMemory,
}

impl From<io::Error> for InputError {
    fn from(_error: io::Error) -> InputError {
        InputError::ReadFailed
    }
}

impl From<AllocError> for InputError {
    fn from(_error: AllocError) -> InputError {
        InputError::OutOfMemory
    }
}

/// How many bytes one read asks for.
const PIECE_LEN: usize = 8192;

/// Reads all the bytes that are left, up to the first read that gives 0 bytes.
///
/// Errors: `ReadFailed` at the first read that fails, an interrupted one too; `OutOfMemory` where the
/// bytes read so far do not fit into memory. Nothing more is read then, nor after the end.
///
/// # Conditions
///
/// The caller ensures that no read or write of the device has failed before. Otherwise this call or a later one panics
/// or returns unspecified values.
///
/// <details><summary>Contract (proved)</summary>
///
/// ```text
/// requires has_failed reader.old ≡ false
/// ensures bytes: IfOk result (λ bytes. IfSome (R.remaining (device reader.old)) (λ all. bytes.items ≡ all))
/// ensures end: OnOk result (IsReadToEnd (R.remaining (device reader.new)) reader.new)
/// ensures failed: IsTrue (has_failed reader.new) ↔ (result ≡ Err InputError.ReadFailed)
/// ensures in_time: IsReadInTime reader.old reader.new
/// ensures room: result ≡ Err InputError.OutOfMemory → lacks_room reader.new ≡ true
/// ensures memory: lacks_room reader.old ≡ false → lacks_room reader.new ≡ true → result ≡ Err InputError.OutOfMemory
/// ```
/// [How to read it](ndarray_layout::contracts)
/// </details>
pub(super) fn read_whole<R: io::Read>(reader: &mut Watched<R>) -> Result<Vec<u8>, InputError> {
    let mut bytes = Vec::new();
    let mut piece = [0u8; PIECE_LEN];
    loop {
        let count = reader.read_on(&mut piece)?;
        if count == 0 {
            return Ok(bytes);
        }
        reader.keep(&mut bytes, &piece[..count])?;
    }
}

/// Writes the whole text, or a beginning of it where a write fails.
///
/// After a write that returns an error, an interrupted one too, or that takes no byte, nothing more is written; the
/// device has failed then.
///
/// # Conditions
///
/// The caller ensures that no read or write of the device has failed before. Otherwise this call or a later one panics
/// or returns unspecified values.
///
/// <details><summary>Contract (proved)</summary>
///
/// ```text
/// requires has_failed writer.old ≡ false
/// ensures whole: has_failed writer.new ≡ false → Appends (W.contents (device writer.old))
///     (W.contents (device writer.new)) text.now
/// ensures cut: has_failed writer.new ≡ true → AppendsBeginning
///     (W.contents (device writer.old)) (W.contents (device writer.new)) text.now
/// ensures in_time: IsWrittenInTime writer.old writer.new
/// ```
/// [How to read it](ndarray_layout::contracts)
/// </details>
pub(super) fn write_whole<W: io::Write>(writer: &mut Watched<W>, text: &[u8]) {
    let mut written = 0;
    while written < text.len() {
        match writer.write_on(&text[written..]) {
            Ok(taken) if taken > 0 => written += taken,
            _ => return,
        }
    }
}
