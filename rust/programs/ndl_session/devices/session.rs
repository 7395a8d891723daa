// Made by `rust/erase` of `crates/ndl_session/src/devices/session.rt`: edit that.
//! A session over a reader and a writer.
//!
//! `Read` and `Write` are not in scope here: devices are read and written by `read_whole` and
//! `write_whole` alone, which require that no call before them failed.

use crate::ndl_session::answer::{Answer, answer_to};
use crate::ndl_session::devices::read_write::{InputError, read_whole, write_whole};
use crate::ndl_session::devices::watched::Watched;
use std::io;

/// The whole text where a read failed.
const INPUT_FAILED_TEXT: &[u8] = b"input failed\n";

/// The whole text where an allocation failed.
const OUT_OF_MEMORY_TEXT: &[u8] = b"out of memory\n";

/// The status where an allocation failed.
const OUT_OF_MEMORY: u8 = 3;

/// The status where a read or a write failed.
const DEVICE_FAILED: u8 = 4;

/// Reads the whole input, writes the whole text of the answer to it, and returns its status: 0, 1 or 2, and 3 or 4
/// where something fails.
///
/// Where a read fails, the whole text is `input failed` and a line feed, and the status is 4. Where no read fails and
/// an allocation does, for the input or for the answer, the whole text is `out of memory` and a line feed, and the
/// status is 3. Where a write fails or takes no byte, a beginning of that text has gone out, nothing more is written,
/// and the status is 4.
///
/// Nothing is read after a failed read, after the end of the input, or after an allocation for bytes of the input has failed.
/// Nothing is written or flushed after a failed write. Of a reader that tells no bytes, the answer is that to some input.
///
/// Takes time and memory in proportion to the lengths of the input and of the text.
///
/// The lines `data 4 owned 4 1` and `slice 1..;-2`: the lines `shape 2`, `strides -2` and `places 3 1`, and 0. The
/// project's own.
///
/// # Conditions
///
/// The caller ensures that no read or write of either device has failed before. Otherwise this call or a later one
/// panics or returns unspecified values.
///
/// <details><summary>Contract (proved)</summary>
///
/// ```text
/// requires reader: has_failed reader.old ≡ false
/// requires writer: has_failed writer.old ≡ false
/// ensures status: result ≤ 4
/// ensures failed: (result ≡ 4) ↔ (IsTrue (has_failed reader.new) ⊎ IsTrue (has_failed writer.new))
/// ensures text: WritesText (R.remaining (device reader.old))
///     (W.contents (device writer.old)) (W.contents (device writer.new))
///     result (has_failed reader.new) (has_failed writer.new)
/// ensures end: result ≢ 3 → result ≢ 4 → IsReadToEnd (R.remaining (device reader.new)) reader.new
/// ensures room: result ≡ 3 → (IsTrue (has_ended reader.new) ⊎ IsTrue (lacks_room reader.new))
/// ensures no_room: lacks_room reader.old ≡ false → lacks_room reader.new ≡ true
///     → has_failed writer.new ≡ false → result ≡ 3
/// ensures reader: IsReadInTime reader.old reader.new
/// ensures writer: IsWrittenInTime writer.old writer.new
/// ```
/// [How to read it](ndarray_layout::contracts)
/// </details>
pub fn session<R: io::Read, W: io::Write>(reader: &mut Watched<R>, writer: &mut Watched<W>) -> u8 {
    let status = match answer_input(reader) {
        Ok(answer) => {
            write_whole(writer, answer.text.as_slice());
            answer.status
        }
        Err(InputError::ReadFailed) => {
            write_whole(writer, INPUT_FAILED_TEXT);
            DEVICE_FAILED
        }
        Err(InputError::OutOfMemory) => {
            write_whole(writer, OUT_OF_MEMORY_TEXT);
            OUT_OF_MEMORY
        }
    };
    let write_failed = writer.failed();
    if write_failed { DEVICE_FAILED } else { status }
}

/// The answer to all the bytes that are left to read.
///
/// <details><summary>Contract (proved)</summary>
///
/// ```text
/// requires has_failed reader.old ≡ false
/// ensures answer: IfOk result (λ answer. (input : List ℕ)
///     × IsInput (R.remaining (device reader.old)) input × IsReply answer (answer_of input))
/// ensures small: IfOk result (λ answer. answer.status ≤ 2)
/// ensures end: OnOk result (IsReadToEnd (R.remaining (device reader.new)) reader.new)
/// ensures failed: IsTrue (has_failed reader.new) ↔ (result ≡ Err InputError.ReadFailed)
/// ensures in_time: IsReadInTime reader.old reader.new
/// ensures room: result ≡ Err InputError.OutOfMemory → (IsTrue (has_ended reader.new) ⊎ IsTrue (lacks_room reader.new))
/// ensures no_room: lacks_room reader.old ≡ false → lacks_room reader.new ≡ true → result ≡ Err InputError.OutOfMemory
/// ```
/// [How to read it](ndarray_layout::contracts)
/// </details>
fn answer_input<R: io::Read>(reader: &mut Watched<R>) -> Result<Answer, InputError> {
    let input = read_whole(reader)?;
    Ok(answer_to(&input)?)
}
