// Made by `rust/erase` of `crates/ndl_session/src/devices/watched.rt`: edit that.
//! A reader or a writer that remembers whether one of its calls has failed, found the end, or came late, and whether
//! what it gave has found no room.

use ::ndarray_layout::memory::AllocError;
use ::ndarray_layout::memory::prelude::{FallibleVec, Vec};
use std::io;
use std::io::Read;
use std::io::Write;

/// A device whose failures are remembered: a reader, a writer, or both.
///
/// It has failed from the first `read` or `write` that returned an error, an interrupted one too,
/// or the first `write` that took no byte of a piece that has some, and from nothing else: a `read`
/// of 0 bytes is the end of the input, and `flush` only calls the device's. After a failure it has failed for good.
///
/// Its input has ended from the first `read` that gave 0 bytes to a buffer that has room. It was used late
/// where it was read after a failure or after that end, or written or flushed after a failure.
///
/// It lacks room from the first bytes that it gave for which an allocation failed. It was read without room where it was
/// read after that.
#[derive(Debug)]
pub struct Watched<T> {
    inner: T,
    failed: bool,
    ended: bool,
    used_late: bool,
    lacks_room: bool,
    read_without_room: bool,
}

impl<T> Watched<T> {
    /// The device, none of whose calls counts as failed yet, as the end of the input, or as late. It lacks no room.
    ///
    /// <details><summary>Contract (proved)</summary>
    ///
    /// ```text
    /// ensures device: device result ≡ inner
    /// ensures failed: has_failed result ≡ false
    /// ensures ended: has_ended result ≡ false
    /// ensures late: was_used_late result ≡ false
    /// ensures room: lacks_room result ≡ false
    /// ensures no_room: was_read_without_room result ≡ false
    /// ```
    /// [How to read it](ndarray_layout::contracts)
    /// </details>
    pub fn new(inner: T) -> Self {
        Watched { inner, failed: false, ended: false, used_late: false, lacks_room: false, read_without_room: false }
    }

    /// Whether one of the reads and writes so far has failed.
    ///
    /// <details><summary>Contract (proved)</summary>
    ///
    /// ```text
    /// ensures result ≡ has_failed self.now
    /// ```
    /// [How to read it](ndarray_layout::contracts)
    /// </details>
    pub fn failed(&self) -> bool {
        self.failed
    }

    /// Whether one of the reads so far has found the end of the input.
    ///
    /// <details><summary>Contract (proved)</summary>
    ///
    /// ```text
    /// ensures result ≡ has_ended self.now
    /// ```
    /// [How to read it](ndarray_layout::contracts)
    /// </details>
    pub fn ended(&self) -> bool {
        self.ended
    }

    /// Whether one of the calls so far came late: a read after a failure or after the end of the
    /// input, a write or a flush after a failure.
    ///
    /// <details><summary>Contract (proved)</summary>
    ///
    /// ```text
    /// ensures result ≡ was_used_late self.now
    /// ```
    /// [How to read it](ndarray_layout::contracts)
    /// </details>
    pub fn used_late(&self) -> bool {
        self.used_late
    }

    /// Whether an allocation for bytes that it gave has failed.
    ///
    /// <details><summary>Contract (proved)</summary>
    ///
    /// ```text
    /// ensures result ≡ lacks_room self.now
    /// ```
    /// [How to read it](ndarray_layout::contracts)
    /// </details>
    pub fn lacks_room(&self) -> bool {
        self.lacks_room
    }

    /// Whether one of the reads so far came after an allocation for bytes that it gave had failed.
    ///
    /// <details><summary>Contract (proved)</summary>
    ///
    /// ```text
    /// ensures result ≡ was_read_without_room self.now
    /// ```
    /// [How to read it](ndarray_layout::contracts)
    /// </details>
    pub fn read_without_room(&self) -> bool {
        self.read_without_room
    }

    /// Appends bytes that the device gave to those kept so far.
    ///
    /// Errors: out of memory; the device lacks room then.
    ///
    /// <details><summary>Contract (proved)</summary>
    ///
    /// ```text
    /// ensures kept: OnOk result (kept.new.items ≡ kept.old.items ++ given.now)
    /// ensures device: device self.new ≡ device self.old
    /// ensures failed: has_failed self.new ≡ has_failed self.old
    /// ensures ended: has_ended self.new ≡ has_ended self.old
    /// ensures late: was_used_late self.new ≡ was_used_late self.old
    /// ensures room: lacks_room self.new ≡ (lacks_room self.old || is_err result)
    /// ensures no_room: was_read_without_room self.new ≡ was_read_without_room self.old
    /// ```
    /// [How to read it](ndarray_layout::contracts)
    /// </details>
    pub(super) fn keep(&mut self, kept: &mut Vec<u8>, given: &[u8]) -> Result<(), AllocError> {
        let outcome = kept.fallible_extend_from_slice(given);
        self.lacks_room = self.lacks_room || outcome.is_err();
        outcome
    }

    /// The device, as its last call left it.
    ///
    /// <details><summary>Contract (proved)</summary>
    ///
    /// ```text
    /// ensures result ≡ device self
    /// ```
    /// [How to read it](ndarray_layout::contracts)
    /// </details>
    pub fn into_inner(self) -> T {
        self.inner
    }
}

impl<R: Read> Watched<R> {
    /// Reads as the device does.
    ///
    /// Errors: those of the device; it has failed then.
    ///
    /// # Conditions
    ///
    /// The caller ensures that no read or write of it has failed before. Otherwise this call or a later one panics or
    /// returns unspecified values.
    ///
    /// <details><summary>Contract (proved)</summary>
    ///
    /// ```text
    /// requires has_failed self.old ≡ false
    /// ensures bound: ReadsAtMost result buf.new
    /// ensures bytes: ReadConsumes (R.remaining (device self.old)) (R.remaining (device self.new)) result buf.new
    /// ensures failed: has_failed self.new ≡ is_err result
    /// ensures ended: has_ended self.new ≡ (has_ended self.old || is_end result buf.new)
    /// ensures in_time: IsReadInTime self.old self.new
    /// ensures room: lacks_room self.new ≡ lacks_room self.old
    /// ```
    /// [How to read it](ndarray_layout::contracts)
    /// </details>
    pub(super) fn read_on(&mut self, buf: &mut [u8]) -> io::Result<usize> {
        self.read(buf)
    }
}

impl<W: Write> Watched<W> {
    /// Writes as the device does.
    ///
    /// Errors: those of the device; it has failed then, and where it took no byte of a piece that has
    /// some.
    ///
    /// # Conditions
    ///
    /// The caller ensures that no read or write of it has failed before. Otherwise this call or a later one panics or
    /// returns unspecified values.
    ///
    /// <details><summary>Contract (proved)</summary>
    ///
    /// ```text
    /// requires has_failed self.old ≡ false
    /// ensures bound: WritesAtMost result buf.now
    /// ensures bytes: WriteAppends (W.contents (device self.old)) (W.contents (device self.new)) result buf.now
    /// ensures failed: has_failed self.new ≡ is_failed_write result buf.now
    /// ensures in_time: IsWrittenInTime self.old self.new
    /// ```
    /// [How to read it](ndarray_layout::contracts)
    /// </details>
    pub(super) fn write_on(&mut self, buf: &[u8]) -> io::Result<usize> {
        self.write(buf)
    }
}

impl<R: Read> Read for Watched<R> {
    fn read(&mut self, buf: &mut [u8]) -> io::Result<usize> {
        self.used_late = self.used_late || self.failed || self.ended;
        self.read_without_room = self.read_without_room || self.lacks_room;
        let outcome = self.inner.read(buf);
        let is_end = match &outcome {
            Ok(given) => *given == 0 && !buf.is_empty(),
            Err(_) => false,
        };
        self.failed = self.failed || outcome.is_err();
        self.ended = self.ended || is_end;
        outcome
    }
}

impl<W: Write> Write for Watched<W> {
    fn write(&mut self, buf: &[u8]) -> io::Result<usize> {
        self.used_late = self.used_late || self.failed;
        let outcome = self.inner.write(buf);
        let is_failed = match &outcome {
            Ok(taken) => *taken == 0 && !buf.is_empty(),
            Err(_) => true,
        };
        self.failed = self.failed || is_failed;
        outcome
    }

    fn flush(&mut self) -> io::Result<()> {
        self.used_late = self.used_late || self.failed;
        self.inner.flush()
    }
}
