// Made by `rust/erase` of `crates/ndl_tests/src/fakes.rt`: edit that.
//! A reader and a writer for tests, over bytes in memory, with one call that goes wrong.

use ::ndarray_layout::memory::prelude::Vec;
use std::io;
use std::io::ErrorKind;
use std::io::Read;
use std::io::Write;

/// How a call goes wrong.
#[derive(Clone, Copy)]
pub(crate) enum Fault {
    /// It answers an error.
    Error(ErrorKind),
    /// It takes or gives no byte.
    Nothing,
}

impl Fault {
    fn outcome(self) -> io::Result<usize> {
        match self {
            Fault::Error(kind) => Err(io::Error::from(kind)),
            Fault::Nothing => Ok(0),
        }
    }
}

/// The call that goes wrong, counted from 0, and how it does.
pub(crate) type FaultyCall = Option<(usize, Fault)>;

/// Bytes that are left to read, or that were written. It moves `most` bytes a call at the most, but for the call that goes wrong.
pub(crate) struct Fake<T> {
    pub(crate) bytes: T,
    most: usize,
    pub(crate) calls: usize,
    fault: FaultyCall,
}

impl<T> Fake<T> {
    /// Over these bytes, with no call so far.
    pub(crate) fn new(bytes: T, most: usize, fault: FaultyCall) -> Self {
        Fake { bytes, most, calls: 0, fault }
    }

    /// Counts a call, and answers how it goes wrong, if it does.
    fn next_fault(&mut self) -> Option<Fault> {
        let call = self.calls;
        self.calls = call.saturating_add(1);
        match self.fault {
            Some((at, fault)) if at == call => Some(fault),
            _ => None,
        }
    }
}

impl Read for Fake<&[u8]> {
    fn read(&mut self, buf: &mut [u8]) -> io::Result<usize> {
        if let Some(fault) = self.next_fault() {
            return fault.outcome();
        }
        let most = self.most.min(buf.len());
        self.bytes.read(&mut buf[..most])
    }
}

impl Write for Fake<Vec<u8>> {
    fn write(&mut self, buf: &[u8]) -> io::Result<usize> {
        if let Some(fault) = self.next_fault() {
            return fault.outcome();
        }
        let most = self.most.min(buf.len());
        self.bytes.write(&buf[..most])
    }

    /// A call too, which always answers an error.
    fn flush(&mut self) -> io::Result<()> {
        self.calls = self.calls.saturating_add(1);
        Err(io::Error::from(ErrorKind::BrokenPipe))
    }
}
