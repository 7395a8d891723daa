// Made by `rust/erase` of `crates/ndl_session/src/devices.rt`: edit that.
//! What a script comes from and an answer goes to: devices whose failures are remembered, and a session over two of them.

mod read_write;
pub(crate) mod session;
pub(crate) mod watched;
