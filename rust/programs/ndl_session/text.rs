// Made by `rust/erase` of `crates/ndl_session/src/text.rt`: edit that.
//! Bytes as text: the lines of a script, their words, the numbers that these spell, and the lines of an answer.

mod digits;
pub(crate) mod lines;
pub(crate) mod numbers;
pub(crate) mod printing;
pub(crate) mod words;
