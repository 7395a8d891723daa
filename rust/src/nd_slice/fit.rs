// Made by `rust/erase` of `crates/nd_slice/src/fit.rt`: edit that.
//! What becomes of a bound that lies outside its axis.

/// What happens to a bound of a range that means no number from 0 to the length of its axis. An
/// index of one coordinate is never moved. The project's own.
#[derive(Clone, Copy, PartialEq, Eq, Debug)]
pub enum Fit {
    /// The bound is an error.
    Strict,
    /// The bound is moved to the nearer end of the axis: to 0 or to the length.
    Clamp,
}
