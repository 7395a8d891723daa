// Made by `rust/erase` of `crates/test_tables/src/types.rt`: edit that.
//! Questions that are asked at dimension types.
//!
//! Each type is named in this one place, since the check takes seconds for each function that names one.

use ::ndarray_layout::nd_base::{Ix0, Ix1, Ix2, Ix3, Ix4, Ix5, Ix6, IxDyn, Lengths};

/// What can be asked at any dimension type.
pub trait AtType {
    /// Whether it holds at the type `D`; `None` where its row can't be read there.
    fn at<D: Lengths>(self) -> Option<bool>
    where
        Self: Sized;
}

/// Whether it holds at the type that fixes so many axes, or, where none does, at that of any number.
pub fn at_type<A: AtType>(ndim: Option<usize>, asked: A) -> Option<bool> {
    match ndim {
        Some(0) => asked.at::<Ix0>(),
        Some(1) => asked.at::<Ix1>(),
        Some(2) => asked.at::<Ix2>(),
        Some(3) => asked.at::<Ix3>(),
        Some(4) => asked.at::<Ix4>(),
        Some(5) => asked.at::<Ix5>(),
        Some(6) => asked.at::<Ix6>(),
        _ => asked.at::<IxDyn>(),
    }
}

/// Whether it holds at each type of so many axes: the one that fixes them, if there is one, and that of any number.
pub fn at_each_type<A: AtType + Copy>(count: usize, asked: A) -> Option<bool> {
    Some(at_type(Some(count), asked)? && at_type(None, asked)?)
}
