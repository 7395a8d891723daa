//! Generic functions as ndarray's users write them: `D: Dimension` alone says all that they do.

mod copies;
mod types;
mod views;

use ndarray_layout::{Dimension, Ix0, Ix1, Ix2, Ix3, Ix4, Ix5, Ix6, IxDyn};

/// A call of a generic function, by which each dimension type is tried.
trait OfAny {
    fn call<D: Dimension + 'static>(&self, shape: D);
}

/// Calls a function for shapes of each type, with the lengths 2, 3 and so on.
fn for_each_type(of: &impl OfAny) {
    of.call(Ix0());
    of.call(Ix1(2));
    of.call(Ix2(2, 3));
    of.call(Ix3(2, 3, 4));
    of.call(Ix4(2, 3, 4, 5));
    of.call(Ix5(2, 3, 4, 5, 6));
    of.call(Ix6(2, 3, 4, 5, 6, 7));
    for count in 0..7 {
        of.call(IxDyn(&[2, 3, 4, 5, 6, 7][..count]));
    }
}
