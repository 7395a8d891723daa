//! Dimensions, and layouts by their lengths and strides: rows of their calls, and what no row can say.

mod builders;
mod calls;
mod dims;
mod indexing;
mod indices;
mod layouts;
mod lists;
mod memory;
mod ndarray;
mod operators;
mod rows;
mod texts;
pub mod values;
