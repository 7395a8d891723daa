//! Rows and values that the crates of tests leave to the package, whose sources are the same.

mod shapes;
mod slices;
mod table;
mod views;
