//! The crates of tests, over the package.

mod nd_shape_tests;
mod nd_slice_tests;
mod ndarray_layout_tests;
#[path = "../../programs/ndl_session/mod.rs"]
mod ndl_session;
mod ndl_tests;
mod test_tables;
