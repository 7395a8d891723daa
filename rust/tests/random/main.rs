//! 100,000 random calls of each function beside a model, for `IxDyn` and for the type that fixes the count of axes.
//!
//! The model is the rules of `docs/RULES.md` once more, in plain Rust over `i128`.

mod arguments;
mod compare;
mod layouts;
mod model;
mod numbers;
mod owned;
mod shapes;
mod slices;
mod types;
mod worked;
