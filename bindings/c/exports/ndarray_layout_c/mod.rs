// Made by `rust/erase` of `crates/ndarray_layout_c/src/lib.rt`: edit that.
//! The layer as C calls it: one export for each task, over lists and numbers alone. Each tests what the layer asks of its
//! callers, and returns a status; nothing is kept between calls. `bindings/c/ndarray_layout.h` declares them.
//!
//! A list of strides has the `usize` of the same bits as C's `ptrdiff_t` for each, as the layer keeps them.

#![allow(unused_imports, unused_variables, reason = "a name that only clauses use")]
#![allow(unused_labels, reason = "proofs name a loop by its label")]
#![allow(
    clippy::explicit_auto_deref,
    clippy::manual_find,
    clippy::manual_map,
    clippy::needless_range_loop,
    clippy::non_canonical_clone_impl,
    clippy::redundant_closure,
    clippy::while_let_on_iterator,
    reason = "a form that is proved with less"
)]
#![allow(clippy::unused_unit, reason = "what the kit has no form for")]
#![allow(clippy::len_without_is_empty, reason = "a sequence is never asked whether it is empty")]
#![allow(clippy::should_implement_trait, reason = "the package has the trait beside what is proved")]
#![allow(clippy::type_complexity, reason = "what comes with its index is lent")]

pub mod aliases;
pub mod arguments;
pub mod axis_reasons;
pub mod block_reasons;
pub mod blocks;
pub mod broadcast_reasons;
pub mod diagonals;
pub mod elements;
pub mod index_reasons;
pub mod indices;
pub mod intersections;
pub mod joined_layouts;
pub mod layout_reasons;
pub mod layouts;
pub mod lists;
pub mod permute_reasons;
pub mod reasons;
pub mod reshape_reasons;
pub mod rows;
pub mod shapes;
pub mod sizes;
pub mod slice_reasons;
pub mod slices;
pub mod splits;
pub mod status_texts;
pub mod statuses;
pub mod stretches;
pub mod version;
