// Made by `rust/erase` of `crates/nd_slice_tests/src/lib.rt`: edit that.
//! Tests of `nd_slice`, by its public calls: the worked rows, all slices of short axes compared coordinate by coordinate, and
//! numbers under them over whole ranges. Further rows are in `rust/tests/rows/slices`, where nothing is proved of a test.

#![allow(unused_imports, unused_variables, reason = "a name that only clauses use")]
#![allow(unused_labels, reason = "proofs name a loop by its label")]
#![allow(
    clippy::explicit_auto_deref,
    clippy::manual_find,
    clippy::manual_map,
    clippy::needless_range_loop,
    clippy::non_canonical_clone_impl,
    clippy::redundant_closure,
    clippy::while_let_on_iterator,
    reason = "a form that is proved with less"
)]
#![allow(clippy::unused_unit, reason = "what the kit has no form for")]
#![allow(clippy::len_without_is_empty, reason = "a sequence is never asked whether it is empty")]
#![allow(clippy::should_implement_trait, reason = "the package has the trait beside what is proved")]
#![allow(clippy::type_complexity, reason = "what comes with its index is lent")]
#![allow(dead_code, reason = "what one test or program calls, and not each")]
#![allow(clippy::incompatible_msrv, reason = "what the package's least rustc hasn't: programs and tests aren't packed")]
#![allow(
    clippy::collapsible_if,
    clippy::needless_lifetimes,
    clippy::question_mark,
    clippy::redundant_pattern_matching,
    reason = "a form that is proved with less"
)]
#![allow(
    clippy::comparison_to_empty,
    clippy::partialeq_to_none,
    clippy::unwrap_or_default,
    reason = "what the kit has no form for"
)]
#![allow(
    clippy::len_zero,
    clippy::reversed_empty_ranges,
    clippy::unit_cmp,
    mismatched_lifetime_syntaxes,
    reason = "what a test is about"
)]

#[cfg(test)]
mod arguments;
#[cfg(test)]
mod axis;
#[cfg(test)]
mod calls;
#[cfg(test)]
mod equations;
#[cfg(test)]
mod rows;
#[cfg(test)]
mod twin;
#[cfg(test)]
mod values;
