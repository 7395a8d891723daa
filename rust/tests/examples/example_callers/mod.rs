// Made by `rust/erase` of `crates/example_callers/src/lib.rt`: edit that.
//! Callers of the layout layer, one for each task, as docs/CALLING.md quotes them.

#![allow(unused_imports, unused_variables, reason = "a name that only clauses use")]
#![allow(unused_labels, reason = "proofs name a loop by its label")]
#![allow(
    clippy::explicit_auto_deref,
    clippy::manual_find,
    clippy::manual_map,
    clippy::needless_range_loop,
    clippy::non_canonical_clone_impl,
    clippy::redundant_closure,
    clippy::while_let_on_iterator,
    reason = "a form that is proved with less"
)]
#![allow(clippy::unused_unit, reason = "what the kit has no form for")]
#![allow(clippy::len_without_is_empty, reason = "a sequence is never asked whether it is empty")]
#![allow(clippy::should_implement_trait, reason = "the package has the trait beside what is proved")]
#![allow(clippy::type_complexity, reason = "what comes with its index is lent")]
#![allow(dead_code, reason = "what one test or program calls, and not each")]
#![allow(clippy::incompatible_msrv, reason = "what the package's least rustc hasn't: programs and tests aren't packed")]
#![allow(
    clippy::collapsible_if,
    clippy::needless_lifetimes,
    clippy::question_mark,
    clippy::redundant_pattern_matching,
    reason = "a form that is proved with less"
)]
#![allow(
    clippy::comparison_to_empty,
    clippy::partialeq_to_none,
    clippy::unwrap_or_default,
    reason = "what the kit has no form for"
)]
#![allow(
    clippy::len_zero,
    clippy::reversed_empty_ranges,
    clippy::unit_cmp,
    mismatched_lifetime_syntaxes,
    reason = "what a test is about"
)]

mod blurs;
mod broadcasts;
mod counts;
mod crops;
mod flips;
mod foreign;
mod histograms;
mod items;
mod lent;
mod lights;
mod parts;
mod pastes;
mod places;
mod reshapes;
mod rows;
mod scans;
mod slices;
mod steps;
mod sums;
mod tasks;
mod transposes;
mod writes;

pub use blurs::blur;
pub use broadcasts::on_common_shape;
pub use counts::count_bright;
pub use crops::{band, crop};
pub use flips::flip;
pub use foreign::from_bytes;
pub use histograms::histogram;
pub use items::count_dark_pixels;
pub use lent::{brighten, paint, paint_over, paint_owned, paint_part, paint_shape};
pub use lights::lighten;
pub use parts::separate_places;
pub use pastes::paste;
pub use places::{picture, pixel};
pub use reshapes::along_shape;
pub use rows::{grid, in_rows, in_shape};
pub use scans::count_dark;
pub use slices::{alternate_rows, pixels_of};
pub use steps::{flat_plane, flat_plane_by_steps};
pub use sums::transpose_sum;
pub use tasks::{brightest, darkest, is_brighter, is_darker, mirror, show_the_same, sum_of_crop};
pub use transposes::{pixel_across, transposed_part};
pub use writes::{with_two_parts, write_parts, write_two_parts};
