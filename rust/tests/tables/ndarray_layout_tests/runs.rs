// Made by `rust/erase` of `crates/ndarray_layout_tests/src/runs.rt`: edit that.
//! Runs of steps from the view of a layout, and where they stop.

use crate::ndarray_layout_tests::views::{is_left, is_told, view};
use crate::test_tables::{Reading, Words, layout_fault_name, meaning};
use ::ndarray_layout::memory::prelude::{FallibleVec, Vec};
use ::ndarray_layout::{Axis, Fit, Order, Step, run};
use Fit::{Clamp, Strict};
use Order::{ColumnMajor, RowMajor};

/// A kind of step, and what stands after its word.
#[derive(Clone, Copy)]
enum Kind {
    /// `ARGUMENT`.
    Slice(Fit),
    /// `AXIS INDEX`.
    Collapse,
    /// `TAKE INTO`.
    Merge,
    /// `SHAPE`.
    Reshape(Order),
    /// `SHAPE`.
    Broadcast,
}

static KINDS: [(&str, Kind); 7] = [
    ("slice", Kind::Slice(Strict)),
    ("clamp", Kind::Slice(Clamp)),
    ("collapse", Kind::Collapse),
    ("merge", Kind::Merge),
    ("reshape_C", Kind::Reshape(RowMajor)),
    ("reshape_F", Kind::Reshape(ColumnMajor)),
    ("broadcast", Kind::Broadcast),
];

/// The step of a word and of those after it.
fn step(word: &str, words: &mut Words<'_>) -> Option<Step> {
    Some(match meaning(&KINDS, word)? {
        Kind::Slice(fit) => Step::Slice(words.elems()?, fit),
        Kind::Collapse => Step::Collapse(Axis(words.length()?), words.length()?),
        Kind::Merge => Step::Merge(Axis(words.length()?), Axis(words.length()?)),
        Kind::Reshape(order) => Step::Reshape(words.dim()?, order),
        Kind::Broadcast => Step::Broadcast(words.dim()?),
    })
}

/// The steps of all words that are left.
fn steps(words: &mut Words<'_>) -> Option<Vec<Step>> {
    let mut steps = Vec::new();
    for _ in 0..u64::MAX {
        let Some(word) = words.word() else {
            break;
        };
        steps.fallible_push(step(word, words)?).ok()?;
    }
    Some(steps)
}

/// Whether a row of `run` holds: `LEN owned|read SHAPE STRIDES STEP .. => VIEW`, or how many steps were taken, the
/// fault, and the shape, the strides and the start of the view that they left.
pub fn run_holds(row: &mut Reading<'_>) -> Option<bool> {
    let view = view(&mut row.given)?.ok()?;
    let steps = steps(&mut row.given)?;
    match run(view, steps.as_slice()) {
        Ok(view) => Some(is_told(row, Ok(view))),
        Err(stopped) => {
            let is_named = row.answer.is_length(stopped.at) && row.answer.is(layout_fault_name(&stopped.fault));
            Some(is_named && is_left(row, &stopped.view))
        }
    }
}
