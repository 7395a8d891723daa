// Made by `rust/erase` of `crates/test_tables/src/slices.rt`: edit that.
//! Slice elements as words of a row.

use crate::test_tables::row::Words;
use ::ndarray_layout::memory::prelude::{FallibleVec, Vec};
use ::ndarray_layout::nd_slice::SliceInfoElem;
use SliceInfoElem::{Index, NewAxis, Slice};

/// The bound that a word spells; none where nothing is written.
fn bound(word: &str) -> Option<Option<isize>> {
    if word == "" {
        return Some(None);
    }
    Some(Some(word.parse().ok()?))
}

/// A range whose end and step stand after its dots.
fn range(start: &str, rest: &str) -> Option<SliceInfoElem> {
    let (end, step) = rest.split_once(";").unwrap_or((rest, "1"));
    Some(Slice { start: bound(start)?.unwrap_or(0), end: bound(end)?, step: step.parse().ok()? })
}

/// The element that a word spells: `3`, `1..`, `..4`, `1..;-2` or `NewAxis`.
fn spelled(word: &str) -> Option<SliceInfoElem> {
    if word == "NewAxis" {
        return Some(NewAxis);
    }
    match word.split_once("..") {
        Some((start, rest)) => range(start, rest),
        None => Some(Index(word.parse().ok()?)),
    }
}

impl Words<'_> {
    /// A slice element.
    pub fn elem(&mut self) -> Option<SliceInfoElem> {
        spelled(self.word()?)
    }

    /// Slice elements; `None` as well where an allocation fails.
    pub fn elems(&mut self) -> Option<Vec<SliceInfoElem>> {
        let word = self.word()?;
        let mut elems = Vec::new();
        for part in word.split(',') {
            if word != "-" {
                elems.fallible_push(spelled(part)?).ok()?;
            }
        }
        Some(elems)
    }
}
