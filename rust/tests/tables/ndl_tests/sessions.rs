// Made by `rust/erase` of `crates/ndl_tests/src/sessions.rt`: edit that.
//! Whole sessions, as rows tell them: `session SCRIPT => TEXT`. A `|` stands for a line feed, and `{3*ab}` for `ababab`.

use crate::ndl_session::{Watched, session};
use crate::test_tables::{Asked, Row};
use ::ndarray_layout::memory::prelude::{FallibleStr, FallibleString, String, Vec};

/// Whether a session over a script writes this text, and ends with the status that goes with it.
pub(crate) fn answers(script: &[u8], text: &str) -> bool {
    let mut reader = Watched::new(script);
    let mut writer = Watched::new(Vec::new());
    let status = session(&mut reader, &mut writer);
    writer.into_inner().as_slice() == text.as_bytes() && status == status_of(text)
}

/// The status that goes with a text: that of a list, of a step that fails, of a line that can't be read, or of a failed
/// allocation.
pub(crate) fn status_of(text: &str) -> u8 {
    let first = text.split_once(" ").unwrap_or((text, "")).0;
    match first {
        "shape" => 0,
        "step" => 1,
        "line" => 2,
        _ => 3,
    }
}

/// Appends a piece as often as the number before it says; `None` where there is no number, or an allocation fails.
fn push_repeated(whole: &mut String, piece: &str) -> Option<()> {
    let (count, piece) = piece.split_once("*")?;
    let count: usize = count.parse().ok()?;
    for _ in 0..count {
        whole.fallible_push_str(piece).ok()?;
    }
    Some(())
}

/// Appends the text that a row's text stands for, but for its line feeds.
fn push_whole(whole: &mut String, text: &str) -> Option<()> {
    for part in text.split("}") {
        match part.split_once("{") {
            Some((plain, piece)) => {
                whole.fallible_push_str(plain).ok()?;
                push_repeated(whole, piece)?;
            }
            None => whole.fallible_push_str(part).ok()?,
        }
    }
    Some(())
}

/// The text that a row's text stands for.
pub(crate) fn written_out(text: &str) -> Option<String> {
    let mut whole = String::new();
    push_whole(&mut whole, text)?;
    whole.as_str().fallible_replace("|", "\n").ok()
}

/// Whether a row's script has its answer.
pub(crate) struct Sessions;

impl Asked for Sessions {
    fn holds(&self, row: &Row<'_>) -> Option<bool> {
        if row.call != "session" {
            return None;
        }
        let script = written_out(row.given)?;
        let text = written_out(row.answer)?;
        Some(answers(script.as_bytes(), text.as_str()))
    }
}
