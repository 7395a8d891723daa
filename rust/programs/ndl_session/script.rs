// Made by `rust/erase` of `crates/ndl_session/src/script.rt`: edit that.
//! Reads a whole script.

use ::ndarray_layout::memory::prelude::{FallibleVec, Vec};

pub(crate) mod data_line;
mod elements;
mod lists;
mod step_line;

use crate::ndl_session::script::data_line::{DataLayout, read_layout};
use crate::ndl_session::script::step_line::read_step;
use crate::ndl_session::text::lines::next_line;
use ::ndarray_layout::Step;
use ::ndarray_layout::memory::AllocError;
use ::ndarray_layout::memory::AllocFailed;

/// A layout, and the steps to take from it, in order.
pub struct Script {
    /// The layout that the first line makes.
    pub layout: DataLayout,
    /// The steps that the lines after it ask for.
    pub steps: Vec<Step>,
}

/// Why a script could not be read.
#[derive(Debug)]
pub enum ReadError {
    /// The number of the first line that isn't of the grammar, from 1 on.
    Unreadable(usize),
    /// Out of memory.
    Memory,
}

impl From<AllocError> for ReadError {
    fn from(_error: AllocError) -> Self {
        ReadError::Memory
    }
}

impl<T: Sized> From<AllocFailed<T>> for ReadError {
    fn from(_error: AllocFailed<T>) -> Self {
        ReadError::Memory
    }
}

/// The steps that follow a layout. The number given is that of the first line of the text.
///
/// <details><summary>Contract (proved)</summary>
///
/// ```text
/// requires number + length text.now < 2 ^ 64
/// ensures Gives (λ v. map step_value v.items) result (steps_of_lines (lines_from number text.now))
/// ```
/// [How to read it](ndarray_layout::contracts)
/// </details>
fn read_steps(text: &[u8], number: usize) -> Result<Vec<Step>, ReadError> {
    let mut steps = Vec::new();
    let mut rest = text;
    let mut number = number;
    while let Some(line) = next_line(rest, number)? {
        let Some(step) = read_step(&line.words)? else {
            return Err(ReadError::Unreadable(line.number));
        };
        steps.fallible_push(step)?;
        rest = line.rest;
        number = line.number + 1;
    }
    Ok(steps)
}

/// The script that an input spells.
///
/// All of it is read before any of it is used: one line that can't be read makes the whole unreadable. The text
/// of a script is read as that script, whatever its numbers are.
///
/// Takes time and memory in proportion to the length of the input.
///
/// The lines `data 4 owned 4 1` and `slise ..`: `Unreadable(2)`. The project's own.
///
/// # Errors
///
/// `Unreadable` with the number of the first line that can't be read, or 1 where no line has a word; out of memory.
///
/// <details><summary>Contract (proved)</summary>
///
/// ```text
/// ensures read: Gives script_value result (script_of input.now)
/// ensures printed: (script : ScriptValue) → IsScript script → input.now ≡ script_text script
///     → Gives script_value result (Ok script)
/// ```
/// [How to read it](ndarray_layout::contracts)
/// </details>
pub fn read_script(input: &[u8]) -> Result<Script, ReadError> {
    let Some(line) = next_line(input, 1)? else {
        return Err(ReadError::Unreadable(1));
    };
    let Some(layout) = read_layout(&line.words)? else {
        return Err(ReadError::Unreadable(line.number));
    };
    let steps = read_steps(line.rest, line.number + 1)?;
    Ok(Script { layout, steps })
}
