// Made by `rust/erase` of `crates/ndl_session/src/answer.rt`: edit that.
//! The answer to a whole input: its text and its status.

use crate::ndl_session::script::{ReadError, Script, read_script};
use crate::ndl_session::text::printing::{push_line, push_places};
use ::ndarray_layout::memory::AllocError;
use ::ndarray_layout::memory::prelude::Vec;
use ::ndarray_layout::{IxDyn, LayoutError, Order, ShapeError, Step, Strided, run};

/// A whole text and the exit status that goes with it.
pub(crate) struct Answer {
    /// The text.
    pub(crate) text: Vec<u8>,
    /// 0 where every step was taken, 1 where the layout or a step returned an error, 2 where a line can't
    /// be read.
    pub(crate) status: u8,
}

/// The answer to an input: the list of the view that is left, the error of the first step that returned
/// one, or the first line that can't be read.
///
/// Errors: out of memory.
///
/// <details><summary>Contract (proved)</summary>
///
/// ```text
/// ensures reply: IfOk result (λ answer. IsReply answer (answer_of input.now))
/// ensures small: IfOk result (λ answer. answer.status ≤ 2)
/// ```
/// [How to read it](ndarray_layout::contracts)
/// </details>
pub(crate) fn answer_to(input: &[u8]) -> Result<Answer, AllocError> {
    match read_script(input) {
        Ok(script) => answer_to_script(script),
        Err(ReadError::Unreadable(line)) => unreadable(line),
        Err(ReadError::Memory) => Err(AllocError),
    }
}

/// The answer where a line can't be read.
///
/// <details><summary>Contract (proved)</summary>
///
/// ```text
/// ensures IfOk result (λ answer. IsReply answer (unreadable_reply line))
/// ```
/// [How to read it](ndarray_layout::contracts)
/// </details>
fn unreadable(line: usize) -> Result<Answer, AllocError> {
    Ok(Answer { text: ::ndarray_layout::fallible_format!("line {line}: unreadable\n")?.into_bytes(), status: 2 })
}

/// The answer where a step returned an error: 0 is the layout, and the steps after it count from 1.
///
/// <details><summary>Contract (proved)</summary>
///
/// ```text
/// ensures IfOk result (λ answer. IsReply answer (reply_to_fault step fault.now))
/// ```
/// [How to read it](ndarray_layout::contracts)
/// </details>
fn step_failed(step: usize, fault: &ShapeError) -> Result<Answer, AllocError> {
    Ok(Answer { text: ::ndarray_layout::fallible_format!("step {step}: {fault}\n")?.into_bytes(), status: 1 })
}

/// The answer to a script: the layout first, and then the steps.
///
/// <details><summary>Contract (proved)</summary>
///
/// ```text
/// ensures IfOk result (λ answer. IsReply answer (reply_to_script (script_value script)))
/// ```
/// [How to read it](ndarray_layout::contracts)
/// </details>
fn answer_to_script(script: Script) -> Result<Answer, AllocError> {
    let Script { layout, steps } = script;
    match Strided::new(layout.shape, layout.strides, 1, layout.len, layout.mode) {
        Ok(view) => answer_to_steps(view, &steps),
        Err(fault) => step_failed(0, &fault),
    }
}

/// The answer to steps from a view.
///
/// <details><summary>Contract (proved)</summary>
///
/// ```text
/// ensures IfOk result (λ answer. IsReply answer (reply_to_steps (map step_value steps.now) view))
/// ```
/// [How to read it](ndarray_layout::contracts)
/// </details>
fn answer_to_steps(view: Strided<IxDyn>, steps: &[Step]) -> Result<Answer, AllocError> {
    match run(view, steps) {
        Ok(view) => list(&view),
        Err(stopped) => match &stopped.fault {
            LayoutError::Shape(fault) => step_failed(stopped.at + 1, fault),
            LayoutError::Memory(_) => Err(AllocError),
        },
    }
}

/// The answer that lists a view.
///
/// <details><summary>Contract (proved)</summary>
///
/// ```text
/// ensures IfOk result (λ answer. IsReply answer (listing view.now))
/// ```
/// [How to read it](ndarray_layout::contracts)
/// </details>
fn list(view: &Strided<IxDyn>) -> Result<Answer, AllocError> {
    let mut text = Vec::new();
    let lens = view.axes().map(|axis| axis.len);
    let strides = view.axes().map(|axis| axis.stride);
    push_line(&mut text, "shape", ",", lens)?;
    push_line(&mut text, "strides", ",", strides)?;
    // (the list is asked for first: where there are too many places for it, nothing is written in vain)
    let places = view.places(Order::RowMajor)?;
    push_places(&mut text, places.iter().copied())?;
    Ok(Answer { text, status: 0 })
}
