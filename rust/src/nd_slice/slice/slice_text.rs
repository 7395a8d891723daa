// Made by `rust/erase` of `crates/nd_slice/src/slice/slice_text.rt`: edit that.
//! How slices print.

use super::Slice;
use core::fmt;

/// Writes a start, unless it is 0.
///
/// <details><summary>Contract (proved)</summary>
///
/// ```text
/// ensures DisplaysOnOk W.write_str_gives f.old result (Some (start_text start)) f.new
/// ```
/// [How to read it](crate::contracts)
/// </details>
#[inline]
fn write_start(start: isize, f: &mut fmt::Formatter<'_>) -> fmt::Result {
    if start == 0 {
        return Ok(());
    }
    crate::fallible_write!(f, "{start}")
}

/// Writes an end, if there is one.
///
/// <details><summary>Contract (proved)</summary>
///
/// ```text
/// ensures DisplaysOnOk W.write_str_gives f.old result (Some (end_text end)) f.new
/// ```
/// [How to read it](crate::contracts)
/// </details>
#[inline]
fn write_end(end: Option<isize>, f: &mut fmt::Formatter<'_>) -> fmt::Result {
    match end {
        Some(end) => crate::fallible_write!(f, "{end}"),
        None => Ok(()),
    }
}

/// Writes `;` and a step, unless it is 1.
///
/// <details><summary>Contract (proved)</summary>
///
/// ```text
/// ensures DisplaysOnOk W.write_str_gives f.old result (Some (step_text step)) f.new
/// ```
/// [How to read it](crate::contracts)
/// </details>
#[inline]
fn write_step(step: isize, f: &mut fmt::Formatter<'_>) -> fmt::Result {
    if step == 1 {
        return Ok(());
    }
    crate::fallible_write!(f, ";{step}")
}

/// Prints the start unless it is 0, `..`, the end if there is one, then `;` and the step unless it is 1.
impl fmt::Display for Slice {
    #[inline]
    fn fmt(&self, f: &mut fmt::Formatter<'_>) -> fmt::Result {
        write_start(self.start, f)?;
        f.write_str("..")?;
        write_end(self.end, f)?;
        write_step(self.step, f)
    }
}
