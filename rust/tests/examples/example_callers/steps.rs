// Made by `rust/erase` of `crates/example_callers/src/steps.rt`: edit that.
//! Several steps from one view to another: call by call, and as a list.

use ::ndarray_layout::{Axis, IxDyn, Lengths, ShapeError, Step, Stopped, Strided, run};

/// One plane of a stack of planes, its rows merged into one axis of pixels where one stride serves for all of them.
///
/// Axis 0 has the planes, axis 1 the rows, axis 2 the columns. Returns whether the rows are merged; else the view is
/// the plane with its rows.
///
/// Errors: `OutOfBounds` where there is no such plane; the view is unchanged. Then `OutOfBounds` where there is no axis 1
/// or 2; the view is the plane.
///
/// <details><summary>Contract (proved)</summary>
///
/// ```text
/// ensures fault: result_err result ≡ option_or (collapse_fault stack.old.shape 0 plane)
///     (axes_fault (collapse_of 0 plane stack.old).shape 1 2)
/// ensures flat: IfOk result (λ merged. stack.new ≡ (if merged
///     then merge_of 1 2 (collapse_of 0 plane stack.old)
///     else collapse_of 0 plane stack.old))
/// ```
/// [How to read it](ndarray_layout::contracts)
/// </details>
pub fn flat_plane<D: Lengths>(stack: &mut Strided<D>, plane: usize) -> Result<bool, ShapeError> {
    stack.collapse(Axis(0), plane)?;
    stack.merge(Axis(1), Axis(2))
}

/// The same as a list of steps: a plane whose rows can't be merged ends the run with `IncompatibleLayout`, and the view
/// that the steps before left comes with the error. Neither step asks for memory.
///
/// <details><summary>Contract (proved)</summary>
///
/// ```text
/// ensures left: IfOk result (Leave (CollapseTo 0 plane ∷ MergeInto 1 2 ∷ []) stack)
/// ensures stopped: IfErr result (λ stop. StopsAt (CollapseTo 0 plane ∷ MergeInto 1 2 ∷ []) stack
///     stop.at stop.fault stop.view)
/// ensures memory: (run_of (CollapseTo 0 plane ∷ MergeInto 1 2 ∷ []) stack).fault ≡ None → IsOk result
/// ```
/// [How to read it](ndarray_layout::contracts)
/// </details>
pub fn flat_plane_by_steps(stack: Strided<IxDyn>, plane: usize) -> Result<Strided<IxDyn>, Stopped> {
    let steps = [Step::Collapse(Axis(0), plane), Step::Merge(Axis(1), Axis(2))];
    run(stack, &steps)
}
