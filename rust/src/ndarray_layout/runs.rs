// Made by `rust/erase` of `crates/ndarray_layout/src/runs.rt`: edit that.
//! Steps from one view to the next, and runs of them.

use crate::memory::prelude::Vec;
use crate::nd_base::{Axis, ErrorKind, IxDyn, LayoutError, Order, ShapeError, from_kind};
use crate::nd_slice::{Fit, SliceInfoElem};
use crate::ndarray_layout::strided::Strided;

/// A step from one view to the next. The project's own.
#[derive(Debug)]
pub enum Step {
    /// The slice by these elements, and what becomes of a bound past its axis: `Strided::slice`.
    Slice(Vec<SliceInfoElem>, Fit),
    /// One coordinate of an axis: `Strided::collapse`.
    Collapse(Axis, usize),
    /// The first axis merged into the second: `Strided::merge`.
    Merge(Axis, Axis),
    /// The places of the view in an order, along another shape: `Strided::reshape`.
    Reshape(IxDyn, Order),
    /// The view as one of a shape: `Strided::broadcast`.
    Broadcast(IxDyn),
}

/// The error of a run: the step that was not taken, why, and the view that the steps before it
/// left. The project's own.
#[derive(Debug, Clone)]
pub struct Stopped {
    /// How many steps were taken, which is the number of the one that was not, from 0 on.
    pub at: usize,
    /// Why it was not.
    pub fault: LayoutError,
    /// The view that the steps before it left.
    pub view: Strided<IxDyn>,
}

/// Merges an axis into another one. Errors: those of `Strided::merge`, then `IncompatibleLayout`
/// where no stride serves for the coordinates of both; the view is unchanged.
///
/// <details><summary>Contract (proved)</summary>
///
/// ```text
/// ensures fault: result_err result ≡ merge_fault take.0 into.0 view.old
/// ensures unchanged: OnErr result (view.new ≡ view.old)
/// ensures merged: OnOk result (view.new ≡ merge_of take.0 into.0 view.old)
/// ```
/// [How to read it](crate::contracts)
/// </details>
#[inline]
fn merge_axes_of(view: &mut Strided<IxDyn>, take: Axis, into: Axis) -> Result<(), ShapeError> {
    if view.merge(take, into)? { Ok(()) } else { Err(from_kind(ErrorKind::IncompatibleLayout)) }
}

/// Puts the view that a step makes in the place of the one before it.
///
/// <details><summary>Contract (proved)</summary>
///
/// ```text
/// ensures view.new ≡ next
/// ```
/// [How to read it](crate::contracts)
/// </details>
#[inline(always)]
fn step_to(view: &mut Strided<IxDyn>, next: Strided<IxDyn>) {
    *view = next;
}

/// Takes one step. After an error the view is unchanged.
///
/// Errors: why the step is not taken; never out of memory where it leaves at most 4 axes.
///
/// # Conditions
///
/// The caller ensures that the view is one. Otherwise this call or a later one panics or returns unspecified values.
///
/// <details><summary>Contract (proved)</summary>
///
/// ```text
/// requires IsView view.old
/// ensures fits: OnOk result ((rule_of (step_value step.now)).fault view.old ≡ None)
/// ensures fault: IfErr result (λ e. IsStepError (rule_of (step_value step.now)) view.old e)
/// ensures unchanged: OnErr result (view.new ≡ view.old)
/// ensures taken: OnOk result (view.new ≡ (rule_of (step_value step.now)).view view.old)
/// ensures memory: (rule_of (step_value step.now)).fault view.old ≡ None →
///     may_want_memory (rule_of (step_value step.now)) ≡ false → IsOk result
/// ```
/// [How to read it](crate::contracts)
/// </details>
#[inline]
fn take_step(view: &mut Strided<IxDyn>, step: &Step) -> Result<(), LayoutError> {
    match step {
        Step::Slice(elems, fit) => {
            let sliced = view.slice(elems, *fit)?;
            step_to(view, sliced);
            Ok(())
        }
        Step::Collapse(axis, index) => Ok(view.collapse(*axis, *index)?),
        Step::Merge(take, into) => Ok(merge_axes_of(view, *take, *into)?),
        Step::Reshape(dim, order) => {
            let reshaped = view.reshape(dim, *order)?;
            step_to(view, reshaped);
            Ok(())
        }
        Step::Broadcast(dim) => {
            let stretched = view.broadcast(dim)?;
            step_to(view, stretched);
            Ok(())
        }
    }
}

/// The view that steps leave, each taken from the view that the one before it left.
///
/// The first step with an error ends the run, and the view that the steps before it left comes with
/// the error. Either view is in bounds of whatever data the first one is in bounds of. Where no two
/// indices of the first one alias, no two of it do, unless a step that was taken is a broadcast.
///
/// Each step takes time in proportion to the count of axes, of elements of its slice or of lengths
/// of its shape.
///
/// Coordinate 1 of axis 0, then axis 0 into axis 1, of `[2,3]`, `[3,1]` from 0: `[1,3]`, `[3,1]`
/// from 3. The project's own.
///
/// # Errors
///
/// Of a slice, a reshape and a broadcast those of `Strided::slice`, `Strided::reshape` and
/// `Strided::broadcast`; of a collapse `OutOfBounds` where there is no such axis or coordinate; of
/// a merge `OutOfBounds` where an axis is missing, then `Unsupported` for one axis twice, then
/// `IncompatibleLayout` where no stride serves for the coordinates of both. Out of memory comes
/// last, in a reshape before the error of its strides, and never where the step leaves at most 4
/// axes.
///
/// # Examples
///
/// ```
/// use ndarray_layout::{Axis, CanIndexCheckMode, Ix2, IxDyn, Step, Strided, run};
///
/// # fn main() -> Result<(), Box<dyn std::error::Error>> {
/// let whole = Strided::new(Ix2(2, 3), Ix2(3, 1), 1, 6, CanIndexCheckMode::ReadOnly)?.into_dyn();
/// let steps = [Step::Collapse(Axis(0), 1), Step::Merge(Axis(0), Axis(1))];
/// let left = run(whole.clone(), &steps)?;
/// assert_eq!((left.start(), left.dim(), left.strides()), (3, &IxDyn(&[1, 3]), &IxDyn(&[3, 1])));
/// let stopped = run(whole, &[Step::Collapse(Axis(0), 1), Step::Collapse(Axis(0), 1)]);
/// assert_eq!(stopped.map_err(|stopped| (stopped.at, stopped.view)), Err((1, left)));
/// # Ok(())
/// # }
/// ```
///
/// <details><summary>Contract (proved)</summary>
///
/// ```text
/// ensures left: IfOk result (λ v. Leave (map step_value steps.now) view v)
/// ensures stopped: IfErr result (λ s. StopsAt (map step_value steps.now) view s.at s.fault s.view)
/// ensures memory: (run_of (map step_value steps.now) view).fault ≡ None →
///     NeedNoMemory (map step_value steps.now) → IsOk result
/// ```
/// [How to read it](crate::contracts)
/// </details>
#[inline]
pub fn run(view: Strided<IxDyn>, steps: &[Step]) -> Result<Strided<IxDyn>, Stopped> {
    // Says to the proof that the view given is one, which is known of a value of the type only where a method returns.
    let _start = view.start();
    let mut view = view;
    for (at, step) in steps.iter().enumerate() {
        if let Err(fault) = take_step(&mut view, step) {
            return Err(Stopped { at, fault, view });
        }
    }
    Ok(view)
}
