// Made by `rust/erase` of `crates/ndarray_layout_tests/src/reshapes.rt`: edit that.
//! Reshapes of layouts.

use crate::test_tables::{Reading, layout_fault_name};
use ::ndarray_layout::{IxDyn, Lengths, Order, max_abs_offset_check_overflow, reshape_dim, size_of_shape_checked};

/// The strides of a reshape, or the fault as a word.
fn reshaped<D: Lengths, E: Lengths>(from: &D, strides: &D, to: &E, order: Order) -> Result<E, &'static str> {
    if from.slice().contains(&0) || to.slice().contains(&0) || size_of_shape_checked(to).is_err() {
        return Err("bad_shape");
    }
    if max_abs_offset_check_overflow(1, from, strides).is_err() {
        return Err("bad_layout");
    }
    match reshape_dim(from, strides, to, order) {
        Ok(others) => Ok(others),
        Err(fault) => Err(layout_fault_name(&fault)),
    }
}

/// Whether a row of `reshape_dim` holds, at the type of any number of axes.
pub fn reshape_holds(row: &mut Reading<'_>, order: Order) -> Option<bool> {
    let from: IxDyn = row.given.dim()?;
    let strides: IxDyn = row.given.dim()?;
    let to: IxDyn = row.given.dim()?;
    match reshaped(&from, &strides, &to, order) {
        Ok(others) => Some(row.answer.is_list(others.slice())),
        Err(fault) => Some(row.answer.is(fault)),
    }
}
