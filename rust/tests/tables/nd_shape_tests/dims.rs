// Made by `rust/erase` of `crates/nd_shape_tests/src/dims.rt`: edit that.
//! The calls of a dimension of any number of axes.
//!
//! What a call requires is tested before it.

use crate::nd_shape_tests::calls::{Question, truth};
use crate::nd_shape_tests::layouts::is_valid;
use crate::test_tables::{Words, made};
use ::ndarray_layout::memory::AllocError;
use ::ndarray_layout::nd_dim::{Dimension, IxDyn, Lengths};

/// A call of a dimension, by its lengths and by strides.
#[derive(Clone, Copy)]
pub(crate) enum OfDim {
    /// The product of the lengths.
    SizeChecked,
    /// Its own strides, by rows and by columns.
    OwnStrides,
    /// Whether strides make the shape contiguous.
    IsContiguous,
    /// The axes whose strides these are, from the least to the greatest.
    StrideOrder,
    /// The axes of the least and of the greatest stride.
    StrideAxes,
}

/// Whether a call made a value of the list that is next.
fn gives(words: &mut Words<'_>, made: Result<IxDyn, AllocError>) -> bool {
    match made {
        Ok(made) => words.is_list(made.slice()),
        Err(_) => false,
    }
}

/// Whether the strides of a shape by rows and by columns are the next ones.
fn has_own_strides(words: &mut Words<'_>, dim: &IxDyn) -> bool {
    dim.size_checked().is_some() && gives(words, dim.default_strides()) && gives(words, dim.fortran_strides())
}

/// Whether the next words are the axes of the least and of the greatest stride.
fn has_stride_axes(words: &mut Words<'_>, dim: &IxDyn, strides: &IxDyn) -> bool {
    dim.ndim() > 0
        && dim.ndim() == strides.ndim()
        && words.is_length(dim.min_stride_axis(strides).0)
        && words.is_length(dim.max_stride_axis(strides).0)
}

/// Whether the next word says whether strides make a shape contiguous.
fn is_contiguous(words: &mut Words<'_>, dim: &IxDyn, strides: &IxDyn) -> bool {
    is_valid(dim, strides) && words.is(truth(IxDyn::is_contiguous(dim, strides)))
}

/// Whether a row holds.
pub(crate) fn dim_holds(asked: &Question<'_, OfDim>) -> Option<bool> {
    let dim = made::<IxDyn>(asked.lists.first.as_slice())?;
    let words = &mut Words::of(asked.answer);
    match asked.call {
        OfDim::SizeChecked => Some(words.length() == dim.size_checked()),
        OfDim::OwnStrides => Some(has_own_strides(words, &dim)),
        OfDim::StrideOrder => Some(gives(words, dim._fastest_varying_stride_order())),
        _ => {
            let strides = made::<IxDyn>(asked.lists.second.as_slice())?;
            Some(match asked.call {
                OfDim::IsContiguous => is_contiguous(words, &dim, &strides),
                _ => has_stride_axes(words, &dim, &strides),
            })
        }
    }
}
