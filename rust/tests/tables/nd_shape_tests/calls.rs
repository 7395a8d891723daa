// Made by `rust/erase` of `crates/nd_shape_tests/src/calls.rt`: edit that.
//! The calls that rows name, and which of them are asked where.

use crate::nd_shape_tests::dims::{OfDim, dim_holds};
use crate::nd_shape_tests::iterators::{Iteration, is_iterated};
use crate::nd_shape_tests::layouts::OfLayout;
use crate::test_tables::{Asked, Lists, Row, at_each_type, first_failing, meaning};
use ::ndarray_layout::nd_dim::Order::{ColumnMajor, RowMajor};
use ::ndarray_layout::nd_shape::CanIndexCheckMode;
use CanIndexCheckMode::{OwnedMutable, ReadOnly};

/// A call that a row names.
#[derive(Clone, Copy)]
enum Call {
    /// One of a dimension of any number of axes.
    Dim(OfDim),
    /// One of a layout, by the bound `Lengths`.
    Layout(OfLayout),
    /// An iterator over the indices of a shape.
    Iteration(Iteration),
}

/// The calls.
static CALLS: [(&str, Call); 20] = [
    ("size_checked", Call::Dim(OfDim::SizeChecked)),
    ("own_strides", Call::Dim(OfDim::OwnStrides)),
    ("is_contiguous", Call::Dim(OfDim::IsContiguous)),
    ("_fastest_varying_stride_order", Call::Dim(OfDim::StrideOrder)),
    ("stride_axes", Call::Dim(OfDim::StrideAxes)),
    ("size_of_shape_checked", Call::Layout(OfLayout::Size)),
    ("max_abs_offset_check_overflow", Call::Layout(OfLayout::Span)),
    ("can_index_slice_owned", Call::Layout(OfLayout::Accepted(OwnedMutable))),
    ("can_index_slice_read", Call::Layout(OfLayout::Accepted(ReadOnly))),
    ("dim_stride_overlap", Call::Layout(OfLayout::Overlap)),
    ("offset_from_low_addr_ptr_to_logical_ptr", Call::Layout(OfLayout::LowSpan)),
    ("index_checked", Call::Layout(OfLayout::Index)),
    ("axes_of", Call::Layout(OfLayout::Axes)),
    ("co_broadcast", Call::Layout(OfLayout::Common)),
    ("merge_axes", Call::Layout(OfLayout::Merged)),
    ("move_min_stride_axis_to_last", Call::Layout(OfLayout::Moved)),
    ("all_indices", Call::Iteration(Iteration::All(RowMajor))),
    ("indices_iter_f", Call::Iteration(Iteration::All(ColumnMajor))),
    ("IndexCursor", Call::Iteration(Iteration::Lent(RowMajor))),
    ("IndexCursorF", Call::Iteration(Iteration::Lent(ColumnMajor))),
];

/// What a row asks of a call.
#[derive(Clone, Copy)]
pub(crate) struct Question<'a, C> {
    pub(crate) call: C,
    pub(crate) lists: Lists,
    pub(crate) answer: &'a str,
}

/// All calls. A row of a layout holds at the type of as many axes as its first list has, and at that of any number.
pub(crate) struct Calls;

impl Asked for Calls {
    fn holds(&self, row: &Row<'_>) -> Option<bool> {
        let lists = row.lists()?;
        let answer = row.answer;
        match meaning(&CALLS, row.call)? {
            Call::Dim(call) => dim_holds(&Question { call, lists, answer }),
            Call::Layout(call) => {
                let count = lists.first.as_slice().len();
                at_each_type(count, Question { call, lists, answer })
            }
            Call::Iteration(call) => is_iterated(call, &lists, answer),
        }
    }
}

/// A truth as a word.
pub(crate) fn truth(answer: bool) -> &'static str {
    if answer { "true" } else { "false" }
}

/// All rows of a table hold, and there is one at least. The first that doesn't is named.
pub(crate) fn hold(table: &str) {
    if let Some(line) = first_failing(table, &Calls) {
        panic!("{line}");
    }
}
