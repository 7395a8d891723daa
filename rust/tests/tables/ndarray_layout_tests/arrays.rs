// Made by `rust/erase` of `crates/ndarray_layout_tests/src/arrays.rt`: edit that.
//! Arrays that own their items, and what is asked of them, as rows tell it.

use crate::ndarray_layout_tests::parts::{are_halves_written, are_parts_written};
use crate::ndarray_layout_tests::views::shape;
use crate::test_tables::{AtType, Reading, Words, at_type, layout_fault_name};
use ::ndarray_layout::memory::prelude::{FallibleSlice, FallibleVec, Vec};
use ::ndarray_layout::nd_owned::OwnedArray;
use ::ndarray_layout::{LayoutError, Lengths, SliceInfoElem};

/// What is asked of an array, and what stands after its shape, its strides and its count of items.
#[derive(Clone, Copy)]
pub enum OfArray {
    /// `=> Ok ITEMS`, or the fault and the items that come back.
    FromShapeVec,
    /// `ARGUMENT => ITEMS`, or the fault.
    Items,
    /// `INDEX ITEM => true ITEMS`, or `false`.
    Set,
    /// `ARGUMENT ITEMS ARGUMENT ITEMS .. => Ok ITEMS`, or the fault.
    MultiSet,
    /// `ARGUMENT INDEX ITEM ARGUMENT INDEX ITEM .. => true ITEMS`, `false ITEMS` or the fault: an item of each part, all lent at once.
    SetParts,
    /// `AXIS COORDINATE INDEX ITEM INDEX ITEM => true ITEMS`, `false ITEMS` or the fault: an item of each of the two parts.
    SetHalves,
}

/// An array, or why there is none, and the items that are handed back.
type Made<D> = Result<OwnedArray<usize, D>, (LayoutError, Vec<usize>)>;

/// So many items from 0 on; `None` where an allocation fails.
fn counted(count: usize) -> Option<Vec<usize>> {
    let mut items = Vec::new();
    for number in 0..count {
        items.fallible_push(number).ok()?;
    }
    Some(items)
}

/// The array of the next words.
fn array<D: Lengths>(words: &mut Words<'_>) -> Option<Made<D>> {
    let shape = shape::<D>(words)?;
    let items = counted(words.length()?)?;
    Some(OwnedArray::from_shape_vec(shape, items))
}

/// Whether these are the items of a slice, or the fault.
fn are_read<D: Lengths>(row: &mut Reading<'_>, array: &OwnedArray<usize, D>) -> Option<bool> {
    let slice = row.given.elems()?;
    Some(match array.items(&slice) {
        Ok(items) => row.answer.is_list(items.as_slice()),
        Err(fault) => row.answer.is(layout_fault_name(&fault)),
    })
}

/// Whether there is an item at an index, which is replaced, and these are left.
fn is_set<D: Lengths>(row: &mut Reading<'_>, array: &mut OwnedArray<usize, D>) -> Option<bool> {
    let index: D = row.given.dim()?;
    let is_index = array.set(&index, row.given.length()?);
    Some(row.answer.is(if is_index { "true" } else { "false" }) && row.answer.is_list(array.stored()))
}

/// A slice, and the items for it.
type Write = (Vec<SliceInfoElem>, Vec<usize>);

/// The write of the next two words.
fn write(word: &str, words: &mut Words<'_>) -> Option<Write> {
    let items = words.list()?;
    let slice = Words::of(word).elems()?;
    Some((slice, items.as_slice().fallible_to_vec().ok()?))
}

/// The writes of all words that are left.
fn writes(words: &mut Words<'_>) -> Option<Vec<Write>> {
    let mut writes = Vec::new();
    for _ in 0..u64::MAX {
        let Some(word) = words.word() else {
            break;
        };
        writes.fallible_push(write(word, words)?).ok()?;
    }
    Some(writes)
}

/// Whether writes are done or fail so, and these items are left.
fn is_written<D: Lengths>(row: &mut Reading<'_>, array: &mut OwnedArray<usize, D>) -> Option<bool> {
    let writes = writes(&mut row.given)?;
    let name = match array.multi_set(writes.as_slice()) {
        Ok(()) => "Ok",
        Err(fault) => layout_fault_name(&fault),
    };
    Some(row.answer.is(name) && row.answer.is_list(array.stored()))
}

/// A row about an array.
struct OfRow<'a, 'b> {
    row: &'a mut Reading<'b>,
    asked: OfArray,
}

impl AtType for OfRow<'_, '_> {
    fn at<D: Lengths>(self) -> Option<bool> {
        let OfRow { row, asked } = self;
        match array::<D>(&mut row.given)? {
            Ok(mut array) => match asked {
                OfArray::FromShapeVec => Some(row.answer.is("Ok") && row.answer.is_list(array.stored())),
                OfArray::Items => are_read(row, &array),
                OfArray::Set => is_set(row, &mut array),
                OfArray::MultiSet => is_written(row, &mut array),
                OfArray::SetParts => are_parts_written(row, &mut array),
                OfArray::SetHalves => are_halves_written(row, &mut array),
            },
            Err((fault, items)) => {
                let is_asked = matches!(asked, OfArray::FromShapeVec);
                let is_named = row.answer.is(layout_fault_name(&fault));
                Some(is_asked && is_named && row.answer.is_list(items.as_slice()))
            }
        }
    }
}

/// Whether a row about an array holds, at the type that it names.
pub fn array_holds(row: &mut Reading<'_>, asked: OfArray) -> Option<bool> {
    let ndim = row.given.ndim()?;
    at_type(ndim, OfRow { row, asked })
}
