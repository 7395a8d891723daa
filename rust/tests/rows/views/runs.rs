//! Runs of steps from the view of a layout, and each call of a view.

use super::calls::answer;
use super::layout::{Layout, parts, shaped, told};
use crate::table::{Words, assert_rows, at_type, dim_of, layout_kind};
use ndarray_layout::SliceInfoElem::{Index, Slice};
use ndarray_layout::{Axis, Fit, Lengths, Order, ShapeError, SliceInfoElem, Step, Strided, Strides, run};

/// The step of a word and of those after it.
fn step(word: &str, words: &mut Words) -> Step {
    match word {
        "slice" => Step::Slice(words.elems(), Fit::Strict),
        "merge" => Step::Merge(Axis(words.number()), Axis(words.number())),
        "reshape_C" => Step::Reshape(words.dim(), Order::C),
        "broadcast" => Step::Broadcast(words.dim()),
        _ => panic!("unknown: {word}"),
    }
}

/// `LEN owned|read SHAPE STRIDES STEP .. => VIEW`, or how many steps were taken, the fault, and the view that they left.
pub fn stopped(words: &mut Words) -> String {
    let view = Layout::read(words).view().expect("an accepted layout");
    let mut steps = Vec::new();
    while let Some(word) = words.try_word() {
        steps.push(step(word, words));
    }
    match run(view, &steps) {
        Ok(view) => told(Ok::<_, ShapeError>(view)),
        Err(stopped) => format!("{} {} {}", stopped.at, layout_kind(stopped.fault), parts(&stopped.view)),
    }
}

/// More than four axes, which take memory of their own.
const MORE_AXES: &str = "\
new IxDyn 12 owned 2,1,3,1,2 -6,9,1,9,3 => 2,1,3,1,2 -6,9,1,9,3 6 6,9,7,10,8,11,0,3,1,4,2,5
from_shape IxDyn 12 2,1,3,1,2 F => 2,1,3,1,2 1,2,2,6,6 0 0,6,2,8,4,10,1,7,3,9,5,11
from_shape IxDyn 12 2,1,3,1,2 C => 2,1,3,1,2 6,6,2,2,1 0 0,1,2,3,4,5,6,7,8,9,10,11
run 4 owned 4 1 slice NewAxis,NewAxis,NewAxis,NewAxis,..;-1,NewAxis,NewAxis,NewAxis => \
1,1,1,1,4,1,1,1 0,0,0,0,-1,0,0,0 3 3,2,1,0
run 6 owned 2,3 3,1 broadcast 1,1,1,2,2,3 slice ..,0,..,..,..,NewAxis,.. reshape_C 1,1,1,2,2,3,1 => \
1,1,1,2,2,3,1 0,0,1,0,3,1,1 0 0,1,2,3,4,5,0,1,2,3,4,5
run 6 owned 2,3 3,1 broadcast 1,1,1,2,2,3 merge 5 4 => 1 IncompatibleLayout 1,1,1,2,2,3 0,0,0,0,3,1 0";

#[test]
fn more_than_four_axes() {
    assert_rows(MORE_AXES, answer);
}

/// A whole axis from the back.
pub const BACK: SliceInfoElem = Slice { start: 0, end: None, step: -1 };

/// Asserts that a view is copied, sliced, stretched and reshaped to as many axes, and its places are listed.
pub fn assert_made<D: Lengths>(view: &Strided<D>, elems: &[SliceInfoElem], size: usize) {
    let (copy, slice) = (view.duplicate().unwrap(), view.slice::<D, _>(&elems, Fit::Strict).unwrap());
    let wide: Strided<D> = view.broadcast(view.dim()).unwrap();
    let again: Strided<D> = view.reshape(view.dim(), Order::C).unwrap();
    for made in [copy, slice, wide, again] {
        assert!(made.dim().equal(view.dim()));
    }
    assert_eq!(view.places(Order::C).unwrap().len(), size);
}

/// Asserts what each call of a view of 24 elements along three axes returns.
fn assert_each_call<D: Lengths>() {
    let mut view: Strided<D> = shaped(dim_of(&[2, 3, 4]).unwrap(), Strides::C, 24).unwrap();
    assert_made(&view, &[BACK; 3], 24);
    let (row, other) = ([BACK, Index(-1), BACK], [Index(1), BACK, Index(0)]);
    assert_eq!(view.place(&dim_of::<D>(&[1, 2, 3]).unwrap()), Some(23));
    assert_eq!(view.axes().len(), 3);
    assert_eq!(view.picked(&row, Fit::Strict), Ok(8));
    assert_eq!(view.meets(&row, &other, Fit::Strict), Ok(true));
    assert_eq!(view.first_intersection(&[row, other], Fit::Strict), Ok(Some((0, 1))));
    assert_eq!(view.collapse(Axis(0), 1), Ok(()));
    assert_eq!(view.merge(Axis(0), Axis(1)), Ok(true));
    assert_eq!(view.start(), 12);
}

#[test]
fn each_call_of_a_view() {
    for axes in [Some(3), None] {
        at_type!(axes, D => assert_each_call::<D>());
    }
}
