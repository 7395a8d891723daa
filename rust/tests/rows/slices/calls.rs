//! The calls of rows about slices, and their rows.

use crate::table::{Words, assert_rows, at_type, elems, kind, list};
use ndarray_layout::{
    AxisElems, Fit, Lengths, ShapeError, SliceInfoElem, first_intersection, resolve_elem, slices_intersect,
};

/// What a call returns. Of a name that ends in `_clamped` it moves bounds that lie outside their axis.
pub fn answer(call: &str, words: &mut Words) -> String {
    let (name, fit) = match call.strip_suffix("_clamped") {
        Some(name) => (name, Fit::Clamp),
        None => (call, Fit::Strict),
    };
    let outcome = match name {
        "resolve_elem" => resolved(words, fit),
        "axis_elems" => Ok(elems_of_axes(words)),
        "slices_intersect" => at_type!(words.ndim(), D => intersecting::<D>(words, fit)),
        "first_intersection" => at_type!(words.ndim(), D => first::<D>(words, fit)),
        _ => panic!("unknown: {call}"),
    };
    outcome.unwrap_or_else(kind)
}

/// `LEN ELEMENT => START END STEP COUNT`: what the element picks of an axis.
fn resolved(words: &mut Words, fit: Fit) -> Result<String, ShapeError> {
    let (len, elem) = (words.number(), words.elems()[0]);
    let picks = resolve_elem(len, elem, fit)?;
    Ok(format!("{} {} {} {}", picks.start, picks.end, picks.step, picks.count()))
}

/// `SHAPE ARGUMENT => LEN ELEMENT ..`: the elements for the axes.
fn elems_of_axes(words: &mut Words) -> String {
    let (shape, elems) = (words.list(), words.elems());
    let texts: Vec<String> = AxisElems::new(&shape, &elems).map(|(len, elem)| format!("{len} {elem}")).collect();
    texts.join(" ")
}

/// `SHAPE ARGUMENT ARGUMENT => intersect`, or `apart`, or the fault.
fn intersecting<D: Lengths>(words: &mut Words, fit: Fit) -> Result<String, ShapeError> {
    let dim: D = words.dim();
    let intersect = slices_intersect(&dim, &words.elems(), &words.elems(), fit)?;
    Ok(if intersect { "intersect" } else { "apart" }.to_owned())
}

/// `SHAPE ARGUMENT .. => AT,AT`, or `none`, or the fault.
fn first<D: Lengths>(words: &mut Words, fit: Fit) -> Result<String, ShapeError> {
    let dim: D = words.dim();
    let mut slices: Vec<Vec<SliceInfoElem>> = Vec::new();
    while let Some(word) = words.try_word() {
        slices.push(elems(word));
    }
    let pair = first_intersection(&dim, &slices, fit)?;
    Ok(pair.map_or("none".to_owned(), |(first, second)| list([first, second])))
}

/// What elements pick, and the elements that are for the axes of a shape.
const RESOLVED: &str = "\
resolve_elem 4 1..;-2 => 1 4 -2 2
resolve_elem 4 3..1 => 3 3 1 0
resolve_elem 4 -1 => 3 4 1 1
resolve_elem 4 NewAxis => 0 0 1 0
resolve_elem 9223372036854775807 ..;-9223372036854775808 => 0 9223372036854775807 -9223372036854775808 1
resolve_elem 4 4 / 4 5.. => OutOfBounds
resolve_elem 4 ..;0 => Unsupported
resolve_elem_clamped 4 3..9 => 3 4 1 1
axis_elems 4,3 1,NewAxis,-1 => 4 1 3 -1
axis_elems 2,3,4,5,6,7 NewAxis,..,0,NewAxis,NewAxis,1..;2,..,..,-1,NewAxis => 2 .. 3 0 4 1..;2 5 .. 6 .. 7 -1
axis_elems 4 1,2 => 4 1
axis_elems 4,3 -1 => 4 -1";

#[test]
fn picks_and_elements_of_axes() {
    assert_rows(RESOLVED, answer);
}

/// Two of many arguments: rows, columns and tiles from the first and from the last, in no order, with new axes, indices and
/// steps, and faults.
const FIRST: &str = "\
first_intersection Ix1 4 / Ix1 4 .. / Ix1 4 ..2 2.. / Ix0 - NewAxis / IxDyn 0 .. .. .. => none
first_intersection Ix2 4,3 0,.. 1,.. 2,.. 3,.. / Ix2 4,3 3,.. 2,.. 1,.. 0,.. / Ix2 4,3 0,.. 3,.. 1,.. 2,.. => none
first_intersection Ix2 4,3 ..,0 ..,1 ..,2 / Ix2 4,3 ..,2 ..,1 ..,0 / Ix2 4,3 ..,1 ..,2 ..,0 => none
first_intersection Ix2 4,4 ..2,..2 ..2,2.. 2..,..2 2..,2.. / Ix2 4,4 2..,2.. 2..,..2 ..2,2.. ..2,..2 => none
first_intersection Ix2 4,4 ..2,..2 2..,..2 ..2,2.. 2..,2.. / Ix2 4,4 2..,2.. ..2,2.. 2..,..2 ..2,..2 => none
first_intersection Ix1 9 ..;3 1..;3 2..;3 / Ix1 9 2..;3 ..;3 1..;3 / Ix1 9 ..8;-3 ..7;-3 ..;-3 => none
first_intersection Ix2 4,9 ..2,.. 3..,.. 1,5 / Ix1 9 ..3 5.. 2 / Ix1 9 0..8;-2 2..3 4..9;3 8.. => 0,2
first_intersection Ix1 9 3.. 1..2 2..4 / Ix1 9 0 1 -9 / Ix1 9 -1 7 8 / Ix1 9 ..7 7.. 5..6 / Ix1 9 ..;4 1..2 2..;6 => 0,2
first_intersection Ix2 4,3 3,.. 2,.. 1,.. 0,.. ..1,1 / IxDyn 4,3 2,.. 1,.. NewAxis,3,0 0,.. 0,NewAxis,2 => 3,4
first_intersection IxDyn 2,2,2,2,2 0,..,..,..,.. 1,..,..,0,.. 1,..,..,1,0 1,0,..;-1,1,1 1,..,NewAxis,0,-1,1 => 3,4
first_intersection Ix1 9 1..9;5 1.. 0..1 / Ix1 9 ..;2 ..;2 1..;2 / Ix0 - NewAxis - / Ix1 4 1 1 => 0,1
first_intersection Ix2 2,3 0,.. 0,.. .. / Ix2 2,3 0,..,0 9,.. => IncompatibleShape
first_intersection Ix2 2,3 0,.. 0,.. 9,.. / Ix2 2,3 0,9 0,.. 0,.. / Ix2 2,3 0,.. 0,.. 2,..;0 => OutOfBounds
first_intersection Ix1 9 .. .. ..;0 9 / Ix1 9 ..;0 / Ix2 2,3 ..;0,9 9,.. => Unsupported
first_intersection_clamped Ix1 9 -20..3 3..20 20.. => none
first_intersection_clamped Ix1 9 ..3 8..30 4..5 -1 => 1,3
first_intersection_clamped Ix1 9 ..3 9 => OutOfBounds";

#[test]
fn first_of_many() {
    assert_rows(FIRST, answer);
}
