//! The diagonal of a view, and views of its windows and of its chunks.

use super::calls::answer;
use super::layout::{read_view, told};
use crate::table::{Words, assert_rows};
use ndarray_layout::{Lengths, ShapeError, Strided};

/// `LEN owned|read SHAPE STRIDES => VIEW`.
pub fn diagonal<D: Lengths>(words: &mut Words) -> String {
    told(Ok::<_, ShapeError>(read_view::<D>(words).diag()))
}

/// `LEN owned|read SHAPE STRIDES BLOCK => VIEW`, or the fault: all blocks of a shape, or those that lie side by side.
pub fn taken<D: Lengths, E: Lengths>(call: &str, words: &mut Words) -> String {
    let (view, block): (Strided<D>, D) = (read_view(words), words.dim());
    match call {
        "windows" | "windows_into" => told::<E>(view.windows(&block)),
        _ => told::<E>(view.exact_chunks(&block)),
    }
}

#[test]
fn diagonals() {
    let table = "\
diag Ix0 1 owned - - => 1 0 0 0
diag Ix1 3 owned 3 -1 => 3 -1 2 2,1,0
diag Ix2 6 owned 2,3 3,1 => 2 4 0 0,4
diag Ix2 9 owned 3,3 -3,1 => 3 -2 6 6,4,2
diag Ix2 9 owned 3,3 3,-1 => 3 2 2 2,4,6
diag Ix2 5 read 3,3 1,-1 => 3 0 2 2,2,2
diag Ix2 4 owned 1,4 9223372036854775807,1 => 1 0 0 0
diag Ix2 2 owned 1,2 -9223372036854775808,1 => 1 0 0 0
diag Ix2 2 owned 0,3 3,1 => 0 0 0 -
diag Ix3 8 owned 2,2,2 4,-2,1 => 2 3 2 2,5
diag Ix2 2 read 4611686018427387903,2 0,1 => 2 1 0 0,1
diag IxDyn 32 owned 2,2,2,2,2 16,8,4,2,-1 => 2 29 1 1,30";
    assert_rows(table, answer);
}

/// Windows of views of each type, as views of any number of axes.
const WINDOWS: &str = "\
windows Ix0 1 owned - - - => - - 0 0
windows Ix1 4 owned 4 1 2 => 3,2 1,1 0 0,1,1,2,2,3
windows Ix1 4 owned 4 -1 3 => 2,3 -1,-1 3 3,2,1,2,1,0
windows Ix1 4 owned 4 1 4 => 1,4 1,1 0 0,1,2,3
windows Ix1 4 owned 4 1 5 => 0,5 0,0 0 -
windows Ix1 4 owned 4 1 18446744073709551615 => Overflow
windows Ix1 0 owned 0 1 1 => 0,1 0,0 0 -
windows Ix2 6 owned 2,3 3,1 2,2 => 1,2,2,2 3,1,3,1 0 0,1,3,4,1,2,4,5
windows Ix2 12 owned 4,3 -3,1 2,2 => 3,2,2,2 -3,1,-3,1 9 9,10,6,7,10,11,7,8,6,7,3,4,7,8,4,5,3,4,0,1,4,5,1,2
windows Ix2 6 owned 2,3 3,1 1,4 => 2,0,1,4 0,0,0,0 0 -
windows Ix2 6 owned 3,0 1,1 2,1 => 2,0,2,1 0,0,0,0 0 -
windows Ix2 2 owned 1,2 -9223372036854775808,1 1,1 => 1,2,1,1 -9223372036854775808,1,-9223372036854775808,1 0 0,1
windows Ix3 12 owned 2,3,2 6,-2,1 1,2,2 => 2,2,1,1,2,2 6,-2,1,6,-2,1 4 4,5,2,3,2,3,0,1,10,11,8,9,8,9,6,7
windows IxDyn 4 owned 1,2,1,2,1 9,2,9,-1,9 1,1,1,2,1 => 1,2,1,1,1,1,1,1,2,1 9,2,9,-1,9,9,2,9,-1,9 1 1,0,3,2
windows Ix1 4 owned 4 1 0 => Unsupported
windows Ix2 6 owned 2,3 3,1 3,0 => Unsupported
windows IxDyn 4 owned 4 1 2,2 => IncompatibleShape
windows IxDyn 4 owned 4 1 0,2 => IncompatibleShape
windows IxDyn 4 owned 2,2 2,1 2 => IncompatibleShape
windows IxDyn 1 read 1,1,1 0,0,0 0,9223372036854775807,2 => Unsupported
windows Ix2 1 read 1,1 0,0 9223372036854775807,2 => Overflow
windows Ix1 1 read 8589934592 0 4294967296 => Overflow
windows Ix2 1 read 2147483648,1 0,0 1073741824,2 => 1073741825,0,1073741824,2 0,0,0,0 0 -
windows Ix2 1 read 4294967296,1 0,0 2147483648,2 => Overflow
windows Ix2 1 read 9223372036854775807,0 0,0 1,1 => 9223372036854775807,0,1,1 0,0,0,0 0 -";

#[test]
fn all_windows() {
    assert_rows(WINDOWS, answer);
}

/// Windows as views of each type.
const WINDOWS_INTO: &str = "\
windows_into Ix0 1 owned - - - => - - 0 0
windows_into Ix2 4 owned 4 1 2 => 3,2 1,1 0 0,1,1,2,2,3
windows_into Ix4 6 owned 2,3 3,-1 2,2 => 1,2,2,2 3,-1,3,-1 2 2,1,5,4,1,0,4,3
windows_into Ix6 12 owned 2,3,2 6,2,1 2,3,1 => 1,1,2,2,3,1 6,2,1,6,2,1 0 0,2,4,6,8,10,1,3,5,7,9,11
windows_into Ix1 4 owned 4 1 2 => IncompatibleShape
windows_into Ix3 4 owned 4 1 0 => IncompatibleShape
windows_into Ix5 6 owned 2,3 3,1 2,2 => IncompatibleShape
windows_into Ix4 4 owned 4 1 2,2 => IncompatibleShape
windows_into Ix2 4 owned 4 1 0 => Unsupported";

#[test]
fn windows_into_each_type() {
    assert_rows(WINDOWS_INTO, answer);
}

/// Chunks of views of each type, as views of any number of axes.
const CHUNKS: &str = "\
exact_chunks Ix0 1 owned - - - => - - 0 0
exact_chunks Ix1 5 owned 5 1 2 => 2,2 2,1 0 0,1,2,3
exact_chunks Ix1 6 owned 6 -1 3 => 2,3 -3,-1 5 5,4,3,2,1,0
exact_chunks Ix1 4 owned 4 1 4 => 1,4 0,1 0 0,1,2,3
exact_chunks Ix1 4 owned 4 -1 3 => 1,3 0,-1 3 3,2,1
exact_chunks Ix1 4 owned 4 1 5 => 0,5 0,0 0 -
exact_chunks Ix1 4 owned 4 1 18446744073709551615 => Overflow
exact_chunks Ix1 0 owned 0 1 1 => 0,1 0,0 0 -
exact_chunks Ix1 3 owned 3 1 1 => 3,1 1,1 0 0,1,2
exact_chunks Ix2 12 owned 4,3 -3,1 2,3 => 2,1,2,3 -6,0,-3,1 9 9,10,11,6,7,8,3,4,5,0,1,2
exact_chunks Ix2 12 owned 4,3 3,1 2,2 => 2,1,2,2 6,0,3,1 0 0,1,3,4,6,7,9,10
exact_chunks Ix2 6 owned 2,3 3,1 1,4 => 2,0,1,4 0,0,0,0 0 -
exact_chunks Ix2 6 owned 3,0 1,1 2,1 => 1,0,2,1 0,0,0,0 0 -
exact_chunks Ix2 2 owned 1,2 -9223372036854775808,1 1,1 => 1,2,1,1 0,1,-9223372036854775808,1 0 0,1
exact_chunks Ix3 16 owned 2,4,2 8,-2,1 1,2,2 => 2,2,1,1,2,2 8,-4,0,8,-2,1 6 6,7,4,5,2,3,0,1,14,15,12,13,10,11,8,9
exact_chunks IxDyn 8 owned 1,4,1,2,1 9,2,9,-1,9 1,2,1,2,1 => \
1,2,1,1,1,1,2,1,2,1 0,4,0,0,0,9,2,9,-1,9 1 1,0,3,2,5,4,7,6
exact_chunks Ix1 4 owned 4 1 0 => Unsupported
exact_chunks Ix2 6 owned 2,3 3,1 3,0 => Unsupported
exact_chunks IxDyn 4 owned 4 1 2,2 => IncompatibleShape
exact_chunks IxDyn 4 owned 4 1 0,2 => IncompatibleShape
exact_chunks IxDyn 4 owned 2,2 2,1 2 => IncompatibleShape
exact_chunks IxDyn 1 read 1,1,1 0,0,0 0,9223372036854775807,2 => Unsupported
exact_chunks Ix2 1 read 1,1 0,0 9223372036854775807,2 => Overflow
exact_chunks Ix2 1 read 9223372036854775807,1 0,0 1,2 => Overflow
exact_chunks Ix2 1 read 9223372036854775807,1 0,0 3,2 => Overflow
exact_chunks Ix2 1 read 9223372036854775807,0 0,0 1,1 => 9223372036854775807,0,1,1 0,0,0,0 0 -";

#[test]
fn all_chunks() {
    assert_rows(CHUNKS, answer);
}

/// Chunks as views of each type.
const CHUNKS_INTO: &str = "\
exact_chunks_into Ix0 1 owned - - - => - - 0 0
exact_chunks_into Ix2 4 owned 4 1 2 => 2,2 2,1 0 0,1,2,3
exact_chunks_into Ix4 6 owned 2,3 3,-1 2,2 => 1,1,2,2 0,0,3,-1 2 2,1,5,4
exact_chunks_into Ix6 12 owned 2,3,2 6,2,1 2,3,1 => 1,1,2,2,3,1 0,0,1,6,2,1 0 0,2,4,6,8,10,1,3,5,7,9,11
exact_chunks_into Ix1 4 owned 4 1 2 => IncompatibleShape
exact_chunks_into Ix3 4 owned 4 1 0 => IncompatibleShape
exact_chunks_into Ix5 6 owned 2,3 3,1 2,2 => IncompatibleShape
exact_chunks_into Ix4 4 owned 4 1 2,2 => IncompatibleShape
exact_chunks_into Ix2 4 owned 4 1 0 => Unsupported";

#[test]
fn chunks_into_each_type() {
    assert_rows(CHUNKS_INTO, answer);
}
