// Made by `rust/erase` of `crates/ndl_tests/src/rows.rt`: edit that.
//! Rows of scripts: of each kind of line, of lines that can't be read, and long ones.

use crate::ndl_tests::assertions::hold;
use crate::ndl_tests::sessions::Sessions;

const LAYOUTS: &str = "\
session data 4 owned 4 1|slice 1..;-2| => shape 2|strides -2|places 3 1|
session data 4 owned 4 1|slice 2..2| => shape 0|strides 0|places -|
session data 8 read 3,2 2,3| => shape 3,2|strides 2,3|places 0 3 2 5 4 7|
session data 8 owned 3,2 2,3| => step 0: ShapeError/Unsupported: unsupported operation|
session data 2 owned 1,2 -9223372036854775808,1| => shape 1,2|strides -9223372036854775808,1|places 0 1|
session data 6 owned 2,3 1| => step 0: ShapeError/IncompatibleLayout: incompatible memory layout|
session data 6 owned 2,3 3,1|slice 1..| => step 1: ShapeError/IncompatibleShape: incompatible shapes|
session  => line 1: unreadable|
session data 6 owned 2,3 3,1|slice ..,..|slise ..| => line 3: unreadable|
session data 6 owned\t2,3 3,1| => line 1: unreadable|";

#[test]
fn r1_rows() {
    hold(LAYOUTS, &Sessions);
}

const SLICES: &str = "\
session data 24 owned 2,3,4 12,4,1|slice ..,1..;-1,0..4;2| => shape 2,2,2|strides 12,-4,2|places 8 10 4 6 20 22 16 18|
session data 1 owned - -| => shape -|strides -|places 0|
session data 1 owned - -|slice -| => shape -|strides -|places 0|
session data 6 owned 2,3 3,1|slice 1,NewAxis,..| => shape 1,3|strides 0,1|places 3 4 5|
session data 6 owned 2,3 3,1|slice ..;-1,..|slice 0,1..| => shape 2|strides 1|places 4 5|
session data 64 owned 2,2,2,2,2,2 32,16,8,4,2,1|slice 1,..1,0,-1,1,..;-1| => shape 1,2|strides 0,-1|places 39 38|";

#[test]
fn r4_rows() {
    hold(SLICES, &Sessions);
}

const RESHAPES: &str = "\
session data 24 owned 2,3,4 12,4,1|slice ..,1..;-1,0..4;2|reshape C 4,2| => step 2: ShapeError/IncompatibleLayout: incompatible memory layout|
session data 0 owned 0,2 0,0|reshape C 5,0| => shape 5,0|strides 0,0|places -|
session data 0 owned 0,2 0,0|reshape C 5,0|reshape C 1| => step 2: ShapeError/IncompatibleShape: incompatible shapes|
session data 6 owned 2,3 3,1|reshape C 3,2| => shape 3,2|strides 2,1|places 0 1 2 3 4 5|
session data 6 owned 2,3 3,1|reshape F 3,2| => step 1: ShapeError/IncompatibleLayout: incompatible memory layout|
session data 6 owned 2,3 3,1|reshape C 9223372036854775807,2| => step 1: ShapeError/Overflow: arithmetic overflow|
session data 6 owned 2,3 3,1|reshape C 0,6| => step 1: ShapeError/IncompatibleShape: incompatible shapes|
session data 6 owned 2,3 3,1|reshape C 4| => step 1: ShapeError/IncompatibleShape: incompatible shapes|
session data 1 owned - -|reshape F 1,1,1,1,1,1| => shape 1,1,1,1,1,1|strides 1,1,1,1,1,1|places 0|";

#[test]
fn r6_rows() {
    hold(RESHAPES, &Sessions);
}

const STEPS: &str = "\
session data 6 owned 2,3 3,1|collapse 0 1|merge 0 1|broadcast 2,2,3| => shape 2,2,3|strides 0,0,1|places{4* 3 4 5}|
session data 24 owned 2,3,4 12,4,1|collapse 1 2|merge 0 1|reshape C 2,2,2| => shape 2,2,2|strides 12,2,1|places 8 9 10 11 20 21 22 23|
session data 24 owned 2,3,4 12,4,1|collapse 1 2|merge 0 1|reshape C 8| => step 3: ShapeError/IncompatibleLayout: incompatible memory layout|
session data 6 owned 2,3 3,1|merge 0 0| => step 1: ShapeError/Unsupported: unsupported operation|
session data 6 owned 2,3 3,1|merge 0 5| => step 1: ShapeError/OutOfBounds: out of bounds indexing|
session data 6 owned 2,3 3,1|collapse 1 3| => step 1: ShapeError/OutOfBounds: out of bounds indexing|
session data 6 owned 2,3 3,1|merge 1 0| => step 1: ShapeError/IncompatibleLayout: incompatible memory layout|
session data 2 owned 2 1|broadcast 1,1,1,1,1,2| => shape 1,1,1,1,1,2|strides 0,0,0,0,0,1|places 0 1|";

#[test]
fn r8_rows() {
    hold(STEPS, &Sessions);
}

const CLAMPED: &str = "\
session data 4 owned 4 1|clamp -9..9;-2| => shape 2|strides -2|places 3 1|
session data 4 owned 4 1|slice -9..9;-2| => step 1: ShapeError/OutOfBounds: out of bounds indexing|
session data 4 owned 4 1|clamp 5..2| => shape 0|strides 0|places -|
session data 4 owned 4 1|clamp 4| => step 1: ShapeError/OutOfBounds: out of bounds indexing|
session data 4 owned 4 1|clamp 9..;0| => step 1: ShapeError/Unsupported: unsupported operation|";

#[test]
fn r14_rows() {
    hold(CLAMPED, &Sessions);
}

const MALFORMED: &str = "\
session data 4 owned 4 => line 1: unreadable|
session |  | => line 1: unreadable|
session data 1 owned - -\r => line 1: unreadable|
session data 4 owned 4 9223372036854775808| => line 1: unreadable|
session data 4 owned 4 1|slice 1..;| => line 2: unreadable|
session data 4 owned 4 1|slice +1..| => line 2: unreadable|
session data 4 owned 4 1|slice 1,,2| => line 2: unreadable|
session data 4 owned 4 1|merge 0| => line 2: unreadable|
session data 4 owned 4 1|reshape c 4| => line 2: unreadable|
session data 4 owned 4 1|reshape C 18446744073709551616| => line 2: unreadable|
session data 4 owned 4 1|data 4 owned 4 1| => line 2: unreadable|
session |data 4 owned 4 1|slise ..| => line 3: unreadable|
session data 4 owned 4 1|slice 0..04;01| => shape 4|strides 1|places 0 1 2 3|
session data 1 read 1000000000000000000 0| => out of memory|";

#[test]
fn r13_scripts() {
    hold(MALFORMED, &Sessions);
}

/// Lines of a megabyte, a hundred thousand steps, a million places, and sixty thousand axes.
const LONG: &str = "\
session {100000*|}data {1000000*0}4 owned 4{100000* }-{100000*0}1 => shape 4|strides -1|places 3 2 1 0|
session data 4 owned 4 1|{1000000*x}| => line 2: unreadable|
session data 4 owned 4 1|slice {200000*NewAxis,}..;-3| => shape {200000*1,}2|strides {200000*0,}-3|places 3 0|
session data 4 owned 4 1|{100000*slice ..|}slice 4| => step 100001: ShapeError/OutOfBounds: out of bounds indexing|
session data 1 owned - -|broadcast {19*2,}2| => shape {19*2,}2|strides {19*0,}0|places {1048575*0 }0|
session data 1 owned {59999*1,}1 {59999*1,}1|collapse 59999 0|merge 0 59999| => shape {59999*1,}1|strides {59999*1,}1|places 0|
session data 1 owned - -|reshape F {59999*1,}1|broadcast {59999*1,}2|reshape C 2| => shape 2|strides 0|places 0 0|";

#[test]
fn long_scripts() {
    hold(LONG, &Sessions);
}
