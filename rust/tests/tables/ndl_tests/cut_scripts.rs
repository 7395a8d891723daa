// Made by `rust/erase` of `crates/ndl_tests/src/cut_scripts.rt`: edit that.
//! Scripts that end early: each front of six scripts, byte by byte.

use crate::ndl_tests::sessions::{answers, written_out};

// A script, and below it a row for each place where a line of it can be cut and still be read: the line's number, what
// is left of it, and the answer. Several of one answer stand in one line, with ` / ` between them. A `#` stands for
// the digits of a number that is cut, maybe none; what a row without it spells out comes first.

/// Lines of every kind.
const LINES: &str = "\
data 6 owned 2,3 3,1|slice NewAxis,..;-1,1..|collapse 1 0|merge 0 2|reshape F 1,2|broadcast 2,1,2|clamp 0,..;-1,-9..9|
1: data 6 owned 2,3 3 => step 0: ShapeError/IncompatibleLayout: incompatible memory layout|
1: data 6 owned 2,3 3,1 => shape 2,3|strides 3,1|places 0 1 2 3 4 5|
2: slice NewAxis / 2: slice NewAxis,.. => step 1: ShapeError/IncompatibleShape: incompatible shapes|
2: slice NewAxis,..;-1 => step 1: ShapeError/IncompatibleShape: incompatible shapes|
2: slice NewAxis,..;-1,1 => shape 1,2|strides 0,-3|places 4 1|
2: slice NewAxis,..;-1,1.. => shape 1,2,2|strides 0,-3,1|places 4 5 1 2|
3: collapse 1 0 / 4: merge 0 2 => shape 1,1,2|strides 0,-3,1|places 4 5|
5: reshape F 1 => step 4: ShapeError/IncompatibleShape: incompatible shapes|
5: reshape F 1,2 => shape 1,2|strides -3,1|places 4 5|
6: broadcast 2 / 6: broadcast 2,1 => step 5: ShapeError/IncompatibleShape: incompatible shapes|
6: broadcast 2,1,2 => shape 2,1,2|strides 0,-3,1|places 4 5 4 5|
7: clamp 0 / 7: clamp 0,.. / 7: clamp 0,..;-1 => step 6: ShapeError/IncompatibleShape: incompatible shapes|
7: clamp 0,..;-1,-9 => step 6: ShapeError/OutOfBounds: out of bounds indexing|
7: clamp 0,..;-1,-9.. / 7: clamp 0,..;-1,-9..9 => shape 1,2|strides 0,1|places 4 5|
";

/// Blank lines, many spaces, and carriage returns before line feeds.
const BLANKS: &str = "\
|  data  8 read 2,3  1,2\r|\r|   |slice  1,..;-1\r|  collapse   0     2  |
2:   data  8 read 2,3  1 => step 0: ShapeError/IncompatibleLayout: incompatible memory layout|
2:   data  8 read 2,3  1,2 => shape 2,3|strides 1,2|places 0 2 4 1 3 5|
5: slice  1 => step 1: ShapeError/IncompatibleShape: incompatible shapes|
5: slice  1,.. => shape 3|strides 2|places 1 3 5|
5: slice  1,..;-1 => shape 3|strides -2|places 5 3 1|
6:   collapse   0     2 => shape 1|strides -2|places 1|
";

/// Ranges, indices and new axes, to bounds past their axes as well.
const SLICES: &str = "\
data 12 owned 12 1|slice 2..-1;-3|clamp -9..99;-1|slice NewAxis,1..,NewAxis|clamp 0,..9;-1,0..|slice \
-2..-1,NewAxis,-1|slice NewAxis,..,NewAxis,..;9,NewAxis|clamp 0,-1,000000000000,NewAxis,..,-1..000000000000000000005|
1: data 12 owned 12 1 => shape 12|strides 1|places 0 1 2 3 4 5 6 7 8 9 10 11|
2: slice 2 => shape -|strides -|places 2|
2: slice 2.. => shape 10|strides 1|places 2 3 4 5 6 7 8 9 10 11|
2: slice 2..-1 => shape 9|strides 1|places 2 3 4 5 6 7 8 9 10|
2: slice 2..-1;-3 => shape 3|strides -3|places 10 7 4|
3: clamp - => step 2: ShapeError/IncompatibleShape: incompatible shapes|
3: clamp -9 => step 2: ShapeError/OutOfBounds: out of bounds indexing|
3: clamp -9..# => shape 3|strides -3|places 10 7 4|
3: clamp -9..99;-1 => shape 3|strides 3|places 4 7 10|
4: slice NewAxis => step 3: ShapeError/IncompatibleShape: incompatible shapes|
4: slice NewAxis,1 => shape 1|strides 0|places 7|
4: slice NewAxis,1.. => shape 1,2|strides 0,3|places 7 10|
4: slice NewAxis,1..,NewAxis => shape 1,2,1|strides 0,3,0|places 7 10|
5: clamp 0 / 5: clamp 0,..# / 5: clamp 0,..9;-1 => step 4: ShapeError/IncompatibleShape: incompatible shapes|
5: clamp 0,..9;-1,0 => shape 2|strides -3|places 10 7|
5: clamp 0,..9;-1,0.. => shape 2,1|strides -3,0|places 10 7|
6: slice - / 6: slice -2 / 6: slice -2.. => step 5: ShapeError/IncompatibleShape: incompatible shapes|
6: slice -2..-1 / 6: slice -2..-1,NewAxis => step 5: ShapeError/IncompatibleShape: incompatible shapes|
6: slice -2..-1,NewAxis,-1 => shape 1,1|strides 0,0|places 10|
7: slice NewAxis / 7: slice NewAxis,.. => step 6: ShapeError/IncompatibleShape: incompatible shapes|
7: slice NewAxis,..,NewAxis => step 6: ShapeError/IncompatibleShape: incompatible shapes|
7: slice NewAxis,..,NewAxis,.. / 7: slice NewAxis,..,NewAxis,..;9 => shape 1,1,1,1|strides 0,0,0,0|places 10|
7: slice NewAxis,..,NewAxis,..;9,NewAxis => shape 1,1,1,1,1|strides 0,0,0,0,0|places 10|
8: clamp 0 / 8: clamp 0,-1 / 8: clamp 0,-1,0# => step 7: ShapeError/IncompatibleShape: incompatible shapes|
8: clamp 0,-1,000000000000,NewAxis => step 7: ShapeError/IncompatibleShape: incompatible shapes|
8: clamp 0,-1,000000000000,NewAxis,.. => step 7: ShapeError/IncompatibleShape: incompatible shapes|
8: clamp 0,-1,000000000000,NewAxis,..,-1 => shape 1,1|strides 0,0|places 10|
8: clamp 0,-1,000000000000,NewAxis,..,-1.. => shape 1,1,1|strides 0,0,0|places 10|
8: clamp 0,-1,000000000000,NewAxis,..,-1..000000000000000000005 => shape 1,1,1|strides 0,0,0|places 10|
8: clamp 0,-1,000000000000,NewAxis,..,-1..0# => shape 1,1,0|strides 0,0,0|places -|
";

/// Steps of every kind.
const MOVES: &str = "\
data 6 owned 2,3 3,1|collapse 0 1|merge 0 1|broadcast 2,2,3|merge 0 1|collapse 2 2|slice 0,1..3,NewAxis,0|broadcast \
2,2,1|merge 2 0|reshape C 2,2|broadcast 000000000002,0002,000002|
1: data 6 owned 2,3 3 => step 0: ShapeError/IncompatibleLayout: incompatible memory layout|
1: data 6 owned 2,3 3,1 => shape 2,3|strides 3,1|places 0 1 2 3 4 5|
2: collapse 0 1 / 3: merge 0 1 => shape 1,3|strides 3,1|places 3 4 5|
4: broadcast 2 / 4: broadcast 2,2 => step 3: ShapeError/IncompatibleShape: incompatible shapes|
4: broadcast 2,2,3 => shape 2,2,3|strides 0,0,1|places 3 4 5 3 4 5 3 4 5 3 4 5|
5: merge 0 1 => shape 1,4,3|strides 0,0,1|places 3 4 5 3 4 5 3 4 5 3 4 5|
6: collapse 2 2 => shape 1,4,1|strides 0,0,1|places 5 5 5 5|
7: slice 0 / 7: slice 0,1 / 7: slice 0,1..# => step 6: ShapeError/IncompatibleShape: incompatible shapes|
7: slice 0,1..3,NewAxis => step 6: ShapeError/IncompatibleShape: incompatible shapes|
7: slice 0,1..3,NewAxis,0 => shape 2,1|strides 0,0|places 5 5|
8: broadcast 2 => step 7: ShapeError/IncompatibleShape: incompatible shapes|
8: broadcast 2,2 => shape 2,2|strides 0,0|places 5 5 5 5|
8: broadcast 2,2,1 / 9: merge 2 0 => shape 2,2,1|strides 0,0,0|places 5 5 5 5|
10: reshape C 2 => step 9: ShapeError/IncompatibleShape: incompatible shapes|
10: reshape C 2,2 => shape 2,2|strides 0,0|places 5 5 5 5|
11: broadcast 0# => step 10: ShapeError/IncompatibleShape: incompatible shapes|
11: broadcast 000000000002,0002 => shape 2,2|strides 0,0|places 5 5 5 5|
11: broadcast 000000000002,0# => step 10: ShapeError/IncompatibleShape: incompatible shapes|
11: broadcast 000000000002,0002,000002 => shape 2,2,2|strides 0,0,0|places 5 5 5 5 5 5 5 5|
11: broadcast 000000000002,0002,0# => step 10: ShapeError/IncompatibleShape: incompatible shapes|
";

/// Reshapes in both orders.
const RESHAPES: &str = "\
data 24 owned 2,3,4 12,4,1|reshape C 6,4|reshape F 6,2,2|slice NewAxis,0,..,1|reshape C 2|reshape F 1,2,1,1|reshape \
C 00000000000000000000000002|reshape F 2,1,1,00001|slice ..;-1,0,0,NewAxis,0|reshape C 1,1,1,1,1,1,1,1,2|
1: data 24 owned 2,3,4 1# => step 0: ShapeError/IncompatibleLayout: incompatible memory layout|
1: data 24 owned 2,3,4 12,4 => step 0: ShapeError/IncompatibleLayout: incompatible memory layout|
1: data 24 owned 2,3,4 12,4,1 => shape 2,3,4|strides 12,4,1|places 0 1 2 3 4 5 6 7 8 9 10 11 12 13 14 15 16 17 18 19 \
20 21 22 23|
2: reshape C 6 => step 1: ShapeError/IncompatibleShape: incompatible shapes|
2: reshape C 6,4 => shape 6,4|strides 4,1|places 0 1 2 3 4 5 6 7 8 9 10 11 12 13 14 15 16 17 18 19 20 21 22 23|
3: reshape F 6 / 3: reshape F 6,2 => step 2: ShapeError/IncompatibleLayout: incompatible memory layout|
3: reshape F 6,2,2 => shape 6,2,2|strides 4,1,2|places 0 2 1 3 4 6 5 7 8 10 9 11 12 14 13 15 16 18 17 19 20 22 21 23|
4: slice NewAxis / 4: slice NewAxis,0 => step 3: ShapeError/IncompatibleShape: incompatible shapes|
4: slice NewAxis,0,.. => step 3: ShapeError/IncompatibleShape: incompatible shapes|
4: slice NewAxis,0,..,1 => shape 1,2|strides 0,1|places 2 3|
5: reshape C 2 => shape 2|strides 1|places 2 3|
6: reshape F 1 => step 5: ShapeError/IncompatibleShape: incompatible shapes|
6: reshape F 1,2 => shape 1,2|strides 1,1|places 2 3|
6: reshape F 1,2,1 => shape 1,2,1|strides 1,1,1|places 2 3|
6: reshape F 1,2,1,1 => shape 1,2,1,1|strides 1,1,1,1|places 2 3|
7: reshape C 00000000000000000000000002 => shape 2|strides 1|places 2 3|
7: reshape C 0# => step 6: ShapeError/IncompatibleShape: incompatible shapes|
8: reshape F 2 => shape 2|strides 1|places 2 3|
8: reshape F 2,1 => shape 2,1|strides 1,1|places 2 3|
8: reshape F 2,1,1 => shape 2,1,1|strides 1,1,1|places 2 3|
8: reshape F 2,1,1,00001 => shape 2,1,1,1|strides 1,1,1,1|places 2 3|
8: reshape F 2,1,1,0# => step 7: ShapeError/IncompatibleShape: incompatible shapes|
9: slice .. / 9: slice ..;-1 / 9: slice ..;-1,0 => step 8: ShapeError/IncompatibleShape: incompatible shapes|
9: slice ..;-1,0,0 / 9: slice ..;-1,0,0,NewAxis => step 8: ShapeError/IncompatibleShape: incompatible shapes|
9: slice ..;-1,0,0,NewAxis,0 => shape 2,1|strides -1,0|places 3 2|
10: reshape C 1 / 10: reshape C 1,1 => step 9: ShapeError/IncompatibleShape: incompatible shapes|
10: reshape C 1,1,1 / 10: reshape C 1,1,1,1 => step 9: ShapeError/IncompatibleShape: incompatible shapes|
10: reshape C 1,1,1,1,1 / 10: reshape C 1,1,1,1,1,1 => step 9: ShapeError/IncompatibleShape: incompatible shapes|
10: reshape C 1,1,1,1,1,1,1 => step 9: ShapeError/IncompatibleShape: incompatible shapes|
10: reshape C 1,1,1,1,1,1,1,1 => step 9: ShapeError/IncompatibleShape: incompatible shapes|
10: reshape C 1,1,1,1,1,1,1,1,2 => shape 1,1,1,1,1,1,1,1,2|strides 1,1,1,1,1,1,1,1,-1|places 3 2|
";

/// The greatest numbers that can be read.
const LIMITS: &str = "\
data 18446744073709551615 read 0001,2 -9223372036854775808,7|clamp \
-9223372036854775808..9223372036854775807,-2..;-0000000000000000001|collapse 00000000000000000001 0000001|broadcast \
9223372036854775807,0,1,1|
1: data 18446744073709551615 read 0001,2 -# => step 0: ShapeError/IncompatibleLayout: incompatible memory layout|
1: data 18446744073709551615 read 0001,2 -9223372036854775808,7 => shape 1,2|strides -9223372036854775808,7|places 0 7|
2: clamp -# / 2: clamp -9223372036854775808..# => step 1: ShapeError/IncompatibleShape: incompatible shapes|
2: clamp -9223372036854775808..9223372036854775807,-2 => shape 1|strides 0|places 0|
2: clamp -9223372036854775808..9223372036854775807,-2.. => shape 1,2|strides 0,7|places 0 7|
2: clamp -9223372036854775808..9223372036854775807,-2..;-0000000000000000001 => shape 1,2|strides 0,-7|places 7 0|
2: clamp -9223372036854775808..9223372036854775807,-2..;-0# => step 1: ShapeError/Unsupported: unsupported operation|
3: collapse 00000000000000000001 0000001 => shape 1,1|strides 0,-7|places 0|
3: collapse 00000000000000000001 0# => shape 1,1|strides 0,-7|places 7|
4: broadcast 9# => step 3: ShapeError/IncompatibleShape: incompatible shapes|
4: broadcast 9223372036854775807,0 => shape 9223372036854775807,0|strides 0,0|places -|
4: broadcast 9223372036854775807,0,1 => shape 9223372036854775807,0,1|strides 0,0,-7|places -|
4: broadcast 9223372036854775807,0,1,1 => shape 9223372036854775807,0,1,1|strides 0,0,0,-7|places -|
";

/// Whether a row says this of a line: the same, or its beginning and then the digits for which a `#` stands.
fn is_told(head: &str, line: &str) -> bool {
    let Some(digits) = line.strip_prefix(head.trim_end_matches("#")) else {
        return false;
    };
    for byte in digits.as_bytes() {
        if !byte.is_ascii_digit() {
            return false;
        }
    }
    head.ends_with("#") || digits == ""
}

/// Whether one of these rows says this of a line.
fn is_among(heads: &str, line: &str) -> bool {
    for head in heads.split(" / ") {
        if is_told(head, line) {
            return true;
        }
    }
    false
}

/// The answer of the first row for a line, which is its number and what is left of it; `None` where there is none.
fn text_of_row<'a>(rows: &'a str, line: &str) -> Option<&'a str> {
    for row in rows.lines() {
        let (heads, text) = row.split_once(" => ")?;
        if is_among(heads, line) {
            return Some(text);
        }
    }
    None
}

/// The last line of a front that isn't blank, with its number. A carriage return that no line feed follows belongs to
/// its line.
fn last_line(front: &str) -> (usize, &str) {
    let left = if front.ends_with("\r") { front } else { front.trim_end() };
    let line = left.rsplit_once("\n").unwrap_or(("", left)).1;
    (left.split("\n").count(), line)
}

/// Whether a front of a script has the answer that is expected: that of the row for its last line, or `unreadable`.
fn front_holds(front: &str, rows: &str) -> Option<bool> {
    let (number, line) = last_line(front);
    let line = ::ndarray_layout::fallible_format!("{number}: {line}").ok()?;
    let unreadable = ::ndarray_layout::fallible_format!("line {number}: unreadable|").ok()?;
    let text = text_of_row(rows, line.as_str()).unwrap_or(unreadable.as_str());
    let text = written_out(text)?;
    Some(answers(front.as_bytes(), text.as_str()))
}

/// Whether each front of a table's script has its answer; `None` where an allocation fails.
fn fronts_hold(table: &str) -> Option<bool> {
    let (script, rows) = table.split_once("\n")?;
    let script = written_out(script)?;
    for end in 0..=script.len() {
        let (front, _) = script.as_str().split_at_checked(end)?;
        if !front_holds(front, rows)? {
            return Some(false);
        }
    }
    Some(true)
}

#[test]
fn r13_scripts_cut() {
    for table in [LINES, BLANKS, SLICES, MOVES, RESHAPES, LIMITS] {
        assert!(fronts_hold(table) == Some(true), "{table}");
    }
}
