//! The same calls of ndarray's layer and of this library, in one process: as rustc compiles the package and, with
//! `--cfg proved`, as the kit compiles what is proved.
//!
//! All sides read the same lists of numbers, make a table of arguments of them, and go over the table so many
//! times in a loop of the same form: `theirs` and the crate in ffi/ are twins, and `ours` calls that crate. Each
//! call stands in a function that is not inlined and takes its arguments by one reference. Its result goes into a
//! sum, and the sums of all sides must be equal.
//!
//! usage: side_by_side time ROUNDS ROUND_MS [WORD]   the nanoseconds of each side, where a name has WORD
//!        side_by_side names                         items and name of each row
//!        side_by_side once ROW SIDE PASSES          one side of one row, for a counter of instructions

mod tables;
mod theirs;
mod timing;

mod by_rustc {
    pub mod ours;
    #[path = "../rows.rs"]
    pub mod rows;
}
#[cfg(proved)]
mod proved {
    pub mod ours;
    #[path = "../rows.rs"]
    pub mod rows;
}

// (linked for its exports)
use bench_by_rustc as _;

use std::hint::black_box;
use timing::Row;

// Moves all code that follows by so many bytes: two programs with other numbers are two builds. (`R` is for the linker, which
// leaves out a section that nothing refers to.)
std::arch::global_asm!(r#".pushsection .text.shift, "axR", @progbits"#, concat!(".space ", env!("SHIFT"), ", 0xcc"), ".popsection");

fn number(words: &[String], place: usize) -> usize {
    words[place].parse().expect("a number")
}

/// The calls of all sides.
fn rows() -> Vec<Row> {
    let mut rows = by_rustc::rows::all();
    #[cfg(proved)]
    for (row, proved) in rows.iter_mut().zip(proved::rows::all()) {
        assert_eq!(row.name, proved.name);
        row.sides.extend(proved.sides.into_iter().skip(1));
    }
    rows
}

fn check_sums(rows: &[Row]) {
    for row in rows {
        let sums: Vec<usize> = row.sides.iter().map(|call| call(3)).collect();
        assert!(sums.iter().all(|sum| *sum == sums[0]), "{}: the sides return different results: {sums:?}", row.name);
    }
}

fn print_times(words: &[String]) {
    let mut rows = rows();
    let word = words.get(3).map_or("", String::as_str);
    rows.retain(|row| row.name.contains(word));
    check_sums(&rows);
    let times = timing::times(&rows, number(words, 1), number(words, 2) as f64 * 1e6);
    for (row, times) in rows.iter().zip(times) {
        let times: Vec<String> = times.iter().map(f64::to_string).collect();
        println!("{}\t{}", row.name, times.join("\t"));
    }
}

fn main() {
    let words: Vec<String> = std::env::args().skip(1).collect();
    match words[0].as_str() {
        "time" => print_times(&words),
        "names" => rows().iter().for_each(|row| println!("{}\t{}", row.items, row.name)),
        "once" => {
            let [row, side, passes] = [1, 2, 3].map(|place| number(&words, place));
            black_box((rows()[row].sides[side])(black_box(passes)));
        }
        word => panic!("{word}: time, names or once"),
    }
}
