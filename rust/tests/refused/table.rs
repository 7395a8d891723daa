//! The rows of `rust/tests/refused/calls.txt`, which says how they are read.

use std::fs;

/// A call, and the answers that it may give: where each allocation fails, and with ample memory.
pub struct Row {
    pub call: String,
    pub failing: Vec<Vec<String>>,
    pub answer: Vec<String>,
}

/// All rows.
pub fn rows() -> Vec<Row> {
    let path = concat!(env!("CARGO_MANIFEST_DIR"), "/rust/tests/refused/calls.txt");
    let table = fs::read_to_string(path).expect("the table can be read");
    let table = table.replace("\n    ", " else ");
    table.lines().filter(|line| !line.is_empty() && !line.starts_with('#')).map(Row::read).collect()
}

impl Row {
    /// The row that a line tells. The number before a call is for the proved sources alone.
    fn read(line: &str) -> Row {
        let (call, told) = line.split_once(" => ").expect("a row has an answer");
        let call = call.trim_start_matches(|letter: char| letter.is_ascii_digit() || letter == ' ').to_owned();
        let mut answers = told.split(" else ");
        let answer = answers.next().unwrap_or_default().to_owned();
        let failing = answers.flat_map(|told| failing(told, &answer)).collect();
        Row { call, failing, answer: vec![answer] }
    }
}

/// The answers that a call may give where an allocation fails, once for each that a text tells of.
fn failing(told: &str, answer: &str) -> Vec<Vec<String>> {
    let (times, told) = match told.split_once(" times ") {
        Some((times, told)) => (times.parse().expect("a number of allocations"), told),
        None => (1, told),
    };
    let (told, others) = match told.strip_suffix(", or the answer") {
        Some(told) => (told, vec![answer.to_owned()]),
        None => (told, Vec::new()),
    };
    let first = match told.parse::<usize>() {
        Ok(reads) => format!("out of memory|status 3, {reads} reads"),
        Err(_) => told.to_owned(),
    };
    vec![[vec![first], others].concat(); times]
}
