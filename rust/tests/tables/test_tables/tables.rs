// Made by `rust/erase` of `crates/test_tables/src/tables.rt`: edit that.
//! Tables, and what is asked of their rows.

use crate::test_tables::row::Row;

/// What is asked of each row of a table.
pub trait Asked {
    /// Whether a row holds; `None` where it can't be read, as where its call is unknown.
    fn holds(&self, row: &Row<'_>) -> Option<bool>;
}

/// Whether a line is a row that holds, or several of one answer that all do.
pub fn row_holds(line: &str, asked: &impl Asked) -> bool {
    let Some(row) = Row::read(line) else {
        return false;
    };
    for given in row.given.split(" / ") {
        if asked.holds(&Row { given, ..row }) != Some(true) {
            return false;
        }
    }
    true
}

/// The first line of a table that doesn't hold, or `no rows` where the table is empty; `None` where every row holds.
pub fn first_failing<'a>(table: &'a str, asked: &impl Asked) -> Option<&'a str> {
    if table == "" {
        return Some("no rows");
    }
    for line in table.lines() {
        if !row_holds(line, asked) {
            return Some(line);
        }
    }
    None
}

/// What a word means by a table of words; `None` where it isn't there.
pub fn meaning<T: Copy>(words: &[(&str, T)], word: &str) -> Option<T> {
    for (name, meaning) in words {
        if *name == word {
            return Some(*meaning);
        }
    }
    None
}
