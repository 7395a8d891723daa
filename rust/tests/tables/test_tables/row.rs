// Made by `rust/erase` of `crates/test_tables/src/row.rt`: edit that.
//! Rows and their words.

use crate::test_tables::lists::{List, Lists, item, made};
use crate::test_tables::tables::meaning;
use ::ndarray_layout::nd_base::Lengths;
use core::str::SplitWhitespace;

/// A row of a table: the name of a call, what it takes, and what is answered.
#[derive(Clone, Copy)]
pub struct Row<'a> {
    pub call: &'a str,
    pub given: &'a str,
    pub answer: &'a str,
}

impl<'a> Row<'a> {
    /// The row that a line tells; `None` where it has no answer.
    pub fn read(line: &'a str) -> Option<Row<'a>> {
        let (asked, answer) = line.split_once(" => ")?;
        let (call, given) = asked.split_once(" ").unwrap_or((asked, ""));
        Some(Row { call, given, answer })
    }

    /// The words of what the call takes.
    pub fn words(&self) -> Words<'a> {
        Words::of(self.given)
    }

    /// The words of the answer.
    pub fn answers(&self) -> Words<'a> {
        Words::of(self.answer)
    }

    /// The words of both.
    pub fn reading(&self) -> Reading<'a> {
        Reading { given: self.words(), answer: self.answers() }
    }

    /// What the call takes as up to four lists; `None` where a word is no list, or there are more.
    pub fn lists(&self) -> Option<Lists> {
        Lists::read(self.given)
    }
}

/// The words of a row that are still to be read: those of what the call takes, and those of the answer.
pub struct Reading<'a> {
    pub given: Words<'a>,
    pub answer: Words<'a>,
}

/// The counts of axes that dimension types fix, by their names.
static TYPES: [(&str, Option<usize>); 8] = [
    ("Ix0", Some(0)),
    ("Ix1", Some(1)),
    ("Ix2", Some(2)),
    ("Ix3", Some(3)),
    ("Ix4", Some(4)),
    ("Ix5", Some(5)),
    ("Ix6", Some(6)),
    ("IxDyn", None),
];

/// Words that are still to be read. Each call reads the next one, and answers `None` (or `false`) where there is
/// none, or it is no such word.
pub struct Words<'a> {
    words: SplitWhitespace<'a>,
}

impl<'a> Words<'a> {
    /// The words of a text.
    pub fn of(text: &'a str) -> Self {
        Words { words: text.split_whitespace() }
    }

    /// A word.
    pub fn word(&mut self) -> Option<&'a str> {
        self.words.next()
    }

    /// A number that is not negative.
    pub fn length(&mut self) -> Option<usize> {
        self.word()?.parse().ok()
    }

    /// A signed number.
    pub fn number(&mut self) -> Option<isize> {
        self.word()?.parse().ok()
    }

    /// A list of at most 16 numbers.
    pub fn list(&mut self) -> Option<List> {
        List::read(self.word()?)
    }

    /// A list as a value of a dimension type.
    pub fn dim<D: Lengths>(&mut self) -> Option<D> {
        let list = self.list()?;
        made(list.as_slice())
    }

    /// The count of axes that a dimension type fixes, by its name.
    pub fn ndim(&mut self) -> Option<Option<usize>> {
        meaning(&TYPES, self.word()?)
    }

    /// Whether this is the word.
    pub fn is(&mut self, word: &str) -> bool {
        self.word() == Some(word)
    }

    /// Whether this is the number.
    pub fn is_length(&mut self, number: usize) -> bool {
        self.length() == Some(number)
    }

    /// Whether these are the numbers of the list, however many.
    pub fn is_list(&mut self, numbers: &[usize]) -> bool {
        match self.word() {
            Some(word) => lists(word, numbers),
            None => false,
        }
    }

    /// Whether no word is left.
    pub fn is_end(&mut self) -> bool {
        self.word().is_none()
    }
}

/// Whether a word lists these numbers.
fn lists(word: &str, numbers: &[usize]) -> bool {
    if word == "-" {
        return numbers.is_empty();
    }
    let mut left = numbers.iter();
    for part in word.split(',') {
        if item(part).is_none() || left.next().copied() != item(part) {
            return false;
        }
    }
    left.next().is_none()
}
