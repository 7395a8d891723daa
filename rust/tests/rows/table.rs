//! Tables of rows, and the words of which rows are made.
//!
//! A row is `CALL ARG ARG .. => ANSWER`. Rows of one call and one answer may stand in one line: `CALL ARG .. / ARG .. => ANSWER`.
//! A word is a name, a number, a list of numbers (`2,3,-1`, or `-` for none), slice elements (`1..4;2,-1,NewAxis`) or the name
//! of a dimension type (`Ix0` to `Ix6`, `IxDyn`). Negative lengths and strides are kept by their bits.

use ndarray_layout::{LayoutError, Lengths, Order, ShapeError, SliceInfoElem, signed, unsigned};
use std::fmt::{Debug, Display};
use std::str::{FromStr, SplitWhitespace};

/// Asserts that a call has the answer of each row of a table.
pub fn assert_rows(table: &str, answer: impl Fn(&str, &mut Words) -> String) {
    assert!(!table.is_empty());
    for line in table.lines() {
        let (asked, expected) = line.split_once(" => ").expect(line);
        let (call, given) = asked.split_once(' ').expect(line);
        for given in given.split(" / ") {
            let mut words = Words::of(given);
            assert_eq!(answer(call, &mut words), expected, "{call} {given}");
            assert!(words.is_end(), "{call} {given}");
        }
    }
}

/// An expression at the dimension type of so many axes, if it is for up to six, or else at `IxDyn`.
macro_rules! at_type {
    ($axes:expr, $dimension:ident => $call:expr) => {{
        macro_rules! at {
            ($chosen:ty) => {{
                type $dimension = $chosen;
                $call
            }};
        }
        match $axes {
            Some(0) => at!(ndarray_layout::Ix0),
            Some(1) => at!(ndarray_layout::Ix1),
            Some(2) => at!(ndarray_layout::Ix2),
            Some(3) => at!(ndarray_layout::Ix3),
            Some(4) => at!(ndarray_layout::Ix4),
            Some(5) => at!(ndarray_layout::Ix5),
            Some(6) => at!(ndarray_layout::Ix6),
            _ => at!(ndarray_layout::IxDyn),
        }
    }};
}
pub(crate) use at_type;

/// The words of a row that are still to be read.
pub struct Words<'a>(SplitWhitespace<'a>);

impl<'a> Words<'a> {
    pub fn of(text: &'a str) -> Self {
        Words(text.split_whitespace())
    }

    pub fn is_end(&mut self) -> bool {
        self.0.next().is_none()
    }

    /// The next word, if there is one.
    pub fn try_word(&mut self) -> Option<&'a str> {
        self.0.next()
    }

    pub fn word(&mut self) -> &'a str {
        self.try_word().expect("a further word")
    }

    pub fn number<T: FromStr<Err: Debug>>(&mut self) -> T {
        self.word().parse().expect("a number")
    }

    pub fn list(&mut self) -> Vec<usize> {
        numbers(self.word())
    }

    pub fn dim<D: Lengths>(&mut self) -> D {
        dim_of(&self.list()).expect("as many numbers as the type has axes")
    }

    pub fn elems(&mut self) -> Vec<SliceInfoElem> {
        elems(self.word())
    }

    /// `C` or `F`.
    pub fn order(&mut self) -> Order {
        match self.word() {
            "C" => Order::C,
            "F" => Order::F,
            word => panic!("no order: {word}"),
        }
    }

    /// The count of axes that a type of this name fixes.
    pub fn ndim(&mut self) -> Option<usize> {
        let count = self.word().strip_prefix("Ix").expect("a dimension type");
        (count != "Dyn").then(|| count.parse().expect("a count of axes"))
    }
}

/// The numbers of a list.
pub fn numbers(word: &str) -> Vec<usize> {
    match word {
        "-" => Vec::new(),
        _ => word.split(',').map(number).collect(),
    }
}

/// A length, or a negative stride by its bits.
fn number(text: &str) -> usize {
    text.parse().unwrap_or_else(|_| unsigned(text.parse().expect("a number")))
}

/// Slice elements.
pub fn elems(word: &str) -> Vec<SliceInfoElem> {
    match word {
        "-" => Vec::new(),
        _ => word.split(',').map(elem).collect(),
    }
}

/// The element that a text spells: `3`, `1..`, `..4`, `1..;-2` or `NewAxis`.
fn elem(text: &str) -> SliceInfoElem {
    let bound = |text: &str| (!text.is_empty()).then(|| text.parse().expect("a bound"));
    let Some((start, rest)) = text.split_once("..") else {
        return match text {
            "NewAxis" => SliceInfoElem::NewAxis,
            _ => SliceInfoElem::Index(text.parse().expect("an index")),
        };
    };
    let (end, step) = rest.split_once(';').unwrap_or((rest, "1"));
    SliceInfoElem::Slice { start: bound(start).unwrap_or(0), end: bound(end), step: step.parse().expect("a step") }
}

/// The value of a type that stands for a list, where the type doesn't fix another count of axes.
pub fn dim_of<D: Lengths>(lens: &[usize]) -> Option<D> {
    if D::NDIM.is_some_and(|count| count != lens.len()) {
        return None;
    }
    let mut dim = D::zeros(lens.len()).unwrap();
    dim.slice_mut().copy_from_slice(lens);
    Some(dim)
}

/// Numbers as a row lists them.
pub fn list<T: Display>(numbers: impl IntoIterator<Item = T>) -> String {
    let texts: Vec<String> = numbers.into_iter().map(|number| number.to_string()).collect();
    if texts.is_empty() { "-".to_owned() } else { texts.join(",") }
}

/// The lengths of a dimension.
pub fn lengths<D: Lengths>(dim: &D) -> String {
    list(dim.slice())
}

/// The numbers of a dimension as strides.
pub fn strides<D: Lengths>(dim: &D) -> String {
    list(dim.slice().iter().map(|stride| signed(*stride)))
}

/// The kind of an error.
pub fn kind(error: ShapeError) -> String {
    format!("{:?}", error.kind())
}

/// The kind of an error that is none of memory.
pub fn layout_kind(error: LayoutError) -> String {
    match error {
        LayoutError::Shape(error) => kind(error),
        LayoutError::Memory(error) => panic!("{error}"),
    }
}
