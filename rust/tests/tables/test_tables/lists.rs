// Made by `rust/erase` of `crates/test_tables/src/lists.rt`: edit that.
//! The lists of a row, and the values that stand for lists.

use crate::test_tables::row::Words;
use ::ndarray_layout::memory::prelude::FallibleVec;
use ::ndarray_layout::nd_base::{Lengths, unsigned};

/// A list of a row, of at most 16 numbers. It takes no memory, so a row can be read where an allocation
/// fails.
#[derive(Clone, Copy)]
pub struct List {
    items: [usize; 16],
    count: usize,
}

impl List {
    /// The empty list.
    const NONE: List = List { items: [0; 16], count: 0 };

    /// Its numbers.
    pub fn as_slice(&self) -> &[usize] {
        &self.items[..self.count]
    }

    /// The list of these numbers; `None` where there are more than 16.
    pub fn of(numbers: &[usize]) -> Option<List> {
        let mut items = [0; 16];
        items.get_mut(..numbers.len())?.copy_from_slice(numbers);
        Some(List { items, count: numbers.len() })
    }

    /// The list that a word tells; `None` where a part of it is no number, or there are more than 16.
    pub fn read(word: &str) -> Option<List> {
        let mut list = List::NONE;
        if word == "-" {
            return Some(list);
        }
        for part in word.split(',') {
            list.fallible_push(item(part)?)?;
        }
        Some(list)
    }

    /// Adds a number; `None` where there is no room for it.
    fn fallible_push(&mut self, number: usize) -> Option<()> {
        *self.items.get_mut(self.count)? = number;
        self.count += 1;
        Some(())
    }

    /// The number at a place, or the greatest `usize`, which is no axis, past the end.
    pub fn at(&self, place: usize) -> usize {
        self.as_slice().get(place).copied().unwrap_or(usize::MAX)
    }
}

/// Up to four lists that a call takes. Those that the row doesn't have are empty.
#[derive(Clone, Copy)]
pub struct Lists {
    pub first: List,
    pub second: List,
    pub third: List,
    pub fourth: List,
}

impl Lists {
    /// The lists of a text; `None` where a word is no list, or there are more than four.
    pub fn read(text: &str) -> Option<Lists> {
        let mut lists = [List::NONE; 4];
        let mut words = text.split_whitespace();
        for list in &mut lists {
            *list = List::read(words.next().unwrap_or("-"))?;
        }
        let [first, second, third, fourth] = lists;
        let lists = Lists { first, second, third, fourth };
        words.next().is_none().then_some(lists)
    }
}

/// A length, or a negative stride by its bits; `None` where the text is no such number.
pub(crate) fn item(part: &str) -> Option<usize> {
    if part.starts_with('-') {
        let stride: isize = part.parse().ok()?;
        return Some(unsigned(stride));
    }
    part.parse().ok()
}

/// The value of a type that stands for a list; `None` where the type has another count of axes, or
/// an allocation fails.
///
/// <details><summary>Contract (proved)</summary>
///
/// ```text
/// ensures IfSome result (λ dim. D.list dim ≡ lens.now)
/// ```
/// [How to read it](ndarray_layout::contracts)
/// </details>
pub fn made<D: Lengths>(lens: &[usize]) -> Option<D> {
    match D::NDIM {
        Some(count) if count != lens.len() => return None,
        _ => {}
    }
    let mut dim = D::zeros(lens.len()).ok()?;
    dim.slice_mut().copy_from_slice(lens);
    Some(dim)
}
