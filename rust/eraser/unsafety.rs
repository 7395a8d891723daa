//! What keeps the package sound: where `unsafe` stays, with the words that say why, and conditions that are checked.

use crate::erase::Eraser;
use crate::names::{CHECKED, IN_ROOM, ROOM, SEEN, UNNAMED, UNSAFE};
use crate::paragraphs::Paragraphs;
use crate::tokens::{Fault, Tree, fault, length_of_generics};

/// How a comment begins that says why `unsafe` is sound.
const SAFETY: &str = "// SAFETY: ";

/// The columns that a line of the package takes.
const COLUMNS: usize = 120;

impl Eraser<'_> {
    /// `unsafe { .. }` and `unsafe impl TRAIT for ..` stay where it is told why they are sound.
    pub(crate) fn unsafety(&mut self, trees: &[Tree]) -> Result<Option<usize>, Fault> {
        let [word, next, ..] = trees else {
            return Ok(None);
        };
        let item = match next {
            _ if !word.is("unsafe") => return Ok(None),
            Tree::Group(group) if group.open.text == "{" => self.of_function.as_str(),
            _ if next.is("impl") => {
                trees[2 + length_of_generics(&trees[2..])..].first().and_then(Tree::word).unwrap_or_default()
            }
            _ => return Ok(None),
        };
        let (own, token) = (self.names.own, word.first());
        let known = UNSAFE.iter().find(|(known, name, _)| *known == own && *name == item);
        let indent = token.lead.rsplit('\n').next().unwrap_or_default();
        let comment = match known {
            _ if token.lead.contains(SAFETY) && self.names.is_sound_by_conditions() => String::new(),
            Some((.., reason)) => comment(reason, indent),
            None => return Err(fault(token, "is sound for no reason that `UNSAFE` of rust/eraser/names.rs has")),
        };
        self.put(token.lead, &format!("{comment}unsafe"));
        self.is_unsafe = true;
        match next {
            Tree::Group(group) if self.names.is_packed() => self.reference(&group.trees),
            _ => Ok(Some(1)),
        }
    }

    /// What is in the braces of `unsafe`, `&*POINTER` or a slice of parts, through a `NonNull`: else rustc forgets that a reference which was
    /// a pointer isn't null, and a loop over brackets tests each.
    fn reference(&mut self, trees: &[Tree]) -> Result<Option<usize>, Fault> {
        let is_mutable = trees.iter().take(2).any(|tree| tree.is("mut") || tree.is("from_raw_parts_mut"));
        self.put(" ", "{ core::ptr::NonNull::from(");
        self.all(trees)?;
        self.put("", if is_mutable { ").as_mut() }" } else { ").as_ref() }" });
        Ok(Some(2))
    }

    /// Whether no user of the package sees what stands after `pub`: it is hidden, or stands in a crate or a type that no user can name.
    pub(crate) fn is_unseen(&self, item: &[Tree]) -> bool {
        let is_at_top = self.bracket.is_empty();
        let is_unnamed = match item {
            [word, ..] if is_at_top && word.is("fn") => true,
            [word, name, ..] if is_at_top && word.is("trait") => UNNAMED.contains(&name.first().text),
            _ => UNNAMED.contains(&self.of_impl.as_str()),
        };
        self.is_hidden || (IN_ROOM.contains(&self.names.own) && is_unnamed)
    }

    /// `pub` after `#[doc(hidden)]`: what crates hand on to one another, and no user sees.
    pub(crate) fn hidden(&mut self, trees: &[Tree]) -> Result<Option<usize>, Fault> {
        let is_seen = matches!(trees, [_, word, name, ..] if word.is("fn") && SEEN.contains(&name.first().text));
        if !trees[0].is("pub") || !std::mem::take(&mut self.is_hidden) {
            return Ok(None);
        }
        let seen = if is_seen { "crate".to_string() } else { format!("in crate::{ROOM}") };
        self.put(trees[0].first().lead, &format!("pub({seen})"));
        Ok(Some(1))
    }

    /// What all of a crate sees, in a module whose conditions keep `unsafe` sound, the crate's module sees alone: no other file of the package,
    /// but for the calls of `SEEN`.
    pub(crate) fn own_crate(&mut self, trees: &[Tree]) -> Result<Option<usize>, Fault> {
        let [word, Tree::Group(seen), ..] = trees else {
            return Ok(None);
        };
        let is_of_crate = word.is("pub") && matches!(&seen.trees[..], [only] if only.is("crate"));
        let is_seen =
            matches!(trees[2..], [ref word, ref name, ..] if word.is("fn") && SEEN.contains(&name.first().text));
        if !is_of_crate || is_seen || !self.names.is_packed() || !self.names.is_sound_by_conditions() {
            return Ok(None);
        }
        self.put(word.first().lead, &format!("pub(in crate::{})", self.names.place()));
        Ok(Some(2))
    }

    /// The condition of the function at hand, what a panic says where it is broken, and what the docs say, if the package checks it.
    fn checked(&self) -> Option<(&'static str, &'static str, &'static str)> {
        let (is_checked, name) = (self.contract.is_public && self.contract.is_function, &self.contract.name);
        let of_list = CHECKED.iter().find(|(ty, call, ..)| self.of_impl == *ty && name == call);
        let found = of_list.filter(|_| is_checked && self.names.is_sound_by_conditions());
        found.map(|(.., condition, words, told)| (*condition, *words, *told))
    }

    /// The assertion of the condition of the function at hand, if the package checks it.
    pub(crate) fn assertion(&self) -> Option<String> {
        self.checked().map(|(condition, words, _)| format!("assert!({condition}, {words:?});"))
    }

    /// What is said of a condition of the item at hand that is broken. The error is one that keeps `unsafe` sound, of a call that others
    /// see, which isn't checked.
    pub(crate) fn broken(&self) -> Result<&'static str, &'static str> {
        match self.checked() {
            Some((.., told)) => Ok(told),
            None if !self.names.is_sound_by_conditions() => {
                Ok("Otherwise this call or a later one panics or returns unspecified values.")
            }
            None if self.contract.is_public && self.contract.has_condition() => {
                Err("begins a call that others see, whose condition `CHECKED` of rust/eraser/names.rs lacks")
            }
            None => Ok("Otherwise the behaviour is undefined."),
        }
    }
}

/// Lines of a comment before an item with an indent, and the indent of the item.
fn comment(reason: &str, indent: &str) -> String {
    let mark = "// ";
    let mut paragraphs = Paragraphs::of("", COLUMNS - indent.len() - mark.len());
    paragraphs.push(&format!("{}{reason}", &SAFETY[mark.len()..]));
    paragraphs.lines().iter().map(|line| format!("{mark}{line}\n{indent}")).collect()
}
