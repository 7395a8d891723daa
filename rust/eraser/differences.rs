//! What both languages take, and mean otherwise: each such form is an error.

use crate::erase::Eraser;
use crate::library::is_of_memory;
use crate::names::{FALLIBLE, SIZED, TAKES_RANGES, UNKNOWN_FALLIBLE};
use crate::tokens::{Fault, Group, Kind, Nesting, Token, Tree, begins_with, fault, length_of_generics, text_of};

impl Eraser<'_> {
    /// What both languages take, and mean otherwise, is refused.
    pub(crate) fn difference(&mut self, trees: &[Tree]) -> Result<Option<usize>, Fault> {
        self.endless_range(trees)?;
        self.endless_value(trees)?;
        self.other_fields(trees)?;
        self.named_call(trees)?;
        match trees[0].is("impl").then(|| reference_to_any(trees)).flatten() {
            Some(reference) => Err(fault(&reference, "refers to any type, in the head of an impl")),
            None => Ok(None),
        }
    }

    /// A call that may fail for memory is one by a dot, or of `Vec` and `String`. By another name it returns what Rust's does.
    fn named_call(&self, trees: &[Tree]) -> Result<(), Fault> {
        let word = trees[0].word().unwrap_or_default();
        let is_fallible = FALLIBLE.contains(&word) || UNKNOWN_FALLIBLE.contains(&word);
        let is_called = trees.get(1).is_some_and(|tree| tree.group("(").is_some());
        let in_list = ["Vec::", "String::", "mem::"].iter().any(|before| self.out.ends_with(before));
        let is_other = self.out.ends_with("::") && !(is_called && in_list);
        let has_types = self.out.ends_with('.') && begins_with(&trees[1..], &[":", ":"]);
        let is_written = matches!(word, "write_str" | "write_char") && self.out.ends_with('.') && !self.is_formatter();
        if is_fallible && (is_other || has_types) || is_written {
            return Err(fault(trees[0].first(), "may fail for memory, and is named in a way that isn't known"));
        }
        Ok(())
    }

    /// Whether the value before a dot is `f`, the formatter. Another may be a text, with no room for what is written.
    fn is_formatter(&self) -> bool {
        self.out.rsplit(|letter: char| !letter.is_alphanumeric() && letter != '_').nth(1) == Some("f")
    }

    /// `a..` stands in an index, in a pattern, or in a call that doesn't iterate it.
    fn endless_range(&self, trees: &[Tree]) -> Result<(), Fault> {
        let is_range = begins_with(trees, &[".", "."]) && ends_value(&self.out);
        let is_endless = match trees.get(2) {
            None => true,
            Some(next) => [",", ";", "|", "else"].iter().any(|end| next.is(end)) || next.group("{").is_some(),
        };
        if is_range && is_endless && !self.takes_ranges {
            return Err(fault(trees[0].first(), "begins a range with no end, which may be iterated"));
        }
        Ok(())
    }

    /// Of a parameter that is a range with no end only the start is read, or it is handed to a call that doesn't iterate it.
    fn endless_value(&mut self, trees: &[Tree]) -> Result<(), Fault> {
        let (first, rest) = (trees[0].first(), &trees[1..]);
        if begins_with(rest, &[":", "RangeFrom", "<"]) && self.bracket == "(" {
            self.endless = first.text.to_string();
            return Ok(());
        }
        if trees[0].is("fn") {
            self.endless.clear();
        }
        let is_parameter = !self.endless.is_empty() && self.out.ends_with(&format!("{}:", self.endless));
        let is_type = trees[0].is("RangeFrom") && !is_parameter && !self.out.ends_with("From<");
        let is_taken = begins_with(rest, &[".", "start"]) || self.takes_ranges && rest.is_empty();
        if is_type || trees[0].is(&self.endless) && !is_taken {
            return Err(fault(first, "is a range with no end, which may be iterated"));
        }
        Ok(())
    }

    /// `..base` in a struct names no element: the kit doesn't read it where each field is written.
    fn other_fields(&self, trees: &[Tree]) -> Result<(), Fault> {
        let is_base =
            begins_with(trees, &[".", "."]) && self.bracket == "{" && self.out.trim_end().ends_with(['{', ',']);
        if is_base && text_of(&trees[2..]).contains('[') {
            return Err(fault(trees[0].first(), "takes the other fields from an element"));
        }
        Ok(())
    }

    /// Whether what a bracket opens is an index, or is handed to a call that doesn't iterate ranges.
    pub(crate) fn takes_ranges(&self, group: &Group) -> bool {
        let is_called = |name: &&str| [".", "::"].iter().any(|before| self.out.ends_with(&format!("{before}{name}")));
        match group.open.text {
            "[" => ends_value(&self.out),
            "(" => TAKES_RANGES.iter().any(is_called),
            _ => false,
        }
    }

    /// A derive that prints a value isn't one of a value that has an allocator, which the package leaves out.
    pub(crate) fn prints_memory(&self, names: &[&str], item: &[Tree]) -> bool {
        let end = item.iter().position(|tree| tree.is(";") || tree.group("{").is_some()).unwrap_or(0);
        names.contains(&"Debug") && item.get(end).is_some_and(|body| holds_memory(std::slice::from_ref(body)))
    }
}

/// Whether a field of these items is the allocator.
fn holds_memory(trees: &[Tree]) -> bool {
    let is_field = |field: &[Tree]| field[1].is(":") && is_of_memory(field);
    let in_group = |tree: &Tree| matches!(tree, Tree::Group(group) if holds_memory(&group.trees));
    trees.windows(3).any(is_field) || trees.iter().any(in_group)
}

/// Whether text ends with a value, and so an index or a range may follow.
pub fn ends_value(text: &str) -> bool {
    const KEYWORDS: &[&str] =
        &["as", "break", "else", "if", "in", "let", "match", "move", "mut", "ref", "return", "while"];
    let word = text.rsplit(|letter: char| !letter.is_alphanumeric() && letter != '_').next().unwrap_or_default();
    let before = &text[..text.len() - word.len()];
    match word {
        "" => text.ends_with([')', ']', '}', '"', '\'', '?']),
        _ => !KEYWORDS.contains(&word) && !before.ends_with('\''),
    }
}

/// The reference in the head of an impl to a type of which no bound says that it has a size: Rust's `Self` may have none.
fn reference_to_any<'a>(trees: &[Tree<'a>]) -> Option<Token<'a>> {
    let generics = 1 + length_of_generics(&trees[1..]);
    let body = trees.iter().position(|tree| tree.group("{").is_some()).unwrap_or(trees.len());
    let names = unsized_parameters(&trees[1..generics]);
    reference_to(&trees[generics.min(body)..body], &names)
}

/// The type parameters in `<..>` of which no bound says that they have a size.
fn unsized_parameters<'a>(generics: &[Tree<'a>]) -> Vec<&'a str> {
    let mut nesting = Nesting::default();
    let parameters = generics.split(|tree| nesting.after(tree) == 1 && tree.is(","));
    let is_sized = |pair: &[Tree]| (pair[0].is(":") || pair[0].is("+")) && SIZED.iter().any(|bound| pair[1].is(bound));
    let unbound = parameters.filter(|parameter| !parameter.windows(2).any(is_sized));
    unbound.filter_map(|parameter| parameter.iter().find_map(Tree::word)).collect()
}

/// A reference to a type of one of these names.
fn reference_to<'a>(trees: &[Tree<'a>], names: &[&str]) -> Option<Token<'a>> {
    for (at, tree) in trees.iter().enumerate() {
        let is_prefix = |tree: &&Tree| tree.first().kind == Kind::Lifetime || tree.is("mut");
        let named = trees[at + 1..].iter().find(|tree| !is_prefix(tree)).and_then(Tree::word);
        let inner = match tree {
            Tree::Group(group) => reference_to(&group.trees, names),
            Tree::Leaf(token) => (tree.is("&") && named.is_some_and(|name| names.contains(&name))).then_some(*token),
        };
        if inner.is_some() {
            return inner;
        }
    }
    None
}
