//! Forms of Rust that the package's least rustc doesn't have yet, as it has them.

use crate::erase::Eraser;
use crate::tokens::{Fault, Tree, begins_with, fault};

/// Calls by which a number of a machine word is read with or without a sign, and the type of what they return.
const CASTS: &[(&str, &str)] = &[("cast_signed", "isize"), ("cast_unsigned", "usize")];

impl Eraser<'_> {
    /// `if let P = a && b { .. }`, without `else`, becomes `if let P = a { if b { .. } }`.
    pub(crate) fn chain(&mut self, trees: &[Tree]) -> Result<Option<usize>, Fault> {
        let Some(body) = trees.iter().position(|tree| tree.group("{").is_some()) else {
            return Ok(None);
        };
        let is_chain = |pair: &[Tree]| begins_with(pair, &["&", "&"]) && pair[1].first().lead.is_empty();
        let head = &trees[..body];
        let first = (begins_with(trees, &["if", "let"])).then(|| head.windows(2).position(is_chain)).flatten();
        let Some(first) = first else {
            return Ok(None);
        };
        if trees.get(body + 1).is_some_and(|tree| tree.is("else")) || head[first + 2..].windows(2).any(is_chain) {
            return Err(fault(head[first].first(), "is one of several conditions that older Rust hasn't"));
        }
        self.all(&trees[..first])?;
        self.put("", " {\n    if");
        self.all(&trees[first + 2..=body])?;
        self.put("", "\n}");
        Ok(Some(body + 1))
    }

    /// `n.cast_signed()`, of a `usize`, becomes `n as isize`, and `n.cast_unsigned()`, of an `isize`, `n as usize`. Where the
    /// number is of another type, rustc refuses what is made.
    pub(crate) fn cast(&mut self, trees: &[Tree]) -> Result<Option<usize>, Fault> {
        let cast = |tree: &Tree| CASTS.iter().find(|(name, _)| tree.is(name));
        let [name, dot, call, none, ..] = trees else {
            return Ok(None);
        };
        let Some((_, ty)) = cast(call).filter(|_| dot.is(".") && none.group("(").is_some()) else {
            return Ok(None);
        };
        if name.word().is_none() || self.out.ends_with(['.', ':']) {
            // (clippy finds what the package's least rustc hasn't)
            return Ok(None);
        }
        let text = format!("{} as {ty}", name.first().text);
        let is_alone = trees.len() == 4 && self.out.ends_with('{');
        self.put(name.first().lead, &if is_alone { text } else { format!("({text})") });
        Ok(Some(4))
    }
}
