//! Bounds by which generic code over the package is what it is over ndarray: those that the package adds to the sources', and
//! those that it asks for less. The kit has no `Send`, its `Clone` may fail, and bounds that name the trait itself can't be proved.

use crate::erase::Eraser;
use crate::tokens::{Fault, Tree, begins_with, fault, length_of_generics};

/// Traits of the package, each with bounds that it has beside those of its source.
pub const ADDED: &[(&str, &[&str])] = &[
    ("Lengths", &["Clone", "Send", "Sync"]),
    ("Arithmetic", &["for<'x> AddAssign<&'x Self>", "for<'x> SubAssign<&'x Self>", "for<'x> MulAssign<&'x Self>"]),
    (
        "Dimension",
        &[
            "Default",
            "IntoDimension<Dim = Self>",
            "crate::DimMax<Self, Output = Self>",
            "crate::DimMax<crate::Ix0, Output = Self>",
            "crate::DimMax<crate::IxDyn, Output = crate::IxDyn>",
            "crate::DimMax<<Self as Dimension>::Smaller, Output = Self>",
            "crate::DimMax<<Self as Dimension>::Larger, Output = <Self as Dimension>::Larger>",
            "crate::DimAdd<Self>",
            "crate::DimAdd<<Self as Dimension>::Smaller>",
            "crate::DimAdd<<Self as Dimension>::Larger>",
            "crate::DimAdd<crate::Ix0, Output = Self>",
            "crate::DimAdd<crate::Ix1, Output = <Self as Dimension>::Larger>",
            "crate::DimAdd<crate::IxDyn, Output = crate::IxDyn>",
        ],
    ),
];

/// Types that go with a sealed trait, each with the bounds that stand in the package for those of its source.
pub const OF_TYPES: &[(&str, &[&str])] = &[
    ("Pattern", &["IntoDimension<Dim = Self>", "Clone", "core::fmt::Debug", "PartialEq", "Eq", "Default"]),
    ("Smaller", &["Dimension"]),
    ("Larger", &["Dimension", "crate::RemoveAxis"]),
    ("OutDim", &["crate::Dimension"]),
];

/// A bound or a value of a source, and what stands for it in the package.
pub type Replaced = (&'static [&'static str], &'static str);

/// Impls that the sources have for a parameter with `+ Copy`, each with the values that it copies. In the package they stand for
/// `+ Clone`, which is the same where a value is copied, and panics where an allocation fails for another.
pub const CLONED: &[(&[&str], &[Replaced])] = &[
    (&["Clone", "for", "Indices"], &[(&["*", "self"], "Indices { dim: self.dim.clone() }")]),
    (&["IntoIterator", "for", "Indices"], &[(&["self", ".", "dim"], "self.dim.clone()")]),
    (
        &["Clone", "for", "IndexIter"],
        &[(&["self", ".", "dim"], "self.dim.clone()"), (&["self", ".", "index"], "self.index.clone()")],
    ),
    (
        &["Iterator", "for", "IndexIter"],
        &[(&["self", ".", "index"], "self.index.clone()"), (&["index"], "index.clone()")],
    ),
    (&["ExactSizeIterator", "for", "IndexIter"], &[]),
    (&["FusedIterator", "for", "IndexIter"], &[]),
    (&["Clone", "for", "SliceInfo"], &[(&["self", ".", "indices"], "self.indices.clone()")]),
    (
        &["Strided"],
        &[
            (&["*", "ends"], "ends.clone()"),
            (&["*", "starts"], "starts.clone()"),
            (&["self", ".", "strides"], "self.strides.clone()"),
        ],
    ),
    (&["ArrayView"], &[]),
    (
        &["ArrayViewMut"],
        &[
            (&["|", "stored"], "move |stored"),
            (&["*", "stored", "=", "item"], "stored.clone_from(&item)"),
            (&["*", "stored", "=", "*", "item"], "stored.clone_from(item)"),
        ],
    ),
];

/// Functions that the sources have for a parameter with `+ Copy`, each with what it copies, as `CLONED` has impls.
pub const CLONED_BY: &[(&str, &[Replaced])] = &[
    ("copy_places", &[(&["*", "stored", "=", "*", "item"], "stored.clone_from(item)")]),
    ("copy_apart", &[]),
    ("copy_row", &[(&["stored", ".", "copy_from_slice"], "stored.clone_from_slice")]),
    ("copy_each", &[]),
    ("copy_rows", &[]),
    ("copy_view", &[]),
];

/// Impls of slice arguments, whose shape after is any list of lengths in the sources, and a dimension in the package.
pub const OF_DIMENSIONS: &[&[&str]] = &[&["SliceArg", "<"]];

/// Types whose calls take a `StrideShape` in the sources: in the package what converts to one, as ndarray's calls do.
pub const OF_SHAPES: &[&str] = &["ArrayView", "ArrayViewMut", "OwnedArray"];

/// The parameter of these calls, and how they hand it on.
const SHAPES: &[Replaced] = &[
    (&["shape", ":", "StrideShape", "<", "D", ">"], "shape: impl Into<StrideShape<D>>"),
    (&["shape", ",", "1"], "shape.into(), 1"),
];

/// Bounds after others, or none.
pub fn added_to(name: &str) -> String {
    let added = ADDED.iter().find(|(of, _)| *of == name);
    added.map_or(String::new(), |(_, bounds)| format!(" + {}", bounds.join(" + ")))
}

impl Eraser<'_> {
    /// `type NAME: ..;` of a sealed trait gets the bounds of the list.
    pub(crate) fn type_bounds(&mut self, trees: &[Tree]) -> Result<Option<usize>, Fault> {
        let [word, name, colon, ..] = trees else {
            return Ok(None);
        };
        if !self.in_trait || !word.is("type") || !colon.is(":") {
            return Ok(None);
        }
        let Some((name, bounds)) = OF_TYPES.iter().find(|(of, _)| name.is(of)) else {
            return Ok(None);
        };
        self.put(word.first().lead, &format!("type {name}: {}", bounds.join(" + ")));
        Ok(trees.iter().position(|tree| tree.is(";")))
    }

    /// An impl or a function of a list has its bounds replaced, and the values that its source copies.
    pub(crate) fn listed(&mut self, trees: &[Tree]) -> Result<Option<usize>, Fault> {
        if !self.replaced.is_empty() || !self.names.is_packed() {
            return Ok(None);
        }
        self.replaced = match trees {
            [word, ..] if word.is("impl") => replaced_in(trees),
            [word, name, ..] if word.is("fn") => replaced_by(name.first().text),
            _ => return Ok(None),
        };
        if self.replaced.is_empty() {
            return Ok(None);
        }
        let body = (0..trees.len()).find(|at| trees[*at].group("{").is_some() && !is_clause(&trees[..*at]));
        let body = body.ok_or_else(|| fault(trees[0].first(), "is an item without a body"))?;
        let whole = self.all(&trees[..=body]);
        self.replaced.clear();
        whole.map(|()| Some(body + 1))
    }

    /// A bound or a value is replaced in an item of a list where nothing is read of it: a bracket, a comma or a semicolon ends it. What
    /// begins a closure or a call of what is stored is replaced as it stands.
    pub(crate) fn replacement(&mut self, trees: &[Tree]) -> Result<Option<usize>, Fault> {
        let is_begun = trees[0].is("|") || trees[0].is("stored");
        let ends = |next: &Tree| is_begun || [",", ";", ">"].iter().any(|end| next.is(end));
        let is_whole = |rest: &[Tree]| rest.first().is_none_or(ends);
        let is_replaced = |(texts, _): &&Replaced| begins_with(trees, texts) && is_whole(&trees[texts.len()..]);
        match self.replaced.iter().find(is_replaced).filter(|_| !self.out.ends_with('.')).copied() {
            Some((texts, other)) => {
                self.put(trees[0].first().lead, other);
                Ok(Some(texts.len()))
            }
            None => Ok(None),
        }
    }
}

/// Whether a clause comes after trees: a word of these, and its name where it has one.
fn is_clause(before: &[Tree]) -> bool {
    before.iter().rev().take(2).any(|tree| tree.is("requires") || tree.is("ensures"))
}

/// What is replaced in a function; nothing where no list has it.
fn replaced_by(name: &str) -> Vec<Replaced> {
    let listed = CLONED_BY.iter().find(|(of, _)| *of == name);
    listed.map_or(Vec::new(), |(_, values)| [*values, &[(&["+", "Copy"], "+ Clone")]].concat())
}

/// What is replaced in an impl; nothing where no list has it.
fn replaced_in(trees: &[Tree]) -> Vec<Replaced> {
    let (generics, of) = trees.split_at(1 + length_of_generics(&trees[1..]));
    let is_of = |words: &[&str]| begins_with(of, words);
    let copies = generics.windows(2).any(|pair| begins_with(pair, &["+", "Copy"]));
    let cloned = CLONED.iter().find(|(words, _)| copies && is_of(words));
    let mut replaced: Vec<Replaced> = cloned.map_or(Vec::new(), |(_, values)| values.to_vec());
    if cloned.is_some() {
        replaced.push((&["+", "Copy"], "+ Clone"));
    }
    if OF_DIMENSIONS.iter().any(|words| is_of(words)) {
        replaced.push((&[":", "Lengths"], ": crate::Dimension"));
    }
    if OF_SHAPES.iter().any(|name| is_of(&[name])) {
        replaced.extend(SHAPES);
    }
    replaced
}
