//! The forms that name the kit's library: its modules, its memory and its macros.

use crate::erase::{Eraser, place_of};
use crate::names::{
    DROPPED, DROPPED_MODULES, FALLIBLE, FALLIBLE_WITH_MEMORY, KIT, MACROS, MODULES, MOVED, UNKNOWN_FALLIBLE,
};
use crate::tokens::{Fault, Group, Token, Tree, begins_with, fault};

impl Eraser<'_> {
    /// `use std::..;` is taken from `core`, from `std`, or from this package. `use thiserror::Error;` goes with the derive.
    pub(crate) fn import(&mut self, trees: &[Tree]) -> Result<Option<usize>, Fault> {
        let derive = ["use", "thiserror", ":", ":", "Error", ";"];
        if begins_with(trees, &derive) {
            return Ok(Some(derive.len()));
        }
        if !begins_with(trees, &["use", "std", ":", ":"]) {
            return Ok(None);
        }
        let end = trees.iter().position(|tree| tree.is(";"));
        let end = end.ok_or_else(|| fault(trees[0].first(), "has no end"))?;
        let (word, written) = (trees[0].first(), self.out.len());
        match &trees[4..end] {
            [Tree::Group(modules)] => {
                for module in items_of(&modules.trees) {
                    self.import_of(word.lead, module)?;
                }
            }
            path => self.import_of(word.lead, path)?,
        }
        // (`pub` stands before the first alone)
        if self.out[..written].ends_with(['b', ')']) && self.out[written..].matches(';').count() > 1 {
            return Err(fault(word, "exports more than one item of std"));
        }
        Ok(Some(end + 1))
    }

    /// The import of a module of the kit's `std`, or of items of one.
    fn import_of(&mut self, lead: &str, path: &[Tree]) -> Result<(), Fault> {
        let module = path[0].first();
        let items: Vec<&[Tree]> = match path {
            [_] => return self.import_module(lead, module),
            [_, colon, _, Tree::Group(list)] if colon.is(":") => items_of(&list.trees).collect(),
            [_, colon, _, item @ ..] if colon.is(":") => vec![item],
            [_, other, ..] => return Err(fault(other.first(), "follows a module of std in an import")),
            [] => return Ok(()),
        };
        for item in items {
            let [Tree::Leaf(item)] = item else {
                return Err(fault(item[1].first(), "follows an item of std in an import"));
            };
            if DROPPED.contains(&item.text) {
                continue;
            }
            if item.text == "self" {
                self.import_module(lead, module)?;
                continue;
            }
            let path = match MOVED.iter().find(|(name, _)| *name == item.text) {
                Some((_, path)) => path.to_string(),
                None => format!("{}::{}", self.path_of(module, Some(item))?, item.text),
            };
            self.put(lead, &format!("use {path};"));
        }
        Ok(())
    }

    fn import_module(&mut self, lead: &str, module: &Token) -> Result<(), Fault> {
        if !DROPPED_MODULES.contains(&module.text) {
            let path = self.path_of(module, None)?;
            self.put(lead, &format!("use {path};"));
            self.imported.push(module.text.to_string());
        }
        Ok(())
    }

    /// Where a module of the kit's `std` stands in plain Rust, if an item of it may be named.
    fn path_of(&self, module: &Token, item: Option<&Token>) -> Result<String, Fault> {
        let known = MODULES.iter().find(|(name, ..)| *name == module.text);
        let (_, root, items) = known.ok_or_else(|| fault(module, "is a module of std that isn't known"))?;
        if let Some(item) = item.filter(|item| !items.contains(&item.text)) {
            return Err(fault(item, "is an item of std that isn't known"));
        }
        Ok(match *root {
            "MEMORY" => format!("{}::memory", self.names.package),
            root => format!("{root}::{}", module.text),
        })
    }

    /// `let alloc = rt.alloc();` goes.
    pub(crate) fn allocator(&mut self, trees: &[Tree]) -> Result<Option<usize>, Fault> {
        let call = ["let", "alloc", "=", "rt", ".", "alloc"];
        let ends = matches!(trees.get(call.len()..), Some([Tree::Group(none), end, ..]) if none.trees.is_empty() && end.is(";"));
        Ok((begins_with(trees, &call) && ends).then_some(call.len() + 2))
    }

    /// A path from `std`, from the root of its crate or from another crate leads there from the package.
    pub(crate) fn path(&mut self, trees: &[Tree]) -> Result<Option<usize>, Fault> {
        let [first, colon, second, next, ..] = trees else {
            return Ok(None);
        };
        let Some(root) = first.word().filter(|_| colon.is(":") && second.is(":") && !self.out.ends_with("::")) else {
            return Ok(None);
        };
        let path = match root {
            "crate" => format!("crate::{}", self.names.place()),
            "std" => {
                let path = self.path_of(next.first(), item_after(&trees[4..]))?;
                self.put(first.first().lead, &path);
                return Ok(Some(4));
            }
            _ if self.imported.iter().any(|module| module == root) => {
                self.path_of(first.first(), item_after(&trees[1..]))?;
                return Ok(None);
            }
            _ if self.names.beside.contains(&root) => format!("crate::{root}"),
            // (the package itself has all that this crate has for callers)
            "ndarray_layout" if self.names.package != "crate" => self.names.package.to_string(),
            _ if self.names.library.contains(&root) || KIT.contains(&root) => {
                format!(
                    "{}::{}",
                    self.names.package,
                    if self.names.is_packed() { place_of(root) } else { root.to_string() }
                )
            }
            _ => return Ok(None),
        };
        self.put(first.first().lead, &format!("{path}::"));
        Ok(Some(3))
    }

    /// A call that may fail for memory goes by its name in this package.
    pub(crate) fn call(&mut self, trees: &[Tree]) -> Result<Option<usize>, Fault> {
        let [name, arguments, ..] = trees else {
            return Ok(None);
        };
        let (Some(word), Some(group)) = (name.word(), arguments.group("(")) else {
            return Ok(None);
        };
        let is_std = [".", "Vec::", "String::"].iter().any(|before| self.out.ends_with(before));
        if is_std && UNKNOWN_FALLIBLE.contains(&word) {
            return Err(fault(name.first(), "may fail for memory, and nothing stands for it in plain Rust"));
        }
        let new = match word {
            _ if FALLIBLE_WITH_MEMORY.contains(&word) && !takes_memory(group) => return Ok(None),
            // a list of one's own has such calls as well
            _ if (is_std || self.out.ends_with("fn")) && FALLIBLE.contains(&word) => format!("fallible_{word}"),
            _ => return Ok(None),
        };
        self.put(name.first().lead, &new);
        Ok(Some(1))
    }

    /// A macro goes without the runtime or the allocator that it is given.
    pub(crate) fn macro_call(&mut self, trees: &[Tree]) -> Result<Option<usize>, Fault> {
        let [name, mark, Tree::Group(group), ..] = trees else {
            return Ok(None);
        };
        let Some(word) = name.word().filter(|_| mark.is("!")) else {
            return Ok(None);
        };
        if !MACROS.contains(&word) {
            return Err(fault(name.first(), "is a macro that isn't known"));
        }
        let given = group.trees.iter().position(|tree| tree.is(";"));
        let is_fallible = given.is_some() && group.trees[0].is("in");
        if given.is_some() && !is_fallible && !group.trees[0].is("rt") {
            return Err(fault(name.first(), "is given something that isn't known"));
        }
        if !is_fallible && matches!(word, "format" | "vec") {
            return Err(fault(name.first(), "is given no allocator"));
        }
        let path =
            if is_fallible || word == "write" { format!("{}::fallible_", self.names.package) } else { String::new() };
        self.put(name.first().lead, &format!("{path}{word}!"));
        self.brackets(group, &group.trees[given.map_or(0, |end| end + 1)..])?;
        Ok(Some(3))
    }
}

/// What stands between commas.
pub(crate) fn items_of<'t, 'a>(trees: &'t [Tree<'a>]) -> impl Iterator<Item = &'t [Tree<'a>]> {
    trees.split(|tree| tree.is(",")).filter(|item| !item.is_empty())
}

/// The item that a path goes on with.
fn item_after<'t, 'a>(trees: &'t [Tree<'a>]) -> Option<&'t Token<'a>> {
    let is_path = begins_with(trees, &[":", ":"]);
    trees.get(2).filter(|tree| is_path && tree.word().is_some()).map(Tree::first)
}

/// What stands in brackets without the allocator and the runtime: parameters, arguments and fields.
pub(crate) fn without_memory<'a>(trees: &[Tree<'a>]) -> Vec<Tree<'a>> {
    let is_kept = |item: &&[Tree]| match item {
        [inner @ .., comma] if comma.is(",") => !is_of_memory(inner),
        _ => !is_of_memory(item),
    };
    trees.split_inclusive(|tree| tree.is(",")).filter(is_kept).flatten().cloned().collect()
}

/// Whether an argument, a parameter or a field is the allocator, or the runtime that it comes from.
pub(crate) fn is_of_memory(item: &[Tree]) -> bool {
    const FORMS: &[&[&str]] = &[
        &["alloc"],
        &["_alloc"],
        &["alloc", ":", "Global"],
        &["_alloc", ":", "Global"],
        &["rt"],
        &["&", "rt"],
        &["rt", ":", "HostRuntime"],
        &["rt", ":", "&", "impl", "Abort"],
    ];
    match item {
        [runtime, dot, call, Tree::Group(_)] => runtime.is("rt") && dot.is(".") && call.is("alloc"),
        [value, dot, field] if dot.is(".") && field.is("alloc") => value.word().is_some(),
        [name, colon, value @ ..] if name.is("alloc") && colon.is(":") && value.len() == 3 => is_of_memory(value),
        _ => FORMS.iter().any(|form| form.len() == item.len() && begins_with(item, form)),
    }
}

/// Whether a call is handed the allocator.
fn takes_memory(arguments: &Group) -> bool {
    items_of(&arguments.trees).any(is_of_memory)
}
