//! Examples of calls, which the docs of the package have: sections of the pages in `rust/eraser/examples`, each a block of Rust under
//! the name of its call.

use crate::erase::Eraser;
use crate::tokens::{Tree, length_of_generics};
use std::cell::Cell;
use std::path::Path;
use std::{fs, io};

/// The line before and after the code of an example.
const FENCE: &str = "```";

/// An example of a call.
pub struct Example {
    /// As `Strided::place`, or `run` for a function.
    pub name: String,
    /// Its code between the two fences, with these.
    pub lines: Vec<String>,
    /// Whether the call was met.
    pub is_placed: Cell<bool>,
}

/// The examples of all pages in a folder.
pub fn examples_in(folder: &Path) -> io::Result<Vec<Example>> {
    let mut examples = Vec::new();
    for entry in fs::read_dir(folder)? {
        examples.extend(examples_of(&fs::read_to_string(entry?.path())?));
    }
    Ok(examples)
}

/// The examples of a page.
pub fn examples_of(page: &str) -> Vec<Example> {
    let mut examples: Vec<Example> = Vec::new();
    let mut is_code = false;
    for line in page.lines() {
        let is_fence = line == FENCE;
        match (line.strip_prefix("# "), examples.last_mut()) {
            (Some(name), _) if !is_code => {
                examples.push(Example { name: name.to_string(), lines: Vec::new(), is_placed: Cell::new(false) });
            }
            (_, Some(example)) if is_code || is_fence => example.lines.push(line.to_string()),
            _ => {}
        }
        is_code ^= is_fence;
    }
    examples
}

impl Eraser<'_> {
    /// Notes the type whose calls an impl has: none where it is one of a trait.
    pub(crate) fn note_impl(&mut self, trees: &[Tree]) {
        if trees[0].is("impl") && self.bracket.is_empty() {
            let head = &trees[1 + length_of_generics(&trees[1..])..];
            let is_of_trait = head.iter().take_while(|tree| tree.group("{").is_none()).any(|tree| tree.is("for"));
            let name = head.first().and_then(Tree::word).filter(|_| !is_of_trait);
            self.of_impl = name.unwrap_or_default().to_string();
        }
    }

    /// The example of a call that others see, if it has one. The error is that it has none, where another call of its type has one.
    pub(crate) fn example(&self) -> Result<&[String], String> {
        let contract = &self.contract;
        if !contract.is_public || !contract.is_function {
            return Ok(&[]);
        }
        let of_type = format!("{}::", self.of_impl);
        let name = if self.bracket.is_empty() { contract.name.clone() } else { of_type.clone() + &contract.name };
        let examples = self.names.examples;
        match examples.iter().find(|example| example.name == name) {
            Some(example) => {
                example.is_placed.set(true);
                Ok(&example.lines)
            }
            None if !self.bracket.is_empty() && examples.iter().any(|example| example.name.starts_with(&of_type)) => {
                Err(format!("has no example: {name}"))
            }
            None => Ok(&[]),
        }
    }
}
