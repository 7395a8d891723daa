//! The sources of a crate as plain Rust: a file for each of them, or one text.

use crate::erase::{Erased, Names, erase};
use crate::names::{IN_ORDER, MEMORY, MEMORY_MODULE, UNWRITTEN};
use crate::{exports, tokens};
use std::error::Error;
use std::fs;
use std::path::{Path, PathBuf};

pub type Fallible<T> = Result<T, Box<dyn Error>>;

/// What a file begins with that has `unsafe`.
const ALLOWED_UNSAFE: &str = "#![allow(unsafe_code, reason = \"proved: a comment says by which clauses\")]\n";

/// A source without what only proofs read.
struct Plain {
    erased: Erased,
    /// What follows the last item.
    rest: String,
}

impl Plain {
    fn read(file: &Path, names: &Names) -> Fallible<Plain> {
        let source = fs::read_to_string(file).map_err(|error| format!("{}: {error}", file.display()))?;
        let plain = tokens::trees_of(&source).and_then(|(trees, rest)| {
            let exports = if names.exported { exports::flat(&trees, names.unwritten)? } else { String::new() };
            Ok(Plain { erased: erase(&trees, names)?, rest: format!("{rest}{exports}") })
        });
        plain.map_err(|fault| format!("{}:{fault}", file.display()).into())
    }

    /// Its text, with a body for each module that is a file of its own. What is added comes after its own documentation.
    fn text(&self, added: &str, mut body: impl FnMut(&str) -> Fallible<String>) -> Fallible<String> {
        let (docs, items) = self.erased.text.split_at(self.erased.head);
        // (an import of the package's stands among those of the source)
        let is_import = items.trim_start().starts_with("use ");
        let items = if is_import { items.trim_start() } else { items };
        let dropped = self.erased.text.len() - docs.len() - items.len();
        let mut text = format!("{docs}\n\n{added}");
        let mut start = 0;
        for (end, name) in &self.erased.modules {
            let end = end - docs.len() - dropped;
            text += &format!("{}{}", &items[start..end], body(name)?);
            start = end;
        }
        Ok(text + &items[start..] + &self.rest)
    }

    /// Its text with its private modules in an order of use, in which docs list the methods of a type that these have.
    fn with_modules_in_order(&self, text: &str) -> String {
        let rank = |name: &&str| IN_ORDER.iter().position(|known| known == name).unwrap_or(IN_ORDER.len());
        let mut names: Vec<&str> = self.erased.modules.iter().map(|(_, name)| name.as_str()).collect();
        let run: String = names.iter().map(|name| format!("\nmod {name};")).collect();
        names.sort_by_key(rank);
        let in_order: String = names.iter().map(|name| format!("\nmod {name};")).collect();
        // (where another item or a comment stands between them, they stay as they are)
        text.replacen(&run, &in_order, 1)
    }

    /// The imports of what it uses of the package's `memory`, and of what the exports have beside it; nothing where it uses nothing.
    fn imports(&self, names: &Names) -> String {
        let is_part = |letter: char| letter.is_alphanumeric() || letter == '_';
        let words: Vec<&str> = self.erased.text.split(|letter| !is_part(letter)).collect();
        let used = MEMORY.iter().filter(|(_, calls)| calls.iter().any(|call| words.contains(call)));
        let memory = (format!("{}::{MEMORY_MODULE}", names.package), used.map(|(name, _)| *name).collect());
        let used = UNWRITTEN.iter().filter(|name| names.unwritten && words.contains(name));
        let unwritten = ("crate::unwritten".to_string(), used.copied().collect());
        let line = |(module, used): (String, Vec<&str>)| match &used[..] {
            [] => String::new(),
            _ => format!("use {module}::{{{}}};\n", used.join(", ")),
        };
        [memory, unwritten].map(line).concat()
    }
}

/// A file as plain Rust, with the files of its modules in place of their names, and with its exports as C calls them.
pub fn module_of(file: &Path, folder: &Path, names: &Names) -> Fallible<String> {
    let plain = Plain::read(file, names)?;
    plain.text(&plain.imports(names), |name| {
        let body = module_of(&folder.join(format!("{name}.rt")), &folder.join(name), names)?;
        Ok(format!(" {{\n{body}\n}}"))
    })
}

/// The files of a crate as plain Rust, with its exports as C calls them if it has some, each with its place in the folder of the
/// crate. The first is the crate's own, which begins with these attributes.
pub fn files_of(folder: &Path, names: &Names, attributes: &str) -> Fallible<Vec<(PathBuf, String)>> {
    let (mut files, mut left) = (Vec::new(), vec![PathBuf::new()]);
    while let Some(module) = left.pop() {
        let is_root = module.as_os_str().is_empty();
        let source = if is_root { PathBuf::from("lib.rt") } else { module.with_extension("rt") };
        let first = module.iter().next().and_then(|name| name.to_str()).unwrap_or_default();
        let plain = Plain::read(&folder.join(&source), &Names { module: first, ..*names })?;
        let head = if is_root { format!("{attributes}\n") } else { String::new() };
        let head = if plain.erased.is_unsafe { format!("{ALLOWED_UNSAFE}\n{head}") } else { head };
        let added = format!("{head}{}", plain.imports(names));
        let text = plain.text(&added, |name| {
            left.push(module.join(name));
            Ok(";".to_string())
        })?;
        let text = if is_root { text } else { plain.with_modules_in_order(&text) };
        // (each export stands in a module that is private in the source)
        let text = if names.exported { text.replace("\nmod ", "\npub mod ") } else { text };
        let of = format!("// Made by `rust/erase` of `crates/{}/src/{}`: edit that.\n", names.own, source.display());
        let place = if is_root { PathBuf::from("mod.rs") } else { module.with_extension("rs") };
        files.push((place, of + &text));
    }
    Ok(files)
}
