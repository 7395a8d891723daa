//! Whether each public item that is written by hand says that it isn't proved: in its docs, or on the page of its module.

use std::fs::{read_dir, read_to_string};
use std::path::Path;

const SOURCES: &str = concat!(env!("CARGO_MANIFEST_DIR"), "/rust/src");

/// Private modules of which nothing is re-exported.
const PRIVATE: &[&str] = &["num_traits", "sealed", "smallvec"];

/// Public modules whose page says it for all that they have.
const SAID_BY_PAGE: &[&str] = &["memory"];

const NOTE: &str = "Not proved";

/// How a file begins that isn't written by hand.
const MADE: &str = "// Made by `rust/erase` of ";

const ITEMS: &[&str] = &["async", "const", "enum", "fn", "static", "struct", "trait", "type", "union", "unsafe"];

/// Each item without a note of a file, or of the files of a folder, by its file and line.
fn items_without_note(path: &Path) -> Vec<String> {
    if path.is_dir() {
        let entries = read_dir(path).expect("a folder of sources");
        return entries.flat_map(|entry| items_without_note(&entry.expect("a source").path())).collect();
    }
    let text = read_to_string(path).expect("a source");
    let file = path.strip_prefix(SOURCES).expect("a source").display().to_string();
    let module = file.trim_end_matches(".rs");
    if text.starts_with(MADE) || PRIVATE.contains(&module) {
        return Vec::new();
    }
    let says = text.lines().any(|line| line.starts_with("//!") && line.contains(NOTE));
    if SAID_BY_PAGE.contains(&module) && says {
        return Vec::new();
    }
    lines_without_note(&text).iter().map(|line| format!("{file}:{line}")).collect()
}

/// The numbers of the lines on which an item without a note in its docs begins.
fn lines_without_note(text: &str) -> Vec<usize> {
    let lines: Vec<&str> = text.lines().map(str::trim_start).collect();
    let own_traits = own_traits(&lines);
    let mut found = Vec::new();
    let (mut is_noted, mut is_exported) = (false, false);
    for (at, line) in lines.iter().enumerate() {
        if line.starts_with("///") || line.starts_with("#[") {
            is_noted |= line.contains(NOTE);
            is_exported |= line.contains("macro_export");
            continue;
        }
        if (is_exported || is_public(line) || is_impl_for_callers(&lines[at..], &own_traits)) && !is_noted {
            found.push(at + 1);
        }
        (is_noted, is_exported) = (false, false);
    }
    found
}

/// Whether a line begins an item for callers that is no module and no re-export.
fn is_public(line: &str) -> bool {
    line.strip_prefix("pub ").is_some_and(|item| ITEMS.iter().any(|word| item.split(' ').next() == Some(word)))
}

/// The names of the traits that no other file sees, so that no caller has what implements them.
fn own_traits<'a>(lines: &[&'a str]) -> Vec<&'a str> {
    let names = lines.iter().filter_map(|line| line.strip_prefix("trait "));
    names.filter_map(|item| item.split(|c: char| !c.is_alphanumeric() && c != '_').next()).collect()
}

/// Whether lines begin with an implementation, whose head may take several, of a trait that isn't among `own_traits`.
fn is_impl_for_callers(lines: &[&str], own_traits: &[&str]) -> bool {
    if !(lines[0].starts_with("impl ") || lines[0].starts_with("impl<")) {
        return false;
    }
    let text = lines.join(" ");
    let head = text.split('{').next().and_then(|head| head.split_once(" for "));
    head.is_some_and(|(of, _)| of.rsplit(' ').next().is_none_or(|name| !own_traits.contains(&name)))
}

#[test]
fn each_item_says_that_it_is_not_proved() {
    assert_eq!(items_without_note(Path::new(SOURCES)), [""; 0]);
    let root = include_str!("../src/lib.rs");
    for module in PRIVATE.iter().filter_map(|module| module.strip_prefix("arrays/")) {
        let arrays = include_str!("../src/arrays.rs");
        assert!(!arrays.contains(&format!("\npub use {module}::")) && !arrays.contains("pub mod"), "{module}");
    }
    for module in PRIVATE {
        assert!(!root.contains(&format!("pub mod {module};")) && !root.contains(&format!("{module}::")), "{module}");
    }
    for module in SAID_BY_PAGE {
        assert!(root.contains(&format!("\npub mod {module};")), "{module}");
    }
}

#[test]
fn an_item_without_a_note_is_found() {
    let items =
        ["pub fn f() {}", "pub const fn f() {}", "pub trait T {}", "impl T for U {}", "impl<A>\n    T for U {}"];
    for item in items {
        assert_eq!(lines_without_note(item), [1], "{item}");
        assert_eq!(lines_without_note(&format!("/// A. Not proved.\n#[inline]\n{item}")), [0; 0], "{item}");
        assert_eq!(lines_without_note(&format!("/// A. Not proved.\nuse a;\n{item}")), [3], "{item}");
    }
    assert_eq!(lines_without_note("/// A macro.\n#[macro_export]\nmacro_rules! m {"), [3]);
    for item in ["fn f() {}", "pub(crate) fn f() {}", "pub mod m;", "impl U {", "impl<A: for<'a> T<'a>> U<A> {"] {
        assert_eq!(lines_without_note(item), [0; 0], "{item}");
    }
}

#[test]
fn an_impl_of_a_trait_of_its_own_file_needs_no_note() {
    for head in ["impl Own for U {", "impl<A: Other> Own for U<A> {", "impl<A>\n    Own for U {"] {
        for own in ["trait Own {", "trait Own: Other {", "trait Own<A> {"] {
            assert_eq!(lines_without_note(&format!("{own}\n}}\n{head}")), [0; 0], "{own} {head}");
        }
        for other in ["pub(crate) trait Own {", "trait Owned {", "trait O {", "// trait Own {"] {
            assert_eq!(lines_without_note(&format!("{other}\n}}\n{head}")), [3], "{other} {head}");
        }
    }
    for head in ["impl Other for U {", "impl a::Own for U {", "impl From<Own> for U {", "impl<A: Own> Other for U {"] {
        assert_eq!(lines_without_note(&format!("trait Own {{\n}}\n{head}")), [3], "{head}");
    }
}
