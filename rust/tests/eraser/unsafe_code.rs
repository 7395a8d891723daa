//! Where `unsafe` is left, and what keeps it sound.

use crate::erase::{Names, erase};
use crate::names::UNSAFE;
use crate::tokens::trees_of;
use crate::{NAMES, sources};
use std::collections::BTreeSet;
use std::fs;
use std::path::{Path, PathBuf};

/// What is left of a source of a crate, in one line, or what is said of it.
fn line_of(own: &str, source: &str) -> String {
    let module = if own == "nd_access" { "cells" } else { "array_view_mut" };
    let names = Names { own, module, ..NAMES };
    let text = match trees_of(source).and_then(|(trees, _)| erase(&trees, &names)) {
        Ok(erased) => erased.text,
        Err(fault) => fault.to_string(),
    };
    text.split_whitespace().filter(|word| *word != "///").collect::<Vec<_>>().join(" ")
}

#[test]
fn unsafe_stays_where_it_is_told_why_it_is_sound() {
    const NO_FORM: &str = "1: `unsafe` is no form that can be erased";
    const NO_REASON: &str = "1: `unsafe` is sound for no reason that `UNSAFE` of rust/eraser/names.rs has";
    let rows = [
        ("unsafe impl<T: Sync> Sync for Cells<'_, T> {}", "unsafe impl<T: Sync> Sync for Cells<'_, T> {}"),
        ("fn get(&self) -> &T { unsafe { &*self.p } }", "unsafe { core::ptr::NonNull::from( &*self.p).as_ref() } }"),
        ("fn item_mut() { unsafe { &mut *h } }", "unsafe { core::ptr::NonNull::from( &mut *h).as_mut() } }"),
        (
            "fn take_slice() { unsafe { from_raw_parts_mut(p, n) } }",
            "NonNull::from( from_raw_parts_mut(p, n)).as_mut() } }",
        ),
        (
            "fn other() { // SAFETY: as here\nunsafe { from_raw_parts(p, n) } }",
            "// SAFETY: as here unsafe { core::ptr::NonNull::from( from_raw_parts(p, n)).as_ref() } }",
        ),
        ("fn other() { unsafe { h() } }", NO_REASON),
        ("unsafe impl Clone for Cells<'_, u8> {}", NO_REASON),
        ("unsafe fn get() {}", NO_FORM),
    ];
    for (source, expected) in rows {
        let left = line_of("nd_access", source);
        assert!(left.ends_with(expected), "{source}: {left}");
        assert_eq!(left.contains("// SAFETY: "), ![NO_FORM, NO_REASON].contains(&expected), "{source}: {left}");
        if !source.contains("SAFETY") {
            assert_eq!(line_of("upper", source), if expected == NO_FORM { NO_FORM } else { NO_REASON }, "{source}");
        }
    }
    assert_eq!(line_of("upper", "fn get() { // SAFETY: no\nunsafe { h() } }"), NO_REASON.replace('1', "2"));
}

#[test]
fn what_keeps_it_sound_is_seen_by_its_own_module_alone() {
    let source = "pub struct S { pub(crate) cells: u8, pub view: u8 } pub(crate) fn f() {}";
    let expected =
        "pub struct S { pub(in crate::lent::nd_lent) cells: u8, pub view: u8 } pub(in crate::lent::nd_lent) fn f() {}";
    assert_eq!(line_of("nd_lent", source), expected);
    assert_eq!(line_of("upper", source), source);
}

#[test]
fn a_ghost_parameter_goes() {
    let head = "fn f<V>(by: &V) -> u8 ghost chosen: { List Bool } requires { IsTrue chosen }";
    assert_eq!(line_of("upper", &format!("{head} {{ 1 }}")), "fn f<V>(by: &V) -> u8 { 1 }");
    assert_eq!(line_of("upper", "fn f() ghost a: { b } ensures { c };"), "fn f();");
}

#[test]
fn a_condition_that_keeps_it_sound_is_checked_where_others_see_the_call() {
    let call = "/// A. The caller ensures that it fits.\npub fn new(n: u8) -> Self requires { IsOwned n } { f(n) }";
    let checked = line_of("nd_lent", &format!("impl<T> ArrayViewMut<T> {{ {call} }}"));
    assert!(checked.contains("{assert!(crate::arrays::has_own_items(&view, items.len()), \"two indices"), "{checked}");
    assert!(checked.contains("This call panics where two indices have one item"), "{checked}");
    let expected = "2: `{` begins a call that others see, whose condition `CHECKED` of rust/eraser/names.rs lacks";
    assert_eq!(line_of("nd_lent", &format!("impl<T> Other<T> {{ {call} }}")), expected);
    let private = line_of("nd_lent", &format!("impl<T> Other<T> {{ {} }}", call.replace("pub ", "")));
    assert!(private.contains("Otherwise the behaviour is undefined.") && !private.contains("assert!"), "{private}");
    assert!(line_of("upper", &format!("impl<T> ArrayViewMut<T> {{ {call} }}")).contains("unspecified values."));
    let of_closure = call.replace("IsOwned n", "CallableOnEachMut F.FnMut items f");
    assert!(!line_of("nd_lent", &format!("impl<T> Other<T> {{ {of_closure} }}")).contains("CHECKED"));
    let of_both = call.replace("IsOwned n", "CallableOnEachMut F.FnMut items f × IsOwned n");
    assert_eq!(line_of("nd_lent", &format!("impl<T> Other<T> {{ {of_both} }}")), expected);
}

/// The files of Rust in a folder and in those in it, each with its place under the folder.
fn files_in(folder: &Path) -> Vec<PathBuf> {
    let paths = fs::read_dir(folder).expect("a folder").map(|entry| entry.expect("an entry").path());
    let files_of = |path: PathBuf| if path.is_dir() { files_in(&path) } else { vec![path] };
    paths.flat_map(files_of).filter(|path| path.extension().is_some_and(|end| end == "rs")).collect()
}

/// The files of the package that have one of these words outside comments.
fn files_with(words: &[&str]) -> BTreeSet<String> {
    let has_word = |line: &str| {
        line.split(|letter: char| !letter.is_alphanumeric() && letter != '_').any(|word| words.contains(&word))
    };
    let is_found = |path: &PathBuf| {
        let source = fs::read_to_string(path).expect("a file");
        source.lines().any(|line| !line.trim_start().starts_with("//") && has_word(line))
    };
    let name = |path: PathBuf| path.strip_prefix("rust/src").expect("a place").display().to_string();
    files_in(Path::new("rust/src")).into_iter().filter(is_found).map(name).collect()
}

/// The files of the package that have `unsafe`.
const WITH_UNSAFE: [&str; 2] = ["lent/nd_access/cells.rs", "lent/nd_lent/array_view_mut/borrowing.rs"];

fn text_with_unsafe() -> String {
    WITH_UNSAFE.map(|path| fs::read_to_string(format!("rust/src/{path}")).expect("a file")).concat()
}

#[test]
fn comments_of_unsafe_name_what_is_there() {
    let source = text_with_unsafe();
    let comments: String = source.lines().map(str::trim).filter(|line| line.starts_with("// ")).collect();
    let is_name = |word: &&str| word.chars().all(|letter| letter.is_alphanumeric() || letter == '_');
    for name in comments.split('`').skip(1).step_by(2).filter(is_name) {
        let forms = ["fn NAME(", "fn NAME<", "struct NAME<", "ensures NAME:"].map(|form| form.replace("NAME", name));
        assert!(forms.iter().any(|form| source.contains(form)), "a comment names `{name}`");
    }
    let blocks = ["unsafe {", "unsafe { core::ptr::NonNull::from("].map(|form| source.matches(form).count());
    assert_eq!(blocks, [7, 7], "docs/PROVED.md tells of seven blocks");
}

#[test]
fn two_files_of_the_package_have_unsafe() {
    let expected = BTreeSet::from(WITH_UNSAFE.map(str::to_string));
    assert_eq!(files_with(&["unsafe", "no_mangle", "asm"]), expected);
    assert_eq!(files_with(&["unsafe_code"]), &expected | &BTreeSet::from(["lib.rs".to_string()]));
    let root = fs::read_to_string("rust/src/lib.rs").expect("a file");
    assert!(root.contains("\n#![deny(unsafe_code)]\n"));
    let has_line = |file: &str, line| fs::read_to_string(file).expect("a file").contains(line);
    assert!(has_line("rust/src/lent/nd_access/mod.rs", "\nmod cells;\n"));
    assert!(has_line("rust/src/lent/nd_lent/array_view_mut.rs", "\nmod borrowing;\n"));
}

#[test]
fn each_unsafe_of_the_package_says_why_it_is_sound() {
    let text = text_with_unsafe();
    let lines: Vec<&str> = text.lines().map(str::trim).collect();
    let is_told = |at: usize| {
        lines[..at].iter().rev().take_while(|line| line.starts_with("// ")).any(|line| line.starts_with("// SAFETY: "))
    };
    let found: Vec<usize> = (0..lines.len()).filter(|at| lines[*at].starts_with("unsafe ")).collect();
    assert!(!found.is_empty() && found.iter().all(|at| is_told(*at)), "{found:?}");
    for (own, item, _) in UNSAFE {
        let source = sources(&Path::new("crates").join(own).join("src"));
        let is_named = [format!("fn {item}("), format!("> {item} for ")].iter().any(|head| source.contains(head));
        assert!(is_named, "{own}, {item}");
    }
}
