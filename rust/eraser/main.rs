//! Makes plain Rust of the sources in `crates/`: the modules of the package, of its programs, of its tests and of the exports
//! for C, a file for each source, which `rust/erase` formats.

mod added;
mod bounds;
mod code;
mod differences;
mod docs;
mod erase;
mod errors;
mod examples;
mod exports;
mod library;
mod modules;
mod names;
mod older;
mod paragraphs;
mod proofs;
mod tokens;
mod unsafety;
mod wholes;

use erase::{Names, place_of};
use examples::examples_in;
use modules::{Fallible, files_of, module_of};
use std::path::Path;
use std::{env, fs};

/// The crates of the layer, lowest first.
const LAYER: &[&str] = &["nd_base", "nd_dim", "nd_shape", "nd_slice", "ndarray_layout", "nd_access", "nd_items", "nd_loops", "nd_lent", "nd_owned"];

/// The libraries of programs.
const PROGRAMS: &[&str] = &["ndl_session", "example_tiles_edits"];

/// What crates of tests share, and these crates.
const TESTS: &[&str] = &["test_tables", "nd_shape_tests", "nd_slice_tests", "ndarray_layout_tests", "ndl_tests"];

/// The callers of `docs/CALLING.md`.
const EXAMPLES: &[&str] = &["example_callers"];

/// The exports for C.
const EXPORTS: &[&str] = &["ndarray_layout_c"];

/// What is made: the folder, the crates whose modules it has, and those that are modules beside these.
const FOLDERS: &[(&str, &[&str], &[&[&str]])] = &[
    (LIBRARY, LAYER, &[]),
    ("rust/programs", PROGRAMS, &[PROGRAMS]),
    ("rust/tests/tables", TESTS, &[TESTS, PROGRAMS]),
    ("rust/tests/examples", EXAMPLES, &[EXAMPLES]),
    (FOR_C, EXPORTS, &[EXPORTS]),
];

/// The pages of examples.
const OF_CALLS: &str = "rust/eraser/examples";

/// The folder of the package's own modules.
const LIBRARY: &str = "rust/src";

/// The folder of the exports, which C calls as well.
const FOR_C: &str = "bindings/c/exports";

/// Lints that the sources don't keep to, and why.
const ALLOWED: &[(&str, &[&str])] = &[
    ("a name that only clauses use", &["unused_imports", "unused_variables"]),
    ("proofs name a loop by its label", &["unused_labels"]),
    (
        "a form that is proved with less",
        &[
            "clippy::explicit_auto_deref",
            "clippy::manual_find",
            "clippy::manual_map",
            "clippy::needless_range_loop",
            "clippy::non_canonical_clone_impl",
            "clippy::redundant_closure",
            "clippy::while_let_on_iterator",
        ],
    ),
    ("what the kit has no form for", &["clippy::unused_unit"]),
    ("a sequence is never asked whether it is empty", &["clippy::len_without_is_empty"]),
    ("the package has the trait beside what is proved", &["clippy::should_implement_trait"]),
    ("what comes with its index is lent", &["clippy::type_complexity"]),
];

/// Those that programs and tests don't keep to either.
const ALLOWED_IN_TESTS: &[(&str, &[&str])] = &[
    ("what one test or program calls, and not each", &["dead_code"]),
    ("what the package's least rustc hasn't: programs and tests aren't packed", &["clippy::incompatible_msrv"]),
    (
        "a form that is proved with less",
        &[
            "clippy::collapsible_if",
            "clippy::needless_lifetimes",
            "clippy::question_mark",
            "clippy::redundant_pattern_matching",
        ],
    ),
    (
        "what the kit has no form for",
        &["clippy::comparison_to_empty", "clippy::partialeq_to_none", "clippy::unwrap_or_default"],
    ),
    (
        "what a test is about",
        &["clippy::len_zero", "clippy::reversed_empty_ranges", "clippy::unit_cmp", "mismatched_lifetime_syntaxes"],
    ),
];

/// With `--write`, the top of the repository and a folder, writes what is made of its sources into that folder. With `--code`
/// and files, prints their lines of code. With a crate above the layer and the folder of its sources, prints that crate as one
/// module, and its exports as C calls them.
fn main() -> Fallible<()> {
    let arguments: Vec<String> = env::args().skip(1).collect();
    let arguments: Vec<&str> = arguments.iter().map(String::as_str).collect();
    match &arguments[..] {
        ["--write", top, folder] => write(Path::new(top), Path::new(folder)),
        ["--code", files @ ..] => files.iter().try_for_each(|file| print_code(file)),
        [name, folder] => print_crate(name, Path::new(folder)),
        _ => Err("what is to be erased?".into()),
    }
}

/// Writes what is made. What a copy of the repository leaves out is not made.
fn write(top: &Path, into: &Path) -> Fallible<()> {
    let of_calls = examples_in(&top.join(OF_CALLS))?;
    for (folder, crates, beside) in FOLDERS {
        let beside = beside.concat();
        let is_library = *folder == LIBRARY;
        let package = if is_library { "crate" } else { "::ndarray_layout" };
        for own in *crates {
            let source = top.join("crates").join(own).join("src");
            if !source.exists() {
                continue;
            }
            let names = Names {
                own,
                module: "",
                beside: &beside,
                library: LAYER,
                package,
                examples: if is_library { &of_calls } else { &[] },
                inlined: is_library,
                exported: *folder == FOR_C,
                unwritten: *folder == FOR_C,
            };
            let others = if is_library || *folder == FOR_C { &[] } else { ALLOWED_IN_TESTS };
            for (place, text) in files_of(&source, &names, &attributes("#!", others))? {
                let file = into.join(folder).join(place_of(own).replace("::", "/")).join(place);
                fs::create_dir_all(file.parent().unwrap_or(into))?;
                fs::write(file, text)?;
            }
        }
    }
    match of_calls.iter().find(|example| !example.is_placed.get()) {
        Some(example) => Err(format!("{OF_CALLS}: {} is no call that others see", example.name).into()),
        None => Ok(()),
    }
}

/// Prints the lines of code of a file, each with its place.
fn print_code(file: &str) -> Fallible<()> {
    let source = fs::read_to_string(file).map_err(|error| format!("{file}: {error}"))?;
    let lines = code::lines_of(&source).map_err(|fault| format!("{file}:{fault}"))?;
    for line in lines {
        println!("{file}:{}: {}", line.number, line.text);
    }
    Ok(())
}

/// Prints a crate above the package as one module, and its exports as C calls them.
fn print_crate(name: &str, folder: &Path) -> Fallible<()> {
    let names = Names {
        own: name,
        module: "",
        beside: &[],
        library: LAYER,
        package: "::ndarray_layout",
        examples: &[],
        inlined: false,
        exported: true,
        unwritten: false,
    };
    let body = module_of(&folder.join("lib.rt"), folder, &names)?;
    println!("{}pub mod {name} {{\n{body}\n}}", attributes("#", ALLOWED_IN_TESTS));
    Ok(())
}

/// The lints that the sources don't keep to, and these, as attributes.
fn attributes(mark: &str, others: &[(&str, &[&str])]) -> String {
    let line = |(why, lints): &(&str, &[&str])| format!("{mark}[allow({}, reason = {why:?})]\n", lints.join(", "));
    ALLOWED.iter().chain(others).map(line).collect()
}
