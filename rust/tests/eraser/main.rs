//! The eraser: what each form becomes, and that what it doesn't know is an error.
#![allow(dead_code)]

mod attributes;
mod documented;
mod unsafe_code;

#[path = "../../eraser/added.rs"]
mod added;
#[path = "../../eraser/bounds.rs"]
mod bounds;
#[path = "../../eraser/code.rs"]
mod code;
#[path = "../../eraser/differences.rs"]
mod differences;
#[path = "../../eraser/docs.rs"]
mod docs;
#[path = "../../eraser/erase.rs"]
mod erase;
#[path = "../../eraser/errors.rs"]
mod errors;
#[path = "../../eraser/examples.rs"]
mod examples;
#[path = "../../eraser/exports.rs"]
mod exports;
#[path = "../../eraser/library.rs"]
mod library;
#[path = "../../eraser/modules.rs"]
mod modules;
#[path = "../../eraser/names.rs"]
mod names;
#[path = "../../eraser/older.rs"]
mod older;
#[path = "../../eraser/paragraphs.rs"]
mod paragraphs;
#[path = "../../eraser/proofs.rs"]
mod proofs;
#[path = "../../eraser/tokens.rs"]
mod tokens;
#[path = "../../eraser/unsafety.rs"]
mod unsafety;
#[path = "../../eraser/wholes.rs"]
mod wholes;

use erase::{Names, erase};
use modules::{files_of, module_of};
use std::fs;
use std::path::Path;
use tokens::trees_of;

const NAMES: Names = Names {
    own: "upper",
    module: "",
    beside: &["tables"],
    library: &["lower"],
    package: "crate",
    examples: &[],
    inlined: false,
    exported: false,
    unwritten: false,
};

/// What is left of a source, or what is said of it.
fn erased(source: &str) -> String {
    match trees_of(source).and_then(|(trees, rest)| Ok(erase(&trees, &NAMES)?.text + rest)) {
        Ok(text) => text,
        Err(fault) => fault.to_string(),
    }
}

/// What is left of a source in one line.
fn line(source: &str) -> String {
    erased(source).split_whitespace().collect::<Vec<_>>().join(" ")
}

#[test]
fn each_form_becomes_plain_rust() {
    const ROWS: &[(&str, &str)] = &[
        ("impl<T> Drop for S<T> { fn drop(self) ensures { x } { let S { a: _, b: _ } = self; } } fn f();", "fn f();"),
        ("ghost use Rattle.a.{◌≡◌}; use crate::dim::Dim;", "use crate::upper::dim::Dim;"),
        ("struct S { a: usize, ghost inside: { 0 < a }, }", "struct S { a: usize, }"),
        ("struct S { a: usize, ghost one: { F a } by { p a }, }", "struct S { a: usize, }"),
        ("trait T { ghost list: { Self → List ℕ }; fn f(&self); }", "trait T { fn f(&self); }"),
        ("fn f(x: u8) -> u8 requires { x ≡ 1 } ensures* same { result ≡ x } { x }", "fn f(x: u8) -> u8 { x }"),
        ("fn f() -> u8 ensures { result ≡ 1 };", "fn f() -> u8;"),
        ("#![tactic(auto)] struct A;", "struct A;"),
        ("#[tactic(auto, using(a))] #[inline] fn f() {}", "#[inline] fn f() {}"),
        ("#[derive(Debug, Drop)] struct S;", "#[derive(Debug)] struct S;"),
        ("#[derive(Drop)] struct S;", "struct S;"),
        ("#[derive(Debug, Drop)] pub struct Strided;", "#[derive(Clone, PartialEq, Eq)] pub struct Strided;"),
        ("#[derive(Drop)] pub(crate) struct Stretch;", "#[derive(Clone)] pub(crate) struct Stretch;"),
        ("impl<D> Model for S<D> { ghost use A.{b}; ghost view = { λ s. s }; } struct T;", "struct T;"),
        ("#[unsafe(no_mangle)] pub extern \"C\" fn f(x: &[u8]) {}", "pub fn f(x: &[u8]) {}"),
        ("final fn f(&self) {}", "fn f(&self) {}"),
        ("impl<T: Drop> A for B<T> {}", "impl<T: Sized> A for B<T> {}"),
        ("trait T: Eq + Drop {}", "trait T: Eq + Sized {}"),
        ("fn clone(&self) -> Result<Self, AllocError> { Ok(*self) }", "fn clone(&self) -> Self {*self}"),
        (
            "fn fmt<W: fmt::Write>(&self, f: &mut fmt::Formatter<W>) -> fmt::Result {}",
            "fn fmt(&self, f: &mut fmt::Formatter<'_>) -> fmt::Result {}",
        ),
        ("use std::alloc::{AllocError, Global};", "use crate::memory::AllocError;"),
        ("use std::{fmt, io};", "use core::fmt;use std::io;"),
        ("use std::ops::{Add, Range};", "use core::ops::Add;use core::ops::Range;"),
        ("use std::marker::Model;", ""),
        ("use std::process::Abort;", ""),
        ("fn f(alloc: Global, x: u8) {}", "fn f( x: u8) {}"),
        ("fn f(_alloc: Global) {}", "fn f() {}"),
        ("let y = f(alloc, x)?;", "let y = f( x)?;"),
        ("let y = f(rt.alloc(), &rt, x);", "let y = f( x);"),
        ("struct S { alloc: Global, n: usize }", "struct S { n: usize }"),
        ("S { alloc: before.alloc, n: 1 }", "S { n: 1 }"),
        ("lower::f(std::slice::from_ref(x))", "crate::lower::f(core::slice::from_ref(x))"),
        ("tables::g(smallvec::h())", "crate::tables::g(crate::smallvec::h())"),
        ("v.push(1)?; w.push_reserved(2);", "v.fallible_push(1)?; w.push_reserved(2);"),
        ("x.to_vec(alloc)?; Vec::new(alloc)", "x.fallible_to_vec()?; Vec::new()"),
        ("text.replace(a, b)", "text.replace(a, b)"),
        ("text.replace(alloc, a, b)?", "text.fallible_replace( a, b)?"),
        ("write!(f, \"{x}\")?", "crate::fallible_write!(f, \"{x}\")?"),
        ("format!(in alloc; \"{x}\")?", "crate::fallible_format!( \"{x}\")?"),
        ("assert!(rt; x == 1, \"x\");", "assert!( x == 1, \"x\");"),
        ("matches!(x, Some(_))", "matches!(x, Some(_))"),
        ("if let [a] = b && !a.is_empty() { c(a) } d", "if let [a] = b { if !a.is_empty() { c(a) } } d"),
        ("if let A = b & &c { d } else { e }", "if let A = b & &c { d } else { e }"),
        ("{ n.cast_signed() }", "{ n as isize }"),
        ("n.cast_signed() + m.cast_unsigned()", "(n as isize) + (m as usize)"),
        ("let c = 'a'; let s = \"ghost { requires\"; // ghost", "let c = 'a'; let s = \"ghost { requires\"; // ghost"),
    ];
    for (source, expected) in ROWS {
        assert_eq!(line(source), *expected, "{source}");
    }
}

#[test]
fn a_module_that_only_a_proof_calls_is_left_out() {
    const ROWS: &[(&str, &str, &str)] = &[
        ("nd_lent", "mod whole; pub use whole::Whole; pub use part::Part;", "pub use part::Part;"),
        ("nd_owned", "pub use nd_lent::Whole; pub use nd_lent::{Rest, Whole}; struct S;", "struct S;"),
        ("nd_owned", "pub use nd_lent::{A, Whole, B};", "pub use nd_lent::{A, B};"),
        ("nd_owned", "mod whole; use whole::Whole;", "mod whole use whole::Whole;"),
    ];
    for (own, source, expected) in ROWS {
        let names = Names { own, ..NAMES };
        let text = trees_of(source).and_then(|(trees, _)| erase(&trees, &names)).expect("known forms").text;
        assert_eq!(text.split_whitespace().collect::<Vec<_>>().join(" "), *expected, "{source}");
    }
}

#[test]
fn a_whole_becomes_the_call_that_lends_it() {
    const ROWS: &[(&str, &str)] = &[
        (
            "fn f() { let mut whole = Whole::new(items); let mut part = whole.lend(view); part.g(); whole.end(part); }",
            "fn f() { let mut part = ArrayViewMut::new(view, items); part.g(); }",
        ),
        (
            "let mut whole = Whole::new(items); let part = ArrayViewMut::over(view, whole.lend_items())?; whole.end(part);",
            "let part = ArrayViewMut::over(view, items)?;",
        ),
        ("use lower::Whole; use lower::A;", "use crate::lower::ArrayViewMut; use crate::lower::A;"),
        ("use lower::{A, Whole};", "use crate::lower::{A, ArrayViewMut};"),
        ("use lower::{ArrayViewMut, Whole};", "use crate::lower::{ArrayViewMut,};"),
        ("pub use lower::{ArrayViewMut, Whole};", "pub use crate::lower::{ArrayViewMut,};"),
        ("use whole::Whole; let whole = whole.end();", "use whole::Whole; let whole = whole.end();"),
    ];
    for (source, expected) in ROWS {
        assert_eq!(line(source), *expected, "{source}");
    }
    let parts = "let mut whole = Whole::new(items); let mut rest = whole.rest();";
    assert!(line(parts).ends_with("is no call of a whole that plain Rust has"), "{parts}");
}

#[test]
fn what_the_package_adds_is_made_of_a_source() {
    const ROWS: &[(&str, &str)] = &[
        (
            "pub struct Other<'a, T> { /// A.\n a: &'a [T], ghost d: { 1 }, }",
            "pub struct Other<'a, T> { /// A. a: &'a [T], }",
        ),
        (
            "pub struct IterOf<'a, T, A: B<C>> { // It.\n rest: Rest<'a, T, A>, to: usize, }",
            "pub struct IterOf<'a, T, A: B<C>> { // It. rest: Rest<'a, T, A>, to: usize, } \
             /// A copy, of which neither moves the other. Panics where an allocation fails, never for at most 4 axes. Not proved. \
             impl<'a, T, A: B<C>> Clone for IterOf<'a, T, A> where A: Clone { fn clone(&self) -> Self { \
             IterOf { rest: Clone::clone(&self.rest), to: Clone::clone(&self.to), } } }",
        ),
        (
            "impl<T> Iterator for IterOf<'_, T> { fn next(&mut self) {} } fn f();",
            "impl<T> Iterator for IterOf<'_, T> { fn next(&mut self) {} crate::arrays::fold_lent!(); } fn f();",
        ),
        (
            "impl DoubleEndedIterator for PlacesOf<R> { fn next_back() {} }",
            "impl DoubleEndedIterator for PlacesOf<R> { fn next_back() {} crate::arrays::skip_back!(); }",
        ),
        ("impl Iterator for Other { fn next() {} }", "impl Iterator for Other { fn next() {} }"),
        ("impl ExactSizeIterator for IterOf<'_> {}", "impl ExactSizeIterator for IterOf<'_> {}"),
        (
            "fn index(&self, index: I) -> &T { self.get(&index).unwrap() } fn f();",
            "#[track_caller] fn index(&self, index: I) -> &T { match self.get(&index) \
             { Some(item) => item, None => crate::arrays::no_such_index(index, self.dim()) } } fn f();",
        ),
        (
            "fn index(&self, at: usize) -> &T { &self.items[at] }",
            "fn index(&self, at: usize) -> &T { &self.items[at] }",
        ),
    ];
    for (source, expected) in ROWS {
        assert_eq!(line(source), *expected, "{source}");
    }
}

#[test]
fn a_bound_of_the_list_is_added() {
    const ROWS: &[(&str, &str)] = &[
        ("pub trait Lengths: Eq {}", "pub trait Lengths: Eq + crate::sealed::Sealed + Clone + Send + Sync {}"),
        ("trait Lengths: Eq {}", ""),
        (
            "pub trait SliceElems { type Smaller: Lengths; type Other: Lengths; } trait T { type Smaller: Lengths; }",
            "pub trait SliceElems: crate::sealed::Sealed { type Smaller: Dimension; type Other: Lengths; } trait T { type Smaller: Lengths; }",
        ),
        (
            "impl<D: A + Copy> IntoIterator for Indices<D> { fn f() { let d = self.dim; g(self.dim, d); } } fn f<A: Copy>() { self.dim; }",
            "impl<D: A + Clone> IntoIterator for Indices<D> { fn f() { let d = self.dim.clone(); g(self.dim.clone(), d); } } fn f<A: Copy>() { self.dim; }",
        ),
        (
            "impl<D: A + Copy> Iterator for IndexIter<D> { fn f() { let mut n = index; self.index = n; a.index; self.dim.g(index.h()) } }",
            "impl<D: A + Clone> Iterator for IndexIter<D> { fn f() { let mut n = index.clone(); self.index = n; a.index; self.dim.g(index.h()) } }",
        ),
        (
            "impl<D: A + Copy> Clone for Indices<D> { fn clone(&self) -> Result<Self, AllocError> { Ok(*self) } }",
            "impl<D: A + Clone> Clone for Indices<D> { fn clone(&self) -> Self {Indices { dim: self.dim.clone() }} }",
        ),
        (
            "impl<T: A, E: Lengths> SliceArg<D> for S<T, E> { type OutDim = E; } impl<E: Lengths> SliceElems for E {}",
            "impl<T: A, E: crate::Dimension> SliceArg<D> for S<T, E> { type OutDim = E; } impl<E: Lengths> SliceElems for E {}",
        ),
        ("impl<T: Copy> ArrayViewMut<T> {} impl<D> Strided<D> { fn f() { self.strides; } }", ""),
        (
            "impl<D: A + Copy> Copy for Indices<D> {} impl<T: Copy> Iterator for Others<T> { fn f() { self.index; } }",
            "",
        ),
    ];
    for (source, expected) in ROWS {
        let expected = if expected.is_empty() { source } else { expected };
        assert_eq!(line(source), *expected, "{source}");
    }
}

/// The sources of the layer, as one text.
fn sources(folder: &Path) -> String {
    let paths = fs::read_dir(folder).expect("a folder").map(|entry| entry.expect("an entry").path());
    let text_of = |path: std::path::PathBuf| match path.extension() {
        None => sources(&path),
        Some(_) => fs::read_to_string(path).expect("a source"),
    };
    paths.map(text_of).collect()
}

#[test]
fn each_row_of_the_list_of_bounds_is_of_something() {
    let layer = ["nd_base", "nd_dim", "nd_shape", "nd_slice", "ndarray_layout", "nd_lent", "nd_owned"];
    let text: String = layer.iter().map(|name| sources(Path::new(&format!("crates/{name}/src")))).collect();
    let heads = bounds::ADDED.iter().map(|(name, _)| format!("pub trait {name}"));
    let types = bounds::OF_TYPES.iter().map(|(name, _)| format!("    type {name}: "));
    let impls = bounds::CLONED.iter().map(|(words, _)| format!("{}<", words.join(" ")));
    let others = bounds::OF_DIMENSIONS.iter().map(|words| words.concat());
    for row in heads.chain(types).chain(impls).chain(others) {
        assert!(text.contains(&row), "{row}");
    }
    let packed = text.replace('\n', " ");
    for name in bounds::OF_SHAPES {
        let impls: Vec<&str> = packed.split(&format!("> {name}<")).skip(1).collect();
        assert!(impls.iter().any(|body| body.contains("shape: StrideShape<D>,")), "{name}");
    }
}

#[test]
fn a_call_of_a_list_takes_what_converts_to_a_shape() {
    let source = |of, call| {
        format!(
            "impl<T, D> {of}<T, D> {{ fn f(shape: StrideShape<D>, x: &[T]) {{ {call}(shape, 1, x); g(shape, 2) }} }}"
        )
    };
    let expected = source("ArrayView", "g").replace("shape: StrideShape<D>", "shape: impl Into<StrideShape<D>>");
    assert_eq!(erased(&source("ArrayView", "g")), expected.replace("shape, 1", "shape.into(), 1"));
    assert_eq!(erased(&source("Strided", "g")), source("Strided", "g"));
}

#[test]
fn a_derived_error_is_written_out() {
    let source = "use thiserror::Error; #[derive(Debug, Drop, Error)] pub enum E { #[error(\"line {line}\")] At { line: usize }, #[error(transparent)] Of(A), }";
    let head = "fn fmt(&self, f: &mut ::core::fmt::Formatter<'_>) -> ::core::fmt::Result";
    let arms = "Self::At{ line } => ::core::write!(f, \"line {line}\"), Self::Of(value) => ::core::fmt::Display::fmt(value, f),";
    let expected = format!(
        "#[derive(Debug)] pub enum E {{ At {{ line: usize }}, Of(A), }} impl ::core::fmt::Display for E {{ {head} {{ match self {{ {arms} }} }} }} impl ::core::error::Error for E {{}}"
    );
    assert_eq!(line(source), expected);
}

#[test]
fn an_export_takes_what_c_passes() {
    let of = |source: &str| match trees_of(source).and_then(|(trees, _)| exports::flat(&trees, true)) {
        Ok(text) => text,
        Err(fault) => fault.to_string(),
    };
    let text = of(
        "#[unsafe(no_mangle)] pub extern \"C\" fn f(alloc: Global, n: usize, a: &[u8], b: &mut [i32], c: &mut usize) -> i32 { 0 }",
    );
    assert!(
        text.contains(
            "fn f(n: usize, a: *const u8, a_count: usize, b: *mut MaybeUninit<i32>, b_count: usize, c: *mut MaybeUninit<usize>) -> i32"
        )
    );
    let a = "if a_count == 0 { &[] } else { ::core::slice::from_raw_parts(a, a_count) }";
    let b = "if b_count == 0 { &mut [] } else { ::core::slice::from_raw_parts_mut(b, b_count) }";
    assert!(text.contains(&format!("super::f(n, {a}, {b}, &mut *c)")));
    assert!(
        of("extern \"C\" fn nd_next_index(index: &mut [u8]) -> i32 {}")
            .contains("(index: *mut u8, index_count: usize)")
    );
    assert_eq!(of("pub fn f() -> i32 { 0 }"), "");
    assert_eq!(of("extern \"C\" fn f(a: &u8) -> i32 {}"), "1: `a` is a parameter that C can't pass");
    assert_eq!(of("extern \"C\" fn f() {}"), "1: `)` is followed by no result");
}

#[test]
fn what_an_export_only_writes_may_hold_nothing_before() {
    const ROWS: &[(&str, &str)] = &[
        (
            "extern \"C\" fn f(a: &mut [u8], b: &mut usize) { *b = a.len(); a[0] = g(b); a[1..].copy_from_slice(h()); k(a, b) }",
            "fn f(a: &mut [MaybeUninit<u8>], b: &mut MaybeUninit<usize>) { b.write( a.len()); a[0].write( g(b)); a[1..].copy_from_slice(as_unwritten(h())); k(a, b) }",
        ),
        (
            "fn f<'a>(a: &mut u8, b: &'a u8) { if *b == 1 { *a = 2; } }",
            "fn f<'a>(a: &mut MaybeUninit<u8>, b: &'a u8) { if *b == 1 { a.write( 2); } }",
        ),
        (
            "fn f(a: &mut u8) {} fn g(a: u8) { c[0] = a; b[0] = 1; }",
            "fn f(a: &mut MaybeUninit<u8>) {} fn g(a: u8) { c[0] = a; b[0] = 1; }",
        ),
        (
            "fn nd_next_index(index: &mut [u8], has_next: &mut i32) { index[0] = 1; *has_next = 1; }",
            "fn nd_next_index(index: &mut [u8], has_next: &mut MaybeUninit<i32>) { index[0] = 1; has_next.write( 1); }",
        ),
        (
            "fn write_common_shape(common: &mut [u8]) { f(common.len(), common); g(common, 1) }",
            "fn write_common_shape(common: &mut [MaybeUninit<u8>]) { f(common.len(), zeroed(common)); g(zeroed(common), 1) }",
        ),
        ("fn f(a: &mut u8) { *a = 1 }", "1: `=` is followed by no `;`"),
        ("fn f(a: &mut u8) { g(*a); }", "1: `a` is read, and neither C nor this function has written it"),
        ("fn f(a: &mut [u8]) { g(a[0]) }", "1: `a` is read, and neither C nor this function has written it"),
        (
            "pub struct RawElem { pub kind: i32, pub start: isize } fn f(raw: &RawElem) -> S { S { start: raw.start, kind: raw.kind } }",
            "pub struct RawElem { pub kind: i32, pub start: MaybeUninit<isize> } fn f(raw: &RawElem) -> S { S { start: unsafe { raw.start.assume_init() }, kind: raw.kind } }",
        ),
    ];
    let names = Names { exported: true, unwritten: true, ..NAMES };
    for (source, expected) in ROWS {
        let text = trees_of(source).and_then(|(trees, _)| erase(&trees, &names));
        let text = text.map_or_else(|fault| fault.to_string(), |erased| erased.text);
        assert_eq!(text.split_whitespace().collect::<Vec<_>>().join(" "), *expected, "{source}");
        assert!(!line(source).contains("MaybeUninit"), "{source}");
    }
}

#[test]
fn what_means_something_else_is_an_error_with_its_line() {
    const ROWS: &[(&str, &str)] = &[
        ("use std::cmp::Ordering::Less as Below;", "1: `:` follows an item of std in an import"),
        ("use std::cmp::{Ordering as Order};", "1: `as` follows an item of std in an import"),
        ("use std::cmp::{Ordering::{self, Less}};", "1: `:` follows an item of std in an import"),
        ("use std::fmt as f;", "1: `as` follows a module of std in an import"),
        ("use std::{fmt as f, io};", "1: `as` follows a module of std in an import"),
        ("pub use std::ops::{Add, RangeFull};", "1: `use` exports more than one item of std"),
        ("use std as rust;", "1: `std` is no form that can be erased"),
        ("core::iter::once(1)", "1: `core` is no form that can be erased"),
        ("std::iter::once(1)", "1: `once` is an item of std that isn't known"),
        ("use std::iter; iter::empty::<u8>()", "1: `empty` is an item of std that isn't known"),
        ("(250u8..).take(9)", "1: `.` begins a range with no end, which may be iterated"),
        ("for x in (250u8..).take(9) {}", "1: `.` begins a range with no end, which may be iterated"),
        ("for x in 0.. { f(x) }", "1: `.` begins a range with no end, which may be iterated"),
        ("let r = 250u8..; r.take(9)", "1: `.` begins a range with no end, which may be iterated"),
        ("a.zip(250u8..)", "1: `.` begins a range with no end, which may be iterated"),
        ("S { all: f(a).., b }", "1: `.` begins a range with no end, which may be iterated"),
        ("let all = [250u8..];", "1: `.` begins a range with no end, which may be iterated"),
        ("RangeFrom { start: 250u8 }.take(9)", "1: `RangeFrom` is a range with no end, which may be iterated"),
        ("impl<T> W for &T {}", "1: `&` refers to any type, in the head of an impl"),
        ("impl<T> W<&T> {}", "1: `&` refers to any type, in the head of an impl"),
        ("impl<'a, Item> W<&'a mut Item> for S {}", "1: `&` refers to any type, in the head of an impl"),
        ("impl<T: Open> V for W<(u8, &T)> {}", "1: `&` refers to any type, in the head of an impl"),
        ("S { a: 1, ..v[i] }", "1: `.` takes the other fields from an element"),
        ("S { a: 1, ..w.v[i] }", "1: `.` takes the other fields from an element"),
        ("S { ..(w.v)[i].s }", "1: `.` takes the other fields from an element"),
        ("mod inner { pub mod deep; }", "1: `deep` is a file, named inside another module"),
        ("v.iter().map(u8::clone)", "1: `clone` may fail for memory, and is named in a way that isn't known"),
        ("Clone::clone(&a)", "1: `clone` may fail for memory, and is named in a way that isn't known"),
        (
            "x.collect::<Vec<u8>>(alloc).iter()",
            "1: `collect` may fail for memory, and is named in a way that isn't known",
        ),
        (
            "v.iter().map(|x| x.clone()).last()",
            "1: `clone` may fail for memory, and nothing stands for it in plain Rust",
        ),
        (
            "Vec::from_iter(alloc, x).iter()",
            "1: `from_iter` may fail for memory, and nothing stands for it in plain Rust",
        ),
        ("text.write_str(x)", "1: `write_str` may fail for memory, and is named in a way that isn't known"),
        ("let r = 250u8.. else { return };", "1: `.` begins a range with no end, which may be iterated"),
        ("if let A = b && c { d } else { e }", "1: `&` is one of several conditions that older Rust hasn't"),
        ("if let A = b && c && d { e }", "1: `&` is one of several conditions that older Rust hasn't"),
        ("(alloc, x).1", "1: `(` opens a tuple with an allocator"),
        ("let pair = (1, rt.alloc());", "1: `(` opens a tuple with an allocator"),
        ("[alloc, alloc].len()", "1: `alloc` is no form that can be erased"),
        ("#[derive(Debug)] struct S { alloc: Global, n: u8 }", "1: `[` opens a derive that prints an allocator"),
        ("ghost a: { b } fn f() {} struct S;", "1: `ghost` has more than a fact"),
        ("let a = r\"\\\"; v.push(1)?; let b = \"\\\"\";", "1: `r` begins a string that isn't known"),
        ("let s = r#\"a\"#;", "1: `#` begins a string that isn't known"),
        ("/* ghost */ fn f() {}", "1: `/*` begins a comment that isn't known"),
        ("#[derive(Error)] pub enum E {\n#[error(\"{b}\")] A { a: u8 } }", "2: `\"{b}\"` names no field: b"),
    ];
    for (source, expected) in ROWS {
        assert_eq!(erased(source), *expected, "{source}");
    }
}

#[test]
fn what_means_the_same_stays() {
    const ROWS: &[&str] = &[
        "use crate::a::Less as Below;",
        "&v[i..]; v[f(x)..].len(); v.get(skipped..); v.get_mut(1..); Slice::from(5u8..);",
        "match x { 5.. => 1, _ => 0 }",
        "[first, rest @ ..]; (.., last); S { a, .. }; f(..); ..=3; a..b;",
        "impl<D: Lengths> W for Forward<&'a mut D> {}",
        "impl<T> W<&Dim<T>> for V<T> {}",
        "S { a: 1, ..*self.s }",
        "f.write_str(x)",
        "a.b.cast_signed() + f(a).cast_unsigned()",
        "impl From<RangeFrom<u8>> for S {}",
    ];
    for source in ROWS {
        let stays = source.replace("crate::a", "crate::upper::a");
        assert_eq!(line(source), stays, "{source}");
    }
}

/// A folder with a file of this text, `lib.rt`, outside the repository: the gate fails at a source that no crate has.
fn file_of(name: &str, text: &str) -> std::path::PathBuf {
    let folder = std::env::temp_dir().join(format!("ndarray_layout-{}-{name}", std::process::id()));
    fs::create_dir_all(&folder).expect("a folder");
    fs::write(folder.join("lib.rt"), text).expect("a file");
    folder
}

#[test]
fn a_file_is_a_module() {
    let folder =
        file_of("whole", "//! The docs.\n#![tactic(auto)]\n\npub mod a;\nconst S: &str = \"\n//! text\nmod b;\n\";\n");
    fs::create_dir_all(folder.join("a")).expect("a folder");
    fs::write(folder.join("a.rt"), "mod b;\nuse super::c;\nfn f(x: Vec<u8>) {}\n").expect("a file");
    fs::write(folder.join("a/b.rt"), "fn g() {}\n").expect("a file");
    let text = module_of(&folder.join("lib.rt"), &folder, &NAMES).expect("known forms");
    let import = "use crate::memory::prelude::{Vec};";
    let b = "mod b {\n\n\nfn g() {}\n\n}";
    let a = format!("{{\n\n\n{import}\n{b}\nuse super::c;\nfn f(x: Vec<u8>) {{}}\n\n}}");
    let string = "const S: &str = \"\n//! text\nmod b;\n\";\n";
    assert_eq!(text, format!("//! The docs.\n\n\n\npub mod a {a}\n{string}"));

    let files = files_of(&folder, &NAMES, "#![allow(a)]\n").expect("known forms");
    let made = |of: &str| format!("// Made by `rust/erase` of `crates/upper/src/{of}`: edit that.\n");
    let root = format!("{}//! The docs.\n\n#![allow(a)]\n\n\n\npub mod a;\n{string}", made("lib.rt"));
    let a = format!("{}\n\n{import}\nmod b;\nuse super::c;\nfn f(x: Vec<u8>) {{}}\n", made("a.rt"));
    let b = format!("{}\n\nfn g() {{}}\n", made("a/b.rt"));
    let expected = [("mod.rs", root), ("a.rs", a), ("a/b.rs", b)];
    assert_eq!(files, expected.map(|(place, text)| (place.into(), text)));
    fs::remove_dir_all(folder).expect("a folder");
}

#[test]
fn modules_stand_in_an_order_of_use() {
    let folder = file_of("order", "mod a;\n");
    fs::create_dir_all(folder.join("a")).expect("a folder");
    fs::write(folder.join("a.rt"), "mod blocks;\nmod constructors;\nmod rows;\nuse a::b;\n").expect("a file");
    for name in ["blocks", "constructors", "rows"] {
        fs::write(folder.join("a").join(format!("{name}.rt")), "").expect("a file");
    }
    let files = files_of(&folder, &NAMES, "").expect("known forms");
    assert!(files[1].1.ends_with("\nmod constructors;\nmod rows;\nmod blocks;\nuse a::b;\n"), "{}", files[1].1);
    let exported = files_of(&folder, &Names { exported: true, ..NAMES }, "").expect("known forms");
    assert!(exported[0].1.ends_with("\npub mod a;\n"), "{}", exported[0].1);
    fs::remove_dir_all(folder).expect("a folder");
}

#[test]
fn a_fault_names_the_file() {
    let folder = file_of("fault", "mod a;\n");
    fs::write(folder.join("a.rt"), "\nfn f() { dyn {} }\n").expect("a file");
    let fault = module_of(&folder.join("lib.rt"), &folder, &NAMES).expect_err("no form");
    let expected = format!("{}:2: `dyn` is no form that can be erased", folder.join("a.rt").display());
    assert_eq!(fault.to_string(), expected);
    fs::remove_dir_all(folder).expect("a folder");
}

#[test]
fn code_is_found_by_tokens() {
    const ROWS: &[(&str, &str)] = &[
        ("let c = 'é'; return E; // ensures", "1: let c = 'é'; return E;"),
        ("{ use a::{b}; pub(super) use c::d; return E; }", "1: { return E; }"),
        ("use a::b as E;\npub use c::{self as E};", "1: use a::b as E;, 2: pub use c::{self as E};"),
        ("fn f(x: u8) -> R ensures* a { x ≡ 1 } { E }", "1: fn f(x: u8) -> R { E }"),
        ("fn f()\n    requires { x ≡\n 1 } { E }", "1: fn f(), 3: { E }"),
        ("#![tactic(auto)] #[tactic(a)] fn f() {}", "1: fn f() {}"),
        ("S { ghost a: { b ≡ c }, E }", "1: S { E }"),
        ("/// Docs.\nlet s = \"ghost //\nuse a;\"; E", "2: let s = \"ghost // use a;\", 3: ; E"),
    ];
    for (source, expected) in ROWS {
        let lines = code::lines_of(source).expect("tokens");
        let lines: Vec<String> = lines.iter().map(|line| format!("{}: {}", line.number, line.text)).collect();
        assert_eq!(lines.join(", "), *expected, "{source}");
    }
}

#[test]
fn what_is_not_known_is_an_error_with_its_line() {
    const ROWS: &[(&str, &str)] = &[
        ("fn f() {}\nghost;", "2: `ghost` names nothing"),
        ("fn f() requires g();", "1: `requires` is a clause without a fact"),
        ("let a = x ≡ y;", "1: `≡` is no form that can be erased"),
        ("fn f(a: Global) {}", "1: `Global` is no form that can be erased"),
        ("g(&alloc)", "1: `alloc` is no form that can be erased"),
        ("impl Drop for S { fn drop(self) {} }", "1: `impl` drops a value by more than its fields"),
        (
            "impl Drop for S { fn drop(self) { let S { a } = self; f(a); } }",
            "1: `impl` drops a value by more than its fields",
        ),
        ("#[unsafe(no_drop)] fn f() {}", "1: `[` opens an attribute that isn't known: unsafe"),
        ("unsafe { f() }", "1: `unsafe` is sound for no reason that `UNSAFE` of rust/eraser/names.rs has"),
        ("fn f(x: &dyn T) {}", "1: `dyn` is no form that can be erased"),
        ("std::mem::size_of::<u8>()", "1: `size_of` is an item of std that isn't known"),
        ("std::thread::yield_now()", "1: `thread` is a module of std that isn't known"),
        ("use std::iter::once;", "1: `once` is an item of std that isn't known"),
        ("use std::sync::Arc;", "1: `sync` is a module of std that isn't known"),
        ("#[derive(Serialize)] struct S;", "1: `#` derives Serialize, which isn't known"),
        ("#[must_use] fn f() {}", "1: `[` opens an attribute that isn't known: must_use"),
        ("prove!(x < 1);", "1: `prove` is a macro that isn't known"),
        ("vec![1, 2]", "1: `vec` is given no allocator"),
        ("assert!(host; x)", "1: `assert` is given something that isn't known"),
        ("v.reserve(2)?;", "1: `reserve` may fail for memory, and nothing stands for it in plain Rust"),
        ("fn clone(&self) -> Result<Self, AllocError> { self.copy() }", "1: `clone` does more than to copy"),
        ("impl Model for S { fn f() {} }", "1: `fn` is no ghost member of a model"),
        ("#[derive(Error)] pub enum E { A }", "1: `E` derives Error, and a variant has no text"),
        ("#[derive(Error)] pub enum E { #[source] A }", "1: `[` opens no text of an error that is known"),
        ("#[derive(Error)] pub enum E { #[error(\"{0}{1}\")] A(u8, u8) }", "1: `(` opens more than one field"),
        ("f(]", "1: `]` closes another bracket"),
        ("f(\n", "1: `(` is never closed"),
        ("}", "1: `}` closes nothing"),
        ("let s = \"a", "1: `\"` begins a token that never ends"),
    ];
    for (source, expected) in ROWS {
        assert_eq!(erased(source), *expected, "{source}");
    }
}
