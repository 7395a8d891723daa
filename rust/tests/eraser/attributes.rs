//! What stands before an item besides its docs, and the parent of a sealed trait.

use crate::erase::{Names, erase};
use crate::tokens::trees_of;
use crate::{NAMES, line};

#[test]
fn a_function_of_the_layer_is_inlined() {
    const ROWS: &[(&str, &str)] = &[
        ("use a::b; fn f() {} struct S {}", "use a::b; #[inline] fn f() {} struct S {}"),
        ("#[inline(always)] fn f() {}", "#[inline(always)] fn f() {}"),
        (
            "impl T for S { type A = B; final fn f() { g() } const N: u8 = 1; fn h() {} }",
            "impl T for S { type A = B; #[inline] fn f() { g() } const N: u8 = 1; #[inline] fn h() {} }",
        ),
        ("trait T { fn f(); fn g() {} }", "trait T { fn f(); #[inline] fn g() {} }"),
        ("static F: fn(u8) = g; mod m { fn f() {} }", "static F: fn(u8) = g; mod m { #[inline] fn f() {} }"),
        (
            "/// A.\npub fn f() -> u8 ensures { x } { 1 }",
            "/// A. /// /// <details><summary>Contract (proved)</summary> /// /// ```text /// ensures x /// ``` /// [How to read it](crate::contracts) /// </details> #[inline] #[must_use] pub fn f() -> u8 { 1 }",
        ),
    ];
    for (source, expected) in ROWS {
        let names = Names { inlined: true, ..NAMES };
        let text = trees_of(source).and_then(|(trees, _)| erase(&trees, &names)).expect("known forms").text;
        assert_eq!(text.split_whitespace().collect::<Vec<_>>().join(" "), *expected, "{source}");
    }
}

#[test]
fn a_result_that_nobody_is_told_of_must_be_used() {
    const ROWS: &[(&str, &str)] = &[
        ("pub fn f(&mut self) -> bool { x }", "#[must_use] pub fn f(&mut self) -> bool { x }"),
        (
            "#[inline] pub final fn f<A: B<C>>(a: A) -> A { a }",
            "#[must_use] #[inline] pub fn f<A: B<C>>(a: A) -> A { a }",
        ),
        ("pub fn f() {} pub fn g() -> Result<u8, E> { x } fn h() -> u8 { 1 }", ""),
        ("pub fn f() -> Result<A, E> where B: FnOnce() -> bool { x }", ""),
        ("pub fn f<B, F: FnMut(B) -> B>(each: F) -> B { x }", ""),
        ("pub struct S { a: fn() -> u8 } fn g() -> u8 { 1 } pub const N: u8 = 1; fn h() -> u8 { 1 }", ""),
        ("pub trait Convert { fn f(&self) -> u8; }", ""),
        (
            "mod m { pub trait SliceElems { fn f(&self) -> u8; fn g() -> bool { x } fn h(); } fn k() -> u8 { 1 } }",
            "mod m { pub trait SliceElems: crate::sealed::Sealed { #[must_use] fn f(&self) -> u8; #[must_use] fn g() -> bool { x } fn h(); } fn k() -> u8 { 1 } }",
        ),
        ("impl SliceElems for S { fn f(&self) -> u8 { 1 } }", ""),
        (
            "/// A.\npub fn f() -> u8 ensures { x };",
            "/// A. /// /// <details><summary>Contract (proved)</summary> /// /// ```text /// ensures x /// ``` /// [How to read it](crate::contracts) /// </details> #[must_use] pub fn f() -> u8;",
        ),
    ];
    for (source, expected) in ROWS {
        assert_eq!(line(source), *if expected.is_empty() { source } else { expected }, "{source}");
    }
    let names = Names { package: "::ndarray_layout", ..NAMES };
    let text = trees_of("pub fn f() -> u8;").and_then(|(trees, _)| erase(&trees, &names));
    assert_eq!(text.expect("known forms").text, "pub fn f() -> u8;");
}

#[test]
fn a_trait_that_leads_to_places_is_sealed() {
    const ROWS: &[(&str, &str)] = &[
        ("pub trait FixedCount { const N: u8; }", "pub trait FixedCount: crate::sealed::Sealed { const N: u8; }"),
        (
            "pub trait RemoveAxis: A<B = C> + Drop { ghost a: { b }; }",
            "pub trait RemoveAxis: A<B = C> + Sized + crate::sealed::Sealed { }",
        ),
        ("pub trait NdIndex<E: Lengths> {}", "pub trait NdIndex<E: Lengths>: crate::sealed::Sealed {}"),
        (
            "pub trait SliceArg<D: A>: B where Self: C {}",
            "pub trait SliceArg<D: A>: B + crate::sealed::Sealed where Self: C {}",
        ),
        (
            "/// A.\npub trait Sequence {}",
            "/// A. /// /// Sealed: no type outside this package implements it. pub trait Sequence: crate::sealed::Sealed {}",
        ),
        ("pub trait IntoDimension {} trait Lengths {} trait Other {}", ""),
        ("pub trait Other {}", "1: `Other` is a trait that neither `SEALED` nor `OPEN` of rust/eraser/names.rs has"),
    ];
    for (source, expected) in ROWS {
        assert_eq!(line(source), *if expected.is_empty() { source } else { expected }, "{source}");
    }
}
