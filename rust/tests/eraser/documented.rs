//! What the docs of an item have: its contract, its conditions in words, an example.

use crate::erase::{Names, erase};
use crate::tokens::trees_of;
use crate::{NAMES, erased, examples};

/// The contract of an item that has these clauses, as it stands in its documentation.
fn contract(clauses: &str) -> String {
    format!(
        "/// <details><summary>Contract (proved)</summary>\n///\n/// ```text\n{clauses}/// ```\n/// [How to read it](crate::contracts)\n/// </details>\n"
    )
}

#[test]
fn a_contract_is_documentation() {
    let source = "/// One more.\n#[inline]\nfn f(x: u8) -> u8\n    requires small { x < 255 }\n    ensures { result ≡\n        x + 1 }\n    ensures same { x.ghost_name ≡ y.ghost_name }\n    ensures* back { sem 𝓛 (Lends x y) }\n{\n    x + 1\n}\n\nfn g() ensures { 1 ≡ 1 } {}\n";
    let clauses = contract("/// requires small: x < 255\n/// ensures result ≡ x + 1\n");
    let expected =
        format!("/// One more.\n///\n{clauses}#[inline]\nfn f(x: u8) -> u8\n{{\n    x + 1\n}}\n\nfn g() {{}}\n");
    assert_eq!(erased(source), expected);
    // (a fact that takes more than a line keeps its lines)
    let long = "x ≡ y + 1 ".repeat(8);
    let source = format!("/// A.\nfn f() ensures all {{ {long}→\n  {long}}} {{}}");
    let clauses = contract(&format!("/// ensures all: {long}→\n///     {}\n", long.trim_end()));
    assert_eq!(erased(&source), format!("/// A.\n///\n{clauses}fn f() {{}}"));
}

#[test]
fn errors_stand_behind_cost_and_numbers() {
    let source =
        "/// A.\n///\n/// # Errors\n///\n/// `B`; then\n/// `C`.\n///\n/// Takes time.\n///\n/// 1: 2.\nfn f() {}";
    let expected =
        "/// A.\n///\n/// Takes time.\n///\n/// 1: 2.\n///\n/// # Errors\n///\n/// `B`; then\n/// `C`.\nfn f() {}";
    assert_eq!(erased(source), expected);
    assert_eq!(erased(expected), expected);
}

#[test]
fn an_example_is_documentation() {
    let page = "# S::f\n```\nf();\n\n# g();\n```\n\n# g\n```\ng();\n```\n";
    let of_calls = examples::examples_of(page);
    let names = Names { examples: &of_calls, ..NAMES };
    let erased = |source: &str| {
        let erased = trees_of(source).and_then(|(trees, _)| erase(&trees, &names));
        erased.map_or_else(|fault| fault.to_string(), |erased| erased.text)
    };
    let expected = "/// A.\n///\n/// # Examples\n///\n/// ```\n/// g();\n/// ```\npub fn g() {}";
    assert_eq!(erased("/// A.\npub fn g() {}"), expected);
    let example = "    /// A.\n    ///\n    /// # Examples\n    ///\n    /// ```\n    /// f();\n    ///\n    /// # g();\n    /// ```\n";
    let source = "impl<T> S<T> {\n    /// A.\n    pub fn f() {}\n}";
    assert_eq!(erased(source), format!("impl<T> S<T> {{\n{example}    pub fn f() {{}}\n}}"));
    assert!(of_calls.iter().all(|example| example.is_placed.get()));
    // a private call, that of a trait and that of another type have none; another public one of the type has to
    for source in
        ["impl S { /// A.\n fn g() {} }", "impl F for S { /// A.\n fn g() {} }", "impl Q { /// A.\n pub fn h() {} }"]
    {
        assert_eq!(erased(source), source);
    }
    assert!(erased("impl S { /// A.\n pub fn h() {} }").ends_with("has no example: S::h"));
}

#[test]
fn a_condition_is_told_in_words() {
    let broken = "Otherwise this call or a later one panics or returns unspecified values.";
    let source = |docs: &str, item: &str| format!("/// A.\n{docs}{item}\n    requires {{ x < 2 }}\n{{}}");
    let expected = |docs: &str, words: &str, item: &str| {
        let clauses = contract("/// requires x < 2\n");
        format!("/// A.{docs}\n///\n/// # Conditions\n///\n/// {words}\n///\n{clauses}{item}\n{{}}")
    };
    let told = "/// B. The caller\n/// ensures that `x` is\n/// less than 2. C\n/// D.\n///\n/// E.\n";
    let words = format!("The caller ensures that `x` is less than 2. {broken}");
    for item in ["fn f(x: u8)", "pub fn f(x: u8)"] {
        assert_eq!(
            erased(&source(told, item)),
            expected("\n/// B. C D.\n///\n/// E.", &words, item).replacen("/// A.\n/// B.", "/// A. B.", 1)
        );
    }
    let alone = "///\n/// The caller ensures that `x` is less than 2.\n";
    assert_eq!(erased(&source(alone, "fn f(x: u8)")), expected("", &words, "fn f(x: u8)"));
    let seen = erased("/// A. A contract sees\n/// the list. B.\nstruct S { a: u8 }");
    assert_eq!(seen, "/// A. B.\nstruct S { a: u8 }");
    let told = erased("/// A. No clause says b.\n///\n/// C. (A proof that needs d\n/// does e.) F.\nfn f();");
    assert_eq!(told, "/// A.\n///\n/// C. F.\nfn f();");
    assert_eq!(erased("/// A. (A proof does b. C.) D.\nfn f();"), "/// A. (C.) D.\nfn f();");
    let indexed = erased("/// A.\nimpl<T, I: B<T>> Index<I> for S<T> {}");
    assert_eq!(
        indexed,
        "/// A.\n///\n/// # Panics\n///\n/// Where there is no such index.\nimpl<T, I: B<T>> Index<I> for S<T> {}"
    );
    // what no docs tell is told for each such condition, or is an error where callers read it
    let untold = "1: `{` has a condition, `x < 2`, that no words tell".replace("1:", "4:");
    assert_eq!(erased(&source("", "pub fn f(x: u8)")), untold);
    assert_eq!(
        erased(&source("", "fn f(x: u8)")),
        format!("/// A.\n///\n{}fn f(x: u8)\n{{}}", contract("/// requires x < 2\n"))
    );
    let closure = erased("/// A.\npub fn f<F: FnMut(u8)>(f: F) requires { CallableInFold f } {}");
    assert!(closure.contains("\n/// # Conditions\n///\n/// The function may be called with any item"), "{closure}");
}
