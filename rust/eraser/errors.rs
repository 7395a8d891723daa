//! The impls that `derive(Error)` of the kit's library `thiserror` stands for, written out.

use crate::library::items_of;
use crate::tokens::{Fault, Group, Kind, Token, Tree, fault};

/// The variants of an enum without the texts in `#[error(..)]` that they print, and the impls of `Display` and `Error`.
pub fn derived<'a>(name: &Token, body: &Group<'a>) -> Result<(Vec<Tree<'a>>, String), Fault> {
    let (mut variants, mut arms) = (Vec::new(), String::new());
    for variant in body.trees.split_inclusive(|tree| tree.is(",")) {
        let (docs, rest) = variant.split_at(length_of_docs(variant));
        let [_, Tree::Group(attribute), variant @ ..] = rest else {
            return Err(fault(name, "derives Error, and a variant has no text"));
        };
        arms += &arm(attribute, variant)?;
        variants.extend_from_slice(docs);
        variants.extend_from_slice(variant);
    }
    let name = name.text;
    let head = "fn fmt(&self, f: &mut ::core::fmt::Formatter<'_>) -> ::core::fmt::Result";
    let display = format!("impl ::core::fmt::Display for {name} {{\n{head} {{\nmatch self {{\n{arms}}}\n}}\n}}");
    Ok((variants, format!("\n\n{display}\n\nimpl ::core::error::Error for {name} {{}}")))
}

/// How a variant is printed: as its text, or as the value in it.
fn arm(attribute: &Group, variant: &[Tree]) -> Result<String, Fault> {
    let unknown = || fault(&attribute.open, "opens no text of an error that is known");
    let (Some(name), [error, Tree::Group(text)]) = (variant.first().and_then(Tree::word), &attribute.trees[..]) else {
        return Err(unknown());
    };
    if !error.is("error") {
        return Err(unknown());
    }
    let (pattern, fields) = match variant.get(1) {
        Some(Tree::Group(fields)) if fields.open.text == "{" => {
            (format!("{{ {} }}", names_of(fields).join(", ")), names_of(fields))
        }
        Some(Tree::Group(fields)) if !fields.trees.iter().any(|tree| tree.is(",")) => {
            ("(value)".to_string(), vec!["0"])
        }
        Some(Tree::Group(fields)) => return Err(fault(&fields.open, "opens more than one field")),
        _ => (String::new(), Vec::new()),
    };
    let value = if fields == ["0"] { ", value" } else { "" };
    let printed = match &text.trees[..] {
        [word] if word.is("transparent") && !value.is_empty() => "::core::fmt::Display::fmt(value, f)".to_string(),
        [Tree::Leaf(text)] if text.kind == Kind::Literal => match unknown_name(text.text, &fields) {
            Some(name) => return Err(fault(text, &format!("names no field: {name}"))),
            None => format!("::core::write!(f, {}{value})", text.text),
        },
        _ => return Err(unknown()),
    };
    Ok(format!("Self::{name}{pattern} => {printed},\n"))
}

/// The names of fields: what stands before their colons.
fn names_of<'a>(fields: &Group<'a>) -> Vec<&'a str> {
    let is_type = |tree: &Tree| !tree.is(":");
    let named = |field: &[Tree<'a>]| match field {
        [name, colon, ty, ..] if colon.is(":") && is_type(ty) => name.word(),
        _ => None,
    };
    items_of(&fields.trees).filter_map(|field| named(&field[length_of_docs(field)..])).collect()
}

/// How many lines of documentation come first.
fn length_of_docs(trees: &[Tree]) -> usize {
    trees.iter().take_while(|tree| tree.first().kind == Kind::Doc).count()
}

/// A name in the braces of a text that is no field's.
fn unknown_name(text: &str, fields: &[&str]) -> Option<String> {
    let text = text.replace("{{", "");
    let mut names = text.split('{').skip(1).map(|rest| rest.split(['}', ':']).next().unwrap_or_default());
    names.find(|name| !fields.contains(name)).map(str::to_string)
}
