//! The exports of a crate as C calls them: a list is a pointer and a count, and what C lends to be written may hold nothing yet.

use crate::erase::Eraser;
use crate::library::{items_of, without_memory};
use crate::names::{NAMED_BY_KIND, READ_TOO, ZEROED};
use crate::tokens::{Fault, Group, Kind, Tree, begins_with, fault, text_of};

impl Eraser<'_> {
    /// `extern "C" fn`, which may take slices in the kit's language, becomes `fn`.
    pub(crate) fn export(&mut self, trees: &[Tree]) -> Result<Option<usize>, Fault> {
        let is_export =
            matches!(trees, [word, abi, name, ..] if word.is("extern") && abi.first().text == "\"C\"" && name.is("fn"));
        if is_export {
            self.note(&trees[2..]);
            self.put(trees[0].first().lead, "fn");
        }
        Ok(is_export.then_some(3))
    }

    /// Notes which parameters of a function are only written.
    pub(crate) fn note_written(&mut self, function: &str, head: &[Tree]) {
        let parameters = head.iter().find_map(|tree| tree.group("(")).filter(|_| self.names.unwritten);
        let parameters = items_of(parameters.map_or(&[], |group| &group.trees));
        let written = parameters.filter(|parameter| is_only_written(function, parameter));
        self.written = written.map(|parameter| parameter[0].first().text.to_string()).collect();
    }

    /// A parameter that is only written is a `MaybeUninit`: what reads it is an error here, or one of rustc.
    pub(crate) fn written(&mut self, trees: &[Tree]) -> Result<Option<usize>, Fault> {
        let pointed = usize::from(trees[0].is("*"));
        let [name, rest @ ..] = &trees[pointed..] else {
            return Ok(None);
        };
        if !self.written.iter().any(|written| name.is(written)) {
            return Ok(None);
        }
        let (lead, text) = (trees[0].first().lead, name.first().text);
        if begins_with(rest, &[":", "&", "mut"]) && rest.len() > 3 {
            self.put(lead, &format!("{text}: &mut {}", unwritten(&rest[3])));
            return Ok(Some(5));
        }
        let lent = ZEROED.iter().find(|(function, list, _)| *function == self.of_function && *list == text);
        let is_argument = self.bracket == "(" && rest.first().is_none_or(|tree| tree.is(","));
        if let (true, Some((.., lent))) = (is_argument, lent) {
            self.put(lead, lent);
            return Ok(Some(1));
        }
        let indexed = usize::from(rest.first().is_some_and(|tree| tree.group("[").is_some()));
        self.put(lead, text);
        self.all(&rest[..indexed])?;
        match (pointed + indexed, self.write(&rest[indexed..])?) {
            (0, 0) => Ok(Some(1)),
            (_, 0) => Err(fault(name.first(), "is read, and neither C nor this function has written it")),
            (before, length) => Ok(Some(1 + before + length)),
        }
    }

    /// How a place is written that may hold nothing yet, and how many trees say so: none where it isn't written here.
    fn write(&mut self, trees: &[Tree]) -> Result<usize, Fault> {
        let (call, value, length) = match trees {
            [equals, next, ..] if equals.is("=") && !next.is("=") => {
                let end = trees.iter().position(|tree| tree.is(";"));
                let end = end.ok_or_else(|| fault(equals.first(), "is followed by no `;`"))?;
                (".write(", &trees[1..end], end)
            }
            [dot, copy, Tree::Group(items), ..] if dot.is(".") && copy.is("copy_from_slice") => {
                (".copy_from_slice(as_unwritten(", &items.trees[..], 3)
            }
            _ => return Ok(0),
        };
        self.out.push_str(call);
        self.all(value)?;
        self.out.extend(call.matches('(').map(|_| ')'));
        Ok(length)
    }

    /// A field that C writes if the kind of what it passes names it is a `MaybeUninit`, and is read there alone.
    pub(crate) fn named_by_kind(&mut self, trees: &[Tree]) -> Result<Option<usize>, Fault> {
        let is_field = |tree: &Tree| tree.word().is_some_and(|name| NAMED_BY_KIND.contains(&name));
        let [first, symbol, last, ..] = trees else {
            return Ok(None);
        };
        let (lead, text) = (first.first().lead, first.first().text);
        let is_declared = symbol.is(":") && is_field(first) && (last.is("i32") || last.is("isize"));
        if self.names.unwritten && is_declared && self.bracket == "{" {
            self.put(lead, &format!("{text}: {}", unwritten(last)));
        } else if self.names.unwritten && text == "raw" && symbol.is(".") && is_field(last) {
            self.put(lead, &format!("unsafe {{ raw.{}.assume_init() }}", last.first().text));
        } else {
            return Ok(None);
        }
        Ok(Some(3))
    }
}

/// Whether a parameter of a function is written, and what it held isn't read.
fn is_only_written(function: &str, parameter: &[Tree]) -> bool {
    begins_with(&parameter[1..], &[":", "&", "mut"]) && !READ_TOO.contains(&(function, parameter[0].first().text))
}

/// The type of what may hold nothing yet: an item, or a list of items.
fn unwritten(ty: &Tree) -> String {
    match ty {
        Tree::Group(items) => format!("[MaybeUninit<{}>]", text_of(&items.trees)),
        Tree::Leaf(item) => format!("MaybeUninit<{}>", item.text),
    }
}

/// A module of functions that take what C passes: one for each `extern "C" fn` of a source, in whose module it stands.
pub fn flat(trees: &[Tree], unwritten: bool) -> Result<String, Fault> {
    let mut text = String::new();
    for at in 0..trees.len() {
        let [word, abi, keyword, name, Tree::Group(parameters), result @ ..] = &trees[at..] else {
            continue;
        };
        if word.is("extern") && abi.first().kind == Kind::Literal && keyword.is("fn") {
            text += &function(name.first().text, parameters, result, unwritten)?;
        }
    }
    Ok(if text.is_empty() { text } else { format!("\npub mod exported {{\nuse super::*;\n\n{text}}}\n") })
}

fn function(name: &str, parameters: &Group, result: &[Tree], unwritten: bool) -> Result<String, Fault> {
    let [minus, arrow, result, ..] = result else {
        return Err(fault(&parameters.close, "is followed by no result"));
    };
    let (true, true, Some(result)) = (minus.is("-"), arrow.is(">"), result.word()) else {
        return Err(fault(&parameters.close, "is followed by a result that isn't known"));
    };
    let (mut taken, mut passed) = (Vec::new(), Vec::new());
    let kept = without_memory(&parameters.trees);
    for parameter in items_of(&kept) {
        let (declared, value) = passed_by_c(name, parameter, unwritten)?;
        taken.push(declared);
        passed.push(value);
    }
    let (taken, passed) = (taken.join(", "), passed.join(", "));
    Ok(format!(
        "/// # Safety\n///\n/// Each pointer is aligned and leads to as many items as its count says. That of an empty list isn't looked at.\n#[unsafe(no_mangle)]\npub unsafe extern \"C\" fn {name}({taken}) -> {result} {{\n    unsafe {{ super::{name}({passed}) }}\n}}\n\n"
    ))
}

/// A parameter of a function as C passes it, and the value that is made of it.
fn passed_by_c(function: &str, parameter: &[Tree], unwritten: bool) -> Result<(String, String), Fault> {
    let name = parameter[0].first().text;
    let unknown = || fault(parameter[0].first(), "is a parameter that C can't pass");
    let is_written = |ty: &[Tree]| ty.first().is_some_and(|word| word.is("mut"));
    let is_unwritten = unwritten && is_only_written(function, parameter);
    let item = |text: String| if is_unwritten { format!("MaybeUninit<{text}>") } else { text };
    match &parameter[1..] {
        [colon, amp, ty @ ..] if colon.is(":") && amp.is("&") => {
            let (kind, empty, call) = match is_written(ty) {
                true => ("mut", "&mut []", "from_raw_parts_mut"),
                false => ("const", "&[]", "from_raw_parts"),
            };
            match ty.last() {
                Some(Tree::Group(list)) if list.open.text == "[" => Ok((
                    format!("{name}: *{kind} {}, {name}_count: usize", item(text_of(&list.trees))),
                    // (the pointer of an empty list may be null)
                    format!(
                        "if {name}_count == 0 {{ {empty} }} else {{ ::core::slice::{call}({name}, {name}_count) }}"
                    ),
                )),
                Some(one) if is_written(ty) => {
                    Ok((format!("{name}: *mut {}", item(one.first().text.to_string())), format!("&mut *{name}")))
                }
                _ => Err(unknown()),
            }
        }
        [colon, Tree::Leaf(ty)] if colon.is(":") => Ok((format!("{name}: {}", ty.text), name.to_string())),
        _ => Err(unknown()),
    }
}
