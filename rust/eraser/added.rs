//! What the package adds to a source: iterators are copied and fold by rows, and it is said which index is none.

use crate::docs::Contract;
use crate::erase::Eraser;
use crate::names::{EXTENSIONS, FOLDED, LENDING, POINTERS};
use crate::tokens::{Fault, Group, Nesting, Token, Tree, begins_with, length_of_generics, text_of};

/// The body of an `index` that panics where there is no such item.
const UNWRAPPED: &str = "self.get(&index).unwrap()";

impl Eraser<'_> {
    /// A struct of the list `LENDING` gets a `Clone` that asks nothing of the items which it lends, as one that is derived would.
    pub(crate) fn lending(&mut self, trees: &[Tree]) -> Result<Option<usize>, Fault> {
        let [word, name, ..] = trees else {
            return Ok(None);
        };
        let name = name.first().text;
        if !word.is("struct") || !self.names.is_packed() || !LENDING.contains(&name) {
            return Ok(None);
        }
        let Some((at, body)) = body_of(trees) else {
            return Ok(None);
        };
        self.put(word.first().lead, "struct");
        self.all(&trees[1..=at])?;
        let generics = &trees[2..2 + length_of_generics(&trees[2..])];
        let (head, names) = (text_of(generics), names_in(generics));
        let of = names.join(", ");
        if POINTERS.contains(&name) {
            self.out.push_str(&format!(
                "\n\n/// Not proved.\nimpl{head} Clone for {name}<{of}> {{\n    fn clone(&self) -> Self {{\n        *self\n    }}\n}}\n\n\
                 /// Not proved.\nimpl{head} Copy for {name}<{of}> {{}}",
            ));
            return Ok(Some(at + 1));
        }
        let fields = fields_of(&body.trees);
        let copies: String = fields.iter().map(|field| format!("{field}: Clone::clone(&self.{field}), ")).collect();
        // (what has the places is copied, and so has to be what can be)
        let asked = if names.contains(&"A") { " where A: Clone" } else { "" };
        self.out.push_str(&format!(
            "\n\n/// A copy, of which neither moves the other. Panics where an allocation fails, never for at most 4 axes. Not proved.\n\
             impl{head} Clone for {name}<{of}>{asked} {{\n    fn clone(&self) -> Self {{\n        {name} {{ {copies}}}\n    }}\n}}",
        ));
        Ok(Some(at + 1))
    }

    /// `impl Iterator for NAME { .. }` of the list `FOLDED` gets a `fold` and an `nth` of its own, and so from the back.
    pub(crate) fn folded(&mut self, trees: &[Tree]) -> Result<Option<usize>, Fault> {
        let (true, true, Some((at, _))) = (self.names.is_packed(), trees[0].is("impl"), body_of(trees)) else {
            return Ok(None);
        };
        let is_for = |three: &[Tree], of, name| three[0].is(of) && three[1].is("for") && three[2].is(name);
        let added = FOLDED.iter().find(|(of, name, _)| trees[..at].windows(3).any(|three| is_for(three, of, name)));
        let Some((_, _, name)) = added else {
            return Ok(None);
        };
        self.difference(trees)?;
        self.put(trees[0].first().lead, "impl");
        self.all(&trees[1..=at])?;
        let end = self.out.rfind('}').unwrap_or_default();
        self.out.insert_str(end, &format!("\n    {}::arrays::{name}!();\n", self.names.package));
        Ok(Some(at + 1))
    }

    /// A trait of the list `EXTENSIONS` goes, and `impl TRAIT for TYPE` becomes an impl of the type, with calls that others see.
    pub(crate) fn extension(&mut self, trees: &[Tree]) -> Result<Option<usize>, Fault> {
        let Some((at, body)) = body_of(trees).filter(|_| trees[0].is("impl") || begins_with(trees, &["pub", "trait"]))
        else {
            return Ok(None);
        };
        let Some(name) = trees[..at].iter().position(|tree| EXTENSIONS.contains(&tree.first().text)) else {
            return Ok(None);
        };
        let Some(of_type) = trees[name..at].iter().position(|tree| tree.is("for")) else {
            self.contract.undocument(&mut self.out);
            self.contract = Contract::at(self.out.len());
            return Ok(Some(at + 1));
        };
        let calls = body.trees.iter().flat_map(published).collect();
        let calls = Tree::Group(Group { open: body.open, trees: calls, close: body.close });
        self.all(&[&trees[..name], &trees[name + of_type + 1..at], &[calls]].concat())?;
        Ok(Some(at + 1))
    }

    /// `fn index` that unwraps what `get` returns names the index and the shape where it panics.
    pub(crate) fn index_method(&mut self, trees: &[Tree]) -> Result<Option<usize>, Fault> {
        let (true, Some((at, body))) = (begins_with(trees, &["fn", "index"]), body_of(trees)) else {
            return Ok(None);
        };
        if !self.names.is_packed() || text_of(&body.trees).trim() != UNWRAPPED {
            return Ok(None);
        }
        self.put(trees[0].first().lead, "#[track_caller]\n    fn");
        self.all(&trees[1..at])?;
        let none = format!("None => {}::arrays::no_such_index(index, self.dim())", self.names.package);
        self.put(" ", &format!("{{\n        match self.get(&index) {{ Some(item) => item, {none} }}\n    }}"));
        self.contract = Contract::at(self.out.len());
        Ok(Some(at + 1))
    }
}

/// A word of the body of an impl, with `pub` before `fn`.
fn published<'a>(tree: &Tree<'a>) -> Vec<Tree<'a>> {
    match tree {
        Tree::Leaf(word) if word.text == "fn" => {
            let leaf = |lead, text| Tree::Leaf(Token { lead, text, ..*word });
            vec![leaf(word.lead, "pub"), leaf(" ", "fn")]
        }
        other => vec![other.clone()],
    }
}

/// The first body in braces, and where it stands.
fn body_of<'t, 'a>(trees: &'t [Tree<'a>]) -> Option<(usize, &'t Group<'a>)> {
    trees.iter().enumerate().find_map(|(at, tree)| Some((at, tree.group("{")?)))
}

/// The parameters in `<..>`, without their bounds.
fn names_in<'a>(generics: &[Tree<'a>]) -> Vec<&'a str> {
    let (mut nesting, mut names) = (Nesting::default(), Vec::new());
    for (at, tree) in generics.iter().enumerate() {
        let is_begun = nesting.after(tree) == 1 && at > 0 && (at == 1 || generics[at - 1].is(","));
        names.extend(is_begun.then(|| tree.first().text).filter(|text| *text != ">"));
    }
    names
}

/// The names of fields.
fn fields_of<'a>(fields: &[Tree<'a>]) -> Vec<&'a str> {
    let named = fields.windows(2).filter(|two| two[1].is(":") && two[0].word().is_some());
    named.map(|two| two[0].first().text).collect()
}
