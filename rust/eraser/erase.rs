//! What is left of a source with contracts in plain Rust: a list of forms, each with what it becomes. What no form knows is
//! an error, and never passed through. `rust/ERASURE.md` says why the meaning stays.

use crate::bounds::{Replaced, added_to};
use crate::differences::ends_value;
use crate::docs::{Contract, indexes, is_called_for_its_result};
use crate::errors;
use crate::examples::Example;
use crate::library::without_memory;
use crate::names::{
    ATTRIBUTES, DERIVED, DERIVES, EXTENSIONS, IN_ROOM, LEFT_OUT, OPEN, PRINTED, REFUSED, ROOM, SEALED,
    SOUND_BY_CONDITIONS,
};
use crate::proofs;
use crate::tokens::{Fault, Group, Kind, Token, Tree, begins_with, fault, length_of_generics, text_of};

/// Where the names of a source lead in plain Rust.
pub struct Names<'a> {
    /// The crate of the source, which is a module now.
    pub own: &'a str,
    /// The first of the modules in that crate in which the source stands; nothing for the crate's own file.
    pub module: &'a str,
    /// Crates that are modules beside it.
    pub beside: &'a [&'a str],
    /// Crates that are modules of the package.
    pub library: &'a [&'a str],
    /// The path of the package: `crate` or `::ndarray_layout`.
    pub package: &'a str,
    /// What its calls have as examples.
    pub examples: &'a [Example],
    /// Whether each function is made `#[inline]`: the kit compiles a program whole, and rustc crate by crate.
    pub inlined: bool,
    /// Whether C calls its exports.
    pub exported: bool,
    /// Whether C need not have written what it lends them to write.
    pub unwritten: bool,
}

impl Names<'_> {
    /// Whether the source is a crate of the package itself, which has callers outside.
    pub(crate) fn is_packed(&self) -> bool {
        self.package == "crate"
    }

    /// Where the crate of the source stands in the package.
    pub(crate) fn place(&self) -> String {
        place_of(self.own)
    }

    /// Whether the conditions of its calls keep `unsafe` sound.
    pub(crate) fn is_sound_by_conditions(&self) -> bool {
        SOUND_BY_CONDITIONS.contains(&(self.own, self.module))
    }
}

/// Where a crate stands in the package.
pub(crate) fn place_of(own: &str) -> String {
    if IN_ROOM.contains(&own) { format!("{ROOM}::{own}") } else { own.to_string() }
}

/// A source as plain Rust.
#[derive(Default)]
pub struct Erased {
    pub text: String,
    /// Where its own documentation ends.
    pub head: usize,
    /// The modules that are files of their own, each with where its body belongs.
    pub modules: Vec<(usize, String)>,
    /// Whether it has `unsafe`.
    pub is_unsafe: bool,
}

/// The trees of a source as plain Rust.
pub fn erase(trees: &[Tree], names: &Names) -> Result<Erased, Fault> {
    let mut eraser = Eraser {
        names,
        out: String::new(),
        head: 0,
        modules: Vec::new(),
        contract: Contract::default(),
        of_impl: String::new(),
        of_function: String::new(),
        written: Vec::new(),
        is_unsafe: false,
        is_hidden: false,
        in_trait: false,
        replaced: Vec::new(),
        bracket: "",
        takes_ranges: false,
        endless: String::new(),
        whole: Default::default(),
        imported: Vec::new(),
    };
    eraser.all(trees)?;
    Ok(Erased { text: eraser.out, head: eraser.head, modules: eraser.modules, is_unsafe: eraser.is_unsafe })
}

pub(crate) struct Eraser<'a> {
    pub(crate) names: &'a Names<'a>,
    pub(crate) out: String,
    head: usize,
    modules: Vec<(usize, String)>,
    /// The clauses of the item at hand.
    pub(crate) contract: Contract,
    /// The type whose calls the impl at hand has.
    pub(crate) of_impl: String,
    /// The name of the last function that began.
    pub(crate) of_function: String,
    /// Its parameters that are only written, if it is of exports.
    pub(crate) written: Vec<String>,
    /// Whether `unsafe` was left.
    pub(crate) is_unsafe: bool,
    /// Whether the item at hand is hidden from users.
    pub(crate) is_hidden: bool,
    /// Whether that is an item of a sealed trait.
    pub(crate) in_trait: bool,
    /// What is replaced in the item at hand.
    pub(crate) replaced: Vec<Replaced>,
    /// The bracket in which the tree at hand stands; none at the top.
    pub(crate) bracket: &'static str,
    /// Whether a range with no end may stand in that bracket.
    pub(crate) takes_ranges: bool,
    /// The parameter at hand that is a range with no end; empty where none is.
    pub(crate) endless: String,
    /// The last `Whole`, and the items that it lends.
    pub(crate) whole: (String, String),
    /// The modules of `std` that are imported.
    pub(crate) imported: Vec<String>,
}

/// A form: how many trees it takes, where it is the one that comes first.
type Form<'a> = fn(&mut Eraser<'a>, &[Tree]) -> Result<Option<usize>, Fault>;

impl<'a> Eraser<'a> {
    const FORMS: [Form<'a>; 37] = [
        Self::doc,
        Self::clause,
        Self::ghost,
        Self::error,
        Self::attribute,
        Self::model,
        Self::drop_impl,
        Self::extension,
        Self::hidden,
        Self::export,
        Self::written,
        Self::named_by_kind,
        Self::finality,
        Self::unsafety,
        Self::own_crate,
        Self::seal,
        Self::type_bounds,
        Self::listed,
        Self::replacement,
        Self::drop_bound,
        Self::clone_method,
        Self::formatter,
        Self::lending,
        Self::folded,
        Self::index_method,
        Self::import,
        Self::whole,
        Self::left_out,
        Self::module,
        Self::allocator,
        Self::difference,
        Self::chain,
        Self::cast,
        Self::path,
        Self::call,
        Self::macro_call,
        Self::group,
    ];

    /// Erases trees that stand side by side.
    pub(crate) fn all(&mut self, trees: &[Tree]) -> Result<(), Fault> {
        let mut rest = trees;
        'trees: while let Some(tree) = rest.first() {
            self.note(rest);
            for form in Self::FORMS {
                if let Some(taken) = form(self, rest)? {
                    rest = &rest[taken..];
                    continue 'trees;
                }
            }
            self.token(tree.first())?;
            rest = &rest[1..];
        }
        Ok(())
    }

    /// Notes of the item at hand what its next token says.
    pub(crate) fn note(&mut self, trees: &[Tree]) {
        self.note_impl(trees);
        let is_named = trees.get(1).and_then(Tree::word).is_some();
        self.contract.is_public |= is_named && trees[0].is("pub") && !self.is_unseen(&trees[1..]);
        self.contract.is_indexing |= trees[0].is("impl") && indexes(trees);
        if is_named && trees[0].is("fn") {
            let is_public = self.contract.is_public || self.in_trait;
            self.contract.is_function = true;
            self.contract.name = trees[1].first().text.to_string();
            self.of_function.clone_from(&self.contract.name);
            self.note_written(trees[1].first().text, &trees[2..]);
            self.contract.must_use = self.names.is_packed() && is_public && is_called_for_its_result(&trees[2..]);
        }
    }

    /// A token that means the same in both languages.
    fn token(&mut self, token: &Token) -> Result<(), Fault> {
        let is_known = match token.kind {
            Kind::Word => !REFUSED.contains(&token.text),
            Kind::Symbol => token.text.is_ascii(),
            _ => true,
        };
        if !is_known {
            return Err(fault(token, "is no form that can be erased"));
        }
        self.put(token.lead, token.text);
        if token.text == ";" {
            self.contract.must_use(&mut self.out);
            self.write_contract(token)?;
            self.contract = Contract::at(self.out.len());
        }
        Ok(())
    }

    /// Writes the contract of the item at hand, whose head ends at a token.
    fn write_contract(&mut self, end: &Token) -> Result<(), Fault> {
        self.contract.is_public &= self.names.is_packed();
        let example = self.example().map_err(|what| fault(end, &what))?.to_vec();
        let broken = self.broken().map_err(|what| fault(end, what))?;
        self.contract.write_to(&mut self.out, &example, broken, self.names.package).map_err(|what| fault(end, &what))
    }

    pub(crate) fn put(&mut self, lead: &str, text: &str) {
        self.out.push_str(lead);
        self.out.push_str(text);
    }

    /// A line of documentation; the contract of its item follows the last one.
    fn doc(&mut self, trees: &[Tree]) -> Result<Option<usize>, Fault> {
        let token = trees[0].first();
        if token.kind != Kind::Doc {
            return Ok(None);
        }
        self.put(token.lead, token.text);
        self.contract = std::mem::take(&mut self.contract).after(self.out.len(), token);
        if token.text.starts_with("//!") && self.bracket.is_empty() {
            self.head = self.out.len();
        }
        Ok(Some(1))
    }

    /// `requires NAME { .. }` and `ensures* NAME { .. }` become documentation.
    fn clause(&mut self, trees: &[Tree]) -> Result<Option<usize>, Fault> {
        let length = proofs::length_of_clause(trees)?;
        if let Some(length) = length {
            self.contract.add(&trees[..length]);
        }
        Ok(length)
    }

    /// `ghost NAME ..`, up to the semicolon or the comma, goes.
    fn ghost(&mut self, trees: &[Tree]) -> Result<Option<usize>, Fault> {
        let length = proofs::length_of_ghost(trees)?;
        if length.is_some() && self.out.ends_with("pub") {
            return Err(fault(trees[0].first(), "is public"));
        }
        Ok(length)
    }

    /// `mod NAME;` of the list `LEFT_OUT` goes, and of `pub use PATH::{ITEM, ..};` what that module has.
    fn left_out(&mut self, trees: &[Tree]) -> Result<Option<usize>, Fault> {
        let Some(end) = trees.iter().position(|tree| tree.is(";")).filter(|end| *end > 0) else {
            return Ok(None);
        };
        let last = &trees[end - 1];
        let is_handed_on = begins_with(trees, &["pub", "use"]);
        let is_item = |tree: &Tree| {
            let name = tree.first().text;
            EXTENSIONS.contains(&name) || is_handed_on && LEFT_OUT.iter().any(|(.., items)| items.contains(&name))
        };
        let is_left_out = match last {
            name if trees[0].is("mod") && end == 2 => {
                LEFT_OUT.iter().any(|(own, module, _)| *own == self.names.own && name.is(module))
            }
            _ if !is_handed_on && !trees[0].is("use") => false,
            Tree::Group(list) => {
                let kept = list.trees.split_inclusive(|tree| tree.is(",")).filter(|item| !is_item(&item[0]));
                let kept: Vec<Tree> = kept.flatten().cloned().collect();
                if !kept.is_empty() && kept.len() < list.trees.len() {
                    let kept = [Tree::Group(Group { open: list.open, trees: kept, close: list.close })];
                    self.all(&[&trees[..end - 1], &kept, &trees[end..=end]].concat())?;
                    return Ok(Some(end + 1));
                }
                kept.is_empty()
            }
            item => is_item(item),
        };
        Ok(is_left_out.then_some(end + 1))
    }

    /// `mod NAME;` becomes a module with a body, which the file of that name has.
    fn module(&mut self, trees: &[Tree]) -> Result<Option<usize>, Fault> {
        let [word, Tree::Leaf(name), end, ..] = trees else {
            return Ok(None);
        };
        if !word.is("mod") || !end.is(";") {
            return Ok(None);
        }
        if !self.bracket.is_empty() {
            return Err(fault(name, "is a file, named inside another module"));
        }
        self.put(word.first().lead, word.first().text);
        self.put(name.lead, name.text);
        self.modules.push((self.out.len(), name.text.to_string()));
        self.contract = Contract::at(self.out.len());
        Ok(Some(3))
    }

    /// `#![tactic(..)]` and `#[tactic(..)]` go, `#[unsafe(no_mangle)]`, and `Drop` of a `derive`.
    fn attribute(&mut self, trees: &[Tree]) -> Result<Option<usize>, Fault> {
        if !trees[0].is("#") {
            return Ok(None);
        }
        let at = if trees.get(1).is_some_and(|tree| tree.is("!")) { 2 } else { 1 };
        let group = trees.get(at).and_then(|tree| tree.group("["));
        let group = group.ok_or_else(|| fault(trees[0].first(), "is no attribute"))?;
        let name = group.trees.first().and_then(Tree::word).unwrap_or_default();
        match name {
            "tactic" => {}
            "doc" => self.is_hidden = true,
            "unsafe" if is_no_mangle(group) => {}
            "derive" if self.prints_memory(&derived(group), &trees[at + 1..]) => {
                return Err(fault(&group.open, "opens a derive that prints an allocator"));
            }
            "derive" => self.derive(trees[0].first(), &in_package(derived(group), &trees[at + 1..]))?,
            _ if ATTRIBUTES.contains(&name) => self.out.push_str(&text_of(&trees[..=at])),
            _ => return Err(fault(&group.open, &format!("opens an attribute that isn't known: {name}"))),
        }
        Ok(Some(at + 1))
    }

    fn derive(&mut self, start: &Token, names: &[&str]) -> Result<(), Fault> {
        let names: Vec<&str> = names.iter().copied().filter(|name| *name != "Drop").collect();
        if let Some(other) = names.iter().find(|name| !DERIVES.contains(name)) {
            return Err(fault(start, &format!("derives {other}, which isn't known")));
        }
        if !names.is_empty() {
            self.put(start.lead, &format!("#[derive({})]", names.join(", ")));
        }
        Ok(())
    }

    /// `#[derive(.., Error)] pub enum NAME { .. }`: what the derive stands for follows the enum.
    fn error(&mut self, trees: &[Tree]) -> Result<Option<usize>, Fault> {
        let [start, Tree::Group(attribute), visibility, kind, name, Tree::Group(body), ..] = trees else {
            return Ok(None);
        };
        let names = derived(attribute);
        if !names.contains(&"Error") || !visibility.is("pub") || !kind.is("enum") {
            return Ok(None);
        }
        let names: Vec<&str> = names.into_iter().filter(|name| *name != "Error").collect();
        self.derive(start.first(), &names)?;
        let (variants, impls) = errors::derived(name.first(), body)?;
        let body = Group { open: body.open, trees: variants, close: body.close };
        self.all(&[visibility.clone(), kind.clone(), name.clone(), Tree::Group(body)])?;
        self.out.push_str(&impls);
        Ok(Some(6))
    }

    /// `impl Model for T { .. }`, which has ghost members alone, goes.
    fn model(&mut self, trees: &[Tree]) -> Result<Option<usize>, Fault> {
        let Some(body) = body_of_impl(trees, "Model") else {
            return Ok(None);
        };
        let mut members = trees[body].group("{").map_or(&[][..], |group| &group.trees);
        while let Some(first) = members.first() {
            let taken = self.ghost(members)?;
            let taken = taken.ok_or_else(|| fault(first.first(), "is no ghost member of a model"))?;
            members = &members[taken..];
        }
        Ok(Some(body + 1))
    }

    /// `impl Drop for T { fn drop(self) .. { let T { a: _, .. } = self; } }` goes: it drops each field, as plain Rust does.
    fn drop_impl(&mut self, trees: &[Tree]) -> Result<Option<usize>, Fault> {
        let Some(body) = body_of_impl(trees, "Drop") else {
            return Ok(None);
        };
        let members = trees[body].group("{").map_or(&[][..], |group| &group.trees);
        let drops = members.iter().filter(|tree| tree.is("fn")).count() == 1
            && begins_with(members, &["fn", "drop"])
            && members.last().and_then(|tree| tree.group("{")).is_some_and(drops_fields);
        if !drops {
            return Err(fault(trees[0].first(), "drops a value by more than its fields"));
        }
        Ok(Some(body + 1))
    }

    /// `final fn`, a method that no impl replaces, becomes `fn`.
    fn finality(&mut self, trees: &[Tree]) -> Result<Option<usize>, Fault> {
        let is_final = begins_with(trees, &["final", "fn"]);
        if is_final {
            self.note(&trees[1..]);
            self.put(trees[0].first().lead, "fn");
        }
        Ok(is_final.then_some(2))
    }

    /// A public trait of the package that callers don't implement gets a parent that they can't name.
    fn seal(&mut self, trees: &[Tree]) -> Result<Option<usize>, Fault> {
        let (true, [word, name, rest @ ..]) = (self.names.is_packed() && self.contract.is_public, trees) else {
            return Ok(None);
        };
        let name = name.first();
        if !word.is("trait") || OPEN.contains(&name.text) {
            return Ok(None);
        }
        if !SEALED.contains(&name.text) {
            return Err(fault(name, "is a trait that neither `SEALED` nor `OPEN` of rust/eraser/names.rs has"));
        }
        self.contract.is_sealed = true;
        let head = rest.iter().position(|tree| tree.is("where") || tree.group("{").is_some());
        let head = 2 + head.ok_or_else(|| fault(name, "is a trait without items"))?;
        self.put(word.first().lead, "trait");
        self.all(&trees[1..head])?;
        let before = if rest.get(length_of_generics(rest)).is_some_and(|tree| tree.is(":")) { " +" } else { ":" };
        self.put(before, &format!(" {}::sealed::Sealed{}", self.names.package, added_to(name.text)));
        Ok(Some(head))
    }

    /// `: Drop` and `+ Drop` become `Sized`: any value may be dropped, but not any has a size that is known.
    fn drop_bound(&mut self, trees: &[Tree]) -> Result<Option<usize>, Fault> {
        let is_bound = begins_with(trees, &[":", "Drop"]) || begins_with(trees, &["+", "Drop"]);
        if is_bound {
            let bound = trees[0].first();
            self.put(bound.lead, &format!("{} Sized", bound.text));
        }
        Ok(is_bound.then_some(2))
    }

    /// `fn clone(&self) -> Result<Self, AllocError> { Ok(..) }`, a copy that needs no memory, becomes Rust's own.
    fn clone_method(&mut self, trees: &[Tree]) -> Result<Option<usize>, Fault> {
        if !begins_with(trees, &["fn", "clone"]) {
            return Ok(None);
        }
        let result = ["-", ">", "Result", "<", "Self", ",", "AllocError", ">"];
        let body = trees.get(11).and_then(|tree| tree.group("{")).map_or(&[][..], |group| &group.trees);
        match body {
            [ok, Tree::Group(value)] if begins_with(&trees[3..], &result) && ok.is("Ok") => {
                self.put(trees[0].first().lead, "fn clone(&self) -> Self {");
                self.all(&value.trees)?;
                self.out.push('}');
                Ok(Some(12))
            }
            _ => Err(fault(trees[1].first(), "does more than to copy")),
        }
    }

    /// `fmt<W: fmt::Write>(.., f: &mut fmt::Formatter<W>)`: the type of the writer goes.
    fn formatter(&mut self, trees: &[Tree]) -> Result<Option<usize>, Fault> {
        let writer = ["<", "W", ":", "fmt", ":", ":", "Write", ">"];
        let formatter = ["Formatter", "<", "W", ">"];
        if begins_with(trees, &writer) {
            return Ok(Some(writer.len()));
        }
        let is_formatter = begins_with(trees, &formatter);
        if is_formatter {
            self.put(trees[0].first().lead, "Formatter<'_>");
        }
        Ok(is_formatter.then_some(formatter.len()))
    }

    /// What stands in brackets goes without the allocator and the runtime; after a body comes the next item.
    fn group(&mut self, trees: &[Tree]) -> Result<Option<usize>, Fault> {
        let Tree::Group(group) = &trees[0] else {
            return Ok(None);
        };
        if group.open.text == "[" {
            self.brackets(group, &group.trees)?;
            return Ok(Some(1));
        }
        let kept = without_memory(&group.trees);
        if group.open.text == "(" {
            if kept.len() < group.trees.len() && !self.out.ends_with('>') && !ends_value(&self.out) {
                return Err(fault(&group.open, "opens a tuple with an allocator"));
            }
            self.brackets(group, &kept)?;
            return Ok(Some(1));
        }
        self.contract.must_use(&mut self.out);
        if self.names.inlined {
            self.contract.inline(&mut self.out);
        }
        self.write_contract(&group.open)?;
        let outer = std::mem::replace(&mut self.in_trait, self.contract.is_sealed);
        let (assertion, body) = (self.assertion(), self.out.len() + group.open.lead.len() + group.open.text.len());
        self.brackets(group, &kept)?;
        self.out.insert_str(body, &assertion.unwrap_or_default());
        self.in_trait = outer;
        self.contract = Contract::at(self.out.len());
        Ok(Some(1))
    }

    /// Brackets, and what is left in them, whose items have contracts of their own.
    pub(crate) fn brackets(&mut self, group: &Group, trees: &[Tree]) -> Result<(), Fault> {
        let contract = std::mem::take(&mut self.contract);
        let takes_ranges = self.takes_ranges(group);
        let takes_ranges = std::mem::replace(&mut self.takes_ranges, takes_ranges);
        let bracket = std::mem::replace(&mut self.bracket, opening(group));
        self.put(group.open.lead, group.open.text);
        self.contract = Contract::at(self.out.len());
        self.all(trees)?;
        self.put(group.close.lead, group.close.text);
        (self.contract, self.takes_ranges, self.bracket) = (contract, takes_ranges, bracket);
        Ok(())
    }
}

/// The body of `impl TRAIT for ..`, where trees begin with one.
fn body_of_impl(trees: &[Tree], of: &str) -> Option<usize> {
    let body = trees.iter().position(|tree| tree.group("{").is_some())?;
    let is_of = trees[..body].windows(2).any(|pair| pair[0].is(of) && pair[1].is("for"));
    (trees[0].is("impl") && is_of).then_some(body)
}

/// The bracket that a group opens with.
fn opening(group: &Group) -> &'static str {
    match group.open.text {
        "(" => "(",
        "[" => "[",
        _ => "{",
    }
}

/// Whether a body is `let NAME { a: _, b: _ } = self;`.
fn drops_fields(body: &Group) -> bool {
    match &body.trees[..] {
        [word, name, Tree::Group(fields), rest @ ..] => {
            let mut fields = fields.trees.split(|tree| tree.is(","));
            word.is("let")
                && name.word().is_some()
                && fields.all(|field| matches!(field, [] | [_, _, _]) && (field.is_empty() || field[2].is("_")))
                && rest.len() == 3
                && begins_with(rest, &["=", "self", ";"])
        }
        _ => false,
    }
}

/// Whether an attribute is `unsafe(no_mangle)`.
fn is_no_mangle(attribute: &Group) -> bool {
    matches!(&attribute.trees[..], [_, Tree::Group(name)] if matches!(&name.trees[..], [word] if word.is("no_mangle")))
}

/// The names in `derive(..)`; none in another attribute.
fn derived<'a>(attribute: &Group<'a>) -> Vec<&'a str> {
    match &attribute.trees[..] {
        [derive, Tree::Group(list)] if derive.is("derive") => list.trees.iter().filter_map(Tree::word).collect(),
        _ => Vec::new(),
    }
}

/// The names in a derive, without `Debug` for a struct of the list `PRINTED`, and with those of the list `DERIVED`.
fn in_package<'a>(names: Vec<&'a str>, item: &[Tree]) -> Vec<&'a str> {
    let mut words = item.iter().skip_while(|tree| !tree.is("struct") && !tree.is("enum"));
    let name = words.nth(1).map_or("", |name| name.first().text);
    let kept = names.into_iter().filter(|derived| *derived != "Debug" || !PRINTED.contains(&name));
    let added = DERIVED.iter().filter(|(of, _)| *of == name).flat_map(|(_, names)| *names);
    kept.chain(added.copied()).collect()
}
