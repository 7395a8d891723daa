//! What is written before an item once its head is read: its conditions in words and its contract, folded away, in its
//! documentation; and attributes.

use crate::names::{CONDITIONS, OF_CLOSURES, OF_PROOFS};
use crate::paragraphs::Paragraphs;
use crate::tokens::{Token, Tree, length_of_generics, text_of};

/// What the documentation of a sealed trait says of that.
const SEALED: &str = "Sealed: no type outside this package implements it.";

/// When brackets panic.
const PANICS: &str = "Where there is no such index.";

/// How the sources tell a condition.
const ENSURED: &str = "The caller ensures";

/// How sentences of the sources begin that only who writes proofs reads.
const FOR_PROOFS: &[&str] = &["A contract sees", "No clause says", "(A proof", "A proof", "By this call a proof"];

/// The columns that a line of documentation takes at the most, where lines are broken here.
const COLUMNS: usize = 120;

/// The clauses of an item, and where in the output it begins: after its documentation, if it has some.
#[derive(Default)]
pub struct Contract {
    start: usize,
    /// Where its documentation begins.
    docs: usize,
    is_documented: bool,
    indent: String,
    /// Each condition.
    conditions: Vec<String>,
    clauses: Vec<String>,
    /// Whether callers can name the item.
    pub is_public: bool,
    /// The name of the item, where it is a function.
    pub name: String,
    /// Whether the item is a function.
    pub is_function: bool,
    /// Whether the item is a function whose result has to be used.
    pub must_use: bool,
    /// Whether the item is a trait that no caller implements.
    pub is_sealed: bool,
    /// Whether the item is what brackets are of a value.
    pub is_indexing: bool,
}

impl Contract {
    /// No clause yet of an item without documentation that begins at a byte of the output.
    pub fn at(start: usize) -> Self {
        Contract { start, docs: start, ..Contract::default() }
    }

    /// No clause yet of an item after a line of documentation that ends at a byte of the output, and may follow others.
    pub fn after(self, start: usize, line: &Token) -> Self {
        let follows = self.is_documented && self.start + line.lead.len() + line.text.len() == start;
        let docs = if follows { self.docs } else { start - line.text.len() };
        let indent = line.lead.rsplit('\n').next().unwrap_or_default();
        Contract { start, docs, is_documented: true, indent: indent.to_string(), ..Contract::default() }
    }

    /// Takes the documentation away again, of an item that goes.
    pub fn undocument(&self, out: &mut String) {
        out.truncate(self.docs);
    }

    /// Adds a clause, from its keyword to its fact. Those that only proofs of callers need are left out.
    pub fn add(&mut self, clause: &[Tree]) {
        let Some((fact, head)) = clause.split_last() else {
            return;
        };
        let name: String = head[1..].iter().filter_map(Tree::word).collect();
        let text = fact.group("{").map_or(String::new(), |group| text_of(&group.trees));
        if OF_PROOFS.iter().any(|word| text.contains(word)) {
            return;
        }
        let keyword = if clause[0].is("requires") { "requires" } else { "ensures" };
        if keyword == "requires" {
            self.conditions.push(text.split_whitespace().collect::<Vec<_>>().join(" "));
        }
        let title = if name.is_empty() { keyword.to_string() } else { format!("{keyword} {name}:") };
        let lines: Vec<&str> = text.lines().map(str::trim).filter(|line| !line.is_empty()).collect();
        let whole = format!("{title} {}", lines.join(" "));
        if self.indent.len() + "/// ".len() + whole.chars().count() <= COLUMNS {
            self.clauses.push(whole);
            return;
        }
        self.clauses.extend(lines.iter().enumerate().map(|(number, line)| match number {
            0 => format!("{title} {line}"),
            _ => format!("    {line}"),
        }));
    }

    /// Whether its caller ensures something else than that a closure may be called.
    pub fn has_condition(&self) -> bool {
        let is_of_closure =
            |text: &String| !text.contains('×') && OF_CLOSURES.iter().any(|begin| text.starts_with(begin));
        !self.conditions.iter().all(is_of_closure)
    }

    /// Writes `#[inline]` before a function that says nothing of that.
    pub fn inline(&self, out: &mut String) {
        if self.is_function && !out[self.start..].contains("#[inline") {
            self.attribute("#[inline]", out);
        }
    }

    /// Writes `#[must_use]` before a function whose result has to be used.
    pub fn must_use(&self, out: &mut String) {
        if self.must_use {
            self.attribute("#[must_use]", out);
        }
    }

    fn attribute(&self, attribute: &str, out: &mut String) {
        let item = &out[self.start..];
        let space = &item[..item.len() - item.trim_start().len()];
        let indent = space.rsplit('\n').next().unwrap_or_default();
        let line = format!("{attribute}\n{indent}");
        out.insert_str(self.start + space.len(), &line);
    }

    /// Writes to the documentation, if there is one, that a trait is sealed, the conditions in words, an example and the clauses, puts
    /// its errors behind its cost, and takes from it what only who writes proofs reads. `broken` says what a broken condition leads to. The
    /// error is a condition of a public item for which there are no words.
    pub fn write_to(&self, out: &mut String, example: &[String], broken: &str, package: &str) -> Result<(), String> {
        let docs = &out[self.docs..self.start];
        if !self.is_documented || !docs.starts_with("///") {
            return Ok(());
        }
        let mut paragraphs = Paragraphs::of(docs, COLUMNS - self.indent.len() - "/// ".len());
        let for_proofs = FOR_PROOFS.iter().filter_map(|words| paragraphs.take(words)).count();
        let is_moved = paragraphs.errors_last();
        if self.is_sealed {
            paragraphs.push(SEALED);
        }
        if self.is_indexing {
            paragraphs.push("# Panics");
            paragraphs.push(PANICS);
        }
        if let Some(words) = self.conditions_in_words(&mut paragraphs, broken)? {
            paragraphs.push("# Conditions");
            paragraphs.push(&words);
        }
        if !example.is_empty() {
            paragraphs.push("# Examples");
            paragraphs.push_lines(&example.iter().map(String::as_str).collect::<Vec<_>>());
        }
        if !self.clauses.is_empty() {
            let clauses: Vec<&str> = self.clauses.iter().map(String::as_str).collect();
            let page = format!("[How to read it]({}::contracts)", package.trim_start_matches(':'));
            paragraphs.push_lines(&["<details><summary>Contract (proved)</summary>"]);
            paragraphs.push_lines(&[&["```text"], &clauses[..], &["```", &page, "</details>"]].concat());
        }
        let has_more = !self.clauses.is_empty() || !example.is_empty();
        if for_proofs > 0 || is_moved || self.is_sealed || self.is_indexing || has_more {
            let line = |line: &String| format!("{}/// {line}", self.indent).trim_end().to_string();
            let lines: Vec<String> = paragraphs.lines().iter().map(line).collect();
            out.replace_range(self.docs..self.start, lines.join("\n").trim_start());
        }
        Ok(())
    }

    /// What the documentation says of the conditions, which is taken from it, or what is said of each such condition.
    fn conditions_in_words(&self, docs: &mut Paragraphs, broken: &str) -> Result<Option<String>, String> {
        let Some(first) = self.conditions.first() else {
            return Ok(None);
        };
        if let Some(told) = docs.take(ENSURED) {
            return Ok(Some(format!("{told} {broken}")));
        }
        let is_known = |word: &str| self.conditions.iter().any(|condition| condition.contains(word));
        match CONDITIONS.iter().find(|(word, _)| is_known(word)) {
            _ if !self.is_public => Ok(None),
            Some((_, words)) => Ok(Some(words.to_string())),
            None => Err(format!("has a condition, `{first}`, that no words tell")),
        }
    }
}

/// Whether an impl is one of brackets, of a value that is indexed.
pub fn indexes(trees: &[Tree]) -> bool {
    let mut head = trees[1 + length_of_generics(&trees[1..])..].iter();
    head.next().is_some_and(|tree| tree.is("Index") || tree.is("IndexMut"))
}

/// Whether a function returns something, of which nobody is told where it is dropped. That of a `Result` is told anyway, and a
/// function may be called for what a closure of its caller does. The trees begin after its name.
pub fn is_called_for_its_result(trees: &[Tree]) -> bool {
    let (generics, rest) = trees.split_at(length_of_generics(trees));
    let calls_closure = generics.iter().any(|tree| tree.is("FnMut"));
    matches!(rest, [_, minus, arrow, result, ..] if minus.is("-") && arrow.is(">") && !result.is("Result"))
        && !calls_closure
}
