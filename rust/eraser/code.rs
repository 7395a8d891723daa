//! The code of a source, line by line: without comments, documentation, tactics, clauses, ghost items, and imports that rename
//! nothing.

use crate::proofs::{length_of_clause, length_of_ghost};
use crate::tokens::{Fault, Kind, Token, Tree, begins_with, trees_of};

/// What stands in a line of code.
pub struct Line {
    pub number: usize,
    pub text: String,
}

/// The lines of a source that have code.
pub fn lines_of(source: &str) -> Result<Vec<Line>, Fault> {
    let mut lines = Vec::new();
    gather(&trees_of(source)?.0, &mut lines)?;
    Ok(lines)
}

fn gather(trees: &[Tree], lines: &mut Vec<Line>) -> Result<(), Fault> {
    let mut rest = trees;
    while let Some(tree) = rest.first() {
        let passed_over = length_of_no_code(rest)?;
        match tree {
            _ if passed_over.is_some() => {}
            Tree::Leaf(token) => write(token, lines),
            Tree::Group(group) => {
                write(&group.open, lines);
                gather(&group.trees, lines)?;
                write(&group.close, lines);
            }
        }
        rest = &rest[passed_over.unwrap_or(1)..];
    }
    Ok(())
}

/// How many trees come first that are no code.
fn length_of_no_code(trees: &[Tree]) -> Result<Option<usize>, Fault> {
    if trees[0].first().kind == Kind::Doc {
        return Ok(Some(1));
    }
    let length = length_of_clause(trees)?.or(length_of_ghost(trees)?);
    Ok(length.or_else(|| length_of_tactic(trees)).or_else(|| length_of_import(trees)))
}

/// How many trees come first as `#[tactic(..)]` or `#![tactic(..)]`.
fn length_of_tactic(trees: &[Tree]) -> Option<usize> {
    let at = if begins_with(trees, &["#", "!"]) { 2 } else { 1 };
    let attribute = trees.get(at).and_then(|tree| tree.group("[")).filter(|_| trees[0].is("#"))?;
    begins_with(&attribute.trees, &["tactic"]).then_some(at + 1)
}

/// How many trees come first as an import without `as`, after its `pub`.
fn length_of_import(trees: &[Tree]) -> Option<usize> {
    let public = usize::from(trees[0].is("pub"));
    let limited = usize::from(public == 1 && trees.get(1).is_some_and(|tree| tree.group("(").is_some()));
    trees.get(public + limited).filter(|word| word.is("use"))?;
    let end = trees.iter().position(|tree| tree.is(";"))?;
    (!renames(&trees[..end])).then_some(end + 1)
}

fn renames(import: &[Tree]) -> bool {
    import.iter().any(|tree| tree.is("as") || matches!(tree, Tree::Group(group) if renames(&group.trees)))
}

/// Writes a token to the end of its line.
fn write(token: &Token, lines: &mut Vec<Line>) {
    let text = token.text.replace('\n', " ");
    match lines.last_mut().filter(|line| line.number == token.line) {
        Some(line) if token.lead.is_empty() => line.text += &text,
        Some(line) => line.text += &format!(" {text}"),
        None => lines.push(Line { number: token.line, text }),
    }
}
