//! What only proofs read: clauses and ghost items.

use crate::tokens::{Fault, Tree, fault};

/// How many trees come first as a clause, `requires NAME { .. }` or `ensures* NAME { .. }`.
pub fn length_of_clause(trees: &[Tree]) -> Result<Option<usize>, Fault> {
    if !trees[0].is("requires") && !trees[0].is("ensures") {
        return Ok(None);
    }
    let body = trees.iter().take(4).position(|tree| tree.group("{").is_some());
    let body = body.ok_or_else(|| fault(trees[0].first(), "is a clause without a fact"))?;
    Ok(Some(body + 1))
}

/// How many trees come first as a ghost item, `ghost NAME ..` up to the semicolon or the comma; as a ghost parameter of a function,
/// `ghost NAME: { .. }`, before its clauses.
pub fn length_of_ghost(trees: &[Tree]) -> Result<Option<usize>, Fault> {
    if !trees[0].is("ghost") {
        return Ok(None);
    }
    if trees.get(1).and_then(Tree::word).is_none() {
        return Err(fault(trees[0].first(), "names nothing"));
    }
    if let [_, _, colon, fact, next, ..] = trees {
        let is_in_head = next.is("requires") || next.is("ensures");
        if is_in_head && colon.is(":") && fact.group("{").is_some() {
            return Ok(Some(4));
        }
    }
    let end = trees.iter().position(|tree| tree.is(";") || tree.is(",")).unwrap_or(trees.len());
    let goes_on = |pair: &[Tree]| pair[0].group("{").is_some() && !pair[1].is("=") && !pair[1].is("by");
    if trees[..end].windows(2).any(goes_on) {
        return Err(fault(trees[0].first(), "has more than a fact"));
    }
    Ok(Some(trees.len().min(end + 1)))
}
