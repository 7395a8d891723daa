//! A slice that a proof lends as a part and takes back, by `Whole`: in plain Rust `ArrayViewMut::new` lends it, for lifetimes say when it is back.

use crate::erase::Eraser;
use crate::tokens::{Fault, Group, Token, Tree, begins_with, fault, text_of};

/// What plain Rust lends by.
const PART: &str = "ArrayViewMut";

impl Eraser<'_> {
    /// `let mut WHOLE = Whole::new(ITEMS);` and `WHOLE.end(PART);` go, `WHOLE.lend(VIEW)` becomes `ArrayViewMut::new(VIEW, ITEMS)`, and
    /// `WHOLE.lend_items()` becomes `ITEMS`.
    pub(crate) fn whole(&mut self, trees: &[Tree]) -> Result<Option<usize>, Fault> {
        let (name, items) = &self.whole;
        match trees {
            [of, _, name, is, rest @ ..]
                if of.is("let") && is.is("=") && begins_with(rest, &["Whole", ":", ":", "new"]) =>
            {
                let items = rest.get(4).and_then(|tree| tree.group("("));
                let items = items.ok_or_else(|| fault(name.first(), "is a whole of nothing"))?;
                self.whole = (name.first().text.to_string(), text_of(&items.trees));
                Ok(Some(10))
            }
            [whole, dot, call, Tree::Group(given), ..] if !name.is_empty() && whole.is(name) && dot.is(".") => {
                let items = items.clone();
                match call.first().text {
                    "end" => Ok(Some(5)),
                    "lend_items" => {
                        self.put(whole.first().lead, &items);
                        Ok(Some(4))
                    }
                    "lend" => {
                        self.put(whole.first().lead, &format!("{PART}::new("));
                        self.all(&given.trees)?;
                        self.put(", ", &format!("{items})"));
                        Ok(Some(4))
                    }
                    _ => Err(fault(call.first(), "is no call of a whole that plain Rust has")),
                }
            }
            _ => self.import_of_whole(trees),
        }
    }

    /// `use LIBRARY::Whole;` and `use LIBRARY::{.., Whole};` import what plain Rust lends by.
    fn import_of_whole(&mut self, trees: &[Tree]) -> Result<Option<usize>, Fault> {
        let Some(end) = trees.iter().position(|tree| tree.is(";")).filter(|_| trees[0].is("use")) else {
            return Ok(None);
        };
        let (path, last) = trees[..end].split_at(end - 1);
        let items = match last {
            [Tree::Group(list)] => &list.trees[..],
            item => item,
        };
        let is_of_library = path.get(1).and_then(Tree::word).is_some_and(|root| self.names.library.contains(&root));
        if self.out.ends_with("pub") || !is_of_library || !items.iter().any(|tree| tree.is("Whole")) {
            return Ok(None);
        }
        let items = lent_by(items);
        let items = match &last[0] {
            Tree::Group(list) => vec![Tree::Group(Group { open: list.open, trees: items, close: list.close })],
            Tree::Leaf(_) => items,
        };
        self.all(&[path, &items, &trees[end..=end]].concat())?;
        Ok(Some(end + 1))
    }
}

/// Imported items with `ArrayViewMut` in place of `Whole`, once.
fn lent_by<'a>(items: &[Tree<'a>]) -> Vec<Tree<'a>> {
    let has_part = items.iter().any(|tree| tree.is(PART));
    let kept = items.split_inclusive(|tree| tree.is(",")).filter(|item| !(has_part && item[0].is("Whole")));
    let named = |tree: &Tree<'a>| match tree {
        Tree::Leaf(token) if token.text == "Whole" => Tree::Leaf(Token { text: PART, ..*token }),
        other => other.clone(),
    };
    kept.flatten().map(named).collect()
}
