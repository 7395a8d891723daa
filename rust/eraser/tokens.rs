//! Sources as tokens, and tokens as trees by their brackets.

use std::fmt;

/// A fault of a source: a form that the eraser doesn't know, or brackets that don't match.
#[derive(Debug)]
pub struct Fault {
    pub line: usize,
    pub what: String,
}

impl fmt::Display for Fault {
    fn fmt(&self, f: &mut fmt::Formatter<'_>) -> fmt::Result {
        write!(f, "{}: {}", self.line, self.what)
    }
}

#[derive(Clone, Copy, PartialEq, Eq, Debug)]
pub enum Kind {
    /// A name, a keyword or a number.
    Word,
    Lifetime,
    /// A string, a byte string or a character.
    Literal,
    /// A line of documentation: `///` or `//!`.
    Doc,
    Symbol,
}

/// A token, with the white space and the comments before it.
#[derive(Clone, Copy, Debug)]
pub struct Token<'a> {
    pub kind: Kind,
    pub lead: &'a str,
    pub text: &'a str,
    pub line: usize,
}

/// A token, or what stands between two brackets.
#[derive(Clone, Debug)]
pub enum Tree<'a> {
    Leaf(Token<'a>),
    Group(Group<'a>),
}

#[derive(Clone, Debug)]
pub struct Group<'a> {
    pub open: Token<'a>,
    pub trees: Vec<Tree<'a>>,
    pub close: Token<'a>,
}

impl<'a> Tree<'a> {
    /// The first token.
    pub fn first(&self) -> &Token<'a> {
        match self {
            Tree::Leaf(token) => token,
            Tree::Group(group) => &group.open,
        }
    }

    /// Whether it is a token of this text, and no string.
    pub fn is(&self, text: &str) -> bool {
        matches!(self, Tree::Leaf(token) if token.text == text && token.kind != Kind::Literal)
    }

    /// The word that it is.
    pub fn word(&self) -> Option<&'a str> {
        match self {
            Tree::Leaf(token) if token.kind == Kind::Word => Some(token.text),
            _ => None,
        }
    }

    /// What stands in it, where it opens with this bracket.
    pub fn group(&self, open: &str) -> Option<&Group<'a>> {
        match self {
            Tree::Group(group) if group.open.text == open => Some(group),
            _ => None,
        }
    }
}

/// The trees of a source, and the white space after the last one.
pub fn trees_of(source: &str) -> Result<(Vec<Tree<'_>>, &str), Fault> {
    let (tokens, rest) = tokens_of(source)?;
    let mut open: Vec<(Token, Vec<Tree>)> = Vec::new();
    let mut trees = Vec::new();
    for token in tokens {
        match token.text {
            "(" | "[" | "{" => open.push((token, std::mem::take(&mut trees))),
            ")" | "]" | "}" => {
                let (bracket, outer) = open.pop().ok_or_else(|| fault(&token, "closes nothing"))?;
                if !matches!((bracket.text, token.text), ("(", ")") | ("[", "]") | ("{", "}")) {
                    return Err(fault(&token, "closes another bracket"));
                }
                let inner = std::mem::replace(&mut trees, outer);
                trees.push(Tree::Group(Group { open: bracket, trees: inner, close: token }));
            }
            _ => trees.push(Tree::Leaf(token)),
        }
    }
    match open.pop() {
        Some((bracket, _)) => Err(fault(&bracket, "is never closed")),
        None => Ok((trees, rest)),
    }
}

/// Trees as they stand in the source.
pub fn text_of(trees: &[Tree]) -> String {
    let mut text = String::new();
    for tree in trees {
        match tree {
            Tree::Leaf(token) => text.extend([token.lead, token.text]),
            Tree::Group(group) => {
                text.extend([group.open.lead, group.open.text, &text_of(&group.trees)]);
                text.extend([group.close.lead, group.close.text]);
            }
        }
    }
    text
}

/// Whether trees begin with tokens of these texts.
pub fn begins_with(trees: &[Tree], texts: &[&str]) -> bool {
    trees.len() >= texts.len() && trees.iter().zip(texts).all(|(tree, text)| tree.is(text))
}

/// How many trees come first as generics: `<..>`, or none.
pub fn length_of_generics(trees: &[Tree]) -> usize {
    let mut nesting = Nesting::default();
    for (at, tree) in trees.iter().enumerate() {
        if nesting.after(tree) == 0 {
            return at + usize::from(tree.is(">"));
        }
    }
    trees.len()
}

/// How deep in `<..>` the trees lead that were gone over.
#[derive(Default)]
pub struct Nesting {
    depth: i32,
    is_after_minus: bool,
}

impl Nesting {
    /// How deep they lead with one tree more.
    pub fn after(&mut self, tree: &Tree) -> i32 {
        // (the arrow of `F: Fn() -> T` closes nothing)
        self.depth += i32::from(tree.is("<")) - i32::from(tree.is(">") && !self.is_after_minus);
        self.is_after_minus = tree.is("-");
        self.depth
    }
}

/// A fault at a token.
pub fn fault(token: &Token, what: &str) -> Fault {
    Fault { line: token.line, what: format!("`{}` {what}", token.text) }
}

/// The tokens of a source, and what stands after the last one.
fn tokens_of(source: &str) -> Result<(Vec<Token<'_>>, &str), Fault> {
    let mut tokens = Vec::new();
    let (mut at, mut line) = (0, 1);
    loop {
        let lead = &source[at..at + length_of_space(&source[at..])];
        line += lead.matches('\n').count();
        at += lead.len();
        if source[at..].starts_with("/*") {
            return Err(Fault { line, what: "`/*` begins a comment that isn't known".to_string() });
        }
        let Some((kind, length)) = next_token(&source[at..]) else {
            return match source[at..].chars().next() {
                None => Ok((tokens, lead)),
                Some(next) => Err(Fault { line, what: format!("`{next}` begins a token that never ends") }),
            };
        };
        let text = &source[at..at + length];
        if let Some(prefix) = tokens.last().filter(|_| kind == Kind::Literal && lead.is_empty()).filter(is_prefix) {
            return Err(fault(prefix, "begins a string that isn't known"));
        }
        tokens.push(Token { kind, lead, text, line });
        line += text.matches('\n').count();
        at += length;
    }
}

/// Whether a token right before a string is a part of it: `r` and `#` of raw ones.
fn is_prefix(token: &&Token) -> bool {
    token.kind == Kind::Word || token.text == "#"
}

/// How many bytes of white space and of comments come first.
fn length_of_space(source: &str) -> usize {
    let mut rest = source;
    loop {
        rest = rest.trim_start();
        let is_doc = rest.starts_with("///") && !rest.starts_with("////") || rest.starts_with("//!");
        if !rest.starts_with("//") || is_doc {
            return source.len() - rest.len();
        }
        rest = &rest[rest.find('\n').unwrap_or(rest.len())..];
    }
}

/// The kind and the length of the first token; `None` where there is none, or where it has no end.
fn next_token(source: &str) -> Option<(Kind, usize)> {
    let first = source.chars().next()?;
    if source.starts_with("//") {
        return Some((Kind::Doc, source.find('\n').unwrap_or(source.len())));
    }
    if first == '"' || source.starts_with("b\"") {
        return Some((Kind::Literal, string_length(source)?));
    }
    if let Some(length) = character_length(source) {
        return Some((Kind::Literal, length));
    }
    if first == '\'' {
        let word = word_length(&source[1..]);
        return Some(if word == 0 { (Kind::Symbol, 1) } else { (Kind::Lifetime, 1 + word) });
    }
    match word_length(source) {
        0 => Some((Kind::Symbol, first.len_utf8())),
        length => Some((Kind::Word, length)),
    }
}

fn word_length(source: &str) -> usize {
    let is_part = |letter: char| letter.is_ascii_alphanumeric() || letter == '_';
    source.find(|letter| !is_part(letter)).unwrap_or(source.len())
}

/// The length of a string, with its quotes.
fn string_length(source: &str) -> Option<usize> {
    let start = source.find('"')? + 1;
    let mut escaped = false;
    for (at, letter) in source[start..].char_indices() {
        match letter {
            _ if escaped => escaped = false,
            '\\' => escaped = true,
            '"' => return Some(start + at + 1),
            _ => {}
        }
    }
    None
}

/// The length of a character with its quotes, where one comes first.
fn character_length(source: &str) -> Option<usize> {
    let inner = source.strip_prefix("b'").or_else(|| source.strip_prefix('\''))?;
    let start = source.len() - inner.len();
    let mut letters = inner.char_indices();
    let (_, first) = letters.next()?;
    if first == '\\' {
        letters.next()?;
        return Some(start + letters.find(|(_, letter)| *letter == '\'')?.0 + 1);
    }
    matches!(letters.next()?, (_, '\'') if first != '\'').then(|| start + first.len_utf8() + 1)
}
