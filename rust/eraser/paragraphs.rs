//! Documentation as paragraphs, from which sentences are taken.

pub struct Paragraphs {
    lines: Vec<Vec<String>>,
    /// The columns that a line takes at the most, where lines are broken here.
    columns: usize,
}

impl Paragraphs {
    /// Those of lines that begin with `///`.
    pub fn of(docs: &str, columns: usize) -> Self {
        let mut lines = vec![Vec::new()];
        for line in docs.lines() {
            let text = line.trim_start().trim_start_matches("///");
            match (text.strip_prefix(' ').unwrap_or(text), lines.last_mut()) {
                ("", _) | (_, None) => lines.push(Vec::new()),
                (text, Some(last)) => last.push(text.to_string()),
            }
        }
        Paragraphs { lines, columns }
    }

    /// Takes the sentence that begins with these words, if there is one.
    pub fn take(&mut self, words: &str) -> Option<String> {
        let columns = self.columns;
        self.lines.iter_mut().find_map(|lines| {
            let text = lines.join(" ");
            let start = text.find(words)?;
            let ends = [". ", ".) "].iter().filter_map(|end| Some(start + text[start..].find(end)? + end.len() - 1));
            let end = ends.min().unwrap_or(text.len());
            // (another sentence may follow in the same brackets)
            let goes_on = text[start..end].starts_with('(') && !text[start..end].ends_with(')');
            let (before, after) = (&text[..start + usize::from(goes_on)], text[end..].trim_start());
            let between = if goes_on { "" } else { " " };
            *lines = broken(&format!("{before}{between}{after}"), columns);
            Some(text[start..end].to_string())
        })
    }

    /// Puts the section of errors, its heading and one paragraph, behind what follows it, so that cost and example don't stand
    /// under that heading. Whether something follows it.
    pub fn errors_last(&mut self) -> bool {
        self.lines.retain(|lines| !lines.is_empty());
        let heading = self.lines.iter().position(|lines| lines.iter().eq(["# Errors"]));
        let Some(heading) = heading.filter(|heading| heading + 2 < self.lines.len()) else {
            return false;
        };
        self.lines[heading..].rotate_left(2);
        true
    }

    /// Adds a paragraph, broken into lines.
    pub fn push(&mut self, text: &str) {
        self.lines.push(broken(text, self.columns));
    }

    /// Adds lines as they are.
    pub fn push_lines(&mut self, lines: &[&str]) {
        self.lines.push(lines.iter().map(|line| line.to_string()).collect());
    }

    /// All lines, an empty one between two paragraphs.
    pub fn lines(&self) -> Vec<String> {
        let some: Vec<&[String]> = self.lines.iter().map(Vec::as_slice).filter(|lines| !lines.is_empty()).collect();
        some.join(&String::new())
    }
}

/// A text in lines of so many columns.
fn broken(text: &str, columns: usize) -> Vec<String> {
    let mut lines: Vec<String> = Vec::new();
    for word in text.split_whitespace() {
        match lines.last_mut() {
            Some(line) if line.chars().count() + 1 + word.chars().count() <= columns => *line += &format!(" {word}"),
            _ => lines.push(word.to_string()),
        }
    }
    lines
}
