//! What `tiles` prints: the words that spell edits, the text of a picture, and the text or the message that is printed.

use crate::example_tiles_edits::{edited, print_picture, read_edits, read_picture};

const PICTURES: &[(&str, &str, &str)] = &[
    ("", "P5 # a\n#b\n3 2\n# c\n126 abcdef", "P5\n3 2\n126\nabcdef"),
    ("", "P5 2 1 255 \u{e9}", "P5\n2 1\n255\n\u{e9}"),
    ("", "P5 0 2 9\n", "P5\n0 2\n9\n"),
    ("", "P5 2 1 126\nabc", "P5\n2 1\n126\nab"),
    ("crop 1..3 2..4", "P5 4 3 126 abcdefghijkl", "P5\n2 2\n126\nghkl"),
    ("crop 2..1 0..4", "P5 4 3 126 abcdefghijkl", "P5\n4 0\n126\n"),
    ("flip rows", "P5 4 3 126 abcdefghijkl", "P5\n4 3\n126\nijklefghabcd"),
    ("flip columns", "P5 4 3 126 abcdefghijkl", "P5\n4 3\n126\ndcbahgfelkji"),
    ("every 2", "P5 5 3 126 abcdefghijklmno", "P5\n3 2\n126\nacekmo"),
    ("every 4294967295 flip rows", "P5 4 3 126 abcdefghijkl", "P5\n1 1\n126\na"),
    ("flip rows crop 0..3 1..4 every 2 flip columns", "P5 4 3 126 abcdefghijkl", "P5\n2 2\n126\nljdb"),
];

const HEADER: &str = "expected `P5`, the numbers of columns and of rows, and the value of white, from 1 to 255";

const MESSAGES: &[(&str, &str, &str)] = &[
    ("", "P2 2 1 126 ab", HEADER),
    ("", "P5 2 -1 126 ab", HEADER),
    ("", "P5 2 1 0 ab", HEADER),
    ("", "P5 2 1 256 ab", HEADER),
    ("", "P5 2 1 126 a", "the text ends before the last pixel"),
    ("", "P5 4294967295 4294967295 126 a", "the text ends before the last pixel"),
    ("", "P5 3 1 98 abc", "pixel 3 is above the value of white"),
    (
        "crop 0..3 0..4",
        "P5 3 2 126 abcdef",
        "edit 1 of a picture with 2 rows and 3 columns: `crop` takes bounds up to these",
    ),
    (
        "flip rows every 0",
        "P5 3 2 126 abcdef",
        "edit 2 of a picture with 2 rows and 3 columns: `every` takes a number from 1 on",
    ),
    (
        "flip rows crop 0..1",
        "P5 3 2 126 abcdef",
        "argument 3: expected `crop A..B C..D`, `flip rows`, `flip columns` or `every N`",
    ),
];

/// The text of the picture that edits make of another one, or the message of why there is none.
fn printed(words: &str, text: &str) -> Result<String, Box<dyn std::error::Error>> {
    let words: Vec<&str> = words.split_whitespace().collect();
    let edits = read_edits(&words)?;
    let picture = read_picture(text.as_bytes())?;
    let printed = print_picture(&edited(&picture, &edits)?)?;
    Ok(String::from_utf8(printed)?)
}

#[test]
fn edits_make_these_pictures() {
    for (words, text, expected) in PICTURES {
        assert_eq!(printed(words, text).unwrap(), *expected);
    }
}

#[test]
fn errors_print_these_messages() {
    for (words, text, expected) in MESSAGES {
        assert_eq!(printed(words, text).unwrap_err().to_string(), *expected);
    }
}
