//! Sessions of the program.

use crate::call::Call;
use crate::ndl_session::{Watched, session};
use std::io::{self, Read};

/// A script, which gives 64 bytes a read at the most.
struct Script<'a> {
    left: &'a [u8],
    reads: usize,
}

impl Read for Script<'_> {
    fn read(&mut self, bytes: &mut [u8]) -> io::Result<usize> {
        self.reads += 1;
        let most = bytes.len().min(64);
        self.left.read(&mut bytes[..most])
    }
}

/// What a session writes, its status, and how often its script is read.
pub fn answer(call: &Call) -> String {
    let told = [call.at, call.given].join(" ");
    let script = script_of(told.trim_end());
    let mut reader = Watched::new(Script { left: script.as_bytes(), reads: 0 });
    // (the writer of a list that has room takes no memory)
    let mut writer = Watched::new(Vec::with_capacity(1024));
    let status = call.makes(|| session(&mut reader, &mut writer));
    let text = String::from_utf8_lossy(&writer.into_inner()).replace('\n', "|");
    format!("{text}status {status}, {} reads", reader.into_inner().reads)
}

/// The script that a row tells: `|` is a line feed, `{3*ab}` is `ababab`, and `-` is the empty one.
fn script_of(told: &str) -> String {
    let mut pieces = told.trim_start_matches('-').split('{');
    let mut script = pieces.next().unwrap_or_default().to_owned();
    for piece in pieces {
        let (repeated, rest) = piece.split_once('}').expect("a brace is closed");
        let (times, repeated) = repeated.split_once('*').expect("a text is repeated");
        script += &repeated.repeat(times.parse().expect("a number of times"));
        script += rest;
    }
    script.replace('|', "\n")
}
