//! Reads a picture in the binary format PGM (`P5`) from standard input, edits it as the arguments say, and prints it in that
//! format.
#![forbid(unsafe_code)]

mod example_tiles_edits;

use example_tiles_edits::{edited, print_picture, read_edits, read_picture};
use std::error::Error;
use std::fs::File;
use std::io::{Read, Write, stdin, stdout};
use std::os::fd::AsFd;
use std::process::ExitCode;

fn edit_picture() -> Result<(), Box<dyn Error>> {
    let arguments: Vec<_> = std::env::args_os().skip(1).collect();
    // (an argument that isn't UTF-8 is a word that no edit begins with)
    let words: Vec<&str> = arguments.iter().map(|argument| argument.to_str().unwrap_or_default()).collect();
    let edits = read_edits(&words)?;
    let mut text = Vec::new();
    File::from(stdin().as_fd().try_clone_to_owned()?).read_to_end(&mut text)?;
    let picture = edited(&read_picture(&text)?, &edits)?;
    // (a buffer of `stdout` is written at the exit, where a failed write is lost)
    File::from(stdout().as_fd().try_clone_to_owned()?).write_all(&print_picture(&picture)?)?;
    Ok(())
}

fn main() -> ExitCode {
    match edit_picture() {
        Ok(()) => ExitCode::SUCCESS,
        Err(error) => {
            eprintln!("Error: {error}");
            ExitCode::FAILURE
        }
    }
}
