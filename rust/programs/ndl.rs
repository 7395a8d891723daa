//! Reads a script from standard input, a layout and the steps to take from it, and prints the places of the elements that
//! remain. The exit status is that of `session`, and 4 where a descriptor can't be cloned.
#![forbid(unsafe_code)]

mod ndl_session;

use ndl_session::{Watched, session};
use std::fs::File;
use std::io::{self, stdin, stdout};
use std::os::fd::AsFd;
use std::process::ExitCode;

/// The status of a session. Its devices have no buffer: one of `stdout` is written at the exit, where a failed write is lost.
fn run_session() -> io::Result<u8> {
    let mut reader = Watched::new(File::from(stdin().as_fd().try_clone_to_owned()?));
    let mut writer = Watched::new(File::from(stdout().as_fd().try_clone_to_owned()?));
    Ok(session(&mut reader, &mut writer))
}

fn main() -> ExitCode {
    ExitCode::from(run_session().unwrap_or(4))
}
