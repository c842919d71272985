//! Runs of the command.

use super::Folder;
use std::{
    ffi::OsStr,
    io::Write,
    process::{Command, Output, Stdio},
};

pub const COMMAND: &str = env!("CARGO_BIN_EXE_daphulle");

/// Runs the command in a folder, with bytes on its standard input.
pub fn run_with<W: AsRef<OsStr>>(folder: &Folder, words: &[W], input: &[u8]) -> Output {
    let mut child = Command::new(COMMAND)
        .args(words)
        .current_dir(folder.path())
        .stdin(Stdio::piped())
        .stdout(Stdio::piped())
        .stderr(Stdio::piped())
        .spawn()
        .unwrap();
    child.stdin.take().unwrap().write_all(input).unwrap();
    child.wait_with_output().unwrap()
}

pub fn run<W: AsRef<OsStr>>(folder: &Folder, words: &[W]) -> Output {
    run_with(folder, words, b"")
}

/// Status, standard output and standard error.
pub fn ended(output: &Output) -> (i32, &[u8], &str) {
    let error = str::from_utf8(&output.stderr).unwrap();
    (output.status.code().unwrap(), &output.stdout, error)
}
