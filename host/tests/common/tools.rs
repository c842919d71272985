//! Runs of the command between Debian's MIPS tools, where they are installed.

use super::{FIRMWARE, Folder, command::COMMAND};
use std::{
    io::{self, Write},
    process::Command,
};

/// What a command that succeeds prints, run in a folder; its words are split at spaces.
pub fn run(folder: &Folder, line: &str) -> Vec<u8> {
    let line = line.replace("FIRMWARE", FIRMWARE);
    let mut words = line.split_whitespace();
    let program = match words.next().unwrap() {
        "daphulle" => COMMAND,
        other => other,
    };
    let mut command = Command::new(program);
    let output = command
        .args(words)
        .current_dir(folder.path())
        .output()
        .unwrap();
    assert!(output.status.success(), "{line}: {output:?}");
    // the firmware has nothing to note
    let is_silent = program != COMMAND || output.stderr.is_empty();
    assert!(is_silent, "{line}: {output:?}");
    output.stdout
}

/// Whether tools (each with Debian's package of it) are there; a word where they are not.
pub fn are_there(tools: &[(&str, &str)], user: &str) -> bool {
    let is_there = |tool: &str| Command::new(tool).arg("--version").output().is_ok();
    let missing = tools.iter().filter(|(tool, _)| !is_there(tool));
    let mut packages: Vec<_> = missing.map(|(_, package)| *package).collect();
    packages.dedup();
    if !packages.is_empty() {
        // Not `eprintln`, which is kept back where a test passes.
        let line = format!("skipped: {user} needs Debian's {}", packages.join(" "));
        let _ = writeln!(io::stderr(), "{line}");
    }
    packages.is_empty()
}
