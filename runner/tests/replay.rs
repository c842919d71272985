//! When `runner replay` passes: every job of its list was run and has the list's answer.

use std::{env, fs, process::Command};

/// The exit status and the words of a replay of these lines.
fn replay(name: &str, lines: &[&str], seconds: &str) -> (Option<i32>, String) {
    let file = env::temp_dir().join(format!("replay_{}_{name}", std::process::id()));
    fs::write(&file, lines.concat()).expect("a list can be written");
    let out = Command::new(env!("CARGO_BIN_EXE_runner"))
        .arg("replay")
        .args([file.as_os_str(), seconds.as_ref()])
        .output()
        .expect("the runner can be started");
    fs::remove_file(&file).expect("the list can be removed");
    let words = String::from_utf8_lossy(&out.stdout).into_owned();
    (out.status.code(), words)
}

#[test]
fn a_list_is_replayed_to_its_end() {
    let list: Vec<&str> = include_str!("../replay.txt")
        .split_inclusive('\n')
        .collect();
    let (status, words) = replay("whole", &list[..1], "600");
    assert_eq!(status, Some(0), "{words}");
    assert!(words.contains("1000 of 1000 jobs"), "{words}");
    // The first thousand jobs are run in any case; the time is over before the second.
    let (status, words) = replay("short", &list[..2], "0");
    assert_eq!(status, Some(1), "{words}");
    assert!(words.contains("1000 of 2000 jobs"), "{words}");
    assert!(words.contains("FAILED: 1 of"), "{words}");
    let (status, words) = replay("empty", &[], "600");
    assert_eq!(status, Some(1), "{words}");
}

#[test]
fn other_answers_than_the_lists_are_found() {
    for list in [
        include_str!("../replay.txt"),
        include_str!("../replay_merges.txt"),
    ] {
        let first = list.lines().next().expect("a line");
        let digit = if first.ends_with('0') { "1\n" } else { "0\n" };
        let other = [&first[..first.len() - 1], digit].concat();
        let (status, words) = replay("other", &[&other], "600");
        assert_eq!(status, Some(1), "{words}");
        assert!(words.contains("the answers are not the list's"), "{words}");
    }
}
