//! The manual and the man page say what the command and the library do.

mod common;

use common::{DRAFT, FIRMWARE, known_merge, line, object, patched};
use daphulle::{DRAFT_LIMIT, MERGE_LIMIT, Number, call, draft};
use std::{
    collections::{BTreeMap, BTreeSet},
    fs,
    path::Path,
};

const MANUAL: &str = include_str!("../../docs/MANUAL.md");
const MAN_PAGE: &str = include_str!("../man/daphulle.1");
const HELP: &str = concat!(
    include_str!("../src/help.txt"),
    include_str!("../src/help_blocks.txt")
);
/// The README of the host.
const HOST: &str = include_str!("../README.md");
/// The limits of the definitions.
const LIMITS: &str = include_str!("../../crates/base_scope/specs/Limits.antt");

/// The options that a text names.
fn options(text: &str) -> BTreeSet<&str> {
    let words = text.split(|c: char| !c.is_ascii_alphanumeric() && c != '-');
    words
        .filter(|word| word.starts_with('-') && !word.trim_matches('-').is_empty())
        .collect()
}

/// The manual from a heading to the next one of its depth.
fn section(title: &str) -> &'static str {
    let (_, rest) = MANUAL.split_once(&format!("\n## {title}\n")).unwrap();
    rest.split("\n## ").next().unwrap()
}

/// The cells of the rows of a section's tables, heads included.
fn rows(title: &str) -> Vec<Vec<&'static str>> {
    let lines = section(title).lines();
    let rows = lines.filter_map(|line| line.strip_prefix("| ")?.strip_suffix(" |"));
    rows.map(|row| row.split(" | ").collect()).collect()
}

/// The numbers of a section's table, each by the name of its constant.
fn constants(title: &str) -> BTreeMap<&str, usize> {
    let rows = rows(title).into_iter().skip(1);
    let row = |cells: Vec<&'static str>| {
        let name = cells[0].trim_matches('`');
        (name, cells[1].replace(',', "").parse().unwrap())
    };
    rows.map(row).collect()
}

/// The first block of text in a section that begins so.
fn block_of_text(title: &str, start: &str) -> &'static str {
    let mut parts = section(title).split("```text\n").skip(1);
    let text = parts.find(|part| part.starts_with(start)).unwrap();
    text.split("```").next().unwrap()
}

#[test]
fn every_option_is_explained() {
    // The source of the page writes a hyphen of an option as `\-`.
    let page = MAN_PAGE.replace("\\-", "-");
    let (front, rest) = page.split_once(".SH OPTIONS\n").unwrap();
    let explained = rest.split(".SH ").next().unwrap();
    let rows = rows("The command").into_iter();
    let cells = rows.map(|cells| cells[0]).collect::<Vec<_>>().join(" ");
    let synopsis = block_of_text("The command", "daphulle draft");
    assert_eq!(options(&cells), options(explained));
    assert_eq!(options(synopsis), options(front));
    assert_eq!(options(HELP), options(&cells));
    // the synopsis has all but the long name of -o
    let missing: Vec<_> = options(HELP)
        .difference(&options(synopsis))
        .copied()
        .collect();
    assert_eq!(missing, ["--output"], "{synopsis}");
    assert!(options(HELP).contains("--blocks") && options(HELP).contains("-o"));
}

#[test]
fn every_refusal_is_explained_once() {
    let refusals = rows("Refusals").into_iter().skip(1);
    let numbers = refusals.map(|cells| {
        assert!(cells.len() == 5 && cells.iter().all(|cell| !cell.is_empty()));
        cells[0].parse::<u32>().unwrap()
    });
    assert!(numbers.eq(Number::ALL.iter().map(|number| number.code())));
}

#[test]
fn the_lines_of_refusals_are_those_of_the_command() {
    let compiled = object(&[]);
    let little = patched(&compiled, 5, &[1]);
    let jobs: [(&[u8], &[u8]); 2] = [(&little, b""), (&compiled, b"desc=\ndata=\n")];
    let told = jobs.map(|(compiled, blocks)| line(&draft(compiled, b"", blocks).unwrap_err()));
    assert!(block_of_text("Refusals", "c.o:").lines().eq(&told));
    assert!(
        told.iter()
            .all(|line| HOST.contains(&format!("\n{line}\n")))
    );
}

#[test]
fn the_limits_are_those_of_the_library() {
    // These follow from the others.
    const DERIVED: [&str; 3] = ["DUMMY_LIMIT", "HEAD_LIMIT", "WRITTEN_LIMIT"];
    let equations = LIMITS.lines().filter_map(|line| line.split_once(" = "));
    let limits = equations.filter(|(name, _)| name.ends_with("_LIMIT") && !DERIVED.contains(name));
    let mut known: BTreeMap<&str, usize> = limits
        .filter_map(|(name, value)| Some((name, value.parse().ok()?)))
        .collect();
    assert_eq!(known["FILE_LIMIT"], call::FILE_LIMIT);
    assert_eq!(known["PATH_LIMIT"], call::PATH_LIMIT);
    known.extend([("DRAFT_LIMIT", DRAFT_LIMIT), ("MERGE_LIMIT", MERGE_LIMIT)]);
    assert_eq!(constants("Limits"), known);
}

#[test]
fn the_working_buffers_are_those_of_the_library() {
    let known = [
        ("OPEN_TABLE", call::OPEN_TABLE),
        ("PLACE_TABLE", call::PLACE_TABLE),
        ("BLOCK_BUFFER", call::BLOCK_BUFFER),
        ("PLACE_BUFFER", call::PLACE_BUFFER),
        ("STEP_BUFFER", call::STEP_BUFFER),
        ("INDEX_BUFFER", call::INDEX_BUFFER),
    ];
    assert_eq!(constants("Working buffers"), known.into());
}

#[test]
fn the_draft_of_the_manual_is_the_known_one() {
    let example = Path::new(env!("CARGO_MANIFEST_DIR")).join("example");
    let [compiled, prelude, blocks] =
        ["c.o", "prelude", "blocks"].map(|name| fs::read(example.join(name)).unwrap());
    let text = draft(&compiled, &prelude, &blocks).unwrap();
    let shown = block_of_text("The draft", ".set").as_bytes();
    assert_eq!((shown, &text[..]), (DRAFT, DRAFT));
}

/// It is drafted with all of its lines, and has every key of the table.
#[test]
fn the_block_file_of_the_manual_is_accepted() {
    let blocks = block_of_text("The block file", "desc=");
    let prelude = fs::read(Path::new(FIRMWARE).join("prelude")).unwrap();
    let text = draft(&known_merge().compiled, &prelude, blocks.as_bytes()).unwrap();
    let text = String::from_utf8(text).unwrap();
    let key = |key: &'static str| {
        blocks
            .lines()
            .filter_map(move |line| line.strip_prefix(key))
    };
    for lines in [key("asm="), key("late=")] {
        let lines: String = lines.flat_map(|line| [line, "\n"]).collect();
        assert!(!lines.is_empty() && text.contains(&lines), "{text}");
    }
    let mut keys = rows("The block file")
        .into_iter()
        .skip(1)
        .map(|cells| cells[0].trim_matches('`'));
    assert!(keys.all(|known| key(known).next().is_some()));
}
