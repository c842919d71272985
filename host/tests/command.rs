//! The command on drafts: files, standard input and output, exit statuses, and what a failing run
//! leaves.

mod common;

use common::{
    DRAFT, Folder, block,
    command::{COMMAND, ended, run, run_with},
    known_case, object,
};
use daphulle::{
    DRAFT_LIMIT, MERGE_LIMIT,
    call::{FILE_LIMIT, PATH_LIMIT},
};
use std::{
    ffi::{OsStr, OsString},
    fs::{self, File, OpenOptions},
    io::{self, Read},
    os::unix::{
        ffi::OsStrExt,
        fs::{FileTypeExt, MetadataExt, PermissionsExt, symlink},
    },
    process::{Command, Output},
};

const NAMES: [&str; 3] = ["blocks", "c.o", "prelude"];
const USUAL: [&str; 8] = [
    "draft",
    "c.o",
    "--prelude",
    "prelude",
    "--blocks",
    "blocks",
    "-o",
    "out.s",
];

/// A folder with document 01's example.
fn known_folder() -> Folder {
    let folder = Folder::new();
    let case = known_case();
    let put = |name: &str, bytes: &[u8]| fs::write(folder.path().join(name), bytes).unwrap();
    put("c.o", &case.compiled);
    put("prelude", &case.prelude);
    put("blocks", &case.blocks);
    folder
}

/// The usual words with one of them changed.
fn usual_but(word: &str, new: &str) -> Vec<String> {
    let change = |old: &&str| if *old == word { new } else { *old }.into();
    USUAL.iter().map(change).collect()
}

#[test]
fn the_known_draft_between_files() {
    let folder = known_folder();
    assert_eq!(ended(&run(&folder, &USUAL)), (0, &b""[..], ""));
    let draft = fs::read(folder.path().join("out.s")).unwrap();
    assert_eq!(draft, DRAFT);
    assert_eq!(folder.names(), ["blocks", "c.o", "out.s", "prelude"]);
}

#[test]
fn standard_input_and_output() {
    let folder = known_folder();
    for name in NAMES {
        let mut words = usual_but(name, "-");
        *words.last_mut().unwrap() = "-".into();
        let input = fs::read(folder.path().join(name)).unwrap();
        let output = run_with(&folder, &words, &input);
        assert_eq!(ended(&output), (0, DRAFT, ""), "{name}");
    }
    assert_eq!(folder.names(), NAMES);
}

#[test]
fn names_of_any_bytes() {
    let folder = known_folder();
    let odd = |text: &[u8]| OsString::from(OsStr::from_bytes(text));
    fs::rename(
        folder.path().join("c.o"),
        folder.path().join(odd(b"\xff\nc")),
    )
    .unwrap();
    let mut words: Vec<OsString> = USUAL.map(Into::into).to_vec();
    words[1] = odd(b"\xff\nc");
    words[7] = odd(b"\xfe\nout");
    assert_eq!(ended(&run(&folder, &words)), (0, &b""[..], ""));
    let draft = fs::read(folder.path().join(odd(b"\xfe\nout"))).unwrap();
    assert_eq!(draft, DRAFT);
    words[1] = odd(b"\xff\nd");
    let line = "daphulle: cannot read \"\\xFF\\nd\": No such file or directory (os error 2)\n";
    assert_eq!(ended(&run(&folder, &words)), (2, &b""[..], line));
}

#[test]
fn an_output_keeps_its_link_and_its_permissions() {
    let folder = known_folder();
    let (target, link) = (folder.path().join("target"), folder.path().join("out.s"));
    fs::write(&target, "old").unwrap();
    fs::set_permissions(&target, fs::Permissions::from_mode(0o640)).unwrap();
    symlink("target", &link).unwrap();
    assert_eq!(ended(&run(&folder, &USUAL)), (0, &b""[..], ""));
    assert!(fs::symlink_metadata(&link).unwrap().is_symlink());
    assert_eq!(fs::read(&target).unwrap(), DRAFT);
    let mode = fs::metadata(&target).unwrap().permissions().mode();
    assert_eq!(mode & 0o777, 0o640);
}

#[test]
fn a_link_to_nothing_and_a_link_in_a_circle() {
    let folder = known_folder();
    fs::create_dir(folder.path().join("folder")).unwrap();
    symlink("folder/new", folder.path().join("out.s")).unwrap();
    assert_eq!(ended(&run(&folder, &USUAL)), (0, &b""[..], ""));
    let draft = fs::read(folder.path().join("folder/new")).unwrap();
    assert_eq!(draft, DRAFT);
    symlink("circle", folder.path().join("circle")).unwrap();
    let line =
        "daphulle: cannot write \"circle\": Too many levels of symbolic links (os error 40)\n";
    let output = run(&folder, &usual_but("out.s", "circle"));
    assert_eq!(ended(&output), (2, &b""[..], line));
    assert_eq!(
        fs::read_dir(folder.path().join("folder")).unwrap().count(),
        1
    );
}

/// A file that is open as standard output is not taken away from those who write it, too.
#[test]
fn an_open_file_is_written_not_replaced() {
    let folder = known_folder();
    let path = folder.path().join("open");
    let file = File::create(&path).unwrap();
    let number = file.metadata().unwrap().ino();
    let mut command = Command::new(COMMAND);
    command.args(usual_but("out.s", "/dev/stdout")).stdout(file);
    let status = command.current_dir(folder.path()).status().unwrap();
    assert_eq!(status.code(), Some(0));
    assert_eq!(fs::read(&path).unwrap(), DRAFT);
    assert_eq!(fs::metadata(&path).unwrap().ino(), number);
}

#[test]
fn a_pipe_is_written_not_replaced() {
    let folder = known_folder();
    let pipe = folder.path().join("out.s");
    assert!(
        Command::new("mkfifo")
            .arg(&pipe)
            .status()
            .unwrap()
            .success()
    );
    // Open at both ends, so that no side waits for the other.
    let mut ends = OpenOptions::new()
        .read(true)
        .write(true)
        .open(&pipe)
        .unwrap();
    assert_eq!(ended(&run(&folder, &USUAL)), (0, &b""[..], ""));
    let mut draft = vec![0; DRAFT.len()];
    ends.read_exact(&mut draft).unwrap();
    assert_eq!(draft, DRAFT);
    assert!(fs::metadata(&pipe).unwrap().file_type().is_fifo());
}

#[test]
fn a_refusal_is_one_line_and_status_1() {
    let folder = known_folder();
    let refused = |words: &[String], input: &[u8], line: &str| {
        let output = run_with(&folder, words, input);
        assert_eq!(ended(&output), (1, &b""[..], line));
    };
    let line = "-: refused 2 1 0: the compiled object has 0 bytes, and its file header alone takes \
                52\n";
    refused(&usual_but("c.o", "-"), b"", line);
    refused(
        &usual_but("blocks", "-"),
        b"desc=\x1b\nhello\n",
        "-:2: refused 7 0 2: line 2 of the block file is `hello`, where `text=` must stand\n",
    );
    let line = "/dev/zero: refused 1 0 0: the prelude has more than 1048576 bytes\n";
    refused(&usual_but("prelude", "/dev/zero"), b"", line);
    assert_eq!(folder.names(), NAMES);
}

/// The line of the block file is that of the section at fault, as editors read it.
#[test]
fn a_refused_line_is_named() {
    let folder = known_folder();
    fs::write(folder.path().join("c.o"), object(&[("a", 8), ("b", 12)])).unwrap();
    let sound = block("one", "a 4 0", "");
    for (file, line) in [
        (
            sound.clone() + "desc=\ntext=b 4\n",
            "blocks:11: refused 7 0 11: line 11 of the block file is `text=b 4`, but `text=` takes \
             nothing, or `label size align8` with single spaces: a size up to 1048576, an align8 up \
             to 8, no leading zeros\n",
        ),
        (
            sound.clone() + &block("two", "b 4 0", "a 0 0"),
            "blocks:12: refused 8 1 1: block 1 (`two`), `data=a`: its size is 0\n",
        ),
        (
            sound + &block("two", "b 4 8", ""),
            "blocks:11: refused 9 1 1: block 1 (`two`), `text=b`: align8 is 8, at 12 it must be 0 or \
             4\n",
        ),
    ] {
        fs::write(folder.path().join("blocks"), file).unwrap();
        assert_eq!(ended(&run(&folder, &USUAL)), (1, &b""[..], line));
    }
}

/// Names of the files of a refusal: one as it is, so that it is found, and one that is no text.
#[test]
fn a_refusal_shows_odd_names_on_one_line() {
    let folder = known_folder();
    for (name, shown) in [
        (&b"d \"2\"'s\\x.o"[..], "d \"2\"'s\\x.o"),
        ("gr\u{fc}n.o".as_bytes(), "gr\u{fc}n.o"),
        (b"\xffd\n\x1b[31m", "\\xFFd\\n\\u{1b}[31m"),
    ] {
        let name = OsStr::from_bytes(name);
        fs::write(folder.path().join(name), "x").unwrap();
        for (at, line) in [
            (
                1,
                "refused 2 1 1: the compiled object has 1 bytes, and its file header alone takes 52",
            ),
            (
                5,
                "refused 7 0 1: line 1 of the block file has no LF at its end: `x`",
            ),
        ] {
            let mut words: Vec<OsString> = USUAL.map(Into::into).to_vec();
            words[at] = name.into();
            let number = if at == 5 { ":1" } else { "" };
            let line = format!("{shown}{number}: {line}\n");
            assert_eq!(ended(&run(&folder, &words)), (1, &b""[..], &line[..]));
        }
    }
}

#[test]
fn a_draft_over_the_limit_is_refused() {
    let folder = known_folder();
    fs::write(folder.path().join("c.o"), object(&[("far", 1 << 24)])).unwrap();
    fs::write(folder.path().join("blocks"), block("", "far 4 0", "")).unwrap();
    let line = "out.s: refused 21 0 16777424: the result has 16777424 bytes, the output may have \
                16777216\n";
    assert_eq!(ended(&run(&folder, &USUAL)), (1, &b""[..], line));
    assert_eq!(folder.names(), NAMES);
}

#[test]
fn a_failing_run_leaves_the_output_as_it_was() {
    let folder = known_folder();
    let output = folder.path().join("out.s");
    fs::write(&output, "old").unwrap();
    let words = [usual_but("blocks", "c.o"), usual_but("blocks", "absent")];
    for (words, status) in words.iter().zip([1, 2]) {
        assert_eq!(run(&folder, words).status.code(), Some(status));
        assert_eq!(fs::read(&output).unwrap(), b"old");
        assert_eq!(folder.names(), ["blocks", "c.o", "out.s", "prelude"]);
    }
}

/// The output is cut off half way: a file may have no more than a few blocks there.
#[test]
fn half_an_output_is_none() {
    let folder = known_folder();
    fs::write(folder.path().join("prelude"), vec![b'#'; 100_000]).unwrap();
    for old in [None, Some("old")] {
        let path = folder.path().join("out.s");
        let before = old.map(|text| fs::write(&path, text).unwrap());
        let line = "trap '' XFSZ; ulimit -f 8; exec \"$0\" \"$@\"";
        let output = Command::new("sh")
            .args(["-c", line, COMMAND])
            .args(USUAL)
            .current_dir(folder.path())
            .output()
            .unwrap();
        let line = "daphulle: cannot write \"out.s\": File too large (os error 27)\n";
        assert_eq!(ended(&output), (2, &b""[..], line));
        assert_eq!(fs::read_to_string(&path).ok().as_deref(), old);
        assert_eq!(folder.names().len(), 3 + before.iter().count());
    }
}

#[test]
fn files_that_cannot_be_read_or_written() {
    let folder = known_folder();
    let path = folder.path();
    fs::create_dir(path.join("folder")).unwrap();
    for (words, line) in [
        (
            usual_but("c.o", "absent"),
            "daphulle: cannot read \"absent\": No such file or directory (os error 2)\n",
        ),
        (
            usual_but("prelude", "folder"),
            "daphulle: cannot read \"folder\": Is a directory (os error 21)\n",
        ),
        (
            usual_but("out.s", "absent/out.s"),
            "daphulle: cannot write \"absent/out.s\": No such file or directory (os error 2)\n",
        ),
        (
            usual_but("out.s", "folder"),
            "daphulle: cannot write \"folder\": Is a directory (os error 21)\n",
        ),
        (
            usual_but("out.s", ""),
            "daphulle: cannot write \"\": No such file or directory (os error 2)\n",
        ),
    ] {
        assert_eq!(ended(&run(&folder, &words)), (2, &b""[..], line));
        assert_eq!(folder.names(), ["blocks", "c.o", "folder", "prelude"]);
        assert_eq!(fs::read_dir(path.join("folder")).unwrap().count(), 0);
    }
}

#[test]
fn full_standard_output_and_error() {
    let folder = known_folder();
    let full = || -> File { OpenOptions::new().write(true).open("/dev/full").unwrap() };
    let mut command = Command::new(COMMAND);
    command.args(usual_but("out.s", "-")).stdout(full());
    let output = command.current_dir(folder.path()).output().unwrap();
    let line = "daphulle: cannot write standard output: No space left on device (os error 28)\n";
    assert_eq!(ended(&output), (2, &b""[..], line));
    for words in [&["--help"][..], &["-V"], &["prelude"]] {
        let mut command = Command::new(COMMAND);
        let output = command.args(words).stdout(full()).output().unwrap();
        assert_eq!(ended(&output), (2, &b""[..], line), "{words:?}");
    }
    // a refusal that cannot be told still has its status
    let mut command = Command::new(COMMAND);
    command.args(usual_but("blocks", "c.o")).stderr(full());
    let status = command.current_dir(folder.path()).status().unwrap();
    assert_eq!(status.code(), Some(1));
}

/// Runs the command as a shell does, with some descriptors closed or otherwise opened.
fn run_in_shell(folder: &Folder, words: &[String], descriptors: &str) -> Output {
    let mut command = Command::new("sh");
    command.args(["-c", &format!("exec \"$0\" \"$@\" {descriptors}"), COMMAND]);
    command
        .args(words)
        .current_dir(folder.path())
        .output()
        .unwrap()
}

/// Nothing is lost without a word where standard output is closed, or is not open for writing.
#[test]
fn closed_standard_output_and_input() {
    let folder = known_folder();
    let closed =
        "daphulle: cannot write standard output: Bad file descriptor (os error 9)\n".to_string();
    for descriptors in [">&-", ">&- <&-", "1< blocks"] {
        for words in [
            usual_but("out.s", "-"),
            vec!["prelude".into()],
            vec!["--help".into()],
            vec!["--version".into()],
        ] {
            let output = run_in_shell(&folder, &words, descriptors);
            assert_eq!(ended(&output), (2, &b""[..], &closed[..]), "{descriptors}");
        }
    }
    let named = "daphulle: cannot write \"/dev/stdout\": Is a directory (os error 21)\n";
    let words = usual_but("out.s", "/dev/stdout");
    let output = run_in_shell(&folder, &words, ">&-");
    assert_eq!(ended(&output), (2, &b""[..], named));
    let input = "daphulle: cannot read standard input: Is a directory (os error 21)\n";
    let output = run_in_shell(&folder, &usual_but("c.o", "-"), "<&-");
    assert_eq!(ended(&output), (2, &b""[..], input));
    assert_eq!(folder.names(), NAMES);
    // what is not used may be closed
    let words: Vec<_> = USUAL.map(Into::into).to_vec();
    let output = run_in_shell(&folder, &words, "<&- >&- 2>&-");
    assert_eq!(ended(&output), (0, &b""[..], ""));
    let draft = fs::read(folder.path().join("out.s")).unwrap();
    assert_eq!(draft, DRAFT);
}

/// A reader that goes away before all is written.
#[test]
fn a_broken_pipe_is_an_error() {
    let folder = known_folder();
    let (reader, writer) = io::pipe().unwrap();
    drop(reader);
    let mut command = Command::new(COMMAND);
    command.args(usual_but("out.s", "-")).stdout(writer);
    let output = command.current_dir(folder.path()).output().unwrap();
    let line = "daphulle: cannot write standard output: Broken pipe (os error 32)\n";
    assert_eq!(ended(&output), (2, &b""[..], line));
}

#[test]
fn wrong_usage_is_status_2() {
    let folder = known_folder();
    for (words, line) in [
        (vec![], "no command is given"),
        (vec!["draft", "c.o"], "--blocks is missing"),
        (
            vec!["draft", "c.o", "--other"],
            "there is no option \"--other\"",
        ),
        (vec!["merge", "c.o"], "A is missing"),
        (vec!["splice", "c.o"], "there is no command \"splice\""),
    ] {
        let line = format!("daphulle: {line} (see daphulle --help)\n");
        assert_eq!(ended(&run(&folder, &words)), (2, &b""[..], &line[..]));
    }
    assert_eq!(folder.names(), NAMES);
}

#[test]
fn help_fits_one_screen() {
    let folder = Folder::new();
    let output = run(&folder, &["--help"]);
    assert_eq!(run(&folder, &["-h"]), output);
    let (status, text, error) = ended(&output);
    let text = str::from_utf8(text).unwrap();
    assert_eq!((status, error), (0, ""));
    assert!(text.lines().count() <= 24 && text.lines().all(|line| line.len() <= 80));
    assert!(
        text.starts_with("Usage: daphulle draft C [--prelude P] --blocks B [--strict] -o OUT\n")
    );
    assert!(text.contains(&format!(
        "{FILE_LIMIT} bytes each, a result {DRAFT_LIMIT}, PATH {PATH_LIMIT}."
    )));
    assert_eq!(DRAFT_LIMIT, MERGE_LIMIT);
}

/// What a command prints in a folder, where it is there and succeeds.
fn printed(words: &[&str], folder: &str) -> Option<String> {
    let mut command = Command::new(words[0]);
    let output = command.args(&words[1..]).current_dir(folder).output();
    let output = output.ok().filter(|output| output.status.success())?;
    Some(String::from_utf8(output.stdout).unwrap().trim_end().into())
}

#[test]
fn the_version() {
    let folder = Folder::new();
    let output = run(&folder, &["--version"]);
    assert_eq!(run(&folder, &["-V"]), output);
    let (status, text, error) = ended(&output);
    assert_eq!((status, error), (0, ""));
    let lines: Vec<_> = str::from_utf8(text).unwrap().lines().collect();
    let [version, commit, kit] = lines[..] else {
        panic!("{lines:?}");
    };
    assert_eq!(version, concat!("daphulle ", env!("CARGO_PKG_VERSION")));
    let package = env!("CARGO_MANIFEST_DIR");
    // the commit, and whether what the command is made of is that of the commit
    let status = "git --no-optional-locks status --porcelain -- src build.rs Cargo.toml ../crates";
    let words: Vec<_> = status.split(' ').collect();
    let changes = printed(&words, package);
    let head = printed(&["git", "rev-parse", "--verify", "HEAD"], package);
    let expected = match (head, changes.as_deref()) {
        (None, _) => "commit unknown".into(),
        (Some(head), Some("")) => format!("commit {head}"),
        (Some(head), _) => format!("commit {head}, changed"),
    };
    assert_eq!(commit, expected);
    // the kit's name, where the `rt` that is there made the archive
    let archive = fs::read(env!("DAPHULLE_ARCHIVE")).unwrap();
    let has = |logic: &str| {
        let mark = format!("rattle logic={logic}").into_bytes();
        archive.windows(mark.len()).any(|part| part == mark)
    };
    match printed(&["rt", "--version"], package) {
        Some(known) if has(known.rsplit(' ').next().unwrap()) => {
            assert_eq!(kit, format!("kit {known}"));
        }
        _ => assert!(kit.starts_with("kit unknown"), "{kit}"),
    }
}

/// The long name of -o, and the same answer.
#[test]
fn short_options_have_long_names() {
    let folder = known_folder();
    let mut words = USUAL;
    words[6] = "--output";
    assert_eq!(ended(&run(&folder, &words)), (0, &b""[..], ""));
    assert_eq!(fs::read(folder.path().join("out.s")).unwrap(), DRAFT);
}

/// The command that the README at the top gives, run there word for word but for the output, which
/// is the Rust's merge of the same objects.
#[test]
fn the_command_of_the_readme() {
    let top = concat!(env!("CARGO_MANIFEST_DIR"), "/..");
    let readme = fs::read_to_string(format!("{top}/README.md")).unwrap();
    let given = readme.split("&& host/target/release/daphulle ").nth(1);
    let line = given.unwrap().lines().next().unwrap();
    let words = line.strip_suffix(" -o merged.o").unwrap().split(' ');
    let mut command = Command::new(COMMAND);
    let output = command
        .args(words)
        .args(["-o", "-"])
        .current_dir(top)
        .output();
    let output = output.unwrap();
    let merged = include_bytes!("firmware/merged.o");
    assert_eq!(
        (output.status.code(), &output.stdout[..]),
        (Some(0), &merged[..])
    );
    assert!(output.stderr.is_empty());
}
