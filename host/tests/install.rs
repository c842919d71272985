//! From the repository to a library that a C program uses: what tools/build asks for and shows, what
//! tools/install puts under a prefix, and the front page.

mod common;

use common::{CASE_FILE, DRAFT, FIRMWARE, Folder, command::COMMAND, known_merge, tools::are_there};
use daphulle::{ConvertStatics, Error, Merge, PRELUDE, draft, draft_within, merge};
use std::{
    collections::BTreeSet,
    env,
    fs::{self, File},
    io::{BufRead, BufReader},
    os::unix::fs::{PermissionsExt, symlink},
    path::{Path, PathBuf},
    process::{Command, Output, Stdio},
    time::SystemTime,
};

const TOP: &str = concat!(env!("CARGO_MANIFEST_DIR"), "/..");
const PROGRAMS: &str = concat!(env!("CARGO_MANIFEST_DIR"), "/tests/c");

fn read(name: &str) -> String {
    fs::read_to_string(Path::new(TOP).join(name)).unwrap()
}

/// The value of the one line `KEY = "VALUE"`.
fn field<'a>(manifest: &'a str, key: &str) -> &'a str {
    let start = format!("{key} = \"");
    let mut lines = manifest.lines().filter_map(|l| l.strip_prefix(&*start));
    let value = lines.next().unwrap().strip_suffix('"').unwrap();
    assert_eq!(lines.next(), None);
    value
}

/// The first code on a page that is in a language and has a word in it, and what stands behind it.
fn code<'a>(page: &'a str, language: &str, word: &str) -> (&'a str, &'a str) {
    let fence = format!("```{language}\n");
    let rest = page.split(&*fence).skip(1);
    let mut parts = rest.map(|rest| rest.split_once("```").unwrap());
    parts.find(|(code, _)| code.contains(word)).unwrap()
}

/// What the scripts in tools/ need of any system.
const BASE: &[&str] = &[
    "awk", "bash", "cat", "cmp", "cp", "dirname", "grep", "head", "mkdir", "mktemp", "nproc",
    "realpath", "rm", "sed", "sleep", "sort", "uname",
];

/// A folder that has nothing but tools of the system and scripts, each a name and its lines.
fn path_of(tools: &[&[&str]], scripts: &[(&str, &str)]) -> Folder {
    let folder = Folder::new();
    let system = env::var_os("PATH").unwrap();
    for tool in tools.iter().copied().flatten() {
        let mut found = env::split_paths(&system).map(|folder| folder.join(tool));
        let found = found.find(|file| file.is_file()).unwrap();
        symlink(found, folder.path().join(tool)).unwrap();
    }
    for (name, lines) in scripts {
        let file = folder.path().join(name);
        fs::write(&file, format!("#!/bin/sh\n{lines}\n")).unwrap();
        fs::set_permissions(&file, PermissionsExt::from_mode(0o755)).unwrap();
    }
    folder
}

/// A script of tools/ where only these tools are.
fn script(name: &str, path: &Folder) -> Command {
    let mut command = Command::new(Path::new(TOP).join("tools").join(name));
    command
        .env("PATH", path.path())
        .env("HOME", path.path())
        .env_remove("RATTLE_HOME");
    command
}

fn lines(bytes: &[u8]) -> Vec<&str> {
    str::from_utf8(bytes).unwrap().lines().collect()
}

/// Stands for rt: writes down what it is asked for. The archive of `rt lib` is the one that this test
/// is linked with, where there is none.
const RT: &str = concat!(
    r#"case $1 in
version) echo 'a kit' ;;
*) echo "$*" >> "$0.asked" ;;
esac
if [ "$1" = lib ] && [ ! -e out/libdaphulle.a ]; then
    mkdir -p out && cp '"#,
    env!("DAPHULLE_ARCHIVE"),
    r#"' out/libdaphulle.a
fi"#
);

fn asked_of_rt(path: &Folder) -> String {
    fs::read_to_string(path.path().join("rt.asked")).unwrap_or_default()
}

/// As every tool of Rust says its version.
fn rust(version: &str) -> String {
    format!("echo \"${{0##*/}} {version} (0000000 2000-01-01)\"")
}

/// Each tool that is missing is told, with what to do, before anything is proved.
#[test]
fn a_build_without_its_tools_says_what_to_install() {
    let path = path_of(&[BASE], &[("rt", RT)]);
    let output = script("build", &path).output().unwrap();
    assert_eq!(output.status.code(), Some(2), "{output:?}");
    let told = lines(&output.stderr);
    for (line, tool) in told.iter().zip(["cc", "ar", "cargo", "rustc"]) {
        let start = format!("tools/build: {tool} is not there. Install ");
        assert!(line.starts_with(&start), "{line}");
    }
    assert_eq!(told.len(), 4, "{told:?}");
    assert_eq!((&output.stdout[..], &*asked_of_rt(&path)), (&b""[..], ""));
}

#[test]
fn a_build_without_rt_says_where_it_is_looked_for() {
    let present = rust("1.999.0");
    let others = [
        ("cargo", &*present),
        ("rustc", &present),
        ("cc", ""),
        ("ar", ""),
    ];
    let path = path_of(&[BASE], &others);
    let output = script("build", &path).output().unwrap();
    assert_eq!(output.status.code(), Some(2), "{output:?}");
    let told = lines(&output.stderr);
    let [line] = told[..] else { panic!("{told:?}") };
    assert!(line.starts_with("tools/build: rt is not there. Install the Rattle kit"));
    assert!(
        line.contains("PATH") && line.contains("RATTLE_HOME"),
        "{line}"
    );
    // a kit that cannot run here
    let broken = [&others[..], &[("rt", "echo 'no toolchain' >&2; exit 2")]].concat();
    let output = script("build", &path_of(&[BASE], &broken))
        .output()
        .unwrap();
    let told = lines(&output.stderr);
    assert_eq!(told, ["tools/build: rt does not run: no toolchain"]);
    assert_eq!(output.status.code(), Some(2));
}

#[test]
fn a_build_with_an_old_rust_says_both_versions() {
    let manifest = read("host/Cargo.toml");
    let least = field(&manifest, "rust-version");
    let status_with = |version: &str| {
        let old = rust(version);
        let tools = [
            ("cargo", &*old),
            ("rustc", &old),
            ("cc", ""),
            ("ar", ""),
            ("rt", RT),
        ];
        let path = path_of(&[BASE], &tools);
        (script("build", &path).output().unwrap(), asked_of_rt(&path))
    };
    let (output, asked) = status_with("1.9.0");
    let lines = lines(&output.stderr);
    let told = |tool| {
        format!(
            "tools/build: {tool} is 1.9.0, it must be {least} or later. Update Rust (rustup update)."
        )
    };
    assert_eq!(lines, [told("cargo"), told("rustc")]);
    assert_eq!((output.status.code(), &*asked), (Some(2), ""));
    // the least itself is enough
    let (output, asked) = status_with(&format!("{least}.0"));
    assert!(output.status.success() && !asked.is_empty(), "{output:?}");
}

/// Each crate is shown with its number as soon as rt is done with it.
#[test]
fn a_build_shows_where_it_is() {
    let all = r#"if [ "$1" = all ]; then
    echo '== base_lists'
    echo 'library base_lists: modules loaded=9 checked=0' >&2
    echo '== base_packed'
    for i in 1 2 3 4 5 6 7 8 9 10; do [ -e "$0.seen" ] || sleep 1; done
    [ -e "$0.seen" ] || exit 1
    echo '== base_fields'
    echo 'fn base_fields::read8: proved'
    echo '== summary'
    echo '3 of 3 crates ok'
fi
"#;
    let rt = all.to_owned() + RT;
    let present = rust("1.999.0");
    let others = [
        ("cargo", &*present),
        ("rustc", &present),
        ("cc", ""),
        ("ar", ""),
    ];
    let path = path_of(&[BASE], &[&others[..], &[("rt", &*rt)]].concat());
    let mut build = script("build", &path);
    let mut child = build.stdout(Stdio::piped()).spawn().unwrap();
    let mut printed = vec![];
    for line in BufReader::new(child.stdout.take().unwrap()).lines() {
        let line = line.unwrap();
        if line.contains("base_packed") {
            fs::write(path.path().join("rt.seen"), "").unwrap();
        }
        printed.push(line);
    }
    assert!(child.wait().unwrap().success(), "{printed:?}");
    let crates = read("crates.txt");
    let crates = crates.lines().map(|line| line.split('#').next().unwrap());
    let count = crates.filter(|line| line.contains(':')).count();
    assert!(printed[0].starts_with(&format!("Proving the {count} crates, with a kit;")));
    let expected = [
        format!("1 of {count}: base_lists"),
        format!("2 of {count}: base_packed"),
        format!("3 of {count}: base_fields"),
        "The archive of daphulle ..".into(),
    ];
    assert_eq!(printed[1..5], expected);
    let asked = asked_of_rt(&path);
    let asked: Vec<&str> = asked.lines().collect();
    assert!(asked[0].starts_with("all check --jobs "), "{asked:?}");
    assert_eq!(asked[1..], ["lib"]);
}

/// All that rt said is shown where a proof fails, and nothing is built.
#[test]
fn a_failed_proof_shows_what_rt_said() {
    let fails = |when: &str| {
        format!(
            "case $1 in version) echo 'a kit' ;; {when}) echo 'goal 7 is open' >&2; \
             echo 'base_lists: failed (1)'; exit 1 ;; esac"
        )
    };
    let present = rust("1.999.0") + "\n[ \"$1\" = --version ] || touch \"$0.built\"";
    let others = [
        ("cargo", &*present),
        ("rustc", &present),
        ("cc", ""),
        ("ar", ""),
    ];
    for when in ["all", "lib"] {
        let rt = fails(when);
        let path = path_of(&[BASE], &[&others[..], &[("rt", &*rt)]].concat());
        let output = script("build", &path).output().unwrap();
        assert_eq!(output.status.code(), Some(1), "{output:?}");
        let told = lines(&output.stdout);
        assert!(told.contains(&"goal 7 is open"), "{told:?}");
        let last = *told.last().unwrap();
        assert_eq!(last, "base_lists: failed (1)");
        assert!(!path.path().join("cargo.built").exists());
    }
}

/// What makes the installed archives; a word where it is not there.
fn has_binutils() -> bool {
    let tools = ["ld", "objcopy", "ar", "nm"].map(|tool| (tool, "binutils"));
    are_there(&tools, "the installed library")
}

/// What `tools/install PREFIX` prints, once all that it needs is built.
fn installed(prefix: &Path, destination: Option<&Path>) -> Output {
    let built = Command::new(env!("CARGO"))
        .args(["build", "--release", "--offline", "--quiet"])
        .current_dir(env!("CARGO_MANIFEST_DIR"))
        .output()
        .unwrap();
    assert!(built.status.success(), "{built:?}");
    let mut install = Command::new(Path::new(TOP).join("tools/install"));
    install.arg(prefix).env_remove("DESTDIR");
    if let Some(folder) = destination {
        // as a name in the folder that it is called in
        install.env("DESTDIR", folder.file_name().unwrap());
        install.current_dir(folder.parent().unwrap());
    }
    let output = install.output().unwrap();
    assert!(output.status.success(), "{output:?}");
    output
}

const FILES: [&str; 10] = [
    "bin/daphulle",
    "include/daphulle.h",
    "lib/libdaphulle.a",
    "lib/libdaphulle_words.a",
    "lib/pkgconfig/daphulle.pc",
    "lib/pkgconfig/daphulle_words.pc",
    "share/doc/daphulle/LICENSE",
    "share/doc/daphulle/MANUAL.md",
    "share/doc/daphulle/NOTICE",
    "share/man/man1/daphulle.1",
];

/// The files below a folder.
fn files_below(folder: &Path) -> BTreeSet<PathBuf> {
    let entries = fs::read_dir(folder).unwrap().map(|entry| entry.unwrap());
    let files = entries.flat_map(|entry| match entry.file_type().unwrap().is_dir() {
        true => files_below(&entry.path()),
        false => [entry.path()].into(),
    });
    files.collect()
}

/// The words that a C compiler takes for a package: by pkg-config, or as the files have them.
fn flags(prefix: &Path, package: &str) -> Vec<String> {
    let files = prefix.join("lib/pkgconfig");
    let asked = Command::new("pkg-config")
        .args(["--cflags", "--libs", package])
        .env("PKG_CONFIG_LIBDIR", &files)
        .env_remove("PKG_CONFIG_PATH")
        .output();
    let text = match asked {
        Ok(output) => {
            assert!(output.status.success(), "{output:?}");
            String::from_utf8(output.stdout).unwrap()
        }
        Err(_) => {
            let mut packages = vec![package, "daphulle"];
            packages.dedup();
            let file = |package: &str| files.join(package).with_extension("pc");
            let file = |package| fs::read_to_string(file(package)).unwrap();
            let text: String = packages.into_iter().map(file).collect();
            let values = ["Cflags: ", "Libs: "].map(|key| {
                let values = text.lines().filter_map(|line| line.strip_prefix(key));
                values.collect::<Vec<_>>().join(" ")
            });
            let prefix = prefix.to_str().unwrap();
            let text = values.join(" ").replace("${libdir}", "${prefix}/lib");
            text.replace("${includedir}", "${prefix}/include")
                .replace("${prefix}", prefix)
        }
    };
    text.split_whitespace().map(String::from).collect()
}

/// The words of a refused call.
fn words<T>(result: Result<T, Error>) -> String {
    match result {
        Err(Error::Refused(refusal)) => refusal.words,
        Err(other) => panic!("{other}"),
        Ok(_) => panic!("accepted"),
    }
}

/// A C program that has functions `draft` and `merge` of its own calls these and the library's, and
/// gets the words that the Rust library gives.
#[test]
fn a_c_program_over_the_installed_library() {
    if !has_binutils() {
        return;
    }
    let folder = Folder::new();
    let prefix = folder.path().join("prefix");
    installed(&prefix, None);
    let expected = FILES.map(|name| prefix.join(name));
    assert_eq!(files_below(&prefix), expected.into());
    let version = |command: &Path| Command::new(command).arg("--version").output().unwrap();
    let ours = version(&prefix.join("bin/daphulle"));
    assert!(ours.status.success() && ours.stdout.starts_with(b"daphulle "));

    let known = known_merge();
    let text = draft(&known.compiled, PRELUDE, &known.blocks).unwrap();
    for (name, bytes) in [("text", &text[..]), ("prelude", PRELUDE)] {
        fs::write(folder.path().join(name), bytes).unwrap();
    }
    let program = folder.path().join("program");
    let built = Command::new("cc")
        .args(["-std=c11", "-Wall", "-Wextra", "-Werror", "-pedantic"])
        .arg(Path::new(PROGRAMS).join("installed.c"))
        .args(flags(&prefix, "daphulle_words"))
        .args(["-Wl,--fatal-warnings", "-o"])
        .arg(&program)
        .output()
        .unwrap();
    assert!(built.status.success(), "{built:?}");
    let firmware = |name| Path::new(FIRMWARE).join(name);
    let run = Command::new(&program)
        .args([firmware("c.o"), "prelude".into(), firmware("blocks")])
        .args(["text".into(), firmware("a.o"), firmware("merged.o")])
        .current_dir(folder.path())
        .output()
        .unwrap();
    assert!(run.status.success(), "{run:?}");

    let (compiled, blocks) = (&known.compiled[..], &known.blocks[..]);
    let merged_with = |assembled, path| {
        words(merge(&Merge {
            assembled,
            path,
            convert_statics: ConvertStatics::Local,
            ..known.merge()
        }))
    };
    let long = vec![0; daphulle::call::FILE_LIMIT + 1];
    let expected = [
        words(draft(&compiled[..51], PRELUDE, blocks)),
        words(draft_within(7, compiled, PRELUDE, blocks)),
        words(draft(compiled, PRELUDE, &blocks[..blocks.len() - 1])),
        words(draft(compiled, &long, blocks)),
        merged_with(&known.assembled[..51], b"c.o"),
        merged_with(compiled, b"c.o"),
        merged_with(&known.assembled, b"c.\x80"),
        "the flag is 2, it must be 0 or 1".into(),
        "the mode is 4, it must be from 0 to 3".into(),
        "the call is 2, it must be 0 or 1".into(),
        "the linked library is not the proved one: it answered length 0, number 22, object 0, place 0"
            .into(),
        "0 differences".into(),
    ];
    assert_eq!(lines(&run.stdout), expected);
}

/// Without the words, C's library is all that the proved one needs.
#[test]
fn the_proved_library_by_itself() {
    if !has_binutils() {
        return;
    }
    let folder = Folder::new();
    let [prefix, program, text] = ["prefix", "draft", "text"].map(|name| folder.path().join(name));
    installed(&prefix, None);
    fs::write(&text, DRAFT).unwrap();
    let built = Command::new("cc")
        .arg(Path::new(PROGRAMS).join("draft.c"))
        .args(flags(&prefix, "daphulle"))
        .args(["-nodefaultlibs", "-lc", "-o"])
        .arg(&program)
        .output()
        .unwrap();
    assert!(built.status.success(), "{built:?}");
    let run = Command::new(&program).arg(CASE_FILE).arg(&text).output();
    assert_eq!(run.unwrap().stdout, b"0 differences\n");
}

/// The program of host/README.md, compiled as it says where pkg-config is there.
#[test]
fn the_c_program_of_the_readme() {
    if !has_binutils() {
        return;
    }
    let page = read("host/README.md");
    let (source, _) = code(&page, "c", "daphulle_words");
    let (compile, _) = code(&page, "sh", "daphulle_words");
    let folder = Folder::new();
    let prefix = folder.path().join("prefix");
    installed(&prefix, None);
    fs::write(folder.path().join("program.c"), source).unwrap();
    let compile = compile.replace("$(pkg-config --cflags --libs daphulle_words)", "$FLAGS");
    let built = Command::new("sh")
        .args(["-e", "-c", &compile])
        .env("FLAGS", flags(&prefix, "daphulle_words").join(" "))
        .current_dir(folder.path())
        .output()
        .unwrap();
    assert!(
        compile.contains("$FLAGS") && built.status.success(),
        "{built:?}"
    );

    let known = known_merge();
    let run_on = |assembled: &[u8]| {
        let files = [
            ("c.o", &known.compiled[..]),
            ("a.o", assembled),
            ("blocks", &known.blocks),
        ];
        for (name, bytes) in files {
            fs::write(folder.path().join(name), bytes).unwrap();
        }
        let mut program = Command::new(folder.path().join("program"));
        program.current_dir(folder.path()).output().unwrap()
    };
    let merged = run_on(&known.assembled);
    assert!(merged.status.success() && merged.stdout == known.merged);
    let refused = run_on(&known.assembled[..51]);
    let assembled = &known.assembled[..51];
    let words = words(merge(&Merge {
        assembled,
        ..known.merge()
    }));
    let told = format!("refused 2: {words}\n");
    assert_eq!(String::from_utf8(refused.stderr).unwrap(), told);
    assert_eq!(refused.status.code(), Some(1));
}

/// The header and the libraries are C++, too, and the installed libraries have no other names than
/// the header's.
#[test]
fn the_installed_names() {
    if !has_binutils() {
        return;
    }
    let folder = Folder::new();
    // What the files say is PREFIX, wherever they are put first.
    let destination = folder.path().join("stage");
    let prefix = Path::new("/opt/daphulle");
    let told = installed(prefix, Some(&destination));
    let placed = destination.join("opt/daphulle");
    let expected = FILES.map(|name| placed.join(name));
    let told: BTreeSet<PathBuf> = lines(&told.stdout).into_iter().map(PathBuf::from).collect();
    assert_eq!((&told, &files_below(&placed)), (&expected.into(), &told));
    let package = fs::read_to_string(placed.join("lib/pkgconfig/daphulle.pc")).unwrap();
    assert!(package.starts_with("prefix=/opt/daphulle\n"), "{package}");
    let manifest = read("host/Cargo.toml");
    let version = field(&manifest, "version");
    assert!(package.contains(&format!("\nVersion: {version}\n")));

    let names = |library: &str| {
        let output = Command::new("nm")
            .args(["-g", "--defined-only", "-f", "posix"])
            .arg(placed.join("lib").join(library))
            .output()
            .unwrap();
        let text = String::from_utf8(output.stdout).unwrap();
        let symbols = text.lines().filter(|line| line.contains(' '));
        let names = symbols.map(|line| line.split(' ').next().unwrap().to_owned());
        names.collect::<Vec<_>>()
    };
    assert_eq!(names("libdaphulle.a"), ["daphulle_draft", "daphulle_merge"]);
    assert_eq!(names("libdaphulle_words.a"), ["daphulle_words"]);

    let (source, program) = (folder.path().join("link.cpp"), folder.path().join("link"));
    let text = "#include <daphulle.h>\nstatic daphulle_work work;\nint main() {\n    \
                daphulle_job job = daphulle_job();\n    \
                daphulle_outcome r = daphulle_draft_job(&job, &work);\n    \
                return daphulle_words(DAPHULLE_DRAFT, &job, r, 0, 0) ? 0 : 1;\n}\n";
    fs::write(&source, text).unwrap();
    let built = Command::new("c++")
        .args([
            "-std=c++11",
            "-Wall",
            "-Wextra",
            "-Werror",
            "-pedantic",
            "-I",
        ])
        .arg(placed.join("include"))
        .arg(&source)
        .arg(placed.join("lib/libdaphulle_words.a"))
        .arg(placed.join("lib/libdaphulle.a"))
        .arg("-o")
        .arg(&program)
        .output()
        .unwrap();
    assert!(built.status.success(), "{built:?}");
    assert!(Command::new(&program).status().unwrap().success());
}

/// What an installation needs is told before anything is written.
#[test]
fn an_installation_says_what_is_missing() {
    let (folder, empty) = (Folder::new(), Folder::new());
    let path = path_of(&[BASE], &[]);
    let install_from = |library: &Path, built: &Path, words: &[&str]| {
        let mut install = script("install", &path);
        install.args(words).current_dir(folder.path());
        install.env("DAPHULLE_LIB", library);
        install.env("CARGO_TARGET_DIR", built);
        let output = install.output().unwrap();
        assert_eq!(output.status.code(), Some(2), "{output:?}");
        String::from_utf8(output.stderr).unwrap()
    };
    let install = |words: &[&str]| install_from(empty.path(), empty.path(), words);
    let told = install(&["prefix"]);
    for tool in ["ld", "objcopy", "ar", "nm"] {
        let line = format!("tools/install: {tool} is not there. Install binutils");
        assert!(told.contains(&line), "{told}");
    }
    for file in ["libdaphulle.a", "/daphulle", "libdaphulle_words.a"] {
        let line = format!("{file} is not there. Run tools/build.\n");
        assert!(told.contains(&line), "{told}");
    }
    // a command of before, and no words
    let (library, built) = (Folder::new(), Folder::new());
    fs::create_dir(built.path().join("release")).unwrap();
    let command = File::create(built.path().join("release/daphulle")).unwrap();
    command.set_modified(SystemTime::UNIX_EPOCH).unwrap();
    fs::write(library.path().join("libdaphulle.a"), "").unwrap();
    let told = install_from(library.path(), built.path(), &["prefix"]);
    assert!(!told.contains("libdaphulle.a is not there"), "{told}");
    assert!(told.contains("/daphulle is older than the library. Run tools/build.\n"));
    assert!(told.contains("libdaphulle_words.a is not there. Run tools/build.\n"));
    for wrong in [&[][..], &["a", "b"], &["--help"], &[""]] {
        assert!(install(wrong).starts_with("usage: "), "{wrong:?}");
    }
    assert!(install(&["a folder"]).contains("PREFIX has a space"));
    assert!(folder.names().is_empty());
}

/// Every manifest has the project's licence and the least Rust, which the front page names.
#[test]
fn the_licence_and_the_least_rust() {
    let host = read("host/Cargo.toml");
    let (licence, least) = (field(&host, "license"), field(&host, "rust-version"));
    assert_eq!(licence, "Unlicense");
    for name in ["oracle/Cargo.toml", "runner/Cargo.toml"] {
        let manifest = read(name);
        let fields = (
            field(&manifest, "license"),
            field(&manifest, "rust-version"),
        );
        assert_eq!(fields, (licence, least), "{name}");
    }
    let standins = fs::read_dir(Path::new(TOP).join("oracle/standins")).unwrap();
    let standins = standins.map(|entry| entry.unwrap().path().join("Cargo.toml"));
    let parts = [
        "host/Cargo.toml",
        "host/capi/Cargo.toml",
        "oracle/Cargo.toml",
    ];
    let parts = parts.map(|name| Path::new(TOP).join(name));
    for manifest in standins.chain(parts) {
        let text = fs::read_to_string(&manifest).unwrap();
        for inherited in ["rust-version.workspace = true", "license.workspace = true"] {
            let mut lines = text.lines();
            assert!(lines.any(|line| line == inherited), "{manifest:?}");
        }
    }
    assert!(read("README.md").contains(&format!("Rust {least} or later")));
    // NOTICE has the text of the same licence behind a line that says whose it is.
    let text = read("LICENSE");
    assert!(text.starts_with("This is free and unencumbered software"));
    assert!(read("NOTICE").ends_with(&format!("\n\n{text}")));
}

/// The example of the front page, word for word, as one that built it at the top would run it.
#[test]
fn the_example_of_the_front_page() {
    let tools = [
        ("mips-linux-gnu-gcc", "gcc-mips-linux-gnu"),
        ("mips-linux-gnu-as", "binutils-mips-linux-gnu"),
        ("mips-linux-gnu-ld", "binutils-mips-linux-gnu"),
        ("qemu-mips", "qemu-user"),
    ];
    if !are_there(&tools, "the example of the front page") {
        return;
    }
    let page = read("README.md");
    let (example, behind) = code(&page, "sh", "qemu-mips");
    let folder = Folder::new();
    let paths = [
        Path::new(COMMAND).parent().unwrap().into(),
        env::var_os("PATH").unwrap().into(),
    ];
    let paths: [PathBuf; 2] = paths;
    let path = paths.map(PathBuf::into_os_string).join(":".as_ref());
    let output = Command::new("sh")
        .args(["-e", "-c", example])
        .env("PATH", path)
        .current_dir(folder.path())
        .output()
        .unwrap();
    assert!(output.status.success(), "{output:?}");
    let printed = String::from_utf8(output.stdout).unwrap();
    let shown = format!("It prints `{}`.", printed.trim_end());
    assert!(!printed.is_empty() && behind.contains(&shown), "{printed}");
}
