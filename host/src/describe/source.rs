//! Reads C with `GLOBAL_ASM`, and writes it with placeholders.

use super::{Block, Fault, Named, Tools, fragment::Fragment, lines, output, shown};
use std::path::{Path, PathBuf};

/// A routine of the source.
pub(super) struct Routine {
    /// The number of its line.
    line: usize,
    /// How many lines it takes.
    length: usize,
    /// A name for messages.
    pub desc: String,
    pub fragment: Fragment,
}

/// What a line of C is.
enum Kind<'a> {
    Plain,
    /// `GLOBAL_ASM("PATH")`.
    File(&'a [u8]),
    /// `GLOBAL_ASM(`: assembly follows, up to a line that begins with `)`.
    Opening,
    Wrong,
}

fn kind(line: &[u8]) -> Kind<'_> {
    let line = line.trim_ascii();
    let bare = line
        .strip_prefix(b"#pragma")
        .map_or(line, <[u8]>::trim_ascii);
    let Some(rest) = bare.strip_prefix(b"GLOBAL_ASM") else {
        return Kind::Plain;
    };
    if rest
        .first()
        .is_some_and(|byte| byte.is_ascii_alphanumeric() || *byte == b'_')
    {
        return Kind::Plain;
    }
    let rest = rest.strip_suffix(b";").unwrap_or(rest).trim_ascii();
    if rest == b"(" {
        return Kind::Opening;
    }
    let path = rest
        .strip_prefix(b"(\"")
        .and_then(|rest| rest.strip_suffix(b"\")"));
    match path {
        Some(path) if !path.is_empty() && !path.contains(&b'"') => Kind::File(path),
        _ => Kind::Wrong,
    }
}

/// The routines of a source in order, and the files that they stand in, each once.
pub(super) fn routines(
    source: Named,
    base: &Path,
    tools: &mut impl Tools,
) -> Result<(Vec<Routine>, Vec<PathBuf>), Fault> {
    let mut routines = vec![];
    let mut files: Vec<PathBuf> = vec![];
    let mut lines = lines(source.bytes).zip(1..);
    while let Some((line, number)) = lines.next() {
        let fault = |words: String| Fault {
            file: source.name.into(),
            line: Some(number),
            words,
        };
        let (fragment, length, desc) = match kind(line) {
            Kind::Plain => continue,
            Kind::Wrong => {
                let words =
                    "this is neither GLOBAL_ASM(\"PATH\") nor GLOBAL_ASM( alone on its line";
                return Err(fault(words.into()));
            }
            Kind::File(path) => {
                let path = base.join(output::path_of(path));
                let text = tools.read(&path).map_err(fault)?;
                if !files.contains(&path) {
                    files.push(path.clone());
                }
                let desc = shown(path.as_os_str());
                (Fragment::read(&path, 0, &text)?, 1, desc)
            }
            Kind::Opening => {
                let mut text = vec![];
                let end = lines.find_map(|(line, number)| {
                    if line.trim_ascii_start().starts_with(b")") {
                        return Some(number);
                    }
                    text.extend(line);
                    text.push(b'\n');
                    None
                });
                let end = end.ok_or_else(|| fault("no line behind this begins with `)`".into()))?;
                let desc = format!("{}:{number}", shown(source.name.as_os_str()));
                let fragment = Fragment::read(source.name, number, &text)?;
                (fragment, end - number + 1, desc)
            }
        };
        routines.push(Routine {
            line: number,
            length,
            desc,
            fragment,
        });
    }
    Ok((routines, files))
}

/// The source with a placeholder in the first line of each routine, so that all other lines keep
/// their numbers; the placeholders of late words come last.
pub(super) fn with_placeholders(source: Named, routines: &[Routine], blocks: &[Block]) -> Vec<u8> {
    let name = output::in_quotes(source.name.as_os_str());
    let mut made = format!("#line 1 \"{name}\"\n").into_bytes();
    let mut lines = source.bytes.split_inclusive(|&byte| byte == b'\n').zip(1..);
    for (routine, block) in routines.iter().zip(blocks) {
        let before = lines
            .by_ref()
            .take_while(|(_, number)| *number < routine.line);
        made.extend(before.flat_map(|(line, _)| line));
        // `take_while` took the first line of the routine
        made.extend(output::placeholder(block).bytes());
        made.push(b'\n');
        made.extend(lines.by_ref().take(routine.length - 1).map(|_| b'\n'));
    }
    made.extend(lines.flat_map(|(line, _)| line));
    if !made.ends_with(b"\n") {
        made.push(b'\n');
    }
    made.extend(
        blocks
            .iter()
            .flat_map(|block| output::late_placeholder(block).into_bytes()),
    );
    made
}
