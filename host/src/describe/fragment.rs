//! Reads the assembly of a routine line by line: which lines are late, and which functions it has.
//! What the lines assemble to is the assembler's to say.

use super::{Fault, lines};
use crate::codes::Code;
use std::path::{Path, PathBuf};

/// The assembly of a routine.
#[derive(Clone)]
pub(super) struct Fragment {
    /// The file that it stands in.
    pub file: PathBuf,
    /// All but the late lines.
    pub lines: Vec<Line>,
    pub late: Vec<Line>,
    /// The functions that it defines.
    pub glabels: Vec<Vec<u8>>,
}

#[derive(Clone)]
pub(super) struct Line {
    /// Its number in the file.
    pub number: usize,
    pub text: Vec<u8>,
}

/// Directives that change the section where a reader of single lines cannot follow.
const UNFOLLOWED: [&[u8]; 4] = [
    b".previous",
    b".pushsection",
    b".popsection",
    b".subsection",
];

const NOT_ALONE: &str = "a directive that changes the section must be alone on its line";

/// asm-processor's: late words start at a multiple of 8 here, whatever it says.
const LATE_ALIGNMENT: &[u8] = b".late_rodata_alignment";

impl Fragment {
    /// Reads text that begins behind a line of its file.
    pub fn read(file: &Path, behind: usize, text: &[u8]) -> Result<Fragment, Fault> {
        let mut fragment = Fragment {
            file: file.into(),
            lines: vec![],
            late: vec![],
            glabels: vec![],
        };
        let mut section = Code::Text;
        let mut in_comment = false;
        for (line, number) in lines(text).zip(behind + 1..) {
            let fault = |words| Fault {
                file: file.into(),
                line: Some(number),
                words,
            };
            let was_in_comment = in_comment;
            let statements = statements(line, &mut in_comment);
            let is_alone = statements.len() == 1 && !was_in_comment && !in_comment;
            let mut text = line.to_vec();
            let mut is_change = false;
            for statement in &statements {
                let (directive, operands, is_labelled) = parts(statement);
                if let Some(named) = section_of(directive, operands).map_err(fault)? {
                    if !is_alone || is_labelled {
                        return Err(fault(NOT_ALONE.into()));
                    }
                    (section, is_change) = (named, true);
                    // `.rodata` alone is no directive of GNU as
                    text = format!(".section {}", named.name()).into_bytes();
                } else if directive == b"glabel" && section == Code::Text {
                    let is_end = |byte: &u8| *byte == b',' || byte.is_ascii_whitespace();
                    let name = operands.split(is_end).next().unwrap_or_default();
                    fragment.glabels.push(name.to_vec());
                } else if directive == LATE_ALIGNMENT && is_alone {
                    text.clear();
                }
            }
            let line = Line { number, text };
            match section {
                // the draft has this directive once for all blocks
                Code::LateRodata if is_change => {}
                Code::LateRodata => fragment.late.push(line),
                _ => fragment.lines.push(line),
            }
        }
        Ok(fragment)
    }
}

/// The section that a statement changes to, if it does.
fn section_of(directive: &[u8], operands: &[u8]) -> Result<Option<Code>, String> {
    let shown = |bytes: &[u8]| String::from_utf8_lossy(bytes).into_owned();
    let is_named = directive == b".section";
    let name = match is_named {
        true => operands.split(|&byte| byte == b',').next(),
        false => Some(directive),
    };
    let name = name.unwrap_or_default().trim_ascii();
    let name = name.strip_prefix(b"\"").unwrap_or(name);
    let name = name.strip_suffix(b"\"").unwrap_or(name);
    let code = match name {
        b".rdata" => Some(Code::Rodata),
        _ => Code::SOURCES
            .into_iter()
            .find(|code| code.name().as_bytes() == name),
    };
    if UNFOLLOWED.contains(&directive) {
        return Err(format!(
            "{} is not followed here: name the section with .section",
            shown(directive)
        ));
    }
    match code {
        None if is_named => Err(format!(
            "section {} is none of .text, .data, .rodata, .bss and .late_rodata",
            shown(name)
        )),
        Some(code) if !is_named && !operands.is_empty() => {
            Err(format!("{} takes nothing behind it", code.name()))
        }
        code => Ok(code),
    }
}

/// The first word of a statement, what stands behind it, and whether labels stand before it.
fn parts(statement: &[u8]) -> (&[u8], &[u8], bool) {
    let mut rest = statement.trim_ascii();
    let mut is_labelled = false;
    let end = |text: &[u8]| {
        let end = text.iter().position(u8::is_ascii_whitespace);
        end.unwrap_or(text.len())
    };
    loop {
        let (word, behind) = rest.split_at_checked(end(rest)).unwrap_or_default();
        // a label may touch what stands behind it
        let is_of_name = |byte: &u8| byte.is_ascii_alphanumeric() || b"_.$".contains(byte);
        let colon = word.iter().position(|byte| !is_of_name(byte));
        match colon {
            Some(at) if at > 0 && word.get(at) == Some(&b':') => {
                is_labelled = true;
                rest = rest.get(at + 1..).unwrap_or_default().trim_ascii();
            }
            _ => return (word, behind.trim_ascii(), is_labelled),
        }
    }
}

/// The statements of a line that are not empty, without comments: a comment begins with `#`, or it
/// stands between `/*` and `*/`, over lines too.
fn statements(line: &[u8], in_comment: &mut bool) -> Vec<Vec<u8>> {
    let mut statements = vec![];
    let mut statement = vec![];
    let mut in_string = false;
    let mut bytes = line.iter().copied().peekable();
    while let Some(byte) = bytes.next() {
        let next = bytes.peek().copied();
        match (*in_comment, in_string, byte, next) {
            (true, _, b'*', Some(b'/')) => {
                *in_comment = false;
                bytes.next();
                statement.push(b' ');
            }
            (true, ..) => {}
            (_, false, b'/', Some(b'*')) => {
                *in_comment = true;
                bytes.next();
            }
            (_, false, b'#', _) => break,
            (_, false, b';', _) => statements.push(std::mem::take(&mut statement)),
            (_, true, b'\\', Some(escaped)) => {
                bytes.next();
                statement.extend([byte, escaped]);
            }
            _ => {
                in_string ^= byte == b'"';
                statement.push(byte);
            }
        }
    }
    statements.push(statement);
    statements.retain(|statement| !statement.trim_ascii().is_empty());
    statements
}

#[cfg(test)]
mod tests {
    use super::{Fragment, Line, statements};
    use std::path::Path;

    fn read(text: &str) -> Result<Fragment, String> {
        Fragment::read(Path::new("f.s"), 0, text.as_bytes()).map_err(|fault| fault.to_string())
    }

    /// Numbers and texts.
    fn shown(lines: &[Line]) -> Vec<String> {
        let shown = |line: &Line| format!("{} {}", line.number, line.text.escape_ascii());
        lines.iter().map(shown).collect()
    }

    #[test]
    fn late_lines_stand_apart() {
        let text = "glabel f\r\njr $ra\n .late_rodata # late\nglabel f_l\n.word 1\n.rdata\n\
                    .word 2\n.section .late_rodata, \"a\"\n.word 3\n.text\nglabel g, local\nnop\n";
        let fragment = read(text).unwrap();
        let lines = [
            "1 glabel f",
            "2 jr $ra",
            "6 .section .rodata",
            "7 .word 2",
            "10 .section .text",
            "11 glabel g, local",
            "12 nop",
        ];
        assert_eq!(shown(&fragment.lines), lines);
        let late = ["4 glabel f_l", "5 .word 1", "9 .word 3"];
        assert_eq!(shown(&fragment.late), late);
        // f_l is no function
        assert_eq!(fragment.glabels, [b"f", b"g"]);
    }

    #[test]
    fn asm_processors_alignment_is_left_out() {
        let fragment = read(".late_rodata\n.late_rodata_alignment 4\n.float 1\n").unwrap();
        assert_eq!(shown(&fragment.late), ["2 ", "3 .float 1"]);
    }

    #[test]
    fn directives_in_comments_and_strings_change_nothing() {
        let text = "/* .data */ nop\n/*\n.late_rodata\n*/ nop # .data\n.asciz \"; .late_rodata\"\n\
                    .asciz \"\\\";#\"\nnop; nop\n";
        let fragment = read(text).unwrap();
        assert_eq!(fragment.lines.len(), 7);
        assert!(fragment.late.is_empty());
    }

    #[test]
    fn what_cannot_be_followed_is_a_fault() {
        for (text, fault) in [
            (
                "nop\n.section .sdata\n",
                "f.s:2: section .sdata is none of .text, .data, .rodata, .bss and .late_rodata",
            ),
            (
                ".previous\n",
                "f.s:1: .previous is not followed here: name the section with .section",
            ),
            ("nop\n.text 1\n", "f.s:2: .text takes nothing behind it"),
            (
                "nop; .data\n",
                "f.s:1: a directive that changes the section must be alone on its line",
            ),
            (
                "here: .data\n",
                "f.s:1: a directive that changes the section must be alone on its line",
            ),
            // the comment would lose its end or its start
            (
                "nop /*\n*/ .data\n",
                "f.s:2: a directive that changes the section must be alone on its line",
            ),
            (
                ".data /*\n*/ nop\n",
                "f.s:1: a directive that changes the section must be alone on its line",
            ),
        ] {
            assert_eq!(read(text).err().as_deref(), Some(fault));
        }
    }

    #[test]
    fn statements_of_a_line() {
        let mut in_comment = false;
        let of = |line: &str, in_comment: &mut bool| {
            let found = statements(line.as_bytes(), in_comment).into_iter();
            let trim = |text: Vec<u8>| String::from_utf8(text).unwrap().trim().to_string();
            found.map(trim).collect::<Vec<_>>()
        };
        assert_eq!(
            of("a /* b */ c; d # e", &mut in_comment),
            ["a   c", "d"].map(String::from)
        );
        assert_eq!(of("a /* b", &mut in_comment), ["a"]);
        assert!(in_comment);
        assert_eq!(of("c */ d", &mut in_comment), ["d"]);
        assert!(!in_comment);
    }
}
