//! What is written: the block file, and placeholders as GNU C has them.

use super::{Block, Span};
use crate::codes::Code;
use std::{ffi::OsStr, os::unix::ffi::OsStrExt, path::Path};

/// The label of a routine's part. The first routine's code is `_asmpp_t1`.
pub(super) fn label(code: Code, index: usize) -> String {
    let letter = match code {
        Code::Text => 't',
        Code::Data => 'd',
        Code::Rodata => 'r',
        Code::Bss => 'b',
        Code::LateRodata | Code::Reginfo => 'l',
    };
    format!("_asmpp_{letter}{}", index + 1)
}

/// A path that stands in a file.
pub(super) fn path_of(bytes: &[u8]) -> &Path {
    Path::new(OsStr::from_bytes(bytes))
}

/// A name between the quotes of C and of the assembler.
pub(super) fn in_quotes(name: &OsStr) -> String {
    let name = name.to_string_lossy();
    name.replace('\\', "\\\\").replace('"', "\\\"")
}

pub(super) fn block_file(blocks: &[Block]) -> Vec<u8> {
    let mut file = vec![];
    for block in blocks {
        let mut add = |key: &str, value: &[u8]| {
            file.extend(key.bytes());
            file.extend(value);
            file.push(b'\n');
        };
        add("desc=", &block.desc);
        for code in Code::LINES {
            let key = format!("{}=", code.name().trim_start_matches('.'));
            let span = block.spans.iter().find(|span| span.code == code);
            let value = span.map(|span| format!("{} {} {}", span.label, span.size, span.align8));
            add(&key, value.unwrap_or_default().as_bytes());
        }
        for glabel in &block.fragment.glabels {
            add("glabel=", glabel);
        }
        for dummy in &block.dummies {
            add("dummy=", format!("{dummy:08x}").as_bytes());
        }
        add("jtbl=", block.jump_table.to_string().as_bytes());
        let parts = [
            ("asm=", &block.fragment.lines),
            ("late=", &block.fragment.late),
        ];
        for (key, lines) in parts {
            for line in lines.iter().filter(|line| !line.text.is_empty()) {
                add(key, &line.text);
            }
        }
        if block.late_padding > 0 {
            add("late=", format!(".space {}", block.late_padding).as_bytes());
        }
        add("end=", b"");
    }
    file
}

/// The placeholder of a block, on one line of C.
pub(super) fn placeholder(block: &Block) -> String {
    let parts: Vec<_> = block.spans.iter().map(reserved).collect();
    format!("__asm__(\"{}\");", parts.join("\\n"))
}

/// Assembly that reserves what a span takes, on one line of C.
fn reserved(span: &Span) -> String {
    let Span {
        code,
        label,
        size,
        align,
        ..
    } = span;
    [
        format!(".pushsection {}", code.name()),
        format!(".balign {align}"),
        format!("{label}:"),
        format!(".space {size}"),
        format!(".size {label}, {size}"),
        ".popsection".into(),
    ]
    .join("\\n")
}

/// The placeholder of a block's late words; it is nothing where the block has none. The compiler
/// may have left out the placeholder of the block (`#ifdef`): this one then is left out too.
pub(super) fn late_placeholder(block: &Block) -> String {
    let (Some(dummy), Some(span)) = (block.dummies.first(), block.spans.first()) else {
        return String::new();
    };
    let text = [
        format!(".ifdef {}", span.label),
        format!(".pushsection {}", Code::LateRodata.target().name()),
        ".balign 8".into(),
        format!(".word {dummy:#010x}"),
        format!(".space {}", block.jump_table),
        ".popsection".into(),
        ".endif".into(),
    ]
    .join("\\n");
    format!("__asm__(\"{text}\");\n")
}
