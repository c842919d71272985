//! Reads a list of spans, by one who has the sizes: a line for each span, with the file of assembly
//! first. Lines that follow each other and have the same file are a block.
//!
//! ```text
//! # file  part    label      size align8
//! fee.s   text    _asmpp_t1  220
//! fee.s   rodata  _asmpp_r1  12 8
//! fee.s   late    e0123456 e0123457
//! fee.s   jtbl    24
//! ```

use super::{Block, Fault, Named, Span, Tools, fragment::Fragment, lines, output};
use crate::codes::Code;
use std::path::{Path, PathBuf};

/// The blocks of a list, and the files of assembly that were read, each once.
pub(super) fn blocks(
    list: Named,
    base: &Path,
    tools: &mut impl Tools,
) -> Result<(Vec<Block>, Vec<PathBuf>), Fault> {
    let mut blocks: Vec<Block> = vec![];
    let mut files: Vec<PathBuf> = vec![];
    let mut last: &[u8] = b"";
    for (line, number) in lines(list.bytes).zip(1..) {
        let fault = |words: String| Fault {
            file: list.name.into(),
            line: Some(number),
            words,
        };
        let mut words = line
            .split(u8::is_ascii_whitespace)
            .filter(|word| !word.is_empty());
        let Some(file) = words.next().filter(|word| !word.starts_with(b"#")) else {
            continue;
        };
        let words: Vec<_> = words.map(String::from_utf8_lossy).collect();
        if blocks.is_empty() || file != last {
            let path = base.join(output::path_of(file));
            let text = tools.read(&path).map_err(fault)?;
            blocks.push(Block {
                desc: file.to_vec(),
                spans: vec![],
                dummies: vec![],
                jump_table: 0,
                fragment: Fragment::read(&path, 0, &text)?,
                late_padding: 0,
            });
            if !files.contains(&path) {
                files.push(path);
            }
            last = file;
        }
        if let Some(block) = blocks.last_mut() {
            let words: Vec<_> = words.iter().map(AsRef::as_ref).collect();
            add(block, &words).map_err(fault)?;
        }
    }
    Ok((blocks, files))
}

/// Adds what a line says behind the file.
fn add(block: &mut Block, words: &[&str]) -> Result<(), String> {
    const FORMS: &str = "behind the file must stand `text`, `data`, `rodata` or `bss` with LABEL \
                         SIZE and perhaps ALIGN8, `late` with dummies, or `jtbl` with BYTES";
    let [key, values @ ..] = words else {
        return Err(FORMS.into());
    };
    let number = |text: &str| {
        let number = text.parse::<u32>();
        number.map_err(|_| format!("`{text}` is no number"))
    };
    match (*key, values) {
        ("late", [_, ..]) if block.dummies.is_empty() => {
            for value in values {
                let digits = value.len() == 8 && !value.contains('+');
                let dummy = u32::from_str_radix(value, 16).ok().filter(|_| digits);
                let dummy = dummy.ok_or_else(|| format!("`{value}` is not 8 hex digits"))?;
                block.dummies.push(dummy);
            }
        }
        ("jtbl", [bytes]) if block.jump_table == 0 => block.jump_table = number(bytes)?,
        ("late" | "jtbl", [_, ..]) => return Err(format!("the block has `{key}` already")),
        (key, [label, size, align8 @ ..]) if align8.len() < 2 => {
            let name = format!(".{key}");
            let mut codes = Code::LINES.into_iter();
            let code = codes.find(|code| code.name() == name).ok_or(FORMS)?;
            if block.spans.iter().any(|span| span.code == code) {
                return Err(format!("the block has `{key}` already"));
            }
            block.spans.push(Span {
                code,
                label: (*label).into(),
                size: number(size)?,
                align8: align8.first().map_or(Ok(0), |text| number(text))?,
                align: 0,
            });
        }
        _ => return Err(FORMS.into()),
    }
    Ok(())
}
