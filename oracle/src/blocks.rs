//! Reads a block file, which is taken to be well-formed: each line is `KEY=VALUE`, a block
//! ends with `end=`. Lines in the wrong order are not noticed.

use crate::{Encoding, Function, OutputSection, SectionSizing};
use anyhow::{Result, anyhow};

pub(crate) fn read(file: &[u8], encoding: Encoding) -> Result<Vec<Function>> {
    let mut functions = vec![];
    let mut block = Function::default();
    for line in encoding.decode(file).split_terminator('\n') {
        let (key, value) = line
            .split_once('=')
            .ok_or_else(|| anyhow!("bad line: {line}"))?;
        match key {
            "desc" => block.fn_desc = value.into(),
            "text" => block.data[OutputSection::Text] = section(value, encoding)?,
            "data" => block.data[OutputSection::Data] = section(value, encoding)?,
            "rodata" => block.data[OutputSection::Rodata] = section(value, encoding)?,
            "bss" => block.data[OutputSection::Bss] = section(value, encoding)?,
            "glabel" => block.text_glabels.push(value.into()),
            "dummy" => {
                let word = u32::from_str_radix(value, 16)?;
                block.late_rodata_dummy_bytes.push(word.to_be_bytes());
            }
            "jtbl" => block.jtbl_rodata_size = value.parse()?,
            "asm" => block.asm_conts.push(value.into()),
            "late" => block.late_rodata_asm_conts.push(value.into()),
            "end" => functions.push(std::mem::take(&mut block)),
            _ => return Err(anyhow!("bad line: {line}")),
        }
    }
    Ok(functions)
}

/// `LABEL SIZE ALIGN8`, or nothing.
fn section(value: &str, encoding: Encoding) -> Result<(Option<String>, SectionSizing)> {
    if value.is_empty() {
        return Ok(Default::default());
    }
    let [label, size, align8] = value.split(' ').collect::<Vec<_>>()[..] else {
        return Err(anyhow!("bad section value: {value}"));
    };
    // postprocess.rs looks the label up by the bytes of its `String`, which are not the bytes
    // of the file where Latin-1 carries them.
    if matches!(encoding, Encoding::Latin1) && !label.is_ascii() {
        return Err(anyhow!("a label over ASCII in files that are not UTF-8"));
    }
    let sizing = SectionSizing {
        size: size.parse()?,
        align8: align8.parse()?,
    };
    Ok((Some(label.into()), sizing))
}

#[cfg(test)]
mod tests {
    use super::read;
    use crate::{Encoding, OutputSection};

    #[test]
    fn a_block_is_read() {
        let file = b"desc=f\ntext=t 8 4\ndata=\nrodata=r 4 0\nbss=\nglabel=g\ndummy=e0123456\n\
                     jtbl=12\nasm=a=\r\nasm=\nlate=.word 1\nend=\ndesc=\ntext=\nend=\n";
        let Ok(functions) = read(file, Encoding::Utf8) else {
            panic!("not read")
        };
        let [f, rest] = &functions[..] else {
            panic!("two blocks")
        };
        assert_eq!(f.fn_desc, "f");
        let (label, sizing) = &f.data[OutputSection::Text];
        assert_eq!(
            (label.as_deref(), sizing.size, sizing.align8),
            (Some("t"), 8, 4)
        );
        assert_eq!(f.data[OutputSection::Data].0, None);
        assert_eq!(f.data[OutputSection::Rodata].0.as_deref(), Some("r"));
        assert_eq!(f.text_glabels, ["g"]);
        assert_eq!(f.late_rodata_dummy_bytes, [[0xe0, 0x12, 0x34, 0x56]]);
        assert_eq!(f.jtbl_rodata_size, 12);
        assert_eq!(f.asm_conts, ["a=\r", ""]);
        assert_eq!(f.late_rodata_asm_conts, [".word 1"]);
        assert!(rest.asm_conts.is_empty() && rest.text_glabels.is_empty());
    }

    #[test]
    fn what_cannot_be_read_is_an_error() {
        assert!(read(b"no key\n", Encoding::Utf8).is_err());
        assert!(read(b"text=t 8\n", Encoding::Utf8).is_err());
        assert!(read(b"text=\xe9 8 0\n", Encoding::Latin1).is_err());
    }
}
