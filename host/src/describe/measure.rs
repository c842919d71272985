//! Sizes and alignments of routines, as the assembler says them. All routines are assembled at
//! once, as in the draft, so that what one defines the next one sees. This is done four times, each
//! time with another place of every routine's parts: a part that asks for an alignment has another
//! size where it does not stand at it.

use super::{Block, Fault, Named, Span, Tools, fragment::Line, output, source::Routine};
use crate::blocks::NUMBER_LIMIT;
use crate::codes::Code;
use crate::elf::{ObjectFile, Symbols};
use std::{collections::HashMap, ffi::OsStr, path::Path};

/// The parts of a routine start at a multiple of `BASE`, and so many bytes.
const BASE: u32 = 32;
const SHIFTS: [u32; 4] = [0, 4, 8, 16];

/// The least alignment of a placeholder. `.word` asks for it.
const LEAST_ALIGN: u32 = 4;
const MOST_ALIGN: u32 = 16;
/// What late words start at a multiple of.
const LATE_ALIGN: u32 = 8;

/// asm-processor's first word for late placeholders.
const FIRST_DUMMY: u32 = 0xe012_3456;

/// SHF_ALLOC: the section is a part of the program.
const SHF_ALLOC: u32 = 2;
/// The sections that an assembled object may have bytes in, those of the codes apart.
const OTHER_SECTIONS: [&[u8]; 2] = [b".MIPS.abiflags", b".MIPS.options"];

/// The blocks of routines.
pub(super) fn blocks(
    source: &Path,
    routines: &[Routine],
    prelude: Named,
    tools: &mut impl Tools,
) -> Result<Vec<Block>, Fault> {
    if routines.is_empty() {
        return Ok(vec![]);
    }
    let fault = |file: &Path, words| Fault {
        file: file.into(),
        line: None,
        words,
    };
    let mut ends = vec![];
    for shift in SHIFTS {
        let text = text(routines, prelude, shift);
        // the assembler names the files itself
        let object = tools
            .assemble(&text)
            .map_err(|words| fault(Path::new(""), words))?;
        ends.push(read(&object, routines).map_err(|words| fault(source, words))?);
    }
    let mut dummy = FIRST_DUMMY;
    let numbered = routines.iter().enumerate();
    let blocks = numbered.map(|(index, routine)| {
        let ends_of = |code| {
            let end = |found: &HashMap<_, u32>| found.get(&(index, code)).copied().unwrap_or(0);
            ends.iter().map(end).collect::<Vec<_>>()
        };
        block(index, routine, ends_of, &mut dummy)
    });
    blocks.collect()
}

/// The text that is assembled: the draft's lines, each part of a routine at its own base.
fn text(routines: &[Routine], prelude: Named, shift: u32) -> Vec<u8> {
    let mut text = marker(prelude.name.as_os_str(), 1);
    text.extend(prelude.bytes);
    text.push(b'\n');
    let shift = match shift {
        0 => String::new(),
        shift => format!(".space {shift}\n"),
    };
    let start =
        |label: &str| format!(".balign {BASE}\n{shift}glabel {label}_asm_start\n").into_bytes();
    let end = |label: &str| format!("glabel {label}_asm_end\n").into_bytes();
    let section = |code: Code| format!(".section {}\n", code.name()).into_bytes();
    for (index, routine) in routines.iter().enumerate() {
        for code in Code::LINES {
            text.extend(section(code));
            text.extend(start(&output::label(code, index)));
        }
        text.extend(b".text\n");
        add_lines(&mut text, routine, &routine.fragment.lines);
        for code in Code::LINES {
            text.extend(section(code));
            text.extend(end(&output::label(code, index)));
        }
    }
    text.extend(section(Code::LateRodata));
    for (index, routine) in routines.iter().enumerate() {
        let label = output::label(Code::LateRodata, index);
        text.extend(start(&label));
        add_lines(&mut text, routine, &routine.fragment.late);
        text.extend(end(&label));
    }
    text
}

/// Lines with their places, which the assembler's messages then name.
fn add_lines(text: &mut Vec<u8>, routine: &Routine, lines: &[Line]) {
    let mut next = 0;
    for line in lines {
        if line.number != next {
            text.extend(marker(routine.fragment.file.as_os_str(), line.number));
        }
        next = line.number + 1;
        text.extend(&line.text);
        text.push(b'\n');
    }
}

/// Says where the next line stands.
fn marker(file: &OsStr, line: usize) -> Vec<u8> {
    format!("# {line} \"{}\"\n", output::in_quotes(file)).into_bytes()
}

/// Where each part of each routine ends, counted from its base.
fn read(object: &[u8], routines: &[Routine]) -> Result<HashMap<(usize, Code), u32>, String> {
    const UNREADABLE: &str = "the assembler's object cannot be read: it must be ELF, 32-bit and \
                              big-endian (GNU as: -EB)";
    let file = ObjectFile {
        title: "the assembled object",
        bytes: object,
    };
    let symbols = file.symbols().ok_or(UNREADABLE)?;
    let values = values(&symbols);
    let mut ends = HashMap::new();
    for index in 0..routines.len() {
        for code in Code::SOURCES {
            let label = output::label(code, index);
            let value = |end: &str| values.get(format!("{label}{end}").as_bytes()).copied();
            let (start, end) = value("_asm_start")
                .zip(value("_asm_end"))
                .ok_or(UNREADABLE)?;
            // An alignment at the start of a part moves the label too. One that moves it to the
            // next base is over the most that is taken.
            let base = start - start % BASE;
            ends.insert((index, code), end.saturating_sub(base));
        }
    }
    for (index, section) in file.sections() {
        let name = file.section_name(index).unwrap_or_default();
        let of_name = |code: &Code| code.name().as_bytes() == name;
        let code = Code::ALL.into_iter().find(of_name);
        if section.sh_flags & SHF_ALLOC == 0
            || section.sh_size == 0
            || code.is_some()
            || OTHER_SECTIONS.contains(&name)
        {
            continue;
        }
        return Err(format!(
            "the routines have bytes in section {}, which is none of .text, .data, .rodata, .bss \
             and .late_rodata",
            String::from_utf8_lossy(name)
        ));
    }
    Ok(ends)
}

/// The value of each name.
fn values<'a>(symbols: &Symbols<'a>) -> HashMap<&'a [u8], u32> {
    let named = symbols.iter();
    named
        .filter_map(|symbol| Some((symbol.name?, symbol.st_value)))
        .collect()
}

/// The block of a routine from the ends of each of its parts, one for each shift.
fn block(
    index: usize,
    routine: &Routine,
    ends_of: impl Fn(Code) -> Vec<u32>,
    dummy: &mut u32,
) -> Result<Block, Fault> {
    let fault = |words: String| Fault {
        file: routine.fragment.file.clone(),
        line: None,
        words,
    };
    let part = |code: Code, most: u32| {
        let ends = ends_of(code).into_iter().zip(SHIFTS);
        let sizes: Vec<_> = ends
            .map(|(end, shift)| (end.saturating_sub(shift), shift))
            .collect();
        let size = sizes.first().map_or(0, |(size, _)| *size);
        // A part that asks for an alignment is not at it where it is shifted by the half of it.
        let missed = sizes.iter().filter(|(other, _)| *other != size);
        let align = missed.map(|(_, shift)| 2 * shift).max();
        let align = align.unwrap_or(LEAST_ALIGN);
        if align > most {
            let name = code.name();
            return Err(fault(format!("{name} asks for an alignment over {most}")));
        }
        if size > NUMBER_LIMIT {
            let name = code.name();
            return Err(fault(format!("{name} has more than {NUMBER_LIMIT} bytes")));
        }
        Ok((size, align))
    };
    let mut spans = vec![];
    for code in Code::LINES {
        let (size, align) = part(code, MOST_ALIGN)?;
        match (size, align) {
            (0, LEAST_ALIGN) => continue,
            (0, _) => {
                let name = code.name();
                return Err(fault(format!(
                    "{name} asks for an alignment, and has no bytes"
                )));
            }
            _ => {}
        }
        if code == Code::Text && size % 4 != 0 {
            return Err(fault(format!(
                ".text has {size} bytes, which are no whole words"
            )));
        }
        spans.push(Span {
            code,
            label: output::label(code, index),
            size,
            align8: if align > LEAST_ALIGN { 8 } else { 0 },
            align,
        });
    }
    if spans.is_empty() {
        return Err(fault(
            "nothing here assembles to bytes outside .late_rodata".into(),
        ));
    }
    let (late, _) = part(Code::LateRodata, LATE_ALIGN)?;
    let late_padding = late.next_multiple_of(LATE_ALIGN) - late;
    let mut dummies = vec![];
    if late > 0 {
        dummies.push(*dummy);
        *dummy += 1;
    }
    Ok(Block {
        desc: routine.desc.clone().into_bytes(),
        spans,
        dummies,
        jump_table: (late + late_padding).saturating_sub(4),
        fragment: routine.fragment.clone(),
        late_padding,
    })
}
