//! Refusal 2: a field of the file header.

use crate::elf::{self, HEADER_SIZE, ObjectFile};

/// A field that document 01 tests, at its offset.
struct Field {
    at: usize,
    name: &'static str,
    read: fn(&[u8], usize) -> Option<u32>,
    needs: Needs,
}

enum Needs {
    /// A value, and what it stands for.
    Value(u32, &'static str),
    NotZero,
}

use Needs::{NotZero, Value};

const fn field(
    at: usize,
    name: &'static str,
    read: fn(&[u8], usize) -> Option<u32>,
    needs: Needs,
) -> Field {
    Field {
        at,
        name,
        read,
        needs,
    }
}

const FIELDS: [Field; 12] = [
    field(0, "EI_MAG0", elf::byte, Value(0x7f, " (7F hex)")),
    field(1, "EI_MAG1", elf::byte, Value(0x45, " (E)")),
    field(2, "EI_MAG2", elf::byte, Value(0x4c, " (L)")),
    field(3, "EI_MAG3", elf::byte, Value(0x46, " (F)")),
    field(4, "EI_CLASS", elf::byte, Value(1, " (ELFCLASS32)")),
    field(5, "EI_DATA", elf::byte, Value(2, " (big-endian)")),
    field(16, "e_type", elf::half, Value(1, " (ET_REL)")),
    field(18, "e_machine", elf::half, Value(8, " (EM_MIPS)")),
    field(28, "e_phoff", elf::word, Value(0, "")),
    field(32, "e_shoff", elf::word, NotZero),
    field(46, "e_shentsize", elf::half, Value(40, "")),
    field(50, "e_shstrndx", elf::half, NotZero),
];

pub(super) fn words(object: ObjectFile, place: usize) -> Option<String> {
    let ObjectFile { title, bytes } = object;
    if bytes.len() < HEADER_SIZE {
        let length = bytes.len();
        return (length == place).then(|| {
            format!("{title} has {length} bytes, and its file header alone takes {HEADER_SIZE}")
        });
    }
    let field = FIELDS.iter().find(|field| field.at == place)?;
    let (name, value) = (field.name, (field.read)(bytes, place)?);
    match field.needs {
        Value(needed, _) if value == needed => None,
        Value(needed, meaning) => Some(format!(
            "{name} of {title} is {value}, it must be {needed}{meaning}"
        )),
        NotZero => (value == 0).then(|| format!("{name} of {title} is 0, it must not be")),
    }
}
