//! Document 01's section codes.

/// The sections that a merge knows by name. Their codes are 1 to 6 in this order.
#[derive(Clone, Copy, Debug, PartialEq, Eq, Hash)]
pub(crate) enum Code {
    Text,
    Data,
    Rodata,
    Bss,
    LateRodata,
    Reginfo,
}

impl Code {
    pub const ALL: [Code; 6] = [
        Code::Text,
        Code::Data,
        Code::Rodata,
        Code::Bss,
        Code::LateRodata,
        Code::Reginfo,
    ];

    /// The sections that blocks have lines for.
    pub const LINES: [Code; 4] = [Code::Text, Code::Data, Code::Rodata, Code::Bss];

    /// The sections that A's symbols and relocations come from.
    pub const SOURCES: [Code; 5] = [
        Code::Text,
        Code::Data,
        Code::Rodata,
        Code::Bss,
        Code::LateRodata,
    ];

    /// The code of a refusal's place.
    pub fn of(place: usize) -> Option<Code> {
        Code::ALL.get(place.checked_sub(1)?).copied()
    }

    pub fn name(self) -> &'static str {
        match self {
            Code::Text => ".text",
            Code::Data => ".data",
            Code::Rodata => ".rodata",
            Code::Bss => ".bss",
            Code::LateRodata => ".late_rodata",
            Code::Reginfo => ".reginfo",
        }
    }

    /// C's section that a section of A goes to.
    pub fn target(self) -> Code {
        match self {
            Code::LateRodata => Code::Rodata,
            other => other,
        }
    }
}
