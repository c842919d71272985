//! Answers as types: an accepted length, or a row of document 01's table of refusals.

use crate::call::Outcome;
use std::{error, fmt};

/// An enum of document 01's codes. Its values, the list of them and the way back from a code come
/// from one list, so that no value can be forgotten in one of them.
macro_rules! codes {
    ($(#[$about:meta])* $name:ident { $($(#[$note:meta])* $value:ident = $code:literal,)* }) => {
        $(#[$about])*
        #[derive(Clone, Copy, Debug, PartialEq, Eq, Hash)]
        pub enum $name {
            $($(#[$note])* $value = $code,)*
        }

        impl $name {
            /// All of them, in the order of their codes.
            pub const ALL: &[$name] = &[$($name::$value,)*];

            /// Document 01's code.
            pub const fn code(self) -> u32 {
                self as u32
            }

            /// The value of a code, if document 01 has it.
            pub const fn of(code: u32) -> Option<$name> {
                match code {
                    $($code => Some($name::$value),)*
                    _ => None,
                }
            }
        }
    };
}

codes! {
    /// The rows of document 01's table. The draft gives 1 to 9 and 21, the merge all. More may come.
    #[non_exhaustive]
    Number {
        /// An input is over its limit, a setting is unknown, a working buffer is too short.
        Limits = 1,
        /// The file header.
        FileHeader = 2,
        /// The section count, or a section header.
        SectionHeader = 3,
        /// The table of section names, or a name of it.
        SectionName = 4,
        /// The symbol table, or a symbol.
        SymbolTable = 5,
        /// A relocation table.
        RelocationTable = 6,
        /// A line of the block file.
        BlockFile = 7,
        /// A block's size is 0, or its place is below the end of the one before.
        BlockPlace = 8,
        /// A block's align8 does not fit its place.
        BlockAlignment = 9,
        /// A relocation table that cannot be carried, or a reference to a dropped section.
        Clash = 10,
        /// A section is missing or too short, or a .text place or size is no multiple of 4.
        MissingSection = 11,
        /// A block's labels are not at its place in A.
        BlockLabels = 12,
        /// The late labels, or the length between them.
        LateLabels = 13,
        /// A late word or a jump table finds no place.
        LateStep = 14,
        /// A symbol of A has no section in the result.
        SymbolSection = 15,
        /// A symbol of .late_rodata is at no late word.
        LateSymbol = 16,
        /// The debug section.
        Statics = 17,
        /// A symbol is local and undefined, or neither named nor local.
        LooseSymbol = 18,
        /// A name is defined at two places.
        NameTwice = 19,
        /// A relocation leads nowhere.
        LostEntry = 20,
        /// The output is too short.
        OutputRoom = 21,
    }
}

codes! {
    /// The object that a refusal is about.
    Object {
        /// None of them.
        None = 0,
        /// C, the compiled object.
        Compiled = 1,
        /// A, the assembled object.
        Assembled = 2,
    }
}

codes! {
    /// What a merge makes of the statics that a debug section names: asm-processor's modes.
    ConvertStatics {
        /// Nothing: the debug section is not read.
        No = 0,
        /// Local symbols.
        Local = 1,
        /// Global symbols.
        Global = 2,
        /// Global, with the path and a colon before each name.
        GlobalWithFilename = 3,
    }
}

/// A file of a job.
#[derive(Clone, Copy, Debug, PartialEq, Eq, Hash)]
#[non_exhaustive]
pub enum JobFile {
    /// C, the compiled object.
    Compiled,
    /// A, the assembled object.
    Assembled,
    /// The prelude of a draft.
    Prelude,
    /// The block file.
    Blocks,
    /// Where the result goes.
    Output,
}

impl JobFile {
    /// What words call it.
    pub const fn title(self) -> &'static str {
        match self {
            JobFile::Compiled => "the compiled object",
            JobFile::Assembled => "the assembled object",
            JobFile::Prelude => "the prelude",
            JobFile::Blocks => "the block file",
            JobFile::Output => "the output",
        }
    }
}

/// A refused call. It is shown as `refused NUMBER OBJECT PLACE: words`, on one line. What the files
/// are called is known to the caller alone, who may put the name of `file` and the `line` in front.
#[derive(Clone, Debug, PartialEq, Eq, Hash)]
#[non_exhaustive]
pub struct Refusal {
    /// The row of document 01's table.
    pub number: Number,
    /// The object that the row gives.
    pub object: Object,
    /// The place that the row gives.
    pub place: u64,
    /// The file that it is about.
    pub file: JobFile,
    /// The line of that file, from 1: for `Number::BlockFile`, `Number::BlockPlace` and
    /// `Number::BlockAlignment`.
    pub line: Option<usize>,
    /// What is at fault, as a person would name it.
    pub words: String,
}

impl error::Error for Refusal {}

impl fmt::Display for Refusal {
    fn fmt(&self, f: &mut fmt::Formatter) -> fmt::Result {
        let (number, object) = (self.number.code(), self.object.code());
        write!(
            f,
            "refused {number} {object} {}: {}",
            self.place, self.words
        )
    }
}

/// The linked library gave an answer that is none of document 01's, so it is not the proved one.
/// This is an error of its own, not a `Number` for "unknown": a refusal always has a true meaning.
#[derive(Clone, Copy, Debug, PartialEq, Eq, Hash)]
pub struct Broken(pub Outcome);

impl error::Error for Broken {}

impl fmt::Display for Broken {
    fn fmt(&self, f: &mut fmt::Formatter) -> fmt::Result {
        let Outcome {
            length,
            number,
            object,
            place,
        } = self.0;
        write!(
            f,
            "the linked library is not the proved one: it answered length {length}, number \
             {number}, object {object}, place {place}"
        )
    }
}

/// Why there is no result. It is shown as what it holds.
#[derive(Clone, Debug, PartialEq, Eq, Hash)]
#[non_exhaustive]
pub enum Error {
    /// The call was refused.
    Refused(Refusal),
    /// The linked library is not the proved one.
    Broken(Broken),
}

impl fmt::Display for Error {
    fn fmt(&self, f: &mut fmt::Formatter) -> fmt::Result {
        match self {
            Error::Refused(refusal) => refusal.fmt(f),
            Error::Broken(broken) => broken.fmt(f),
        }
    }
}

impl error::Error for Error {}

impl From<Broken> for Error {
    fn from(broken: Broken) -> Error {
        Error::Broken(broken)
    }
}

impl From<Refusal> for Error {
    fn from(refusal: Refusal) -> Error {
        Error::Refused(refusal)
    }
}

/// An outcome that document 01 has.
#[derive(Clone, Copy, Debug, PartialEq, Eq, Hash)]
pub enum Answer {
    /// There is a result.
    Accepted {
        /// Its bytes are the first of the output.
        length: usize,
    },
    /// There is none: number, object and place.
    Refused(Number, Object, u64),
}

impl Outcome {
    /// What the outcome says, where the output had `room` bytes.
    pub fn answer(self, room: usize) -> Result<Answer, Broken> {
        self.accepted(room)
            .or_else(|| self.refused(room))
            .ok_or(Broken(self))
    }

    fn accepted(self, room: usize) -> Option<Answer> {
        let length = usize::try_from(self.length).ok()?;
        let clear = (self.number, self.object, self.place) == (0, 0, 0);
        (clear && length <= room).then_some(Answer::Accepted { length })
    }

    fn refused(self, room: usize) -> Option<Answer> {
        let number = Number::of(self.number)?;
        let object = Object::of(self.object)?;
        // 21 is given only where more is needed than there is.
        let needless = number == Number::OutputRoom && self.place <= room as u64;
        (self.length == 0 && !needless).then_some(Answer::Refused(number, object, self.place))
    }
}

#[cfg(test)]
mod tests {
    use super::{Answer, Broken, Number, Object};
    use crate::call::Outcome;

    fn outcome(length: u64, number: u32, object: u32, place: u64) -> Outcome {
        Outcome {
            length,
            number,
            object,
            place,
        }
    }

    #[test]
    fn the_numbers_are_those_of_the_table() {
        let known = (0..1000).filter(|&code| Number::of(code).is_some());
        assert!(known.eq(1..=21));
        for &number in Number::ALL {
            assert_eq!(Number::of(number.code()), Some(number));
        }
    }

    #[test]
    fn every_row_is_read() {
        for &number in Number::ALL {
            for &object in Object::ALL {
                let refused = outcome(0, number.code(), object.code(), 7);
                assert_eq!(
                    refused.answer(6),
                    Ok(Answer::Refused(number, object, 7)),
                    "{number:?} {object:?}"
                );
            }
        }
        let accepted = outcome(6, 0, 0, 0);
        assert_eq!(accepted.answer(6), Ok(Answer::Accepted { length: 6 }));
    }

    #[test]
    fn other_answers_are_no_refusals() {
        for broken in [
            outcome(7, 0, 0, 0),
            outcome(0, 0, 1, 0),
            outcome(0, 0, 0, 1),
            outcome(1, 2, 1, 0),
            outcome(0, 2, 3, 0),
            outcome(0, 22, 1, 0),
            outcome(0, 21, 0, 6),
            outcome(0, u32::MAX, 0, 0),
        ] {
            assert_eq!(broken.answer(6), Err(Broken(broken)));
        }
    }
}
