//! Safe Rust over Daphulle's proved object splicer. The draft turns a compiled object, a prelude
//! and a block file into assembly text; the merge turns a compiled object, what the assembler made
//! of that text, and the block file into one object. Either is refused with a row of document 01's
//! table.
//!
//! `draft` and `merge` lend all buffers. `call::draft_into` and `call::merge_into` are the exported
//! calls themselves, on buffers of the caller's.

#![deny(missing_docs, unsafe_code)]
// The words and the notes read arbitrary bytes: nothing there may panic.
#![cfg_attr(
    not(test),
    deny(
        clippy::expect_used,
        clippy::indexing_slicing,
        clippy::panic,
        clippy::unwrap_used
    )
)]

mod blocks;
pub mod call;
mod codes;
pub mod describe;
mod elf;
mod notes;
mod refusal;
mod room;
mod words;

use call::{MergeBuffers, MergeInputs, Outcome};
pub use notes::{Note, NoteKind, notes};
pub use refusal::{Answer, Broken, ConvertStatics, Error, JobFile, Number, Object, Refusal};
pub use room::{draft_room, merge_room};
pub use words::{Inputs, path_fault, words};

// The example in the README is compiled with the tests.
#[cfg(doctest)]
#[doc = include_str!("../README.md")]
struct Readme;

// Enums that may grow ask a caller for more than the values of today: the first of each two is
// compiled with the tests, the second must not be.
/// ```
/// fn seen(error: daphulle::Error) -> u32 {
///     match error {
///         daphulle::Error::Refused(_) => 1,
///         daphulle::Error::Broken(_) => 2,
///         _ => 3,
///     }
/// }
/// ```
/// ```compile_fail
/// fn seen(error: daphulle::Error) -> u32 {
///     match error {
///         daphulle::Error::Refused(_) => 1,
///         daphulle::Error::Broken(_) => 2,
///     }
/// }
/// ```
/// ```
/// use daphulle::Number::*;
/// fn seen(number: daphulle::Number) -> u32 {
///     match number {
///         Limits | FileHeader | SectionHeader | SectionName | SymbolTable | RelocationTable => 1,
///         BlockFile | BlockPlace | BlockAlignment | Clash | MissingSection | BlockLabels => 2,
///         LateLabels | LateStep | SymbolSection | LateSymbol | Statics | LooseSymbol => 3,
///         NameTwice | LostEntry | OutputRoom => 4,
///         _ => 5,
///     }
/// }
/// ```
/// ```compile_fail
/// use daphulle::Number::*;
/// fn seen(number: daphulle::Number) -> u32 {
///     match number {
///         Limits | FileHeader | SectionHeader | SectionName | SymbolTable | RelocationTable => 1,
///         BlockFile | BlockPlace | BlockAlignment | Clash | MissingSection | BlockLabels => 2,
///         LateLabels | LateStep | SymbolSection | LateSymbol | Statics | LooseSymbol => 3,
///         NameTwice | LostEntry | OutputRoom => 4,
///     }
/// }
/// ```
#[cfg(doctest)]
struct Growing;

/// The prelude that the command uses where none is given: what GNU `as` needs for a draft.
pub const PRELUDE: &[u8] = include_bytes!("prelude.s");

/// The longest draft that `draft` makes, in bytes. Where every place of the block file is below
/// `FILE_LIMIT`, a draft has less than 5 MiB; only a label with a larger value asks for more.
pub const DRAFT_LIMIT: usize = 16_777_216;

/// The longest object that `merge` makes, in bytes. Only one whose sections share bytes of their
/// file can ask for more: both objects, a symbol table and the names of statics have less than
/// 8 MiB, and the padding between sections has as much at most.
pub const MERGE_LIMIT: usize = 16_777_216;

/// What a draft is made of.
#[derive(Clone, Copy, Debug, PartialEq, Eq, Hash)]
pub struct Draft<'a> {
    /// C, the compiled object.
    pub compiled: &'a [u8],
    /// What the draft begins with.
    pub prelude: &'a [u8],
    /// The block file.
    pub blocks: &'a [u8],
}

/// What a merge is made of.
#[derive(Clone, Copy, Debug, PartialEq, Eq, Hash)]
pub struct Merge<'a> {
    /// C, the compiled object.
    pub compiled: &'a [u8],
    /// A, what the assembler made of the draft.
    pub assembled: &'a [u8],
    /// The block file.
    pub blocks: &'a [u8],
    /// Stands before the names of statics in `ConvertStatics::GlobalWithFilename`.
    pub path: &'a [u8],
    /// Drops trailing debug and gptab sections of the compiled object.
    pub drop_mdebug_gptab: bool,
    /// What becomes of C's statics.
    pub convert_statics: ConvertStatics,
}

/// What a call is asked for.
#[derive(Clone, Copy, Debug, PartialEq, Eq, Hash)]
pub enum Asked<'a> {
    /// A draft.
    Draft(Draft<'a>),
    /// A merge.
    Merge(Merge<'a>),
}

/// The draft of a compiled object, a prelude and a block file. One that would be longer than
/// `DRAFT_LIMIT` is refused with 21.
pub fn draft(compiled: &[u8], prelude: &[u8], blocks: &[u8]) -> Result<Vec<u8>, Error> {
    draft_within(DRAFT_LIMIT, compiled, prelude, blocks)
}

/// As `draft`, with another limit. A draft can need over 4 GiB, and all of it is held in memory.
pub fn draft_within(
    limit: usize,
    compiled: &[u8],
    prelude: &[u8],
    blocks: &[u8],
) -> Result<Vec<u8>, Error> {
    let mut table = vec![0; call::OPEN_TABLE];
    let mut places = vec![0; call::PLACE_TABLE];
    let asked = Asked::Draft(Draft {
        compiled,
        prelude,
        blocks,
    });
    result(limit, asked, |out| {
        call::draft_into(compiled, prelude, blocks, out, &mut table, &mut places)
    })
}

/// The compiled object with the blocks of the assembled one. One that would be longer than
/// `MERGE_LIMIT` is refused with 21.
pub fn merge(merge: &Merge) -> Result<Vec<u8>, Error> {
    merge_within(MERGE_LIMIT, merge)
}

/// As `merge`, with another limit.
pub fn merge_within(limit: usize, merge: &Merge) -> Result<Vec<u8>, Error> {
    let mut table = vec![0; call::BLOCK_BUFFER];
    let mut places = vec![0; call::PLACE_BUFFER];
    let mut steps = vec![0; call::STEP_BUFFER];
    let mut index = vec![0; call::INDEX_BUFFER];
    let inputs = MergeInputs {
        compiled: merge.compiled,
        assembled: merge.assembled,
        blocks: merge.blocks,
        path: merge.path,
        flag: merge.drop_mdebug_gptab.into(),
        mode: merge.convert_statics.code(),
    };
    result(limit, Asked::Merge(*merge), |out| {
        let buffers = MergeBuffers {
            out,
            table: &mut table,
            places: &mut places,
            steps: &mut steps,
            index: &mut index,
        };
        call::merge_into(&inputs, buffers)
    })
}

/// The result of a call in an output of its length. It is called with room for it, and once more
/// where 21 says that this was not enough.
fn result(
    limit: usize,
    asked: Asked,
    mut call: impl FnMut(&mut [u8]) -> Outcome,
) -> Result<Vec<u8>, Error> {
    let room = match asked {
        Asked::Draft(draft) => draft_room(draft.compiled, draft.prelude, draft.blocks),
        Asked::Merge(merge) => merge_room(&merge),
    };
    let mut out = vec![0; room.min(limit)];
    let mut answer = call(&mut out).answer(out.len())?;
    if let Answer::Refused(Number::OutputRoom, _, needed) = answer
        && let Ok(needed) = usize::try_from(needed)
        && needed <= limit
    {
        out = vec![0; needed];
        answer = call(&mut out).answer(needed)?;
    }
    match answer {
        Answer::Accepted { length } => {
            out.truncate(length);
            Ok(out)
        }
        Answer::Refused(number, object, place) => {
            let inputs = Inputs { asked, room: limit };
            Err(Refusal::of(&inputs, number, object, place).into())
        }
    }
}

#[cfg(test)]
mod tests {
    use super::{
        Asked, ConvertStatics, Draft, Merge, call::Outcome, draft_room, merge_room, result,
    };

    const DRAFT: Draft = Draft {
        compiled: b"",
        prelude: b"",
        blocks: b"",
    };
    const MERGE: Merge = Merge {
        compiled: b"",
        assembled: b"",
        blocks: b"",
        path: b"",
        drop_mdebug_gptab: false,
        convert_statics: ConvertStatics::No,
    };

    /// The length of a result, where a call needs so many bytes, and how often it was made.
    fn made(limit: usize, asked: Asked, needed: usize) -> (Option<usize>, usize) {
        let mut calls = 0;
        let made = result(limit, asked, |out| {
            calls += 1;
            let (length, number, place) = match out.len() >= needed {
                true => (needed as u64, 0, 0),
                false => (0, 21, needed as u64),
            };
            Outcome {
                length,
                number,
                object: 0,
                place,
            }
        });
        (made.ok().map(|out| out.len()), calls)
    }

    #[test]
    fn a_call_that_has_room_is_made_once() {
        let draft = (Asked::Draft(DRAFT), draft_room(b"", b"", b""));
        let merge = (Asked::Merge(MERGE), merge_room(&MERGE));
        for (asked, room) in [draft, merge] {
            assert_eq!(made(1000, asked, room), (Some(room), 1));
            assert_eq!(made(1000, asked, 0), (Some(0), 1));
            assert_eq!(made(room - 1, asked, room), (None, 1));
            // room that is too short is no refusal
            assert_eq!(made(1000, asked, room + 1), (Some(room + 1), 2));
        }
    }
}
