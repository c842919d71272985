//! Refusals 8 and 9: the places of blocks. The words come from a second walk over the blocks,
//! which is not proved; `words` uses them only where the walk stops at the number and the block
//! that the library gave.

use super::{in_brackets, quoted};
use crate::blocks::{Block, Span, blocks};
use crate::elf::ObjectFile;
use crate::refusal::Number;
use std::collections::HashMap;

pub(super) struct Fault {
    pub number: Number,
    pub block: usize,
    /// The line of the block file.
    pub line: usize,
    pub words: String,
}

/// A line of a block that is taken: its label is in C, and so are those before it.
#[derive(Clone, Copy)]
pub(super) struct Taken<'a> {
    pub block: usize,
    pub span: Span<'a>,
    pub place: u32,
}

impl Taken<'_> {
    pub fn end(&self) -> usize {
        self.place as usize + self.span.size as usize
    }
}

/// The lines that are taken, in order, and the blocks that no absent label switches off.
pub(super) struct Places<'a> {
    pub taken: Vec<Taken<'a>>,
    pub live: Vec<usize>,
}

/// The first line at fault, in the order of document 01: blocks, their sections, 8 before 9.
pub(super) fn first_fault(object: ObjectFile, file: &[u8]) -> Option<Fault> {
    places(object, &blocks(file))?.err()
}

/// Where the blocks lie in C, or the first line at fault.
pub(super) fn places<'a>(
    object: ObjectFile,
    blocks: &[Block<'a>],
) -> Option<Result<Places<'a>, Fault>> {
    // a place is the value of the first symbol of its label, in any section
    let spans = blocks.iter().flat_map(|block| &block.spans);
    let symbols = object.symbols()?.first_of(spans.map(|span| span.label))?;
    // for each section the end of the block before
    let mut ends = HashMap::new();
    let mut places = Places {
        taken: vec![],
        live: vec![],
    };
    for (index, block) in blocks.iter().enumerate() {
        let mut is_live = true;
        for span in &block.spans {
            let value = symbols.get(span.label).map(|symbol| symbol.st_value);
            let end = ends.get(&span.code).copied().unwrap_or(0);
            if let Some((number, fault)) = span_fault(span, value, end) {
                return Some(Err(Fault {
                    number,
                    block: index,
                    line: span.line,
                    words: format!("{}: {fault}", span_title(index, block.desc, span)),
                }));
            }
            // an absent label switches off the rest of its block
            let Some(place) = value else {
                is_live = false;
                break;
            };
            ends.insert(span.code, u64::from(place) + u64::from(span.size));
            places.taken.push(Taken {
                block: index,
                span: *span,
                place,
            });
        }
        if is_live {
            places.live.push(index);
        }
    }
    Some(Ok(places))
}

/// `block 3 (DESC)`.
pub(super) fn block_title(index: usize, desc: &[u8]) -> String {
    format!("block {index}{}", in_brackets(Some(desc)))
}

/// `block 3 (DESC), KEY=LABEL`.
pub(super) fn span_title(index: usize, desc: &[u8], span: &Span) -> String {
    let label = quoted(&[span.key.as_bytes(), span.label].concat());
    format!("{}, {label}", block_title(index, desc))
}

fn span_fault(span: &Span, value: Option<u32>, end: u64) -> Option<(Number, String)> {
    if span.size == 0 {
        return Some((Number::BlockPlace, "its size is 0".into()));
    }
    let place = value?;
    if u64::from(place) < end {
        let section = span.code.name();
        return Some((
            Number::BlockPlace,
            format!("it is at {place}, below {end}, the end of the block before in {section}"),
        ));
    }
    let (align8, fits) = (span.align8, 8 - place % 8);
    (align8 != 0 && align8 != fits).then(|| {
        (
            Number::BlockAlignment,
            format!("align8 is {align8}, at {place} it must be 0 or {fits}"),
        )
    })
}
