//! Objects whose names share one long string, and others that ask for long searches: 4,095 names of
//! 950 KB each are 4 GB to read one by one. Words and notes on them are there as soon as on other
//! objects of their length.

mod common;

use common::{block, in_time, line, made, words};
use daphulle::{
    Asked, ConvertStatics, DRAFT_LIMIT, Draft, Error, Inputs, Merge, Refusal, draft, merge, notes,
};

/// The lengths of the string: the call is asked for an answer with the short one, and words are
/// asked for with both. The call has its own time, which is not looked at here.
const SHORT: usize = 10_000;
const LONG: usize = 950_000;

const START: &[u8] = b"\0.text\0.symtab\0.strtab\0";
/// Behind these comes the long string.
const AT: u32 = START.len() as u32;

/// A symbol: where its name starts, its value, its st_info with st_other, and its section.
type Entry = (u32, u32, [u16; 2]);
const IN_TEXT: [u16; 2] = [0x1000, 1];

/// An object of .text, sections of no bytes with these names, .symtab and .strtab, which has the
/// names of sections too.
fn object(strings: &[u8], entries: &[Entry], more: &[u32]) -> Vec<u8> {
    let mut table = vec![0; 16];
    for (name, value, [info, section]) in entries {
        let last = u32::from(*info) << 16 | u32::from(*section);
        table.extend(words(&[*name, *value, 0, last]));
    }
    let strings = [START, strings].concat();
    let symtab = 2 + more.len() as u32;
    let mut sections = vec![(1, 1, &[0; 64][..], [0; 3])];
    sections.extend(more.iter().map(|&name| (name, 1, &[][..], [0; 3])));
    sections.push((7, 2, &table, [symtab + 1, 1, 16]));
    sections.push((15, 3, &strings, [0; 3]));
    let (mut body, mut headers) = (vec![], vec![0; 40]);
    for (name, kind, bytes, [link, info, entry]) in sections {
        let (at, size) = (52 + body.len() as u32, bytes.len() as u32);
        headers.extend(words(&[name, kind, 0, 0, at, size, link, info, 1, entry]));
        body.extend(bytes);
    }
    let mut file = b"\x7fELF\x01\x02\x01".to_vec();
    file.resize(16, 0);
    let at = 52 + body.len() as u32;
    file.extend(words(&[0x0001_0008, 1, 0, 0, at, 0, 52 << 16, 40]));
    file.extend(words(&[(symtab + 2) << 16 | (symtab + 1)]));
    [file, body, headers].concat()
}

/// `xx..x` with an end.
fn string(length: usize, end: &str) -> String {
    "x".repeat(length - end.len()) + end
}

fn with_zero(string: &str) -> Vec<u8> {
    [string.as_bytes(), &[0]].concat()
}

/// 4,094 symbols at .text 8: of one name; of a name each, one a byte shorter than the other.
fn all_entries() -> [Vec<Entry>; 2] {
    let one_name = vec![(AT, 8, IN_TEXT); 4094];
    let many_names = (0..4094).map(|at| (AT + at, 8, IN_TEXT));
    [one_name, many_names.collect()]
}

/// What words show of a long name behind some bytes of its line.
fn shown(before: usize) -> String {
    "x".repeat(48 - before) + "..."
}

/// A draft, or a merge where there is an assembled object.
struct Job {
    compiled: Vec<u8>,
    assembled: Option<Vec<u8>>,
    blocks: String,
}

impl Job {
    fn asked(&self) -> Asked<'_> {
        let (compiled, blocks) = (&self.compiled, self.blocks.as_bytes());
        match &self.assembled {
            None => Asked::Draft(Draft {
                compiled,
                prelude: b"",
                blocks,
            }),
            Some(assembled) => Asked::Merge(Merge {
                compiled,
                assembled,
                blocks,
                path: b"",
                drop_mdebug_gptab: false,
                convert_statics: ConvertStatics::No,
            }),
        }
    }

    /// Its refusal, by the call.
    fn refusal(&self) -> Refusal {
        let result = match self.asked() {
            Asked::Draft(draft) => daphulle::draft(draft.compiled, draft.prelude, draft.blocks),
            Asked::Merge(job) => merge(&job),
        };
        match result {
            Err(Error::Refused(refusal)) => refusal,
            other => panic!("{other:?}"),
        }
    }
}

/// The same line is told of a job with a short string and, in time, of one with a long string.
fn check(job: impl Fn(usize) -> Job, expected: &str) {
    let refusal = job(SHORT).refusal();
    assert_eq!(line(&Error::Refused(refusal.clone())), expected);
    let long = job(LONG);
    let inputs = Inputs {
        asked: long.asked(),
        room: DRAFT_LIMIT,
    };
    let again = in_time(|| Refusal::of(&inputs, refusal.number, refusal.object, refusal.place));
    assert_eq!(again, refusal);
}

#[test]
fn number_8() {
    for entries in all_entries() {
        // a label that is the longest name, and one that is as long but no name
        for end in ["a", "b"] {
            let job = |length| Job {
                compiled: object(&with_zero(&string(length, "a")), &entries, &[]),
                assembled: None,
                blocks: block("", &(string(length, end) + " 4 0"), "") + &block("", "t 0 0", ""),
            };
            check(
                job,
                "blocks:11: refused 8 1 1: block 1, `text=t`: its size is 0",
            );
        }
    }
}

/// As much as can be asked for: 63 labels of 15 KB, and 4,032 names that are as long as one of them,
/// 64 in each of 63 strings.
#[test]
fn number_8_with_many_lengths() {
    let job = |length: usize| {
        let length = length / 63;
        let (mut strings, mut entries, mut blocks) = (vec![], vec![], String::new());
        for number in 0..63_u32 {
            let name = string(length, &format!("{number:02}"));
            let cuts = 0..64;
            entries.extend(cuts.map(|cut| (AT + strings.len() as u32 + cut, 8, IN_TEXT)));
            strings.extend(with_zero(&name));
            blocks += &block("", "", &format!("{} 1 0", &name[number as usize..]));
        }
        Job {
            compiled: object(&strings, &entries, &[]),
            assembled: None,
            blocks,
        }
    };
    let shown = shown(5);
    let expected = format!(
        "blocks:12: refused 8 1 1: block 1, `data={shown}`: it is at 8, below 9, the end of the block \
         before in .data"
    );
    check(job, &expected);
}

#[test]
fn number_12() {
    for entries in all_entries() {
        let job = |length| {
            let label = string(length - 10, "");
            Job {
                compiled: object(&with_zero(&label), &[(AT, 8, IN_TEXT)], &[]),
                // as long as the name that is looked for, and the same but for its last byte
                assembled: Some(object(
                    &with_zero(&(label.clone() + "_asm_stary")),
                    &entries,
                    &[],
                )),
                blocks: block("", &(label + " 4 0"), "").replace("late=.word 1\n", ""),
            }
        };
        let (label, name) = (shown(5), shown(0));
        let expected = format!(
            "a.o: refused 12 2 0: block 0, `text={label}`: the assembled object has no symbol \
             `{name}`"
        );
        check(job, &expected);
    }
}

#[test]
fn number_18() {
    for mut entries in all_entries() {
        entries.push((AT, 0, [0, 0]));
        let job = |length| Job {
            compiled: object(&with_zero(&string(length, "a")), &entries, &[]),
            assembled: Some(object(b"", &[], &[])),
            blocks: String::new(),
        };
        let name = shown(0);
        let expected = format!(
            "c.o: refused 18 0 4094: symbol 4095 (`{name}`) of the compiled object is local and \
             undefined"
        );
        check(job, &expected);
    }
}

#[test]
fn number_19() {
    for entries in all_entries() {
        let job = |length| Job {
            compiled: object(&with_zero(&string(length, "a")), &entries, &[]),
            // as long, and the same but for its last byte
            assembled: Some(object(
                &with_zero(&string(length, "b")),
                &[(AT, 8, IN_TEXT), (AT, 12, IN_TEXT)],
                &[],
            )),
            blocks: String::new(),
        };
        let name = shown(0);
        let expected = format!(
            "a.o: refused 19 0 4095: one name at two places: symbol 1 (`{name}`) of the assembled \
             object is at 8, in section 1 (`.text`); symbol 2 (`{name}`) of the assembled object is \
             at 12, in section 1 (`.text`)"
        );
        check(job, &expected);
    }
}

/// 100,000 relocations at one place, and 4,000 lines of blocks that might replace it.
#[test]
fn number_20() {
    let job = |length: usize| {
        let (blocks, entries) = match length {
            SHORT => (1, 3),
            _ => (1000, 100_000),
        };
        let keys = ["text", "data", "rodata", "bss"];
        let labels: Vec<_> = (0..blocks)
            .map(|number| keys.map(|key| format!("_{key}{number}")))
            .collect();
        let mut symbols = vec![("kept", ".text", 0, 1), ("_asmpp_x", ".text", 0, 1)];
        let mut text = String::new();
        for (number, labels) in (1..).zip(&labels) {
            text += "desc=\n";
            for (key, label) in keys.iter().zip(labels) {
                // the short job has one line, for which A has labels
                let is_there = blocks > 1 || *key == "text";
                let value = if is_there {
                    format!("{label} 4 0")
                } else {
                    String::new()
                };
                text += &format!("{key}={value}\n");
                symbols.push((label, ".text", 8 * number, 1));
            }
            text += "jtbl=0\nend=\n";
        }
        let mut relocations = words(&[0, 1 << 8 | 2]).repeat(entries);
        relocations.extend(words(&[0, 2 << 8 | 2]));
        let sections: [(_, &[u8]); 2] = [(".text", &[0; 64]), (".rel.text", &relocations)];
        let ends = [
            ("_text0_asm_start", ".text", 8, 1),
            ("_text0_asm_end", ".text", 12, 1),
        ];
        Job {
            compiled: made(&sections, &symbols, 1),
            assembled: Some(made(&[(".text", &[0; 64])], &ends, 1)),
            blocks: text,
        }
    };
    check(
        job,
        "c.o: refused 20 1 0: section 2 (`.rel.text`) of the compiled object: its relocation at 0 \
         uses symbol 2 (`_asmpp_x`) of the compiled object, which is not in the result",
    );
}

/// The last of some notes that are told in time.
fn last_note(compiled: &[u8], blocks: &str, count: usize) -> String {
    let notes = in_time(|| notes(compiled, blocks.as_bytes()));
    assert_eq!(notes.len(), count);
    notes.last().unwrap().to_string()
}

#[test]
fn notes_on_long_labels() {
    for entries in all_entries() {
        let compiled = object(&with_zero(&string(LONG, "a")), &entries, &[]);
        let blocks = block("", &(string(LONG, "b") + " 4 0"), "");
        let name = shown(0);
        assert_eq!(
            last_note(&compiled, &blocks, 1),
            format!("block 0: no symbol {name}, the rest of the block is left out")
        );
    }
}

/// 4,000 symbols in 100 sections of long names, each with a line of the block file.
#[test]
fn notes_on_sections_of_long_names() {
    let mut strings = with_zero(&string(900_000, ""));
    let (mut entries, mut blocks) = (vec![], String::new());
    for number in 0..1000_u32 {
        blocks += "desc=\n";
        for key in ["text", "data", "rodata", "bss"] {
            let label = format!("{}{number}", &key[..1]);
            let info = [0x1000, 2 + (number % 100) as u16];
            entries.push((AT + strings.len() as u32, 4 * number, info));
            blocks += &format!("{key}={label} 4 0\n");
            strings.extend(with_zero(&label));
        }
        blocks += "jtbl=0\nend=\n";
    }
    let more: Vec<_> = (0..100).map(|at| AT + at).collect();
    let compiled = object(&strings, &entries, &more);
    assert!(draft(&compiled, b"", blocks.as_bytes()).is_ok());
    let name = shown(0);
    assert_eq!(
        last_note(&compiled, &blocks, 4000),
        format!("block 999: symbol b999 is in section {name}")
    );
}
