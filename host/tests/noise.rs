//! Arbitrary and damaged inputs: a result or one true line, never a panic.

mod common;

use common::{block, clause, debug_section, known_merge, made, object};
use daphulle::{
    Asked, ConvertStatics, Draft, Error, Inputs, Merge, NoteKind, Number, Object, draft,
    draft_room, merge, merge_room, notes, words,
};

/// xorshift64: the same numbers in each run.
struct Random(u64);

impl Random {
    fn next(&mut self) -> u64 {
        self.0 ^= self.0 << 13;
        self.0 ^= self.0 >> 7;
        self.0 ^= self.0 << 17;
        self.0
    }

    fn below(&mut self, limit: usize) -> usize {
        (self.next() % limit as u64) as usize
    }

    /// Up to 400 bytes of any value.
    fn bytes(&mut self) -> Vec<u8> {
        let length = self.below(400);
        (0..length).map(|_| self.next() as u8).collect()
    }

    /// The bytes with a few changed, and now and then the end cut off.
    fn damaged(&mut self, bytes: &[u8]) -> Vec<u8> {
        let mut bytes = bytes.to_vec();
        for _ in 0..self.below(4) {
            let at = self.below(bytes.len());
            bytes[at] = *[0, 1, 0x7f, 0x80, 0xff, b'\n', self.next() as u8]
                .get(self.below(7))
                .unwrap();
        }
        if self.below(8) == 0 {
            bytes.truncate(self.below(bytes.len() + 1));
        }
        bytes
    }
}

fn is_one_line(words: &str) -> bool {
    !words.is_empty() && words.bytes().all(|byte| matches!(byte, b' '..=b'~'))
}

/// Real refusals are told by what is in the inputs: document 01's general clauses are for inputs
/// that do not show the fault.
fn assert_told(error: Error) -> Number {
    let Error::Refused(refusal) = error else {
        panic!("{error}");
    };
    assert!(is_one_line(&refusal.words), "{refusal}");
    let (number, object, place) = (refusal.number, refusal.object, refusal.place);
    assert_ne!(refusal.words, clause(number, object, place), "{refusal}");
    number
}

#[test]
fn words_of_any_refusal_on_any_bytes() {
    let mut random = Random(0x9e37_79b9_7f4a_7c15);
    let known = known_merge();
    let sound = object(&[("a", 8), ("b", 16)]);
    for round in 0..3000 {
        let (compiled, assembled, blocks) = match random.below(3) {
            0 => (random.bytes(), random.bytes(), random.bytes()),
            1 => (random.damaged(&sound), random.bytes(), random.bytes()),
            _ => (
                random.damaged(&known.compiled),
                random.damaged(&known.assembled),
                random.damaged(&known.blocks),
            ),
        };
        let (compiled, blocks) = (&compiled[..], &blocks[..]);
        let notes = notes(compiled, blocks);
        assert!(notes.iter().all(|note| is_one_line(&note.to_string())));
        let mode = random.below(4) as u32;
        let asked = match round % 4 {
            0 => Asked::Draft(Draft {
                compiled,
                prelude: b"",
                blocks,
            }),
            _ => Asked::Merge(Merge {
                compiled,
                assembled: &assembled,
                blocks,
                path: b"",
                drop_mdebug_gptab: random.below(2) == 1,
                convert_statics: ConvertStatics::of(mode).unwrap(),
            }),
        };
        let room = random.next() as usize;
        let small = random.below(60) as u64;
        for place in [small, compiled.len() as u64, random.next(), u64::MAX] {
            for &number in Number::ALL {
                for &object in Object::ALL {
                    let words = words(&Inputs { asked, room }, number, object, place);
                    assert!(is_one_line(&words), "{words:?}");
                }
            }
        }
    }
}

#[test]
fn real_refusals_of_drafts_are_told() {
    let mut random = Random(0x2545_f491_4f6c_dd1d);
    let sound = object(&[("a", 8), ("b", 16), ("c", 24)]);
    let file = block("one", "a 8 8", "b 8 8") + &block("two", "b 8 0", "c 4 8");
    let mut refusals = [0; 22];
    let (mut drafts, mut lacking) = (0, 0);
    for _ in 0..20_000 {
        let (compiled, blocks) = match random.below(3) {
            0 => (random.damaged(&sound), file.clone().into_bytes()),
            1 => (sound.clone(), random.damaged(file.as_bytes())),
            _ => (random.damaged(&sound), random.damaged(file.as_bytes())),
        };
        match draft(&compiled, b"", &blocks) {
            Ok(text) => {
                assert!(text.ends_with(b"\n"));
                assert!(text.len() <= draft_room(&compiled, b"", &blocks));
                drafts += 1;
                lacking += usize::from(is_lacking_and_noted(&compiled, &blocks, &text));
            }
            Err(error) => refusals[assert_told(error).code() as usize] += 1,
        }
    }
    // each number that such inputs can have was met
    assert!(
        drafts > 0 && refusals[2..=9].iter().all(|&count| count > 0),
        "{refusals:?}"
    );
    assert!(0 < lacking && lacking < drafts, "{lacking} {drafts}");
}

/// Whether a draft lacks a line of its blocks that has a place; that is so where a note says it.
fn is_lacking_and_noted(compiled: &[u8], blocks: &[u8], text: &[u8]) -> bool {
    let lines = |file: &[u8], is_counted: fn(&[u8]) -> bool| {
        let lines = file.split(|&byte| byte == b'\n');
        lines.filter(|line| is_counted(line)).count()
    };
    let asked = lines(blocks, |line| {
        let keys = [&b"text="[..], b"data=", b"rodata=", b"bss="];
        keys.iter()
            .any(|key| line.starts_with(key) && line.len() > key.len())
    });
    let is_lacking = lines(text, |line| line.ends_with(b"_asm_start")) < asked;
    let notes = notes(compiled, blocks);
    let is_noted = notes.iter().any(|note| note.kind == NoteKind::LeftOut);
    assert_eq!(is_lacking, is_noted, "{notes:?}");
    is_lacking
}

#[test]
fn real_refusals_of_merges_are_told() {
    let mut random = Random(0x1234_5678_9abc_def1);
    let known = known_merge();
    // a function with a static of its own
    let entries = [(0, 6, 0), (0, 6, 0), (8, 2, 1), (0, 8, 0), (0, 8, 0)];
    let debug = debug_section(&entries, b"counter\0");
    let sections = [(".mdebug", &debug[..]), (".text", &[0; 16])];
    let with_statics = made(&sections, &[("end", ".text", 16, 1)], 1);
    let empty = made(&[(".text", &[])], &[], 1);
    let mut refusals = [0; 22];
    let mut merges = 0;
    for _ in 0..20_000 {
        let files: [&[u8]; 3] = match random.below(4) {
            0 => [&with_statics, &empty, b""],
            _ => [&known.compiled, &known.assembled, &known.blocks],
        };
        let mut files = files.map(<[u8]>::to_vec);
        let at = random.below(3);
        if !files[at].is_empty() {
            files[at] = random.damaged(&files[at]);
        }
        let [compiled, assembled, blocks] = &files;
        let job = Merge {
            compiled,
            assembled,
            blocks,
            ..known.merge()
        };
        match merge(&job) {
            Ok(object) => {
                assert!(object.starts_with(b"\x7fELF"));
                assert!(object.len() <= merge_room(&job));
                merges += 1;
            }
            Err(error) => refusals[assert_told(error).code() as usize] += 1,
        }
    }
    // each number that such inputs can have was met: a changed byte makes no smaller place or size
    let mut numbers = (2..=20).filter(|number| !matches!(number, 8 | 9));
    assert!(
        merges > 0 && numbers.all(|number| refusals[number] > 0),
        "{merges} {refusals:?}"
    );
}
