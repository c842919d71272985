//! Each row is met by a job's own bytes alone.

use super::*;
use crate::{
    job::{Settings, job},
    port::{Port, Verdict},
    random::Random,
};

const HEADERS: usize = 160;
const TEXT: usize = 1;
const OTHER: usize = 2;
const RELOCATIONS: usize = 3;
const SYMBOL_TABLE: usize = 4;
const NAMES: usize = 5;
/// Where the two symbols stand, and the string table.
const SYMBOLS_AT: usize = 128;
const STRINGS_AT: usize = 52;

/// An object on no row: two sections .text, relocations for the first, two symbols, and one
/// string table.
fn sound() -> Job {
    let names = b"\0.rel.text\0.sym\0.str\0.mdebug\0";
    let mut file = b"\x7fELF\x01\x02\x01".to_vec();
    file.resize(52, 0);
    put(&mut file, 16, &[0, 1, 0, 8]);
    put(&mut file, 32, &(HEADERS as u32).to_be_bytes());
    put(&mut file, 46, &[0, 40, 0, 6, 0, NAMES as u8]);
    file.extend(names);
    file.resize(HEADERS, 0);
    // sh_name, sh_type, sh_offset, sh_size, sh_link, sh_info, sh_entsize
    for [name, kind, offset, size, link, info, entry] in [
        [0; 7],
        [5, 1, 120, 8, 0, 0, 0],
        [5, 1, 120, 8, 0, 0, 0],
        [1, REL, 120, 8, SYMBOL_TABLE as u32, TEXT as u32, 8],
        [11, SYMTAB, SYMBOLS_AT as u32, 32, NAMES as u32, 1, 16],
        [16, 3, STRINGS_AT as u32, names.len() as u32, 0, 0, 0],
    ] {
        for word in [name, kind, 0, 0, offset, size, link, info, 1, entry] {
            file.extend(word.to_be_bytes());
        }
    }
    Job {
        compiled: file,
        ..Job::default()
    }
}

const DEBUG_SECTION: usize = 6;
const DEBUG_AT: usize = HEADERS + 7 * 40;

/// A merge on no row: both objects are the one above, with a relocation and a debug section
/// besides, which has one static.
fn sound_merge() -> Job {
    let mut job = sound();
    job.merge = Some(Settings {
        path: b"c.o".to_vec(),
        flag: 0,
        mode: 1,
    });
    let file = &mut job.compiled;
    put(file, 49, &[7]);
    put(file, 124, &[0, 0, 1, 0]);
    put(file, SYMBOLS_AT + 16 + 15, &[TEXT as u8]);
    let [kind, at, size] = [DEBUG, DEBUG_AT as u32, 180];
    for word in [21, kind, 0, 0, at, size, 0, 0, 1, 0] {
        file.extend(word.to_be_bytes());
    }
    file.resize(DEBUG_AT + size as usize, 0);
    put(file, DEBUG_AT, &[0x70, 0x09]);
    // Entries, names, number of files, files; then of the file its number of entries.
    for (field, word) in [
        (36, at + 168),
        (60, at + 180),
        (72, 1),
        (76, at + 96),
        (116, 1),
    ] {
        put(file, DEBUG_AT + field, &u32::to_be_bytes(word));
    }
    let entry: u32 = 2 << 26 | 1 << 21;
    put(file, DEBUG_AT + 176, &entry.to_be_bytes());
    file.extend(b"name\0");
    job.second.clone_from(&job.compiled);
    job
}

fn settings(job: &mut Job) -> &mut Settings {
    job.merge.get_or_insert_default()
}

/// The static's name, of so many bytes.
fn static_name(job: &mut Job, length: usize) {
    job.compiled.truncate(DEBUG_AT + 180);
    job.compiled.resize(DEBUG_AT + 180 + length, b's');
    job.compiled.push(0);
}

fn put(file: &mut [u8], at: usize, bytes: &[u8]) {
    file[at..at + bytes.len()].copy_from_slice(bytes);
}

fn set(job: &mut Job, section: usize, field: usize, word: u32) {
    let at = HEADERS + 40 * section + field;
    put(&mut job.compiled, at, &word.to_be_bytes());
}

fn symbols(job: &mut Job, count: usize) {
    job.compiled.resize(SYMBOLS_AT + 16 * count, 0);
    set(job, SYMBOL_TABLE, 20, 16 * count as u32);
}

fn index(job: &mut Job, symbol: usize, bytes: [u8; 2]) {
    put(&mut job.compiled, SYMBOLS_AT + 16 * symbol + 14, &bytes);
}

fn refused(number: u32, place: u64) -> Refusal {
    let object = u32::from(number != 1);
    Refusal {
        number,
        object,
        place,
    }
}

type Change = fn(&mut Job);

/// A row, the number and the place of a refusal, a change of the sound job that meets the row,
/// and changes after which it has no more than the number and the place.
type Case = (&'static str, (u32, u64), Change, &'static [Change]);

const CASES: &[Case] = &[
    (
        FILE_LIMIT,
        (1, 0),
        |job| job.second.resize(FILE_LENGTH + 1, 0),
        &[|job| job.blocks.resize(FILE_LENGTH, 0)],
    ),
    (
        EI_DATA,
        (2, 5),
        |job| job.compiled[5] = 1,
        &[|job| job.compiled[5] = 3],
    ),
    (
        ENTRY_SIZE,
        (2, 46),
        |job| job.compiled[47] = 41,
        &[|job| job.compiled[47] = 39],
    ),
    (
        NO_SECTIONS,
        (3, 0),
        |job| job.compiled[49] = 0,
        &[|job| job.compiled[49] = 1],
    ),
    (
        MANY_SECTIONS,
        (3, 0),
        |job| job.compiled[49] = 129,
        &[|job| job.compiled[49] = 128],
    ),
    (
        NULL_SECTION,
        (3, 0),
        |job| set(job, 0, 4, 1),
        &[|job| set(job, 1, 4, 0)],
    ),
    (NULL_SECTION, (3, 0), |job| set(job, 0, 20, 4), &[]),
    (
        NULL_SECTION,
        (3, 2),
        |job| set(job, OTHER, 4, 0),
        &[|job| set(job, OTHER, 4, 7)],
    ),
    (
        ALIGNMENT,
        (3, 3),
        |job| set(job, RELOCATIONS, 32, 65_537),
        &[
            |job| set(job, RELOCATIONS, 32, 65_536),
            |job| set(job, SYMBOL_TABLE, 32, 65_537),
        ],
    ),
    (ALIGNMENT, (3, 0), |job| set(job, 0, 32, 65_537), &[]),
    (
        SECTION_TYPE,
        (3, 1),
        |job| set(job, TEXT, 4, 8),
        // Another name.
        &[|job| {
            set(job, TEXT, 4, 8);
            set(job, TEXT, 0, 2);
        }],
    ),
    // A later section of the name may have any type.
    (
        SECTION_TYPE,
        (3, 2),
        |job| {
            set(job, OTHER, 4, 8);
            set(job, TEXT, 0, 2);
        },
        &[|job| set(job, OTHER, 4, 8)],
    ),
    (
        SYMBOL_COUNT,
        (5, 0),
        |job| set(job, SYMBOL_TABLE, 20, 0),
        &[|job| symbols(job, 4096), |job| set(job, SYMBOL_TABLE, 4, 1)],
    ),
    (SYMBOL_COUNT, (5, 0), |job| symbols(job, 4097), &[]),
    (
        SYMBOL_ZERO,
        (5, 0),
        |job| job.compiled[SYMBOLS_AT + 13] = 1,
        &[|job| job.compiled[SYMBOLS_AT + 16 + 13] = 1],
    ),
    (
        SYMBOL_ZERO,
        (5, 0),
        |job| job.compiled[STRINGS_AT] = b'x',
        &[|job| job.compiled[STRINGS_AT + 1] = b'x'],
    ),
    (
        SYMBOL_INDEX,
        (5, 1),
        |job| index(job, 1, [0, 6]),
        &[
            |job| index(job, 1, [0, 5]),
            |job| index(job, 1, [0xff, 0]),
            |job| index(job, 0, [0, 6]),
        ],
    ),
    (SYMBOL_INDEX, (5, 1), |job| index(job, 1, [0xfe, 0xff]), &[]),
    (
        RELOCATION_SIZE,
        (6, 3),
        |job| {
            set(job, RELOCATIONS, 20, 12);
            set(job, RELOCATIONS, 36, 12);
        },
        &[
            |job| set(job, RELOCATIONS, 36, 4),
            |job| {
                set(job, RELOCATIONS, 20, 12);
                set(job, RELOCATIONS, 36, 12);
                set(job, RELOCATIONS, 4, RELA);
            },
        ],
    ),
    (
        RELOCATION_SIZE,
        (6, 3),
        |job| {
            set(job, RELOCATIONS, 20, 0);
            set(job, RELOCATIONS, 36, 4);
        },
        &[|job| {
            set(job, RELOCATIONS, 20, 0);
            set(job, RELOCATIONS, 36, 0);
        }],
    ),
    (
        REL_LINK,
        (6, 3),
        |job| set(job, RELOCATIONS, 24, 0),
        &[|job| {
            set(job, RELOCATIONS, 24, 0);
            set(job, RELOCATIONS, 4, 1);
        }],
    ),
];

type MergeCase = (&'static str, (u32, u32, u64), Change, &'static [Change]);

const MERGE_CASES: &[MergeCase] = &[
    (
        FILE_LIMIT,
        (1, 0, 0),
        |job| job.second.resize(FILE_LENGTH + 1, 0),
        &[|job| job.second.resize(FILE_LENGTH, 0)],
    ),
    (
        PATH,
        (1, 0, 0),
        |job| settings(job).path = vec![b'p'; 256],
        &[
            |job| settings(job).path = vec![b'p'; 255],
            |job| settings(job).path = vec![b'p', 0],
        ],
    ),
    (PATH, (1, 0, 0), |job| settings(job).path.push(128), &[]),
    (
        SYMBOL_ZERO,
        (5, 2, 0),
        |job| job.second[SYMBOLS_AT + 13] = 1,
        &[|job| job.compiled[SYMBOLS_AT + 13] = 1],
    ),
    (
        STALE,
        (10, 1, 3),
        |job| set(job, RELOCATIONS, 28, OTHER as u32),
        &[|job| {
            set(job, RELOCATIONS, 28, OTHER as u32);
            set(job, RELOCATIONS, 20, 0);
            // A brings no entries.
            put(&mut job.second, HEADERS + 40 * RELOCATIONS + 20, &[0; 4]);
        }],
    ),
    (
        DROPPED,
        (10, 1, 6),
        |job| {
            settings(job).flag = 1;
            index(job, 1, [0, DEBUG_SECTION as u8]);
        },
        &[
            |job| settings(job).flag = 1,
            |job| index(job, 1, [0, DEBUG_SECTION as u8]),
        ],
    ),
    (
        DROPPED,
        (10, 1, 3),
        |job| {
            settings(job).flag = 1;
            set(job, RELOCATIONS, 28, DEBUG_SECTION as u32);
            set(job, RELOCATIONS, 20, 0);
        },
        &[],
    ),
    (
        CLASH,
        (10, 1, 3),
        |job| {
            set(job, RELOCATIONS, 4, RELA);
            set(job, RELOCATIONS, 20, 12);
            set(job, RELOCATIONS, 36, 12);
        },
        &[|job| {
            set(job, RELOCATIONS, 4, RELA);
            set(job, RELOCATIONS, 20, 12);
            set(job, RELOCATIONS, 36, 12);
            put(&mut job.second, HEADERS + 40 * RELOCATIONS + 20, &[0; 4]);
        }],
    ),
    (
        SECOND_SECTION,
        (15, 2, 1),
        |job| job.second[SYMBOLS_AT + 31] = OTHER as u8,
        &[
            |job| job.compiled[SYMBOLS_AT + 31] = OTHER as u8,
            |job| job.second[SYMBOLS_AT + 31] = SYMBOL_TABLE as u8,
        ],
    ),
    (
        STATICS,
        (17, 1, 0),
        |job| static_name(job, 1025),
        &[
            |job| static_name(job, 1024),
            |job| {
                static_name(job, 1025);
                settings(job).mode = 0;
            },
        ],
    ),
];

const ROWS: [&str; 19] = [
    EI_DATA,
    ENTRY_SIZE,
    NO_SECTIONS,
    MANY_SECTIONS,
    NULL_SECTION,
    ALIGNMENT,
    SECTION_TYPE,
    SYMBOL_COUNT,
    SYMBOL_ZERO,
    SYMBOL_INDEX,
    RELOCATION_SIZE,
    REL_LINK,
    FILE_LIMIT,
    PATH,
    STALE,
    DROPPED,
    CLASH,
    SECOND_SECTION,
    STATICS,
];

fn changed(mut job: Job, change: Change) -> Job {
    change(&mut job);
    job
}

/// What the library answers to a job.
fn answer(job: &Job) -> Result<Verdict, String> {
    Port::new(1).answer(job, &mut Random::new(1, 1))
}

#[test]
fn a_row_is_met_by_its_own_bytes_alone() {
    assert!(matches!(answer(&sound()), Ok(Verdict::Done(_))));
    for &(words, (number, place), meets, lacks) in CASES {
        let (refusal, job) = (refused(number, place), changed(sound(), meets));
        assert_eq!(answer(&job), Ok(Verdict::Refused(refusal)), "{words}");
        assert_eq!(row(refusal, &job), Some(words));
        assert_eq!(row(refusal, &sound()), None, "{words}");
        for (i, &lack) in lacks.iter().enumerate() {
            assert_eq!(row(refusal, &changed(sound(), lack)), None, "{words}: {i}");
        }
        // The same bytes, under another number, object or place.
        for other in [
            refused(4, place),
            refused(number, u64::MAX),
            Refusal {
                object: 2,
                ..refusal
            },
        ] {
            assert_eq!(row(other, &job), None, "{words}: {other:?}");
        }
    }
}

#[test]
fn a_merge_meets_a_row_by_its_own_bytes_alone() {
    assert!(matches!(answer(&sound_merge()), Ok(Verdict::Done(_))));
    for &(words, (number, object, place), meets, lacks) in MERGE_CASES {
        let refusal = Refusal {
            number,
            object,
            place,
        };
        let job = changed(sound_merge(), meets);
        assert_eq!(answer(&job), Ok(Verdict::Refused(refusal)), "{words}");
        assert_eq!(row(refusal, &job), Some(words));
        assert_eq!(row(refusal, &sound_merge()), None, "{words}");
        for (i, &lack) in lacks.iter().enumerate() {
            let job = changed(sound_merge(), lack);
            assert_eq!(row(refusal, &job), None, "{words}: {i}");
        }
        // The same bytes, under another number, object or place.
        for (number, object, place) in [
            (4, object, place),
            (number, object, u64::MAX),
            (number, 3 - object, place),
        ] {
            let other = Refusal {
                number,
                object,
                place,
            };
            assert_eq!(row(other, &job), None, "{words}: {other:?}");
        }
    }
}

/// So that a library which refuses sound jobs is found, whatever it says.
#[test]
fn a_job_that_is_accepted_is_on_no_row() {
    let mut port = Port::new(1);
    for kind in [Kind::Draft, Kind::Merge] {
        let mut accepted: Vec<Job> = (0..1000).map(|index| job(kind, 1, index)).collect();
        accepted.retain(|job| {
            let answer = port.answer(job, &mut Random::new(1, 1));
            matches!(answer, Ok(Verdict::Done(_)))
        });
        assert!(accepted.len() > 300, "{kind}: {} of 1000", accepted.len());
        for job in &accepted {
            for number in [1, 2, 3, 5, 6, 10, 17] {
                for place in 0..=128 {
                    let refusal = refused(number, place);
                    assert_eq!(row(refusal, job), None, "{kind}: {refusal:?}");
                }
            }
        }
    }
}

#[test]
fn every_row_has_a_case_and_stands_in_the_document() {
    let document = include_str!("../../../docs/DIFFERENCES.md");
    for row in ROWS {
        let cases = CASES.iter().map(|case| case.0);
        let mut cases = cases.chain(MERGE_CASES.iter().map(|case| case.0));
        assert!(cases.any(|case| case == row), "{row}");
        assert!(document.contains(&format!("\n| {row} | ")), "{row}");
    }
    assert!(document.contains(&format!("\n| {STEM} | merges | ")));
}
