//! The recorded jobs of `crates/prog_draft_jobs` and `crates/prog_merge_jobs`, through the library:
//! every result and every refusal is the one that the model of document 01 and the Rust gave, the
//! words of every refusal tell its fault, and the room that is said to be enough is.

mod common;

use common::clause;
use daphulle::{
    Answer, Asked, ConvertStatics, Draft, Inputs, Merge,
    call::{self, MergeBuffers, MergeInputs, Outcome},
    draft_room, merge_room, words,
};
use std::fs;

const CRATES: &str = concat!(env!("CARGO_MANIFEST_DIR"), "/../crates");

/// Takes so many bytes from the front.
fn take<'a>(bytes: &mut &'a [u8], length: usize) -> &'a [u8] {
    let (front, rest) = bytes.split_at(length);
    *bytes = rest;
    front
}

/// Takes numbers of four bytes from the front, the most significant first.
fn take_numbers<const N: usize>(bytes: &mut &[u8]) -> [usize; N] {
    [(); N].map(|()| u32::from_be_bytes(take(bytes, 4).try_into().unwrap()) as usize)
}

/// Runs the jobs of a program, each taken from the front by `run`, and compares what is printed:
/// behind a result comes `end`.
fn compare(program: &str, end: &str, run: impl Fn(&mut &[u8]) -> (Outcome, Vec<u8>)) {
    let jobs = fs::read(format!("{CRATES}/{program}/data/jobs")).unwrap();
    let recorded = fs::read(format!("{CRATES}/{program}/stdout")).unwrap();
    let (mut rest, mut count) = (&jobs[..], 0);
    let mut left = &recorded[..];
    while !rest.is_empty() {
        let (outcome, out) = run(&mut rest);
        let Outcome {
            length,
            number,
            object,
            place,
        } = outcome;
        let mut printed = match number {
            0 => format!("job {count} accepted {length}\n").into_bytes(),
            _ => format!("job {count} refused {number} {object} {place}\n").into_bytes(),
        };
        if number == 0 {
            printed.extend(&out[..length as usize]);
            printed.extend(end.as_bytes());
        }
        assert!(left.starts_with(&printed), "job {count} of {program}");
        left = &left[printed.len()..];
        count += 1;
    }
    assert_eq!(left, format!("job {count} is not there\n").into_bytes());
    assert!(count > 0);
}

/// The words say more than the general clause, which inputs without a fault have.
fn assert_told(asked: Asked, room: usize, outcome: Outcome) {
    let Answer::Refused(number, object, place) = outcome.answer(room).unwrap() else {
        return;
    };
    let told = words(&Inputs { asked, room }, number, object, place);
    assert_ne!(told, clause(number, object, place), "{outcome:?}");
}

/// The room that the library lends is enough.
fn assert_room(room: usize, outcome: Outcome) {
    let needed = match outcome.number {
        0 => outcome.length,
        21 => outcome.place,
        _ => 0,
    };
    assert!(needed <= room as u64, "{room} for {outcome:?}");
}

#[test]
fn the_recorded_drafts() {
    compare("prog_draft_jobs", "", |rest| {
        let [compiled, prelude, blocks, room] = take_numbers(rest);
        let [compiled, prelude, blocks] =
            [compiled, prelude, blocks].map(|length| take(rest, length));
        let mut out = vec![0; room];
        let mut table = vec![0; call::OPEN_TABLE];
        let mut places = vec![0; call::PLACE_TABLE];
        let outcome =
            call::draft_into(compiled, prelude, blocks, &mut out, &mut table, &mut places);
        let asked = Asked::Draft(Draft {
            compiled,
            prelude,
            blocks,
        });
        assert_told(asked, room, outcome);
        assert_room(draft_room(compiled, prelude, blocks), outcome);
        (outcome, out)
    });
}

#[test]
fn the_recorded_merges() {
    compare("prog_merge_jobs", "\n", |rest| {
        let lengths: [usize; 4] = take_numbers(rest);
        let [stored, mode, room] = take_numbers(rest);
        let [table, places, steps, index, flag] = take_numbers(rest);
        // zeros at the end are not stored
        let mut held = take(rest, stored).to_vec();
        held.resize(lengths.iter().sum(), 0);
        let mut held = &held[..];
        let [compiled, assembled, blocks, path] = lengths.map(|length| take(&mut held, length));
        let inputs = MergeInputs {
            compiled,
            assembled,
            blocks,
            path,
            flag: flag as u32,
            mode: mode as u32,
        };
        let mut out = vec![0xa5; room];
        let working = [table, places, steps, index];
        let outcome = merge_in(&inputs, &mut out, working);
        let least = [
            call::BLOCK_BUFFER,
            call::PLACE_BUFFER,
            call::STEP_BUFFER,
            call::INDEX_BUFFER,
        ];
        let is_short = working
            .iter()
            .zip(least)
            .any(|(length, least)| *length < least);
        let settings = (ConvertStatics::of(inputs.mode), flag);
        if let (Some(convert_statics), 0 | 1, false) = (settings.0, settings.1, is_short) {
            let merge = Merge {
                compiled,
                assembled,
                blocks,
                path,
                drop_mdebug_gptab: flag == 1,
                convert_statics,
            };
            assert_told(Asked::Merge(merge), room, outcome);
            assert_room(merge_room(&merge), outcome);
        }
        (outcome, out)
    });
}

/// A merge with working buffers of these lengths, which hold anything before and zeros behind.
fn merge_in(inputs: &MergeInputs, out: &mut [u8], lengths: [usize; 4]) -> Outcome {
    let [mut table, mut places, mut steps, mut index] = lengths.map(|length| vec![0x5a; length]);
    let buffers = MergeBuffers {
        out: &mut *out,
        table: &mut table,
        places: &mut places,
        steps: &mut steps,
        index: &mut index,
    };
    let outcome = call::merge_into(inputs, buffers);
    let mut working = [table, places, steps, index].into_iter().flatten();
    assert!(working.all(|byte| byte == 0));
    assert!(out[outcome.length as usize..].iter().all(|byte| *byte == 0));
    outcome
}
