//! The library: drafts and merges, their limits, and the buffers of the calls below.

mod common;

use common::{Case, DRAFT, block, debug_section, known_case, known_merge, made, object};
use daphulle::{
    Answer, ConvertStatics, Error, Merge, Number, Object,
    call::{
        BLOCK_BUFFER, OPEN_TABLE, FILE_LIMIT, INDEX_BUFFER, MergeBuffers, MergeInputs, Outcome,
        PLACE_BUFFER, PLACE_TABLE, STEP_BUFFER, draft_into, merge_into,
    },
    draft, draft_within, merge, merge_within,
};

#[test]
fn the_known_draft() {
    let Case {
        compiled,
        prelude,
        blocks,
    } = known_case();
    assert_eq!(draft(&compiled, &prelude, &blocks), Ok(DRAFT.to_vec()));
}

#[test]
fn a_draft_that_is_longer_than_the_first_output() {
    // 2^20 bytes of padding for a small object: the library has to ask again
    let compiled = object(&[("far", 1 << 20)]);
    let blocks = block("", "far 4 0", "");
    let draft = draft(&compiled, b"", blocks.as_bytes()).unwrap();
    let (head, tail) = (
        "\n.section .text\n",
        ".section .text\nglabel far_asm_start\n.text\nnop\n.section .text\nglabel far_asm_end\n\
         .section .late_rodata\n.word 0, 0\nglabel _asmpp_late_rodata_start\n.word 1\n\
         glabel _asmpp_late_rodata_end\n",
    );
    assert_eq!(
        draft,
        [head, &"nop\n".repeat(1 << 18), tail].concat().into_bytes()
    );
    let within = |limit| draft_within(limit, &compiled, b"", blocks.as_bytes());
    assert_eq!(within(draft.len()).map(|text| text.len()), Ok(draft.len()));
    assert!(within(draft.len() - 1).is_err());
}

#[test]
fn the_limit_is_exact() {
    let Case {
        compiled,
        prelude,
        blocks,
    } = known_case();
    let within = |limit| draft_within(limit, &compiled, &prelude, &blocks);
    assert_eq!(within(DRAFT.len()), Ok(DRAFT.to_vec()));
    for limit in [0, DRAFT.len() - 1] {
        let Err(Error::Refused(refusal)) = within(limit) else {
            panic!("a limit of {limit} is kept");
        };
        assert_eq!(
            (refusal.number, refusal.object, refusal.place),
            (Number::OutputRoom, Object::None, DRAFT.len() as u64)
        );
    }
}

#[test]
fn the_call_clears_its_buffers() {
    let Case {
        compiled,
        prelude,
        blocks,
    } = known_case();
    let rooms = [0, 1, DRAFT.len() - 1, DRAFT.len(), DRAFT.len() + 100];
    let tables = [
        (0, 0),
        (OPEN_TABLE - 1, PLACE_TABLE),
        (OPEN_TABLE, PLACE_TABLE - 1),
        (OPEN_TABLE, PLACE_TABLE),
        (OPEN_TABLE + 5, PLACE_TABLE + 5),
    ];
    for room in rooms {
        for (table, places) in tables {
            let mut out = vec![0xa5; room];
            let (mut table, mut places) = (vec![0x5a; table], vec![0xff; places]);
            let enough = table.len() >= OPEN_TABLE && places.len() >= PLACE_TABLE;
            let outcome = draft_into(
                &compiled,
                &prelude,
                &blocks,
                &mut out,
                &mut table,
                &mut places,
            );
            let length = DRAFT.len();
            let expected = match (enough, room >= length) {
                (true, true) => Answer::Accepted { length },
                (true, false) => Answer::Refused(Number::OutputRoom, Object::None, length as u64),
                (false, _) => Answer::Refused(Number::Limits, Object::None, 0),
            };
            assert_eq!(outcome.answer(room), Ok(expected));
            let result = outcome.length as usize;
            assert_eq!(out[..result], DRAFT[..result]);
            let mut rest = out[result..].iter().chain(&table).chain(&places);
            assert!(rest.all(|&byte| byte == 0), "room {room}");
        }
    }
}

#[test]
fn empty_inputs_have_an_answer() {
    let outcome = draft_into(&[], &[], &[], &mut [], &mut [], &mut []);
    let limits = Outcome {
        length: 0,
        number: 1,
        object: 0,
        place: 0,
    };
    assert_eq!(outcome, limits);
    let Err(Error::Refused(refusal)) = draft(&[], &[], &[]) else {
        panic!("an empty object is refused");
    };
    assert_eq!(
        (refusal.number, refusal.object, refusal.place),
        (Number::FileHeader, Object::Compiled, 0)
    );
}

#[test]
fn the_file_limit_is_exact() {
    let Case {
        compiled, blocks, ..
    } = known_case();
    let prelude = vec![b'#'; FILE_LIMIT];
    let text = draft(&compiled, &prelude, &blocks).unwrap();
    assert_eq!(text.len(), DRAFT.len() - ".set noat".len() + FILE_LIMIT);
    let prelude = vec![b'#'; FILE_LIMIT + 1];
    let Err(Error::Refused(refusal)) = draft(&compiled, &prelude, &blocks) else {
        panic!("a long prelude is refused");
    };
    assert_eq!(refusal.number, Number::Limits);
}

#[test]
fn the_known_merge() {
    let known = known_merge();
    assert_eq!(merge(&known.merge()), Ok(known.merged.clone()));
}

#[test]
fn the_limit_of_a_merge_is_exact() {
    let known = known_merge();
    let within = |limit| merge_within(limit, &known.merge());
    let length = known.merged.len();
    assert_eq!(within(length), Ok(known.merged.clone()));
    for limit in [0, length - 1] {
        let Err(Error::Refused(refusal)) = within(limit) else {
            panic!("a limit of {limit} is kept");
        };
        assert_eq!(
            (refusal.number, refusal.object, refusal.place),
            (Number::OutputRoom, Object::None, length as u64)
        );
    }
}

#[test]
fn the_merge_clears_its_buffers() {
    let known = known_merge();
    let length = known.merged.len();
    let least = [BLOCK_BUFFER, PLACE_BUFFER, STEP_BUFFER, INDEX_BUFFER];
    let short = (0..4).map(|k| {
        let mut lengths = least;
        lengths[k] -= 1;
        lengths
    });
    let working = short.chain([least, least.map(|length| length + 5), [0; 4]]);
    let working: Vec<_> = working.collect();
    // flag and mode: known ones, and others
    for (flag, mode) in [(0, 0), (1, 3), (2, 0), (0, 4), (u32::MAX, u32::MAX)] {
        for room in [0, length - 1, length, length + 100] {
            for &lengths in &working {
                let inputs = MergeInputs {
                    compiled: &known.compiled,
                    assembled: &known.assembled,
                    blocks: &known.blocks,
                    path: b"c.o",
                    flag,
                    mode,
                };
                let mut out = vec![0xa5; room];
                let [mut table, mut places, mut steps, mut index] = lengths.map(|n| vec![0x5a; n]);
                let buffers = MergeBuffers {
                    out: &mut out,
                    table: &mut table,
                    places: &mut places,
                    steps: &mut steps,
                    index: &mut index,
                };
                let outcome = merge_into(&inputs, buffers);
                let enough = lengths
                    .iter()
                    .zip(least)
                    .all(|(length, least)| *length >= least);
                let expected = match (enough && flag <= 1 && mode <= 3, room >= length) {
                    (true, true) => Answer::Accepted { length },
                    (true, false) => {
                        Answer::Refused(Number::OutputRoom, Object::None, length as u64)
                    }
                    (false, _) => Answer::Refused(Number::Limits, Object::None, 0),
                };
                assert_eq!(outcome.answer(room), Ok(expected));
                let (result, rest) = out.split_at(outcome.length as usize);
                assert_eq!(result, &known.merged[..result.len()]);
                let working = table.iter().chain(&places).chain(&steps).chain(&index);
                assert!(rest.iter().chain(working).all(|&byte| byte == 0), "{room}");
            }
        }
    }
}

#[test]
fn a_merge_of_nothing_has_an_answer() {
    let nothing = Merge {
        compiled: b"",
        assembled: b"",
        blocks: b"",
        path: b"",
        drop_mdebug_gptab: true,
        convert_statics: ConvertStatics::No,
    };
    let Err(Error::Refused(refusal)) = merge(&nothing) else {
        panic!("an empty object is refused");
    };
    assert_eq!(
        (refusal.number, refusal.object, refusal.place),
        (Number::FileHeader, Object::Compiled, 0)
    );
}

/// How often bytes stand in others.
fn count(bytes: &[u8], part: &[u8]) -> usize {
    bytes
        .windows(part.len())
        .filter(|window| *window == part)
        .count()
}

#[test]
fn the_modes_of_statics() {
    // a static at the level of a file, and one in a function of it
    let entries = [
        (4, 2, 1),
        (0, 6, 0),
        (0, 6, 0),
        (8, 2, 1),
        (0, 8, 0),
        (0, 8, 0),
    ];
    let debug = debug_section(&entries, b"counter\0");
    let sections = [(".mdebug", &debug[..]), (".text", &[0; 16])];
    let compiled = made(&sections, &[], 1);
    let assembled = made(&[(".text", &[])], &[], 1);
    let merged = |convert_statics, path: &str| {
        let merge = merge(&Merge {
            compiled: &compiled,
            assembled: &assembled,
            blocks: b"",
            path: path.as_bytes(),
            drop_mdebug_gptab: false,
            convert_statics,
        });
        merge.unwrap()
    };
    for (mode, names) in [
        (ConvertStatics::No, [0, 0]),
        (ConvertStatics::Local, [1, 0]),
        (ConvertStatics::Global, [1, 0]),
        (ConvertStatics::GlobalWithFilename, [1, 1]),
    ] {
        let object = merged(mode, "a/b.o");
        let found = [&b"counter:1\0"[..], b"\0a/b.o:counter\0a/b.o:counter:1\0"];
        assert_eq!(found.map(|name| count(&object, name)), names, "{mode:?}");
    }
    let [local, global] = [ConvertStatics::Local, ConvertStatics::Global].map(|m| merged(m, ""));
    assert!(local != global && local.len() == global.len());
}

#[test]
fn a_flag_drops_trailing_sections() {
    let compiled = made(&[(".text", &[0; 4]), (".gptab", &[7; 64])], &[], 1);
    let assembled = made(&[(".text", &[])], &[], 1);
    let merged = |drop_mdebug_gptab| {
        let merge = merge(&Merge {
            compiled: &compiled,
            assembled: &assembled,
            blocks: b"",
            path: b"",
            drop_mdebug_gptab,
            convert_statics: ConvertStatics::Local,
        });
        merge.unwrap()
    };
    assert_eq!(count(&merged(false), &[7; 64]), 1);
    assert_eq!(count(&merged(true), &[7; 64]), 0);
}
