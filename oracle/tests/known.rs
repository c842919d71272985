//! Jobs on objects made here, with the real shell and with the quick one. It is one test
//! because only one thread may run jobs.

use oracle::{Answer, Job, MISSING, Shell, run};

const BLOCKS: &[u8] =
    b"desc=f\ntext=_asmpp_t1 4 0\ndata=\nrodata=\nbss=\njtbl=0\nasm=jr $ra\nend=\n";

const DRAFT: &[u8] = b".set noat
.section .text
nop
nop
.section .text
glabel _asmpp_t1_asm_start
.text
jr $ra
.section .text
glabel _asmpp_t1_asm_end
";

/// An object with a .text and global symbols in it.
fn object(text: &[u8], symbols: &[(&str, u32)]) -> Vec<u8> {
    let words = |words: &[u32]| {
        words
            .iter()
            .flat_map(|w| w.to_be_bytes())
            .collect::<Vec<u8>>()
    };
    let mut names = b"\0.text\0".to_vec();
    let mut table = vec![0; 16];
    for &(name, value) in symbols {
        table.extend(words(&[names.len() as u32, value, 0, 0x10000001]));
        names.extend(name.bytes());
        names.push(0);
    }
    names.resize(names.len().next_multiple_of(4), 0);

    let mut file = b"\x7fELF\x01\x02\x01".to_vec();
    file.resize(16, 0);
    let end = 52 + text.len() + table.len() + names.len();
    file.extend(words(&[
        0x10008,
        1,
        0,
        0,
        end as u32,
        0,
        52 << 16,
        40,
        4 << 16 | 3,
    ]));
    let mut headers = vec![0; 40];
    // type, bytes, sh_name, sh_link, sh_info, sh_entsize
    for (kind, bytes, name, link, info, entry) in [
        (1, text, 1, 0, 0, 0),
        (2, &table, 0, 3, 1, 16),
        (3, &names, 0, 0, 0, 0),
    ] {
        let (offset, size) = (file.len() as u32, bytes.len() as u32);
        headers.extend(words(&[
            name, kind, 0, 0, offset, size, link, info, 4, entry,
        ]));
        file.extend(bytes);
    }
    file.extend(headers);
    file
}

#[test]
fn known_jobs() {
    if let Some(reason) = MISSING {
        println!("not run: {reason}");
        return;
    }
    let compiled = object(&[0; 12], &[("_asmpp_t1", 8), ("after", 12)]);
    let labels = [("_asmpp_t1_asm_start", 8), ("_asmpp_t1_asm_end", 12)];
    let assembled = object(b"........\x03\xe0\x00\x08", &labels);
    for shell in [|| Shell::Real, || Shell::Quick] {
        let answer = |compiled: &[u8], assembled: Option<&[u8]>, path: &str| {
            let (prelude, path) = (b".set noat", path.as_bytes());
            let (drop_mdebug_gptab, statics, blocks) = (false, 1, BLOCKS);
            let job = Job {
                compiled,
                assembled,
                prelude,
                blocks,
                path,
                drop_mdebug_gptab,
                statics,
            };
            run(&job, shell())
        };
        assert_eq!(answer(&compiled, None, "c.o"), Answer::Done(DRAFT.to_vec()));
        for path in ["c.o", "a/b/c.o", "../../c.o", "a/../it's $c.o"] {
            let Answer::Done(merged) = answer(&compiled, Some(&assembled), path) else {
                panic!("not merged under {path}");
            };
            assert_eq!(merged[52..64], *b"\0\0\0\0\0\0\0\0\x03\xe0\x00\x08");
        }
        for assembled in [None, Some(&assembled[..])] {
            let Answer::Refused(message) = answer(&compiled[..60], assembled, "c.o") else {
                panic!("half an object is accepted");
            };
            assert!(message.starts_with("panic "), "{message}");
            for path in ["/c.o", "", "..", "c/"] {
                assert!(matches!(
                    answer(&compiled, assembled, path),
                    Answer::Limit(_)
                ));
            }
        }
    }
}
