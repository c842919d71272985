//! Runs the jobs of a folder with the real shell and with the quick one, and compares with the
//! answers stored there. ORACLE_CASES names the folder; without it nothing is tested. Each
//! job is a folder: c.o, a.o, prelude, blocks, settings (path, flag, mode), and the answers
//! draft.out, merged.out and result.

use oracle::{Answer, Job, MISSING, Shell, run};
use std::{env, fs, path::Path};

#[test]
fn stored_answers() {
    let Ok(cases) = env::var("ORACLE_CASES") else {
        println!("ORACLE_CASES is not set: no stored jobs are run");
        return;
    };
    assert_eq!(MISSING, None);
    let mut count = 0;
    for job in fs::read_dir(cases).unwrap() {
        count += check(&job.unwrap().path().canonicalize().unwrap());
    }
    println!("{count} answers agree");
}

/// Checks the answers of one job and gives their number.
fn check(folder: &Path) -> usize {
    // A job that was refused before the assembler ran has no A, and no outputs.
    let file = |name: &str| fs::read(folder.join(name)).unwrap_or_default();
    let text = |name: &str| String::from_utf8(file(name)).unwrap();
    let (settings, result) = (text("settings"), text("result"));
    let [path, flag, mode] = settings.lines().collect::<Vec<_>>()[..] else {
        panic!("settings of {}", folder.display());
    };
    let (before, merged) = match result.trim_end().splitn(4, ' ').collect::<Vec<_>>()[..] {
        ["ok"] => (false, Answer::Done(file("merged.out"))),
        ["refused", kind, when, message] => {
            // A panic's message comes after the line where it happened.
            let message = match message.strip_prefix('@') {
                Some(rest) => rest.split_once(' ').unwrap().1,
                None => message,
            };
            (
                when == "before",
                Answer::Refused(format!("{kind} {message}")),
            )
        }
        // The limits are set by the program, not by the library.
        _ => return 0,
    };
    let (compiled, assembled) = (file("c.o"), file("a.o"));
    for shell in [|| Shell::Real, || Shell::Quick] {
        let answer = |assembled| {
            let job = Job {
                compiled: &compiled,
                assembled,
                prelude: &file("prelude"),
                blocks: &file("blocks"),
                path: path.as_bytes(),
                drop_mdebug_gptab: flag == "1",
                statics: mode.parse().unwrap(),
            };
            run(&job, shell())
        };
        assert_eq!(
            answer(Some(&assembled)),
            merged,
            "merge of {}",
            folder.display()
        );
        match before {
            true => assert_eq!(answer(None), merged, "draft of {}", folder.display()),
            false => assert_eq!(
                answer(None),
                Answer::Done(file("draft.out")),
                "draft of {}",
                folder.display()
            ),
        }
    }
    4
}
