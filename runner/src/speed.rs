//! Times the proved calls, the Rust's and those in plain C on the same jobs in one process, turn by turn.

use crate::{
    job::{Job, Kind},
    large,
    limit::{limit, working},
    object::{Index, PROGBITS, Parts, Symbol, object, object_of, section},
    port::{invoke, least},
    random::Random,
};
use oracle::{Answer, Shell, run};
use std::{hint::black_box, io, panic, time::Instant};

/// Blocks, symbols in all, and lines of assembly in each block, of one length or of many.
#[derive(Clone, Copy)]
struct Size {
    blocks: usize,
    symbols: usize,
    lines: usize,
    mixed: bool,
}

/// Lines as sources have them.
const MIXED: [&str; 12] = [
    "addiu $sp, $sp, -0x28",
    "lui $v0, %hi(D_80145C20)",
    "nop",
    "sw $ra, 0x1C($sp)",
    "lw $v0, %lo(D_80145C20)($v0)",
    ".L80012F40:",
    "jal func_80023D88",
    "beqz $v0, .L80012F40 # no parcel",
    "andi $t6, $a0, 0xFF",
    "/* 013F5C 80012F5C 3C018014 */ lui $at, %hi(jtbl_8014A2B8)",
    "jr $ra",
    "addu $v0, $t6, $zero",
];

const SMALL: Size = Size {
    blocks: 10,
    symbols: 40,
    lines: 10,
    mixed: false,
};
const TYPICAL: Size = Size {
    blocks: 128,
    symbols: 512,
    lines: 30,
    mixed: false,
};
const LARGEST: Size = Size {
    blocks: 1024,
    symbols: 4096,
    lines: 38,
    mixed: false,
};

/// A job of this size: each block has a span in .text and one in .data, and symbols stand in the
/// order of blocks with the others between them.
fn made(size: Size) -> Job {
    let mut blocks = String::new();
    let mut symbols = vec![];
    let others = size.symbols - 1 - 2 * size.blocks;
    for block in 0..size.blocks {
        let labels = [("text", "t", ".text", 16), ("data", "d", ".data", 8)];
        blocks += &format!("desc=function {block}\n");
        for (key, letter, section, bytes) in labels {
            let name = format!("_asmpp_{letter}{block}");
            let value = (block * 2 * bytes) as u32;
            blocks += &format!("{key}={name} {bytes} 0\n");
            symbols.push(Symbol {
                name,
                value,
                index: Index::Named(section),
                info: 16,
            });
        }
        for other in others * block / size.blocks..others * (block + 1) / size.blocks {
            let (name, index) = (format!("routine_{other}"), Index::Named(".text"));
            symbols.push(Symbol {
                name,
                value: 4 * other as u32,
                index,
                info: 18,
            });
        }
        blocks += "rodata=\nbss=\nglabel=routine\njtbl=0\n";
        for line in 0..size.lines {
            blocks += &match size.mixed {
                true => format!("asm={}\n", MIXED[(5 * block + line) % MIXED.len()]),
                false => format!("asm=lw $v0, %lo(t{line:03})\n"),
            };
        }
        blocks += "end=\n";
    }
    // A seed whose object has none of the forms that document 01 refuses.
    draft(object(&mut Random::new(1, 2), &symbols), blocks)
}

fn draft(compiled: Vec<u8>, blocks: String) -> Job {
    Job {
        compiled,
        second: b".set noat\n.set noreorder".to_vec(),
        blocks: blocks.into_bytes(),
        merge: None,
    }
}

/// A draft of labels, so many to a block, and of symbols with these names. The strings of equal names are shared where `shared` says so.
fn labelled(labels: &[String], many: usize, names: Vec<String>, shared: bool) -> Job {
    let mut blocks = String::new();
    for labels in labels.chunks(many) {
        blocks += "desc=\n";
        for (i, key) in ["text", "data", "rodata", "bss"].into_iter().enumerate() {
            blocks += &match labels.get(i) {
                Some(label) => format!("{key}={label} 4 0\n"),
                None => format!("{key}=\n"),
            };
        }
        blocks += "jtbl=0\nend=\n";
    }
    let symbols = names.into_iter().enumerate().map(|(k, name)| Symbol {
        name,
        value: 4 * k as u32,
        index: Index::Named(".text"),
        info: 16,
    });
    let parts = Parts {
        sections: vec![section(".text", PROGBITS)],
        last: vec![],
        symbols: symbols.collect(),
        tables: vec![],
        locals: 1,
        merged: Some(shared),
    };
    draft(object_of(&mut Random::new(1, 2), parts), blocks)
}

/// Names of drafts whose labels and symbols are slow to tell apart.
const HOSTILE: [&str; 3] = [
    "labels alike at both ends",
    "absent labels, and symbols of one name",
    "symbols named by ends of one string of 970 KB",
];

/// The draft of one of these names.
fn hostile(name: &str) -> Job {
    let x = |many: usize| "x".repeat(many);
    if name == HOSTILE[0] {
        let alike = (0..4095).map(|k| format!("{}{k:04}{}", x(108), x(108)));
        let alike: Vec<String> = alike.collect();
        return labelled(&alike, 4, alike.clone(), false);
    }
    if name == HOSTILE[1] {
        let absent = vec![x(975) + "ay"; 1024];
        return labelled(&absent, 1, vec![x(975) + "by"; 4095], true);
    }
    let short: Vec<String> = (0..1000).map(|k| x(1000 - k)).collect();
    let mut names = vec![x(1); 4095];
    names[0] = x(970_000);
    let mut job = labelled(&short, 1, names, true);
    // Each name starts one byte behind the one before it.
    let places: Vec<usize> = large::entries(&job.compiled).skip(1).collect();
    let first = large::word(&job.compiled, places[0]);
    for (k, at) in places.into_iter().enumerate() {
        let name = (first + k) as u32;
        job.compiled[at..at + 4].copy_from_slice(&name.to_be_bytes());
    }
    job
}

/// Medians in microseconds, of the proved call, of the Rust and of plain C, and the result's length.
struct Times {
    port: f64,
    rust: f64,
    plain: f64,
    length: usize,
}

/// The longest result.
const MOST: usize = 8 << 20;

fn time(job: &Job, rounds: usize) -> io::Result<Times> {
    let mut out = vec![0; MOST];
    let mut lent: Vec<Vec<u8>> = least(job.kind()).iter().map(|&n| vec![0; n]).collect();
    let files: Vec<&[u8]> = job.files().into_iter().map(|(_, bytes)| bytes).collect();
    let mut call = |room: usize, out: &mut [u8]| {
        let lent = lent.iter_mut().map(|buffer| &mut buffer[..]);
        let mut buffers: Vec<&mut [u8]> = [&mut out[..room]].into_iter().chain(lent).collect();
        black_box(invoke(job, &files, &mut buffers))
    };
    let settings = job.merge.as_ref();
    let second = &job.second[..];
    let asked = oracle::Job {
        compiled: &job.compiled,
        assembled: settings.map(|_| second),
        prelude: if settings.is_some() { b"" } else { second },
        blocks: &job.blocks,
        path: settings.map_or(b"c.o", |settings| &settings.path),
        drop_mdebug_gptab: settings.is_some_and(|settings| settings.flag == 1),
        statics: settings.map_or(0, |settings| settings.mode as u8),
    };
    let room = call(MOST, &mut out).length as usize;
    let mut second_out = vec![0; room];
    let mut work = working(job.kind());
    let (mut port, mut rust, mut plain) = (vec![], vec![], vec![]);
    for _ in 0..rounds {
        let start = Instant::now();
        let outcome = call(room, &mut out);
        port.push(start.elapsed().as_secs_f64() * 1e6);
        let start = Instant::now();
        let answer = black_box(run(&asked, Shell::Quick));
        rust.push(start.elapsed().as_secs_f64() * 1e6);
        let start = Instant::now();
        let other = black_box(limit(job, &mut second_out, &mut work));
        plain.push(start.elapsed().as_secs_f64() * 1e6);
        let same = matches!(&answer, Answer::Done(done) if *done == out[..room]);
        let alike = other == outcome && second_out == out[..room];
        if outcome.number != 0 || !same || !alike {
            let words = format!("{outcome:?}, the Rust: {same}, plain C: {other:?}, {alike}");
            return Err(io::Error::other(words));
        }
    }
    let [port, rust, plain] = [port, rust, plain].map(median);
    Ok(Times {
        port,
        rust,
        plain,
        length: room,
    })
}

fn median(mut times: Vec<f64>) -> f64 {
    times.sort_by(f64::total_cmp);
    times[times.len() / 2]
}

/// The rows whose names hold `part`.
pub fn speed(kind: Kind, rounds: usize, part: &str) -> io::Result<()> {
    panic::set_hook(Box::new(|_| ()));
    match kind {
        Kind::Draft => drafts(rounds, part),
        Kind::Merge => merges(rounds, part),
    }
}

/// Merges of all sizes, and such as make a careless merge slow; those have few rounds.
fn merges(rounds: usize, part: &str) -> io::Result<()> {
    println!(
        "| job | blocks | symbols of C and of A | relocations | statics | C and A, bytes | result | proved, us | Rust, us | Rust / proved | plain C, us | proved / plain C |"
    );
    println!("|---|---|---|---|---|---|---|---|---|---|---|---|");
    for (name, size) in large::sizes() {
        if !name.contains(part) {
            continue;
        }
        let job = large::merge(size);
        let rounds = if size.is_hostile() {
            rounds.min(3)
        } else {
            rounds
        };
        let Times {
            port,
            rust,
            plain,
            length,
        } = time(&job, rounds)?;
        let [of_c, of_a] = [&job.compiled, &job.second].map(|file| large::symbols(file));
        println!(
            "| {name} | {} | {of_c}, {of_a} | {} | {} | {} | {length} | {port:.1} | {rust:.1} | {:.1} | {plain:.1} | {:.1} |",
            size.blocks,
            2 * size.relocations,
            size.statics,
            job.compiled.len() + job.second.len(),
            rust / port,
            port / plain
        );
    }
    Ok(())
}

fn drafts(rounds: usize, part: &str) -> io::Result<()> {
    println!(
        "| job | blocks | symbols | block file | draft | proved, us | Rust, us | Rust / proved | proved, ns a byte | plain C, us | proved / plain C |"
    );
    println!("|---|---|---|---|---|---|---|---|---|---|---|");
    let mut rows: Vec<(String, Size)> = vec![
        ("small".into(), SMALL),
        ("typical".into(), TYPICAL),
        ("largest".into(), LARGEST),
    ];
    for (name, size) in rows.clone() {
        rows.push((
            format!("{name}, mixed lines"),
            Size {
                // A block file has at most 1,048,576 bytes.
                lines: size.lines.min(30),
                mixed: true,
                ..size
            },
        ));
    }
    for factor in [1, 2, 4, 8] {
        let symbols = 512 * factor;
        rows.push((format!("{factor} x symbols"), Size { symbols, ..TYPICAL }));
    }
    for factor in [1, 2, 4, 8] {
        let size = Size {
            blocks: 128 * factor,
            symbols: 4096,
            ..TYPICAL
        };
        rows.push((format!("{factor} x blocks"), size));
    }
    for factor in [1, 2, 4, 8] {
        let lines = TYPICAL.lines * factor;
        rows.push((format!("{factor} x lines"), Size { lines, ..TYPICAL }));
    }
    for (name, size) in rows.iter().filter(|(name, _)| name.contains(part)) {
        row(name, size.blocks, size.symbols, &made(*size), rounds)?;
    }
    for name in HOSTILE.into_iter().filter(|name| name.contains(part)) {
        let job = hostile(name);
        let lines = job.blocks.split(|&byte| byte == b'\n');
        let blocks = lines.filter(|line| *line == b"desc=").count();
        let symbols = large::symbols(&job.compiled);
        row(name, blocks, symbols, &job, rounds.min(3))?;
    }
    Ok(())
}

fn row(name: &str, blocks: usize, symbols: usize, job: &Job, rounds: usize) -> io::Result<()> {
    let Times {
        port,
        rust,
        plain,
        length,
    } = time(job, rounds)?;
    let bytes = job.blocks.len() + length;
    println!(
        "| {name} | {blocks} | {symbols} | {} | {length} | {port:.1} | {rust:.1} | {:.1} | {:.1} | {plain:.1} | {:.1} |",
        job.blocks.len(),
        rust / port,
        port * 1e3 / bytes as f64,
        port / plain
    );
    Ok(())
}
