//! Damage to the files of a job: flips, cuts, changed fields, lines moved, files spliced.

use crate::random::Random;

/// Values that stand at the edges of what is accepted.
const EDGES: [u32; 18] = [
    0,
    1,
    2,
    3,
    4,
    8,
    9,
    40,
    52,
    127,
    128,
    129,
    4096,
    65536,
    65537,
    0x10_0000,
    0x7fff_ffff,
    0xffff_ffff,
];

/// Damages a file of fields, most often in its first 52 bytes or in its section headers.
pub fn damage_object(random: &mut Random, file: &mut Vec<u8>, other: &[u8]) {
    match random.below(12) {
        0 => file.truncate(random.below(file.len() + 1)),
        1 => {
            let extra = random.below(40);
            file.extend(random.bytes(extra));
        }
        2 => splice(random, file, other),
        3 => flip(random, file, 0),
        _ => {
            let (at, width) = field(random, file);
            let Some(part) = file.get_mut(at..at + width) else {
                return;
            };
            let mut word = [0; 4];
            word[4 - width..].copy_from_slice(part);
            let old = u32::from_be_bytes(word);
            let new = match random.below(5) {
                0 => old.wrapping_add(1),
                1 => old.wrapping_sub(1),
                2 => old ^ 1 << random.below(8 * width),
                3 => random.below(140) as u32,
                _ => *random.pick(&EDGES),
            };
            part.copy_from_slice(&new.to_be_bytes()[4 - width..]);
        }
    }
}

/// Changes a field of an entry of a symbol table or of a relocation table, or the header of one.
pub fn damage_entry(random: &mut Random, file: &mut [u8]) {
    let word = |at: usize| match file.get(at..at + 4) {
        Some(b) => u32::from_be_bytes([b[0], b[1], b[2], b[3]]),
        None => 0,
    };
    let headers = word(32) as usize;
    let count = word(48) as usize >> 16;
    let headers = (0..count.min(200)).map(|i| headers.min(1 << 24) + 40 * i);
    let entry = |at: usize| match word(at + 4) {
        2 => 16,
        4 => 12,
        9 => 8,
        _ => 0,
    };
    let tables: Vec<usize> = headers.filter(|&at| entry(at) > 0).collect();
    if tables.is_empty() {
        return;
    }
    let table = *random.pick(&tables);
    let (start, size) = (word(table + 16) as usize, entry(table));
    let entries = word(table + 20).min(1 << 20) as usize / size;
    let at = start.min(1 << 24) + size * random.below(entries);
    let (at, width) = match (random.below(8), size) {
        (0, _) => (table + 28, 4),
        (_, 16) => {
            let (field, width) = *random.pick(&[(0, 4), (4, 4), (8, 4), (12, 1), (14, 2)]);
            (at + field, width)
        }
        // The symbol of a relocation, or another word.
        (1..=4, _) => (at + 6, 1),
        (_, size) => (at + 4 * random.below(size / 4), 4),
    };
    let small = random.below(20) as u32;
    let last = (count + random.below(3)).saturating_sub(1) as u32;
    let Some(part) = file.get_mut(at..at + width) else {
        return;
    };
    let mut word = [0; 4];
    word[4 - width..].copy_from_slice(part);
    let old = u32::from_be_bytes(word);
    let new = match random.below(6) {
        0 => old.wrapping_add(*random.pick(&[1, 4])),
        1 => old.wrapping_sub(*random.pick(&[1, 4])),
        2 => small,
        3 => last,
        4 => *random.pick(&[0, 0xff00, 0xfff1, 0xfff2, 0xffff_ffff]),
        _ => old ^ 1 << random.below(8 * width),
    };
    part.copy_from_slice(&new.to_be_bytes()[4 - width..]);
}

/// A field of the file header, of a section header or of an early symbol, or any word.
fn field(random: &mut Random, file: &[u8]) -> (usize, usize) {
    let word = |at: usize| match file.get(at..at + 4) {
        Some(b) => u32::from_be_bytes([b[0], b[1], b[2], b[3]]) as usize,
        None => 0,
    };
    let headers = word(32).min(1 << 24);
    let sections = word(48) >> 16;
    match random.below(10) {
        0 => (random.below(16), 1),
        1 => (16 + 2 * random.below(2), 2),
        2 => (20 + 4 * random.below(5), 4),
        3 => (40 + 2 * random.below(6), 2),
        4..=7 => (
            headers + 40 * random.below(sections) + 4 * random.below(10),
            4,
        ),
        8 => {
            let table = (0..sections.min(200)).find(|i| word(headers + 40 * i + 4) == 2);
            let at = table.map_or(0, |i| word(headers + 40 * i + 16));
            let (field, width) = *random.pick(&[(0, 4), (4, 4), (12, 1), (13, 1), (14, 2)]);
            (at.min(1 << 24) + 16 * random.below(6) + field, width)
        }
        _ => (4 * random.below(file.len() / 4 + 1), 4),
    }
}

/// One to four bits, from `start` on.
fn flip(random: &mut Random, file: &mut [u8], start: usize) {
    for _ in 0..random.between(1, 4) {
        let at = start + random.below(file.len().saturating_sub(start));
        if let Some(byte) = file.get_mut(at) {
            *byte ^= 1 << random.below(8);
        }
    }
}

/// The front of one file and the end of another, cut at the same offset or at two.
fn splice(random: &mut Random, file: &mut Vec<u8>, other: &[u8]) {
    let at = random.below(file.len() + 1);
    let from = if random.once_in(2) {
        at
    } else {
        random.below(other.len() + 1)
    };
    file.truncate(at);
    file.extend(other.get(from..).unwrap_or(&[]));
}

/// Damages a file of lines: one line is changed, moved, left out or doubled.
pub fn damage_lines(random: &mut Random, file: &mut Vec<u8>) {
    let mut lines: Vec<Vec<u8>> = file
        .split_inclusive(|&b| b == b'\n')
        .map(Into::into)
        .collect();
    if lines.is_empty() {
        lines.push(random.bytes(3));
    }
    let at = random.below(lines.len());
    let line = &mut lines[at];
    match random.below(12) {
        0 => {
            lines.remove(at);
        }
        1 => {
            let line = line.clone();
            lines.insert(at, line);
        }
        2 => {
            let to = random.below(lines.len());
            lines.swap(at, to);
        }
        3 => line.truncate(random.below(line.len() + 1)),
        4 => flip(random, line, 0),
        5 => {
            // Numbers at the edges.
            let edge = *random.pick(&[
                "0",
                "00",
                "01",
                "9",
                "1048576",
                "1048577",
                "99999999999999999999",
                "",
            ]);
            let digits = line.iter().position(u8::is_ascii_digit).unwrap_or(0);
            line.splice(digits.., format!("{edge}\n").into_bytes());
        }
        6 => {
            let spaces = line
                .iter()
                .position(|&b| b == b' ' || b == b'=')
                .unwrap_or(0);
            line.insert(spaces, *random.pick(b" =\0\n\r"));
        }
        7 => {
            let to = random.below(line.len() + 1);
            line.insert(to, random.word() as u8);
        }
        8 => {
            // The last line may end without LF.
            if let Some(last) = lines.last_mut() {
                last.pop();
            }
        }
        9 => *line = b"dummy=0123456g\n".to_vec(),
        10 => line.make_ascii_uppercase(),
        _ => lines.truncate(at),
    }
    *file = lines.concat();
}
