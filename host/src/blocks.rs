//! Reads a block file for the words of a refusal and for notes. The bytes may be anything.

use crate::codes::Code;

/// Blocks of a block file (docs/SIZES.md).
pub(crate) const BLOCK_LIMIT: usize = 1024;

/// The largest number of a block file, an align8 apart.
pub(crate) const NUMBER_LIMIT: u32 = 1_048_576;
const ALIGN8_LIMIT: u32 = 8;

/// A key of a block, and what document 01 lets stand behind it.
pub(crate) struct Key {
    pub name: &'static str,
    pub repeats: bool,
    pub value: &'static Value,
}

pub(crate) struct Value {
    pub is_sound: fn(&[u8]) -> bool,
    /// What may stand there.
    pub words: &'static str,
}

const ANY: Value = Value {
    is_sound: |_| true,
    words: "anything",
};

const SPAN: Value = Value {
    is_sound: |value| value.is_empty() || span_parts(value).is_some(),
    words: "nothing, or `label size align8` with single spaces: a size up to 1048576, an align8 \
            up to 8, no leading zeros",
};

const LABEL: Value = Value {
    is_sound: |value| !value.is_empty() && !value.contains(&b' '),
    words: "a label without a space",
};

const DUMMY: Value = Value {
    is_sound: |value| {
        let is_digit = |byte: &u8| matches!(byte, b'0'..=b'9' | b'a'..=b'f');
        value.len() == 8 && value.iter().all(is_digit)
    },
    words: "8 lowercase hex digits",
};

const JUMP_TABLE: Value = Value {
    is_sound: |value| number(value, NUMBER_LIMIT).is_some(),
    words: "a number up to 1048576 without a leading zero",
};

const NOTHING: Value = Value {
    is_sound: |value| value.is_empty(),
    words: "nothing",
};

const fn one(name: &'static str, value: &'static Value) -> Key {
    Key {
        name,
        repeats: false,
        value,
    }
}

const fn many(name: &'static str, value: &'static Value) -> Key {
    Key {
        name,
        repeats: true,
        value,
    }
}

/// The keys of a block, in order.
const KEYS: [Key; 11] = [
    one("desc=", &ANY),
    one("text=", &SPAN),
    one("data=", &SPAN),
    one("rodata=", &SPAN),
    one("bss=", &SPAN),
    many("glabel=", &LABEL),
    many("dummy=", &DUMMY),
    one("jtbl=", &JUMP_TABLE),
    many("asm=", &ANY),
    many("late=", &ANY),
    one("end=", &NOTHING),
];

/// The lines of a file, each with its LF if it has one.
pub(crate) fn lines(file: &[u8]) -> impl Iterator<Item = &[u8]> {
    file.split_inclusive(|&byte| byte == b'\n')
}

/// The line without its LF.
pub(crate) fn bare(line: &[u8]) -> &[u8] {
    line.strip_suffix(b"\n").unwrap_or(line)
}

/// The keys that may stand behind a line of a block; behind none, those that may stand first.
/// `None` where the line has no key of a block.
pub(crate) fn keys_after(line: Option<&[u8]>) -> Option<&'static [Key]> {
    let start = match line {
        None => 0,
        Some(line) => {
            let mut keys = KEYS.iter();
            let index = keys.position(|key| line.starts_with(key.name.as_bytes()))?;
            match KEYS.get(index)?.repeats {
                true => index,
                // behind the last key comes the next block
                false => (index + 1) % KEYS.len(),
            }
        }
    };
    // any number of lines for each key that repeats, then one for the first that does not
    let rest = KEYS.get(start..)?;
    let end = rest.iter().position(|key| !key.repeats)?;
    rest.get(..=end)
}

/// A line `text=` to `bss=` of a block that is not empty.
#[derive(Clone, Copy)]
pub(crate) struct Span<'a> {
    /// Its number in the block file, from 1.
    pub line: usize,
    pub key: &'static str,
    pub code: Code,
    pub label: &'a [u8],
    pub size: u32,
    pub align8: u32,
}

/// What the words need of a block.
pub(crate) struct Block<'a> {
    pub desc: &'a [u8],
    pub spans: Vec<Span<'a>>,
    pub dummies: Vec<[u8; 4]>,
    /// The bytes of its jump table.
    pub jump_table: u32,
}

/// The four lines of a block that have a place, with their sections.
const SPANS: [(&str, Code); 4] = [
    ("text=", Code::Text),
    ("data=", Code::Data),
    ("rodata=", Code::Rodata),
    ("bss=", Code::Bss),
];

/// The blocks of a well-formed file; of another one, what looks like blocks.
pub(crate) fn blocks(file: &[u8]) -> Vec<Block<'_>> {
    let mut blocks: Vec<Block> = vec![];
    for (index, line) in lines(file).map(bare).enumerate() {
        if let Some(desc) = line.strip_prefix(b"desc=") {
            blocks.push(Block {
                desc,
                spans: vec![],
                dummies: vec![],
                jump_table: 0,
            });
        }
        let Some(block) = blocks.last_mut() else {
            continue;
        };
        block.spans.extend(span(index + 1, line));
        block.dummies.extend(dummy(line));
        if let Some(value) = line.strip_prefix(b"jtbl=") {
            block.jump_table = number(value, NUMBER_LIMIT).unwrap_or(0);
        }
    }
    blocks
}

fn span(line: usize, text: &[u8]) -> Option<Span<'_>> {
    let mut spans = SPANS.into_iter();
    let (key, code) = spans.find(|(key, _)| text.starts_with(key.as_bytes()))?;
    let (label, size, align8) = span_parts(text.get(key.len()..)?)?;
    Some(Span {
        line,
        key,
        code,
        label,
        size,
        align8,
    })
}

/// The four bytes of a line `dummy=`.
fn dummy(line: &[u8]) -> Option<[u8; 4]> {
    let digits = line.strip_prefix(b"dummy=")?;
    let word = u32::from_str_radix(str::from_utf8(digits).ok()?, 16).ok()?;
    (DUMMY.is_sound)(digits).then(|| word.to_be_bytes())
}

/// `label size align8`.
fn span_parts(value: &[u8]) -> Option<(&[u8], u32, u32)> {
    let parts: Vec<_> = value.split(|&byte| byte == b' ').collect();
    let [label, size, align8] = parts[..] else {
        return None;
    };
    let (size, align8) = (number(size, NUMBER_LIMIT)?, number(align8, ALIGN8_LIMIT)?);
    (!label.is_empty()).then_some((label, size, align8))
}

/// A number up to a limit, with no leading zero.
fn number(digits: &[u8], limit: u32) -> Option<u32> {
    let plain = digits.iter().all(u8::is_ascii_digit)
        && (digits.len() == 1 || digits.first() != Some(&b'0'));
    let number = str::from_utf8(digits).ok()?.parse().ok()?;
    (plain && number <= limit).then_some(number)
}

#[cfg(test)]
mod tests {
    use super::{Span, blocks, keys_after, number, span_parts};

    fn names(line: Option<&[u8]>) -> Vec<&'static str> {
        let keys = keys_after(line).unwrap_or_default();
        keys.iter().map(|key| key.name).collect()
    }

    #[test]
    fn what_may_stand_behind_a_line() {
        assert_eq!(names(None), ["desc="]);
        assert_eq!(names(Some(b"desc=x\n")), ["text="]);
        assert_eq!(names(Some(b"text=\n")), ["data="]);
        assert_eq!(names(Some(b"bss=\n")), ["glabel=", "dummy=", "jtbl="]);
        assert_eq!(names(Some(b"glabel=g\n")), ["glabel=", "dummy=", "jtbl="]);
        assert_eq!(names(Some(b"dummy=\n")), ["dummy=", "jtbl="]);
        assert_eq!(names(Some(b"jtbl=0\n")), ["asm=", "late=", "end="]);
        assert_eq!(names(Some(b"late=end=\n")), ["late=", "end="]);
        assert_eq!(names(Some(b"end=\n")), ["desc="]);
        assert!(keys_after(Some(b"other\n")).is_none());
    }

    #[test]
    fn blocks_have_their_spans() {
        let file =
            b"desc=f\ntext=t 8 4\ndata=\nbss=b 1 0\ndummy=e0123456\njtbl=8\nasm=text=x 1 1\nend=\n\
                     desc=\nend=\n";
        let blocks = blocks(file);
        let [f, rest] = &blocks[..] else {
            panic!("two blocks");
        };
        let read = |span: &Span| {
            (
                span.line,
                span.key,
                span.label.to_vec(),
                span.size,
                span.align8,
            )
        };
        let spans: Vec<_> = f.spans.iter().map(read).collect();
        assert_eq!(f.desc, b"f");
        assert_eq!(
            (&f.dummies[..], f.jump_table),
            (&[[0xe0, 0x12, 0x34, 0x56]][..], 8)
        );
        assert_eq!(
            spans,
            [
                (2, "text=", b"t".to_vec(), 8, 4),
                (4, "bss=", b"b".to_vec(), 1, 0)
            ]
        );
        assert!(rest.desc.is_empty() && rest.spans.is_empty());
    }

    #[test]
    fn numbers_and_spans() {
        assert_eq!(number(b"0", 8), Some(0));
        assert_eq!(number(b"1048576", 1_048_576), Some(1_048_576));
        let wrong = ["", "00", "07", "+7", "-0", "9", "7 ", "4294967296"];
        assert!(
            wrong
                .iter()
                .all(|text| number(text.as_bytes(), 8).is_none())
        );
        assert_eq!(span_parts(b"l 4 8"), Some((&b"l"[..], 4, 8)));
        let wrong = [
            "l",
            "l 4",
            " 4 8",
            "l  4 8",
            "l 4 8 ",
            "l 4 9",
            "l 1048577 0",
        ];
        assert!(
            wrong
                .iter()
                .all(|text| span_parts(text.as_bytes()).is_none())
        );
    }
}
