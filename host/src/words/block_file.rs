//! Refusal 7: a line of the block file. Every line before it is sound, so the key of the line
//! before says what may stand here.

use super::quoted;
use crate::blocks::{BLOCK_LIMIT, Key, bare, keys_after, lines};

pub(super) fn words(file: &[u8], place: usize) -> Option<String> {
    let before = place.checked_sub(1)?;
    let (mut ends, mut last) = (0, None);
    let mut rest = lines(file);
    for line in rest.by_ref().take(before) {
        ends += usize::from(line == b"end=\n");
        last = Some(line);
    }
    let keys = keys_after(last)?;
    let Some(line) = rest.next() else {
        let complete = lines(file).count() == before;
        return complete.then(|| {
            format!(
                "the block file ends before line {place}, where {} must stand",
                listed(keys)
            )
        });
    };
    let text = match bare(line) {
        [] => "empty".into(),
        bare => quoted(bare),
    };
    let this = format!("line {place} of the block file");
    if ends == BLOCK_LIMIT && matches!(last, None | Some(b"end=\n")) {
        return Some(format!(
            "{this} starts another block, and {BLOCK_LIMIT} are allowed"
        ));
    }
    if !line.ends_with(b"\n") {
        return Some(format!("{this} has no LF at its end: {text}"));
    }
    let mut here = keys.iter();
    let Some(key) = here.find(|key| line.starts_with(key.name.as_bytes())) else {
        return Some(format!(
            "{this} is {text}, where {} must stand",
            listed(keys)
        ));
    };
    // The key may stand here, so it is the value that may not.
    let value = bare(line).get(key.name.len()..)?;
    (!(key.value.is_sound)(value)).then(|| {
        let (name, words) = (key.name, key.value.words);
        format!("{this} is {text}, but `{name}` takes {words}")
    })
}

/// `a=`, `b=` or `c=`.
fn listed(keys: &[Key]) -> String {
    let names: Vec<_> = keys.iter().map(|key| format!("`{}`", key.name)).collect();
    match &names[..] {
        [first @ .., last] if !first.is_empty() => format!("{} or {last}", first.join(", ")),
        _ => names.concat(),
    }
}
