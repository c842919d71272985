//! Stand-in for `shlex`: quoting of a word for the shell, and the way back.

/// A word with a zero byte cannot be given to a shell.
#[derive(Debug, PartialEq)]
pub struct QuoteError;

/// The word between single quotes. A quote inside becomes `'\''`.
pub fn try_quote(word: &str) -> Result<String, QuoteError> {
    if word.contains('\0') {
        return Err(QuoteError);
    }
    Ok(format!("'{}'", word.replace('\'', r"'\''")))
}

/// The words of a line whose words were quoted by `try_quote` or need no quotes.
pub fn split(line: &str) -> Vec<String> {
    let mut words = vec![String::new()];
    let mut quoted = false;
    let mut chars = line.chars();
    while let Some(c) = chars.next() {
        let word = words.last_mut().expect("there is always a word");
        match c {
            '\'' => quoted = !quoted,
            '\\' if !quoted => word.extend(chars.next()),
            ' ' if !quoted => words.push(String::new()),
            _ => word.push(c),
        }
    }
    words
}

#[cfg(test)]
mod tests {
    use super::{QuoteError, split, try_quote};

    #[test]
    fn quoted_words_come_back() {
        let words = [
            "plain",
            "",
            "two words",
            "it's",
            "\\",
            "''",
            "a\nb",
            "$(x) \"y\"",
        ];
        let line: Vec<String> = words.iter().map(|word| try_quote(word).unwrap()).collect();
        assert_eq!(split(&line.join(" ")), words);
        assert_eq!(split("as 'in put' -o out"), ["as", "in put", "-o", "out"]);
    }

    #[test]
    fn zero_bytes_are_refused() {
        assert_eq!(try_quote("a\0b"), Err(QuoteError));
    }
}
