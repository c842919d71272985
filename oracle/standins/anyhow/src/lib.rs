//! Stand-in for `anyhow`: an error is the text it would print.

use std::fmt;

pub struct Error(String);

pub type Result<T, E = Error> = std::result::Result<T, E>;

impl Error {
    pub fn msg(text: String) -> Self {
        Error(text)
    }
}

impl fmt::Display for Error {
    fn fmt(&self, f: &mut fmt::Formatter<'_>) -> fmt::Result {
        f.write_str(&self.0)
    }
}

/// Lets `?` turn every ordinary error into ours.
impl<E: std::error::Error> From<E> for Error {
    fn from(error: E) -> Self {
        Error(error.to_string())
    }
}

#[macro_export]
macro_rules! anyhow {
    ($($argument:tt)*) => { $crate::Error::msg(format!($($argument)*)) };
}

#[cfg(test)]
mod tests {
    use super::Result;

    fn number(text: &str) -> Result<u8> {
        let value = text.parse::<u8>()?;
        if value == 0 {
            return Err(anyhow!("{text} is {}", "zero"));
        }
        Ok(value)
    }

    #[test]
    fn errors_keep_their_text() {
        assert!(matches!(number("7"), Ok(7)));
        assert!(matches!(number("0"), Err(e) if e.to_string() == "0 is zero"));
        assert!(matches!(number("x"), Err(e) if e.to_string().contains("invalid digit")));
    }
}
