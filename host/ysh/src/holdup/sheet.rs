//! What a sheet is found again by: the command line, the date, the versions; and the SHA-256 of what was read.

use std::ffi::OsString;
use std::time::{SystemTime, UNIX_EPOCH};

use chrono::{TimeZone, Utc};
use sha2::{Digest, Sha256};

/// The program's version, and the SHA-256 of the library that it was built with.
pub const VERSION: &str = env!("CARGO_PKG_VERSION");
pub const LIBRARY: &str = env!("YSH_LIBRARY_SHA256");

#[derive(Clone, Debug, Default)]
pub struct Sheet {
    pub command: String,
    pub date: String,
}

impl Sheet {
    pub fn of(arguments: &[OsString]) -> Sheet {
        let words: Vec<String> = arguments.iter().map(|word| quoted(&word.to_string_lossy())).collect();
        let now = SystemTime::now().duration_since(UNIX_EPOCH).map_or(0, |since| since.as_secs());
        let date = i64::try_from(now).ok().and_then(|now| Utc.timestamp_opt(now, 0).single());
        let date = date.map_or(String::new(), |date| date.format("%Y-%m-%d %H:%M UTC").to_string());
        Sheet { command: words.join(" "), date }
    }
}

/// A word of a command line as a shell takes it.
fn quoted(word: &str) -> String {
    let plain = |c: char| c.is_ascii_alphanumeric() || "-_./=,:%+@".contains(c);
    match !word.is_empty() && word.chars().all(plain) {
        true => word.to_owned(),
        false => format!("'{}'", word.replace('\'', "'\\''")),
    }
}

/// The SHA-256 of a file's bytes.
pub fn digest(bytes: &[u8]) -> String {
    Sha256::digest(bytes).iter().map(|byte| format!("{byte:02x}")).collect()
}

#[cfg(test)]
mod tests {
    use super::*;

    #[test]
    fn the_digest_of_the_standard() {
        assert_eq!(digest(b"abc"), "ba7816bf8f01cfea414140de5dae2223b00361a396177a9cb410ff61f20015ad");
    }

    #[test]
    fn words_are_quoted_where_a_shell_would_read_them_otherwise() {
        let words = ["ysh", "a b.json", "it's", ""].map(OsString::from);
        assert_eq!(Sheet::of(&words).command, r"ysh 'a b.json' 'it'\''s' ''");
    }
}
