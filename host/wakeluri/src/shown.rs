//! Bytes and numbers as they are written in a sentence.

use alloc::string::{String, ToString};

/// A name or some bytes in a message: letters as they are, all else escaped.
pub fn quoted(bytes: &[u8]) -> String {
    match core::str::from_utf8(bytes) {
        Ok(text) if !text.chars().any(is_unseen) => text.to_string(),
        _ => bytes.escape_ascii().to_string(),
    }
}

/// Whether a letter is none that is seen, but changes how others are: a control byte, or a mark that turns or joins text.
pub fn is_unseen(letter: char) -> bool {
    let mark =
        matches!(letter, '\u{200b}'..='\u{200f}' | '\u{2028}'..='\u{202e}' | '\u{2060}'..='\u{2069}' | '\u{feff}');
    letter.is_control() || mark
}

/// A name or some bytes in a message; if they are long, a person sees the start.
pub fn short(bytes: &[u8]) -> String {
    const SHOWN: usize = 100;
    let all = quoted(bytes);
    match all.char_indices().nth(SHOWN) {
        None => all,
        Some(_) => {
            let start: String = all.chars().take(SHOWN * 3 / 4).collect();
            format!("{start}.. ({})", count(bytes.len() as u64, "byte"))
        }
    }
}

/// A number with commas.
pub fn commas(number: u64) -> String {
    let digits = number.to_string();
    let mut told = String::new();
    for (place, digit) in digits.chars().enumerate() {
        if place > 0 && (digits.len() - place) % 3 == 0 {
            told.push(',');
        }
        told.push(digit);
    }
    told
}

/// So many of a thing: "1 base", "2 bases".
pub fn count(number: u64, thing: &str) -> String {
    format!("{} {thing}{}", commas(number), if number == 1 { "" } else { "s" })
}
