//! One JSON object to a line.

use std::fmt::Write;

/// An object that is being written.
#[derive(Debug)]
pub struct Object(String);

impl Object {
    /// An empty one.
    pub fn new() -> Self {
        Self("{".to_string())
    }

    fn key(&mut self, key: &str) -> &mut String {
        if self.0.len() > 1 {
            self.0.push(',');
        }
        let _ = write!(self.0, "\"{key}\":");
        &mut self.0
    }

    /// A number.
    pub fn number(&mut self, key: &str, number: u64) -> &mut Self {
        let _ = write!(self.key(key), "{number}");
        self
    }

    /// True or false.
    pub fn truth(&mut self, key: &str, truth: bool) -> &mut Self {
        let _ = write!(self.key(key), "{truth}");
        self
    }

    /// A text.
    pub fn text(&mut self, key: &str, text: &str) -> &mut Self {
        let out = self.key(key);
        out.push('"');
        for letter in text.chars() {
            match letter {
                '"' => out.push_str("\\\""),
                '\\' => out.push_str("\\\\"),
                control if control.is_control() => {
                    let _ = write!(out, "\\u{:04x}", u32::from(control));
                }
                other => out.push(other),
            }
        }
        out.push('"');
        self
    }

    /// Bytes: as a text where they are one, else in hexadecimal under the key with `_hex`.
    pub fn bytes(&mut self, key: &str, bytes: &[u8]) -> &mut Self {
        match std::str::from_utf8(bytes) {
            Ok(text) => self.text(key, text),
            Err(_) => {
                let hex: String = bytes.iter().map(|byte| format!("{byte:02x}")).collect();
                self.text(&format!("{key}_hex"), &hex)
            }
        }
    }

    /// The whole object as a line.
    pub fn line(&self) -> String {
        format!("{}}}\n", self.0)
    }
}
