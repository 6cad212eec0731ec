//! A strict reader of JSON (RFC 8259): one value, and nothing behind it.

use std::collections::BTreeMap;

#[derive(Clone, Debug, PartialEq)]
pub enum Json {
    Null,
    Truth(bool),
    Number(f64),
    Text(String),
    List(Vec<Json>),
    Object(BTreeMap<String, Json>),
}

impl Json {
    /// The value of a text, or where it is none.
    pub fn of(text: &str) -> Result<Self, String> {
        let mut reader = Reader { bytes: text.as_bytes(), at: 0 };
        let value = reader.value()?;
        reader.blanks();
        if reader.at == text.len() { Ok(value) } else { Err(format!("more behind byte {}", reader.at)) }
    }

    pub fn get(&self, key: &str) -> Option<&Self> {
        if let Self::Object(fields) = self { fields.get(key) } else { None }
    }

    pub fn text(&self, key: &str) -> Option<&str> {
        if let Some(Self::Text(text)) = self.get(key) { Some(text) } else { None }
    }

    pub fn number(&self, key: &str) -> Option<u64> {
        if let Some(Self::Number(number)) = self.get(key) { Some(*number as u64) } else { None }
    }
}

/// Each line of a text is an object.
#[track_caller]
pub fn objects(text: &str) -> Vec<Json> {
    assert!(text.is_empty() || text.ends_with('\n'), "the last line has no end: {text}");
    let object = |line: &str| match Json::of(line) {
        Ok(object @ Json::Object(_)) => object,
        other => panic!("no object but {other:?}: {line}"),
    };
    text.split_terminator('\n').map(object).collect()
}

struct Reader<'r> {
    bytes: &'r [u8],
    at: usize,
}

impl Reader<'_> {
    fn blanks(&mut self) {
        while matches!(self.bytes.get(self.at), Some(b' ' | b'\t' | b'\r' | b'\n')) {
            self.at += 1;
        }
    }

    fn wrong<T>(&self, what: &str) -> Result<T, String> {
        Err(format!("{what} at byte {}", self.at))
    }

    fn takes(&mut self, text: &str) -> bool {
        let there = self.bytes[self.at..].starts_with(text.as_bytes());
        self.at += if there { text.len() } else { 0 };
        there
    }

    fn value(&mut self) -> Result<Json, String> {
        self.blanks();
        match self.bytes.get(self.at) {
            Some(b'{') => self.object(),
            Some(b'[') => self.list(),
            Some(b'"') => self.text().map(Json::Text),
            Some(b'-' | b'0'..=b'9') => self.number(),
            _ if self.takes("true") => Ok(Json::Truth(true)),
            _ if self.takes("false") => Ok(Json::Truth(false)),
            _ if self.takes("null") => Ok(Json::Null),
            _ => self.wrong("no value"),
        }
    }

    fn object(&mut self) -> Result<Json, String> {
        let mut fields = BTreeMap::new();
        self.at += 1;
        self.blanks();
        if self.takes("}") {
            return Ok(Json::Object(fields));
        }
        loop {
            self.blanks();
            let key = self.text()?;
            self.blanks();
            if !self.takes(":") {
                return self.wrong("no colon");
            }
            let value = self.value()?;
            if fields.insert(key, value).is_some() {
                return self.wrong("a key that was there before");
            }
            self.blanks();
            if self.takes("}") {
                return Ok(Json::Object(fields));
            }
            if !self.takes(",") {
                return self.wrong("no comma");
            }
        }
    }

    fn list(&mut self) -> Result<Json, String> {
        let mut values = vec![];
        self.at += 1;
        self.blanks();
        if self.takes("]") {
            return Ok(Json::List(values));
        }
        loop {
            values.push(self.value()?);
            self.blanks();
            if self.takes("]") {
                return Ok(Json::List(values));
            }
            if !self.takes(",") {
                return self.wrong("no comma");
            }
        }
    }

    fn hex(&mut self) -> Result<u32, String> {
        let digits = self.bytes.get(self.at..self.at + 4).and_then(|digits| std::str::from_utf8(digits).ok());
        match digits.filter(|digits| digits.bytes().all(|byte| byte.is_ascii_hexdigit())) {
            Some(digits) => {
                self.at += 4;
                Ok(u32::from_str_radix(digits, 16).unwrap())
            }
            None => self.wrong("no four hexadecimal digits"),
        }
    }

    fn text(&mut self) -> Result<String, String> {
        if !self.takes("\"") {
            return self.wrong("no text");
        }
        let mut text = vec![];
        loop {
            let Some(&byte) = self.bytes.get(self.at) else { return self.wrong("a text without an end") };
            self.at += 1;
            match byte {
                b'"' => return String::from_utf8(text).map_err(|_| "no UTF-8".to_string()),
                0..=31 => return self.wrong("a control byte"),
                b'\\' => {
                    let escaped = self.bytes.get(self.at).copied();
                    self.at += 1;
                    let letter = match escaped {
                        Some(byte @ (b'"' | b'\\' | b'/')) => char::from(byte),
                        Some(b'b') => '\u{8}',
                        Some(b'f') => '\u{c}',
                        Some(b'n') => '\n',
                        Some(b'r') => '\r',
                        Some(b't') => '\t',
                        Some(b'u') => {
                            let first = self.hex()?;
                            let code = if (0xd800..0xdc00).contains(&first) && self.takes("\\u") {
                                0x10000 + ((first - 0xd800) << 10) + self.hex()?.wrapping_sub(0xdc00)
                            } else {
                                first
                            };
                            char::from_u32(code).ok_or("half a letter")?
                        }
                        _ => return self.wrong("no such escape"),
                    };
                    text.extend_from_slice(letter.encode_utf8(&mut [0; 4]).as_bytes());
                }
                other => text.push(other),
            }
        }
    }

    fn digits(&mut self) -> Result<usize, String> {
        let from = self.at;
        while self.bytes.get(self.at).is_some_and(u8::is_ascii_digit) {
            self.at += 1;
        }
        if self.at == from { self.wrong("no digit") } else { Ok(self.at - from) }
    }

    fn number(&mut self) -> Result<Json, String> {
        let from = self.at;
        self.takes("-");
        let zero = self.bytes.get(self.at) == Some(&b'0');
        if self.digits()? > 1 && zero {
            return self.wrong("a needless zero");
        }
        if self.takes(".") {
            self.digits()?;
        }
        if self.takes("e") || self.takes("E") {
            let _ = self.takes("+") || self.takes("-");
            self.digits()?;
        }
        let text = std::str::from_utf8(&self.bytes[from..self.at]).unwrap();
        text.parse().map(Json::Number).map_err(|_| "no number".to_string())
    }
}
