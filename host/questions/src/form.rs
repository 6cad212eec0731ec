//! The line form: a question is `family argument ...`, its answer the same line with ` => ` and the answer behind it.
//!
//! Words are split by one space; [`Kind`] says how each is written. An answer begins with `ok`, or with `no` and the refusal's number
//! and two numbers; memory afterwards is always told. [`Family`] has what each family takes and tells.

use crate::family::{Family, Kind, Shape, family};
use crate::row::Rows;
use std::fmt::Write as _;
use std::io::{self, BufRead, Write};

/// A refusal: its number and its two numbers.
pub type No = [u64; 3];

/// The bounds of a region, each of which may be absent.
pub type Bounds = (Option<u64>, Option<u64>);

/// An argument, or a part of an answer: a value of the [`Kind`] of its name.
#[derive(Clone, Debug, Eq, PartialEq)]
#[allow(missing_docs)]
pub enum Value {
    Bytes(Vec<u8>),
    MaybeBytes(Option<Vec<u8>>),
    Number(u64),
    MaybeNumber(Option<u64>),
    Bounds(Bounds),
    Numbers(Vec<u64>),
    Rows(Rows),
    /// A row and its bounds.
    Regions(Vec<(u64, Bounds)>),
    /// A piece, or the end.
    Steps(Vec<Option<Vec<u8>>>),
    Stepped(Vec<[u64; 4]>),
    Table(Vec<u64>),
    Output(Vec<u8>),
}

/// What a speaker answers. Lent memory is no part of it: that is left in the arguments.
#[derive(Clone, Debug, Default, Eq, PartialEq)]
pub struct Answer {
    /// What was refused, if anything was.
    pub no: Option<No>,
    /// What its family's shape says, or nothing where that is `none`. After a refusal it may be left out: it is told as 0.
    pub told: Vec<Value>,
}

/// Someone who answers questions: the library, the model, or another.
pub trait Speaker {
    /// The answer to a question. The arguments are of its family's kinds, and those that are lent are left as the call leaves them.
    /// `None` where this speaker has no answer.
    fn answer(&self, family: &str, arguments: &mut [Value]) -> Option<Answer>;
}

/// What comes without a refusal.
pub trait Tell {
    /// Its parts.
    fn parts(self) -> Vec<Value>;
}

impl Tell for () {
    fn parts(self) -> Vec<Value> {
        vec![]
    }
}

impl Tell for u64 {
    fn parts(self) -> Vec<Value> {
        vec![Value::Number(self)]
    }
}

impl<const N: usize> Tell for [u64; N] {
    fn parts(self) -> Vec<Value> {
        self.map(Value::Number).to_vec()
    }
}

impl Tell for Vec<Value> {
    fn parts(self) -> Vec<Value> {
        self
    }
}

impl<T: Tell> Tell for Option<T> {
    fn parts(self) -> Vec<Value> {
        self.map_or(vec![], T::parts)
    }
}

impl<T: Tell> From<Result<T, No>> for Answer {
    fn from(answer: Result<T, No>) -> Self {
        match answer {
            Ok(told) => Self { no: None, told: told.parts() },
            Err(no) => Self { no: Some(no), told: vec![] },
        }
    }
}

// ---- words that are read ----

/// Bytes from `x` and hex.
pub fn bytes(word: &str) -> Option<Vec<u8>> {
    hex(word.strip_prefix('x')?)
}

fn hex(digits: &str) -> Option<Vec<u8>> {
    let digit = |d: u8| (d as char).to_digit(16).map(|d| d as u8);
    let pairs = digits.as_bytes().chunks_exact(2);
    if !pairs.remainder().is_empty() {
        return None;
    }
    pairs.map(|pair| Some(digit(pair[0])? << 4 | digit(pair[1])?)).collect()
}

/// A number of 64 bits from decimal digits.
fn number(word: &str) -> Option<u64> {
    word.bytes().all(|b| b.is_ascii_digit()).then(|| word.parse().ok())?
}

/// Parts with commas between; none of an empty word.
fn listed<T>(word: &str, part: impl Fn(&str) -> Option<T>) -> Option<Vec<T>> {
    if word.is_empty() { Some(vec![]) } else { word.split(',').map(part).collect() }
}

/// A table from `t` and numbers with commas between.
pub fn table(word: &str) -> Option<Vec<u64>> {
    listed(word.strip_prefix('t')?, number)
}

fn maybe<T>(word: &str, there: impl Fn(&str) -> Option<T>) -> Option<Option<T>> {
    if word == "-" { Some(None) } else { there(word).map(Some) }
}

fn region(word: &str) -> Option<(u64, Bounds)> {
    let mut parts = word.split(':');
    let (row, start, end) = (parts.next()?, parts.next()?, parts.next()?);
    let bounds = (maybe(start, number)?, maybe(end, number)?);
    parts.next().is_none().then_some((number(row)?, bounds))
}

fn step(word: &str) -> Option<Option<Vec<u8>>> {
    if word == "e" { Some(None) } else { hex(word.strip_prefix('f')?).map(Some) }
}

impl Value {
    /// A value of a kind, from the next word, or the next two.
    fn read<'q>(kind: Kind, words: &mut impl Iterator<Item = &'q str>) -> Option<Self> {
        let word = words.next()?;
        Some(match kind {
            Kind::Bytes => Self::Bytes(bytes(word)?),
            Kind::MaybeBytes => Self::MaybeBytes(maybe(word, bytes)?),
            Kind::Number => Self::Number(number(word)?),
            Kind::MaybeNumber => Self::MaybeNumber(maybe(word, number)?),
            Kind::Bounds => Self::Bounds((maybe(word, number)?, maybe(words.next()?, number)?)),
            Kind::Numbers => Self::Numbers(table(word)?),
            Kind::Rows => Self::Rows(Rows { numbers: table(word)?, in_use: number(words.next()?)? }),
            Kind::Regions => Self::Regions(listed(word.strip_prefix('r')?, region)?),
            Kind::Steps => Self::Steps(listed(word, step)?),
            // only an answer has it
            Kind::Stepped => return None,
            Kind::Table => Self::Table(table(word)?),
            Kind::Output => Self::Output(bytes(word)?),
        })
    }

    /// What kind of value it is.
    pub fn kind(&self) -> Kind {
        match self {
            Self::Bytes(_) => Kind::Bytes,
            Self::MaybeBytes(_) => Kind::MaybeBytes,
            Self::Number(_) => Kind::Number,
            Self::MaybeNumber(_) => Kind::MaybeNumber,
            Self::Bounds(_) => Kind::Bounds,
            Self::Numbers(_) => Kind::Numbers,
            Self::Rows(_) => Kind::Rows,
            Self::Regions(_) => Kind::Regions,
            Self::Steps(_) => Kind::Steps,
            Self::Stepped(_) => Kind::Stepped,
            Self::Table(_) => Kind::Table,
            Self::Output(_) => Kind::Output,
        }
    }

    /// Adds it to a line, with a space before each word.
    fn tell(&self, line: &mut String) {
        if let Self::Stepped(steps) = self {
            for [number, first, second, rows] in steps {
                let _ = write!(line, " {number}:{first}:{second}:{rows}");
            }
            return;
        }
        line.push(' ');
        match self {
            Self::Bytes(bytes) | Self::MaybeBytes(Some(bytes)) | Self::Output(bytes) => tell_bytes(line, bytes),
            Self::Number(number) => tell_number(line, Some(*number)),
            Self::MaybeNumber(number) => tell_number(line, *number),
            Self::Bounds(bounds) => tell_bounds(line, *bounds, ' '),
            Self::Numbers(numbers) | Self::Table(numbers) => tell_table(line, numbers),
            Self::Rows(rows) => {
                tell_table(line, &rows.numbers);
                let _ = write!(line, " {}", rows.in_use);
            }
            Self::Regions(regions) => {
                line.push('r');
                tell_list(line, regions, |line, (row, bounds)| {
                    let _ = write!(line, "{row}:");
                    tell_bounds(line, *bounds, ':');
                });
            }
            Self::Steps(steps) => tell_list(line, steps, |line, step| match step {
                None => line.push('e'),
                Some(piece) => {
                    line.push('f');
                    tell_hex(line, piece);
                }
            }),
            Self::MaybeBytes(None) | Self::Stepped(_) => line.push('-'),
        }
    }
}

// ---- words that are written ----

fn tell_hex(line: &mut String, bytes: &[u8]) {
    const DIGITS: [char; 16] = ['0', '1', '2', '3', '4', '5', '6', '7', '8', '9', 'a', 'b', 'c', 'd', 'e', 'f'];
    for byte in bytes {
        line.push(DIGITS[usize::from(byte >> 4)]);
        line.push(DIGITS[usize::from(byte & 15)]);
    }
}

/// Tells bytes as `x` and hex.
pub fn tell_bytes(line: &mut String, bytes: &[u8]) {
    line.push('x');
    tell_hex(line, bytes);
}

fn tell_list<T>(line: &mut String, parts: &[T], tell: impl Fn(&mut String, &T)) {
    for (k, part) in parts.iter().enumerate() {
        if k > 0 {
            line.push(',');
        }
        tell(line, part);
    }
}

/// Tells a table as `t` and numbers with commas between.
fn tell_table(line: &mut String, numbers: &[u64]) {
    line.push('t');
    tell_list(line, numbers, |line, number| tell_number(line, Some(*number)));
}

fn tell_number(line: &mut String, number: Option<u64>) {
    match number {
        None => line.push('-'),
        Some(number) => {
            let _ = write!(line, "{number}");
        }
    }
}

fn tell_bounds(line: &mut String, (start, end): Bounds, between: char) {
    tell_number(line, start);
    line.push(between);
    tell_number(line, end);
}

// ---- questions and answers ----

/// The line of a question.
pub fn question(family: &str, arguments: &[Value]) -> String {
    let mut line = family.to_string();
    arguments.iter().for_each(|argument| argument.tell(&mut line));
    line
}

/// A question's family and arguments, if these are of the family's kinds and no word is left over.
pub fn read_question(question: &str) -> Option<(&'static Family, Vec<Value>)> {
    let mut words = question.split(' ');
    let family = family(words.next()?)?;
    let arguments = family.takes.iter().map(|kind| Value::read(*kind, &mut words)).collect::<Option<Vec<_>>>()?;
    words.next().is_none().then_some((family, arguments))
}

/// Whether an answer has the parts that its family tells, or none of them where it may.
fn fits(shape: Shape, answer: &Answer) -> bool {
    let may_be_none = answer.no.is_some() || matches!(shape, Shape::Found(..));
    let kinds = shape.parts().iter().map(|part| part.kind());
    may_be_none && answer.told.is_empty() || answer.told.iter().map(Value::kind).eq(kinds)
}

/// Adds an answer to a line that ends in `=>`: what the family answers, and lent memory as it was left.
fn tell_answer(line: &mut String, shape: Shape, answer: &Answer, arguments: &[Value]) {
    match (answer.no, shape) {
        (Some([number, first, second]), _) => {
            let _ = write!(line, " no {number} {first} {second}");
        }
        (None, Shape::Bare(_)) => {}
        (None, _) => line.push_str(" ok"),
    }
    match (answer.no, shape) {
        (Some(_), Shape::IfOk(_) | Shape::Found(..)) => {}
        (Some(_), Shape::Always(parts)) if answer.told.is_empty() => parts.iter().for_each(|_| line.push_str(" 0")),
        (None, Shape::Found(..)) if answer.told.is_empty() => line.push_str(" none"),
        _ => answer.told.iter().for_each(|part| part.tell(line)),
    }
    let lent = |argument: &&Value| matches!(argument.kind(), Kind::Table | Kind::Output);
    arguments.iter().filter(lent).for_each(|argument| argument.tell(line));
}

/// The whole line of a question and its answer, `skip` where the speaker or the form has none; `None` for a line that asks nothing.
pub fn answered(speaker: &impl Speaker, line: &str) -> Option<String> {
    let question = line.split(" => ").next().unwrap_or_default();
    if question.is_empty() || question.starts_with('#') {
        return None;
    }
    let answer = read_question(question).and_then(|(family, mut arguments)| {
        let answer = speaker.answer(family.name, &mut arguments).filter(|answer| fits(family.tells, answer))?;
        Some((family, answer, arguments))
    });
    let mut line = format!("{question} =>");
    match answer {
        None => line.push_str(" skip"),
        Some((family, answer, arguments)) => tell_answer(&mut line, family.tells, &answer, &arguments),
    }
    Some(line)
}

/// Answers every question of an input, a line to each.
pub fn converse(speaker: &impl Speaker, input: impl BufRead, output: impl Write) -> io::Result<()> {
    let mut output = io::BufWriter::new(output);
    for line in input.lines() {
        if let Some(told) = answered(speaker, &line?) {
            writeln!(output, "{told}")?;
        }
    }
    output.flush()
}

/// Every kind is read from the words that it is written with, and from no others.
#[test]
fn words_of_each_kind() {
    let good = [
        (Kind::Bytes, "x"),
        (Kind::Bytes, "x00ff"),
        (Kind::MaybeBytes, "-"),
        (Kind::MaybeBytes, "x"),
        (Kind::Number, "18446744073709551615"),
        (Kind::MaybeNumber, "-"),
        (Kind::MaybeNumber, "0"),
        (Kind::Bounds, "4 5"),
        (Kind::Bounds, "- 7"),
        (Kind::Numbers, "t"),
        (Kind::Rows, "t1,2,3 1"),
        (Kind::Regions, "r"),
        (Kind::Regions, "r0:4:5,1:-:7,2:-:-"),
        (Kind::Steps, "f3e73,f,e"),
        (Kind::Table, "t700,701"),
        (Kind::Output, "x2e"),
    ];
    for (kind, text) in good {
        let mut words = text.split(' ');
        let value = Value::read(kind, &mut words).expect(text);
        assert_eq!((value.kind(), words.next()), (kind, None), "{text}");
        assert_eq!(question("", &[value]), format!(" {text}"));
    }
    assert_eq!(question("", &[Value::Stepped(vec![[0, 0, 0, 1], [6, 0, 4, 1]])]), " 0:0:0:1 6:0:4:1");
    let bad = [
        (Kind::Bytes, "x0"),
        (Kind::Bytes, "-"),
        (Kind::Number, "+1"),
        (Kind::Number, "18446744073709551616"),
        (Kind::Number, ""),
        (Kind::Bounds, "4"),
        (Kind::Rows, "t1"),
        (Kind::Regions, "r0:4"),
        (Kind::Regions, "r0:4:5:6"),
        (Kind::Steps, "x3e"),
        (Kind::Table, "t1,,2"),
        (Kind::Stepped, "0:0:0:1"),
    ];
    for (kind, text) in bad {
        assert_eq!(Value::read(kind, &mut text.split(' ')), None, "{text}");
    }
}
