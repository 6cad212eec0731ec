//! What is kept of a file that goes by, beside its rows: which line is on its way, a few lines of the record on its way, what was odd. So
//! the file gets the warnings and refusals of one that is at hand.

use crate::letters::{First, Odds, line_end};
use crate::place::{Line, line_number};
use crate::scene::Seen;
use crate::unusual::Unusual;
use wakeluri::Refusal;

/// So many bytes of a line are kept, from its front.
const FRONT: usize = 1 << 16;

/// A file as far as it has gone by.
#[derive(Debug)]
pub struct Trail {
    /// The line on its way: its width so far, and no bases yet.
    open: Line,
    /// Whether it is a definition line.
    is_definition: bool,
    /// Its front, where it began in an earlier piece or is a definition line.
    front: Vec<u8>,
    /// The front of the line before it, where that ended with a piece: it is judged with the next byte.
    held: Vec<u8>,
    /// The last byte that has come.
    last: u8,
    /// The record on its way.
    pub seen: Seen,
    /// Of the records before it.
    unusual: Unusual,
    odds: Odds,
    odd: Option<First>,
}

impl Trail {
    /// The start of a file.
    pub fn new() -> Self {
        Self {
            open: Line { number: 1, start: 0, width: 0, bases: 0 },
            is_definition: true,
            front: vec![],
            held: vec![],
            last: 0,
            seen: Seen::default(),
            unusual: Unusual::default(),
            odds: Odds::new(),
            odd: None,
        }
    }

    /// The next bytes of the file, which were taken.
    pub fn go_on(&mut self, piece: &[u8]) {
        self.look_for_odd(piece);
        self.held = self.held_of(piece);
        for part in parts(piece) {
            self.add(part);
        }
    }

    /// The next bytes of the file, with which a record was refused behind so many rows: up to what the refusal is about. Tells the front of the
    /// line at fault.
    pub fn go_on_to(&mut self, piece: &[u8], refusal: Refusal, rows: u64) -> Vec<u8> {
        let is_met = |trail: &Self| trail.seen.number > rows && (refusal.number < 5 || trail.seen.is_at_fault(refusal));
        if is_met(self) {
            return std::mem::take(&mut self.held);
        }
        for part in parts(piece) {
            let is_next = self.open.width == 0 && self.open.start > 0 && part.first() == Some(&b'>');
            if is_next && self.seen.number > rows {
                return vec![];
            }
            let front = self.front_with(part);
            self.add(part);
            if is_met(self) {
                return front;
            }
        }
        // of a blank first line it matters whether another has begun
        self.seen.is_more |= self.open.width > 0 && !self.is_definition && self.seen.number > rows;
        vec![]
    }

    /// The end of the file; returns the front of its last line.
    pub fn end(&mut self) -> Vec<u8> {
        let front = if self.open.width == 0 { std::mem::take(&mut self.held) } else { self.front_with(&[]) };
        if self.open.width > 0 {
            self.close(0, self.last == b'\r');
        }
        let seen = std::mem::take(&mut self.seen);
        self.count(&seen);
        self.seen = seen;
        front
    }

    /// The front of the line that ends with a piece, if one does.
    fn held_of(&self, piece: &[u8]) -> Vec<u8> {
        let Some(before) = piece.strip_suffix(b"\n") else { return vec![] };
        match before.iter().rposition(|byte| *byte == b'\n') {
            None => self.front_with(piece),
            Some(lf) => piece.iter().skip(lf + 1).take(FRONT).copied().collect(),
        }
    }

    /// Records that most are not like, once the end has come.
    pub fn unusual(&self) -> Unusual {
        self.unusual
    }

    /// The first byte among the bases that is no letter, and all of them.
    pub fn odd(&self) -> Option<(First, crate::letters::Odd)> {
        Some((self.odd?, self.odds.found))
    }

    fn look_for_odd(&mut self, piece: &[u8]) {
        let total = self.open.start + self.open.width;
        self.odds.go_on(piece);
        let Some(at) = self.odds.found.first().filter(|_| self.odd.is_none()) else { return };
        // a CR may be known as odd by the next piece
        let before = piece.get(..at.saturating_sub(total)).unwrap_or_default();
        let in_line = before.iter().rposition(|byte| *byte == b'\n').map(|lf| before.len() - lf);
        let line = self.open.number + line_number(before, before.len()) - 1;
        let column = in_line.unwrap_or(at - self.open.start + 1) as u64;
        let byte = if at < total { b'\r' } else { piece.get(before.len()).copied().unwrap_or_default() };
        self.odd = Some(First { line, column, byte });
    }

    /// The front of the line on its way, with some more bytes of it.
    fn front_with(&self, part: &[u8]) -> Vec<u8> {
        let more = part.len().min(FRONT.saturating_sub(self.front.len()));
        [&self.front, part.get(..more).unwrap_or_default()].concat()
    }

    /// Some bytes of one line, up to its LF at most.
    fn add(&mut self, part: &[u8]) {
        if self.open.width == 0 {
            self.is_definition = self.open.start == 0 || part.first() == Some(&b'>');
        }
        let before = if part.len() > 1 { part[part.len() - 2] } else { self.last };
        let is_behind_cr = before == b'\r' && self.open.width + part.len() > 1;
        self.open.width += part.len();
        self.last = part.last().copied().unwrap_or(self.last);
        let is_whole = self.last == b'\n';
        if (self.is_definition || !is_whole) && self.front.len() < FRONT {
            self.front = self.front_with(part);
        }
        if is_whole {
            self.close(1, is_behind_cr);
        }
    }

    /// The line on its way is whole: so many bytes are its LF, and a CR may be before that.
    fn close(&mut self, lf: usize, is_behind_cr: bool) {
        let line = Line { bases: self.open.width - lf - usize::from(is_behind_cr), ..self.open };
        let front = std::mem::take(&mut self.front);
        if self.is_definition {
            let seen = Seen::of(self.seen.number + 1, line, front);
            let before = std::mem::replace(&mut self.seen, seen);
            self.count(&before);
        } else {
            self.seen.add(line);
        }
        self.open = Line { number: line.number + 1, start: line.start + line.width, width: 0, bases: 0 };
    }

    /// Counts a record that is over.
    fn count(&mut self, record: &Seen) {
        if record.definition.is_none() {
            return;
        }
        match record.bases_and_blanks() {
            (false, _) => self.unusual.no_bases += 1,
            (true, true) => self.unusual.blank_lines += 1,
            (true, false) => {}
        }
    }
}

/// The bytes of a piece line by line, each with its LF, the last perhaps without.
fn parts(piece: &[u8]) -> impl Iterator<Item = &[u8]> {
    let mut at = 0;
    std::iter::from_fn(move || {
        let start = at;
        at = line_end(piece, start);
        piece.get(start..at).filter(|part| !part.is_empty())
    })
}
