//! What is wrong with a FASTQ file, in words, with its line and byte. The proved code has refused by then.

use crate::advice;
use crate::failure::Failure;
use crate::faults::{name_of, nth_line, refused, refused_definition};
use crate::input::Input;
use crate::place::{self, Line, commas, count, short};
use crate::scene::uneven;
use wakeluri::fastq::{Part, Record, Table as Reads};
use wakeluri::{Refusal, Table};

/// The lines of a record, as far as they are there.
pub struct Lines {
    /// Its definition line.
    pub definition: Line,
    /// Those of its bases.
    pub sequence: Vec<Line>,
    /// The '+' line.
    pub plus: Option<Line>,
    /// As many as those of its bases, or fewer where the file ends.
    pub qualities: Vec<Line>,
}

impl Lines {
    /// The record whose definition line begins at an offset.
    pub fn at(file: &[u8], start: usize, number: u64) -> Option<Self> {
        let mut lines = place::lines(file, start, number).peekable();
        let definition = lines.next()?;
        let mut sequence = vec![];
        while let Some(line) = lines.next_if(|line| file.get(line.start) != Some(&b'+')) {
            sequence.push(line);
        }
        let plus = lines.next();
        let qualities = lines.take(sequence.len()).collect();
        Some(Self { definition, sequence, plus, qualities })
    }

    /// Its last line.
    pub fn last(&self) -> Line {
        let last = self.qualities.last().copied().or(self.plus);
        last.or(self.sequence.last().copied()).unwrap_or(self.definition)
    }

    /// The first sequence line that is not like the first one, nor a good last one.
    fn uneven(&self) -> Option<Line> {
        let first = self.sequence.first()?;
        let is_like = |line: &Line| (line.bases, line.width) == (first.bases, first.width);
        let last = self.sequence.len() - 1;
        let is_last = |(number, line): &(usize, &Line)| {
            *number == last && (1..=first.bases).contains(&line.bases) && line.width <= first.width
        };
        let mut lines = self.sequence.iter().enumerate().skip(1);
        lines.find(|line| !is_last(line) && !is_like(line.1)).map(|(_, line)| *line)
    }

    /// The first quality line that does not fit its line of bases; none if it is missing.
    fn unfit(&self, file: &[u8]) -> Option<Line> {
        let pairs = self.qualities.iter().zip(&self.sequence);
        let fits = |(line, partner): &(&Line, &Line)| {
            let ended = place::text(file, **line).ends_with(b"\n");
            line.bases == partner.bases && (line.width == partner.width || !ended)
        };
        pairs.filter(|pair| !fits(pair)).map(|(line, _)| *line).next()
    }
}

/// The record that the indexer refused, after the rows that it had made.
pub fn refused_record(file: &[u8], rows: &Table<'_>) -> Option<Lines> {
    let start = match rows.len().checked_sub(1) {
        None => 0,
        Some(row) => {
            let last = Lines::at(file, place::definition_start(rows, row)?, 0)?.last();
            last.start + last.width
        }
    };
    Lines::at(file, start, place::line_number(file, start))
}

/// A refusal of the indexer of FASTQ, or of its checker for the file alone, in words.
pub fn not_indexed(fastq: &Input, rows: &Table<'_>, refusal: Refusal) -> Failure {
    let file = fastq.bytes();
    let Some(lines) = refused_record(file, rows) else {
        return refused(&fastq.shown, None, &refusal.words(), String::new(), refusal);
    };
    let name = name_of(place::text(file, lines.definition));
    let (found, expected) = (refusal.first, refusal.second);
    let (at, what, next) = match refusal.number {
        2..=4 => return refused_definition(fastq, lines.definition, refusal.first, refusal),
        5 => match lines.sequence.first() {
            Some(first) => (*first, format!("the first line of {name} is blank"), "take the blank line out"),
            None => (lines.definition, format!("{name} has no bases"), "take the record out, or put its bases in"),
        },
        6 | 7 => {
            let (what, next) = uneven(&name, refusal);
            (lines.uneven().unwrap_or(lines.definition), what, next)
        }
        38 => (
            lines.last(),
            format!("{name} has no line that begins with '+' behind its bases: the file ends here"),
            "is the file whole?",
        ),
        39 => match lines.unfit(file) {
            None => {
                let last = lines.last();
                let what = format!("the file ends before the qualities of {name} do");
                (last, what, "is the file whole?")
            }
            Some(line) if found == expected => (
                line,
                format!("this line of qualities of {name} has another end than its line of bases"),
                "give all lines the same ends, LF alone or CR and LF",
            ),
            Some(line) => {
                let (found, expected) = (commas(found), count(expected, "base"));
                let what =
                    format!("this line of qualities of {name} has {found}, and its line of bases has {expected}");
                (line, what, "a line of qualities is as long as its line of bases")
            }
        },
        _ => (lines.definition, refusal.words(), ""),
    };
    refused(&fastq.shown, Some(at), &what, next.to_string(), refusal)
}

/// A record of a FASTQ file and its line of the index, as far as they are there.
struct Pair<'p> {
    fastq: &'p Input,
    reads: Reads<'p>,
    /// The record's number, from 1.
    number: u64,
    record: Option<Record<'p>>,
    line: Option<Line>,
    said: Option<Record<'p>>,
}

impl<'p> Pair<'p> {
    fn of(fastq: &'p Input, reads: Reads<'p>, index: &'p Input, number: u64) -> Self {
        let before = number.checked_sub(1).and_then(|before| usize::try_from(before).ok());
        let record = before.and_then(|before| reads.record(reads.row(before)?));
        let line = nth_line(index, number);
        let said = line.and_then(|line| wakeluri::fastq::read_line(place::text(index.bytes(), line)).ok());
        Self { fastq, reads, number, record, line, said: said.map(|(record, _)| record) }
    }

    fn name(&self) -> String {
        self.record.map_or("the record".to_string(), |record| short(record.name))
    }

    /// What is likely the cause where a line is missing: the record has the name of one before it.
    fn twin(&self) -> String {
        let own = self.record.map(|record| record.name);
        let mut before = self.reads.records().zip(1..).take_while(|(_, number)| *number < self.number);
        before.find(|(record, _)| Some(record.name) == own).map_or(String::new(), |(_, first)| {
            let first = commas(first);
            format!("; record {first} has that name too, and samtools leaves out the second record of a name")
        })
    }

    /// A base, or a quality, is not where the line says. Qualities are judged behind the bases: if the base is there, it is its quality.
    fn other_place(&self, base: u64) -> String {
        let of = |record: Option<Record<'_>>, qualities: bool| {
            let record = record?;
            let position = if qualities { record.quality_position } else { record.position };
            place::said([position, record.line_bases, record.line_width], base)
        };
        let qualities = of(self.record, false) == of(self.said, false);
        let said = of(self.said, qualities)
            .map_or("farther than a file can be long".to_string(), |byte| format!("at byte {}", commas(byte)));
        let is = of(self.record, qualities).map_or(String::new(), |byte| {
            let line = place::line_number(self.fastq.bytes(), usize::try_from(byte).unwrap_or(usize::MAX));
            format!(", and it is at byte {} (line {}) of {}", commas(byte), commas(line), self.fastq.shown)
        });
        let what = if qualities { "the quality of base" } else { "base" };
        format!("by this line {what} {} of {} is {said}{is}", commas(base), self.name())
    }
}

/// A refusal of the checker of FASTQ, in words.
pub fn not_accepted(fastq: &Input, index: &Input, refusal: Refusal) -> Failure {
    let (reads, of_file) = wakeluri::fastq::index_until_refused(fastq.bytes());
    if of_file.is_some() {
        return not_indexed(fastq, &reads.part(Part::Bases), refusal);
    }
    let pair = Pair::of(fastq, reads, index, refusal.first);
    let (file, number, name) = (&fastq.shown, commas(pair.number), pair.name());
    let (line, what) = match refusal.number {
        19 => {
            let lines = count(place::lines(index.bytes(), 0, 1).count() as u64, "line");
            (None, format!("it ends after {lines}, and record {number} of {file} is {name}{}", pair.twin()))
        }
        20 => {
            let line = nth_line(index, refusal.first.saturating_add(1));
            (line, format!("it goes on here, and {file} has {}", count(refusal.first, "record")))
        }
        21 => {
            let said = pair.said.map_or(String::new(), |said| short(said.name));
            let what = format!("this line is about '{said}', and record {number} of {file} is '{name}'{}", pair.twin());
            (pair.line, what)
        }
        22 => {
            let length = |record: Option<Record<'_>>| record.map_or(0, |record| record.length);
            let (bases, said) = (count(length(pair.record), "base"), commas(length(pair.said)));
            (pair.line, format!("{name} has {bases} in {file}, and this line says {said}"))
        }
        23 => (pair.line, pair.other_place(refusal.second)),
        _ => (pair.line, refusal.words()),
    };
    refused(&index.shown, line, &what, advice::new_index(fastq), refusal)
}

#[cfg(test)]
mod tests {
    use super::*;

    #[test]
    fn lines_of_a_record() {
        let file = b"@s\nAC\nA\n+\n@I\n+\n@t\r\nA\r\n+\r\nI";
        let rows = crate::fastq::rows_until_refused(file).0;
        let second = place::definition_start(&rows, 1).and_then(|start| Lines::at(file, start, 7)).unwrap();
        assert_eq!((second.definition.start, second.last().start, second.last().number), (15, 25, 10));
        assert_eq!((second.uneven(), second.unfit(file)), (None, None));
        let refused = |file: &[u8]| {
            let (rows, refusal) = crate::fastq::rows_until_refused(file);
            let lines = refused_record(file, &rows).unwrap();
            let line = |line: Option<Line>| line.map(|line| line.number);
            (refusal.map(|refusal| refusal.number), line(lines.uneven()), line(lines.unfit(file)))
        };
        assert_eq!(refused(b"@s\nAC\nA\nA\n+\n"), (Some(6), Some(3), None));
        assert_eq!(refused(b"@s\nA\n+\nI\n@t\nAC\nAC\r\n+\nII\nII\n"), (Some(7), Some(7), Some(10)));
        assert_eq!(refused(b"@s\nA\n+\n@\n@t\nAC\nA\n+\nII\nII\n"), (Some(39), None, Some(10)));
        assert_eq!(refused(b"@s\nA\n+\n"), (Some(39), None, None));
    }
}
