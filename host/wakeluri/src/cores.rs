//! Files of many records on several cores: parts of a file are indexed, or checked, at the same time. [`reads`] has FASTQ.
//!
//! The answer is the same whatever the number of threads. Each part is a proved call of its own, and parts whose numbers rise from 0 to
//! the end of the file give the whole: that is proved for any numbers. So where a file is cut is a matter of speed alone. The numbers
//! that are chosen here lie where records begin, near equal shares of the bytes.

mod reads;

use crate::refusal::Call;
use crate::table::{check_whole, filled, index_strict_whole, index_whole};
use crate::{Refusal, Table, entry};
use core::ops::Range;
use core::sync::atomic::{AtomicUsize, Ordering};
use std::thread;

/// A part is worth a thread from so many bytes on: starting a thread takes as long as some 100 kB.
const WORTH: usize = 2 << 20;

/// No file may be longer.
const LIMIT: u64 = 1 << 40;

/// How far before its first base the definition line of a record is looked for, and how long a line of an index may be where a file is cut by it.
const NEAR: usize = 1 << 16;

/// How many threads are used where nothing else is said; 0 for as many as there are cores.
static THREADS: AtomicUsize = AtomicUsize::new(0);

/// How many threads are used for a file, and how many bytes make a thread worth its while.
///
/// ```
/// use wakeluri::Cores;
///
/// let fasta = b">s\nACGT\n>t\nGG\n";
/// let table = Cores::new(8).index(fasta)?;
/// assert_eq!(table, wakeluri::index(fasta)?);
/// assert_eq!(Cores::new(2).check(fasta, &table.write_index()?), Ok(()));
/// # Ok::<(), wakeluri::Refusal>(())
/// ```
#[derive(Clone, Copy, Debug, Eq, PartialEq)]
pub struct Cores {
    threads: usize,
    worth: usize,
}

impl Default for Cores {
    /// As many threads as [`use_threads`] says; as there are cores, where it says nothing.
    fn default() -> Self {
        Self::new(THREADS.load(Ordering::Relaxed))
    }
}

/// Uses so many threads from now on in [`index`](crate::index), [`check`](crate::check), [`fastq::index`](crate::fastq::index), [`fastq::check`](crate::fastq::check) and whatever calls them; 0 for as many as there
/// are cores, which is so from the start. A small file, and one with few records, takes fewer. This changes no answer.
///
/// ```
/// wakeluri::use_threads(1);
/// assert_eq!(wakeluri::Cores::default(), wakeluri::Cores::new(1));
/// ```
pub fn use_threads(threads: usize) {
    THREADS.store(threads, Ordering::Relaxed);
}

impl Cores {
    /// At most so many threads; 0 for as many as there are cores.
    pub fn new(threads: usize) -> Self {
        let cores = || thread::available_parallelism().map_or(1, core::num::NonZero::get);
        Self { threads: if threads == 0 { cores() } else { threads }, worth: WORTH }
    }

    /// How many threads are used at most.
    pub fn threads(self) -> usize {
        self.threads
    }

    /// The same, with a thread for each so many bytes. For tests: two threads for a file of two records.
    #[must_use]
    pub fn with_parts_of(self, bytes: usize) -> Self {
        Self { worth: bytes.max(1), ..self }
    }

    /// As [`index`](crate::index).
    ///
    /// # Errors
    ///
    /// Refuses what that refuses.
    pub fn index(self, fasta: &[u8]) -> Result<Table<'_>, Refusal> {
        let (table, refusal) = self.index_until_refused(fasta);
        refusal.map_or(Ok(table), Err)
    }

    /// As [`index_until_refused`](crate::index_until_refused).
    pub fn index_until_refused(self, fasta: &[u8]) -> (Table<'_>, Option<Refusal>) {
        self.rows(fasta, 3, 1).unwrap_or_else(|| index_whole(fasta))
    }

    /// As [`index_strict_until_refused`](crate::index_strict_until_refused).
    pub fn index_strict_until_refused(self, fasta: &[u8]) -> (Table<'_>, Option<Refusal>) {
        self.rows(fasta, 4, 0).unwrap_or_else(|| index_strict_whole(fasta))
    }

    /// As [`check`](crate::check).
    ///
    /// # Errors
    ///
    /// Refuses what that refuses.
    pub fn check(self, fasta: &[u8], index: &[u8]) -> Result<(), Refusal> {
        if self.parts_accepted(fasta, index) {
            return Ok(());
        }
        // a refusal tells the record's number in the whole file
        check_whole(fasta, index)
    }

    /// How many parts so many bytes are worth. Too many of them are refused at once.
    fn parts(self, bytes: usize) -> usize {
        if bytes as u64 > LIMIT { 0 } else { self.threads.min(bytes / self.worth) }
    }

    /// The rows of the parts, one behind the other up to the first refusal; none where the file is not cut. No record but a last one has
    /// fewer than `least` bytes.
    fn rows(self, fasta: &[u8], least: usize, complete: u64) -> Option<(Table<'_>, Option<Refusal>)> {
        let cuts = self.records_near_shares(fasta);
        if cuts.len() < 2 {
            return None;
        }
        let parts = at_once(&cuts, |part| {
            let (from, to) = (part.start as u64, part.end as u64);
            filled(fasta, part.clone(), part.len() / least + 1, Call::Index, |file, table| {
                entry::index_part(file, from, to, complete, table)
            })
        });
        let (mut bytes, mut in_use, mut refusal) = (vec![], 0, None);
        for (part, refused) in parts {
            in_use += part.len();
            bytes.extend_from_slice(part.as_bytes());
            refusal = refused;
            if refusal.is_some() {
                break;
            }
        }
        Some((Table::from_bytes(fasta, bytes, in_use), refusal))
    }

    /// Whether the file was cut into parts, and each was accepted with its part of the index: then the whole is.
    fn parts_accepted(self, fasta: &[u8], index: &[u8]) -> bool {
        let cuts = lines_near_shares(self.parts(fasta.len()), fasta, index, record_before);
        cuts.len() > 1
            && at_once(&cuts, |part| {
                let [from, to] = [part.start.0, part.end.0].map(|record| record as u64);
                let [first, last] = [part.start.1, part.end.1].map(|line| line as u64);
                entry::check_part(fasta, from, to, index, first, last).refusal == 0
            })
            .into_iter()
            .all(|accepted| accepted)
    }

    /// Parts of a file, near equal shares of its bytes: from one start of a record to the next.
    fn records_near_shares(self, fasta: &[u8]) -> Vec<Range<usize>> {
        let parts = self.parts(fasta.len());
        if parts < 2 {
            return vec![];
        }
        // each search may pass over a whole record, so they are made at once
        let shares: Vec<Range<usize>> = (1..parts).map(|k| share(fasta.len(), k, parts)..fasta.len()).collect();
        // one long record is searched in vain, so no search goes far: an eighth of a share to each side
        let most = (fasta.len() / parts / 8).max(NEAR);
        let starts = at_once(&shares, |share| record_near(fasta, share.start, most));
        between(0, starts.into_iter().flatten(), fasta.len(), |one, next| one < next)
    }
}

/// So many parts of a file, at most, with their parts of its index, by what the index says of where records are, and by a look back from a record's
/// first base to its start. Where the index is wrong, so is the cut, and a part is not accepted.
fn lines_near_shares(
    parts: usize,
    file: &[u8],
    index: &[u8],
    record_before: impl Fn(&[u8], usize) -> Option<usize>,
) -> Vec<Range<(usize, usize)>> {
    if parts < 2 {
        return vec![];
    }
    // an index that can't be read near one share is not searched for the others
    let near = (1..parts).map(|k| line_near(index, share(file.len(), k, parts))).collect::<Option<Vec<_>>>();
    let cuts = near.into_iter().flatten().filter_map(|(line, position)| Some((record_before(file, position)?, line)));
    between((0, 0), cuts, (file.len(), index.len()), |one, next| one.0 < next.0 && one.1 < next.1)
}

/// What a function gives of each part, on a thread each; where the system has no thread left, on this one.
fn at_once<T: Send + Sync, R: Send>(parts: &[Range<T>], work: impl Fn(&Range<T>) -> R + Sync) -> Vec<R> {
    let work = &work;
    thread::scope(|scope| {
        let Some((first, rest)) = parts.split_first() else { return vec![] };
        let start = |part| thread::Builder::new().spawn_scoped(scope, move || work(part));
        let others: Vec<_> = rest.iter().map(|part| (part, start(part))).collect();
        // this thread has the first part
        let mut given = vec![work(first)];
        for (part, other) in others {
            given.push(match other {
                Ok(other) => other.join().unwrap_or_else(|panic| std::panic::resume_unwind(panic)),
                Err(_) => work(part),
            });
        }
        given
    })
}

/// Where share `k` of so many begins.
fn share(bytes: usize, k: usize, parts: usize) -> usize {
    // no file is near half of what fits
    bytes / parts * k
}

/// From a first number over those that rise to a last: the parts between them.
fn between<T: Copy>(first: T, cuts: impl Iterator<Item = T>, last: T, rises: impl Fn(T, T) -> bool) -> Vec<Range<T>> {
    let mut parts = vec![];
    let mut from = first;
    for cut in cuts {
        if rises(from, cut) && rises(cut, last) {
            parts.push(from..cut);
            from = cut;
        }
    }
    parts.push(from..last);
    parts
}

/// The start of a record that is nearest to an offset: a '>' behind an LF. It is looked for on both sides, farther and farther away, up to
/// so many bytes.
fn record_near(fasta: &[u8], at: usize, most: usize) -> Option<usize> {
    let mut reach = NEAR;
    let (mut before, mut behind) = (at, at);
    loop {
        let (low, high) = (at.saturating_sub(reach), at.saturating_add(reach).min(fasta.len()));
        let left = last_start(fasta, low, before);
        let right = first_start(fasta, behind, high);
        match (left, right) {
            (Some(left), Some(right)) => return Some(if at - left < right - at { left } else { right }),
            (Some(one), None) | (None, Some(one)) => return Some(one),
            (None, None) if reach >= most => return None,
            (None, None) => (before, behind, reach) = (low, high, reach.saturating_mul(2).min(most)),
        }
    }
}

/// The first '>' behind an LF from one offset up to another.
fn first_start(fasta: &[u8], from: usize, to: usize) -> Option<usize> {
    let blocks = fasta.get(from..to)?.chunks(BLOCK).enumerate();
    blocks
        .filter(|(_, block)| has_mark(block))
        .find_map(|(k, block)| (0..block.len()).map(|i| from + k * BLOCK + i).find(|at| is_start(fasta, *at)))
}

/// The last.
fn last_start(fasta: &[u8], from: usize, to: usize) -> Option<usize> {
    let blocks = fasta.get(from..to)?.chunks(BLOCK).enumerate().rev();
    blocks
        .filter(|(_, block)| has_mark(block))
        .find_map(|(k, block)| (0..block.len()).rev().map(|i| from + k * BLOCK + i).find(|at| is_start(fasta, *at)))
}

/// So many bytes are looked at without a stop, which the compiler makes fast.
const BLOCK: usize = 256;

fn has_mark(block: &[u8]) -> bool {
    block.iter().fold(false, |any, byte| any | (*byte == b'>'))
}

fn is_start(fasta: &[u8], at: usize) -> bool {
    fasta.get(at) == Some(&b'>') && at.checked_sub(1).is_some_and(|before| fasta.get(before) == Some(&b'\n'))
}

/// The start of the record whose first base lies at an offset, by a look back.
fn record_before(fasta: &[u8], position: usize) -> Option<usize> {
    last_start(fasta, position.saturating_sub(NEAR), position.min(fasta.len()))
}

/// The first line of an index whose record's first base lies at an offset or behind it, or the one before that, if that is nearer: where the line
/// begins, and that position. The lines of an index stand in the order of the file, so they are halved again and again.
fn line_near(index: &[u8], offset: usize) -> Option<(usize, usize)> {
    let (mut low, mut high) = (0, index.len());
    // lines that begin before `low` lie before the offset; one that begins at `high` or behind it does not
    let mut found = None;
    let mut before = None;
    while low < high {
        let middle = low + (high - low) / 2;
        let start = near_line_start(index, middle)?;
        if start >= high {
            // no line begins in the upper half
            high = middle;
            continue;
        }
        let position = position_in(index, start)?;
        if position < offset {
            before = Some((start, position));
            low = start + 1;
        } else {
            found = Some((start, position));
            high = middle;
        }
    }
    let is_nearer = |one: (usize, usize), other: (usize, usize)| one.1.abs_diff(offset) < other.1.abs_diff(offset);
    match (before, found) {
        (Some(before), Some(found)) => Some(if is_nearer(before, found) { before } else { found }),
        (one, other) => one.or(other),
    }
}

/// Where the first line begins at an offset or behind it.
fn line_start(index: &[u8], at: usize) -> usize {
    if at == 0 {
        return 0;
    }
    let rest = index.get(at - 1..).unwrap_or_default();
    rest.iter().position(|byte| *byte == b'\n').map_or(index.len(), |lf| at + lf)
}

/// The same, if no line is long: what has no LF far and wide is no index.
fn near_line_start(index: &[u8], at: usize) -> Option<usize> {
    let near = index.get(..index.len().min(at.saturating_add(NEAR)))?;
    let start = line_start(near, at);
    (start < near.len() || near.len() == index.len()).then_some(start)
}

/// The position in the line that begins at an offset: the third column, of lines of five and of six.
fn position_in(index: &[u8], start: usize) -> Option<usize> {
    let line = index.get(start..near_line_start(index, start + 1)?)?;
    let digits = line.split(|byte| *byte == b'\t').nth(2)?;
    core::str::from_utf8(digits).ok()?.parse().ok()
}
