//! FASTQ on several cores: parts of a file are indexed, or checked, at the same time.
//!
//! Where a record begins is known only from the record before it. So where a part begins is guessed, and what was found there counts only if
//! the part before it stopped just there; else the part is indexed once more, from where that stopped, or the whole is checked by one call. It is proved
//! that parts that go on from each other give the whole, wherever they are cut: a guess is a matter of speed alone.

use super::{Cores, LIMIT, NEAR, line_start, lines_near_shares};
use crate::fastq::{ROW_BYTES, Table, check_whole, index_whole, most_records, read_index};
use crate::refusal::Call;
use crate::table::rows_for_all;
use crate::{Refusal, entry, pages};
use core::ops::Range;
use std::collections::BTreeMap;
use std::sync::atomic::{AtomicUsize, Ordering};
use std::sync::{Mutex, MutexGuard, PoisonError};
use std::thread;

/// A part's table begins with so many rows.
const FIRST_ROWS: usize = 1 << 10;

impl Cores {
    /// As [`fastq::index_until_refused`](crate::fastq::index_until_refused).
    ///
    /// ```
    /// use wakeluri::{Cores, fastq};
    /// let reads = b"@s\nAC\n+\n!!\n@t\nGT\n+\n#$\n";
    /// let (table, refusal) = Cores::new(2).with_parts_of(8).index_fastq_until_refused(reads);
    /// assert_eq!((table, refusal), fastq::index_until_refused(reads));
    /// ```
    pub fn index_fastq_until_refused(self, fastq: &[u8]) -> (Table<'_>, Option<Refusal>) {
        if self.threads.min(fastq.len() / self.worth) < 2 {
            return index_whole(fastq);
        }
        let mut all = All { bytes: vec![], in_use: 0 };
        let refusal = self.index_fastq_in_parts(fastq, |part| part, |part| all.add(part, fastq));
        (all.table(fastq), refusal)
    }

    /// Indexes a FASTQ file in parts, which are much smaller than the file: each is in the cache while `work` looks at it, on the thread that found its
    /// rows. What that gives is given to `take`, in the order of the file, up to the first refusal, which is the file's. Parts whose rows are
    /// refused are given with the rows before that.
    ///
    /// `work` may be asked about some rows that are in no part of the answer: where a part began was guessed, and it is asked
    /// again.
    ///
    /// ```
    /// use wakeluri::Cores;
    /// let reads = b"@s\nAC\n+\n!!\n@t\nGT\n+\n#$\n";
    /// let mut text = vec![];
    /// let refusal = Cores::new(2).with_parts_of(8).index_fastq_in_parts(
    ///     reads,
    ///     |part| part.write_index().unwrap_or_default(),
    ///     |lines| text.extend(lines),
    /// );
    /// assert_eq!((text, refusal), (b"s\t2\t3\t2\t3\t8\nt\t2\t14\t2\t3\t19\n".to_vec(), None));
    /// ```
    pub fn index_fastq_in_parts<'f, T: Send>(
        self,
        fastq: &'f [u8],
        work: impl Fn(Table<'f>) -> T + Sync,
        take: impl FnMut(T) + Send,
    ) -> Option<Refusal> {
        let size = (self.worth / 2).max(1);
        let parts = Parts { fastq, size, count: fastq.len().div_ceil(size), work };
        let threads = self.threads.min(fastq.len() / self.worth).min(parts.count);
        let joining = Mutex::new(Joining { at: 0, part: 0, refusal: None, take });
        let waiting = Mutex::new(BTreeMap::new());
        let next = AtomicUsize::new(0);
        let own = || {
            loop {
                let part = next.fetch_add(1, Ordering::Relaxed);
                if part >= parts.count {
                    return;
                }
                let found = parts.guessed(part);
                locked(&waiting).insert(part, found);
                // if another thread puts parts together just now, that one or a later one takes this too
                let is_over = joining.try_lock().is_ok_and(|mut joining| parts.join(&mut joining, &waiting));
                if is_over {
                    // no part is asked for any more
                    next.store(parts.count, Ordering::Relaxed);
                }
            }
        };
        if threads > 1 {
            thread::scope(|scope| {
                for _ in 1..threads {
                    // where the system has no thread left, there are fewer
                    let _ = thread::Builder::new().spawn_scoped(scope, own);
                }
                own();
            });
        }
        let mut joining = joining.into_inner().unwrap_or_else(PoisonError::into_inner);
        parts.join(&mut joining, &waiting);
        // on one thread nothing has to be guessed, and each part goes on from the one before it
        while joining.refusal.is_none() && joining.part < parts.count {
            let made = parts.from(joining.at, joining.part);
            joining.add(made);
        }
        joining.refusal
    }

    /// As [`fastq::check`](crate::fastq::check).
    ///
    /// ```
    /// use wakeluri::Cores;
    /// let reads = b"@s\nAC\n+\n!!\n@t\nGT\n+\n#$\n";
    /// let cores = Cores::new(2).with_parts_of(8);
    /// assert_eq!(cores.check_fastq(reads, b"s\t2\t3\t2\t3\t8\nt\t2\t14\t2\t3\t19\n"), Ok(()));
    ///
    /// let refusal = cores.check_fastq(reads, b"s\t2\t3\t2\t3\t8\nt\t2\t14\t2\t3\t18\n").unwrap_err();
    /// assert_eq!([refusal.number, refusal.first, refusal.second], [23, 2, 1]);
    /// ```
    ///
    /// # Errors
    ///
    /// Refuses what that refuses.
    pub fn check_fastq(self, fastq: &[u8], index: &[u8]) -> Result<(), Refusal> {
        if self.passed_parts(fastq, index, |_| Some(())).is_some() {
            return Ok(());
        }
        // a part doesn't tell why it stopped
        check_whole(fastq, index)
    }

    /// Checks a FASTQ file in parts, which are much smaller than the file: each is in the cache while `work` looks at the rows of its index lines, on the
    /// thread that checked it. If all is accepted, what that gives is given to `take`, in the order of the file.
    ///
    /// ```
    /// use wakeluri::Cores;
    /// let reads = b"@s\nAC\n+\n!!\n@t\nGT\n+\n#$\n";
    /// let index = b"s\t2\t3\t2\t3\t8\nt\t2\t14\t2\t3\t19\n";
    /// let mut bases = 0;
    /// Cores::new(2).with_parts_of(8).check_fastq_in_parts(
    ///     reads,
    ///     index,
    ///     |part| part.records().map(|record| record.length).sum::<u64>(),
    ///     |some| bases += some,
    /// )?;
    /// assert_eq!(bases, 4);
    /// # Ok::<(), wakeluri::Refusal>(())
    /// ```
    ///
    /// # Errors
    ///
    /// Refuses what [`fastq::check`](crate::fastq::check) refuses, and gives nothing then.
    pub fn check_fastq_in_parts<'i, T: Send>(
        self,
        fastq: &[u8],
        index: &'i [u8],
        work: impl Fn(Table<'i>) -> T + Sync,
        take: impl FnMut(T),
    ) -> Result<(), Refusal> {
        let rows = |lines: Range<usize>| read_index(index.get(lines)?).ok();
        let passed = self.passed_parts(fastq, index, |lines| rows(lines).map(&work));
        let given = match passed {
            Some(given) => given,
            None => {
                check_whole(fastq, index)?;
                vec![work(read_index(index)?)]
            }
        };
        given.into_iter().for_each(take);
        Ok(())
    }

    /// What `work` gives of the lines of each part, if the file was cut into parts, and each stopped where the next begins, in the file and in the index,
    /// and the last at the end of both: then the whole is accepted.
    fn passed_parts<T: Send>(
        self,
        fastq: &[u8],
        index: &[u8],
        work: impl Fn(Range<usize>) -> Option<T> + Sync,
    ) -> Option<Vec<T>> {
        let threads = self.threads.min(fastq.len() / self.worth);
        if threads < 2 || fastq.len() as u64 > LIMIT {
            return None;
        }
        let cuts = lines_near_shares(fastq.len() / (self.worth / 2).max(1), fastq, index, definition_before);
        if cuts.len() < 2 {
            return None;
        }
        in_turns(&cuts, threads, |part| {
            let [from, to] = [part.start.0, part.end.0].map(|record| record as u64);
            let [first, last] = [part.start.1, part.end.1].map(|line| line as u64);
            let answer = entry::fastq_check_part(fastq, from, to, index, first);
            let passed = (answer.refusal, answer.next, answer.count) == (0, to, last);
            passed.then(|| work(part.start.1..part.end.1)).flatten()
        })
    }
}

/// What a function gives of each part, on so many threads, one part after another; nothing as soon as it gives nothing of one.
fn in_turns<P: Sync, T: Send>(parts: &[P], threads: usize, work: impl Fn(&P) -> Option<T> + Sync) -> Option<Vec<T>> {
    let given = Mutex::new(parts.iter().map(|_| None).collect::<Vec<Option<T>>>());
    let next = AtomicUsize::new(0);
    let own = || {
        loop {
            let number = next.fetch_add(1, Ordering::Relaxed);
            let Some(part) = parts.get(number) else { return };
            let one = work(part);
            if one.is_none() {
                // no part is asked for any more
                next.store(parts.len(), Ordering::Relaxed);
            }
            if let Some(place) = locked(&given).get_mut(number) {
                *place = one;
            }
        }
    };
    thread::scope(|scope| {
        for _ in 1..threads {
            // where the system has no thread left, there are fewer
            let _ = thread::Builder::new().spawn_scoped(scope, own);
        }
        own();
    });
    given.into_inner().unwrap_or_else(PoisonError::into_inner).into_iter().collect()
}

/// The start of the definition line that ends where a record's first base lies.
fn definition_before(fastq: &[u8], position: usize) -> Option<usize> {
    let end = position.checked_sub(1)?;
    let low = end.saturating_sub(NEAR);
    let line = fastq.get(low..end)?;
    match line.iter().rposition(|byte| *byte == b'\n') {
        Some(lf) => Some(low + lf + 1),
        None => (low == 0).then_some(0),
    }
}

fn locked<T>(one: &Mutex<T>) -> MutexGuard<'_, T> {
    one.lock().unwrap_or_else(PoisonError::into_inner)
}

/// The parts of a file, and what is done with the rows of each.
struct Parts<'f, W> {
    fastq: &'f [u8],
    size: usize,
    count: usize,
    work: W,
}

/// What was made of a part: where it began and where it stopped, why, if it was refused, and what the work gave.
struct Made<T> {
    from: usize,
    next: usize,
    refusal: Option<Refusal>,
    given: T,
}

/// How far parts were put together: up to an offset, and before a part.
struct Joining<F> {
    at: usize,
    part: usize,
    refusal: Option<Refusal>,
    take: F,
}

impl<F> Joining<F> {
    fn add<T>(&mut self, made: Made<T>)
    where
        F: FnMut(T),
    {
        (self.at, self.part, self.refusal) = (made.next, self.part + 1, made.refusal);
        (self.take)(made.given);
    }
}

impl<'f, T, W: Fn(Table<'f>) -> T> Parts<'f, W> {
    /// Where a part ends: records that begin before it are the part's. The last has all that are left.
    fn end(&self, part: usize) -> usize {
        if part + 1 < self.count { self.size * (part + 1) } else { self.fastq.len() }
    }

    /// A part from an offset on.
    fn from(&self, from: usize, part: usize) -> Made<T> {
        let (table, next, refusal) = index_part(self.fastq, from..self.end(part));
        Made { from, next, refusal, given: (self.work)(table) }
    }

    /// A part from where its first record likely begins.
    fn guessed(&self, part: usize) -> Option<Made<T>> {
        let guess = if part == 0 { Some(0) } else { start_in(self.fastq, self.size * part..self.end(part)) };
        guess.map(|from| self.from(from, part))
    }

    /// Puts the parts that wait behind those that were put together. Tells whether one was refused, so that none is needed any more.
    fn join<F: FnMut(T)>(&self, joining: &mut Joining<F>, waiting: &Mutex<BTreeMap<usize, Option<Made<T>>>>) -> bool {
        while joining.refusal.is_none() {
            let Some(found) = locked(waiting).remove(&joining.part) else { return false };
            let made = match found {
                Some(made) if made.from == joining.at => made,
                // the guess was wrong, or there was none
                _ => self.from(joining.at, joining.part),
            };
            joining.add(made);
        }
        true
    }
}

/// The rows of the records from one offset on that begin before another, where that stopped, and why, if it was refused.
fn index_part(fastq: &[u8], part: Range<usize>) -> (Table<'_>, usize, Option<Refusal>) {
    let (mut bytes, mut in_use, mut at) = (vec![], 0, part.start);
    // a record has eight bytes or more
    let mut rows = FIRST_ROWS.min(part.len() / 8 + 1);
    loop {
        bytes.resize(rows * ROW_BYTES, 0);
        let free = bytes.get_mut(in_use * ROW_BYTES..).unwrap_or_default();
        let answer = entry::fastq_index_part(fastq, at as u64, part.end as u64, free);
        in_use += answer.count as usize;
        at = answer.next as usize;
        if answer.refusal == 8 {
            // it goes on behind the last row
            rows = rows_for_all(in_use, (at - part.start) as u64, part.len());
            continue;
        }
        bytes.truncate(in_use * ROW_BYTES);
        let refusal = Refusal::of(Call::FastqIndex, answer.refusal, answer.first, answer.second).err();
        return (Table::from_bytes(fastq, bytes, in_use), at, refusal);
    }
}

/// Where the first record of some bytes of a file likely begins: at a '@' that begins a line, if a record is there whose first bases are letters, and
/// behind it another or the end. A line of qualities that begins with '@' has a line with '@' among what would be its bases, or another
/// count of lines.
fn start_in(fastq: &[u8], bytes: Range<usize>) -> Option<usize> {
    let mut at = line_start(fastq, bytes.start);
    while at < bytes.end {
        if is_likely_start(fastq, at) {
            return Some(at);
        }
        at = line_start(fastq, at + 1);
    }
    None
}

fn is_likely_start(fastq: &[u8], at: usize) -> bool {
    if fastq.get(at) != Some(&b'@') {
        return false;
    }
    let mut row = vec![0; ROW_BYTES];
    let answer = entry::fastq_index_part(fastq, at as u64, at as u64 + 1, &mut row);
    let table = Table::from_bytes(fastq, row, answer.count as usize);
    let is_letter = |byte: &u8| byte.is_ascii_alphabetic() || b"*-.".contains(byte);
    let has_letters = table.records().next().is_some_and(|record| {
        let line = fastq.get(record.position as usize..).and_then(|rest| rest.get(..record.line_bases as usize));
        line.is_some_and(|line| line.iter().all(is_letter))
    });
    has_letters && matches!(fastq.get(answer.next as usize), None | Some(b'@'))
}

/// The rows of all parts so far. There is room for more behind them.
struct All {
    bytes: Vec<u8>,
    in_use: usize,
}

impl All {
    /// Adds the rows of the next part.
    fn add(&mut self, part: Table<'_>, fastq: &[u8]) {
        let (before, in_use) = (self.in_use * ROW_BYTES, self.in_use + part.len());
        let behind = in_use * ROW_BYTES;
        if self.bytes.len() < behind {
            let last = part.rows().next_back().and_then(|row| part.record(row));
            let likely = rows_for_all(in_use, last.map_or(0, |record| record.quality_position), fastq.len());
            let room = likely.min(most_records(fastq)).max(in_use) * ROW_BYTES;
            if self.in_use == 0 {
                // room that is not used is not touched, and costs nothing
                self.bytes = vec![0; room];
                pages::large(&mut self.bytes);
            } else {
                self.bytes.resize(room, 0);
            }
        }
        if let Some(room) = self.bytes.get_mut(before..behind) {
            room.copy_from_slice(part.as_bytes());
        }
        self.in_use = in_use;
    }

    fn table(mut self, fastq: &[u8]) -> Table<'_> {
        self.bytes.truncate(self.in_use * ROW_BYTES);
        self.bytes.shrink_to_fit();
        Table::from_bytes(fastq, self.bytes, self.in_use)
    }
}
