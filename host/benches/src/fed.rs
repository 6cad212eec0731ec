//! A file fed in pieces, beside one call on the whole of it: both into the same lent table, by the entry points; and the host's `Feeder`, which
//! keeps the names, beside `index`.

use crate::files::{Lines, room};
use crate::measure::{Work, in_turns};
use crate::report::{Goal, number};
use crate::{MEGABYTE, Plan, ours};
use std::fmt;
use std::hint::black_box;
use wakeluri::Feeder;
use wakeluri::entry::{self, ROW_BYTES};

/// Pieces as a pipe gives them at most.
const PIECE: usize = 1 << 16;

/// The goal: so much of the speed of the whole-file call.
const GOAL: f64 = 0.8;

/// The goal of pieces of one byte: so much of the speed on a tenth of the bytes.
const EVEN_GOAL: f64 = 0.9;

/// What was found of a file: seconds of the whole-file call and of the pieces.
pub struct Fed {
    work: String,
    bytes: usize,
    whole: f64,
    pieces: f64,
    /// The calls have a goal. The host's feeder copies each name besides, which the whole-file call has no need to.
    has_goal: bool,
}

/// What was found of pieces of one byte.
pub struct ByByte {
    bytes: usize,
    seconds: f64,
}

/// All of it.
#[derive(Default)]
pub struct AllFed {
    by_piece: Vec<Fed>,
    by_byte: Vec<ByByte>,
}

/// Feeds a file to a table that is lent, by the rule's number.
fn fed_into(file: &[u8], complete: u64, piece: usize, table: &mut [u8]) -> u64 {
    let start = entry::feed_start(complete);
    let feed = black_box(file).chunks(piece).fold(start, |feed, piece| entry::feed_piece(feed, piece, table));
    let feed = entry::feed_end(feed, table);
    assert_eq!(feed.refusal, 0, "a good file, and a table that is long enough");
    feed.rows
}

fn complete_into(file: &[u8], table: &mut [u8]) -> u64 {
    let answer = entry::index_complete(black_box(file), table);
    assert_eq!(answer.refusal, 0, "a good file, and a table that is long enough");
    answer.count
}

/// Feeds a file to the host's feeder, which makes its table and keeps the names.
fn fed(file: &[u8]) -> u64 {
    let mut feeder = Feeder::new();
    for piece in black_box(file).chunks(PIECE) {
        feeder.feed(piece).expect("a good file");
    }
    black_box(feeder.end().expect("a good file")).table().len() as u64
}

/// Times a file in pieces of 64 KiB.
fn file(plan: &Plan, what: &str, file: &[u8]) -> Vec<Fed> {
    let rows = wakeluri::index(file).expect("a good file");
    let [mut one, mut two, mut three, mut four] = [(); 4].map(|()| room(rows.len() * ROW_BYTES));
    for complete in [0, 1] {
        assert_eq!(fed_into(file, complete, PIECE, &mut one), rows.len() as u64);
        assert!(one == rows.as_bytes(), "{what}: the rows are those of the whole file");
    }
    let mut works: [Work; 6] = [
        Box::new(|| ours::index_into(file, &mut one)),
        Box::new(|| fed_into(file, 0, PIECE, &mut two)),
        Box::new(|| complete_into(file, &mut three)),
        Box::new(|| fed_into(file, 1, PIECE, &mut four)),
        Box::new(|| ours::index_complete(file)),
        Box::new(|| fed(file)),
    ];
    let taken = in_turns(plan.rounds(), &mut works);
    let names = ["the original's rule", "the complete rule", "the host's feeder, the complete rule"];
    let fed = |(name, pair): (&str, &[f64])| Fed {
        work: format!("{what}, {name}"),
        bytes: file.len(),
        whole: pair[0],
        pieces: pair[1],
        has_goal: !name.contains("host"),
    };
    names.into_iter().zip(taken.chunks(2)).map(fed).collect()
}

/// Times it.
pub fn run(plan: &Plan) -> AllFed {
    let lf = |bases| Lines { bases, end: b"\n" };
    let mut told = AllFed::default();
    for megabytes in [1, plan.size(64, 8)] {
        let what = format!("lines of 60, {megabytes} MB");
        told.by_piece.extend(file(plan, &what, &lf(60).genome(megabytes * MEGABYTE)));
    }
    told.by_piece.extend(file(plan, "100,000 records of one to three lines", &lf(60).records(100_000)));
    let short: Vec<u8> = (0..100_000).flat_map(|n| format!(">record{n:05}\nACGTACGTACGT\n").into_bytes()).collect();
    told.by_piece.extend(file(plan, "100,000 records of 12 bases", &short));
    for megabytes in [1, 10] {
        let file = lf(60).genome(megabytes * MEGABYTE);
        let mut table = room(4 * ROW_BYTES);
        let taken = in_turns(3, &mut [Box::new(|| fed_into(&file, 1, 1, &mut table))]);
        told.by_byte.push(ByByte { bytes: file.len(), seconds: taken[0] });
    }
    told
}

impl AllFed {
    /// The goals.
    pub fn goals(&self) -> Vec<Goal> {
        let by_piece = self.by_piece.iter().filter(|fed| fed.has_goal).map(|fed| Goal {
            of: format!("pieces of 64 KiB, {}: part of the whole-file call's speed", fed.work),
            goal: GOAL,
            found: fed.whole / fed.pieces,
        });
        let each = |by_byte: &ByByte| by_byte.seconds / by_byte.bytes as f64;
        let even = self.by_byte.first().zip(self.by_byte.last()).map(|(short, long)| Goal {
            of: format!("pieces of one byte, {} bytes: part of the speed on a tenth of them", number(long.bytes)),
            goal: EVEN_GOAL,
            found: each(short) / each(long),
        });
        by_piece.chain(even).collect()
    }
}

impl fmt::Display for AllFed {
    fn fmt(&self, f: &mut fmt::Formatter) -> fmt::Result {
        if self.by_piece.is_empty() {
            return Ok(());
        }
        writeln!(
            f,
            "\n| pieces of 64 KiB | bytes | goal | part of the whole-file call's speed | | ns a byte | the whole-file call |"
        )?;
        writeln!(f, "|---|---|---|---|---|---|---|")?;
        for Fed { work, bytes, whole, pieces, has_goal } in &self.by_piece {
            let found = whole / pieces;
            let (goal, verdict) = match (has_goal, found >= GOAL) {
                (false, _) => ("-".to_string(), ""),
                (true, true) => (GOAL.to_string(), "reached"),
                (true, false) => (GOAL.to_string(), "**not reached**"),
            };
            let [pieces, whole] = [pieces, whole].map(|seconds| seconds * 1e9 / *bytes as f64);
            writeln!(
                f,
                "| {work} | {} | {goal} | {found:.2} | {verdict} | {pieces:.3} | {whole:.3} |",
                number(*bytes)
            )?;
        }
        writeln!(f, "\n| pieces of one byte, lines of 60, bytes | ns a byte |\n|---|---|")?;
        for ByByte { bytes, seconds } in &self.by_byte {
            writeln!(f, "| {} | {:.1} |", number(*bytes), seconds * 1e9 / *bytes as f64)?;
        }
        Ok(())
    }
}

#[cfg(test)]
mod tests {
    use super::*;

    #[test]
    fn small_files_are_fed() {
        let plan = Plan { quick: true, only: String::new(), json: false };
        let lines = Lines { bases: 7, end: b"\r\n" };
        let by_piece: Vec<Fed> =
            [lines.genome(4000), lines.records(50)].iter().flat_map(|f| file(&plan, "f", f)).collect();
        let fed = AllFed {
            by_piece,
            by_byte: vec![ByByte { bytes: 10, seconds: 2.0 }, ByByte { bytes: 100, seconds: 20.0 }],
        };
        assert_eq!((fed.by_piece.len(), fed.goals().len()), (6, 5));
        assert!(fed.goals().last().is_some_and(Goal::met) && fed.to_string().contains("| f, the complete rule | "));
    }
}
