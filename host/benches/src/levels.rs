//! What each level of the processor's code brings: every work at each level that the machine has, in turns, in one process.

use crate::files::{Lines, Numbers, one_line, room};
use crate::measure::{Work, in_turns};
use crate::{ALL_LETTERS, MEGABYTE, Plan, ours};
use std::hint::black_box;
use wakeluri::Edition;
use wakeluri::entry::ROW_BYTES;

/// A work, and its seconds at each level, in the order of [`levels`].
pub struct Levelled {
    pub work: String,
    pub bytes: usize,
    pub seconds: Vec<f64>,
}

/// The levels that the machine has.
pub fn levels() -> Vec<u64> {
    wakeluri::LEVELS.into_iter().filter(|level| wakeluri::use_level(*level) == *level).collect()
}

/// Times a work at each level.
fn timed(plan: &Plan, work: &str, bytes: usize, mut run: impl FnMut() -> u64) -> Levelled {
    let run = std::cell::RefCell::new(&mut run);
    let at = |level| -> Work<'_> {
        let run = &run;
        Box::new(move || {
            wakeluri::use_level(level);
            (run.borrow_mut())()
        })
    };
    let mut works: Vec<Work> = levels().into_iter().map(at).collect();
    let seconds = in_turns(plan.rounds(), &mut works);
    wakeluri::use_level(0);
    Levelled { work: work.to_string(), bytes, seconds }
}

/// Times the works that go over many bytes.
pub fn run(plan: &Plan) -> Vec<Levelled> {
    let mut told = vec![];
    let lf = |bases| Lines { bases, end: b"\n" };
    let large = plan.size(64 * MEGABYTE, 8 * MEGABYTE);
    for (what, file) in [
        ("lines of 60, 1 MB".to_string(), lf(60).genome(MEGABYTE)),
        ("lines of 100, 1 MB".to_string(), lf(100).genome(MEGABYTE)),
        (format!("lines of 60, {} MB", large / MEGABYTE), lf(60).genome(large)),
        ("records of one to three lines".to_string(), lf(60).records(100_000)),
        ("one line of 10 million bases".to_string(), one_line(10_000_000)),
    ] {
        let table = wakeluri::index(&file).expect("a good file");
        let text = table.write_index().expect("a good table");
        let mut rows = room(table.len() * ROW_BYTES);
        told.push(timed(plan, &format!("index, {what}"), file.len(), || ours::index_into(&file, &mut rows)));
        told.push(timed(plan, &format!("check, {what}"), file.len(), || ours::check(&file, &text)));
        if table.len() > 1000 {
            let mut lent = room(text.len() + 4096);
            told.push(timed(plan, "reading an index text", text.len(), || ours::read_index(&text)));
            told.push(timed(plan, "writing it", text.len(), || ours::write_into(&table, &mut lent) as u64));
        }
        if what.contains("60, ") && file.len() > 2 * MEGABYTE {
            let mut numbers = Numbers::new(4);
            let regions: Vec<_> = (0..1000)
                .map(|_| {
                    let record = table.record(table.row(numbers.below(4) as usize).expect("a row")).expect("a record");
                    let start = 1 + numbers.below(record.length - 10_000);
                    (record.name.to_vec(), start, start + 9_999)
                })
                .collect();
            let reads = ours::Regions::new(&file, &regions);
            let mut lent = room(20_000);
            told.push(timed(plan, "1,000 exact reads of 10,000 bases", 10_000_000, || reads.read_into(&mut lent)));
        }
    }
    for (what, letters) in [("random ACGT", &b"ACGT"[..]), ("all letters", ALL_LETTERS)] {
        let bases = Numbers::new(5).letters(letters, MEGABYTE);
        let mut lent = room(bases.len());
        told.push(timed(plan, &format!("reverse complement, {what}"), bases.len(), || {
            wakeluri::reverse_complement_into(black_box(&bases), &mut lent).expect("bases") as u64
        }));
    }
    let bases = Numbers::new(6).letters(b"ACGT", MEGABYTE);
    let mut lent = room(2 * bases.len());
    told.push(timed(plan, "writing a record in lines of 60", bases.len(), || {
        wakeluri::write_record_into(b"s", None, black_box(&bases), 60, &mut lent).expect("a good record") as u64
    }));
    told.push(timed(plan, "a primer that is not found", bases.len(), || {
        u64::from(wakeluri::find_primer(b"NNGGATCCNNGGATCCNNGGATCC", black_box(&bases)).expect("a primer").is_some())
    }));
    for edition in [Edition::First, Edition::Second] {
        told.push(timed(plan, &format!("scoring, edition {}", edition.number()), bases.len(), || {
            wakeluri::score_typed(black_box(&bases), black_box(&bases), edition).expect("an edition").right
        }));
    }
    told
}
