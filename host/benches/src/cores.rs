//! A file of 24 records, as of a genome's chromosomes, and FASTQ of short reads, on one core and on more: indexing and checking by the library.

use crate::files::{self, Lines, Numbers};
use crate::measure::median;
use crate::report::{Goal, number};
use crate::{MEGABYTE, Plan};
use std::fmt;
use std::hint::black_box;
use std::time::Instant;
use wakeluri::Cores;

/// The goal of a genome: so many times as fast on two cores.
const GOAL: f64 = 1.8;

/// Records of a genome.
const RECORDS: usize = 24;

/// What was found of a work: seconds for each number of threads.
pub struct Cored {
    work: &'static str,
    bytes: usize,
    threads: Vec<usize>,
    seconds: Vec<f64>,
    goal: Option<f64>,
}

/// All of it.
#[derive(Default)]
pub struct AllCored(Vec<Cored>);

/// Times both on one thread, on two, and on as many as there are cores.
pub fn run(plan: &Plan) -> AllCored {
    let file =
        Lines { bases: 60, end: b"\n" }.chromosomes(RECORDS, plan.size(8 * MEGABYTE, MEGABYTE), &mut Numbers::new(7));
    let index = wakeluri::index(&file).and_then(|table| table.write_index()).expect("a good file");
    let all = Cores::new(0).threads();
    let mut threads = vec![1, 2];
    if all > 2 {
        threads.push(all);
    }
    let indexed = |n: usize| {
        let table = Cores::new(n).index(black_box(&file)).expect("a good file");
        assert_eq!(black_box(table).len(), RECORDS, "the same rows");
    };
    let checked = |n: usize| Cores::new(n).check(black_box(&file), black_box(&index)).expect("a good index");
    let reads = files::short_reads(plan.size(200 * MEGABYTE, MEGABYTE) / 355);
    let lines = wakeluri::fastq::index(&reads).and_then(|table| table.write_index()).expect("good reads");
    let records = lines.iter().filter(|byte| **byte == b'\n').count();
    let reads_indexed = |n: usize| {
        let (table, refusal) = Cores::new(n).index_fastq_until_refused(black_box(&reads));
        assert_eq!((black_box(table).len(), refusal), (records, None), "the same rows");
    };
    let reads_checked =
        |n: usize| Cores::new(n).check_fastq(black_box(&reads), black_box(&lines)).expect("a good index");
    let rounds = plan.size(11, 3);
    let mut told = AllCored::default();
    let works: [(&'static str, usize, Option<f64>, &dyn Fn(usize)); 4] = [
        ("index, 24 records in lines of 60", file.len(), Some(GOAL), &indexed),
        ("check, 24 records in lines of 60", file.len(), Some(GOAL), &checked),
        ("index, FASTQ of short reads", reads.len(), None, &reads_indexed),
        ("check, FASTQ of short reads", reads.len(), None, &reads_checked),
    ];
    for (work, bytes, goal, done) in works {
        let seconds = in_turns(rounds, &threads, done);
        told.0.push(Cored { work, bytes, threads: threads.clone(), seconds, goal });
    }
    told
}

/// The median of so many rounds for each number of threads, by the clock on the wall: the time of one thread says nothing of others.
fn in_turns(rounds: usize, threads: &[usize], done: &dyn Fn(usize)) -> Vec<f64> {
    let mut samples = vec![vec![]; threads.len()];
    for _ in 0..rounds {
        for (n, taken) in threads.iter().zip(&mut samples) {
            let started = Instant::now();
            done(*n);
            taken.push(started.elapsed().as_secs_f64());
        }
    }
    samples.into_iter().map(median).collect()
}

impl Cored {
    /// How many times as fast as one thread.
    fn times(&self, place: usize) -> f64 {
        self.seconds[0] / self.seconds[place]
    }
}

impl AllCored {
    /// The goals.
    pub fn goals(&self) -> Vec<Goal> {
        let goal = |cored: &Cored| {
            Some(Goal {
                of: format!("{}, {} bytes, two threads: times one", cored.work, number(cored.bytes)),
                goal: cored.goal?,
                found: cored.times(1),
            })
        };
        self.0.iter().filter_map(goal).collect()
    }
}

impl fmt::Display for AllCored {
    fn fmt(&self, f: &mut fmt::Formatter) -> fmt::Result {
        if self.0.is_empty() {
            return Ok(());
        }
        writeln!(f, "\n| on several cores | bytes | threads | times one thread | GB/s |\n|---|---|---|---|---|")?;
        for cored in &self.0 {
            for (place, threads) in cored.threads.iter().enumerate() {
                let speed = cored.bytes as f64 / cored.seconds[place] / 1e9;
                let (work, bytes, times) = (cored.work, number(cored.bytes), cored.times(place));
                writeln!(f, "| {work} | {bytes} | {threads} | {times:.2} | {speed:.2} |")?;
            }
        }
        Ok(())
    }
}
