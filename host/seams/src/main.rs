//! What the calls that an app uses cost over the entry points below them: `tools/dev seams` runs it, and the like in C and Python.
//!
//! `seams make FOLDER` makes the files: one record of 64 MB, and 100,000 records. `seams FOLDER` times, and prints a line for each: what was
//! done, by what, and the nanoseconds of the fastest round.

use std::fmt::Write as _;
use std::path::Path;
use std::{env, fs, hint, process};
use wakeluri::{Bounds, Fasta, entry};

/// The bytes of the long file.
const LONG: usize = 64_000_000;

/// The records of the other.
const RECORDS: usize = 100_000;

/// Bases that are no pattern, and the same each time.
fn bases(count: usize) -> Vec<u8> {
    let mut state = 29_u64;
    let mut next = || {
        state = state.wrapping_mul(6364136223846793005).wrapping_add(1442695040888963407);
        b"ACGT"[(state >> 62) as usize]
    };
    (0..count).map(|_| next()).collect()
}

fn make(folder: &Path) -> Result<(), Box<dyn std::error::Error>> {
    fs::create_dir_all(folder)?;
    let long = wakeluri::write_record(b"chr1", None, &bases(LONG / 61 * 60), 60)?;
    let mut many = vec![];
    for number in 0..RECORDS {
        many.extend(wakeluri::write_record(format!("record{number}").as_bytes(), None, b"ACGTACGTACGT", 60)?);
    }
    for (name, text) in [("long.fa", long), ("many.fa", many)] {
        fs::write(folder.join(name), &text)?;
        fs::write(folder.join(name).with_extension("fa.fai"), wakeluri::index(&text)?.write_index()?)?;
    }
    Ok(())
}

/// The time of this thread on its processor, in nanoseconds: that of others does not count.
#[allow(unsafe_code)]
fn thread_time() -> f64 {
    #[repr(C)]
    struct Time {
        seconds: std::ffi::c_long,
        nanoseconds: std::ffi::c_long,
    }
    unsafe extern "C" {
        fn clock_gettime(clock: std::ffi::c_int, time: *mut Time) -> std::ffi::c_int;
    }
    const CLOCK_THREAD_CPUTIME_ID: std::ffi::c_int = 3;
    let mut time = Time { seconds: 0, nanoseconds: 0 };
    // SAFETY: it writes one time to where it is told.
    unsafe { clock_gettime(CLOCK_THREAD_CPUTIME_ID, &mut time) };
    time.seconds as f64 * 1e9 + time.nanoseconds as f64
}

/// Some work, by its name; a turn of it is told its number.
type Work<'w> = (&'static str, Box<dyn FnMut(u64) + 'w>);

/// A line for each work: the nanoseconds of a turn, in the fastest of some rounds of so many turns. The works go in turns, round by round.
fn fastest(told: &mut String, what: &str, rounds: usize, turns: u64, mut works: Vec<Work<'_>>) {
    let mut best = vec![f64::INFINITY; works.len()];
    for _ in 0..rounds {
        for ((_, work), best) in works.iter_mut().zip(&mut best) {
            let begun = thread_time();
            (0..turns).for_each(work);
            *best = best.min((thread_time() - begun) / turns as f64);
        }
    }
    for ((by, _), best) in works.iter().zip(best) {
        let _ = writeln!(told, "{what}\t{by}\t{best:.0}");
    }
}

fn time(folder: &Path) -> Result<String, Box<dyn std::error::Error>> {
    let mut told = String::new();
    let (long, many) = (folder.join("long.fa"), folder.join("many.fa"));

    let fasta = Fasta::open(&long)?;
    let index = fs::read(folder.join("long.fa.fai"))?;
    let check = |bytes: &[u8]| entry::check(bytes, &index).refusal;
    let fresh = || Fasta::options().unchecked().open(&long).map(|fresh| check(fresh.bytes()));
    fastest(
        &mut told,
        "open and check 64 MB",
        15,
        1,
        vec![
            ("entry point, bytes in memory", Box::new(|_| assert_eq!(check(fasta.bytes()), 0))),
            ("entry point, a fresh map", Box::new(|_| assert!(matches!(fresh(), Ok(0))))),
            ("Rust, Fasta::open", Box::new(|_| assert!(Fasta::open(&long).is_ok()))),
        ],
    );

    let length = fasta.record("chr1")?.length();
    let start = |turn: u64| turn.wrapping_mul(7_919_000_021) % (length - 10_000) + 1;
    let table = wakeluri::read_index(&index)?;
    let (bytes, rows) = (fasta.bytes(), table.as_bytes());
    for (what, count) in [("a read of 10,000 bases", 10_000_u64), ("a read of 100 bases", 100)] {
        let bounds = |turn| Bounds::from(start(turn)..=start(turn) + count - 1);
        let read =
            |turn, out: &mut [u8]| assert_eq!(entry::read_exact(bytes, rows, 1, 0, bounds(turn), out).count, count);
        let record = fasta.record("chr1")?;
        let text = |turn| format!("chr1:{}-{}", start(turn), start(turn) + count - 1);
        let regions: Vec<String> = (0..1000).map(text).collect();
        let (mut lent, mut lent_too) = (vec![0; 10_000], vec![0; 10_000]);
        fastest(
            &mut told,
            what,
            60,
            1000,
            vec![
                ("entry point, room that is lent", Box::new(|turn| read(turn, &mut lent))),
                (
                    "Rust, Record::read_into",
                    Box::new(|turn| assert!(record.read_into(bounds(turn), &mut lent_too).is_ok())),
                ),
                (
                    "entry point, fresh room",
                    Box::new(|turn| {
                        let mut fresh = vec![0; count as usize];
                        read(turn, &mut fresh);
                        hint::black_box(fresh);
                    }),
                ),
                ("Rust, Record::read", Box::new(|turn| assert!(hint::black_box(record.read(bounds(turn))).is_ok()))),
                (
                    "Rust, Fasta::read of a region's text",
                    Box::new(|turn| {
                        let region = regions.get(turn as usize).map_or("", String::as_str);
                        assert!(hint::black_box(fasta.read(region)).is_ok());
                    }),
                ),
            ],
        );
    }

    let fasta = Fasta::open(&many)?;
    let index = fs::read(folder.join("many.fa.fai"))?;
    let table = wakeluri::read_index(&index)?;
    let names: Vec<String> =
        (0..1000).map(|turn: usize| format!("record{}", turn.wrapping_mul(7_919) % RECORDS)).collect();
    let name = |turn: u64| names.get(turn as usize).map_or("", String::as_str);
    let regions: Vec<String> = names.iter().map(|name| format!("{name}:3-3")).collect();
    let what = "one base by name among 100,000 records";
    let (rows, in_use) = (table.as_bytes(), table.len() as u64);
    let read = |row| {
        let mut base = [0];
        let told = entry::read_exact(fasta.bytes(), rows, in_use, row, (3..=3).into(), &mut base);
        assert_eq!((told.count, base), (1, *b"G"));
    };
    fastest(
        &mut told,
        what,
        3,
        50,
        vec![(
            "entry points: the walk, and the read",
            Box::new(|turn| read(entry::find(&index, rows, in_use, name(turn).as_bytes()).count)),
        )],
    );
    fastest(
        &mut told,
        what,
        60,
        1000,
        vec![
            ("entry point: the read alone, of a known row", Box::new(|turn| read(turn.wrapping_mul(7_919) % in_use))),
            (
                "Rust, Fasta::record and read_into",
                Box::new(|turn| {
                    let mut base = [0];
                    let record = fasta.record(name(turn));
                    assert!(record.is_ok_and(|record| record.read_into(3..=3, &mut base).is_ok() && base == *b"G"));
                }),
            ),
            (
                "Rust, Fasta::read of a region's text",
                Box::new(|turn| {
                    let region = regions.get(turn as usize).map_or("", String::as_str);
                    assert!(fasta.read(region).is_ok_and(|base| base == b"G"));
                }),
            ),
        ],
    );
    Ok(told)
}

fn main() {
    let words: Vec<String> = env::args().skip(1).collect();
    let done = match words.iter().map(String::as_str).collect::<Vec<_>>()[..] {
        ["make", folder] => make(Path::new(folder)),
        [folder] => time(Path::new(folder)).map(|told| print!("{told}")),
        _ => Err("usage: seams [make] FOLDER".into()),
    };
    if let Err(error) = done {
        eprintln!("seams: {error}");
        process::exit(1);
    }
}
