//! The proved library and the original in one process, on one buffer, in turns: how many times as fast, beside the goals and the
//! physical limits. `tools/dev benches` builds and runs it; what it prints is Markdown. Before anything is timed, both sides must give the
//! same answers.

mod cores;
mod fed;
mod files;
mod levels;
mod measure;
/// How the command has the library look up many names: what it promises is timed here.
#[allow(dead_code)]
#[path = "../../command/src/names.rs"]
mod names;
mod original;
mod ours;
mod report;

use files::{Lines, Numbers, one_line, room};
use measure::{Work, in_turns, limits};
use original::{Region, Sequence, over_c, over_crate};
use report::{Checked, Compared, Fastq, Grown, HandedOut, LookedUp, Mapped, Report, Scored, Sheeted};
use wakeluri::Edition;
use wakeluri::entry::ROW_BYTES;

/// So many bytes lie in the processor's own cache; 64 times as many come from the memory.
const MEGABYTE: usize = 1_000_000;

/// Every letter that has a complement, in both cases.
const ALL_LETTERS: &[u8] = b"ACGTUWSMKRYBDHVNacgtuwsmkrybdhvn";

/// What is run.
struct Plan {
    /// Shorter files and fewer rounds.
    quick: bool,
    /// Only the parts whose name holds this.
    only: String,
    /// Tells it as JSON.
    json: bool,
}

impl Plan {
    fn of_words(words: impl Iterator<Item = String>) -> Option<Self> {
        let mut plan = Self { quick: false, only: String::new(), json: false };
        let mut words = words;
        while let Some(word) = words.next() {
            match word.as_str() {
                "--quick" => plan.quick = true,
                "--json" => plan.json = true,
                "--only" => plan.only = words.next()?,
                _ => return None,
            }
        }
        Some(plan)
    }

    fn rounds(&self) -> usize {
        if self.quick { 5 } else { 15 }
    }

    /// One number of the whole run, and another of the quick one.
    fn size(&self, whole: usize, quick: usize) -> usize {
        if self.quick { quick } else { whole }
    }
}

/// Answers must be the same before they are timed.
fn same<T: PartialEq>(what: &str, of: &str, found: T, expected: T) {
    assert!(found == expected, "{what}: {of} differ from the original's");
}

/// Times the indexing and the checking of a file.
fn file(plan: &Plan, report: &mut Report, what: &str, goal: f64, file: &[u8]) {
    let rows = over_crate::rows(file);
    same(what, "the rows of the other original", &over_c::rows(file), &rows);
    same(what, "the rows", &ours::rows(file), &rows);
    same(what, "the rows by the complete rule", &ours::complete_rows(file), &rows);
    let text = wakeluri::index(file).and_then(|table| table.write_index()).expect("a good file");
    assert_eq!(wakeluri::check(file, &text), Ok(()), "{what}: the index leads to every base");
    let mut table = room(rows.len() * ROW_BYTES);
    same(what, "the counts of rows", ours::index_into(file, &mut table), rows.len() as u64);
    same(what, "the rows in a lent table", &table[..], wakeluri::index(file).expect("a good file").as_bytes());
    let mut copied = room(file.len());
    let [copy, sum] = limits(file, &mut copied);
    let mut works: [Work; 8] = [
        Box::new(|| over_crate::index(file)),
        Box::new(|| over_c::index(file)),
        Box::new(|| ours::index(file)),
        Box::new(|| ours::index_complete(file)),
        Box::new(|| ours::index_into(file, &mut table)),
        Box::new(|| ours::check(file, &text)),
        copy,
        sum,
    ];
    let taken = in_turns(plan.rounds(), &mut works);
    let [by_crate, by_c, index, complete, into, check, copy, sum] = taken[..] else { unreachable!("eight works") };
    let size = format!("{} bytes, {}", report::number(file.len()), report::counted(rows.len(), "record"));
    let compared = |work, ours| Compared {
        work,
        size: size.clone(),
        goal,
        bytes: file.len(),
        ours,
        by_crate,
        by_c: Some(by_c),
        limits: Some([copy, sum]),
    };
    report.compared.push(compared(format!("index, {what}"), index));
    report.compared.push(compared(format!("index by the complete rule, {what}"), complete));
    // where there are few rows a lent table is as a fresh one
    if rows.len() > 1000 {
        report.compared.push(compared(format!("index, {what}, into a lent table"), into));
    }
    report.checked.push(Checked { file: what.to_string(), bytes: file.len(), index, check });
}

/// Times the indexing and the checking of a FASTQ file, beside the indexing of a FASTA file of as many bytes.
fn fastq(plan: &Plan, report: &mut Report, what: &str, goal: Option<f64>, file: &[u8]) {
    let table = wakeluri::fastq::index(file).expect("a good file");
    let text = table.write_index().expect("a good table");
    assert_eq!(wakeluri::fastq::check(file, &text), Ok(()), "{what}: the index leads to every base and quality");
    let mut lent = room(table.as_bytes().len());
    assert_eq!(ours::fastq_index_into(file, &mut lent), table.len() as u64, "{what}: the count of rows");
    assert!(lent == table.as_bytes(), "{what}: the rows in a lent table");
    let fasta = Lines { bases: 60, end: b"\n" }.genome(file.len());
    let mut rows = room(4 * ROW_BYTES);
    let taken = in_turns(
        plan.rounds(),
        &mut [
            Box::new(|| ours::fastq_index_into(file, &mut lent)),
            Box::new(|| ours::fastq_index(file)),
            Box::new(|| ours::fastq_check(file, &text)),
            Box::new(|| ours::fastq_write(&table)),
            Box::new(|| ours::index_into(&fasta, &mut rows)),
        ],
    );
    let [into, index, check, write, of_fasta] = taken[..] else { unreachable!("five works") };
    let (bytes, fasta) = (file.len(), of_fasta / fasta.len() as f64);
    report.fastq.push(Fastq { file: what.to_string(), bytes, into, index, check, write, fasta, goal });
}

/// Times the reading of 1,000 regions of so many bases.
fn reads(plan: &Plan, report: &mut Report, fasta: &[u8], bases: u64, goals: [f64; 2]) {
    const READS: usize = 1000;
    let rows = ours::rows(fasta);
    let mut numbers = Numbers::new(4);
    let region = |_| -> Region {
        let row = &rows[numbers.below(rows.len() as u64) as usize];
        let start = 1 + numbers.below(row.1 - bases + 1);
        (row.0.clone(), start, start + bases - 1)
    };
    let regions: Vec<Region> = (0..READS).map(region).collect();
    let (mut by_crate, mut by_c) = (over_crate::Regions::new(fasta, &regions), over_c::Regions::new(fasta, &regions));
    let ours = ours::Regions::new(fasta, &regions);
    let expected = by_crate.bases();
    assert_eq!(expected.len() as u64, READS as u64 * bases, "no base is missing");
    same("reads", "the bases of the other original", &by_c.bases(), &expected);
    same("reads", "the bases", ours.bases().as_ref(), Ok(&expected));
    let [mut lent, mut seen, mut copied] = [(); 3].map(|()| room(2 * bases as usize + 64));
    let taken = in_turns(
        plan.rounds(),
        &mut [
            Box::new(|| by_crate.read()),
            Box::new(|| by_c.read()),
            Box::new(|| ours.read_into(&mut lent)),
            Box::new(|| ours.read()),
            Box::new(|| ours.read_windows_into(&mut seen)),
            Box::new(|| ours.copy_into(&mut copied)),
            Box::new(|| ours.sum()),
        ],
    );
    let [by_crate, by_c, into, fresh, windows, copy, sum] = taken[..] else { unreachable!("seven works") };
    let each = report::counted(bases as usize, "base");
    for (how, ours, goal) in [
        ("a lent room", into, goals[0]),
        ("a fresh vector", fresh, goals[1]),
        ("a lent room, from a window of just the bytes that are needed", windows, goals[0]),
    ] {
        report.compared.push(Compared {
            work: format!("1,000 exact reads of {each} by name, into {how}"),
            size: format!("of {} bytes", report::number(fasta.len())),
            goal,
            bytes: expected.len(),
            ours,
            by_crate,
            by_c: Some(by_c),
            limits: (bases > 1).then_some([copy, sum]),
        });
    }
}

/// Some regions, each the first base of a record, of a file whose rows are known.
fn first_bases(rows: &[original::Row], regions: usize) -> Vec<Region> {
    let mut numbers = Numbers::new(6);
    (0..regions).map(|_| (rows[numbers.below(rows.len() as u64) as usize].0.clone(), 1, 1)).collect()
}

/// Times many regions of many records: each side looks up all names, and reads one base of each.
fn look_ups(plan: &Plan, report: &mut Report, fasta: &[u8], regions: usize) {
    let rows = ours::rows(fasta);
    let regions = first_bases(&rows, regions);
    let (mut by_crate, mut by_c) = (over_crate::Regions::new(fasta, &regions), over_c::Regions::new(fasta, &regions));
    let ours = ours::Regions::new(fasta, &regions);
    let expected = by_crate.bases();
    assert_eq!(expected.len(), regions.len(), "no base is missing");
    same("look-ups", "the bases of the other original", &by_c.bases(), &expected);
    same("look-ups", "the bases", ours.bases().as_ref(), Ok(&expected));
    same("look-ups", "the bases by names in one walk", &ours.bases_in_one_walk(), &expected);
    let taken = in_turns(
        plan.size(5, 3),
        &mut [Box::new(|| by_crate.read()), Box::new(|| by_c.read()), Box::new(|| ours.read_in_one_walk())],
    );
    let [by_crate, by_c, one_walk] = taken[..] else { unreachable!("three works") };
    report.compared.push(Compared {
        work: format!("{} exact reads of 1 base, all names in one walk", report::number(regions.len())),
        size: report::counted(rows.len(), "record"),
        goal: 1.0,
        bytes: expected.len(),
        ours: one_walk,
        by_crate,
        by_c: Some(by_c),
        limits: None,
    });
}

/// Times look-ups by the proved walk, and by the library's map of all names, which is built once and confirms each row.
fn map(plan: &Plan, report: &mut Report, fasta: &[u8], look_ups: usize) {
    let rows = ours::rows(fasta);
    let ours = ours::Regions::new(fasta, &first_bases(&rows, look_ups));
    let names = ours.names();
    same("look-ups", "the rows by the map", ours.map(&names), ours.walk());
    let taken = in_turns(
        plan.size(7, 3),
        &mut [Box::new(|| ours.walk()), Box::new(|| ours.map(&ours.names())), Box::new(|| ours.map(&names))],
    );
    let [walk, built, used] = taken[..] else { unreachable!("three works") };
    report.mapped.push(Mapped { names: rows.len(), look_ups, walk, built, used });
}

/// Times a sheet of regions in one call, and a call for each of them; each row is looked up before.
fn sheet(plan: &Plan, report: &mut Report, fasta: &[u8], regions: usize, bases: u64) {
    let rows = ours::rows(fasta);
    let mut numbers = Numbers::new(7);
    let asked: Vec<Region> = (0..regions)
        .map(|_| {
            let (name, length, ..) = &rows[numbers.below(rows.len() as u64) as usize];
            let start = 1 + numbers.below(length - bases + 1);
            (name.clone(), start, start + bases - 1)
        })
        .collect();
    let ours = ours::Sheet::new(fasta, &asked);
    same("a sheet", "the bases", ours.at_once(), ours.one_by_one());
    let taken = in_turns(plan.rounds(), &mut [Box::new(|| ours.read_one_by_one()), Box::new(|| ours.read_at_once())]);
    let [singles, sheet] = taken[..] else { unreachable!("two works") };
    report.sheeted.push(Sheeted { regions, bases: bases as usize, singles, sheet });
}

/// Times more and more regions of more and more records.
fn look_up_growth(plan: &Plan, report: &mut Report) {
    let steps = [(10_000, 100), (100_000, 1000), (1_000_000, 1000), (1_000_000, 10_000), (1_000_000, 100_000)];
    for (records, regions) in &steps[..plan.size(5, 2)] {
        let file = Lines { bases: 60, end: b"\n" }.records(*records);
        let ours = ours::Regions::new(&file, &first_bases(&ours::rows(&file), *regions));
        let taken = in_turns(plan.size(7, 3), &mut [Box::new(|| ours.read_in_one_walk())]);
        report.looked_up.push(LookedUp { records: *records, regions: *regions, seconds: taken[0] });
    }
}

/// Times the reverse complement of some bases.
fn complement(plan: &Plan, report: &mut Report, what: &str, goal: f64, letters: &[u8], bases: usize) {
    let sequence = Sequence::new(Numbers::new(5).letters(letters, bases));
    let bases = sequence.bases();
    let expected = sequence.reverse_complement();
    let [mut lent, mut copied] = [(); 2].map(|()| room(bases.len()));
    same(what, "the complements", wakeluri::reverse_complement(bases).as_ref(), Ok(&expected));
    same(what, "the counts", wakeluri::reverse_complement_into(bases, &mut lent), Ok(expected.len()));
    same(what, "the complements in a lent room", &lent, &expected);
    drop(expected);
    let into = || wakeluri::reverse_complement_into(std::hint::black_box(bases), &mut lent).expect("bases") as u64;
    let fresh = || std::hint::black_box(wakeluri::reverse_complement(bases).expect("bases")).len() as u64;
    let [copy, sum] = limits(bases, &mut copied);
    let original = || std::hint::black_box(sequence.reverse_complement()).len() as u64;
    let pages = || measure::fresh_pages(bases.len());
    let mut works: [Work; 6] = [Box::new(original), Box::new(into), Box::new(fresh), Box::new(pages), copy, sum];
    let taken = in_turns(plan.rounds(), &mut works);
    let [by_crate, into, fresh, pages, copy, sum] = taken[..] else { unreachable!("six works") };
    report.handed_out.push(HandedOut {
        work: format!("reverse complement, {what}"),
        bytes: bases.len(),
        pages,
        into,
        fresh,
    });
    for (how, ours) in [("a lent room", into), ("a fresh vector", fresh)] {
        report.compared.push(Compared {
            work: format!("reverse complement, {what}, into {how}"),
            size: format!("{} bases", report::number(bases.len())),
            goal,
            bytes: bases.len(),
            ours,
            by_crate,
            by_c: None,
            limits: Some([copy, sum]),
        });
    }
}

/// Times the writing of a record in lines of a width. The copy beside it is of the bytes that are written.
fn write(plan: &Plan, report: &mut Report, width: usize, bases: usize) {
    let record = original::Record::new(Numbers::new(6).letters(b"ACGT", bases));
    let what = format!("write, lines of {width}");
    let expected = record.written(width, 0);
    let [mut lent, mut copied] = [(); 2].map(|()| room(expected.len()));
    let into = |lent: &mut [u8]| {
        let bases = std::hint::black_box(record.bases());
        wakeluri::write_record_into(b"s", None, bases, width as u64, lent).expect("a good record") as u64
    };
    same(&what, "the counts", into(&mut lent), expected.len() as u64);
    same(&what, "the bytes", &lent, &expected);
    let [copy, sum] = limits(&expected, &mut copied);
    let original = || std::hint::black_box(record.written(width, expected.len())).len() as u64;
    let fresh = || {
        let written = wakeluri::write_record(b"s", None, std::hint::black_box(record.bases()), width as u64);
        std::hint::black_box(written.expect("a good record")).len() as u64
    };
    let mut works: [Work; 5] = [Box::new(original), Box::new(|| into(&mut lent)), Box::new(fresh), copy, sum];
    let taken = in_turns(plan.rounds(), &mut works);
    let [by_crate, into, fresh, copy, sum] = taken[..] else { unreachable!("five works") };
    for (how, ours) in [("a lent room", into), ("a fresh vector", fresh)] {
        report.compared.push(Compared {
            work: format!("{what}, into {how}"),
            size: format!("{} bases", report::number(bases)),
            goal: 2.0,
            bytes: expected.len(),
            ours,
            by_crate,
            by_c: None,
            limits: Some([copy, sum]),
        });
    }
}

/// Times the reading and the writing of an index text.
fn index_text(plan: &Plan, report: &mut Report, fasta: &[u8]) {
    let kept = over_crate::Kept::new(fasta);
    let text = kept.written(0);
    same("index text", "the text of the other original", &over_c::Kept::new(fasta).written(0), &text);
    let table = wakeluri::index(fasta).expect("a good file");
    same("index text", "the text", table.write_index().as_ref(), Ok(&text));
    let rows = over_crate::read_rows(&text);
    same("index text", "the rows of the other original", &over_c::read_rows(&text), &rows);
    same("index text", "the rows", &ours::read_rows(&text), &rows);
    let [mut lent, mut copied] = [(); 2].map(|()| room(text.len() + 4096));
    let written = ours::write_into(&table, &mut lent);
    same("index text", "the text in a lent room", &lent[..written], &text);
    let [copy, sum] = limits(&text, &mut copied);
    let mut works: [Work; 8] = [
        Box::new(|| over_crate::read_index(&text)),
        Box::new(|| over_c::read_index(&text)),
        Box::new(|| ours::read_index(&text)),
        Box::new(|| std::hint::black_box(kept.written(text.len())).len() as u64),
        Box::new(|| ours::write_into(&table, &mut lent) as u64),
        Box::new(|| std::hint::black_box(table.write_index().expect("a good table")).len() as u64),
        copy,
        sum,
    ];
    let taken = in_turns(plan.rounds(), &mut works);
    let [read_by_crate, read_by_c, read, written_by_crate, written_into, written, copy, sum] = taken[..] else {
        unreachable!("eight works")
    };
    let size = format!("{} bytes, {}", report::number(text.len()), report::counted(table.len(), "line"));
    for (work, ours, by_crate, by_c) in [
        ("reading an index text", read, read_by_crate, Some(read_by_c)),
        ("writing it, into a fresh vector", written, written_by_crate, None),
        ("writing it, into a lent room", written_into, written_by_crate, None),
    ] {
        report.compared.push(Compared {
            work: work.to_string(),
            size: size.clone(),
            goal: 1.0,
            bytes: text.len(),
            ours,
            by_crate,
            by_c,
            limits: Some([copy, sum]),
        });
    }
}

/// Times a class: a hundred answers of a thousand bases to one exercise, by either edition, beside a plain comparison.
fn scores(plan: &Plan, report: &mut Report, fasta: &[u8]) {
    const ANSWERS: usize = 100;
    const BASES: u64 = 1000;
    let table = wakeluri::index(fasta).expect("a good file");
    let record = table.records().next().expect("a record");
    let key = table.read_exact(fasta, table.find(record.name).expect("its row"), 101..=100 + BASES).expect("its bases");
    let mut numbers = Numbers::new(6);
    let typed: Vec<Vec<u8>> = (0..ANSWERS)
        .map(|_| {
            let mut typed = key.clone();
            // one base in fifty is typed anew
            typed.iter_mut().filter(|_| numbers.below(50) == 0).for_each(|base| *base = b'A');
            typed
        })
        .collect();
    let mut exercises = [Edition::First, Edition::Second].map(|edition| {
        let exercise = wakeluri::write_exercise(record.name, 101, 100 + BASES, edition).expect("an exercise");
        (edition, exercise, room(BASES as usize))
    });
    for (edition, exercise, room) in &mut exercises {
        let right = |typed: &[u8]| key.iter().zip(typed).filter(|(key, typed)| key == typed).count() as u64;
        let scored = ours::score(&table, fasta, exercise, &typed, room);
        assert_eq!(scored, typed.iter().map(|typed| right(typed)).sum::<u64>(), "{edition}: of plain letters");
    }
    let [(_, first, one), (_, second, two)] = &mut exercises;
    let taken = in_turns(
        plan.rounds(),
        &mut [
            Box::new(|| ours::score(&table, fasta, first, &typed, one)),
            Box::new(|| ours::score(&table, fasta, second, &typed, two)),
            Box::new(|| ours::compared(&key, &typed)),
        ],
    );
    let [first, second, plain] = taken[..] else { unreachable!("three works") };
    for (edition, ours) in [(Edition::First, first), (Edition::Second, second)] {
        let work = format!("by {edition}, one base in fifty typed anew");
        report.scored.push(Scored { work, answers: ANSWERS, bases: BASES as usize, ours, plain });
    }
}

/// Times the indexing, to a lent table, and the checking of longer and longer files.
fn growth(plan: &Plan, report: &mut Report) {
    let megabytes = if plan.quick { &[1, 10, 100][..] } else { &[1, 10, 100, 1000] };
    for n in megabytes {
        let file = Lines { bases: 60, end: b"\n" }.genome(n * MEGABYTE);
        let text = wakeluri::index(&file).and_then(|table| table.write_index()).expect("a good file");
        let mut table = room(4 * ROW_BYTES);
        let taken = in_turns(
            plan.size(7, 3),
            &mut [
                Box::new(|| over_crate::index(&file)),
                Box::new(|| over_c::index(&file)),
                Box::new(|| ours::index_into(&file, &mut table)),
                Box::new(|| ours::check(&file, &text)),
                Box::new(|| measure::sum(std::hint::black_box(&file))),
            ],
        );
        let [by_crate, by_c, index, check, sum] = taken[..] else { unreachable!("five works") };
        report.grown.push(Grown { bytes: file.len(), index, check, original: by_crate.min(by_c), sum });
    }
}

/// How fast each memchr is on a megabyte that hasn't what is searched, in bytes a second: whether it has a fast form shows here.
fn memchrs(plan: &Plan) -> [f64; 2] {
    let bytes = room(1_000_000);
    let absent = |place: Option<usize>| u64::from(place.is_some());
    let taken = in_turns(
        plan.rounds(),
        &mut [
            Box::new(|| absent(memchr::memchr(b'\n', std::hint::black_box(&bytes)))),
            Box::new(|| absent(memchr_libc::memchr(b'\n', std::hint::black_box(&bytes)))),
        ],
    );
    [taken[0], taken[1]].map(|seconds| bytes.len() as f64 / seconds)
}

fn run(plan: &Plan) -> Report {
    let part = |name: &str| {
        let has = name.contains(&plan.only);
        if has {
            eprintln!("benches: {name}");
        }
        has
    };
    let mut report = Report { memchrs: memchrs(plan), ..Report::default() };
    let bytes = plan.size(64 * MEGABYTE, 8 * MEGABYTE);
    let lf = |bases| Lines { bases, end: b"\n" };
    if part("lines") {
        for bytes in [MEGABYTE, bytes] {
            let mut file = |what: &str, goal, lines: Lines| {
                let what = format!("{what}, {} MB", bytes / MEGABYTE);
                file(plan, &mut report, &what, goal, &lines.genome(bytes));
            };
            file("lines of 60", 2.4, lf(60));
            file("lines of 60, CRLF", 2.4, Lines { bases: 60, end: b"\r\n" });
            for bases in [50, 70, 80, 100] {
                file(&format!("lines of {bases}"), 2.0, lf(bases));
            }
        }
    }
    let records = lf(60).records(100_000);
    if part("records") {
        file(plan, &mut report, "records of one to three lines", 2.0, &records);
    }
    if part("long") {
        file(plan, &mut report, "one line of 10 million bases", 1.0, &one_line(10_000_000));
    }
    if part("fastq") {
        fastq(plan, &mut report, "short reads", None, &files::short_reads(bytes / 355));
        fastq(plan, &mut report, "long reads in lines of 60", Some(0.5), &files::long_reads(bytes));
    }
    if part("reads") {
        let fasta = lf(60).genome(bytes);
        reads(plan, &mut report, &fasta, 10_000, [2.8, 2.8]);
        reads(plan, &mut report, &fasta, 1, [1.0, 1.0]);
        sheet(plan, &mut report, &fasta, 200, 100);
    }
    if part("names") {
        look_ups(plan, &mut report, &records, 1000);
        map(plan, &mut report, &records, 1000);
        look_up_growth(plan, &mut report);
    }
    if part("complement") {
        for bases in [MEGABYTE, plan.size(100 * MEGABYTE, 10 * MEGABYTE)] {
            complement(plan, &mut report, "random ACGT", 20.0, b"ACGT", bases);
            complement(plan, &mut report, "mixed case with N", 8.0, b"ACGTNacgtn", bases);
            complement(plan, &mut report, "all letters", 8.0, ALL_LETTERS, bases);
        }
    }
    if part("write") {
        for bases in [MEGABYTE, plan.size(100 * MEGABYTE, 10 * MEGABYTE)] {
            write(plan, &mut report, 60, bases);
        }
    }
    if part("text") {
        index_text(plan, &mut report, &records);
    }
    if part("levels") {
        report.levelled = levels::run(plan);
    }
    if part("scores") {
        scores(plan, &mut report, &lf(60).genome(MEGABYTE));
    }
    if part("fed") {
        report.fed = fed::run(plan);
    }
    if part("growth") {
        growth(plan, &mut report);
    }
    if part("cores") {
        report.cored = cores::run(plan);
    }
    report
}

fn main() {
    let Some(plan) = Plan::of_words(std::env::args().skip(1)) else {
        eprintln!(
            "usage: benches [--quick] [--json] [--only lines|records|long|fastq|reads|names|complement|write|text|scores|levels|fed|growth|cores]"
        );
        std::process::exit(2);
    };
    // the original has one thread; what more of them bring is timed apart
    wakeluri::use_threads(1);
    let report = run(&plan);
    if plan.json {
        print!("{}", report.json());
    } else {
        print!("{report}");
    }
}

#[cfg(test)]
mod tests {
    use super::*;

    const QUICK: Plan = Plan { quick: true, only: String::new(), json: false };

    #[test]
    fn small_files_give_the_same_answers() {
        let mut report = Report::default();
        for end in [&b"\n"[..], b"\r\n"] {
            let lines = Lines { bases: 7, end };
            file(&QUICK, &mut report, "a genome", 1.0, &lines.genome(4000));
            file(&QUICK, &mut report, "records", 1.0, &lines.records(50));
            index_text(&QUICK, &mut report, &lines.records(50));
            reads(&QUICK, &mut report, &lines.genome(4000), 100, [1.0; 2]);
            complement(&QUICK, &mut report, "all letters", 1.0, ALL_LETTERS, 5000);
            write(&QUICK, &mut report, 7, 5000);
            look_ups(&QUICK, &mut report, &lines.records(50), 20);
            look_ups(&QUICK, &mut report, &lines.records(20), 50);
            map(&QUICK, &mut report, &lines.records(50), 20);
            scores(&QUICK, &mut report, &lines.genome(8000));
        }
        fastq(&QUICK, &mut report, "short reads", None, &files::short_reads(20));
        fastq(&QUICK, &mut report, "long reads", Some(0.5), &files::long_reads(1000));
        assert_eq!((report.compared.len(), report.checked.len(), report.handed_out.len()), (32, 4, 2));
        let told = report.to_string();
        assert!(told.contains("| index, records | ") && told.contains(" 50 records | 1 | "), "{told}");
        assert_eq!(report.goals().len(), 32 + 4 + 3 + 2 + 4);
        assert!(told.contains("| goals: ") && report.json().starts_with("{\"goals\":[{\"of\":\"index, a genome, "));
    }

    #[test]
    #[should_panic(expected = "a file: the rows differ from the original's")]
    fn another_answer_is_found() {
        same("a file", "the rows", &ours::rows(b">s\nAC\n"), &over_crate::rows(b">s\nACG\n"));
    }

    #[test]
    fn words_are_understood() {
        let plan = |words: &[&str]| Plan::of_words(words.iter().map(|word| word.to_string()));
        assert!(plan(&[]).is_some_and(|plan| !plan.quick && plan.only.is_empty()));
        assert!(plan(&["--only", "reads", "--quick"]).is_some_and(|plan| plan.quick && plan.only == "reads"));
        assert!(plan(&["--json"]).is_some_and(|plan| plan.json));
        assert!(plan(&["--only"]).is_none() && plan(&["--fast"]).is_none());
    }
}
