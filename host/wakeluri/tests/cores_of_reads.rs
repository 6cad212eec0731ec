//! Several threads give what one gives of a FASTQ file: rows, refusals and verdicts, on made files with faults in every part, with lines of qualities that
//! look like other lines, so that guesses of where a record begins are wrong too.

mod made;

use made::{Chance, other_index};
use wakeluri::fastq::{self, Table};
use wakeluri::{Cores, Refusal, entry};

/// A record of one line of bases, or of several, at times with CR LF, or with a fault. Lines of qualities begin with '@' and '+' as often as not, and
/// are at times the lines of another record.
fn record(chance: &mut Chance, number: usize, faults: bool) -> Vec<u8> {
    let end: &[u8] = if chance.once_in(4) { b"\r\n" } else { b"\n" };
    let mut text = format!("@r{}", number % 10).into_bytes();
    if faults && chance.once_in(20) {
        text = [&b"@"[..], b"@ ", b">r", b""][chance.below(4)].to_vec();
    }
    text.extend(end);
    let (width, lines) = ([3, 3, 1, 7][chance.below(4)], [1, 1, 1, 2, 5][chance.below(5)]);
    let last = 1 + chance.below(width);
    let bases = |line: usize| if line + 1 == lines { last } else { width };
    for line in 0..lines {
        text.extend((0..bases(line)).map(|_| b"ACGTN"[chance.below(5)]));
        text.extend(end);
    }
    if !(faults && chance.once_in(20)) {
        text.extend([&b"+"[..], b"+r1", b"+@"][chance.below(3)]);
        text.extend(end);
    }
    for line in 0..lines {
        // "@r1", "+r1" and "ACG" are lines of another record
        let one = [&b"@r1@r1@"[..], b"+r1+r1+", b"ACGACGA", b"I@I@I@I"][chance.below(4)];
        let count = if faults && chance.once_in(30) { bases(line) - 1 } else { bases(line) };
        text.extend(&one[..count]);
        text.extend(end);
    }
    text
}

fn file(chance: &mut Chance, faults: bool) -> Vec<u8> {
    let records = 1 + chance.below(24);
    let mut text: Vec<u8> = (0..records).flat_map(|number| record(chance, number, faults)).collect();
    if faults && chance.once_in(9) {
        text.splice(..0, *b"AC\n");
    }
    if chance.once_in(3) {
        text.pop();
    }
    text
}

/// By one call of the entry point.
fn whole(fastq: &[u8]) -> (Table<'_>, Option<[u64; 3]>) {
    let mut table = vec![0; 64 * fastq::ROW_BYTES];
    let answer = entry::fastq_index(fastq, &mut table);
    table.truncate(answer.count as usize * fastq::ROW_BYTES);
    let refusal = (answer.refusal != 0).then_some([answer.refusal, answer.first, answer.second]);
    (Table::from_bytes(fastq, table, answer.count as usize), refusal)
}

fn numbers(refusal: Option<Refusal>) -> Option<[u64; 3]> {
    refusal.map(|refusal| [refusal.number, refusal.first, refusal.second])
}

/// The names and lengths of rows.
fn names(rows: Table<'_>) -> Vec<(Vec<u8>, u64)> {
    rows.records().map(|record| (record.name.to_vec(), record.length)).collect()
}

/// The parts that are taken, put together.
fn in_parts(cores: Cores, fastq: &[u8]) -> (Vec<u8>, Option<[u64; 3]>) {
    let mut rows = vec![];
    let refusal = cores.index_fastq_in_parts(fastq, Table::into_bytes, |part| rows.extend(part));
    (rows, numbers(refusal))
}

#[test]
fn as_one_thread() {
    let mut chance = Chance(0x9e37_79b9_7f4a_7c15);
    let (mut refused, mut taken, mut cut, mut accepted, mut passed) = (0, 0, 0, 0, 0);
    for round in 0..1500 {
        let fastq = file(&mut chance, round % 2 == 0);
        let (rows, refusal) = whole(&fastq);
        let index = rows.write_index().expect("an index of few rows");
        let index = if chance.once_in(3) { index } else { other_index(&mut chance, &index) };
        let answer = entry::fastq_check(&fastq, &index);
        let verdict = (answer.refusal != 0).then_some([answer.refusal, answer.first, answer.second]);
        accepted += usize::from(verdict.is_none());
        let count = if refusal.is_some() { &mut refused } else { &mut taken };
        *count += 1;
        for threads in [1, 2, 3, 8] {
            for worth in [1, 7, 40] {
                let cores = Cores::new(threads).with_parts_of(worth);
                let told = || format!("{threads} {worth} {:?}", fastq.escape_ascii());
                cut += usize::from(fastq.len() > 2 * worth && threads > 1);
                let (table, stopped) = cores.index_fastq_until_refused(&fastq);
                assert_eq!((&table, numbers(stopped)), (&rows, refusal), "{}", told());
                assert_eq!(in_parts(cores, &fastq), (rows.as_bytes().to_vec(), refusal), "{}", told());
                assert_eq!(
                    numbers(cores.check_fastq(&fastq, &index).err()),
                    verdict,
                    "{} {:?}",
                    told(),
                    index.escape_ascii()
                );
                let (mut seen, mut parts) = (vec![], 0);
                let checked = cores.check_fastq_in_parts(&fastq, &index, names, |part| {
                    seen.extend(part);
                    parts += 1;
                });
                assert_eq!(numbers(checked.err()), verdict, "{}", told());
                let expected = if verdict.is_none() { names(rows.clone()) } else { vec![] };
                assert_eq!(seen, expected, "{}", told());
                passed += usize::from(parts > 1);
            }
        }
    }
    assert!(refused > 300 && taken > 300 && cut > 10_000, "{refused} {taken} {cut}");
    assert!(accepted > 300 && passed > 1000, "{accepted} {passed}");
}

/// A refusal in each of the records, so in every part.
#[test]
fn a_fault_in_every_part() {
    let record = |number: usize| format!("@r{number}\nACGTACGT\nACG\n+\n@IIIIIII\n@II\n");
    for fault in 0..40 {
        let bad: String =
            (0..40).map(|number| if number == fault { "@s\nAC\n+\nI\n".to_owned() } else { record(number) }).collect();
        let one = Cores::new(1).index_fastq_until_refused(bad.as_bytes());
        assert_eq!((one.0.len(), one.1.map(|refusal| refusal.number)), (fault, Some(39)));
        for threads in [2, 3, 8, 100] {
            let cores = Cores::new(threads).with_parts_of(32);
            assert_eq!(cores.index_fastq_until_refused(bad.as_bytes()), one);
        }
    }
}

/// A wrong line for each of the records, so in every part; and a right index is accepted part by part.
#[test]
fn a_wrong_line_in_every_part() {
    let record = |number: usize| format!("@r{number}\nACGTACGT\nACG\n+\n@IIIIIII\n@II\n");
    let fastq: String = (0..40).map(record).collect();
    let index = fastq::index(fastq.as_bytes()).and_then(|table| table.write_index()).expect("a good file");
    let lines: Vec<&[u8]> = index.split_inclusive(|byte| *byte == b'\n').collect();
    for threads in [2, 3, 8, 100] {
        let cores = Cores::new(threads).with_parts_of(32);
        assert_eq!(cores.check_fastq(fastq.as_bytes(), &index), Ok(()));
        for wrong in 0..40 {
            let mut other = lines.clone();
            other.swap(wrong, (wrong + 1) % 40);
            let refusal = cores.check_fastq(fastq.as_bytes(), &other.concat()).err();
            let first = if wrong == 39 { 1 } else { wrong as u64 + 1 };
            assert_eq!(numbers(refusal), Some([21, first, 0]));
        }
    }
}

/// What is no index at all is refused as by one call, and soon: no line of it is searched for far and wide.
#[test]
fn no_index_at_all() {
    let reads: String = (0..100_000).map(|number| format!("@r{number}\nACGTACGT\n+\nIIIIIIII\n")).collect();
    let one_line = vec![b'A'; 8 << 20];
    for index in [&one_line[..], b"", b"\n", reads.as_bytes()] {
        let started = std::time::Instant::now();
        let refusal = Cores::new(8).with_parts_of(1000).check_fastq(reads.as_bytes(), index).err();
        let answer = entry::fastq_check(reads.as_bytes(), index);
        assert_eq!(numbers(refusal), Some([answer.refusal, answer.first, answer.second]));
        assert!(started.elapsed().as_secs() < 20, "{:?}", started.elapsed());
    }
}

/// Records that are longer than parts, and many short ones: a part's table grows, and goes on where it was full.
#[test]
fn long_records_and_many() {
    let long = |number: usize| {
        let (bases, qualities) = ("ACGT\n".repeat(1000 * (number % 3)), "@+I!\n".repeat(1000 * (number % 3)));
        format!("@l{number}\n{bases}A\n+\n{qualities}@\n")
    };
    let short = |number: usize| format!("@{number}\nA\n+\n@\n");
    let fastq: String = (0..30).flat_map(|number| [long(number), (0..2000).map(short).collect::<String>()]).collect();
    let one = Cores::new(1).index_fastq_until_refused(fastq.as_bytes());
    assert_eq!((one.0.len(), one.1), (30 * 2001, None));
    for worth in [2000, 30_000, 100_000] {
        for threads in [2, 3, 8] {
            let cores = Cores::new(threads).with_parts_of(worth);
            assert_eq!(cores.index_fastq_until_refused(fastq.as_bytes()), one, "{threads} {worth}");
        }
    }
}

/// A whole file is one record, and a file has no record.
#[test]
fn one_record_and_none() {
    let one = format!("@s\n{}\n+\n{}\n", "A".repeat(5000), "@".repeat(5000));
    for fastq in ["", "\n", "@", &one] {
        let cores = Cores::new(8).with_parts_of(100);
        assert_eq!(
            cores.index_fastq_until_refused(fastq.as_bytes()),
            Cores::new(1).index_fastq_until_refused(fastq.as_bytes())
        );
    }
}
