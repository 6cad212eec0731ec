//! Several threads give what one gives: rows, refusals and verdicts, on made files with faults in every part.

mod made;

use made::{Chance, other_index};
use wakeluri::{Cores, Refusal, Table, entry};

/// A record: lines alike mostly, at times CR LF, blank lines, no bases, a '>' inside of a line, or a fault.
fn record(chance: &mut Chance, number: usize, faults: bool) -> Vec<u8> {
    let end: &[u8] = if chance.once_in(4) { b"\r\n" } else { b"\n" };
    let mut text = format!(">r{number} a > b").into_bytes();
    if faults && chance.once_in(12) {
        text = [&b">"[..], b"> ", b">\t"][chance.below(3)].to_vec();
    }
    text.extend(end);
    let (width, lines) = (1 + chance.below(9), chance.below(7));
    for line in 0..lines {
        let bases = if line + 1 == lines { 1 + chance.below(width) } else { width };
        text.extend((0..bases).map(|base| b"ACGTN>"[if base == 0 { 0 } else { chance.below(6) }]));
        text.extend(end);
    }
    if chance.once_in(5) {
        text.extend(end);
    }
    if faults && chance.once_in(8) {
        text.extend(b"\nAC\n\nACGTACGTACGT\n");
    }
    text
}

fn file(chance: &mut Chance, faults: bool) -> Vec<u8> {
    let records = 1 + chance.below(24);
    let mut text: Vec<u8> = (0..records).flat_map(|number| record(chance, number, faults)).collect();
    if faults && chance.once_in(9) {
        text.splice(..0, *b"AC\n");
    }
    if chance.once_in(3) {
        text.pop();
    }
    text
}

type Rows<'f> = (Table<'f>, Option<Refusal>);

fn same_rows(fasta: &[u8], threads: usize, worth: usize, given: [Rows; 2]) {
    let [complete, strict] = given;
    let cores = Cores::new(threads).with_parts_of(worth);
    assert_eq!(cores.index_until_refused(fasta), complete, "{threads} {worth} {:?}", fasta.escape_ascii());
    assert_eq!(cores.index_strict_until_refused(fasta), strict, "{threads} {worth} {:?}", fasta.escape_ascii());
}

#[test]
fn as_one_thread() {
    let mut chance = Chance(0x9e37_79b9_7f4a_7c15);
    let (mut refused, mut accepted, mut cut) = (0, 0, 0);
    for round in 0..3000 {
        let fasta = file(&mut chance, round % 2 == 0);
        let one = Cores::new(1);
        let (complete, refusal) = one.index_until_refused(&fasta);
        assert_eq!(entry::index_complete(&fasta, &mut vec![0; 64 * 64]).count as usize, complete.len());
        refused += usize::from(refusal.is_some());
        let index = complete.write_index().expect("an index of few rows");
        let index = other_index(&mut chance, &index);
        let verdict = one.check(&fasta, &index);
        let answer = entry::check(&fasta, &index);
        assert_eq!(verdict.as_ref().err().map_or(0, |refusal| refusal.number), answer.refusal);
        accepted += usize::from(verdict.is_ok());
        for threads in [1, 2, 3, 8] {
            for worth in [1, 7, 40] {
                cut += usize::from(fasta.len() > 2 * worth && threads > 1);
                same_rows(
                    &fasta,
                    threads,
                    worth,
                    [(complete.clone(), refusal), one.index_strict_until_refused(&fasta)],
                );
                let cores = Cores::new(threads).with_parts_of(worth);
                assert_eq!(cores.check(&fasta, &index), verdict, "{threads} {worth} {:?}", fasta.escape_ascii());
            }
        }
    }
    assert!(refused > 300 && accepted > 300 && cut > 10_000, "{refused} {accepted} {cut}");
}

/// A refusal in each of the records, so in every part; and the same of the index.
#[test]
fn a_fault_in_every_part() {
    let record = |number: usize| format!(">r{number}\nACGTACGT\nACGTACGT\nACG\n");
    let good: String = (0..40).map(record).collect();
    let index = wakeluri::index(good.as_bytes()).and_then(|table| table.write_index()).expect("a good file");
    for fault in 0..40 {
        let bad: String =
            (0..40).map(|number| if number == fault { ">\nAC\n".to_owned() } else { record(number) }).collect();
        let one = Cores::new(1).index_until_refused(bad.as_bytes());
        assert_eq!((one.0.len(), one.1.map(|refusal| refusal.number)), (fault, Some(4)));
        let lines = index.split_inclusive(|byte| *byte == b'\n').enumerate();
        let worse: Vec<u8> =
            lines.flat_map(|(k, line)| if k == fault { &b"x\t19\t0\t8\t9\n"[..] } else { line }).copied().collect();
        let refused = Cores::new(1).check(good.as_bytes(), &worse).expect_err("another name");
        assert_eq!((refused.number, refused.first), (21, fault as u64 + 1));
        for threads in [2, 3, 8, 100] {
            let cores = Cores::new(threads).with_parts_of(32);
            assert_eq!(cores.index_until_refused(bad.as_bytes()), one);
            assert_eq!(cores.check(good.as_bytes(), &worse), Err(refused));
            assert_eq!(cores.check(good.as_bytes(), &index), Ok(()));
        }
    }
}

/// More rows than the first table of a part has room for.
#[test]
fn many_records() {
    let fasta: String = (0..30_000).map(|number| format!(">r{number}\nAC\n")).collect();
    let one = Cores::new(1).index_until_refused(fasta.as_bytes());
    assert_eq!(one.0.len(), 30_000);
    let index = one.0.write_index().expect("an index");
    for threads in [2, 3, 8] {
        let cores = Cores::new(threads).with_parts_of(1000);
        assert_eq!(cores.index_until_refused(fasta.as_bytes()), one);
        assert_eq!(cores.check(fasta.as_bytes(), &index), Ok(()));
    }
}
