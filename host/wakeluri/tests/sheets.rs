//! A sheet beside the single reads: it gives theirs joined, or the refusal of the first that is refused, and all or nothing.

use questions::generate::Chance;
use wakeluri::entry::{self, ROW_BYTES};
use wakeluri::{Bounds, Row, SHEET_REGIONS, SheetRefusal, Table};

const FASTA: &[u8] = b">s one\nACGT\nAC\n>t\nGG\n>u\nTTTTT\nTTT\n";

fn region(row: u64, Bounds { start, end }: Bounds) -> [u64; 5] {
    let flag = |bound: Option<u64>| u64::from(bound.is_some());
    [row, flag(start), start.unwrap_or(9), flag(end), end.unwrap_or(9)]
}

fn bytes(numbers: impl IntoIterator<Item = u64>) -> Vec<u8> {
    numbers.into_iter().flat_map(u64::to_le_bytes).collect()
}

/// The entry point, and what it has to answer by the single reads.
fn alike(table: &[u8], in_use: u64, regions: &[(u64, Bounds)], room: usize, starts: usize) {
    let sheet = bytes(regions.iter().flat_map(|(row, bounds)| region(*row, *bounds)));
    let (mut out, mut begins) = (vec![b'.'; room], vec![700; starts]);
    let answer = entry::read_sheet(FASTA, table, in_use, &sheet, &mut out, &mut begins);
    let (mut expected, mut at) = ((vec![b'.'; room], vec![700; starts]), 0);
    let no = if regions.len() > SHEET_REGIONS {
        Some((40, 0, 0, regions.len()))
    } else if starts < regions.len() {
        Some((41, 0, 0, regions.len()))
    } else {
        let mut pieces = vec![];
        let refused = regions.iter().enumerate().find_map(|(place, (row, bounds))| {
            let mut all = vec![b'.'; room];
            let read = entry::read_exact(FASTA, table, in_use, *row, *bounds, &mut all);
            pieces.push(all[..read.count as usize].to_vec());
            (read.refusal != 0).then_some((read.refusal, read.first, read.second, place))
        });
        let total = pieces.concat().len();
        let refused = refused.or((room < total).then_some((14, total as u64, 0, regions.len())));
        if refused.is_none() {
            for (place, piece) in pieces.iter().enumerate() {
                expected.1[place] = at as u64;
                expected.0[at..at + piece.len()].copy_from_slice(piece);
                at += piece.len();
            }
        }
        refused
    };
    let (refusal, first, second, place) = no.unwrap_or_default();
    let told = (answer.refusal, answer.first, answer.second, answer.next as usize, answer.count as usize);
    assert_eq!(told, (refusal, first, second, place, at), "{regions:?}");
    assert_eq!((out, begins), expected, "{regions:?}");
}

#[test]
fn a_sheet_is_the_single_reads_joined() {
    let table = wakeluri::index(FASTA).expect("a good file");
    let mut chance = Chance::new(12);
    for turn in 0..20_000 {
        let regions = if turn % 100 == 0 { 199 + chance.below(3) } else { chance.below(6) };
        let bad = chance.once_in(3);
        let list: Vec<(u64, Bounds)> = (0..regions)
            .map(|_| {
                let (row, most) = chance.one_of(&[(0, 6), (1, 2), (2, 8)]);
                let start = 1 + chance.below(most) as u64;
                let end = start + chance.below(most + 1 - start as usize) as u64;
                let bounds = match chance.below(if bad { 8 } else { 4 }) {
                    0 => Bounds::from(start..),
                    1 => Bounds::from(..=end),
                    2 | 3 => Bounds::from(start..=end),
                    4 => Bounds::from(start..=9),
                    5 => Bounds::from(0..=end),
                    6 => Bounds::from(end + 1..=start),
                    _ => Bounds::from(..),
                };
                (if bad && chance.once_in(9) { 3 } else { row }, bounds)
            })
            .collect();
        let room = chance.one_of(&[0, 3, 8, 20, 1600]);
        let starts = if chance.once_in(9) { chance.below(regions + 1) } else { regions + chance.below(3) };
        alike(table.as_bytes(), 3, &list, room, starts);
    }
}

#[test]
fn a_table_that_lies() {
    // line width below line bases: offsets go back, and a sheet has more bases than the file
    let row = questions::row::row([1, 1, 12, 3, 4, 1]);
    let table = bytes(row);
    assert_eq!(table.len(), ROW_BYTES);
    alike(&table, 1, &[(0, (..).into()), (0, (2..=12).into()), (0, (..=1).into())], 30, 3);
    alike(&table, 2, &[(0, (..).into())], 30, 3);
    alike(&table, 2, &[], 30, 0);
}

#[test]
fn regions_of_the_library() {
    let table = wakeluri::index(FASTA).expect("a good file");
    let [s, t, u] = [&b"s"[..], b"t", b"u"].map(|name| table.find(name).expect("a record"));
    let sheet = table.read_sheet(FASTA, &[]).expect("nothing");
    assert!(sheet.is_empty() && sheet.joined().is_empty() && sheet.get(0).is_none());
    let all: Vec<(Row, Bounds)> = vec![(u, (..).into()); SHEET_REGIONS];
    let sheet = table.read_sheet(FASTA, &all).expect("200 regions");
    assert!(sheet.len() == 200 && sheet.pieces().all(|piece| piece == b"TTTTTTTT"));
    let refused = |regions: &[(Row, Bounds)]| {
        let SheetRefusal { place, refusal } = table.read_sheet(FASTA, regions).unwrap_err();
        (place, refusal.number, refusal.first)
    };
    assert_eq!(refused(&[&all[..], &[(t, (..).into())]].concat()), (None, 40, 0));
    assert_eq!(refused(&[(s, (1..=6).into()), (t, (2..=3).into()), (t, (0..).into())]), (Some(1), 17, 2));
    assert_eq!(refused(&[(s, (..).into()), (Row::of_any_table(7), (..).into())]), (Some(1), 25, 7));
    // a row of another table is not there
    let other = wakeluri::index(FASTA).expect("a good file");
    assert_eq!(refused(&[(s, (..).into()), (other.find(b"t").expect("t"), (..).into())]), (Some(1), 25, 1));
    // an index that lies about a length: no such memory is to be had, and none is taken
    let row = questions::row::row([1, 1, u64::MAX / 2, 7, 60, 61]);
    let lies = Table::from_bytes(FASTA, bytes(row), 1);
    let first = Row::of_any_table(0);
    let refused = lies.read_sheet(FASTA, &[(first, (..).into()), (first, (..).into())]).unwrap_err();
    assert_eq!((refused.place, refused.refusal.number), (Some(0), 14));
}
