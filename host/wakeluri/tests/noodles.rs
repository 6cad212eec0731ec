//! What has noodles' names gives what the proved calls give, however a stream is buffered.

use questions::generate::Chance;
use std::io::{BufRead, BufReader, Cursor, Read};
use wakeluri::noodles::core::{Position, Region};
use wakeluri::noodles::io::indexer::IndexError;
use wakeluri::noodles::{self, fai, refusal};

/// Some bytes that look like FASTA, good or bad.
fn by_chance(chance: &mut Chance) -> Vec<u8> {
    const PARTS: [&[u8]; 12] = [
        b">s x\n", b">t\r\n", b"ACGT\n", b"AC\n", b"ACGT\r\n", b"\n", b"\r", b">", b"A", b"GG\n", b"ACGT\nACGT\n",
        b">u\nAC\n",
    ];
    let begin = if chance.once_in(8) { vec![] } else { b">s\n".to_vec() };
    let rest = (0..chance.below(9)).flat_map(|_| chance.one_of(&PARTS).to_vec()).collect::<Vec<u8>>();
    [begin, rest].concat()
}

#[test]
fn records_are_indexed_as_in_one_slice() {
    let mut chance = Chance::new(1);
    let mut refused = 0;
    for _ in 0..20_000 {
        let text = by_chance(&mut chance);
        let (table, expected) = wakeluri::index_strict_until_refused(&text);
        let stream = BufReader::with_capacity(chance.below(5) + 1, &text[..]);
        let mut indexer = noodles::io::Indexer::new(stream);
        for row in table.records() {
            let record = indexer.index_record().expect("no refusal").expect("a record");
            let numbers =
                [record.length(), record.position(), record.line_base_count().get(), record.line_width().get()];
            assert_eq!(numbers, [row.length, row.position, row.line_bases, row.line_width]);
            assert_eq!(record.name(), row.name);
        }
        match expected {
            None => assert!(matches!(indexer.index_record(), Ok(None))),
            Some(expected) => {
                refused += 1;
                for _ in 0..2 {
                    let told = match indexer.index_record().expect_err("a refusal") {
                        IndexError::EmptySequence(offset) => (5, offset, 0),
                        IndexError::InvalidLineBases(found, expected) => (6, found as u64, expected as u64),
                        IndexError::InvalidLineWidth(found, expected) => (7, found as u64, expected as u64),
                        IndexError::Io(error) => {
                            let refusal = refusal(&error).expect("a refusal");
                            (refusal.number, refusal.first, refusal.second)
                        }
                    };
                    assert_eq!(told, (expected.number, expected.first, expected.second), "{}", text.escape_ascii());
                }
            }
        }
    }
    assert!(refused > 1000);
}

#[test]
fn sequences_are_read_as_in_one_slice() {
    let mut chance = Chance::new(2);
    for _ in 0..20_000 {
        let text = by_chance(&mut chance);
        let mut reader = noodles::io::Reader::new(BufReader::with_capacity(chance.below(5) + 1, &text[..]));
        let mut bases = b"before".to_vec();
        let count = reader.read_sequence(&mut bases).expect("bases");
        let (expected, next) = wakeluri::read_sequence(&text, 0).expect("bases");
        assert_eq!((&bases[6..], count), (&expected[..], expected.len()));
        let mut rest = vec![];
        reader.get_mut().read_to_end(&mut rest).expect("the rest");
        assert_eq!(rest, &text[next as usize..], "{}", text.escape_ascii());

        let mut reader = noodles::io::Reader::new(BufReader::with_capacity(1, &text[..]));
        let mut in_pieces = vec![];
        let mut sequence = reader.sequence_reader();
        loop {
            let piece = sequence.fill_buf().expect("bases");
            let count = piece.len().min(2);
            in_pieces.extend_from_slice(&piece[..count]);
            if count == 0 {
                break;
            }
            sequence.consume(count);
        }
        assert_eq!(in_pieces, expected);
    }
}

#[test]
fn a_query_is_the_exact_read_and_the_raw_one_the_scan() {
    let mut chance = Chance::new(3);
    let mut reached = [0; 3];
    for _ in 0..30_000 {
        let text = by_chance(&mut chance);
        let number = |chance: &mut Chance, most: usize| {
            if chance.once_in(40) { u64::MAX - chance.below(3) as u64 } else { chance.below(most) as u64 }
        };
        let line = format!(
            "s\t{}\t{}\t{}\t{}\n",
            number(&mut chance, 14),
            number(&mut chance, 9),
            number(&mut chance, 6).max(1),
            number(&mut chance, 8).max(1)
        );
        let index = fai::io::Reader::new(line.as_bytes()).read_index().expect("an index");
        let table = wakeluri::read_index(line.as_bytes()).expect("an index");
        let bound = |chance: &mut Chance| (!chance.once_in(4)).then(|| number(chance, 14).max(1));
        let (start, end) = (bound(&mut chance), bound(&mut chance));
        let position = |number: u64| Position::new(number as usize).expect("a position");
        let region = match (start.map(position), end.map(position)) {
            (Some(start), Some(end)) => Region::new("s", start..=end),
            (Some(start), None) => Region::new("s", start..),
            (None, Some(end)) => Region::new("s", ..=end),
            (None, None) => Region::new("s", ..),
        };
        let mut reader = noodles::io::Reader::new(BufReader::with_capacity(chance.below(4) + 1, Cursor::new(&text)));
        let row = table.row(0).expect("a row");
        let told = |answer: std::io::Result<noodles::Record>| match answer {
            Ok(record) => Ok(record.sequence().as_ref().to_vec()),
            Err(error) => Err(refusal(&error).map(|refusal| (refusal.number, refusal.first)).expect("a refusal")),
        };
        let plain =
            |answer: Result<Vec<u8>, wakeluri::Refusal>| answer.map_err(|refusal| (refusal.number, refusal.first));
        let exact = told(reader.query(&index, &region));
        assert_eq!(exact, plain(table.read_exact(&text, row, (start, end))), "{line} {region} {}", text.escape_ascii());
        reached[exact.map_or_else(|(number, _)| usize::from(number == 18) + 1, |_| 0)] += 1;
        let raw = told(reader.query_raw(&index, &region));
        assert_eq!(raw, plain(table.read_raw(&text, row, (start, end))), "{line} {region} {}", text.escape_ascii());
    }
    assert!(reached.iter().all(|count| *count > 100), "{reached:?}");
}

#[test]
fn what_differs_from_noodles() {
    // a region past the end; a scan that runs into the next record
    let index = fai::io::Reader::new(&b"s\t2\t3\t2\t3\nt\t2\t9\t2\t3\n"[..]).read_index().expect("an index");
    let mut reader = noodles::io::Reader::new(Cursor::new(b">s\nAC\n>t\nGG\n"));
    let region: Region = "s:4-5".parse().expect("a region");
    assert_eq!(refusal(&reader.query(&index, &region).unwrap_err()).map(|refusal| refusal.number), Some(17));
    assert_eq!(reader.query_raw(&index, &region).unwrap().sequence().as_ref(), b"tG");
    assert_eq!(
        reader.query(&index, &Region::new("u", ..)).unwrap_err().to_string(),
        "no record has that name: refused 15"
    );
    // names that are no UTF-8
    let odd = fai::io::Reader::new(&b"\xff\t2\t3\t2\t3\n"[..]).read_index().expect("an index");
    assert_eq!(odd.as_ref()[0].name(), b"\xff");
    // an offset over 64 bits does not wrap
    let index = fai::io::Reader::new(format!("s\t9\t{}\t1\t2\n", u64::MAX).as_bytes()).read_index().expect("an index");
    assert_eq!(
        refusal(&index.query(&"s:2".parse().unwrap()).unwrap_err()).map(|refusal| refusal.code()),
        Some("refused 18 (base 2)".into())
    );
    // what would not read back is not written
    let record = noodles::Record::new(noodles::record::Definition::new("a b", None), b"AC".to_vec().into());
    let mut writer = noodles::io::Writer::new(vec![]);
    assert_eq!(refusal(&writer.write_record(&record).unwrap_err()).map(|refusal| refusal.number), Some(28));
    assert!(writer.get_ref().is_empty());
    let index = fai::Index::from(vec![fai::Record::new("a\tb", 1, 2, 3.try_into().unwrap(), 4.try_into().unwrap())]);
    assert_eq!(
        refusal(&fai::io::Writer::new(vec![]).write_index(&index).unwrap_err()).map(|refusal| refusal.number),
        Some(13)
    );
    // regions that can't be
    for text in ["", ":5", "s:0-5", "s:5-4", "s:99999999999999999999"] {
        assert!(text.parse::<Region>().is_err(), "{text}");
    }
    assert_eq!("s:x".parse::<Region>().unwrap(), Region::new("s:x", ..));
    assert_eq!("{a:5}:7-".parse::<Region>().unwrap().to_string(), "a:5:7");
}
