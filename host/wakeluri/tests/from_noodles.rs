//! The examples in the comments of noodles-fasta 0.68.0, as they stand there, with this library in its place: only the `use` lines below
//! are another. What was written to read or write a file there has one here.
//!
//! The examples are noodles' (NOTICE has its licence).

#![allow(unused_imports, unused_mut, unused_variables)]

use std::path::PathBuf;
use std::sync::LazyLock;
use wakeluri::noodles as noodles_fasta;
use wakeluri::noodles::bstr;
use wakeluri::noodles::core as noodles_core;

fn file(name: &str) -> PathBuf {
    PathBuf::from(env!("CARGO_TARGET_TMPDIR")).join(name)
}

/// A file to read, which no example makes.
static REFERENCE: LazyLock<PathBuf> = LazyLock::new(|| {
    let path = file("noodles-reference.fa");
    std::fs::write(&path, ">sq0\nACGT\n>sq1\nNNNN\nNNNN\nNN\n").expect("a file");
    path
});

/// A file to write.
static OUT: LazyLock<PathBuf> = LazyLock::new(|| file("noodles-out.fa"));

#[test]
fn lib_crate_page() -> Result<(), std::io::Error> {
    use noodles_fasta as fasta;
    use std::{
        fs::File,
        io::{self, BufReader},
    };

    let mut reader = File::open(&*REFERENCE).map(BufReader::new).map(fasta::io::Reader::new)?;

    for result in reader.records() {
        let record = result?;
        // ...
    }
    Ok(())
}

#[test]
fn record_new() {
    use noodles_fasta::{
        self as fasta,
        record::{Definition, Sequence},
    };
    let definition = Definition::new("sq0", None);
    let sequence = Sequence::from(b"ACGT".to_vec());
    let record = fasta::Record::new(definition, sequence);
}

#[test]
fn record_definition() {
    use noodles_fasta::{
        self as fasta,
        record::{Definition, Sequence},
    };

    let definition = Definition::new("sq0", None);
    let sequence = Sequence::from(b"ACGT".to_vec());
    let record = fasta::Record::new(definition.clone(), sequence);

    assert_eq!(record.definition(), &definition);
}

#[test]
fn record_name() {
    use noodles_fasta::{
        self as fasta,
        record::{Definition, Sequence},
    };

    let definition = Definition::new("sq0", None);
    let sequence = Sequence::from(b"ACGT".to_vec());
    let record = fasta::Record::new(definition, sequence);

    assert_eq!(record.name(), b"sq0");
}

#[test]
fn record_description() {
    use bstr::{BStr, BString};
    use noodles_fasta::{
        self as fasta,
        record::{Definition, Sequence},
    };

    let definition = Definition::new("sq0", Some(BString::from("LN:4")));
    let sequence = Sequence::from(b"ACGT".to_vec());
    let record = fasta::Record::new(definition, sequence);

    assert_eq!(record.description(), Some(BStr::new("LN:4")));
}

#[test]
fn record_sequence() {
    use noodles_fasta::{
        self as fasta,
        record::{Definition, Sequence},
    };

    let definition = Definition::new("sq0", None);
    let sequence = Sequence::from(b"ACGT".to_vec());
    let record = fasta::Record::new(definition, sequence.clone());

    assert_eq!(record.sequence(), &sequence);
}

#[test]
fn record_definition_new() {
    use noodles_fasta::record::Definition;
    let definition = Definition::new("sq0", None);
}

#[test]
fn record_definition_name() {
    use noodles_fasta::record::Definition;
    let definition = Definition::new("sq0", None);
    assert_eq!(definition.name(), b"sq0");
}

#[test]
fn record_definition_description() {
    use bstr::{BStr, BString};
    use noodles_fasta::record::Definition;

    let definition = Definition::new("sq0", None);
    assert_eq!(definition.description(), None);

    let definition = Definition::new("sq0", Some(BString::from("LN:13")));
    assert_eq!(definition.description(), Some(BStr::new("LN:13")));
}

#[test]
fn record_sequence_len() {
    use noodles_fasta::record::Sequence;
    let sequence = Sequence::default();
    assert_eq!(sequence.len(), 0);
}

#[test]
fn record_sequence_is_empty() {
    use noodles_fasta::record::Sequence;
    let sequence = Sequence::default();
    assert!(sequence.is_empty());
}

#[test]
fn record_sequence_get() -> Result<(), noodles_core::position::TryFromIntError> {
    use noodles_core::Position;
    use noodles_fasta::record::Sequence;

    let sequence = Sequence::from(b"ACGT".to_vec());

    let start = Position::try_from(2)?;
    assert_eq!(sequence.get(start), Some(&b'C'));

    assert_eq!(sequence.get(start..), Some(&b"CGT"[..]));

    let end = Position::try_from(3)?;
    assert_eq!(sequence.get(start..=end), Some(&b"CG"[..]));
    Ok(())
}

#[test]
fn record_sequence_slice() -> Result<(), noodles_core::position::TryFromIntError> {
    use noodles_core::Position;
    use noodles_fasta::record::Sequence;

    let sequence = Sequence::from(b"ACGT".to_vec());

    let start = Position::try_from(2)?;
    let end = Position::try_from(3)?;
    let actual = sequence.slice(start..=end);

    let expected = Sequence::from(b"CG".to_vec());

    assert_eq!(actual, Some(expected));
    Ok(())
}

#[test]
fn record_sequence_complement() -> Result<(), noodles_fasta::record::sequence::complement::ComplementError> {
    use noodles_fasta::record::Sequence;
    let sequence = Sequence::from(b"ACGT".to_vec());
    let actual: Sequence = sequence.complement().collect::<Result<_, _>>()?;
    let expected = Sequence::from(b"TGCA".to_vec());
    assert_eq!(actual, expected);
    Ok(())
}

#[test]
fn record_sequence_complement_2() -> Result<(), noodles_fasta::record::sequence::complement::ComplementError> {
    use noodles_fasta::record::Sequence;
    let sequence = Sequence::from(b"ACGT".to_vec());
    let actual: Sequence = sequence.complement().rev().collect::<Result<_, _>>()?;
    let expected = sequence.clone();
    assert_eq!(actual, expected);
    Ok(())
}

#[test]
fn fai_index_query() -> Result<(), std::io::Error> {
    use std::num::NonZero;

    use noodles_core::Region;
    use noodles_fasta::fai;

    let line_base_count = const { NonZero::new(80).unwrap() };
    let line_width = const { NonZero::new(81).unwrap() };
    let index = fai::Index::from(vec![fai::Record::new("sq0", 10946, 4, line_base_count, line_width)]);

    let region = Region::new("sq0", ..);
    assert_eq!(index.query(&region)?, 4);
    Ok(())
}

#[test]
fn fai_record_new() {
    use std::num::NonZero;

    use noodles_fasta::fai;

    let line_base_count = const { NonZero::new(80).unwrap() };
    let line_width = const { NonZero::new(81).unwrap() };
    let record = fai::Record::new("sq0", 8, 4, line_base_count, line_width);
}

#[test]
fn fai_record_name() {
    use std::num::NonZero;

    use noodles_fasta::fai;

    let line_base_count = const { NonZero::new(80).unwrap() };
    let line_width = const { NonZero::new(81).unwrap() };
    let record = fai::Record::new("sq0", 8, 4, line_base_count, line_width);
    assert_eq!(record.name(), b"sq0");
}

#[test]
fn fai_record_length() {
    use std::num::NonZero;

    use noodles_fasta::fai;

    let line_base_count = const { NonZero::new(80).unwrap() };
    let line_width = const { NonZero::new(81).unwrap() };
    let record = fai::Record::new("sq0", 8, 4, line_base_count, line_width);
    assert_eq!(record.length(), 8);
}

#[test]
fn fai_record_position() {
    use std::num::NonZero;

    use noodles_fasta::fai;

    let line_base_count = const { NonZero::new(80).unwrap() };
    let line_width = const { NonZero::new(81).unwrap() };
    let record = fai::Record::new("sq0", 8, 4, line_base_count, line_width);
    assert_eq!(record.position(), 4);
}

#[test]
fn fai_record_line_base_count() {
    use std::num::NonZero;

    use noodles_fasta::fai;

    let line_base_count = const { NonZero::new(80).unwrap() };
    let line_width = const { NonZero::new(81).unwrap() };
    let record = fai::Record::new("sq0", 8, 4, line_base_count, line_width);
    assert_eq!(record.line_base_count(), line_base_count);
}

#[test]
fn fai_record_line_width() {
    use std::num::NonZero;

    use noodles_fasta::fai;

    let line_base_count = const { NonZero::new(80).unwrap() };
    let line_width = const { NonZero::new(81).unwrap() };
    let record = fai::Record::new("sq0", 8, 4, line_base_count, line_width);
    assert_eq!(record.line_width(), line_width);
}

#[test]
fn fai_record_query() -> Result<(), std::io::Error> {
    use std::num::NonZero;

    use noodles_core::{Position, region::Interval};
    use noodles_fasta::fai;

    let line_base_count = const { NonZero::new(80).unwrap() };
    let line_width = const { NonZero::new(81).unwrap() };
    let record = fai::Record::new("sq0", 8, 4, line_base_count, line_width);
    let interval = Interval::from(..);

    assert_eq!(record.query(interval)?, 4);
    Ok(())
}

#[test]
fn fai_io_reader_get_ref() {
    use noodles_fasta::fai;
    use std::io;
    let reader = fai::io::Reader::new(io::empty());
    let _inner = reader.get_ref();
}

#[test]
fn fai_io_reader_get_mut() {
    use noodles_fasta::fai;
    use std::io;
    let mut reader = fai::io::Reader::new(io::empty());
    let _inner = reader.get_mut();
}

#[test]
fn fai_io_reader_into_inner() {
    use noodles_fasta::fai;
    use std::io;
    let reader = fai::io::Reader::new(io::empty());
    let _inner = reader.into_inner();
}

#[test]
fn fai_io_reader_new() {
    use noodles_fasta::fai;
    let data = b"sq0\t13\t5\t80\t81\nsq1\t21\t19\t80\t81\n";
    let mut reader = fai::io::Reader::new(&data[..]);
}

#[test]
fn fai_io_reader_read_index() -> Result<(), std::io::Error> {
    use std::io;
    use std::num::NonZero;

    use noodles_fasta::fai;

    let data = b"sq0\t13\t5\t80\t81\nsq1\t21\t19\t80\t81\n";
    let mut reader = fai::io::Reader::new(&data[..]);
    let index = reader.read_index()?;

    let line_base_count = const { NonZero::new(80).unwrap() };
    let line_width = const { NonZero::new(81).unwrap() };
    assert_eq!(
        index,
        fai::Index::from(vec![
            fai::Record::new("sq0", 13, 5, line_base_count, line_width),
            fai::Record::new("sq1", 21, 19, line_base_count, line_width),
        ])
    );
    Ok(())
}

#[test]
fn fai_io_writer_get_ref() {
    use noodles_fasta::fai;
    use std::io;
    let writer = fai::io::Writer::new(io::sink());
    let _inner = writer.get_ref();
}

#[test]
fn fai_io_writer_get_mut() {
    use noodles_fasta::fai;
    use std::io;
    let mut writer = fai::io::Writer::new(io::sink());
    let _inner = writer.get_mut();
}

#[test]
fn fai_io_writer_into_inner() {
    use noodles_fasta::fai;
    use std::io;
    let writer = fai::io::Writer::new(io::sink());
    let _inner = writer.into_inner();
}

#[test]
fn fai_io_writer_new() {
    use noodles_fasta::fai;
    let mut writer = fai::io::Writer::new(Vec::new());
}

#[test]
fn fai_io_writer_write_index() -> Result<(), std::io::Error> {
    use std::io;
    use std::num::NonZero;

    use noodles_fasta::fai;

    let mut writer = fai::io::Writer::new(Vec::new());

    let line_base_count = const { NonZero::new(80).unwrap() };
    let line_width = const { NonZero::new(81).unwrap() };
    let index = fai::Index::from(vec![fai::Record::new("sq0", 13, 5, line_base_count, line_width)]);
    writer.write_index(&index)?;

    assert_eq!(writer.get_ref(), b"sq0\t13\t5\t80\t81\n");
    Ok(())
}

#[test]
fn io_reader_get_ref() {
    use noodles_fasta as fasta;
    use std::io;
    let reader = fasta::io::Reader::new(io::empty());
    let _inner = reader.get_ref();
}

#[test]
fn io_reader_get_mut() {
    use noodles_fasta as fasta;
    use std::io;
    let mut reader = fasta::io::Reader::new(io::empty());
    let _inner = reader.get_mut();
}

#[test]
fn io_reader_into_inner() {
    use noodles_fasta as fasta;
    use std::io;
    let reader = fasta::io::Reader::new(io::empty());
    let _inner = reader.into_inner();
}

#[test]
fn io_reader_new() {
    use noodles_fasta as fasta;
    let data = b">sq0\nACGT\n>sq1\nNNNN\nNNNN\nNN\n";
    let mut reader = fasta::io::Reader::new(&data[..]);
}

#[test]
fn io_reader_read_definition() -> Result<(), std::io::Error> {
    use noodles_fasta::{self as fasta, record::Definition};
    use std::io;

    let data = b">sq0\nACGT\n>sq1\nNNNN\nNNNN\nNN\n";
    let mut reader = fasta::io::Reader::new(&data[..]);

    let mut definition = Definition::default();
    reader.read_definition(&mut definition)?;

    assert_eq!(definition.name(), "sq0");
    Ok(())
}

#[test]
fn io_reader_read_sequence() -> Result<(), std::io::Error> {
    use noodles_fasta::{self as fasta, record::Definition};
    use std::io;

    let data = b">sq0\nACGT\n>sq1\nNNNN\nNNNN\nNN\n";
    let mut reader = fasta::io::Reader::new(&data[..]);
    reader.read_definition(&mut Definition::default())?;

    let mut buf = Vec::new();
    reader.read_sequence(&mut buf)?;

    assert_eq!(buf, b"ACGT");
    Ok(())
}

#[test]
fn io_reader_sequence_reader() -> Result<(), std::io::Error> {
    use noodles_fasta::{self as fasta, record::Definition};
    use std::io::{self, Read};

    let data = b">sq0\nACGT\n>sq1\nNNNN\nNNNN\nNN\n";
    let mut reader = fasta::io::Reader::new(&data[..]);
    reader.read_definition(&mut Definition::default())?;

    let mut sequence_reader = reader.sequence_reader();
    let mut buf = vec![0; 2];
    sequence_reader.read_exact(&mut buf)?;

    assert_eq!(buf, b"AC");
    Ok(())
}

#[test]
fn io_reader_records() -> Result<(), std::io::Error> {
    use noodles_fasta::{
        self as fasta,
        record::{Definition, Sequence},
    };
    use std::io;

    let data = b">sq0\nACGT\n>sq1\nNNNN\nNNNN\nNN\n";
    let mut reader = fasta::io::Reader::new(&data[..]);

    let mut records = reader.records();

    assert_eq!(
        records.next().transpose()?,
        Some(fasta::Record::new(Definition::new("sq0", None), Sequence::from(b"ACGT".to_vec()),))
    );

    assert_eq!(
        records.next().transpose()?,
        Some(fasta::Record::new(Definition::new("sq1", None), Sequence::from(b"NNNNNNNNNN".to_vec()),))
    );

    assert!(records.next().is_none());
    Ok(())
}

#[test]
fn io_reader_query() -> Result<(), Box<dyn std::error::Error>> {
    use std::io::Cursor;
    use std::num::NonZero;

    use noodles_core::Region;
    use noodles_fasta::{
        self as fasta, fai,
        record::{Definition, Sequence},
    };

    let line_base_count = const { NonZero::new(5).unwrap() };
    let line_width = const { NonZero::new(5).unwrap() };
    let index = fai::Index::from(vec![
        fai::Record::new("sq0", 4, 5, line_base_count, line_width),
        fai::Record::new("sq1", 4, 15, line_base_count, line_width),
        fai::Record::new("sq2", 4, 25, line_base_count, line_width),
    ]);

    let src = b">sq0\nNNNN\n>sq1\nACGT\n>sq2\nNNNN\n";
    let mut reader = fasta::io::Reader::new(Cursor::new(src));

    let region = Region::new("sq1", ..);
    let record = reader.query(&index, &region)?;
    assert_eq!(record, fasta::Record::new(Definition::new("sq1", None), Sequence::from(b"ACGT".to_vec()),));

    let region = "sq1:2-3".parse()?;
    let record = reader.query(&index, &region)?;
    assert_eq!(record, fasta::Record::new(Definition::new("sq1:2-3", None), Sequence::from(b"CG".to_vec()),));
    Ok(())
}

#[test]
fn io_indexer_new() {
    use noodles_fasta as fasta;
    use std::io;
    let mut indexer = fasta::io::Indexer::new(io::empty());
}

#[test]
fn io_indexer_index_record() -> Result<(), std::io::Error> {
    use noodles_fasta::{self as fasta, fai};
    use std::io;
    use std::num::NonZero;

    let src = b">sq0\nACGT\n>sq1\nNNNN\nNNNN\nNN\n";
    let mut indexer = fasta::io::Indexer::new(&src[..]);

    let mut records = Vec::new();

    while let Some(record) = indexer.index_record()? {
        records.push(record);
    }

    let line_base_count = const { NonZero::new(4).unwrap() };
    let line_width = const { NonZero::new(5).unwrap() };
    let expected = [
        fai::Record::new("sq0", 4, 5, line_base_count, line_width),
        fai::Record::new("sq1", 10, 15, line_base_count, line_width),
    ];

    assert_eq!(records, expected);
    Ok(())
}

#[test]
fn io_writer_get_ref() {
    use noodles_fasta as fasta;
    use std::io;
    let writer = fasta::io::Writer::new(io::sink());
    let _inner = writer.get_ref();
}

#[test]
fn io_writer_get_mut() {
    use noodles_fasta as fasta;
    use std::io;
    let mut writer = fasta::io::Writer::new(io::sink());
    let _inner = writer.get_mut();
}

#[test]
fn io_writer_into_inner() {
    use noodles_fasta as fasta;
    use std::io;
    let writer = fasta::io::Writer::new(io::sink());
    let _inner = writer.into_inner();
}

#[test]
fn io_writer_new() {
    use noodles_fasta as fasta;
    let writer = fasta::io::Writer::new(Vec::new());
}

#[test]
fn io_writer_write_record() -> Result<(), std::io::Error> {
    use noodles_fasta::{
        self as fasta,
        record::{Definition, Sequence},
    };
    use std::io;

    let mut writer = fasta::io::Writer::new(Vec::new());

    let definition = Definition::new("sq0", None);
    let sequence = Sequence::from(b"ACGT".to_vec());
    let record = fasta::Record::new(definition, sequence);

    writer.write_record(&record)?;

    assert_eq!(writer.get_ref(), b">sq0\nACGT\n");
    Ok(())
}

#[test]
fn io_writer_builder_set_line_base_count() {
    use noodles_fasta::io::writer::Builder;
    use std::num::NonZero;
    let builder = Builder::default().set_line_base_count(const { NonZero::new(100).unwrap() });
}

#[test]
fn io_writer_builder_build_from_path() -> Result<(), std::io::Error> {
    use noodles_fasta::io::writer::Builder;
    let writer = Builder::default().build_from_path(&*OUT)?;
    Ok(())
}

#[test]
fn io_writer_builder_build_from_writer() {
    use noodles_fasta::io::writer::Builder;
    use std::io;
    let writer = Builder::default().build_from_writer(io::sink());
}
