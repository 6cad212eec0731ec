//! The original, twice: over the crate memchr, and over the C library's. Its answers are its own: rows as a vector of records that each
//! hold a name, bases in a vector that grows. To allocate them is a part of its work.

/// A row of an index, to compare: name, length, position, bases and bytes of a line.
pub type Row = (Vec<u8>, u64, u64, u64, u64);

/// A region to read: the record's name, the first base and the last.
pub type Region = (Vec<u8>, u64, u64);

macro_rules! original {
    ($module:ident, $original:ident) => {
        /// One of the two.
        pub mod $module {
            use super::{Region, Row};
            use noodles_core::{Position, region::Interval};
            use std::hint::black_box;
            use std::io::Cursor;
            use $original::fai::{self, Index};
            use $original::io::{Indexer, Reader};

            fn indexed(file: &[u8]) -> Vec<fai::Record> {
                let mut indexer = Indexer::new(file);
                let mut records = vec![];
                while let Some(record) = indexer.index_record().expect("a good file") {
                    records.push(record);
                }
                records
            }

            fn row(r: &fai::Record) -> Row {
                (r.name().to_vec(), r.length(), r.position(), r.line_base_count().get(), r.line_width().get())
            }

            /// The rows of a file.
            pub fn rows(file: &[u8]) -> Vec<Row> {
                indexed(file).iter().map(row).collect()
            }

            /// Indexes a whole file.
            pub fn index(file: &[u8]) -> u64 {
                black_box(indexed(black_box(file))).len() as u64
            }

            /// The rows of an index text.
            pub fn read_rows(text: &[u8]) -> Vec<Row> {
                fai::io::Reader::new(text).read_index().expect("a good index").as_ref().iter().map(row).collect()
            }

            /// Reads an index text.
            pub fn read_index(text: &[u8]) -> u64 {
                let index = fai::io::Reader::new(black_box(text)).read_index().expect("a good index");
                black_box(&index).as_ref().len() as u64
            }

            /// An index, made of a file and kept to be written or to read by.
            pub struct Kept(Index);

            impl Kept {
                /// Of a file.
                pub fn new(file: &[u8]) -> Self {
                    Self(indexed(file).into())
                }

                /// The index text, in a vector that has room for so many bytes from the start.
                pub fn written(&self, bytes: usize) -> Vec<u8> {
                    let mut writer = fai::io::Writer::new(Vec::with_capacity(bytes));
                    writer.write_index(black_box(&self.0)).expect("written");
                    writer.into_inner()
                }
            }

            /// A reader of a file in memory, with its index and the regions that are to be read, made before they are.
            pub struct Regions<'f> {
                reader: Reader<Cursor<&'f [u8]>>,
                index: Index,
                regions: Vec<noodles_core::Region>,
            }

            impl<'f> Regions<'f> {
                /// Of a file.
                pub fn new(file: &'f [u8], regions: &[Region]) -> Self {
                    let bound = |n: u64| Position::new(n as usize);
                    let region = |(name, start, end): &Region| {
                        noodles_core::Region::new(name, Interval::new(bound(*start), bound(*end)))
                    };
                    let regions = regions.iter().map(region).collect();
                    Self { reader: Reader::new(Cursor::new(file)), index: indexed(file).into(), regions }
                }

                /// The bases of all regions, one behind the other.
                pub fn bases(&mut self) -> Vec<u8> {
                    let mut bases = vec![];
                    for region in &self.regions {
                        let record = self.reader.query(&self.index, region).expect("a good region");
                        bases.extend_from_slice(record.sequence().as_ref());
                    }
                    bases
                }

                /// Reads all regions, each by a query.
                pub fn read(&mut self) -> u64 {
                    let mut bases = 0;
                    for region in &self.regions {
                        let record = self.reader.query(&self.index, black_box(region)).expect("a good region");
                        bases += black_box(&record).sequence().len() as u64;
                    }
                    bases
                }
            }
        }
    };
}

original!(over_crate, original);
original!(over_c, original_libc);

/// A record, kept to be written.
pub struct Record(original::Record);

impl Record {
    /// Of some bases, under the name `s`.
    pub fn new(bases: Vec<u8>) -> Self {
        let definition = original::record::Definition::new("s", None);
        Self(original::Record::new(definition, bases.into()))
    }

    /// The record in lines of a width, in a vector that has room for so many bytes from the start.
    pub fn written(&self, width: usize, bytes: usize) -> Vec<u8> {
        let width = std::num::NonZero::new(width).expect("a width");
        let builder = original::io::writer::Builder::default().set_line_base_count(width);
        let mut writer = builder.build_from_writer(Vec::with_capacity(bytes));
        writer.write_record(std::hint::black_box(&self.0)).expect("written");
        writer.into_inner()
    }

    /// The bases.
    pub fn bases(&self) -> &[u8] {
        self.0.sequence().as_ref()
    }
}

/// Some bases, kept as the original's sequence.
pub struct Sequence(original::record::Sequence);

impl Sequence {
    /// Of some bases.
    pub fn new(bases: Vec<u8>) -> Self {
        Self(bases.into())
    }

    /// The bases.
    pub fn bases(&self) -> &[u8] {
        self.0.as_ref()
    }

    /// The reverse complement, collected into a vector.
    pub fn reverse_complement(&self) -> Vec<u8> {
        self.0.complement().rev().collect::<Result<Vec<u8>, _>>().expect("bases that have a complement")
    }
}
