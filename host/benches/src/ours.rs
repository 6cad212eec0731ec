//! This library's side. What is timed are the calls of the safe library (host/wakeluri), in which an app makes them: what they allocate
//! for an answer is a part of the work, as it is of the original's. Calls named `.._into` write to a room that is lent, which was written
//! to before: the proved code allocates nothing, and an app that reads much lends one room again and again.

use crate::measure::sum;
use crate::names::wanted_names;
use crate::original::{Region, Row};
use std::hint::black_box;
use wakeluri::{Names, Refusal, Table, Window, entry};

fn rows_of(table: &Table) -> Vec<Row> {
    table.records().map(|r| (r.name.to_vec(), r.length, r.position, r.line_bases, r.line_width)).collect()
}

/// The rows of a file, by the original's rule.
pub fn rows(file: &[u8]) -> Vec<Row> {
    rows_of(&wakeluri::index_strict(file).expect("a good file"))
}

/// The rows of a file, by the complete rule.
pub fn complete_rows(file: &[u8]) -> Vec<Row> {
    rows_of(&wakeluri::index(file).expect("a good file"))
}

/// The rows of an index text.
pub fn read_rows(text: &[u8]) -> Vec<Row> {
    rows_of(&wakeluri::read_index(text).expect("a good index"))
}

/// Indexes a whole file, by the original's rule.
pub fn index(file: &[u8]) -> u64 {
    black_box(wakeluri::index_strict(black_box(file)).expect("a good file")).len() as u64
}

/// Indexes a whole file, by the complete rule.
pub fn index_complete(file: &[u8]) -> u64 {
    black_box(wakeluri::index(black_box(file)).expect("a good file")).len() as u64
}

/// Indexes a whole file, by the original's rule, to a table that is lent, by the entry point itself: nothing is allocated.
pub fn index_into(file: &[u8], table: &mut [u8]) -> u64 {
    let answer = entry::index_file(black_box(file), table);
    assert_eq!(answer.refusal, 0, "a good file, and a table that is long enough");
    answer.count
}

/// Checks an index with its file.
pub fn check(file: &[u8], text: &[u8]) -> u64 {
    wakeluri::check(black_box(file), black_box(text)).expect("a good index");
    0
}

/// Indexes a whole FASTQ file.
pub fn fastq_index(file: &[u8]) -> u64 {
    black_box(wakeluri::fastq::index(black_box(file)).expect("a good file")).len() as u64
}

/// Indexes a whole FASTQ file, into a lent table.
pub fn fastq_index_into(file: &[u8], table: &mut [u8]) -> u64 {
    let answer = entry::fastq_index(black_box(file), table);
    assert_eq!(answer.refusal, 0, "a good file, and a table that is long enough");
    answer.count
}

/// Checks an index of a FASTQ file.
pub fn fastq_check(file: &[u8], text: &[u8]) -> u64 {
    wakeluri::fastq::check(black_box(file), black_box(text)).expect("a good index");
    0
}

/// Writes the index of a FASTQ file.
pub fn fastq_write(table: &wakeluri::fastq::Table<'_>) -> u64 {
    black_box(table.write_index().expect("a good table")).len() as u64
}

/// Reads an index text.
pub fn read_index(text: &[u8]) -> u64 {
    black_box(wakeluri::read_index(black_box(text)).expect("a good index")).len() as u64
}

/// Writes the index text of a table to a room that is lent, by the entry point, line behind line.
pub fn write_into(table: &Table, room: &mut [u8]) -> usize {
    let mut at = 0;
    for row in table.rows() {
        at += table.write_index_line_into(black_box(row), &mut room[at..]).expect("a good row");
    }
    at
}

/// A file with its index and the regions that are to be read.
pub struct Regions<'f> {
    file: &'f [u8],
    table: Table<'f>,
    regions: Vec<Region>,
    /// The parts of the file that hold them.
    parts: Vec<&'f [u8]>,
}

impl<'f> Regions<'f> {
    /// Of a file.
    pub fn new(file: &'f [u8], regions: &[Region]) -> Self {
        let table = wakeluri::index(file).expect("a good file");
        let names = wanted_names(&table, regions.iter().map(|(name, ..)| &name[..]));
        let part = |(name, start, end): &Region| {
            let r = names.get(name).and_then(|row| table.record(row)).expect("a record of that name");
            let offset = |base: u64| r.position + (base - 1) / r.line_bases * r.line_width + (base - 1) % r.line_bases;
            &file[offset(*start) as usize..=offset(*end) as usize]
        };
        let parts = regions.iter().map(part).collect();
        Self { file, table, regions: regions.to_vec(), parts }
    }

    /// The bases of all regions, one behind the other.
    pub fn bases(&self) -> Result<Vec<u8>, Refusal> {
        let mut bases = vec![];
        for (name, start, end) in &self.regions {
            bases.extend(self.table.read_exact(self.file, self.table.find(name)?, *start..=*end)?);
        }
        Ok(bases)
    }

    /// The row of a name, by the proved walk.
    fn row(&self, name: &[u8]) -> wakeluri::Row {
        self.table.find(name).expect("a record of that name")
    }

    /// Reads all regions, the name of each looked up by the proved walk, to the front of a room that is lent.
    pub fn read_into(&self, room: &mut [u8]) -> u64 {
        let mut bases = 0;
        for (name, start, end) in black_box(&self.regions) {
            let row = self.row(name);
            let read = self.table.read_exact_into(self.file, row, *start..=*end, room);
            bases += read.expect("a good region") as u64;
            black_box(&mut *room);
        }
        bases
    }

    /// The same from windows of the file that have just the bytes that each region needs.
    pub fn read_windows_into(&self, room: &mut [u8]) -> u64 {
        let mut bases = 0;
        let file_length = self.file.len() as u64;
        for (name, start, end) in black_box(&self.regions) {
            let row = self.row(name);
            let part = self.table.needed_bytes(file_length, room.len() as u64, row, *start..=*end);
            let part = part.expect("a good region");
            let bytes = &self.file[part.start as usize..part.end as usize];
            let window = Window { bytes, from: part.start, file_length };
            bases += self.table.read_window_into(window, row, *start..=*end, room).expect("a good region") as u64;
            black_box(&mut *room);
        }
        bases
    }

    /// Reads all regions, each into a vector of its own.
    pub fn read(&self) -> u64 {
        let mut bases = 0;
        for (name, start, end) in black_box(&self.regions) {
            let read = self.table.read_exact(self.file, self.row(name), *start..=*end);
            bases += black_box(read.expect("a good region")).len() as u64;
        }
        bases
    }

    /// The bases of all regions, whose names are looked up in one walk over all records, as the command does it.
    pub fn bases_in_one_walk(&self) -> Vec<u8> {
        let names = wanted_names(&self.table, self.regions.iter().map(|(name, ..)| &name[..]));
        let mut bases = vec![];
        for (name, start, end) in &self.regions {
            let row = names.get(name).expect("a record of that name");
            bases.extend(self.table.read_exact(self.file, row, *start..=*end).expect("a good region"));
        }
        bases
    }

    /// Looks up all names in one walk, and reads all regions.
    pub fn read_in_one_walk(&self) -> u64 {
        black_box(self.bases_in_one_walk()).len() as u64
    }

    /// The table's map of all names.
    pub fn names(&self) -> Names<'_, 'f> {
        Names::new(&self.table)
    }

    /// Looks all names up by the proved walk, and returns the sum of their rows.
    pub fn walk(&self) -> u64 {
        black_box(&self.regions).iter().map(|(name, ..)| self.row(name).number() as u64).sum()
    }

    /// Looks all names up in a map, and returns the same.
    pub fn map(&self, names: &Names<'_, '_>) -> u64 {
        let row = |(name, ..): &Region| names.find(name).expect("a record of that name").number() as u64;
        black_box(&self.regions).iter().map(row).sum()
    }

    /// The parts of the file that hold the regions, copied as they are, line ends and all, to the front of a room: the limit.
    pub fn copy_into(&self, room: &mut [u8]) -> u64 {
        let mut bytes = 0;
        for part in &self.parts {
            room[..part.len()].copy_from_slice(black_box(part));
            black_box(&mut *room);
            bytes += part.len() as u64;
        }
        bytes
    }

    /// Those parts, summed.
    pub fn sum(&self) -> u64 {
        self.parts.iter().map(|part| sum(black_box(part))).fold(0, u64::wrapping_add)
    }
}

/// A file with its rows, and regions of rows that are known.
pub struct Sheet<'f> {
    file: &'f [u8],
    table: Table<'f>,
    regions: Vec<(wakeluri::Row, wakeluri::Bounds)>,
}

impl<'f> Sheet<'f> {
    /// Of a file.
    pub fn new(file: &'f [u8], regions: &[Region]) -> Self {
        let table = wakeluri::index(file).expect("a good file");
        let row = |name: &[u8]| table.find(name).expect("a record of that name");
        let regions = regions.iter().map(|(name, start, end)| (row(name), (*start..=*end).into())).collect();
        Self { file, table, regions }
    }

    /// The bases of each region, by one call.
    pub fn at_once(&self) -> Vec<Vec<u8>> {
        let sheet = self.table.read_sheet(self.file, &self.regions).expect("good regions");
        sheet.pieces().map(<[u8]>::to_vec).collect()
    }

    /// The same, by a call for each.
    pub fn one_by_one(&self) -> Vec<Vec<u8>> {
        let read = |(row, bounds): &(wakeluri::Row, wakeluri::Bounds)| self.table.read_exact(self.file, *row, *bounds);
        self.regions.iter().map(|region| read(region).expect("a good region")).collect()
    }

    /// Reads all regions by one call.
    pub fn read_at_once(&self) -> u64 {
        let sheet = self.table.read_sheet(self.file, black_box(&self.regions)).expect("good regions");
        black_box(&sheet).pieces().map(|piece| piece.len() as u64).sum()
    }

    /// Reads all regions by a call for each.
    pub fn read_one_by_one(&self) -> u64 {
        let mut bases = 0;
        for (row, bounds) in black_box(&self.regions) {
            let read = self.table.read_exact(self.file, *row, *bounds);
            bases += black_box(read.expect("a good region")).len() as u64;
        }
        bases
    }
}

/// Scores many answers to one exercise, with one room that is lent; returns how many bases are right.
pub fn score(table: &Table, file: &[u8], exercise: &[u8], typed: &[Vec<u8>], room: &mut [u8]) -> u64 {
    let score = |typed: &Vec<u8>| table.score_into(black_box(file), exercise, typed, room).expect("a score").right;
    typed.iter().map(score).sum()
}

/// How many bytes of each answer are the key's, compared plainly.
pub fn compared(key: &[u8], typed: &[Vec<u8>]) -> u64 {
    let same = |typed: &Vec<u8>| black_box(key).iter().zip(typed).filter(|(key, typed)| key == typed).count() as u64;
    typed.iter().map(same).sum()
}
