//! What `index` and `check` say of a FASTQ file that they take.

use crate::failure::Failure;
use crate::input::Input;
use crate::letters::Odd;
use crate::twins::{self, Seen, Twins};
use wakeluri::fastq::Table;

/// Bytes among the bases that are no letters, and names that several records have.
pub struct Remarks<'f> {
    odd: Odd,
    twins: Vec<Twins<'f>>,
}

/// What is seen of some records.
pub struct Glance {
    odd: Odd,
    names: Seen,
}

impl Glance {
    /// Looks at the records of some rows, in one walk: a record's name lies beside its bases.
    pub fn at(fastq: &Input, rows: &Table<'_>) -> Self {
        let mut names = Seen::none(rows.len());
        let records = rows.records().map(|record| {
            names.add(record.name);
            [record.position, record.length, record.line_bases, record.line_width]
        });
        let odd = Odd::of_reads(fastq.bytes(), records);
        Self { odd, names }
    }
}

impl<'f> Remarks<'f> {
    /// Puts together what was seen of all records, in their order, while their rows were at hand. Only where a name likely occurs twice are
    /// they indexed once more.
    pub fn in_parts(fastq: &'f Input, glances: Vec<Glance>) -> Self {
        let all_names = || {
            let (rows, _) = wakeluri::fastq::index_until_refused(fastq.bytes());
            rows.records().map(|record| record.name).collect::<Vec<_>>().into_iter()
        };
        let (mut odd, mut names) = (Odd::default(), Seen::none(glances.iter().map(|glance| glance.names.len()).sum()));
        for glance in glances {
            odd = odd.and(glance.odd);
            names.extend(glance.names);
        }
        Self { odd, twins: names.twins(all_names) }
    }

    /// Warns of them; strictly, bytes that are no letters are a failure.
    pub fn say(self, fastq: &Input, strict: bool) -> Result<(), Failure> {
        self.odd.tell(fastq, strict)?;
        twins::warn(&fastq.shown, &self.twins);
        Ok(())
    }
}
