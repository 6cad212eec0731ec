//! Which record a region means, and which of its bases.

use super::{AllAsked, Asked, Named, Region, Source, all_of};
use crate::failure::Failure;
use crate::names::wanted_names;
use crate::place::{commas, count, short};
use crate::warning::Warning;
use wakeluri::region::{Meaning, Number, Written, meaning};
use wakeluri::{Bounds, Call, Names, Refusal, Row, Window};

/// So many names that several records have are named one by one.
const TWINS: usize = 10;

/// For so many refused regions it looks for what may have been meant.
const LOOKED_FOR: usize = 20;

impl Source<'_> {
    /// The regions that are asked for, if all of them are good.
    pub fn regions<'a>(self, asked: AllAsked<'a>) -> Result<Vec<Region<'a>>, Failure> {
        let names = wanted_names(self.rows, asked.iter().flatten().flat_map(|asked| asked.names()));
        let (mut regions, mut faults) = (vec![], vec![]);
        for asked in asked {
            match asked.and_then(|asked| self.resolve(asked, &names, faults.len() < LOOKED_FOR)) {
                Ok(region) => regions.push(region),
                Err(fault) => faults.push(fault),
            }
        }
        all_of(faults)?;
        self.warn_of_twins(&regions, &names);
        Ok(regions)
    }

    /// A region's row and bounds, or why it isn't good.
    fn resolve<'a>(self, asked: Asked<'a>, names: &Names<'_, '_>, look: bool) -> Result<Region<'a>, Failure> {
        let no = |number, first| Refusal::new(Call::ReadExact, number, first, 0);
        let meaning = match (asked.row, asked.named) {
            (Some(row), _) => Meaning::Row(row, Written::default()),
            (_, Some(Named { name, start, end })) => {
                let written = || Written::of(format!("{start}-{end}").as_bytes()).unwrap_or_default();
                names.get(name).map_or(Meaning::NoName(name), |row| Meaning::Row(row, written()))
            }
            (None, None) => meaning_of(asked.text, names),
        };
        let (row, written) = match meaning {
            Meaning::Row(row, written) => (row, written),
            Meaning::NoName(name) => return Err(self.no_name(asked, name, no(15, 0), look)),
            Meaning::Bounds(row, why) => return Err(self.no_bounds(asked, row, &why)),
            Meaning::Several(ways) => return Err(self.several(asked, &ways, no(15, 0))),
        };
        if asked.second().is_some_and(|second| !matches!(meaning_of(second, names), Meaning::NoName(_))) {
            return Err(self.two_in_a_line(asked));
        }
        let length = self.rows.record(row).map_or(0, |record| record.length);
        // when all records are asked for, one without bases is still one of them
        if asked.row.is_some() && length == 0 {
            return Ok(Region { asked, row, start: 1, end: 0 });
        }
        // bounds that 64 bits don't hold are judged here: no record is as long
        if written.senseless() && written.over().is_some() {
            return Err(self.not_read(asked, row, &written, no(16, 0)));
        }
        if written.over().is_some() {
            return Err(self.not_read(asked, row, &written, no(17, length)));
        }
        let value = |number: &Option<Number>| number.as_ref().and_then(|number| number.value);
        let bounds = Bounds { start: value(&written.start), end: value(&written.end) };
        // with no room to write to, what is good is refused with 14 and the count of bases
        let nothing = Window { bytes: &[], from: 0, file_length: self.fasta.length() };
        match self.rows.read_window_into(nothing, row, bounds, &mut []) {
            Err(Refusal { number: 14, first: bases, .. }) => {
                let start = bounds.start.unwrap_or(1);
                Ok(Region { asked, row, start, end: start.saturating_add(bases.saturating_sub(1)) })
            }
            Err(refusal) => Err(self.not_read(asked, row, &written, refusal)),
            Ok(_) => Err(self.not_read(asked, row, &written, no(17, length))),
        }
    }

    /// Warns if a name could mean another record too.
    fn warn_of_twins(self, regions: &[Region<'_>], names: &Names<'_, '_>) {
        let mut rows: Vec<Row> =
            regions.iter().filter(|region| region.asked.row.is_none()).map(|region| region.row).collect();
        rows.sort_unstable_by_key(|row| row.number());
        rows.dedup();
        let file = &self.fasta.shown;
        let twins = rows.into_iter().filter_map(|row| {
            let name = self.rows.record(row)?.name;
            Some((row, names.second(name)?, name))
        });
        let number = |row: Row| {
            let row = row.number();
            self.numbers.and_then(|numbers| numbers.get(row).copied()).unwrap_or(row) as u64 + 1
        };
        let mut more = 0;
        for (told, (row, twin, name)) in twins.enumerate() {
            if told < TWINS {
                let (name, first, second) = (short(name), commas(number(row)), commas(number(twin)));
                let told = format!("records {first} and {second} of {file} are both named {name}: the first is read");
                Warning::new(file, told).say();
            } else {
                more += 1;
            }
        }
        if more > 0 {
            let told = format!("so it is with {} of {file}", count(more, "more name"));
            Warning::new(file, told).say();
        }
    }
}

/// What a region means among some names.
fn meaning_of<'r>(region: &'r [u8], names: &Names<'_, '_>) -> Meaning<'r> {
    meaning(region, |name| names.get(name))
}
