//! The regions that a command line asks for, one by one and in a sheet.

use crate::beside::{index_before_regions, index_of, read_index};
use crate::failure::Failure;
use crate::input::{How, is_placeless, is_standard};
use crate::read::{AllAsked, Asked};
use crate::sheet::Sheet;
use crate::words::{Common, path, said};
use clap::ArgMatches;
use std::ffi::OsString;
use std::os::unix::ffi::OsStrExt;
use std::path::Path;
use wakeluri::Table;

/// The sheet of regions, if one is named.
pub fn open_sheet(words: &ArgMatches, file: &Path, common: Common) -> Result<Option<Sheet>, Failure> {
    let (sheet, index) = (path(words, "regions"), read_index(words));
    for (one, two, what) in [
        (Some(file), sheet, "the file and the sheet"),
        (Some(file), index, "the file and its index"),
        (sheet, index, "the sheet and the index"),
    ] {
        if one.is_some_and(is_standard) && two.is_some_and(is_standard) {
            return Err(Failure::Usage(format!("{what} can't both come from standard input")));
        }
    }
    if sheet.is_none() && said(words, "bed-sheet") {
        return Err(Failure::Usage("--bed is said of a sheet: name it with --regions SHEET".to_string()));
    }
    let open = |sheet| {
        let input = common.open(sheet, How::Read)?;
        Sheet::new(&input.shown, input.bytes(), said(words, "bed-sheet"))
    };
    sheet.map(open).transpose()
}

/// The regions that are asked for, one by one and in a sheet.
pub fn asked<'a>(words: &'a ArgMatches, sheet: Option<&'a Sheet>) -> Result<AllAsked<'a>, Failure> {
    let regions = words.get_many::<OsString>("region").unwrap_or_default();
    let regions = regions.skip(usize::from(index_before_regions(words).is_some()));
    let mut asked: AllAsked<'_> = regions.map(|region| Ok(Asked::of(region.as_bytes()))).collect();
    if let Some(sheet) = sheet {
        asked.extend(sheet.asked());
        if asked.is_empty() {
            return Err(Failure::Usage(format!("{}: there is no region in it", sheet.shown())));
        }
    }
    Ok(asked)
}

/// Every record of a file.
pub fn all_records<'a>(rows: &Table<'a>) -> AllAsked<'a> {
    let whole = |(row, text)| Ok(Asked { row: Some(row), ..Asked::of(text) });
    rows.rows().zip(rows.records().map(|record| record.name)).map(whole).collect()
}

/// How a file is opened. For regions by an unchecked index only their own bytes are needed.
pub fn how_for_regions(words: &ArgMatches, file: &Path, asked: &AllAsked<'_>, common: Common) -> How {
    let has_index = read_index(words).is_some() || (!is_placeless(file) && index_of(file).exists());
    let parts = said(words, "unchecked") && has_index && !asked.is_empty() && common.how == How::Auto;
    if parts { How::Parts } else { common.how }
}
