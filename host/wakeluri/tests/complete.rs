//! Every small file: the complete rule takes those of which an index can be right, and no others, and its rows read every base.
//!
//! The files are `>s` and a line feed, with so many more bytes of `A`, LF, CR and `>`. All index lines that could matter are tried on
//! the records that are refused: so that no index can fit is seen here by trial, as it is proved in crates/fitting.

use wakeluri::{check, definition_line, index_strict_until_refused, index_until_refused};

/// The bytes behind the first definition line.
const BYTES: u32 = 8;

const ALPHABET: [u8; 4] = *b"A\n\r>";

fn files() -> impl Iterator<Item = Vec<u8>> {
    (0..4_usize.pow(BYTES)).map(|k| {
        let rest = (0..BYTES).map(|place| ALPHABET[k / 4_usize.pow(place) % 4]);
        b">s\n".iter().copied().chain(rest).collect()
    })
}

/// The records of a file: each begins at a line that begins with '>'.
fn records(file: &[u8]) -> Vec<&[u8]> {
    let starts = (0..file.len()).filter(|at| file[*at] == b'>' && (*at == 0 || file[at - 1] == b'\n'));
    let ends = starts.clone().skip(1).chain([file.len()]);
    starts.zip(ends).map(|(start, end)| &file[start..end]).collect()
}

/// Whether a record alone has an index that the checker accepts, by trial of every line whose numbers can matter: more bases in a line
/// than there are lead nowhere else, and no base lies behind the record.
fn any_line_fits(record: &[u8], bases: usize) -> bool {
    let name = definition_line(record.split_inclusive(|byte| *byte == b'\n').next().unwrap_or_default());
    let name = String::from_utf8_lossy(name.expect("a name").name).into_owned();
    (0..record.len()).any(|position| {
        (1..=bases).any(|line_bases| {
            (1..=record.len()).any(|line_width| {
                let line = format!("{name}\t{bases}\t{position}\t{line_bases}\t{line_width}\n");
                check(record, line.as_bytes()).is_ok()
            })
        })
    })
}

/// The bases of a record, by the line rule.
fn bases(record: &[u8]) -> Vec<u8> {
    let lines = record.split_inclusive(|byte| *byte == b'\n').skip(1);
    let contents = lines.map(|line| line.strip_suffix(b"\n").unwrap_or(line));
    contents.flat_map(|line| line.strip_suffix(b"\r").unwrap_or(line)).copied().collect()
}

#[test]
fn every_small_file() {
    let (mut complete, mut strict, mut refused, mut bad_definition) = (0, 0, 0, 0);
    for file in files() {
        let (rows, refusal) = index_until_refused(&file);
        let (strict_rows, strict_refusal) = index_strict_until_refused(&file);
        // rows are equal as far as the original's rule gives any
        assert!(strict_rows.records().eq(rows.records().take(strict_rows.len())), "{}", file.escape_ascii());
        strict += usize::from(strict_refusal.is_none());
        match refusal.map(|refusal| refusal.number) {
            None => {
                complete += 1;
                assert_eq!(check(&file, &rows.write_index().expect("an index")), Ok(()), "{}", file.escape_ascii());
                for (row, record) in rows.rows().zip(records(&file)) {
                    let read = rows.read_exact(&file, row, ..).map_err(|refusal| refusal.number);
                    let expected = Some(bases(record)).filter(|bases| !bases.is_empty()).ok_or(17);
                    assert_eq!(read, expected, "{}", file.escape_ascii());
                }
            }
            Some(42) => {
                refused += 1;
                let record = records(&file)[rows.len()];
                assert!(!any_line_fits(record, bases(record).len()), "{}", file.escape_ascii());
            }
            Some(number) => {
                bad_definition += 1;
                assert!((2..=4).contains(&number), "{}", file.escape_ascii());
            }
        }
    }
    // 44,783 files without a bad definition line up to where they are refused
    assert_eq!((complete, refused, bad_definition), (36_476, 8_307, 65_536 - 44_783));
    assert_eq!(strict, 10_804);
}
