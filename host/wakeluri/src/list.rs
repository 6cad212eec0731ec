//! The entry points and their answers, as include/wakeluri.h has them: `tools/dev generated` writes both lists from the header.
//!
//! They are macros that hand what they list to another macro: [`entry`](crate::entry) makes the safe calls and what they
//! link of them, and the tests compare them with the header and make hostile calls by them.

/// Every entry point, in the order of the header, without the `wakeluri_` of its name. A parameter is one of these:
///
/// | | in Rust | in C |
/// |---|---|---|
/// | bytes | `&[u8]` | `const uint8_t *p, size_t p_length` |
/// | maybe | `Option<&[u8]>` | `uint64_t has_p, const uint8_t *p, size_t p_length` |
/// | output | `&mut [u8]` | `uint8_t *p, size_t p_length` |
/// | table | `&mut [u8]` | the same: rows are put in it |
/// | fastq_table | `&mut [u8]` | the same: rows of a FASTQ file are put in it |
/// | numbers | `&mut [u64]` | `uint64_t *p, size_t p_length` |
/// | number | `u64` | `uint64_t p` |
/// | state | `Feed` | `struct wakeluri_feed p`: what an earlier call left |
/// | bounds | `Bounds` | `uint64_t has_start, uint64_t start, uint64_t has_end, uint64_t end` |
#[doc(hidden)]
#[macro_export]
macro_rules! entry_points {
    ($with:ident) => {
        $with! {
            /// What a definition line says, given with its end. Refuses 1 to 4; the line begins at 0, so `first` is the
            /// place in it.
            fn definition_line(line: bytes) -> Definition;

            /// What the content of a definition line says, without its end. Refuses 1 to 4.
            fn definition_content(content: bytes) -> Definition;

            /// The content of the line at an offset, without LF and, only before an LF, one CR. Refuses 1.
            fn read_line(file: bytes, at: number) -> Span;

            /// One step of the scanning rule: the next run of bases from a place on, of length 0 at '>' or the end.
            /// Refuses 1.
            fn read_run(file: bytes, at: number) -> Span;

            /// The bases from an offset on, by the scanning rule, at the front of `out`; answers how many, and where it
            /// stopped. Refuses 1, 14.
            fn read_sequence(file: bytes, at: number, out: output) -> Answer;

            /// The same, at most `limit` bases. Refuses 1, 14.
            fn read_sequence_limit(file: bytes, at: number, limit: number, out: output) -> Answer;

            /// The row of the record at an offset, and the offset behind it. Refuses 1 to 7.
            fn index_record(file: bytes, at: number) -> Row;

            /// A row for each record of a file, from the table's first on, by the original's rule; answers how many.
            /// Refuses 1 to 8.
            fn index_file(file: bytes, table: table) -> Answer;

            /// The same by the complete rule, which takes every file that has a right index at all: blank lines and
            /// records without bases too. If the other call gives a record's row, this one gives the same. 42 has the
            /// offset and the base position of the first base that the record's numbers don't lead to: no index fits
            /// this file. Refuses 1, then record by record 2 to 4, 42 and 8.
            fn index_complete(file: bytes, table: table) -> Answer;

            /// The same of a part of a file, for a host that has several cores: a row for each record that begins at
            /// `from` or behind it, and before `to`. By the rule of `index_file` for 0, else by that of
            /// `index_complete`. Any numbers will do: a record begins at 0, and at a '>' behind an LF. Offsets and
            /// spans are those of the whole file. Where the numbers of parts rise from 0 to the file's length or more,
            /// the rows of all parts, one behind the other up to the first refusal, are the rows of the file, and that
            /// refusal is the file's. Refuses 1 for the whole file, and as that call does.
            fn index_part(file: bytes, from: number, to: number, complete: number, table: table) -> Answer;

            /// The start of a file that is indexed while it arrives: by the rule of `index_file` for 0, else by that of
            /// `index_complete`. Refuses nothing.
            fn feed_start(complete: number) -> Feed;

            /// The next bytes of the file, split anywhere; no bytes change nothing. Lend one table to all calls: rows
            /// and refusal are then those of one call on the whole file, and names and descriptions are spans of it. A
            /// line is judged, and a row written, once its LF and the next byte have come. A refusal stays: each later
            /// call only repeats it. Refuses 26 for bytes behind the end, 1 for a piece that makes the file too long,
            /// before any of it is read, and as indexing the file does.
            fn feed_piece(feed: state, piece: bytes, table: table) -> Feed;

            /// The end of the file. Refuses 26 behind another good end, and as indexing the file does.
            fn feed_end(feed: state, table: table) -> Feed;

            /// What an index line says, given with its end; its name starts at 0. Refuses 1, 9 to 12.
            fn index_line(line: bytes) -> Row;

            /// What the content of an index line says, without its end; `plain` is 0. Refuses 1, 9 to 12.
            fn index_content(content: bytes) -> Row;

            /// A row for each line of an index, from the table's first on; names are spans of the index. Refuses 1, 9
            /// to 12, 8.
            fn read_index(index: bytes, table: table) -> Answer;

            /// The index line of a row, with its LF, at the front of `out`; answers how many bytes. Refuses 1, 25 (also
            /// for a name or a description outside of `names`), 13, 14.
            fn write_index_line(names: bytes, table: bytes, in_use: number, row: number, out: output) -> Answer;

            /// The first row in use that has the name, as `count`. Look a name up once, and read from its row as often
            /// as you like. Refuses 1, 25, 15.
            fn find(names: bytes, table: bytes, in_use: number, name: bytes) -> Answer;

            /// Exactly the bases from `start` to `end` of a row's record, never fewer. Refuses 1, 16, 25, 17, 14, 18.
            fn read_exact(
                file: bytes, table: bytes, in_use: number, row: number, bounds: bounds, out: output
            ) -> Answer;

            /// Exactly the bases of up to 200 regions, one after another at the front of `out`, and where each begins
            /// at the front of `starts`, which is at least as long as the list of regions; answers how many bytes. A
            /// region is five numbers of eight bytes, low byte first: its row, whether it has a start (0: no), the
            /// start, whether it has an end (0: no), the end; a last part of a region is ignored. All or nothing: a
            /// refusal leaves both as they were, and its `next` is the place of the refused region, or the number of
            /// regions if the whole sheet is refused. Refuses 1, 40, 41, what `read_exact` refuses for the first
            /// refused region with all of `out`, and then 14 with the bytes of all regions, or the greatest number if
            /// they are more.
            fn read_sheet(
                file: bytes, table: bytes, in_use: number, regions: bytes, out: output, starts: numbers
            ) -> Answer;

            /// The bases that a scan finds from `start` on; ignores the record's length, and may run into the next
            /// record. Refuses 1, 16, 25, 18, 14.
            fn read_raw(file: bytes, table: bytes, in_use: number, row: number, bounds: bounds, out: output) -> Answer;

            /// `read_exact` when only some bytes of a file are at hand: the file has `length` bytes, and those in the
            /// window begin at offset `from`. Only the region's bytes of the window matter. Refuses 1, also for
            /// `length`; 35 if the window passes `length`; 16, 25, 17, 14, 18; and 34 with the first base that is in
            /// the file and not in the window.
            fn read_window(
                length: number, window: bytes, from: number, table: bytes, in_use: number, row: number, bounds: bounds,
                out: output
            ) -> Answer;

            /// The smallest part of a file of `length` bytes that has the bases from `start` to `end` of a row's
            /// record, for an output of `room` bytes: a window that is this part is enough for `read_window`. It reads
            /// no byte. Refuses 1, 16, 25, 17, 14, 18.
            fn needed_bytes(
                length: number, room: number, table: bytes, in_use: number, row: number, bounds: bounds
            ) -> Part;

            /// The complement of some bases, at the front of `out`. Refuses 1, 14, and 24 with the first bad byte.
            fn complement(bases: bytes, out: output) -> Answer;

            /// The reverse complement, at the front of `out`. Refuses 1, 14, and 24 with the last bad byte.
            fn reverse_complement(bases: bytes, out: output) -> Answer;

            /// A FASTA record at the front of `out`: '>', the name, one space and the description if there is one, LF;
            /// then the bases in lines of `width`, each with LF; answers how many bytes. Refuses 1, 27 to 30, 14.
            fn write_record(name: bytes, description: maybe, bases: bytes, width: number, out: output) -> Answer;

            /// Bases alone, in lines of `width`, each with LF: the next piece of a record whose pieces so far were
            /// whole lines. Refuses 1, 27, 30, 14.
            fn write_sequence(bases: bytes, width: number, out: output) -> Answer;

            /// How many plain sequences a primer of 1 to 31 letters stands for, as `count`. Refuses 1, 36, and 37 with
            /// the first letter without a code.
            fn degeneracy(primer: bytes) -> Answer;

            /// The first place of a primer in a text that is not before `from`: each text letter's bases lie among
            /// those of its primer letter. `count` is 1 and `next` the place, or `count` is 0 if there is none. A byte
            /// without a code is in no match. Refuses 1, 36, 37.
            fn find_primer(primer: bytes, text: bytes, from: number) -> Answer;

            /// What the bytes of an exercise say. Refuses 1, and from the front, with the offset of the field, 31, 32,
            /// 33.
            fn read_exercise(exercise: bytes) -> Exercise;

            /// The bytes of an exercise at the front of `out`; answers how many bytes. The bounds are not judged.
            /// Refuses 1, 31, 33, 14.
            fn write_exercise(name: bytes, start: number, end: number, edition: number, out: output) -> Answer;

            /// What was typed against a key, by the rules of edition 1 or 2. Right, wrong and missing together are the
            /// key's length. Refuses 1, 33.
            fn score_typed(key: bytes, typed: bytes, edition: number) -> Score;

            /// From the bytes of an exercise to a score. It looks up the exercise's name among the rows in use, whose
            /// names are spans of `names`, fetches the key by the exact read to the front of `room`, and counts what
            /// was typed against it by the exercise's edition. Right, wrong and missing together are always
            /// end - start + 1, and so many bytes of `room` are the key. A refusal leaves `room` as it was. Refuses 1
            /// for any of the four inputs, 31 to 33, 25, 15, 16, 17, 14, 18.
            fn score_exercise(
                exercise: bytes, typed: bytes, file: bytes, names: bytes, table: bytes, in_use: number, room: output
            ) -> Score;

            /// Accepts a FASTA file and an index of any program exactly if the index leads to every base. Refuses 1, 2
            /// to 4, 19, 9 to 12, 21 to 23, 20.
            fn check(fasta: bytes, index: bytes) -> Answer;

            /// The same of a part of a file and a part of its index: the records that begin at `from` or behind it, and
            /// before `to`, against the index lines that begin at `first` or behind it, and before `last`; both count
            /// from 1. Any numbers will do. Where both pairs of numbers rise from 0 to the lengths or more, and every
            /// part is accepted, the whole is. Where a part is refused, ask `check`: its refusal counts the records of
            /// the whole file. Refuses 1 for the whole file and the whole index, and as `check` does.
            fn check_part(fasta: bytes, from: number, to: number, index: bytes, first: number, last: number) -> Answer;

            /// A row for each record of a FASTQ file, from the table's first on; answers how many. Each line of bases
            /// has the first one's bases and width, except a record's last, which may have less; none is blank. Behind
            /// the '+' line are as many lines of qualities, each with the bases and the width of its partner. Refuses
            /// 1, then record by record 2 to 7, 38, 39, 8.
            fn fastq_index(file: bytes, table: fastq_table) -> Answer;

            /// The same of a part of a FASTQ file, for a host that has several cores: a row for each record from `from`
            /// on that begins before `to`; answers how many, and in `next`, after a refusal too, the offset behind the
            /// last of them, where the first record begins that has no row. A record has to begin at `from`: at 0, or
            /// at the `next` of a part before it. Such parts that go on from each other up to the file's length or more
            /// give the rows of the file, and its refusal, wherever they are cut; and so after 8, from `next` on with a
            /// longer table. What was found from another offset, a guess, counts only where the part before it stopped
            /// there. Offsets and spans are those of the whole file. Refuses 1 for the whole file, and as `fastq_index`
            /// does.
            fn fastq_index_part(file: bytes, from: number, to: number, table: fastq_table) -> Answer;

            /// A row for each line of an index of six columns, from the table's first on; names are spans of the index.
            /// Refuses 1, 9 to 12, 8.
            fn fastq_read_index(index: bytes, table: fastq_table) -> Answer;

            /// What an index line of six columns says, given with its end; its name starts at 0. Refuses 1, 9 to 12.
            fn fastq_read_line(line: bytes) -> Fastq;

            /// The index line of a row, of six columns and with its LF, at the front of `out`; answers how many bytes.
            /// Refuses 1, 25, 13, 14.
            fn fastq_write_line(names: bytes, table: bytes, in_use: number, row: number, out: output) -> Answer;

            /// Exactly the bases from `start` to `end` of a row's record, or exactly their qualities if `qualities` is
            /// not 0, never fewer. Refuses 1, 16, 25, 17, 14, 18.
            fn fastq_read(
                file: bytes, table: bytes, in_use: number, row: number, bounds: bounds, qualities: number, out: output
            ) -> Answer;

            /// Accepts a FASTQ file and an index of six columns, of any program, exactly if `fastq_index` takes the
            /// file and the index leads to every base and to every quality. Refuses 1; then what `fastq_index` refuses
            /// of the file, with its numbers, except 8; then record by record 19, 9 to 12, 21, 22, and 23 for a base or
            /// else a quality; last 20.
            fn fastq_check(fastq: bytes, index: bytes) -> Answer;

            /// How far a part of a FASTQ file is accepted with a part of its index, for a host that has several cores:
            /// the records from `from` on that begin before `to`, each against its index line, from the line at place
            /// `first` on, up to the first that is not accepted. Answers where it stopped: in `next` the offset in the
            /// file, in `count` the place in the index. A record has to begin at `from` and its line at `first`: both
            /// at 0, or where a part before it stopped. If such parts that go on from each other stop at the end of
            /// both, `fastq_check` accepts the whole, wherever they are cut. Where they don't, ask `fastq_check`: it
            /// tells why. What was walked from a guess counts only where the part before it stopped there. Refuses 1
            /// for the whole file and the whole index, and no record.
            fn fastq_check_part(fastq: bytes, from: number, to: number, index: bytes, first: number) -> Answer;
        }
    };
}

/// Every answer, in the order of the header: its numbers behind the refusal's three.
#[doc(hidden)]
#[macro_export]
macro_rules! answers {
    ($with:ident) => {
        $with! {
            /// A refusal, 0 if there is none; a count (of bytes or of rows, or a row's number), and the place where a
            /// read stopped; if a sheet is refused, `next` is the place of the refused region.
            struct Answer { count, next }

            /// A name and a description by their places in a definition line; 0 and 0 if there is no description.
            struct Definition { name_start, name_length, description_start, description_length }

            /// Some bytes of a file by their place: `found` is 0 if there is no line. `next` is the offset behind the
            /// line, or behind a run's bases.
            struct Span { found, start, length, next }

            /// A record's row: `found` is 0 at the end of a file, and `next` is the offset behind the record. `plain`
            /// is 1 for an index line, given with its end, that `write_index_line` would write with the same bytes: it
            /// ends in LF with no CR before it and no LF in its name, and no number has a needless leading zero or a
            /// plus. It is 0 in every other answer, also for a content.
            struct Row {
                found, next, plain, name_start, name_length, length, position, line_bases, line_width,
                description_start, description_length
            }

            /// An exercise: where its name lies in its bytes, its first and last base, and its edition.
            struct Exercise { name_start, name_length, start, end, edition }

            /// A file on its way: the refusal that stands, and the rows that are written. The next call goes on from
            /// the other numbers: hand them back as they came. Any numbers are taken; a state that no call leaves is
            /// refused with 1.
            struct Feed {
                rows, complete, total, stage, next, at, end, name_start, name_length, description_start,
                description_length, lines, position, line_bases, line_width, bases, waiting_width, waiting_bases,
                waiting_whole, waiting_starts, waiting_name, waiting_text, waiting_kept
            }

            /// The places of a key that are right, wrong and missing, the typed bytes past it, and the score in tenths
            /// of a percent of what was asked.
            struct Score { right, wrong, missing, surplus, score }

            /// A part of a file: the offset of its first byte, and the offset behind its last.
            struct Part { from, to }

            /// The row of an index line of six columns, as a FASTQ file has them: `plain` is 1 for a line that
            /// `fastq_write_line` would write with the same bytes.
            struct Fastq { plain, name_start, name_length, length, position, line_bases, line_width, quality_position }
        }
    };
}
