/* Wakeluri's entry points: a FASTA index library whose every answer is proved right.
 *
 * Bytes are lent as a pointer and a length; if the length is 0 the pointer may be any value, NULL too. A table is bytes, eight to a
 * number, low byte first; a row is eight numbers (name start, name length, length, position, line bases, line width, description
 * start, description length), 64 bytes. The last part of a row, if the table ends inside one, is ignored and stays. Name and description
 * are spans of the file that was indexed, or of the index text that was read. The description is 0 and 0 in a row from an index, and for a
 * record without a description or with an empty one. Rows and offsets count from 0, base positions, lines and records from 1.
 * Every answer begins with the refusal's number, 0 for none, and its two numbers. A refusal leaves outputs as they were; rows that
 * were indexed or read before it stay, and are counted. Every call takes any bytes and any numbers. An output or a table that a call
 * changes may not overlap other bytes that are lent to the same call. A bound, or a description, that has a flag before it is absent if the
 * flag is 0.
 *
 * A definition line that does not read is refused with 2 (empty), 3 (no '>') or 4 (no name), and with the offset where reading it
 * failed: where the line begins, plus 0 for 2 and 3, 1 for 4. wakeluri_check answers the record first and that offset second.
 */
#ifndef WAKELURI_H
#define WAKELURI_H

/* The form of rows and answers. It goes up if a program compiled with an earlier header would read them wrong. 1 had rows of six
 * numbers. */
#define WAKELURI_FORM 2

#include <stddef.h>
#include <stdint.h>

#ifdef __cplusplus
extern "C" {
#endif

/* A refusal, 0 if there is none; a count (of bytes or of rows, or a row's number), and the place where a read stopped; if a sheet is
 * refused, `next` is the place of the refused region. */
struct wakeluri_answer {
    uint64_t refusal, first, second;
    uint64_t count, next;
};

/* A name and a description by their places in a definition line; 0 and 0 if there is no description. */
struct wakeluri_definition {
    uint64_t refusal, first, second;
    uint64_t name_start, name_length, description_start, description_length;
};

/* Some bytes of a file by their place: `found` is 0 if there is no line. `next` is the offset behind the line, or behind a run's bases. */
struct wakeluri_span {
    uint64_t refusal, first, second;
    uint64_t found, start, length, next;
};

/* A record's row: `found` is 0 at the end of a file, and `next` is the offset behind the record. `plain` is 1 for an index line, given with
 * its end, that wakeluri_write_index_line would write with the same bytes: it ends in LF with no CR before it and no LF in its name, and no
 * number has a needless leading zero or a plus. It is 0 in every other answer, also for a content. */
struct wakeluri_row {
    uint64_t refusal, first, second;
    uint64_t found, next, plain;
    uint64_t name_start, name_length, length, position, line_bases, line_width;
    uint64_t description_start, description_length;
};

/* An exercise: where its name lies in its bytes, its first and last base, and its edition. */
struct wakeluri_exercise {
    uint64_t refusal, first, second;
    uint64_t name_start, name_length, start, end, edition;
};

/* A file on its way: the refusal that stands, and the rows that are written. The next call goes on from the other numbers: hand them back
 * as they came. Any numbers are taken; a state that no call leaves is refused with 1. */
struct wakeluri_feed {
    uint64_t refusal, first, second;
    uint64_t rows, complete, total, stage, next;
    uint64_t at, end, name_start, name_length, description_start, description_length;
    uint64_t lines, position, line_bases, line_width, bases;
    uint64_t waiting_width, waiting_bases, waiting_whole, waiting_starts, waiting_name, waiting_text, waiting_kept;
};

/* The places of a key that are right, wrong and missing, the typed bytes past it, and the score in tenths of a percent of what was asked. */
struct wakeluri_score {
    uint64_t refusal, first, second;
    uint64_t right, wrong, missing, surplus, score;
};

/* A part of a file: the offset of its first byte, and the offset behind its last. */
struct wakeluri_part {
    uint64_t refusal, first, second;
    uint64_t from, to;
};

/* The row of an index line of six columns, as a FASTQ file has them: `plain` is 1 for a line that wakeluri_fastq_write_line would write with
 * the same bytes. */
struct wakeluri_fastq {
    uint64_t refusal, first, second;
    uint64_t plain;
    uint64_t name_start, name_length, length, position, line_bases, line_width, quality_position;
};

/* What a definition line says, given with its end. Refuses 1 to 4; the line begins at 0, so `first` is the place in it. */
struct wakeluri_definition wakeluri_definition_line(const uint8_t *line, size_t line_length);

/* What the content of a definition line says, without its end. Refuses 1 to 4. */
struct wakeluri_definition wakeluri_definition_content(const uint8_t *content, size_t content_length);

/* The content of the line at an offset, without LF and, only before an LF, one CR. Refuses 1. */
struct wakeluri_span wakeluri_read_line(const uint8_t *file, size_t file_length, uint64_t at);

/* One step of the scanning rule: the next run of bases from a place on, of length 0 at '>' or the end. Refuses 1. */
struct wakeluri_span wakeluri_read_run(const uint8_t *file, size_t file_length, uint64_t at);

/* The bases from an offset on, by the scanning rule, at the front of `out`; answers how many, and where it stopped. Refuses 1, 14. */
struct wakeluri_answer wakeluri_read_sequence(const uint8_t *file, size_t file_length, uint64_t at, uint8_t *out, size_t out_length);

/* The same, at most `limit` bases. Refuses 1, 14. */
struct wakeluri_answer wakeluri_read_sequence_limit(const uint8_t *file, size_t file_length, uint64_t at, uint64_t limit, uint8_t *out, size_t out_length);

/* The row of the record at an offset, and the offset behind it. Refuses 1 to 7. */
struct wakeluri_row wakeluri_index_record(const uint8_t *file, size_t file_length, uint64_t at);

/* A row for each record of a file, from the table's first on, by the original's rule; answers how many. Refuses 1 to 8. */
struct wakeluri_answer wakeluri_index_file(const uint8_t *file, size_t file_length, uint8_t *table, size_t table_length);

/* The same by the complete rule, which takes every file that has a right index at all: blank lines and records without bases too. If the
 * other call gives a record's row, this one gives the same. 42 has the offset and the base position of the first base that the record's
 * numbers don't lead to: no index fits this file. Refuses 1, then record by record 2 to 4, 42 and 8. */
struct wakeluri_answer wakeluri_index_complete(const uint8_t *file, size_t file_length, uint8_t *table, size_t table_length);

/* The same of a part of a file, for a host that has several cores: a row for each record that begins at `from` or behind it, and before `to`. By
 * the rule of wakeluri_index_file for 0, else by that of wakeluri_index_complete. Any numbers will do: a record begins at 0, and at a '>' behind
 * an LF. Offsets and spans are those of the whole file. Where the numbers of parts rise from 0 to the file's length or more, the rows of all parts,
 * one behind the other up to the first refusal, are the rows of the file, and that refusal is the file's. Refuses 1 for the whole file, and as
 * that call does. */
struct wakeluri_answer wakeluri_index_part(const uint8_t *file, size_t file_length, uint64_t from, uint64_t to, uint64_t complete, uint8_t *table, size_t table_length);

/* The start of a file that is indexed while it arrives: by the rule of wakeluri_index_file for 0, else by that of wakeluri_index_complete.
 * Refuses nothing. */
struct wakeluri_feed wakeluri_feed_start(uint64_t complete);

/* The next bytes of the file, split anywhere; no bytes change nothing. Lend one table to all calls: rows and refusal are then those of one
 * call on the whole file, and names and descriptions are spans of it. A line is judged, and a row written, once its LF and the next byte have
 * come. A refusal stays: each later call only repeats it. Refuses 26 for bytes behind the end, 1 for a piece that makes the file too long,
 * before any of it is read, and as indexing the file does. */
struct wakeluri_feed wakeluri_feed_piece(struct wakeluri_feed feed, const uint8_t *piece, size_t piece_length, uint8_t *table, size_t table_length);

/* The end of the file. Refuses 26 behind another good end, and as indexing the file does. */
struct wakeluri_feed wakeluri_feed_end(struct wakeluri_feed feed, uint8_t *table, size_t table_length);

/* What an index line says, given with its end; its name starts at 0. Refuses 1, 9 to 12. */
struct wakeluri_row wakeluri_index_line(const uint8_t *line, size_t line_length);

/* What the content of an index line says, without its end; `plain` is 0. Refuses 1, 9 to 12. */
struct wakeluri_row wakeluri_index_content(const uint8_t *content, size_t content_length);

/* A row for each line of an index, from the table's first on; names are spans of the index. Refuses 1, 9 to 12, 8. */
struct wakeluri_answer wakeluri_read_index(const uint8_t *index, size_t index_length, uint8_t *table, size_t table_length);

/* The index line of a row, with its LF, at the front of `out`; answers how many bytes. Refuses 1, 25 (also for a name or a description
 * outside of `names`), 13, 14. */
struct wakeluri_answer wakeluri_write_index_line(const uint8_t *names, size_t names_length, const uint8_t *table, size_t table_length, uint64_t in_use, uint64_t row, uint8_t *out, size_t out_length);

/* The first row in use that has the name, as `count`. Look a name up once, and read from its row as often as you like. Refuses 1, 25, 15. */
struct wakeluri_answer wakeluri_find(const uint8_t *names, size_t names_length, const uint8_t *table, size_t table_length, uint64_t in_use, const uint8_t *name, size_t name_length);

/* Exactly the bases from `start` to `end` of a row's record, never fewer. Refuses 1, 16, 25, 17, 14, 18. */
struct wakeluri_answer wakeluri_read_exact(const uint8_t *file, size_t file_length, const uint8_t *table, size_t table_length, uint64_t in_use, uint64_t row, uint64_t has_start, uint64_t start, uint64_t has_end, uint64_t end, uint8_t *out, size_t out_length);

/* Exactly the bases of up to 200 regions, one after another at the front of `out`, and where each begins at the front of `starts`, which is
 * at least as long as the list of regions; answers how many bytes. A region is five numbers of eight bytes, low byte first: its row, whether
 * it has a start (0: no), the start, whether it has an end (0: no), the end; a last part of a region is ignored. All or nothing: a refusal
 * leaves both as they were, and its `next` is the place of the refused region, or the number of regions if the whole sheet is refused.
 * Refuses 1, 40, 41, what wakeluri_read_exact refuses for the first refused region with all of `out`, and then 14 with the bytes of all
 * regions, or the greatest number if they are more. */
struct wakeluri_answer wakeluri_read_sheet(const uint8_t *file, size_t file_length, const uint8_t *table, size_t table_length, uint64_t in_use, const uint8_t *regions, size_t regions_length, uint8_t *out, size_t out_length, uint64_t *starts, size_t starts_length);

/* The bases that a scan finds from `start` on; ignores the record's length, and may run into the next record. Refuses 1, 16, 25, 18, 14. */
struct wakeluri_answer wakeluri_read_raw(const uint8_t *file, size_t file_length, const uint8_t *table, size_t table_length, uint64_t in_use, uint64_t row, uint64_t has_start, uint64_t start, uint64_t has_end, uint64_t end, uint8_t *out, size_t out_length);

/* wakeluri_read_exact when only some bytes of a file are at hand: the file has `length` bytes, and those in the window begin at offset
 * `from`. Only the region's bytes of the window matter. Refuses 1, also for `length`; 35 if the window passes `length`; 16, 25, 17, 14, 18;
 * and 34 with the first base that is in the file and not in the window. */
struct wakeluri_answer wakeluri_read_window(uint64_t length, const uint8_t *window, size_t window_length, uint64_t from, const uint8_t *table, size_t table_length, uint64_t in_use, uint64_t row, uint64_t has_start, uint64_t start, uint64_t has_end, uint64_t end, uint8_t *out, size_t out_length);

/* The smallest part of a file of `length` bytes that has the bases from `start` to `end` of a row's record, for an output of `room` bytes:
 * a window that is this part is enough for wakeluri_read_window. It reads no byte. Refuses 1, 16, 25, 17, 14, 18. */
struct wakeluri_part wakeluri_needed_bytes(uint64_t length, uint64_t room, const uint8_t *table, size_t table_length, uint64_t in_use, uint64_t row, uint64_t has_start, uint64_t start, uint64_t has_end, uint64_t end);

/* The complement of some bases, at the front of `out`. Refuses 1, 14, and 24 with the first bad byte. */
struct wakeluri_answer wakeluri_complement(const uint8_t *bases, size_t bases_length, uint8_t *out, size_t out_length);

/* The reverse complement, at the front of `out`. Refuses 1, 14, and 24 with the last bad byte. */
struct wakeluri_answer wakeluri_reverse_complement(const uint8_t *bases, size_t bases_length, uint8_t *out, size_t out_length);

/* A FASTA record at the front of `out`: '>', the name, one space and the description if there is one, LF; then the bases in
 * lines of `width`, each with LF; answers how many bytes. Refuses 1, 27 to 30, 14. */
struct wakeluri_answer wakeluri_write_record(const uint8_t *name, size_t name_length, uint64_t has_description, const uint8_t *description, size_t description_length, const uint8_t *bases, size_t bases_length, uint64_t width, uint8_t *out, size_t out_length);

/* Bases alone, in lines of `width`, each with LF: the next piece of a record whose pieces so far were whole lines. Refuses 1, 27, 30, 14. */
struct wakeluri_answer wakeluri_write_sequence(const uint8_t *bases, size_t bases_length, uint64_t width, uint8_t *out, size_t out_length);

/* How many plain sequences a primer of 1 to 31 letters stands for, as `count`. Refuses 1, 36, and 37 with the first letter without a code. */
struct wakeluri_answer wakeluri_degeneracy(const uint8_t *primer, size_t primer_length);

/* The first place of a primer in a text that is not before `from`: each text letter's bases lie among those of its primer letter. `count` is
 * 1 and `next` the place, or `count` is 0 if there is none. A byte without a code is in no match. Refuses 1, 36, 37. */
struct wakeluri_answer wakeluri_find_primer(const uint8_t *primer, size_t primer_length, const uint8_t *text, size_t text_length, uint64_t from);

/* What the bytes of an exercise say. Refuses 1, and from the front, with the offset of the field, 31, 32, 33. */
struct wakeluri_exercise wakeluri_read_exercise(const uint8_t *exercise, size_t exercise_length);

/* The bytes of an exercise at the front of `out`; answers how many bytes. The bounds are not judged. Refuses 1, 31, 33, 14. */
struct wakeluri_answer wakeluri_write_exercise(const uint8_t *name, size_t name_length, uint64_t start, uint64_t end, uint64_t edition, uint8_t *out, size_t out_length);

/* What was typed against a key, by the rules of edition 1 or 2. Right, wrong and missing together are the key's length. Refuses 1, 33. */
struct wakeluri_score wakeluri_score_typed(const uint8_t *key, size_t key_length, const uint8_t *typed, size_t typed_length, uint64_t edition);

/* From the bytes of an exercise to a score. It looks up the exercise's name among the rows in use, whose names are spans of `names`, fetches the
 * key by the exact read to the front of `room`, and counts what was typed against it by the exercise's edition. Right, wrong and missing together
 * are always end - start + 1, and so many bytes of `room` are the key. A refusal leaves `room` as it was. Refuses 1 for any of the four inputs,
 * 31 to 33, 25, 15, 16, 17, 14, 18. */
struct wakeluri_score wakeluri_score_exercise(const uint8_t *exercise, size_t exercise_length, const uint8_t *typed, size_t typed_length, const uint8_t *file, size_t file_length, const uint8_t *names, size_t names_length, const uint8_t *table, size_t table_length, uint64_t in_use, uint8_t *room, size_t room_length);

/* Accepts a FASTA file and an index of any program exactly if the index leads to every base. Refuses 1, 2 to 4, 19, 9 to 12, 21 to 23, 20. */
struct wakeluri_answer wakeluri_check(const uint8_t *fasta, size_t fasta_length, const uint8_t *index, size_t index_length);

/* The same of a part of a file and a part of its index: the records that begin at `from` or behind it, and before `to`, against the index lines
 * that begin at `first` or behind it, and before `last`; both count from 1. Any numbers will do. Where both pairs of numbers rise from 0 to the
 * lengths or more, and every part is accepted, the whole is. Where a part is refused, ask wakeluri_check: its refusal counts the records of the
 * whole file. Refuses 1 for the whole file and the whole index, and as wakeluri_check does. */
struct wakeluri_answer wakeluri_check_part(const uint8_t *fasta, size_t fasta_length, uint64_t from, uint64_t to, const uint8_t *index, size_t index_length, uint64_t first, uint64_t last);

/* FASTQ. A row of its tables is seven numbers (name start, name length, length, position, line bases, line width, quality position), 56 bytes;
 * a line of its index has six columns. A definition line begins with '@'. */

/* A row for each record of a FASTQ file, from the table's first on; answers how many. Each line of bases has the first one's bases and width,
 * except a record's last, which may have less; none is blank. Behind the '+' line are as many lines of qualities, each with the bases and the
 * width of its partner. Refuses 1, then record by record 2 to 7, 38, 39, 8. */
struct wakeluri_answer wakeluri_fastq_index(const uint8_t *file, size_t file_length, uint8_t *table, size_t table_length);

/* The same of a part of a FASTQ file, for a host that has several cores: a row for each record from `from` on that begins before `to`; answers how
 * many, and in `next`, after a refusal too, the offset behind the last of them, where the first record begins that has no row. A record has to
 * begin at `from`: at 0, or at the `next` of a part before it. Such parts that go on from each other up to the file's length or more give the rows of
 * the file, and its refusal, wherever they are cut; and so after 8, from `next` on with a longer table. What was found from another offset, a
 * guess, counts only where the part before it stopped there. Offsets and spans are those of the whole file. Refuses 1 for the whole file,
 * and as wakeluri_fastq_index does. */
struct wakeluri_answer wakeluri_fastq_index_part(const uint8_t *file, size_t file_length, uint64_t from, uint64_t to, uint8_t *table, size_t table_length);

/* A row for each line of an index of six columns, from the table's first on; names are spans of the index. Refuses 1, 9 to 12, 8. */
struct wakeluri_answer wakeluri_fastq_read_index(const uint8_t *index, size_t index_length, uint8_t *table, size_t table_length);

/* What an index line of six columns says, given with its end; its name starts at 0. Refuses 1, 9 to 12. */
struct wakeluri_fastq wakeluri_fastq_read_line(const uint8_t *line, size_t line_length);

/* The index line of a row, of six columns and with its LF, at the front of `out`; answers how many bytes. Refuses 1, 25, 13, 14. */
struct wakeluri_answer wakeluri_fastq_write_line(const uint8_t *names, size_t names_length, const uint8_t *table, size_t table_length, uint64_t in_use, uint64_t row, uint8_t *out, size_t out_length);

/* Exactly the bases from `start` to `end` of a row's record, or exactly their qualities if `qualities` is not 0, never fewer. Refuses 1, 16, 25, 17, 14, 18. */
struct wakeluri_answer wakeluri_fastq_read(const uint8_t *file, size_t file_length, const uint8_t *table, size_t table_length, uint64_t in_use, uint64_t row, uint64_t has_start, uint64_t start, uint64_t has_end, uint64_t end, uint64_t qualities, uint8_t *out, size_t out_length);

/* Accepts a FASTQ file and an index of six columns, of any program, exactly if wakeluri_fastq_index takes the file and the index leads to every base
 * and to every quality. Refuses 1; then what wakeluri_fastq_index refuses of the file, with its numbers, except 8; then record by record 19, 9 to
 * 12, 21, 22, and 23 for a base or else a quality; last 20. */
struct wakeluri_answer wakeluri_fastq_check(const uint8_t *fastq, size_t fastq_length, const uint8_t *index, size_t index_length);

/* How far a part of a FASTQ file is accepted with a part of its index, for a host that has several cores: the records from `from` on that begin
 * before `to`, each against its index line, from the line at place `first` on, up to the first that is not accepted. Answers where it stopped: in `next`
 * the offset in the file, in `count` the place in the index. A record has to begin at `from` and its line at `first`: both at 0, or where a part
 * before it stopped. If such parts that go on from each other stop at the end of both, wakeluri_fastq_check accepts the whole, wherever they are cut.
 * Where they don't, ask wakeluri_fastq_check: it tells why. What was walked from a guess counts only where the part before it stopped there.
 * Refuses 1 for the whole file and the whole index, and no record. */
struct wakeluri_answer wakeluri_fastq_check_part(const uint8_t *fastq, size_t fastq_length, uint64_t from, uint64_t to, const uint8_t *index, size_t index_length, uint64_t first);

/* Uses the code for a level of x86-64 (1, 3 or 4), or for the best that the processor has if that is less; 0 asks for the best, which is in
 * use from the start. Returns the level in use. Every level gives the same answers: this is for tests and timings. */
uint64_t wakeluri_use_level(uint64_t level);

#include "wakeluri_host.h"

#ifdef __cplusplus
}
#endif

#endif
