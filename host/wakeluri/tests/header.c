/* Calls every entry point through include/wakeluri.h, as a host in C would. Ends with 0, or tells the first line that is wrong. */
#define _DEFAULT_SOURCE
#include "wakeluri.h"
#include <stdio.h>
#include <stdlib.h>
#include <string.h>
#include <sys/mman.h>

#define MUST(fact) \
    do { \
        if (!(fact)) { \
            fprintf(stderr, "line %d: %s\n", __LINE__, #fact); \
            exit(1); \
        } \
    } while (0)

#define BYTES(text) ((const uint8_t *)(text)), (sizeof(text) - 1)

static const char fasta[] = ">s one\nACGT\nAC\n>t\nGG\n";

/* A row of a table: eight numbers of eight bytes, low byte first. */
#define ROW_BYTES 64

static void put_row(uint8_t *table, const uint64_t *numbers) {
    for (int k = 0; k < ROW_BYTES; k++) table[k] = (uint8_t)(numbers[k / 8] >> (8 * (k % 8)));
}

static void ordinary_calls(void) {
    uint8_t table[3 * ROW_BYTES], out[64], expected[ROW_BYTES];
    const uint64_t first_row[8] = {1, 1, 6, 7, 4, 5, 3, 3};

    struct wakeluri_definition d = wakeluri_definition_line(BYTES(">s one \r\n"));
    MUST(d.refusal == 0 && d.name_start == 1 && d.name_length == 1 && d.description_start == 3 && d.description_length == 3);
    d = wakeluri_definition_content(BYTES("\n"));
    MUST(d.refusal == 3 && d.first == 0 && d.second == 0);

    struct wakeluri_span s = wakeluri_read_line(BYTES(fasta), 7);
    MUST(s.refusal == 0 && s.found == 1 && s.start == 7 && s.length == 4 && s.next == 12);
    s = wakeluri_read_line(BYTES(fasta), 1000);
    MUST(s.refusal == 0 && s.found == 0);
    s = wakeluri_read_run(BYTES(fasta), 11);
    MUST(s.refusal == 0 && s.start == 12 && s.length == 2);

    memset(out, '.', sizeof out);
    struct wakeluri_answer a = wakeluri_read_sequence(BYTES(fasta), 7, out, sizeof out);
    MUST(a.refusal == 0 && a.count == 6 && a.next == 15 && memcmp(out, "ACGTAC..", 8) == 0);
    a = wakeluri_read_sequence_limit(BYTES(fasta), 7, 5, out, sizeof out);
    MUST(a.refusal == 0 && a.count == 5 && a.next == 13);
    a = wakeluri_read_sequence_limit(BYTES(fasta), 7, 5, out, 4);
    MUST(a.refusal == 14 && a.first == 5 && a.second == 0 && a.count == 0);

    struct wakeluri_row r = wakeluri_index_record(BYTES(fasta), 0);
    MUST(r.refusal == 0 && r.found == 1 && r.next == 15 && r.name_start == 1 && r.name_length == 1);
    MUST(r.length == 6 && r.position == 7 && r.line_bases == 4 && r.line_width == 5);
    MUST(r.description_start == 3 && r.description_length == 3);
    memset(table, 7, sizeof table);
    a = wakeluri_index_file(BYTES(fasta), table, sizeof table);
    put_row(expected, first_row);
    MUST(a.refusal == 0 && a.count == 2 && memcmp(table, expected, ROW_BYTES) == 0 && table[2 * ROW_BYTES] == 7 && table[3 * ROW_BYTES - 1] == 7);
    memset(table, 7, sizeof table);
    a = wakeluri_index_complete(BYTES(">s one\nACGT\nAC\n\n>t\n"), table, sizeof table);
    MUST(a.refusal == 0 && a.count == 2 && memcmp(table, expected, ROW_BYTES) == 0 && table[2 * ROW_BYTES] == 7 && table[3 * ROW_BYTES - 1] == 7);
    a = wakeluri_index_complete(BYTES(">s\nAC\nGTA\n"), table, sizeof table);
    MUST(a.refusal == 42 && a.first == 8 && a.second == 5 && a.count == 0);

    r = wakeluri_index_line(BYTES("s\t6\t7\t4\t5\n"));
    MUST(r.refusal == 0 && r.plain == 1 && r.name_length == 1 && r.length == 6 && r.line_width == 5);
    MUST(r.description_start == 0 && r.description_length == 0);
    r = wakeluri_index_content(BYTES("s\t6\t7\t4"));
    MUST(r.refusal == 10 && r.first == 1 && r.second == 5);
    memset(table, 7, sizeof table);
    a = wakeluri_read_index(BYTES("s\t6\t7\t4\t5\nt\t2\t18\t2\t3"), table, sizeof table);
    MUST(a.refusal == 0 && a.count == 2 && table[ROW_BYTES] == 10);
    a = wakeluri_index_file(BYTES(fasta), table, sizeof table);
    MUST(a.refusal == 0 && a.count == 2);

    memset(out, '.', sizeof out);
    a = wakeluri_write_index_line(BYTES(fasta), table, sizeof table, 2, 1, out, sizeof out);
    MUST(a.refusal == 0 && a.count == 11 && memcmp(out, "t\t2\t18\t2\t3\n.", 12) == 0);
    a = wakeluri_find(BYTES(fasta), table, sizeof table, 2, BYTES("t"));
    MUST(a.refusal == 0 && a.count == 1);
    a = wakeluri_find(BYTES(fasta), table, sizeof table, 2, BYTES("u"));
    MUST(a.refusal == 15);

    memset(out, '.', sizeof out);
    a = wakeluri_read_exact(BYTES(fasta), table, sizeof table, 2, 0, 1, 4, 1, 5, out, sizeof out);
    MUST(a.refusal == 0 && a.count == 2 && memcmp(out, "TA.", 3) == 0);
    a = wakeluri_read_exact(BYTES(fasta), table, sizeof table, 2, 0, 0, 99, 0, 99, out, sizeof out);
    MUST(a.refusal == 0 && a.count == 6 && memcmp(out, "ACGTAC.", 7) == 0);
    a = wakeluri_read_exact(BYTES(fasta), table, sizeof table, 2, 0, 1, 5, 1, 7, out, sizeof out);
    MUST(a.refusal == 17 && a.first == 6 && a.second == 0 && a.count == 0 && memcmp(out, "ACGTAC.", 7) == 0);
    /* bases 4 to 5, the first two, and from the sixth on; then one past the end */
    const uint64_t regions[4][5] = {{0, 1, 4, 1, 5}, {0, 0, 9, 1, 2}, {0, 1, 6, 0, 9}, {0, 1, 5, 1, 7}};
    uint8_t sheet[sizeof regions];
    for (size_t k = 0; k < sizeof sheet; k++) sheet[k] = (uint8_t)(regions[k / 40][k / 8 % 5] >> (8 * (k % 8)));
    uint64_t starts[4] = {7, 7, 7, 7};
    a = wakeluri_read_sheet(BYTES(fasta), table, sizeof table, 2, sheet, 3 * 40, out, sizeof out, starts, 4);
    MUST(a.refusal == 0 && a.count == 5 && a.next == 0 && memcmp(out, "TAACCC.", 7) == 0);
    MUST(starts[0] == 0 && starts[1] == 2 && starts[2] == 4 && starts[3] == 7);
    a = wakeluri_read_sheet(BYTES(fasta), table, sizeof table, 2, sheet, sizeof sheet, out, sizeof out, starts, 4);
    MUST(a.refusal == 17 && a.first == 6 && a.second == 0 && a.count == 0 && a.next == 3 && starts[3] == 7);
    a = wakeluri_read_sheet(BYTES(fasta), table, sizeof table, 2, sheet, sizeof sheet, out, sizeof out, starts, 3);
    MUST(a.refusal == 41 && a.next == 4);
    memset(out, '.', sizeof out);
    memcpy(out, "ACGTAC", 6);
    a = wakeluri_read_raw(BYTES(fasta), table, sizeof table, 2, 0, 1, 5, 1, 100, out, sizeof out);
    MUST(a.refusal == 0 && a.count == 2 && memcmp(out, "ACGTAC.", 7) == 0);
    /* looked up once, read twice */
    a = wakeluri_find(BYTES(fasta), table, sizeof table, 2, BYTES("t"));
    const uint64_t row = a.count;
    MUST(a.refusal == 0 && row == 1);
    a = wakeluri_read_exact(BYTES(fasta), table, sizeof table, 2, row, 1, 2, 0, 0, out, sizeof out);
    MUST(a.refusal == 0 && a.count == 1 && out[0] == 'G');
    a = wakeluri_read_raw(BYTES(fasta), table, sizeof table, 2, row, 0, 0, 1, 2, out, sizeof out);
    MUST(a.refusal == 0 && a.count == 2 && memcmp(out, "GG", 2) == 0);

    /* a window: just the bytes that bases 4 and 5 of the first record need */
    struct wakeluri_part part = wakeluri_needed_bytes(sizeof fasta - 1, 2, table, sizeof table, 2, 0, 1, 4, 1, 5);
    MUST(part.refusal == 0 && part.from == 10 && part.to == 13);
    memset(out, '.', sizeof out);
    a = wakeluri_read_window(sizeof fasta - 1, (const uint8_t *)fasta + part.from, part.to - part.from, part.from, table, sizeof table, 2, 0, 1, 4, 1, 5, out, sizeof out);
    MUST(a.refusal == 0 && a.count == 2 && memcmp(out, "TA.", 3) == 0);
    a = wakeluri_read_window(sizeof fasta - 1, (const uint8_t *)fasta + part.from, 1, part.from, table, sizeof table, 2, 0, 1, 4, 1, 5, out, sizeof out);
    MUST(a.refusal == 34 && a.first == 5 && a.second == 0 && a.count == 0);
    part = wakeluri_needed_bytes(sizeof fasta - 1, 1, table, sizeof table, 2, 0, 1, 4, 1, 5);
    MUST(part.refusal == 14 && part.first == 2 && part.from == 0 && part.to == 0);

    a = wakeluri_complement(BYTES("ACGU"), out, sizeof out);
    MUST(a.refusal == 0 && a.count == 4 && memcmp(out, "TGCA", 4) == 0);
    a = wakeluri_reverse_complement(BYTES("ACGU"), out, sizeof out);
    MUST(a.refusal == 0 && a.count == 4 && memcmp(out, "ACGT", 4) == 0);
    a = wakeluri_reverse_complement(BYTES("AXCX"), out, sizeof out);
    MUST(a.refusal == 24 && a.first == 3 && a.second == 'X');

    a = wakeluri_write_exercise(BYTES("s"), 1, 100, 1, out, sizeof out);
    MUST(a.refusal == 0 && a.count == 30 && out[3] == 's' && out[29] == 1);
    struct wakeluri_exercise x = wakeluri_read_exercise(out, 30);
    MUST(x.refusal == 0 && x.name_start == 3 && x.name_length == 1 && x.start == 1 && x.end == 100 && x.edition == 1);
    /* a file in two pieces, with its end: the name's place counts from the start of the file */
    static uint8_t fed_rows[2 * 64];
    struct wakeluri_feed feed = wakeluri_feed_start(1);
    feed = wakeluri_feed_piece(feed, BYTES(">s\nAC\r"), fed_rows, sizeof fed_rows);
    MUST(feed.refusal == 0 && feed.rows == 0);
    feed = wakeluri_feed_piece(feed, BYTES("\nA\n>t"), fed_rows, sizeof fed_rows);
    MUST(feed.refusal == 0 && feed.rows == 1);
    feed = wakeluri_feed_end(feed, fed_rows, sizeof fed_rows);
    MUST(feed.refusal == 0 && feed.rows == 2 && fed_rows[0] == 1 && fed_rows[64] == 10);
    feed = wakeluri_feed_end(feed, fed_rows, sizeof fed_rows);
    MUST(feed.refusal == 26 && feed.rows == 2);

    struct wakeluri_score mark = wakeluri_score_typed(BYTES("ACGT"), BYTES("acT"), 1);
    MUST(mark.refusal == 0 && mark.right == 2 && mark.wrong == 1 && mark.missing == 1 && mark.surplus == 0 && mark.score == 500);
    /* a hundred asked, fifty typed, 49 of them right; and where only fifty are left there is no score */
    uint8_t drill[104], typed[50], key[100];
    const uint64_t asked[8] = {1, 1, 100, 3, 100, 101, 0, 0}, fewer[8] = {1, 1, 50, 3, 100, 101, 0, 0};
    uint8_t row_asked[ROW_BYTES];
    memset(drill, 'A', sizeof drill);
    memcpy(drill, ">s\n", 3);
    drill[103] = '\n';
    memset(typed, 'a', sizeof typed);
    typed[49] = 'C';
    memset(key, '.', sizeof key);
    put_row(row_asked, fewer);
    mark = wakeluri_score_exercise(out, 30, typed, sizeof typed, drill, sizeof drill, drill, sizeof drill, row_asked, ROW_BYTES, 1, key, sizeof key);
    MUST(mark.refusal == 17 && mark.first == 50 && mark.score == 0 && key[0] == '.' && key[99] == '.');
    put_row(row_asked, asked);
    mark = wakeluri_score_exercise(out, 30, typed, sizeof typed, drill, sizeof drill, drill, sizeof drill, row_asked, ROW_BYTES, 1, key, sizeof key);
    MUST(mark.refusal == 0 && mark.right == 49 && mark.wrong == 1 && mark.missing == 50 && mark.surplus == 0 && mark.score == 490);
    MUST(key[0] == 'A' && key[99] == 'A');
    a = wakeluri_degeneracy(BYTES("ARN"));
    MUST(a.refusal == 0 && a.count == 8);
    a = wakeluri_find_primer(BYTES("RY"), BYTES("CCACAC"), 3);
    MUST(a.refusal == 0 && a.count == 1 && a.next == 4);
    a = wakeluri_find_primer(BYTES("RY"), BYTES("CCACAC"), 5);
    MUST(a.refusal == 0 && a.count == 0 && a.next == 0);
    a = wakeluri_find_primer(BYTES("R-"), BYTES("CCACAC"), 0);
    MUST(a.refusal == 37 && a.first == 1 && a.second == 0);

    a = wakeluri_check(BYTES(fasta), BYTES("s\t6\t7\t4\t5\nt\t2\t18\t9\t9\n"));
    MUST(a.refusal == 0 && a.first == 0 && a.second == 0);
    a = wakeluri_check(BYTES(fasta), BYTES("s\t6\t7\t4\t6\nt\t2\t18\t9\t9\n"));
    MUST(a.refusal == 23 && a.first == 1 && a.second == 5);
}

/* FASTQ: rows of seven numbers, index lines of six columns. */
#define FASTQ_ROW_BYTES WAKELURI_FASTQ_ROW_BYTES

static void fastq_calls(void) {
    static const char reads[] = "@s one\nACGT\nAC\n+\n@III\n+!\n@t\nG\n+\n!";
    uint8_t table[3 * FASTQ_ROW_BYTES], out[32];
    memset(table, 7, sizeof table);
    struct wakeluri_answer a = wakeluri_fastq_index(BYTES(reads), table, sizeof table);
    MUST(a.refusal == 0 && a.count == 2 && table[0] == 1 && table[48] == 17 && table[2 * FASTQ_ROW_BYTES] == 7);
    memset(out, '.', sizeof out);
    a = wakeluri_fastq_write_line(BYTES(reads), table, sizeof table, 2, 0, out, sizeof out);
    MUST(a.refusal == 0 && a.count == 13 && memcmp(out, "s\t6\t7\t4\t5\t17\n..", 15) == 0);
    a = wakeluri_fastq_check(BYTES(reads), out, 13);
    MUST(a.refusal == WAKELURI_LINE_ABSENT && a.first == 2);
    a = wakeluri_fastq_check(BYTES(reads), BYTES("s\t6\t7\t4\t5\t17\nt\t1\t28\t1\t2\t32\n"));
    MUST(a.refusal == 0);
    a = wakeluri_fastq_check(BYTES(reads), BYTES("s\t6\t7\t4\t5\t16\nt\t1\t28\t1\t2\t32\n"));
    MUST(a.refusal == WAKELURI_BASE_ELSEWHERE && a.first == 1 && a.second == 1);
    struct wakeluri_fastq line = wakeluri_fastq_read_line(BYTES("s\t6\t7\t4\t5\t17\n"));
    MUST(line.refusal == 0 && line.plain == 1 && line.name_length == 1 && line.line_bases == 4 && line.line_width == 5 && line.quality_position == 17);
    line = wakeluri_fastq_read_line(BYTES("s\t6\t7\t4\t5\n"));
    MUST(line.refusal == WAKELURI_FIELD_ABSENT && line.first == 1 && line.second == 6);
    memset(table, 7, sizeof table);
    a = wakeluri_fastq_read_index(BYTES("s\t6\t7\t4\t5\t17\n"), table, sizeof table);
    MUST(a.refusal == 0 && a.count == 1 && table[0] == 0 && table[48] == 17 && table[FASTQ_ROW_BYTES] == 7);
    memset(out, '.', sizeof out);
    a = wakeluri_fastq_read(BYTES(reads), table, sizeof table, 1, 0, 1, 4, 1, 5, 0, out, sizeof out);
    MUST(a.refusal == 0 && a.count == 2 && memcmp(out, "TA.", 3) == 0);
    a = wakeluri_fastq_read(BYTES(reads), table, sizeof table, 1, 0, 1, 4, 1, 5, 1, out, sizeof out);
    MUST(a.refusal == 0 && a.count == 2 && memcmp(out, "I+.", 3) == 0);
    a = wakeluri_fastq_read(BYTES(reads), table, sizeof table, 1, 0, 0, 0, 0, 0, UINT64_MAX, out, sizeof out);
    MUST(a.refusal == 0 && a.count == 6 && memcmp(out, "@III+!.", 7) == 0);
    a = wakeluri_fastq_read(BYTES(reads), table, sizeof table, 1, 0, 1, 5, 1, 7, 1, out, sizeof out);
    MUST(a.refusal == WAKELURI_PAST_LENGTH && a.first == 6);
}

/* Records begin at 0 and 15 of `fasta`, and at 0 and 25 of `reads`. */
static void calls_on_parts(void) {
    static const char reads[] = "@s one\nACGT\nAC\n+\n@III\n+!\n@t\nG\n+\n!";
    static const char five[] = "s\t6\t7\t4\t5\nt\t2\t18\t2\t3\n", six[] = "s\t6\t7\t4\t5\t17\nt\t1\t28\t1\t2\t32\n";
    uint8_t table[2 * ROW_BYTES];
    struct wakeluri_answer a = wakeluri_index_part(BYTES(fasta), 1, UINT64_MAX, 1, table, sizeof table);
    MUST(a.refusal == 0 && a.count == 1 && table[0] == 16);
    a = wakeluri_check_part(BYTES(fasta), 0, 1, BYTES(five), 0, 1);
    MUST(a.refusal == 0);
    a = wakeluri_check_part(BYTES(fasta), 1, UINT64_MAX, BYTES(five), 0, UINT64_MAX);
    MUST(a.refusal == WAKELURI_NAME_DIFFERS && a.first == 1);
    a = wakeluri_fastq_index_part(BYTES(reads), 0, 1, table, sizeof table);
    MUST(a.refusal == 0 && a.count == 1 && a.next == 25 && table[0] == 1);
    a = wakeluri_fastq_index_part(BYTES(reads), a.next, UINT64_MAX, table, sizeof table);
    MUST(a.refusal == 0 && a.count == 1 && a.next == 33 && table[0] == 26);
    a = wakeluri_fastq_check_part(BYTES(reads), 0, 1, BYTES(six), 0);
    MUST(a.refusal == 0 && a.next == 25 && a.count == 13);
    a = wakeluri_fastq_check_part(BYTES(reads), a.next, UINT64_MAX, BYTES(six), a.count);
    MUST(a.refusal == 0 && a.next == 33 && a.count == 27);
    a = wakeluri_fastq_check_part(BYTES(reads), 25, UINT64_MAX, BYTES(six), 0);
    MUST(a.refusal == 0 && a.next == 25 && a.count == 0);
}

/* Refusal 1: an input one byte over the limit, which is never looked at. Passed over where so much room for addresses isn't to
 * be had. */
static void beyond_the_limit(void) {
    const size_t limit = (size_t)1 << 40, n = limit + 1;
    uint8_t table[ROW_BYTES], out[8];
    const uint64_t numbers[8] = {0, 1, 1, 0, 1, 2, 0, 0};
    const uint8_t *big = mmap(NULL, n, PROT_READ, MAP_PRIVATE | MAP_ANONYMOUS | MAP_NORESERVE, -1, 0);
    if (big == MAP_FAILED) {
        puts("no room for addresses: refusal 1 was not tried");
        return;
    }
    put_row(table, numbers);
    memset(out, '.', sizeof out);
#define REFUSED(call) MUST((call).refusal == 1 && (call).first == 0 && (call).second == 0)
    REFUSED(wakeluri_definition_line(big, n));
    REFUSED(wakeluri_definition_content(big, n));
    REFUSED(wakeluri_read_line(big, n, 0));
    REFUSED(wakeluri_read_run(big, n, 0));
    REFUSED(wakeluri_read_sequence(big, n, 0, out, 0));
    REFUSED(wakeluri_read_sequence_limit(big, n, 0, 1, out, 0));
    REFUSED(wakeluri_index_record(big, n, 0));
    REFUSED(wakeluri_index_file(big, n, table, 0));
    REFUSED(wakeluri_index_complete(big, n, table, 0));
    REFUSED(wakeluri_index_line(big, n));
    REFUSED(wakeluri_index_content(big, n));
    REFUSED(wakeluri_read_index(big, n, table, 0));
    REFUSED(wakeluri_write_index_line(big, n, table, 0, 9, 9, out, 0));
    REFUSED(wakeluri_find(big, n, table, 0, 9, out, 0));
    REFUSED(wakeluri_find(out, 0, table, 0, 9, big, n));
    REFUSED(wakeluri_read_exact(big, n, table, 0, 9, 9, 1, 0, 1, 0, out, 0));
    REFUSED(wakeluri_read_raw(big, n, table, 0, 9, 9, 1, 0, 1, 0, out, 0));
    REFUSED(wakeluri_complement(big, n, out, 0));
    REFUSED(wakeluri_reverse_complement(big, n, out, 0));
    REFUSED(wakeluri_write_record(big, n, 0, out, 0, out, 0, 0, out, 0));
    REFUSED(wakeluri_write_record(out, 0, 0, big, n, out, 0, 0, out, 0));
    REFUSED(wakeluri_write_record(out, 0, 0, out, 0, big, n, 0, out, 0));
    REFUSED(wakeluri_write_sequence(big, n, 0, out, 0));
    REFUSED(wakeluri_read_exercise(big, n));
    REFUSED(wakeluri_write_exercise(big, n, 1, 1, 9, out, 0));
    REFUSED(wakeluri_score_typed(big, n, out, 0, 9));
    REFUSED(wakeluri_score_typed(out, 0, big, n, 9));
    REFUSED(wakeluri_score_exercise(big, n, out, 0, out, 0, out, 0, table, 0, 9, out, 0));
    REFUSED(wakeluri_score_exercise(out, 0, big, n, out, 0, out, 0, table, 0, 9, out, 0));
    REFUSED(wakeluri_score_exercise(out, 0, out, 0, big, n, out, 0, table, 0, 9, out, 0));
    REFUSED(wakeluri_score_exercise(out, 0, out, 0, out, 0, big, n, table, 0, 9, out, 0));
    REFUSED(wakeluri_degeneracy(big, n));
    REFUSED(wakeluri_find_primer(big, n, out, 0, 0));
    REFUSED(wakeluri_find_primer(out, 0, big, n, 0));
    REFUSED(wakeluri_check(big, n, out, 0));
    REFUSED(wakeluri_check(out, 0, big, n));
    REFUSED(wakeluri_index_part(big, n, 0, 1, 1, table, 0));
    REFUSED(wakeluri_check_part(big, n, 0, 1, out, 0, 0, 1));
    REFUSED(wakeluri_check_part(out, 0, 0, 1, big, n, 0, 1));
    REFUSED(wakeluri_fastq_index_part(big, n, 0, 1, table, 0));
    REFUSED(wakeluri_fastq_check_part(big, n, 0, 1, out, 0, 0));
    REFUSED(wakeluri_fastq_check_part(out, 0, 0, 1, big, n, 0));
    REFUSED(wakeluri_fastq_index(big, n, table, 0));
    REFUSED(wakeluri_fastq_read_index(big, n, table, 0));
    REFUSED(wakeluri_fastq_read_line(big, n));
    REFUSED(wakeluri_fastq_write_line(big, n, table, 0, 9, 9, out, 0));
    REFUSED(wakeluri_fastq_read(big, n, table, 0, 9, 9, 1, 0, 1, 0, 1, out, 0));
    REFUSED(wakeluri_fastq_check(big, n, out, 0));
    REFUSED(wakeluri_fastq_check(out, 0, big, n));
    /* at the limit itself it is taken: bases 1 and 1 of a row at offset 0 are read from the first byte alone */
    struct wakeluri_answer a = wakeluri_read_exact(big, limit, table, sizeof table, 1, 0, 0, 0, 0, 0, out, sizeof out);
    MUST(a.refusal == 0 && a.count == 1 && out[0] == 0 && out[1] == '.');
    a = wakeluri_read_exact(big, n, table, sizeof table, 1, 0, 0, 0, 0, 0, out, sizeof out);
    MUST(a.refusal == 1 && a.count == 0);
    /* a table and an output are not counted for 1 */
    uint8_t *room = mmap(NULL, n, PROT_READ | PROT_WRITE, MAP_PRIVATE | MAP_ANONYMOUS | MAP_NORESERVE, -1, 0);
    if (room != MAP_FAILED) {
        a = wakeluri_complement(BYTES("A"), room, n);
        MUST(a.refusal == 0 && a.count == 1 && room[0] == 'T' && room[1] == 0);
        a = wakeluri_index_file(BYTES(">s\nA\n"), room, n);
        MUST(a.refusal == 0 && a.count == 1 && room[0] == 1 && room[ROW_BYTES] == 0);
        munmap(room, n);
    }
    munmap((void *)big, n);
}

/* Every level gives the same answers; a level that the processor hasn't, or that there isn't, becomes one that it has. */
static void levels(void) {
    uint64_t const best = wakeluri_use_level(0);
    MUST(best == 1 || best == 3 || best == 4);
    MUST(wakeluri_use_level(UINT64_MAX) == best);
    for (uint64_t level = 1; level <= best; level++) {
        MUST(wakeluri_use_level(level) == level);
        ordinary_calls();
    }
    MUST(wakeluri_use_level(0) == best);
}

/* NULL stands for no bytes wherever the length is 0, in every call. */
static void nothing_at_null(void) {
    const uint64_t numbers[8] = {0, 0, 1, 0, 1, 2, 0, 0};
    uint8_t table[ROW_BYTES];
    put_row(table, numbers);
#define GIVES(call, number) MUST((call).refusal == (number))
    GIVES(wakeluri_definition_line(NULL, 0), WAKELURI_EMPTY_DEFINITION);
    GIVES(wakeluri_definition_content(NULL, 0), WAKELURI_EMPTY_DEFINITION);
    GIVES(wakeluri_read_line(NULL, 0, 0), WAKELURI_FINE);
    GIVES(wakeluri_read_line(NULL, 0, UINT64_MAX), WAKELURI_FINE);
    GIVES(wakeluri_read_run(NULL, 0, 0), WAKELURI_FINE);
    GIVES(wakeluri_read_sequence(NULL, 0, 0, NULL, 0), WAKELURI_FINE);
    GIVES(wakeluri_read_sequence(BYTES("AC"), 0, NULL, 0), WAKELURI_NO_ROOM);
    GIVES(wakeluri_read_sequence_limit(NULL, 0, 0, 9, NULL, 0), WAKELURI_FINE);
    GIVES(wakeluri_index_record(NULL, 0, 0), WAKELURI_FINE);
    GIVES(wakeluri_index_file(NULL, 0, NULL, 0), WAKELURI_FINE);
    GIVES(wakeluri_index_file(BYTES(fasta), NULL, 0), WAKELURI_TABLE_FULL);
    GIVES(wakeluri_index_complete(NULL, 0, NULL, 0), WAKELURI_FINE);
    GIVES(wakeluri_index_complete(BYTES(fasta), NULL, 0), WAKELURI_TABLE_FULL);
    GIVES(wakeluri_index_line(NULL, 0), WAKELURI_EMPTY_INDEX_LINE);
    GIVES(wakeluri_index_content(NULL, 0), WAKELURI_EMPTY_INDEX_LINE);
    GIVES(wakeluri_read_index(NULL, 0, NULL, 0), WAKELURI_FINE);
    GIVES(wakeluri_read_index(BYTES("s\t6\t7\t4\t5\n"), NULL, 0), WAKELURI_TABLE_FULL);
    GIVES(wakeluri_write_index_line(NULL, 0, NULL, 0, 0, 0, NULL, 0), WAKELURI_BAD_ROW);
    GIVES(wakeluri_write_index_line(NULL, 0, table, sizeof table, 1, 0, NULL, 0), WAKELURI_NO_ROOM);
    GIVES(wakeluri_find(NULL, 0, NULL, 0, 0, NULL, 0), WAKELURI_NAME_UNKNOWN);
    GIVES(wakeluri_find(NULL, 0, table, sizeof table, 1, NULL, 0), WAKELURI_FINE);
    GIVES(wakeluri_read_exact(NULL, 0, NULL, 0, 0, 0, 0, 0, 0, 0, NULL, 0), WAKELURI_BAD_ROW);
    GIVES(wakeluri_read_exact(NULL, 0, table, sizeof table, 1, 0, 0, 0, 0, 0, NULL, 0), WAKELURI_NO_ROOM);
    GIVES(wakeluri_read_raw(NULL, 0, NULL, 0, 0, 0, 0, 0, 0, 0, NULL, 0), WAKELURI_BAD_ROW);
    GIVES(wakeluri_read_raw(NULL, 0, table, sizeof table, 1, 0, 0, 0, 0, 0, NULL, 0), WAKELURI_FINE);
    GIVES(wakeluri_read_window(0, NULL, 0, 0, NULL, 0, 0, 0, 0, 0, 0, 0, NULL, 0), WAKELURI_BAD_ROW);
    GIVES(wakeluri_read_window(9, NULL, 0, 0, table, sizeof table, 1, 0, 0, 0, 0, 0, NULL, 0), WAKELURI_NO_ROOM);
    GIVES(wakeluri_needed_bytes(0, 9, NULL, 0, 0, 0, 0, 0, 0, 0), WAKELURI_BAD_ROW);
    GIVES(wakeluri_read_sheet(NULL, 0, NULL, 0, 0, NULL, 0, NULL, 0, NULL, 0), WAKELURI_FINE);
    struct wakeluri_feed feed = wakeluri_feed_start(1);
    GIVES(feed = wakeluri_feed_piece(feed, NULL, 0, NULL, 0), WAKELURI_FINE);
    GIVES(feed = wakeluri_feed_end(feed, NULL, 0), WAKELURI_FINE);
    GIVES(wakeluri_feed_end(feed, NULL, 0), WAKELURI_ALREADY_ENDED);
    GIVES(wakeluri_score_exercise(NULL, 0, NULL, 0, NULL, 0, NULL, 0, NULL, 0, 0, NULL, 0), WAKELURI_MALFORMED_EXERCISE);
    GIVES(wakeluri_complement(NULL, 0, NULL, 0), WAKELURI_FINE);
    GIVES(wakeluri_complement(BYTES("A"), NULL, 0), WAKELURI_NO_ROOM);
    GIVES(wakeluri_reverse_complement(NULL, 0, NULL, 0), WAKELURI_FINE);
    GIVES(wakeluri_write_record(NULL, 0, 0, NULL, 0, NULL, 0, 4, NULL, 0), WAKELURI_NAME_UNFIT);
    GIVES(wakeluri_write_record(BYTES("s"), 0, NULL, 0, NULL, 0, 4, NULL, 0), WAKELURI_NO_ROOM);
    GIVES(wakeluri_write_record(BYTES("s"), 1, NULL, 0, NULL, 0, 4, NULL, 0), WAKELURI_DESCRIPTION_UNFIT);
    GIVES(wakeluri_write_sequence(NULL, 0, 4, NULL, 0), WAKELURI_FINE);
    GIVES(wakeluri_degeneracy(NULL, 0), WAKELURI_PRIMER_LENGTH);
    GIVES(wakeluri_find_primer(NULL, 0, NULL, 0, 0), WAKELURI_PRIMER_LENGTH);
    GIVES(wakeluri_find_primer(BYTES("A"), NULL, 0, 0), WAKELURI_FINE);
    GIVES(wakeluri_read_exercise(NULL, 0), WAKELURI_MALFORMED_EXERCISE);
    GIVES(wakeluri_write_exercise(NULL, 0, 1, 1, 1, NULL, 0), WAKELURI_NO_ROOM);
    GIVES(wakeluri_score_typed(NULL, 0, NULL, 0, 1), WAKELURI_FINE);
    GIVES(wakeluri_check(NULL, 0, NULL, 0), WAKELURI_FINE);
    GIVES(wakeluri_check(BYTES(fasta), NULL, 0), WAKELURI_LINE_ABSENT);
    GIVES(wakeluri_fastq_index(NULL, 0, NULL, 0), WAKELURI_FINE);
    GIVES(wakeluri_fastq_index(BYTES("@s\nA\n+\n!"), NULL, 0), WAKELURI_TABLE_FULL);
    GIVES(wakeluri_fastq_read_index(NULL, 0, NULL, 0), WAKELURI_FINE);
    GIVES(wakeluri_fastq_read_line(NULL, 0), WAKELURI_EMPTY_INDEX_LINE);
    GIVES(wakeluri_fastq_write_line(NULL, 0, NULL, 0, 0, 0, NULL, 0), WAKELURI_BAD_ROW);
    GIVES(wakeluri_fastq_read(NULL, 0, NULL, 0, 0, 0, 0, 0, 0, 0, 0, NULL, 0), WAKELURI_BAD_ROW);
    GIVES(wakeluri_fastq_check(NULL, 0, NULL, 0), WAKELURI_FINE);
}

/* A host's text, made of bases. */
static char made_text[16];

static void *made(const char *bases, ptrdiff_t count, const char *errors) {
    MUST(errors == NULL && count < (ptrdiff_t)sizeof made_text);
    memcpy(made_text, bases, (size_t)count);
    made_text[count] = 0;
    return made_text;
}

/* What wakeluri_host.h has: rows, regions, texts, words and the version. */
static void around_the_calls(void) {
    uint8_t table[2 * ROW_BYTES], out[8] = "........";
    struct wakeluri_answer a = wakeluri_index_file(BYTES(fasta), table, sizeof table);
    MUST(a.refusal == WAKELURI_FINE && a.count == 2 && WAKELURI_ROW_BYTES == ROW_BYTES);
    struct wakeluri_numbers n = wakeluri_numbers_of(table, sizeof table, 0);
    MUST(n.name_start == 1 && n.name_length == 1 && n.length == 6 && n.position == 7 && n.line_bases == 4 && n.line_width == 5);
    MUST(n.description_start == 3 && n.description_length == 3 && memcmp(fasta + n.description_start, "one", 3) == 0);
    n = wakeluri_numbers_of(table, sizeof table, 1);
    MUST(n.length == 2 && n.position == 18 && n.description_length == 0);
    n = wakeluri_numbers_of(table, sizeof table, 2);
    MUST(n.name_length == 0 && n.line_bases == 0);
    n = wakeluri_numbers_of(NULL, 0, UINT64_MAX);
    MUST(n.length == 0);

    const struct wakeluri_rows of = {BYTES(fasta), table, sizeof table, 2};
    const struct wakeluri_region region = {0, 1, 4, 1, 5}, past = {0, 1, 5, 1, 7}, whole = {1, 0, 0, 0, 0};
    a = wakeluri_read_region(&of, &region, out, sizeof out);
    MUST(a.refusal == WAKELURI_FINE && a.count == 2 && memcmp(out, "TA.", 3) == 0);
    a = wakeluri_read_region(&of, &past, out, sizeof out);
    MUST(a.refusal == WAKELURI_PAST_LENGTH && a.first == 6);
    a = wakeluri_read_region(&of, &whole, out, sizeof out);
    MUST(a.refusal == WAKELURI_FINE && a.count == 2 && memcmp(out, "GG.", 3) == 0);
    memset(out, '.', sizeof out);
    const struct wakeluri_record first = {&of, 0}, none = {&of, 2};
    MUST(wakeluri_read_bases(&first, 2, 4, out) == WAKELURI_FINE && memcmp(out, "CGT.", 4) == 0);
    MUST(wakeluri_read_bases(&first, 5, 7, out) == WAKELURI_PAST_LENGTH && memcmp(out, "CGT.", 4) == 0);
    MUST(wakeluri_read_bases(&first, 5, 4, NULL) == WAKELURI_BAD_BOUNDS);
    MUST(wakeluri_read_bases(&first, 0, UINT64_MAX, NULL) == WAKELURI_BAD_BOUNDS);
    MUST(wakeluri_read_bases(&none, 1, 1, out) == WAKELURI_BAD_ROW);
    uint64_t due = UINT64_MAX;
    const struct wakeluri_texts texts = {first, made, &due};
    MUST(wakeluri_read_text(&texts, 1, 5) == made_text && strcmp(made_text, "ACGTA") == 0);
    const uint32_t none_of[][2] = {{6, 7}, {0, 1}, {2, 1}, {0, UINT32_MAX}, {1, 65537}};
    for (size_t i = 0; i < sizeof none_of / sizeof *none_of; i++)
        MUST(wakeluri_read_text(&texts, none_of[i][0], none_of[i][1]) == made_text && *made_text == 0);
    MUST(wakeluri_read_text(&texts, 6, 6) == made_text && strcmp(made_text, "C") == 0);
    due = 0;
    MUST(wakeluri_read_text(&texts, 1, 5) == made_text && *made_text == 0);

    MUST(wakeluri_version() == WAKELURI_VERSION && wakeluri_form() == WAKELURI_FORM && wakeluri_fits());
    MUST(strcmp(wakeluri_words(WAKELURI_NAME_UNKNOWN), "no record has that name") == 0);
}

/* With the word `words`, what each number says, for the test in Rust. */
int main(int count, char **words) {
    if (count > 1 && strcmp(words[1], "words") == 0) {
        printf("%s\n", WAKELURI_VERSION_TEXT);
        for (uint64_t number = 0; number < 60; number++) printf("%s\n", wakeluri_words(number));
        return 0;
    }
    ordinary_calls();
    fastq_calls();
    calls_on_parts();
    levels();
    nothing_at_null();
    around_the_calls();
    beyond_the_limit();
    return 0;
}
