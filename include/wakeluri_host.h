/* Around the entry points, for a host in C: refusals by name and in words, the version, the rows of a table, a region as a struct.
 * wakeluri.h includes it. The entry points are proved; what is here only hands numbers on, and is tested.
 *
 * wakeluri_version, wakeluri_form, wakeluri_words, wakeluri_read_bases and wakeluri_read_text are in the libraries that `tools/dev clibs` makes, which have the
 * proved code in them too. The rest needs no library.
 */
#ifndef WAKELURI_HOST_H
#define WAKELURI_HOST_H

#ifndef WAKELURI_H
#error "include wakeluri.h, which includes this"
#endif

/* The version of this header: a ten-thousandth of it is the first number, and so on: 100 is 0.1.0. A host that finds another first or
 * second number in the library than in its header, or another form, was compiled for another library. */
#define WAKELURI_VERSION 100
#define WAKELURI_VERSION_TEXT "0.1.0"

/* A row of a table: eight numbers of eight bytes, low byte first. */
#define WAKELURI_ROW_BYTES 64

/* The bytes of a row of a FASTQ file's table: seven numbers. */
#define WAKELURI_FASTQ_ROW_BYTES 56

/* Why a call gave no answer, and the names of its two numbers, `first` and `second`, if it has them. `tools/dev generated` writes the list. */
enum wakeluri_refusal {
    WAKELURI_FINE = 0, /* there is no refusal */
    WAKELURI_TOO_LONG = 1, /* an input is longer than 1,099,511,627,776 bytes */
    WAKELURI_EMPTY_DEFINITION = 2, /* a definition line is empty; offset (wakeluri_check: record, offset) */
    WAKELURI_NO_PREFIX = 3, /* a definition line does not begin with '>', or in FASTQ with '@'; offset (wakeluri_check: record, offset) */
    WAKELURI_NO_NAME = 4, /* a definition line has no name after its '>', or in FASTQ its '@'; offset (wakeluri_check: record, offset) */
    WAKELURI_NO_BASES = 5, /* a record has no bases in its first line; offset */
    WAKELURI_LINE_BASES = 6, /* a line has another number of bases than its record's lines; found, expected */
    WAKELURI_LINE_WIDTH = 7, /* a line has another number of bytes than its record's lines; found, expected */
    WAKELURI_TABLE_FULL = 8, /* the table has no free row for a good record; rows */
    WAKELURI_EMPTY_INDEX_LINE = 9, /* an index line is empty; line */
    WAKELURI_FIELD_ABSENT = 10, /* an index line lacks a field; line, field */
    WAKELURI_NOT_A_NUMBER = 11, /* a field of an index line is no number of 64 bits; line, field */
    WAKELURI_ZERO_FIELD = 12, /* an index line has 0 for the bases or the bytes in a line; line, field */
    WAKELURI_NAME_SPLIT = 13, /* a name to write has a tab or a line feed in it; place */
    WAKELURI_NO_ROOM = 14, /* the output is too short; needed */
    WAKELURI_NAME_UNKNOWN = 15, /* no record has that name */
    WAKELURI_BAD_BOUNDS = 16, /* a bound is 0, or the start is after the end */
    WAKELURI_PAST_LENGTH = 17, /* the region goes past the record's bases; length */
    WAKELURI_NOT_IN_FILE = 18, /* a base would not lie in the file, by the record's numbers; base */
    WAKELURI_LINE_ABSENT = 19, /* the index has no line for a record; record */
    WAKELURI_BYTES_LEFT = 20, /* the index goes on after the lines of all records; records */
    WAKELURI_NAME_DIFFERS = 21, /* a record and its index line have different names; record */
    WAKELURI_LENGTH_DIFFERS = 22, /* a record has another number of bases than its index line says; record */
    WAKELURI_BASE_ELSEWHERE = 23, /* a base is not where its index line says; record, base */
    WAKELURI_NO_COMPLEMENT = 24, /* a byte has no complement; place, byte */
    WAKELURI_BAD_ROW = 25, /* a row is not in the table, its name is not in the bytes, or its lines have no bases; row */
    WAKELURI_ALREADY_ENDED = 26, /* the file has ended already, and takes no more bytes */
    WAKELURI_ZERO_WIDTH = 27, /* a line can't have 0 bases */
    WAKELURI_NAME_UNFIT = 28, /* the name is empty or has whitespace in it */
    WAKELURI_DESCRIPTION_UNFIT = 29, /* the description is empty, has a line feed in it, or whitespace at an end */
    WAKELURI_BASE_UNFIT = 30, /* a base is a line feed, a carriage return or '>', and can't be written */
    WAKELURI_MALFORMED_EXERCISE = 31, /* the exercise has no good field where one should stand; offset */
    WAKELURI_UNKNOWN_NEEDED_TAG = 32, /* the exercise has a field that has to be understood, and isn't known; offset */
    WAKELURI_UNKNOWN_EDITION = 33, /* the edition of the exercise is neither 1 nor 2; offset */
    WAKELURI_NOT_IN_WINDOW = 34, /* a base is not in the window; base */
    WAKELURI_WINDOW_PAST_END = 35, /* the window goes past the end of the file */
    WAKELURI_PRIMER_LENGTH = 36, /* a primer has 1 to 31 letters */
    WAKELURI_PRIMER_LETTER = 37, /* a letter of the primer stands for no bases; place */
    WAKELURI_NO_PLUS_LINE = 38, /* a record has no '+' line after its bases */
    WAKELURI_QUALITY_LINE = 39, /* a quality line does not fit its line of bases; found, expected */
    WAKELURI_TOO_MANY_REGIONS = 40, /* a sheet has more than 200 regions */
    WAKELURI_TOO_FEW_STARTS = 41, /* the list of starts is shorter than the list of regions */
    WAKELURI_NO_INDEX_FITS = 42, /* no index line can lead to a base of a record and to all those before it; offset, base */
};

/* The numbers of a row. */
struct wakeluri_numbers {
    uint64_t name_start, name_length, length, position, line_bases, line_width, description_start, description_length;
};

/* A file, and a table of its rows: what a read is made from again and again. */
struct wakeluri_rows {
    const uint8_t *file;
    size_t file_length;
    const uint8_t *table;
    size_t table_length;
    uint64_t in_use;
};

/* A row of them: a record to read from. */
struct wakeluri_record {
    const struct wakeluri_rows *of;
    uint64_t row;
};

/* Some bases of a row's record, counted from 1, both bounds included; a bound is absent if its flag is 0. */
struct wakeluri_region {
    uint64_t row, has_start, start, has_end, end;
};

/* The version of the library, and the form of its rows and answers (WAKELURI_FORM). */
uint64_t wakeluri_version(void);
uint64_t wakeluri_form(void);

/* A refusal's number in words, without its places. The text is the library's own, and stays. */
const char *wakeluri_words(uint64_t number);

/* The bases from `start` to `end` of a record, for a host whose calls are dear: `out` has room for end - start + 1 bytes. Returns the
 * refusal's number, 0 for none; wakeluri_read_exact gives its two numbers. */
uint64_t wakeluri_read_bases(const struct wakeluri_record *record, uint64_t start, uint64_t end, uint8_t *out);

/* A record, and how a host makes a text of its own from bytes: PyUnicode_DecodeLatin1, say, with NULL as its third argument. Before `due`,
 * nanoseconds of the monotonic clock, the host needs no look at the file. */
struct wakeluri_texts {
    struct wakeluri_record record;
    void *(*make)(const char *bases, ptrdiff_t count, const char *errors);
    const uint64_t *due;
};

/* The longest text that wakeluri_read_text gives. */
#define WAKELURI_TEXT 65536

/* The bases from `start` to `end` of a record as a text that the host makes, in one call, for a host whose calls are dear. The text has no bases
 * if the read is refused, if it would be too long, or if `due` has come: wakeluri_read_exact says which. */
void *wakeluri_read_text(const struct wakeluri_texts *of, uint32_t start, uint32_t end);

/* Whether the library fits this header. */
static inline int wakeluri_fits(void) {
    return wakeluri_version() / 100 == WAKELURI_VERSION / 100 && wakeluri_form() == WAKELURI_FORM;
}

/* The numbers of a row of a table; all are 0 if the table has no such row. */
static inline struct wakeluri_numbers wakeluri_numbers_of(const uint8_t *table, size_t table_length, uint64_t row) {
    uint64_t n[8] = {0, 0, 0, 0, 0, 0, 0, 0};
    struct wakeluri_numbers numbers;
    if (row < table_length / WAKELURI_ROW_BYTES) {
        const uint8_t *at = table + row * WAKELURI_ROW_BYTES;
        for (int k = 0; k < WAKELURI_ROW_BYTES; k++) n[k / 8] |= (uint64_t)at[k] << (8 * (k % 8));
    }
    numbers.name_start = n[0];
    numbers.name_length = n[1];
    numbers.length = n[2];
    numbers.position = n[3];
    numbers.line_bases = n[4];
    numbers.line_width = n[5];
    numbers.description_start = n[6];
    numbers.description_length = n[7];
    return numbers;
}

/* wakeluri_read_exact with structs. The entry point itself takes numbers and lent bytes alone, so that every value of every argument is
 * allowed: the language can lend an entry point a struct, but only behind a pointer that has to be good. */
static inline struct wakeluri_answer wakeluri_read_region(const struct wakeluri_rows *of, const struct wakeluri_region *region, uint8_t *out, size_t out_length) {
    return wakeluri_read_exact(of->file, of->file_length, of->table, of->table_length, of->in_use, region->row, region->has_start, region->start, region->has_end, region->end, out, out_length);
}

#endif
