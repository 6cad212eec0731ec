/* Around the proved entry points, in C: include/wakeluri_host.h says what each is for. */
#define _GNU_SOURCE
#include "wakeluri.h"

#include <time.h>

uint64_t wakeluri_version(void) {
    return WAKELURI_VERSION;
}

uint64_t wakeluri_form(void) {
    return WAKELURI_FORM;
}

uint64_t wakeluri_read_bases(const struct wakeluri_record *record, uint64_t start, uint64_t end, uint8_t *out) {
    const struct wakeluri_region region = {record->row, 1, start, 1, end};
    /* the room that was promised; a start after the end is refused before it is used */
    const size_t room = start <= end ? (size_t)(end - start) + 1 : 0;
    return wakeluri_read_region(record->of, &region, out, room).refusal;
}

/* Whether a time has come, by a clock that is cheap to read: it is some milliseconds late at most. */
static int is_due(uint64_t due) {
    struct timespec now;
#ifdef CLOCK_MONOTONIC_COARSE
    const int told = clock_gettime(CLOCK_MONOTONIC_COARSE, &now);
#else
    const int told = clock_gettime(CLOCK_MONOTONIC, &now);
#endif
    return told != 0 || (uint64_t)now.tv_sec * 1000000000 + (uint64_t)now.tv_nsec >= due;
}

void *wakeluri_read_text(const struct wakeluri_texts *of, uint32_t start, uint32_t end) {
    uint8_t bases[WAKELURI_TEXT];
    const int is_short = start <= end && end - start < WAKELURI_TEXT;
    const int is_read = is_short && !is_due(*of->due) && wakeluri_read_bases(&of->record, start, end, bases) == WAKELURI_FINE;
    return of->make((const char *)bases, is_read ? (ptrdiff_t)(end - start) + 1 : 0, NULL);
}

/* The words of Reason::words_of in host/wakeluri/src/reason.rs: `tools/dev generated` writes them here. */
const char *wakeluri_words(uint64_t number) {
    switch (number) {
    case WAKELURI_FINE: return "there is no refusal";
    case WAKELURI_TOO_LONG: return "an input is longer than 1,099,511,627,776 bytes";
    case WAKELURI_EMPTY_DEFINITION: return "a definition line is empty";
    case WAKELURI_NO_PREFIX: return "a definition line does not begin with '>', or in FASTQ with '@'";
    case WAKELURI_NO_NAME: return "a definition line has no name after its '>', or in FASTQ its '@'";
    case WAKELURI_NO_BASES: return "a record has no bases in its first line";
    case WAKELURI_LINE_BASES: return "a line has another number of bases than its record's lines";
    case WAKELURI_LINE_WIDTH: return "a line has another number of bytes than its record's lines";
    case WAKELURI_TABLE_FULL: return "the table has no free row for a good record";
    case WAKELURI_EMPTY_INDEX_LINE: return "an index line is empty";
    case WAKELURI_FIELD_ABSENT: return "an index line lacks a field";
    case WAKELURI_NOT_A_NUMBER: return "a field of an index line is no number of 64 bits";
    case WAKELURI_ZERO_FIELD: return "an index line has 0 for the bases or the bytes in a line";
    case WAKELURI_NAME_SPLIT: return "a name to write has a tab or a line feed in it";
    case WAKELURI_NO_ROOM: return "the output is too short";
    case WAKELURI_NAME_UNKNOWN: return "no record has that name";
    case WAKELURI_BAD_BOUNDS: return "a bound is 0, or the start is after the end";
    case WAKELURI_PAST_LENGTH: return "the region goes past the record's bases";
    case WAKELURI_NOT_IN_FILE: return "a base would not lie in the file, by the record's numbers";
    case WAKELURI_LINE_ABSENT: return "the index has no line for a record";
    case WAKELURI_BYTES_LEFT: return "the index goes on after the lines of all records";
    case WAKELURI_NAME_DIFFERS: return "a record and its index line have different names";
    case WAKELURI_LENGTH_DIFFERS: return "a record has another number of bases than its index line says";
    case WAKELURI_BASE_ELSEWHERE: return "a base is not where its index line says";
    case WAKELURI_NO_COMPLEMENT: return "a byte has no complement";
    case WAKELURI_BAD_ROW: return "a row is not in the table, its name is not in the bytes, or its lines have no bases";
    case WAKELURI_ALREADY_ENDED: return "the file has ended already, and takes no more bytes";
    case WAKELURI_ZERO_WIDTH: return "a line can't have 0 bases";
    case WAKELURI_NAME_UNFIT: return "the name is empty or has whitespace in it";
    case WAKELURI_DESCRIPTION_UNFIT: return "the description is empty, has a line feed in it, or whitespace at an end";
    case WAKELURI_BASE_UNFIT: return "a base is a line feed, a carriage return or '>', and can't be written";
    case WAKELURI_MALFORMED_EXERCISE: return "the exercise has no good field where one should stand";
    case WAKELURI_UNKNOWN_NEEDED_TAG: return "the exercise has a field that has to be understood, and isn't known";
    case WAKELURI_UNKNOWN_EDITION: return "the edition of the exercise is neither 1 nor 2";
    case WAKELURI_NOT_IN_WINDOW: return "a base is not in the window";
    case WAKELURI_WINDOW_PAST_END: return "the window goes past the end of the file";
    case WAKELURI_PRIMER_LENGTH: return "a primer has 1 to 31 letters";
    case WAKELURI_PRIMER_LETTER: return "a letter of the primer stands for no bases";
    case WAKELURI_NO_PLUS_LINE: return "a record has no '+' line after its bases";
    case WAKELURI_QUALITY_LINE: return "a quality line does not fit its line of bases";
    case WAKELURI_TOO_MANY_REGIONS: return "a sheet has more than 200 regions";
    case WAKELURI_TOO_FEW_STARTS: return "the list of starts is shorter than the list of regions";
    case WAKELURI_NO_INDEX_FITS: return "no index line can lead to a base of a record and to all those before it";
    default: return "it was refused for a reason that this version has no words for";
    }
}
