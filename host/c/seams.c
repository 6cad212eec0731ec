/* What a host in C pays for the calls that host/seams times in Rust: the same files, the same lines of output. */
#define _DEFAULT_SOURCE
#include "wakeluri.h"
#include <fcntl.h>
#include <stdio.h>
#include <stdlib.h>
#include <string.h>
#include <sys/mman.h>
#include <sys/stat.h>
#include <time.h>
#include <unistd.h>

static double now(void) {
    struct timespec t;
    clock_gettime(CLOCK_THREAD_CPUTIME_ID, &t);
    return (double)t.tv_sec * 1e9 + (double)t.tv_nsec;
}

static const uint8_t *mapped(const char *folder, const char *name, size_t *length) {
    char path[4096];
    struct stat meta;
    snprintf(path, sizeof path, "%s/%s", folder, name);
    const int file = open(path, O_RDONLY);
    if (file < 0 || fstat(file, &meta) != 0) exit(1);
    *length = (size_t)meta.st_size;
    const uint8_t *bytes = mmap(NULL, *length, PROT_READ, MAP_PRIVATE, file, 0);
    close(file);
    if (bytes == MAP_FAILED) exit(1);
    return bytes;
}

#define MUST(fact) do { if (!(fact)) { fprintf(stderr, "line %d: %s\n", __LINE__, #fact); exit(1); } } while (0)

/* The fastest of some rounds of so many turns of some work, for a turn. */
#define FASTEST(what, by, rounds, turns, work) do { \
        double best = 1e18; \
        for (int round = 0; round < (rounds); round++) { \
            const double begun = now(); \
            for (uint64_t turn = 0; turn < (turns); turn++) { work; } \
            const double took = (now() - begun) / (double)(turns); \
            if (took < best) best = took; \
        } \
        printf("%s\t%s\t%.0f\n", what, by, best); \
    } while (0)

int main(int count, char **words) {
    if (count != 2) return 2;
    static uint8_t table[100001 * WAKELURI_ROW_BYTES], out[10000];
    size_t length, index_length;
    const uint8_t *index = mapped(words[1], "long.fa.fai", &index_length);
    const uint8_t *file = NULL;
    FASTEST("open and check 64 MB", "C, mmap and wakeluri_check", 7, 1,
        if (file) munmap((void *)file, length);
        file = mapped(words[1], "long.fa", &length);
        MUST(wakeluri_check(file, length, index, index_length).refusal == WAKELURI_FINE));
    struct wakeluri_answer a = wakeluri_read_index(index, index_length, table, sizeof table);
    MUST(a.refusal == WAKELURI_FINE);
    const struct wakeluri_rows of = {file, length, table, sizeof table, a.count};
    const uint64_t bases = wakeluri_numbers_of(table, sizeof table, 0).length;
#define START (turn * 7919000021u % (bases - 10000) + 1)
#define READ(n) do { \
        const struct wakeluri_region region = {0, 1, START, 1, START + (n) - 1}; \
        MUST(wakeluri_read_region(&of, &region, out, sizeof out).count == (n)); \
    } while (0)
    FASTEST("a read of 10,000 bases", "C, wakeluri_read_region", 60, 1000, READ(10000));
    FASTEST("a read of 100 bases", "C, wakeluri_read_region", 60, 1000, READ(100));

    index = mapped(words[1], "many.fa.fai", &index_length);
    file = mapped(words[1], "many.fa", &length);
    a = wakeluri_read_index(index, index_length, table, sizeof table);
    MUST(a.refusal == WAKELURI_FINE && a.count == 100000);
    const struct wakeluri_rows many = {file, length, table, sizeof table, a.count};
    char name[32];
    FASTEST("one base by name among 100,000 records", "C, wakeluri_find and wakeluri_read_bases", 3, 50,
        const int size = snprintf(name, sizeof name, "record%d", (int)(turn * 7919 % 100000));
        a = wakeluri_find(index, index_length, table, sizeof table, many.in_use, (const uint8_t *)name, (size_t)size);
        MUST(a.refusal == WAKELURI_FINE && wakeluri_read_bases(&(struct wakeluri_record){&many, a.count}, 3, 3, out) == WAKELURI_FINE && out[0] == 'G'));
    FASTEST("one base by name among 100,000 records", "C, wakeluri_read_bases of a known row", 60, 1000,
        MUST(wakeluri_read_bases(&(struct wakeluri_record){&many, turn * 7919 % 100000}, 3, 3, out) == WAKELURI_FINE));
    return 0;
}
