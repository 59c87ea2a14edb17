/* Judges a case and the log after it in one file, as the program `replay` does, with the checker's library alone. */
#include <stdio.h>
#include <stdlib.h>

#include "ceiling.h"

enum { BLOCK = 100 * CEILING_LINE };

static int refused(uint64_t number, size_t line) {
    printf("refused %llu %zu\n", (unsigned long long)number, line);
    return 1;
}

static uint8_t *read_file(const char *path, size_t *length) {
    FILE *file = fopen(path, "rb");
    uint8_t *text = NULL;
    size_t room = 0, more;
    *length = 0;
    do {
        text = realloc(text, room += 1 << 16);
        if (!file || !text) exit(2);
        *length += more = fread(text + *length, 1, room - *length, file);
    } while (more);
    fclose(file);
    return text;
}

int main(int count, char **arguments) {
    if (count != 2) return 2;
    size_t length;
    uint8_t *text = read_file(arguments[1], &length);

    /* The case: a head, a line for each weight, a line for each pair. */
    struct ceiling_size_answer size = ceiling_case_size(text, length);
    if (size.number) return refused(size.number, 0);
    size_t own = (1 + size.n * size.d + size.m * (1 + size.d * size.d)) * CEILING_LINE;
    if (own > length) own = length;
    int64_t *table = calloc(size.table, sizeof *table);
    if (!table) return 2;
    uint8_t case_bytes[CEILING_CASE];
    struct ceiling_lines_answer read = ceiling_read_case(text, own, case_bytes, table, size.table);
    if (read.number) return refused(read.number, read.lines);

    /* The log, in blocks. */
    const uint8_t *log = text + own;
    size_t logged = length - own;
    uint8_t record[CEILING_RECORD];
    uint64_t fresh = ceiling_replay_start(case_bytes, table, size.table, record);
    if (fresh) return refused(fresh, read.lines);
    for (size_t at = 0; at < logged; at += BLOCK) {
        size_t block = logged - at < BLOCK ? logged - at : BLOCK;
        struct ceiling_lines_answer lines = ceiling_replay_lines(case_bytes, table, size.table, record, log + at, block);
        if (lines.number) return refused(lines.number, read.lines + at / CEILING_LINE + lines.lines);
    }
    struct ceiling_rounds_answer end = ceiling_replay_end(case_bytes, record, logged % CEILING_LINE);
    if (end.number) return refused(end.number, read.lines + logged / CEILING_LINE);

    /* Void: no lawful plan exists. */
    struct ceiling_total_answer ceiling = ceiling_upper_bound(case_bytes, table, size.table);
    if (end.is_void) puts("void");
    else printf("accepted %llu %lld\n", (unsigned long long)end.rounds, (long long)ceiling.total);
    free(table), free(text);
    return 0;
}
