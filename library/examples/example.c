/* Reads a case file, lets the engine lower its ceiling, replays the log in blocks, and prints what the checker says, the first round's lines,
 * which of two simple plans is better, and what pair rounds alone come to. */
#include <stdio.h>
#include <stdlib.h>
#include <string.h>

#include "ceiling.h"

enum { ROUNDS = 100000, BLOCK = 100 * CEILING_LINE };

static int refused(uint64_t number, size_t line) {
    printf("refused %llu %zu\n", (unsigned long long)number, line);
    return 1;
}

static uint8_t *read_file(const char *path, size_t *length) {
    FILE *file = fopen(path, "rb");
    uint8_t *text = malloc(1 << 20);
    if (!file || !text) exit(2);
    *length = fread(text, 1, 1 << 20, file);
    fclose(file);
    return text;
}

int main(int count, char **arguments) {
    if (count != 2) return 2;
    size_t length;
    uint8_t *text = read_file(arguments[1], &length);

    struct ceiling_size_answer size = ceiling_case_size(text, length);
    if (size.number) return refused(size.number, 0);
    int64_t *start = calloc(size.table, sizeof *start);
    int64_t *table = calloc(size.table, sizeof *table);
    if (!start || !table) return 2;
    uint8_t case_bytes[CEILING_CASE];
    struct ceiling_lines_answer read = ceiling_read_case(text, length, case_bytes, start, size.table);
    if (read.number) return refused(read.number, read.lines);

    /* The engine's rounds, one after another, and their lines joined; a void line is the last. */
    memcpy(table, start, size.table * sizeof *table);
    uint8_t *log = malloc(CEILING_ROOM);
    size_t logged = 0, room = CEILING_ROOM;
    for (int i = 0; log && i < ROUNDS; i++) {
        struct ceiling_round_answer round = ceiling_round(case_bytes, table, size.table, log + logged, room - logged);
        if (round.number) return refused(round.number, read.lines);
        if (!round.bytes) break;
        logged += round.bytes;
        if (round.none_lawful) break;
        if (room - logged < CEILING_ROOM) log = realloc(log, room = 2 * room + CEILING_ROOM);
    }
    if (!log) return 2;

    /* The same in one run. */
    int64_t *again = calloc(size.table, sizeof *again);
    uint8_t *out = malloc(CEILING_ROOM);
    if (!again || !out) return 2;
    memcpy(again, start, size.table * sizeof *again);
    struct ceiling_run_answer run = ceiling_run(case_bytes, again, size.table, out, CEILING_ROOM, ROUNDS);
    if (run.number) return refused(run.number, read.lines);
    if (memcmp(again, table, size.table * sizeof *table)) return 2;

    /* The replay of the log in blocks, on the starting weights. */
    memcpy(table, start, size.table * sizeof *table);
    uint8_t record[CEILING_RECORD];
    uint64_t fresh = ceiling_replay_start(case_bytes, table, size.table, record);
    if (fresh) return refused(fresh, read.lines);
    for (size_t at = 0; at < logged; at += BLOCK) {
        size_t block = logged - at < BLOCK ? logged - at : BLOCK;
        struct ceiling_lines_answer lines = ceiling_replay_lines(case_bytes, table, size.table, record, log + at, block);
        if (lines.number) return refused(lines.number, read.lines + at / CEILING_LINE + lines.lines);
    }
    struct ceiling_rounds_answer end = ceiling_replay_end(case_bytes, record, logged % CEILING_LINE);
    if (end.number) return refused(end.number, read.lines + logged / CEILING_LINE);
    if (end.is_void != run.none_lawful) return 2;
    if (end.is_void) {
        puts("void");
        return 0;
    }
    struct ceiling_total_answer ceiling = ceiling_upper_bound(case_bytes, table, size.table);
    if (ceiling.number || end.rounds != run.rounds || ceiling.total != run.bound) return 2;
    printf("accepted %llu %lld\n", (unsigned long long)end.rounds, (long long)ceiling.total);

    if (end.rounds) {
        struct ceiling_span_answer view = ceiling_round_span(log, logged, 0);
        if (view.number) return 2;
        fwrite(log + view.from, 1, view.to - view.from, stdout);
    }

    /* Every link on channel 0, or the channels in turn. */
    uint8_t first[CEILING_LINKS], second[CEILING_LINKS];
    for (size_t i = 0; i < size.n; i++) {
        first[i] = 0;
        second[i] = (uint8_t)(i % size.d);
    }
    struct ceiling_choice_answer better = ceiling_better_of(case_bytes, start, size.table, first, size.n, second, size.n);
    const uint8_t *plan = better.choice ? second : first;
    struct ceiling_total_answer total = ceiling_objective(case_bytes, start, size.table, plan, size.n);
    if (better.number || (total.number && total.number != 5)) return 2;
    if (total.number) printf("plan %llu unlawful\n", (unsigned long long)better.choice);
    else printf("plan %llu %lld\n", (unsigned long long)better.choice, (long long)total.total);

    /* Pair rounds only: the plan keeps its total, if it is lawful. */
    memcpy(again, start, size.table * sizeof *again);
    struct ceiling_run_answer pairs = ceiling_run_pairs(case_bytes, again, size.table, out, CEILING_ROOM, ROUNDS);
    struct ceiling_total_answer kept = ceiling_objective(case_bytes, again, size.table, plan, size.n);
    if (pairs.number || kept.number != total.number || kept.total != total.total) return 2;
    printf("pairs %llu %lld\n", (unsigned long long)pairs.rounds, (long long)pairs.bound);

    free(out), free(again), free(log), free(table), free(start), free(text);
    return 0;
}
