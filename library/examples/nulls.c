/* The names of ceiling.h hand no null pointer on. In place of the libraries stand functions that note what they are handed: each is called with null
 * pointers and length 0, and with pointers that must come through as they are. The count is the last line. */
#include <stdio.h>

#include "ceiling.h"

enum { MOST = 3, LENGTH = 5 };

/* What the last call was handed: pointers and lengths. */
static struct {
    const void *pointer;
    size_t length;
} handed[MOST];
static size_t count;
static unsigned passed, failed;

static void note(const void *pointer, size_t length) {
    handed[count].pointer = pointer;
    handed[count].length = length;
    count++;
}

/* So many pointers came through with this length: those given, or where it is 0 others that are not null. */
static void test(const char *name, size_t pointers, const void *const *given, size_t length) {
    int good = count == pointers;
    for (size_t i = 0; i < count; i++)
        good = good && handed[i].length == length && (length ? handed[i].pointer == given[i] : handed[i].pointer != NULL);
    if (good) passed++;
    else failed++, printf("failed: %s: length %zu\n", name, length);
    count = 0;
}

static void calls(uint8_t *bytes, uint8_t *more, int64_t *weights, size_t length) {
    uint8_t case_bytes[CEILING_CASE] = {0}, record[CEILING_RECORD] = {0};
    const void *text[] = {bytes}, *table[] = {weights}, *both[] = {bytes, weights}, *plan[] = {weights, bytes}, *plans[] = {weights, bytes, more};
    ceiling_case_size(bytes, length), test("ceiling_case_size", 1, text, length);
    ceiling_read_case(bytes, length, case_bytes, weights, length), test("ceiling_read_case", 2, both, length);
    ceiling_upper_bound(case_bytes, weights, length), test("ceiling_upper_bound", 1, table, length);
    ceiling_objective(case_bytes, weights, length, bytes, length), test("ceiling_objective", 2, plan, length);
    ceiling_better_of(case_bytes, weights, length, bytes, length, more, length), test("ceiling_better_of", 3, plans, length);
    ceiling_supported_value(case_bytes, weights, length, 0, bytes, length, more, length), test("ceiling_supported_value", 3, plans, length);
    ceiling_replay_start(case_bytes, weights, length, record), test("ceiling_replay_start", 1, table, length);
    ceiling_replay_lines(case_bytes, weights, length, record, bytes, length), test("ceiling_replay_lines", 2, plan, length);
    ceiling_round_span(bytes, length, 0), test("ceiling_round_span", 1, text, length);
    ceiling_round(case_bytes, weights, length, bytes, length), test("ceiling_round", 2, plan, length);
    ceiling_run(case_bytes, weights, length, bytes, length, 0), test("ceiling_run", 2, plan, length);
    ceiling_run_pairs(case_bytes, weights, length, bytes, length, 0), test("ceiling_run_pairs", 2, plan, length);
}

int main(void) {
    uint8_t bytes[LENGTH] = {0}, more[LENGTH] = {0};
    int64_t weights[LENGTH] = {0};
    calls(NULL, NULL, NULL, 0);
    calls(bytes, more, weights, LENGTH);
    printf("%u passed, %u failed\n", passed, failed);
    return failed > 0;
}

/* ---- in place of the libraries */

#undef ceiling_case_size
#undef ceiling_read_case
#undef ceiling_upper_bound
#undef ceiling_objective
#undef ceiling_better_of
#undef ceiling_supported_value
#undef ceiling_replay_start
#undef ceiling_replay_lines
#undef ceiling_round_span
#undef ceiling_round
#undef ceiling_run
#undef ceiling_run_pairs

static struct ceiling_size_answer no_size;
static struct ceiling_lines_answer no_lines;
static struct ceiling_total_answer no_total;
static struct ceiling_choice_answer no_choice;
static struct ceiling_value_answer no_value;
static struct ceiling_span_answer no_span;
static struct ceiling_round_answer no_round;
static struct ceiling_run_answer no_run;

struct ceiling_size_answer ceiling_case_size(const uint8_t *text, size_t length) {
    note(text, length);
    return no_size;
}

struct ceiling_lines_answer ceiling_read_case(const uint8_t *text, size_t length, uint8_t case_bytes[CEILING_CASE], int64_t *table,
                                              size_t places) {
    (void)case_bytes, note(text, length), note(table, places);
    return no_lines;
}

struct ceiling_total_answer ceiling_upper_bound(const uint8_t case_bytes[CEILING_CASE], const int64_t *table, size_t places) {
    (void)case_bytes, note(table, places);
    return no_total;
}

struct ceiling_total_answer ceiling_objective(const uint8_t case_bytes[CEILING_CASE], const int64_t *table, size_t places,
                                              const uint8_t *plan, size_t links) {
    (void)case_bytes, note(table, places), note(plan, links);
    return no_total;
}

struct ceiling_choice_answer ceiling_better_of(const uint8_t case_bytes[CEILING_CASE], const int64_t *table, size_t places,
                                               const uint8_t *first, size_t one, const uint8_t *second, size_t other) {
    (void)case_bytes, note(table, places), note(first, one), note(second, other);
    return no_choice;
}

struct ceiling_value_answer ceiling_supported_value(const uint8_t case_bytes[CEILING_CASE], const int64_t *table, size_t places, size_t link,
                                                    uint8_t *family, size_t links, uint8_t *partners, size_t room) {
    (void)case_bytes, (void)link, note(table, places), note(family, links), note(partners, room);
    return no_value;
}

uint64_t ceiling_replay_start(const uint8_t case_bytes[CEILING_CASE], const int64_t *table, size_t places, uint8_t record[CEILING_RECORD]) {
    (void)case_bytes, (void)record, note(table, places);
    return 0;
}

struct ceiling_lines_answer ceiling_replay_lines(const uint8_t case_bytes[CEILING_CASE], int64_t *table, size_t places,
                                                 uint8_t record[CEILING_RECORD], const uint8_t *lines, size_t length) {
    (void)case_bytes, (void)record, note(table, places), note(lines, length);
    return no_lines;
}

struct ceiling_span_answer ceiling_round_span(const uint8_t *log, size_t length, uint64_t round) {
    (void)round, note(log, length);
    return no_span;
}

struct ceiling_round_answer ceiling_round(const uint8_t case_bytes[CEILING_CASE], int64_t *table, size_t places, uint8_t *out, size_t room) {
    (void)case_bytes, note(table, places), note(out, room);
    return no_round;
}

struct ceiling_run_answer ceiling_run(const uint8_t case_bytes[CEILING_CASE], int64_t *table, size_t places, uint8_t *out, size_t room,
                                      uint64_t limit) {
    (void)case_bytes, (void)limit, note(table, places), note(out, room);
    return no_run;
}

struct ceiling_run_answer ceiling_run_pairs(const uint8_t case_bytes[CEILING_CASE], int64_t *table, size_t places, uint8_t *out, size_t room,
                                            uint64_t limit) {
    (void)case_bytes, (void)limit, note(table, places), note(out, room);
    return no_run;
}
