/* Calls every function of ceiling.h on accepted and on refused input and compares answers and everything lent with what document 01 says, and
 * document 02 of pair rounds, barred channels, partners, loops, the length of tables and the carry. Each call is a test: a line for each that failed,
 * the count as the last line. */
#include <stdio.h>
#include <string.h>

#include "ceiling.h"

/* The samples' own places at most; a table's length with two channels; room for the longest table lent, with three, and for what lies behind it. */
enum { OWN = 18, FULL = CEILING_TABLE(2), PLACES = CEILING_TABLE(3) + 16, OUT = 320, TEXT = 64 * CEILING_LINE, CARRY_AT = CEILING_CASE - 8 };
static const int64_t STARTING = 1000000, WORKING = 500000000;
#define BAR CEILING_BARRED
/* The greatest carry, and carries that every call takes. */
#define CARRY INT64_C(20000000000)
static const int64_t CARRIES[] = {0, 5, -5, CARRY, -CARRY};
enum { CARRY_COUNT = sizeof CARRIES / sizeof *CARRIES };

static unsigned passed, failed;

static void test(const char *function, const char *name, int good) {
    if (good) {
        passed++;
    } else {
        failed++;
        printf("failed: %s: %s\n", function, name);
    }
}

/* ---- lines, cases and tables */

static size_t put_line(uint8_t *text, size_t at, int kind, int a, int b, int c, long long amount) {
    char line[64];
    snprintf(line, sizeof line, "%2d%4d%4d%4d%12lld\n", kind, a, b, c, amount);
    memcpy(text + at, line, CEILING_LINE);
    return at + CEILING_LINE;
}

/* A row of columns; the bound lines of a case with a carry have it in their ceiling. */
static size_t put_carried(uint8_t *text, size_t at, const int line[5], int64_t carry) {
    return put_line(text, at, line[0], line[1], line[2], line[3], line[4] + (line[0] == 4 ? carry : 0));
}

/* A press of link 0 that raises the scopes from `first` on, and the bound line. */
static size_t put_round(uint8_t *text, size_t at, int first, int count, long long amount, long long bound) {
    at = put_line(text, at, 2, 0, count, 0, amount);
    for (int scope = first; scope < first + count; scope++) at = put_line(text, at, 3, scope, 0, 0, 0);
    return put_line(text, at, 4, 0, 0, 0, bound);
}

/* A case and its table, which holds 0 past the places that are named, and its ceiling without the carry. */
struct sample {
    size_t n, d, m;
    uint8_t lower[3], higher[3];
    int64_t table[PLACES];
    size_t length;
    int64_t ceiling, carry;
};

static const struct sample P1 = {3, 2, 3, {0, 0, 1}, {1, 2, 2}, {0, 0, 0, 0, 0, 0, -1, 0, 0, -1, -1, 0, 0, -1, -1, 0, 0, -1}, FULL, 0, 0};
static const struct sample P4 = {2, 2, 1, {0}, {1}, {2, 0, 2, 0, -3, 0, 0, 0}, FULL, 4, 0};
static const struct sample P10 = {2, 2, 1, {0}, {1}, {3, 4, 6, 2, -2, -4, 1, 1}, FULL, 11, 0};
static const struct sample P11 = {1, 1, 0, {0}, {0}, {-7}, CEILING_TABLE(1), -7, 0};
/* A pair round, and then a press. */
static const struct sample TWO = {3, 2, 2, {0, 1}, {1, 2}, {0, 0, 1, 0, -1, 0, -2, 0, -2, -1, 0, 0, 0, -1}, FULL, 1, 0};
/* P1 after its round. A chain in which channel 0 of link 1 is not among the best across pair 1. */
static const struct sample ROUND_1 = {3, 2, 3, {0, 0, 1}, {1, 2, 2}, {-1, -1}, FULL, -1, 0};
static const struct sample CHAIN = {3, 2, 2, {0, 1}, {1, 2}, {0, 0, 0, 0, 0, 0, 0, 0, 0, 0, -1, -1, 0, 0}, FULL, 0, 0};
/* Barred channels. SINGLE: one lawful plan, 0 1. NO_PLAN: none. A_PLAN: one, 0 1 again, but no press that a void line would need.
 * PASSED: again, and link 1's channel 0 is active and refuted. */
static const struct sample SINGLE = {2, 2, 1, {0}, {1}, {2, BAR, 1, 0, BAR, 0, 0, 3}, FULL, 6, 0};
static const struct sample NO_PLAN = {2, 2, 1, {0}, {1}, {0, BAR, 0, BAR, BAR, 0, 0, 0}, FULL, 0, 0};
static const struct sample A_PLAN = {2, 2, 1, {0}, {1}, {0, BAR, 0, -5, BAR, 0, 0, 0}, FULL, 0, 0};
static const struct sample PASSED = {2, 2, 1, {0}, {1}, {0, BAR, 0, 0, BAR, 0, 0, 0}, FULL, 0, 0};
/* No lawful plan, which shows after two presses. EDGE, not starting weights: one lawful plan, and a press that would leave the range. */
static const struct sample LATE = {2, 2, 1, {0}, {1}, {0, BAR, 4, BAR, BAR, -1, 0, -2}, FULL, 4, 0};
static const struct sample EDGE = {2, 2, 1, {0}, {1}, {-499999999, BAR, 0, -5, BAR, 0, 0, 0}, FULL, -499999999, 0};
/* Not starting weights, and the pairs (0,1) gain but are passed over. LOW: the first press by 1 takes link 0 to the end of the range, the second
 * is number 11. COMES: after a press the pair's round stays in range. BACK: end 0 would leave the range, and end 1 come back. HIGHER: the pair
 * (1,2) gains too. */
static const struct sample LOW = {2, 3, 1, {0}, {1},
    {-499999999, -499999999, -499999999, 2, 1, 0, -3, -3, 0, -3, -3, 0, -3, -3, 0}, CEILING_TABLE(3), -499999997, 0};
static const struct sample COMES = {2, 2, 1, {0}, {1}, {1, -500000000, 0, 0, -2, -2, 0, -1}, FULL, 1, 0};
static const struct sample BACK = {2, 2, 1, {0}, {1}, {2, -2, -3, 0, 500000000, 0, 0, 0}, FULL, 500000002, 0};
static const struct sample HIGHER = {3, 2, 2, {0, 1}, {1, 2}, {0, 0, -1, 0, 0, 0, 1, 0, -500000000, 0, 0, 1, 0, 0}, FULL, 2, 0};

static void put_number(uint8_t *at, uint64_t z) {
    for (int i = 0; i < 8; i++) at[i] = (uint8_t)(z >> (8 * i));
}

static void case_of(const struct sample *s, uint8_t bytes[CEILING_CASE]) {
    memset(bytes, 0, CEILING_CASE);
    put_number(bytes, s->n);
    put_number(bytes + 8, s->d);
    put_number(bytes + 16, s->m);
    memcpy(bytes + 24, s->lower, sizeof s->lower);
    memcpy(bytes + 120, s->higher, sizeof s->higher);
    put_number(bytes + CARRY_AT, (uint64_t)s->carry);
}

/* The sample with another carry. */
static struct sample carrying(const struct sample *s, int64_t carry) {
    struct sample other = *s;
    other.carry = carry;
    return other;
}

/* A table of two channels: eight places, and 0 past them; and whether it holds just that. */
static void put_table(int64_t table[FULL], const int64_t own[8]) {
    memset(table, 0, FULL * sizeof *table);
    memcpy(table, own, 8 * sizeof *table);
}

static int holds(const int64_t table[FULL], const int64_t own[8]) {
    int64_t wanted[FULL];
    put_table(wanted, own);
    return !memcmp(table, wanted, sizeof wanted);
}

/* A weight's line, of kind 11 or 13; barred it is 14 or 15. */
static size_t put_weight(uint8_t *text, size_t at, int kind, int a, int b, int c, int64_t weight) {
    return weight == BAR ? put_line(text, at, kind == 11 ? 14 : 15, a, b, c, 0) : put_line(text, at, kind, a, b, c, weight);
}

static size_t put_case(const struct sample *s, uint8_t *text) {
    size_t at = put_line(text, 0, 10, (int)s->n, (int)s->d, (int)s->m, 0), place = 0;
    int d = (int)s->d;
    for (int i = 0; i < (int)s->n; i++)
        for (int k = 0; k < d; k++) at = put_weight(text, at, 11, i, k, 0, s->table[place++]);
    for (int e = 0; e < (int)s->m; e++) {
        at = put_line(text, at, 12, e, s->lower[e], s->higher[e], 0);
        for (int k = 0; k < d; k++)
            for (int l = 0; l < d; l++) at = put_weight(text, at, 13, e, k, l, s->table[place++]);
    }
    return at;
}

/* ---- what is handed over: P1's case with one thing changed, and the number that every call on a case answers */

/* A weight just outside the range. */
#define ABOVE INT64_MAX
#define BELOW INT64_MIN

struct fault {
    const char *name;
    uint64_t number, alone; /* the second where no table is lent: 0 if the case is taken */
    size_t n, d, m;
    int longer;
    int pair, lower, higher;
    int place;
    int64_t weight, carry;
};

static const struct fault FAULTS[] = {
    {"no links", 3, 3, 0, 2, 3, 0, 0, 0, 1, 0, 0, 0},
    {"49 links", 3, 3, 49, 2, 3, 0, 0, 0, 1, 0, 0, 0},
    {"most links", 3, 3, SIZE_MAX, 2, 3, 0, 0, 0, 1, 0, 0, 0},
    {"no values", 3, 3, 3, 0, 3, 0, 0, 0, 1, 0, 0, 0},
    {"9 values", 3, 3, 3, 9, 3, 0, 0, 0, 1, 0, 0, 0},
    {"97 pairs", 3, 3, 3, 2, 97, 0, 0, 0, 1, 0, 0, 0},
    {"3 before 4", 3, 3, 49, 2, 3, -1, 0, 0, 1, 0, 0, 0},
    {"3 before a carry", 3, 3, 49, 2, 3, 0, 0, 0, 1, 0, 0, CARRY + 1},
    {"a short table", 4, 0, 3, 2, 3, -1, 0, 0, 1, 0, 0, 0},
    {"a long table", 4, 0, 3, 2, 3, 1, 0, 0, 1, 0, 0, 0},
    {"the own places alone", 4, 0, 3, 2, 3, OWN - FULL, 0, 0, 1, 0, 0, 0},
    {"no places", 4, 0, 3, 2, 3, -FULL, 0, 0, 1, 0, 0, 0},
    {"the table of more values", 4, 0, 3, 2, 3, CEILING_TABLE(3) - FULL, 0, 0, 1, 0, 0, 0},
    {"the table of fewer values", 4, 0, 3, 2, 3, CEILING_TABLE(1) - FULL, 0, 0, 1, 0, 0, 0},
    {"the table of another case", 4, 0, 3, 3, 3, 0, 0, 0, 1, 0, 0, 0},
    {"4 before 5", 4, 5, 3, 2, 3, -1, 2, 1, 3, 0, 0, 0},
    {"4 before a carry", 4, 5, 3, 2, 3, -1, 0, 0, 1, 0, 0, CARRY + 1},
    {"the own places alone before a carry", 4, 5, 3, 2, 3, OWN - FULL, 0, 0, 1, 0, 0, -CARRY - 1},
    {"4 before 8", 4, 0, 3, 2, 3, 1, 0, 0, 1, FULL, 1, 0},
    {"an end that is no link", 5, 5, 3, 2, 3, 0, 2, 1, 3, 0, 0, 0},
    {"5 before 6", 5, 5, 3, 2, 3, 0, 0, 3, 0, 0, 0, 0},
    {"5 before 8", 5, 5, 3, 2, 3, 0, 0, 255, 1, 0, ABOVE, 0},
    {"a carry above", 5, 5, 3, 2, 3, 0, 0, 0, 1, 0, 0, CARRY + 1},
    {"a carry below", 5, 5, 3, 2, 3, 0, 0, 0, 1, 0, 0, -CARRY - 1},
    {"the greatest number as a carry", 5, 5, 3, 2, 3, 0, 0, 0, 1, 0, 0, INT64_MAX},
    {"the least number as a carry", 5, 5, 3, 2, 3, 0, 0, 0, 1, 0, 0, INT64_MIN},
    {"a carry of 32 bits more", 5, 5, 3, 2, 3, 0, 0, 0, 1, 0, 0, CARRY + (INT64_C(1) << 32)},
    {"a carry in its last byte", 5, 5, 3, 2, 3, 0, 0, 0, 1, 0, 0, INT64_C(1) << 56},
    {"a carry before 6", 5, 5, 3, 2, 3, 0, 1, 2, 2, 0, 0, CARRY + 1},
    {"a carry before 7", 5, 5, 3, 2, 3, 0, 2, 0, 1, 0, 0, -CARRY - 1},
    {"a carry before 8", 5, 5, 3, 2, 3, 0, 0, 0, 1, 17, BELOW, CARRY + 1},
    {"a carry before 8 past the own places", 5, 5, 3, 2, 3, 0, 0, 0, 1, OWN, 1, CARRY + 1},
    {"descending ends", 6, 6, 3, 2, 3, 0, 1, 2, 0, 0, 0, 0},
    {"descending ends, and a carry", 6, 6, 3, 2, 3, 0, 1, 2, 0, 0, 0, CARRY},
    {"equal ends", 6, 6, 3, 2, 3, 0, 1, 2, 2, 0, 0, 0},
    {"6 before 7", 6, 6, 3, 2, 3, 0, 2, 1, 0, 0, 0, 0},
    {"6 before 8", 6, 6, 3, 2, 3, 0, 1, 2, 2, OWN, 1, 0},
    {"a pair twice", 7, 7, 3, 2, 3, 0, 2, 0, 1, 0, 0, 0},
    {"7 before 8", 7, 7, 3, 2, 3, 0, 2, 0, 1, 17, BELOW, 0},
    {"7 before 8 past the own places", 7, 7, 3, 2, 3, 0, 2, 0, 1, FULL - 1, -1, 0},
    {"a weight above", 8, 0, 3, 2, 3, 0, 0, 0, 1, 0, ABOVE, 0},
    {"a weight below", 8, 0, 3, 2, 3, 0, 0, 0, 1, 17, BELOW, 0},
    {"a weight above, and a carry", 8, 0, 3, 2, 3, 0, 0, 0, 1, 0, ABOVE, -CARRY},
    {"1 past the own places", 8, 0, 3, 2, 3, 0, 0, 0, 1, OWN, 1, 0},
    {"-1 past the own places", 8, 0, 3, 2, 3, 0, 0, 0, 1, OWN, -1, 0},
    {"barred past the own places", 8, 0, 3, 2, 3, 0, 0, 0, 1, OWN, BAR, 0},
    {"1 in the midst of them", 8, 0, 3, 2, 3, 0, 0, 0, 1, FULL / 2, 1, 0},
    {"1 at the last place", 8, 0, 3, 2, 3, 0, 0, 0, 1, FULL - 1, 1, 0},
    {"-1 at the last place", 8, 0, 3, 2, 3, 0, 0, 0, 1, FULL - 1, -1, 0},
    {"barred at the last place", 8, 0, 3, 2, 3, 0, 0, 0, 1, FULL - 1, BAR, 0},
    {"past the own places, and a carry", 8, 0, 3, 2, 3, 0, 0, 0, 1, OWN, 1, CARRY},
};
enum { FAULT_COUNT = sizeof FAULTS / sizeof *FAULTS };

static struct sample faulty(const struct fault *f, int64_t range) {
    struct sample s = P1;
    s.n = f->n, s.d = f->d, s.m = f->m;
    s.length = (size_t)(FULL + f->longer);
    s.lower[f->pair] = (uint8_t)f->lower, s.higher[f->pair] = (uint8_t)f->higher;
    s.table[f->place] = f->weight == ABOVE ? range + 1 : f->weight == BELOW ? -range - 1 : f->weight;
    s.carry = f->carry;
    return s;
}

/* ---- the case file */

static void sizes(void) {
    static const struct {
        const char *name, *text;
        size_t length;
        struct ceiling_size_answer answer;
    } rows[] = {
        {"the largest", "10  48   8  96           0\n", 27, {0, 48, 8, 96, 6528}},
        {"the smallest", "10   1   1   0           0\n", 27, {0, 1, 1, 0, 144}},
        {"one link, most values", "10   1   8   0           0\n", 27, {0, 1, 8, 0, 6528}},
        {"one value, most links and pairs", "10  48   1  96           0\n", 27, {0, 48, 1, 96, 144}},
        {"three values", "10   2   3   1           0\n", 27, {0, 2, 3, 1, 1008}},
        {"more behind it", "10   2   2   1           0\nx", 28, {0, 2, 2, 1, 480}},
        {"not in columns", "10   2   2  01           0\n", 27, {1, 0, 0, 0, 0}},
        {"another kind", "11   2   2   1           0\n", 27, {2, 0, 0, 0, 0}},
        {"an amount", "10   2   2   1           1\n", 27, {2, 0, 0, 0, 0}},
        {"49 links", "10  49   2   1           0\n", 27, {3, 0, 0, 0, 0}},
        {"no values", "10   2   0   1           0\n", 27, {3, 0, 0, 0, 0}},
        {"97 pairs", "10   2   2  97           0\n", 27, {3, 0, 0, 0, 0}},
        {"2 before 3", "10  49   2   1           1\n", 27, {2, 0, 0, 0, 0}},
        {"nothing", "", 0, {14, 0, 0, 0, 0}},
        {"26 bytes", "10   2   2   1           0\n", 26, {14, 0, 0, 0, 0}},
    };
    for (size_t i = 0; i < sizeof rows / sizeof *rows; i++) {
        struct ceiling_size_answer a = ceiling_case_size((const uint8_t *)rows[i].text, rows[i].length);
        test("ceiling_case_size", rows[i].name, !memcmp(&a, &rows[i].answer, sizeof a));
        if (!a.number) test("ceiling_case_size", "the header's length", a.table == CEILING_TABLE(a.d));
    }
}

/* One reading of a sample's file, changed: the answer, the case's bytes, and so many weights read. All other places keep what they held, but that a
 * case which is taken leaves 0 past its own. */
static void reading_of(const struct sample *s, const char *name, const uint8_t *text, size_t length, size_t lent, uint64_t number, size_t line,
                       size_t weights) {
    uint8_t bytes[CEILING_CASE], wanted[CEILING_CASE];
    int64_t table[PLACES], after[PLACES];
    memset(bytes, 0xa5, sizeof bytes), memset(wanted, 0xa5, sizeof wanted);
    if (!number) case_of(s, wanted);
    for (size_t i = 0; i < PLACES; i++) table[i] = 77, after[i] = i < weights ? s->table[i] : !number && i < lent ? 0 : 77;
    struct ceiling_lines_answer a = ceiling_read_case(text, length, bytes, table, lent);
    int same = !memcmp(bytes, wanted, sizeof bytes) && !memcmp(table, after, sizeof table);
    test("ceiling_read_case", name, a.number == number && a.lines == line && same);
}

static void reading(const char *name, const uint8_t *text, size_t length, size_t lent, uint64_t number, size_t line, size_t weights) {
    reading_of(&P1, name, text, length, lent, number, line, weights);
}

/* A line of P1's case file changed, and the number at it. */
static const struct {
    const char *name;
    uint64_t number;
    size_t line;
    const char *text;
} READINGS[] = {
    {"head not in columns", 1, 0, "10   3   2   3          00\n"},
    {"head of another kind", 2, 0, "11   3   2   3           0\n"},
    {"49 links", 3, 0, "10  49   2   3           0\n"},
    {"another case's length", 4, 0, "10   3   3   3           0\n"},
    {"a length of fewer values", 4, 0, "10   3   1   3           0\n"},
    {"link weight not in columns", 1, 3, "11   1   0   0           0 "},
    {"link weight of another kind", 2, 6, "12   0   0   1           0\n"},
    {"another link", 5, 1, "11   1   0   0           0\n"},
    {"link weight above", 8, 6, "11   2   1   0     1000001\n"},
    {"barred by a weight", 8, 3, "11   1   0   0 -2000000000\n"},
    {"barred, an amount", 2, 3, "14   1   0   0           1\n"},
    {"barred, c", 2, 3, "14   1   0   1           0\n"},
    {"barred, another link", 5, 3, "14   0   0   0           0\n"},
    {"barred as in a pair", 2, 3, "15   1   0   0           0\n"},
    {"barred pair, an amount", 2, 9, "15   0   0   1          -1\n"},
    {"barred pair, another value", 5, 9, "15   0   1   0           0\n"},
    {"barred as a link", 2, 9, "14   0   0   0           0\n"},
    {"pair's unused column", 2, 7, "12   0   0   1           1\n"},
    {"an end that is no link", 5, 7, "12   0   0   3           0\n"},
    {"equal ends", 6, 12, "12   1   2   2           0\n"},
    {"a pair twice", 7, 17, "12   2   0   1           0\n"},
    {"another value", 5, 19, "13   2   0   0           0\n"},
    {"pair weight below", 8, 21, "13   2   1   1    -1000001\n"},
};

static void readings(void) {
    uint8_t good[TEXT], text[TEXT];
    size_t length = put_case(&P1, good), places[32], weights = 0;
    for (size_t i = 0; i < length / CEILING_LINE; i++) {
        places[i] = weights;
        weights += good[i * CEILING_LINE + 1] == '1' || good[i * CEILING_LINE + 1] == '3';
    }
    reading("P1", good, length, P1.length, 0, 22, 18);
    for (size_t i = 0; i < sizeof READINGS / sizeof *READINGS; i++) {
        memcpy(text, good, length);
        memcpy(text + READINGS[i].line * CEILING_LINE, READINGS[i].text, CEILING_LINE);
        reading(READINGS[i].name, text, length, P1.length, READINGS[i].number, READINGS[i].line, places[READINGS[i].line]);
    }
    reading("a short table", good, length, P1.length - 1, 4, 0, 0);
    reading("a long table", good, length, P1.length + 1, 4, 0, 0);
    reading("the own places alone", good, length, OWN, 4, 0, 0);
    reading("no places", good, length, 0, 4, 0, 0);
    reading("the table of fewer values", good, length, CEILING_TABLE(1), 4, 0, 0);
    reading("the table of more values", good, length, CEILING_TABLE(3), 4, 0, 0);
    reading("nothing", good, 0, P1.length, 14, 0, 0);
    reading("26 bytes", good, 26, P1.length, 14, 0, 0);
    reading("the head alone", good, 27, P1.length, 14, 1, 0);
    reading("cut in a pair weight", good, 9 * CEILING_LINE + 5, P1.length, 14, 9, 7);
    reading("without the last line", good, length - CEILING_LINE, P1.length, 14, 21, 17);
    memcpy(text, good, length);
    put_line(text, length, 10, 1, 1, 0, 0);
    reading("a head behind the case", text, length + CEILING_LINE, P1.length, 2, 22, 18);
    reading("a part line behind the case", text, length + 1, P1.length, 14, 22, 18);
    memset(text + length, 'x', CEILING_LINE);
    reading("no line behind the case", text, length + CEILING_LINE, P1.length, 1, 22, 18);
    /* with a pair less the length is the same, and more places are past the own ones; its lines are then behind the case */
    struct sample fewer = P1;
    fewer.m = 2, fewer.lower[2] = fewer.higher[2] = 0;
    memcpy(text, good, length);
    put_line(text, 0, 10, 3, 2, 2, 0);
    reading_of(&fewer, "a pair less", text, 17 * CEILING_LINE, P1.length, 0, 17, 14);
    reading_of(&fewer, "a pair less, its lines behind it", text, length, P1.length, 2, 17, 14);
    reading_of(&P4, "P4", text, put_case(&P4, text), P4.length, 0, 10, 8);
    reading_of(&P11, "P11", text, put_case(&P11, text), P11.length, 0, 2, 1);
    reading_of(&P11, "P11, its own place alone", text, put_case(&P11, text), 1, 4, 0, 0);
}

/* The most links and pairs with one channel: no place is past the case's own. With a pair less, one is. */
static void full_readings(void) {
    enum { LENGTH = CEILING_TABLE(1), LINES = 1 + CEILING_LINKS + 2 * CEILING_PAIRS };
    static uint8_t text[LINES * CEILING_LINE];
    for (int pairs = CEILING_PAIRS - 1; pairs <= CEILING_PAIRS; pairs++) {
        uint8_t bytes[CEILING_CASE], wanted[CEILING_CASE] = {0};
        int64_t table[LENGTH + 1], after[LENGTH + 1];
        size_t at = put_line(text, 0, 10, CEILING_LINKS, 1, pairs, 0);
        for (int i = 0; i <= LENGTH; i++) table[i] = 77, after[i] = i < CEILING_LINKS + pairs ? i + 1 : i < LENGTH ? 0 : 77;
        for (int i = 0; i < CEILING_LINKS; i++) at = put_line(text, at, 11, i, 0, 0, i + 1);
        put_number(wanted, CEILING_LINKS), put_number(wanted + 8, 1), put_number(wanted + 16, (uint64_t)pairs);
        for (int e = 0; e < pairs; e++) {
            int lower = e % 24, higher = 24 + (e % 24 + e / 24) % 24;
            at = put_line(text, at, 12, e, lower, higher, 0);
            at = put_line(text, at, 13, e, 0, 0, CEILING_LINKS + e + 1);
            wanted[24 + e] = (uint8_t)lower, wanted[120 + e] = (uint8_t)higher;
        }
        memset(bytes, 0xa5, sizeof bytes);
        struct ceiling_lines_answer a = ceiling_read_case(text, at, bytes, table, LENGTH);
        int same = !memcmp(bytes, wanted, sizeof bytes) && !memcmp(table, after, sizeof table);
        test("ceiling_read_case", "most links and pairs", a.number == 0 && a.lines == at / CEILING_LINE && same);
        struct ceiling_total_answer t = ceiling_upper_bound(bytes, table, LENGTH);
        int64_t places = CEILING_LINKS + pairs;
        test("ceiling_upper_bound", "most links and pairs", t.number == 0 && t.total == places * (places + 1) / 2);
        table[LENGTH - 1] = 1;
        t = ceiling_upper_bound(bytes, table, LENGTH);
        test("ceiling_upper_bound", "the last place", t.number == (pairs < CEILING_PAIRS ? 8 : 0));
    }
}

/* Cases with barred channels; a scope with nothing else is number 15 at its last line. */
static void barred_readings(void) {
    static const struct {
        const char *name;
        struct sample sample;
        uint64_t number;
        size_t line, weights;
    } rows[] = {
        {"barred channels", {2, 2, 1, {0}, {1}, {2, BAR, 1, 0, BAR, 0, 0, 3}, FULL, 0, 0}, 0, 10, 8},
        {"a link wholly barred", {2, 2, 1, {0}, {1}, {0, 0, BAR, BAR, 0, 0, 0, 0}, FULL, 0, 0}, 15, 4, 3},
        {"a pair wholly barred", {2, 2, 1, {0}, {1}, {0, 0, 0, 0, BAR, BAR, BAR, BAR}, FULL, 0, 0}, 15, 9, 7},
        {"the first of both", {2, 2, 1, {0}, {1}, {BAR, BAR, 0, 0, BAR, BAR, BAR, BAR}, FULL, 0, 0}, 15, 2, 1},
        {"one channel, barred", {1, 1, 0, {0}, {0}, {BAR}, CEILING_TABLE(1), 0, 0}, 15, 1, 0},
    };
    uint8_t text[TEXT];
    for (size_t i = 0; i < sizeof rows / sizeof *rows; i++) {
        const struct sample *s = &rows[i].sample;
        reading_of(s, rows[i].name, text, put_case(s, text), s->length, rows[i].number, rows[i].line, rows[i].weights);
    }
}

/* ---- ceiling, totals, scoring: they change nothing */

static void ceilings(void) {
    static const struct sample *const rows[] = {&P1,     &P4,     &P10,  &P11,  &ROUND_1, &CHAIN, &TWO,  &SINGLE, &NO_PLAN,
                                                &A_PLAN, &PASSED, &LATE, &EDGE, &LOW,     &COMES, &BACK, &HIGHER};
    uint8_t bytes[CEILING_CASE];
    for (size_t i = 0; i < sizeof rows / sizeof *rows; i++) {
        case_of(rows[i], bytes);
        struct ceiling_total_answer a = ceiling_upper_bound(bytes, rows[i]->table, rows[i]->length);
        test("ceiling_upper_bound", "a sample", a.number == 0 && a.total == rows[i]->ceiling);
        for (size_t k = 0; k < CARRY_COUNT; k++) {
            put_number(bytes + CARRY_AT, (uint64_t)CARRIES[k]);
            a = ceiling_upper_bound(bytes, rows[i]->table, rows[i]->length);
            test("ceiling_upper_bound", "a carry", a.number == 0 && a.total == rows[i]->ceiling + CARRIES[k]);
        }
    }
    for (size_t i = 0; i < FAULT_COUNT; i++) {
        struct sample s = faulty(&FAULTS[i], WORKING);
        case_of(&s, bytes);
        struct ceiling_total_answer a = ceiling_upper_bound(bytes, s.table, s.length);
        test("ceiling_upper_bound", FAULTS[i].name, a.number == FAULTS[i].number && a.total == 0);
    }
}

static void totals(void) {
    static const struct {
        const char *name;
        uint8_t plan[3];
        size_t length;
        uint64_t number;
        int64_t total;
    } rows[] = {
        {"0 0", {0, 0}, 2, 0, 1},       {"0 1", {0, 1}, 2, 0, 2},      {"1 0", {1, 0}, 2, 0, 2},        {"1 1", {1, 1}, 2, 0, 0},
        {"a short plan", {0}, 1, 4, 0}, {"a long plan", {0}, 3, 4, 0}, {"4 before 5", {2}, 1, 4, 0},   {"no such value", {0, 2}, 2, 5, 0},
    };
    uint8_t bytes[CEILING_CASE], plan[3] = {0, 1, 0};
    case_of(&P4, bytes);
    for (size_t i = 0; i < sizeof rows / sizeof *rows * CARRY_COUNT; i++) {
        size_t row = i / CARRY_COUNT; /* a carry moves no total */
        put_number(bytes + CARRY_AT, (uint64_t)CARRIES[i % CARRY_COUNT]);
        struct ceiling_total_answer a = ceiling_objective(bytes, P4.table, P4.length, rows[row].plan, rows[row].length);
        test("ceiling_objective", rows[row].name, a.number == rows[row].number && a.total == rows[row].total);
    }
    for (size_t i = 0; i < FAULT_COUNT; i++) {
        struct sample s = faulty(&FAULTS[i], WORKING);
        case_of(&s, bytes);
        struct ceiling_total_answer a = ceiling_objective(bytes, s.table, s.length, plan, 3);
        /* 49 links ask for a plan of 49, but 3 comes first */
        test("ceiling_objective", FAULTS[i].name, a.number == FAULTS[i].number && a.total == 0);
    }
}

static void choices(void) {
    static const struct {
        const char *name;
        uint8_t first[3];
        size_t first_length;
        uint8_t second[3];
        size_t second_length;
        struct ceiling_choice_answer answer;
    } rows[] = {
        {"the first", {0, 1}, 2, {0, 0}, 2, {0, 0}},
        {"the second", {0, 0}, 2, {0, 1}, 2, {0, 1}},
        {"a tie", {0, 1}, 2, {1, 0}, 2, {0, 0}},
        {"a short first plan", {0}, 1, {0, 0}, 2, {4, 0}},
        {"a long second plan", {0, 0}, 2, {0, 0}, 3, {4, 0}},
        {"4 before 5", {2, 0}, 2, {0}, 1, {4, 0}},
        {"no such value, first", {2, 0}, 2, {0, 0}, 2, {5, 0}},
        {"no such value, second", {0, 0}, 2, {0, 255}, 2, {5, 0}},
    };
    uint8_t bytes[CEILING_CASE], plan[3] = {0, 1, 0};
    case_of(&P4, bytes);
    for (size_t i = 0; i < sizeof rows / sizeof *rows * CARRY_COUNT; i++) {
        size_t row = i / CARRY_COUNT; /* a carry moves no choice */
        put_number(bytes + CARRY_AT, (uint64_t)CARRIES[i % CARRY_COUNT]);
        struct ceiling_choice_answer a = ceiling_better_of(bytes, P4.table, P4.length, rows[row].first, rows[row].first_length, rows[row].second,
                                                           rows[row].second_length);
        test("ceiling_better_of", rows[row].name, !memcmp(&a, &rows[row].answer, sizeof a));
    }
    for (size_t i = 0; i < FAULT_COUNT; i++) {
        struct sample s = faulty(&FAULTS[i], STARTING);
        case_of(&s, bytes);
        struct ceiling_choice_answer a = ceiling_better_of(bytes, s.table, s.length, plan, 3, plan, 3);
        test("ceiling_better_of", FAULTS[i].name, a.number == FAULTS[i].number && a.choice == 0);
    }
}

/* Unlawful plans have no total, and rank level, below the lawful. */
static void unlawful(void) {
    static const struct {
        uint8_t plan[2];
        uint64_t number;
        int64_t total;
    } rows[] = {{{0, 1}, 0, 2}, {{0, 0}, 5, 0}, {{1, 0}, 5, 0}, {{1, 1}, 5, 0}};
    uint8_t bytes[CEILING_CASE];
    case_of(&SINGLE, bytes);
    for (size_t i = 0; i < 4; i++) {
        struct ceiling_total_answer a = ceiling_objective(bytes, SINGLE.table, FULL, rows[i].plan, 2);
        test("ceiling_objective", "barred channels", a.number == rows[i].number && a.total == rows[i].total);
        for (size_t k = 0; k < 4; k++) {
            struct ceiling_choice_answer c = ceiling_better_of(bytes, SINGLE.table, FULL, rows[i].plan, 2, rows[k].plan, 2);
            test("ceiling_better_of", "barred channels", c.number == 0 && c.choice == (i > 0 && k == 0));
        }
    }
}

/* Tables that every call of the checker refuses; of a total, 5 of an unlawful plan comes before 8 and 15. */
static void barred_tables(void) {
    static const struct {
        const char *name;
        int64_t table[8];
        uint64_t number, total;
    } rows[] = {
        {"a link wholly barred", {0, 0, BAR, BAR, 0, 0, 0, 0}, 15, 5},
        {"a pair wholly barred", {0, 0, 0, 0, BAR, BAR, BAR, BAR}, 15, 5},
        {"8 before 15", {500000001, 0, 0, 0, BAR, BAR, BAR, BAR}, 8, 5},
        {"5 before 8", {0, 500000001, 0, 0, BAR, 0, 0, 0}, 8, 5},
        {"8, a lawful plan", {0, 500000001, 0, 0, 0, BAR, 0, 0}, 8, 8},
        {"below barred", {0, 0, 0, BAR - 1, 0, 0, 0, 0}, 8, 8},
        {"above barred", {0, 0, 0, BAR + 1, 0, 0, 0, 0}, 8, 8},
    };
    uint8_t bytes[CEILING_CASE], record[CEILING_RECORD], line[CEILING_LINE], plan[2] = {0, 0}, family[2], partners[4];
    case_of(&P4, bytes);
    put_line(line, 0, 1, 0, 0, 0, 1);
    memset(family, 0xa5, sizeof family), memset(partners, 0xa5, sizeof partners);
    for (size_t i = 0; i < sizeof rows / sizeof *rows; i++) {
        int64_t table[FULL];
        put_table(table, rows[i].table);
        test("ceiling_upper_bound", rows[i].name, ceiling_upper_bound(bytes, table, FULL).number == rows[i].number);
        test("ceiling_objective", rows[i].name, ceiling_objective(bytes, table, FULL, plan, 2).number == rows[i].total);
        test("ceiling_better_of", rows[i].name, ceiling_better_of(bytes, table, FULL, plan, 2, plan, 2).number == rows[i].number);
        struct ceiling_value_answer v = ceiling_supported_value(bytes, table, FULL, 1, family, 2, partners, 4);
        int same = !memcmp(family, "\xa5\xa5", 2) && !memcmp(partners, "\xa5\xa5\xa5\xa5", 4);
        test("ceiling_supported_value", rows[i].name, v.number == rows[i].number && v.value == 0 && same);
        uint64_t number = ceiling_replay_start(bytes, table, FULL, record);
        test("ceiling_replay_start", rows[i].name, number == rows[i].number && record[51] == number);
        test("ceiling_replay_end", rows[i].name, ceiling_replay_end(bytes, record, 0).number == number);
        for (size_t length = 0; length <= CEILING_LINE; length += CEILING_LINE) {
            memset(record, 0, sizeof record);
            struct ceiling_lines_answer a = ceiling_replay_lines(bytes, table, FULL, record, line, length);
            test("ceiling_replay_lines", rows[i].name, a.number == rows[i].number && record[51] == a.number && holds(table, rows[i].table));
        }
    }
}

/* ---- why a channel was kept */

#define OUTSIDE CEILING_OUTSIDE

/* What a link keeps: its channel, the channel's family and the partners; nothing is written where the call is refused. */
static const struct kept {
    const char *name;
    const struct sample *sample;
    size_t link;
    struct ceiling_value_answer answer;
    uint8_t family[3], partners[12];
} KEPT[] = {
    {"P1, all refuted, link 0", &P1, 0, {5, 0}, {0}, {0}},
    {"P1, all refuted, link 1", &P1, 1, {5, 0}, {0}, {0}},
    {"P1, all refuted, link 2", &P1, 2, {5, 0}, {0}, {0}},
    {"P1, no such link", &P1, 3, {5, 0}, {0}, {0}},
    {"P1 after its round, link 0", &ROUND_1, 0, {0, 0}, {1, 3, 3}, {0, OUTSIDE, 0, 0, 0, OUTSIDE, 0, 0, 0, 0, 0, 0}},
    {"P1 after its round, link 1", &ROUND_1, 1, {0, 0}, {3, 1, 3}, {0, 0, 0, OUTSIDE, 0, 0, 0, 0, 0, OUTSIDE, 0, 0}},
    {"P1 after its round, link 2", &ROUND_1, 2, {0, 0}, {3, 3, 1}, {0, 0, 0, 0, 0, 0, 0, OUTSIDE, 0, 0, 0, OUTSIDE}},
    {"P1 after its round, no such link", &ROUND_1, 3, {5, 0}, {0}, {0}},
    {"P1 after its round, the last number", &ROUND_1, SIZE_MAX, {5, 0}, {0}, {0}},
    {"a chain, link 0", &CHAIN, 0, {0, 0}, {1, 2, 3}, {1, OUTSIDE, OUTSIDE, 0, OUTSIDE, 0, 1, 1}},
    {"a chain, link 1, the lowest refuted", &CHAIN, 1, {0, 1}, {3, 2, 3}, {1, 1, OUTSIDE, 0, OUTSIDE, 0, 1, 1}},
    {"a chain, link 2", &CHAIN, 2, {0, 0}, {3, 2, 1}, {1, 1, OUTSIDE, 0, OUTSIDE, 0, 1, OUTSIDE}},
    {"P4, a press is left", &P4, 0, {5, 0}, {0}, {0}},
    {"P4, a press is left, link 1", &P4, 1, {5, 0}, {0}, {0}},
    {"P10, the lowest not active", &P10, 0, {0, 1}, {2, 1}, {OUTSIDE, 0, 1, OUTSIDE}},
    {"P10, link 1", &P10, 1, {0, 0}, {2, 1}, {OUTSIDE, 0, 1, OUTSIDE}},
    {"P11, one link", &P11, 0, {0, 0}, {1}, {0}},
    {"P11, no such link", &P11, 1, {5, 0}, {0}, {0}},
    {"barred channels", &PASSED, 0, {0, 0}, {1, 2}, {1, OUTSIDE, OUTSIDE, 0}},
    {"barred channels, the lowest refuted", &PASSED, 1, {0, 1}, {1, 2}, {1, OUTSIDE, OUTSIDE, 0}},
    {"no lawful plan, a void line is left", &NO_PLAN, 0, {5, 0}, {0}, {0}},
    {"no lawful plan, link 1", &NO_PLAN, 1, {5, 0}, {0}, {0}},
    {"a press beside barred places is left", &A_PLAN, 0, {5, 0}, {0}, {0}},
    {"the end of the range", &EDGE, 1, {5, 0}, {0}, {0}},
};

/* A call with so many bytes lent: what must be written, and then what was there. */
static void keeping(const struct kept *row, const char *name, size_t family_length, size_t partners_length, struct ceiling_value_answer answer) {
    const struct sample *s = row->sample;
    uint8_t bytes[CEILING_CASE], family[OUT], partners[OUT], wanted_family[OUT], wanted_partners[OUT];
    case_of(s, bytes);
    memset(family, 0xa5, OUT), memset(partners, 0xa5, OUT);
    memset(wanted_family, 0xa5, OUT), memset(wanted_partners, 0xa5, OUT);
    if (!answer.number) memcpy(wanted_family, row->family, s->n), memcpy(wanted_partners, row->partners, 2 * s->m * s->d);
    struct ceiling_value_answer a = ceiling_supported_value(bytes, s->table, s->length, row->link, family, family_length, partners, partners_length);
    int same = !memcmp(family, wanted_family, OUT) && !memcmp(partners, wanted_partners, OUT);
    test("ceiling_supported_value", name, !memcmp(&a, &answer, sizeof a) && same);
}

static void kept_channels(void) {
    const struct ceiling_value_answer short_of = {4, 0};
    for (size_t i = 0; i < sizeof KEPT / sizeof *KEPT; i++) {
        const struct kept *row = &KEPT[i];
        size_t n = row->sample->n, p = 2 * row->sample->m * row->sample->d;
        keeping(row, row->name, n, p, row->answer);
        keeping(row, row->name, n + 1, p, row->answer);
        for (size_t k = 0; k < CARRY_COUNT; k++) { /* a carry moves nothing */
            struct sample carried = carrying(row->sample, CARRIES[k]);
            struct kept other = *row;
            other.sample = &carried;
            keeping(&other, "a carry", n, p, row->answer);
        }
        keeping(row, row->name, OUT, OUT, row->answer);
        /* 4 comes before both fives: of a link that is not there, and of one whose channels are refuted */
        keeping(row, "a short family", n - 1, OUT, short_of);
        if (p) keeping(row, "short partners", OUT, p - 1, short_of);
        keeping(row, "no bytes", 0, 0, short_of);
    }
    /* P1's faults, of whose links all channels are refuted: 3 before 4 of what is lent, 4 before 5, 5 of the link with that of the ends */
    for (size_t i = 0; i < FAULT_COUNT; i++) {
        uint64_t number = FAULTS[i].number;
        struct sample s = faulty(&FAULTS[i], WORKING);
        struct kept row = {FAULTS[i].name, &s, 0, {number, 0}, {0}, {0}};
        struct ceiling_value_answer four = {number < 4 ? number : 4, 0}, five = {number < 5 ? number : 5, 0};
        keeping(&row, row.name, OUT, OUT, row.answer);
        keeping(&row, row.name, 2, OUT, four);
        keeping(&row, row.name, OUT, 7, four);
        row.link = SIZE_MAX;
        keeping(&row, row.name, OUT, OUT, five);
        keeping(&row, row.name, 2, 7, four);
    }
    /* where the link keeps none, 8 and 15 come first, and 5 of the link before them */
    static const struct {
        const char *name;
        int64_t table[8];
        uint64_t number;
    } rows[] = {
        {"8 before the last 5", {2, 0, 2, 0, -3, 0, 0, -500000001}, 8},
        {"8 before the last 5, above", {2, 0, 2, 500000001, -3, 0, 0, 0}, 8},
        {"15 before the last 5", {2, 0, 2, 0, BAR, BAR, BAR, BAR}, 15},
        {"15 of a link before the last 5", {BAR, BAR, 2, 0, -3, 0, 0, 0}, 15},
        {"the last 5", {2, 0, 2, 0, -3, 0, 0, -500000000}, 5},
    };
    for (size_t i = 0; i < sizeof rows / sizeof *rows; i++) {
        struct sample s = P4;
        memcpy(s.table, rows[i].table, sizeof rows[i].table);
        struct kept row = {rows[i].name, &s, 0, {rows[i].number, 0}, {0}, {0}};
        keeping(&row, row.name, 2, 4, row.answer);
        row.link = 2;
        struct ceiling_value_answer five = {5, 0}, eight = {8, 0};
        keeping(&row, row.name, 2, 4, five);
        s.table[8] = 1;
        keeping(&row, "5 before 8 past the own places", 2, 4, five);
        row.link = 0;
        keeping(&row, "8 past the own places before 15 and the last 5", 2, 4, eight);
        s.carry = CARRY + 1;
        keeping(&row, "a carry before 8 and 15", 2, 4, five);
    }
}

/* ---- whether the pairs form no loop: asked of the case alone */

static const struct {
    const char *name;
    size_t n, d, m;
    uint8_t pairs[5][2];
    struct ceiling_verdict_answer answer;
} LOOPS[] = {
    {"one link", 1, 1, 0, {{0}}, {0, 1}},
    {"no pairs", 48, 8, 0, {{0}}, {0, 1}},
    {"one pair", 2, 1, 1, {{0, 1}}, {0, 1}},
    {"a chain", 4, 2, 3, {{0, 1}, {1, 2}, {2, 3}}, {0, 1}},
    {"a chain from its end", 4, 2, 3, {{2, 3}, {1, 2}, {0, 1}}, {0, 1}},
    {"its ends joined", 4, 2, 4, {{2, 3}, {1, 2}, {0, 1}, {0, 3}}, {0, 0}},
    {"a pair that is not asked", 4, 2, 3, {{2, 3}, {1, 2}, {0, 1}, {0, 3}}, {0, 1}},
    {"a star", 5, 1, 4, {{0, 2}, {1, 2}, {2, 3}, {2, 4}}, {0, 1}},
    {"two components", 4, 1, 2, {{0, 1}, {2, 3}}, {0, 1}},
    {"joined by one pair", 4, 1, 3, {{0, 1}, {2, 3}, {0, 2}}, {0, 1}},
    {"joined by two pairs", 4, 1, 4, {{0, 1}, {2, 3}, {0, 2}, {1, 3}}, {0, 0}},
    {"a loop of three", 3, 2, 3, {{0, 1}, {0, 2}, {1, 2}}, {0, 0}},
    {"a loop beside a chain", 5, 2, 4, {{0, 1}, {2, 3}, {3, 4}, {2, 4}}, {0, 0}},
    {"a loop of four", 4, 8, 4, {{0, 3}, {0, 1}, {1, 2}, {2, 3}}, {0, 0}},
    {"3 before 5", 0, 1, 1, {{0, 1}}, {3, 0}},
    {"5 before 6", 2, 1, 2, {{1, 0}, {0, 2}}, {5, 0}},
    {"5, the lower end", 2, 1, 1, {{2, 1}}, {5, 0}},
    {"6 before 7", 2, 1, 3, {{0, 1}, {0, 1}, {1, 1}}, {6, 0}},
    {"7 before a loop", 3, 1, 4, {{0, 1}, {0, 2}, {1, 2}, {0, 1}}, {7, 0}},
    {"7, a pair twice", 2, 1, 2, {{0, 1}, {0, 1}}, {7, 0}},
};

static void looped(const char *name, const uint8_t bytes[CEILING_CASE], struct ceiling_verdict_answer answer) {
    struct ceiling_verdict_answer a = ceiling_is_acyclic(bytes);
    test("ceiling_is_acyclic", name, !memcmp(&a, &answer, sizeof a));
}

static void loops(void) {
    uint8_t bytes[CEILING_CASE];
    for (size_t i = 0; i < sizeof LOOPS / sizeof *LOOPS; i++) {
        struct sample s = {LOOPS[i].n, LOOPS[i].d, LOOPS[i].m, {0}, {0}, {0}, 0, 0, 0};
        case_of(&s, bytes);
        for (size_t e = 0; e < 5; e++) bytes[24 + e] = LOOPS[i].pairs[e][0], bytes[120 + e] = LOOPS[i].pairs[e][1];
        for (size_t k = 0; k < CARRY_COUNT; k++) { /* a carry moves nothing */
            put_number(bytes + CARRY_AT, (uint64_t)CARRIES[k]);
            looped(LOOPS[i].name, bytes, LOOPS[i].answer);
        }
    }
    /* P1's pairs are a loop. No table is asked for: numbers 4 and 8 are not answered. */
    const struct ceiling_verdict_answer yes = {0, 1}, no = {0, 0};
    for (size_t i = 0; i < FAULT_COUNT; i++) {
        struct ceiling_verdict_answer refused = {FAULTS[i].alone, 0};
        struct sample s = faulty(&FAULTS[i], WORKING);
        case_of(&s, bytes);
        looped(FAULTS[i].name, bytes, FAULTS[i].alone ? refused : no);
    }
    /* The most links in a chain, and a pair that joins its ends. */
    struct sample most = {CEILING_LINKS, CEILING_CHANNELS, CEILING_LINKS - 1, {0}, {0}, {0}, 0, 0, 0};
    case_of(&most, bytes);
    for (int e = 0; e < CEILING_LINKS - 1; e++) bytes[24 + e] = (uint8_t)e, bytes[120 + e] = (uint8_t)(e + 1);
    bytes[24 + CEILING_LINKS - 1] = 0, bytes[120 + CEILING_LINKS - 1] = CEILING_LINKS - 1;
    looped("the longest chain", bytes, yes);
    bytes[16] = CEILING_LINKS;
    looped("the longest loop", bytes, no);
}

/* ---- the replay */

/* What the record must say; the marks of raised scopes are compared as 0 and not 0. */
struct record {
    uint64_t rounds;
    int64_t ceiling;
    uint64_t link, amount, left, last;
    uint8_t moved, due, raised, standing, marks[3];
};

static int says(const uint8_t record[CEILING_RECORD], const struct record *r) {
    uint8_t wanted[CEILING_RECORD] = {0}, marked[CEILING_RECORD];
    const uint64_t numbers[6] = {r->rounds, (uint64_t)r->ceiling, r->link, r->amount, r->left, r->last};
    for (int i = 0; i < 6; i++) put_number(wanted + 8 * i, numbers[i]);
    wanted[48] = r->moved, wanted[49] = r->due, wanted[50] = r->raised, wanted[51] = r->standing;
    memcpy(wanted + 52, r->marks, sizeof r->marks);
    memcpy(marked, record, CEILING_RECORD);
    for (int i = 52; i < CEILING_RECORD; i++) marked[i] = marked[i] != 0;
    return !memcmp(marked, wanted, CEILING_RECORD);
}

static const struct record FRESH = {0, 4, 0, 0, 0, 0, 0, 0, 0, 0, {0}};

static void starts(void) {
    uint8_t bytes[CEILING_CASE], record[CEILING_RECORD], line[CEILING_LINE];
    memset(record, 0xa5, sizeof record);
    case_of(&P4, bytes);
    uint64_t number = ceiling_replay_start(bytes, P4.table, P4.length, record);
    test("ceiling_replay_start", "P4", number == 0 && says(record, &FRESH));
    for (size_t k = 0; k < CARRY_COUNT; k++) {
        struct record carried = FRESH;
        carried.ceiling += CARRIES[k];
        put_number(bytes + CARRY_AT, (uint64_t)CARRIES[k]);
        memset(record, 0xa5, sizeof record);
        number = ceiling_replay_start(bytes, P4.table, P4.length, record);
        test("ceiling_replay_start", "a carry", number == 0 && says(record, &carried));
    }
    put_line(line, 0, 4, 0, 0, 0, 0);
    for (size_t i = 0; i < FAULT_COUNT; i++) {
        struct sample s = faulty(&FAULTS[i], STARTING), before = s;
        case_of(&s, bytes);
        memset(record, 0xa5, sizeof record);
        number = ceiling_replay_start(bytes, s.table, s.length, record);
        test("ceiling_replay_start", FAULTS[i].name, number == FAULTS[i].number && record[51] == number);
        struct ceiling_lines_answer a = ceiling_replay_lines(bytes, s.table, s.length, record, line, CEILING_LINE);
        struct ceiling_rounds_answer e = ceiling_replay_end(bytes, record, 0);
        int same = !memcmp(s.table, before.table, sizeof s.table);
        test("ceiling_replay_lines", "the number that stands", a.number == number && a.lines == 0 && e.number == number && same);
    }
}

/* Lines handed to a sample's replay one block after another: the answer to the last block, the record and the table after it. */
struct step {
    const char *name;
    int lines[5][5];
    size_t count;
    uint64_t number;
    size_t passed;
    struct record after;
    int64_t table[8];
    uint64_t end; /* the number at the end; with none and nothing due any more the log is void */
};

#define START {2, 0, 2, 0, -3, 0, 0, 0}
#define PRESSED {0, 0, 2, 2, -1, 0, 0, 0}
#define SHIFTED {0, 0, 0, 0, 1, 2, 2, 0}
#define SHIFT_0 {1, 0, 0, 0, -2}
#define SHIFT_1 {1, 0, 1, 0, -2}
#define PRESS {2, 0, 2, 0, 2}
#define FIRST {3, 1, 0, 0, 0}
#define LAST {3, 2, 0, 0, 0}
#define BOUND {4, 0, 0, 0, 2}

static const struct step STEPS[] = {
    {"a press", {PRESS}, 1, 0, 1, {0, 4, 0, 2, 2, 0, 0, 1, 0, 0, {0}}, START, 14},
    {"a raise", {PRESS, FIRST}, 2, 0, 2, {0, 4, 0, 2, 1, 1, 0, 1, 1, 0, {0, 1}}, START, 14},
    {"the last raise", {PRESS, FIRST, LAST}, 3, 0, 3, {0, 4, 0, 0, 0, 0, 1, 0, 0, 0, {0}}, PRESSED, 14},
    {"a round", {PRESS, FIRST, LAST, BOUND}, 4, 0, 4, {1, 2, 0, 0, 0, 0, 0, 0, 0, 0, {0}}, PRESSED, 0},
    {"a pair round", {SHIFT_0, SHIFT_1, BOUND}, 3, 0, 3, {1, 2, 0, 0, 0, 0, 0, 0, 0, 0, {0}}, SHIFTED, 0},
    {"a shift", {{1, 0, 1, 0, 5}}, 1, 0, 1, {0, 4, 0, 0, 0, 0, 1, 0, 0, 0, {0}}, {2, 0, 7, 0, -8, 0, -5, 0}, 14},
    {"kind not due", {{3, 1, 0, 0, 0}}, 1, 2, 0, {0, 4, 0, 0, 0, 0, 0, 0, 0, 2, {0}}, START, 2},
    {"unused column", {PRESS, {3, 1, 0, 0, 1}}, 2, 2, 1, {0, 4, 0, 2, 2, 0, 0, 1, 0, 2, {0}}, START, 2},
    {"no such end", {{1, 0, 2, 0, 5}}, 1, 5, 0, {0, 4, 0, 0, 0, 0, 0, 0, 0, 5, {0}}, START, 5},
    {"no such scope", {PRESS, FIRST, {3, 3, 0, 0, 0}}, 3, 5, 2, {0, 4, 0, 2, 1, 1, 0, 1, 1, 5, {0, 1}}, START, 5},
    {"a scope again", {PRESS, FIRST, FIRST}, 3, 9, 2, {0, 4, 0, 2, 1, 1, 0, 1, 1, 9, {0, 1}}, START, 9},
    {"its own scope", {PRESS, {3, 0, 0, 0, 0}}, 2, 9, 1, {0, 4, 0, 2, 2, 0, 0, 1, 0, 9, {0}}, START, 9},
    {"not refuted", {{2, 0, 1, 0, 2}, FIRST}, 2, 10, 1, {0, 4, 0, 2, 1, 0, 0, 1, 0, 10, {0}}, START, 10},
    {"a shift out of range", {{1, 0, 0, 0, 5}, {1, 0, 0, 0, 500000000}}, 2, 11, 1, {0, 4, 0, 0, 0, 0, 1, 0, 0, 11, {0}},
     {7, 0, 2, 0, -8, -5, 0, 0}, 11},
    {"a press out of range", {{2, 0, 2, 0, 500000001}, FIRST, LAST}, 3, 11, 2, {0, 4, 0, 500000001, 1, 1, 0, 1, 1, 11, {0, 1}}, START, 11},
    {"another ceiling", {PRESS, FIRST, LAST, {4, 0, 0, 0, 3}}, 4, 12, 3, {0, 4, 0, 0, 0, 0, 1, 0, 0, 12, {0}}, PRESSED, 12},
    {"not lower", {{4, 0, 0, 0, 4}}, 1, 13, 0, {0, 4, 0, 0, 0, 0, 0, 0, 0, 13, {0}}, START, 13},
    {"the first refusal stands", {{4, 0, 0, 0, 5}, PRESS, FIRST, LAST, BOUND}, 5, 12, 0, {0, 4, 0, 0, 0, 0, 0, 0, 0, 12, {0}}, START, 12},
};

/* Void lines: on a case without a lawful plan, and on one with. Byte 49 is 2 inside a void line and 3 after it. */
#define AS_NO_PLAN {0, BAR, 0, BAR, BAR, 0, 0, 0}
#define AS_A_PLAN {0, BAR, 0, -5, BAR, 0, 0, 0}
#define VOID {5, 0, 2, 0, 0}
#define IS_VOID {0, 0, 0, 0, 0, 0, 0, 3, 0, 0, {0}}

static const struct step NO_PLAN_STEPS[] = {
    {"a void line", {VOID}, 1, 0, 1, {0, 0, 0, 0, 2, 0, 0, 2, 0, 0, {0}}, AS_NO_PLAN, 14},
    {"a raise of a void line", {VOID, FIRST}, 2, 0, 2, {0, 0, 0, 0, 1, 1, 0, 2, 1, 0, {0, 1}}, AS_NO_PLAN, 14},
    {"a whole void line", {VOID, FIRST, LAST}, 3, 0, 3, IS_VOID, AS_NO_PLAN, 0},
    {"a void line after shifts", {{1, 0, 0, 0, 5}, {1, 0, 0, 1, 5}, VOID, FIRST, LAST}, 5, 0, 5, {0, 0, 0, 0, 0, 0, 1, 3, 0, 0, {0}},
     {5, BAR, 0, BAR, BAR, -5, -5, -5}, 0},
    {"a bound after a void line", {VOID, FIRST, LAST, {4, 0, 0, 0, 0}}, 4, 2, 3, {0, 0, 0, 0, 0, 0, 0, 3, 0, 2, {0}}, AS_NO_PLAN, 2},
    {"a raise after a void line", {VOID, FIRST, LAST, LAST}, 4, 2, 3, {0, 0, 0, 0, 0, 0, 0, 3, 0, 2, {0}}, AS_NO_PLAN, 2},
    {"a bound in a void line", {VOID, {4, 0, 0, 0, 0}}, 2, 2, 1, {0, 0, 0, 0, 2, 0, 0, 2, 0, 2, {0}}, AS_NO_PLAN, 2},
    {"a void line with an amount", {{5, 0, 2, 0, 1}}, 1, 2, 0, {0, 0, 0, 0, 0, 0, 0, 0, 0, 2, {0}}, AS_NO_PLAN, 2},
    {"a void line of no raise lines", {{5, 0, 0, 0, 0}}, 1, 5, 0, {0, 0, 0, 0, 0, 0, 0, 0, 0, 5, {0}}, AS_NO_PLAN, 5},
    {"a void line of every scope", {{5, 0, 3, 0, 0}}, 1, 5, 0, {0, 0, 0, 0, 0, 0, 0, 0, 0, 5, {0}}, AS_NO_PLAN, 5},
    {"its own scope", {VOID, {3, 0, 0, 0, 0}}, 2, 9, 1, {0, 0, 0, 0, 2, 0, 0, 2, 0, 9, {0}}, AS_NO_PLAN, 9},
    {"void, not refuted", {{5, 0, 1, 0, 0}, FIRST}, 2, 10, 1, {0, 0, 0, 0, 1, 0, 0, 2, 0, 10, {0}}, AS_NO_PLAN, 10},
    {"a press without a gap", {{2, 0, 2, 0, 7}, FIRST, LAST, {4, 0, 0, 0, -7}}, 4, 0, 4, {1, -7, 0, 0, 0, 0, 0, 0, 0, 0, {0}},
     {-7, BAR, 0, BAR, BAR, 0, 0, 0}, 0},
};

static const struct step A_PLAN_STEPS[] = {
    {"not all barred", {VOID, FIRST, LAST}, 3, 16, 2, {0, 0, 0, 0, 1, 1, 0, 2, 1, 16, {0, 1}}, AS_A_PLAN, 16},
    {"10 before 16", {{5, 0, 1, 0, 0}, FIRST}, 2, 10, 1, {0, 0, 0, 0, 1, 0, 0, 2, 0, 10, {0}}, AS_A_PLAN, 10},
    {"a press beside barred places", {{2, 0, 2, 0, 5}, FIRST, LAST, {4, 0, 0, 0, -5}}, 4, 0, 4, {1, -5, 0, 0, 0, 0, 0, 0, 0, 0, {0}},
     {-5, BAR, 0, 0, BAR, 0, 0, 0}, 0},
    {"a shift of a barred channel", {{1, 0, 0, 1, 4}}, 1, 0, 1, {0, 0, 0, 0, 0, 0, 1, 0, 0, 0, {0}}, {0, BAR, 0, -5, BAR, 0, -4, -4}, 14},
    {"a shift beside a barred pair", {{1, 0, 0, 0, 4}}, 1, 0, 1, {0, 0, 0, 0, 0, 0, 1, 0, 0, 0, {0}}, {4, BAR, 0, -5, BAR, -4, 0, 0}, 14},
};

/* A row in one block and line by line, with a carry, which every ceiling has in it. */
static void step(const struct sample *s, const struct step *row, int64_t carry, int by_line) {
    uint8_t bytes[CEILING_CASE], record[CEILING_RECORD], text[TEXT];
    int64_t table[FULL];
    struct ceiling_lines_answer a = {0, 0};
    struct record after = row->after;
    size_t taken = 0, length = 0;
    after.ceiling += carry;
    case_of(s, bytes);
    put_number(bytes + CARRY_AT, (uint64_t)carry);
    memcpy(table, s->table, sizeof table);
    if (ceiling_replay_start(bytes, table, FULL, record)) return test("ceiling_replay_start", row->name, 0);
    for (size_t i = 0; i < row->count; i++) length = put_carried(text, length, row->lines[i], carry);
    text[length] = ' '; /* a part line, which is not looked at */
    size_t block = by_line ? CEILING_LINE : length + 1;
    for (size_t at = 0; at < length; at += block) {
        a = ceiling_replay_lines(bytes, table, FULL, record, text + at, block);
        taken += a.lines;
    }
    int same = says(record, &after) && holds(table, row->table);
    test("ceiling_replay_lines", row->name, a.number == row->number && taken == row->passed && same);
    struct ceiling_rounds_answer e = ceiling_replay_end(bytes, record, 0), part = ceiling_replay_end(bytes, record, 1);
    uint64_t is_void = !row->end && row->after.due == 3, rounds = row->end || is_void ? 0 : row->after.rounds;
    test("ceiling_replay_end", row->name, e.number == row->end && e.rounds == rounds && e.is_void == is_void);
    test("ceiling_replay_end", "a part line left", part.number == (row->end ? row->end : 14) && part.rounds == 0 && part.is_void == 0);
}

static void steps(const struct sample *s, const struct step *rows, size_t count) {
    for (size_t i = 0; i < count * CARRY_COUNT; i++)
        for (int by_line = 0; by_line < 2; by_line++) step(s, &rows[i / CARRY_COUNT], CARRIES[i % CARRY_COUNT], by_line);
}

/* A bound line that leaves the carry out is number 12; one that is not lower, with the carry in both, is 13. */
static void carried_bounds(void) {
    static const struct {
        const char *name;
        int64_t carry;
        long long bound; /* after the press; with none at once */
        int press;
        uint64_t number;
    } rows[] = {
        {"the carry left out", 5, 2, 1, 12},         {"the carry left out, below", -5, 2, 1, 12},
        {"the carry twice", 5, 12, 1, 12},           {"the carry with another sign", 5, -3, 1, 12},
        {"the carry in it", 5, 7, 1, 0},             {"the carry in it, below", -5, -3, 1, 0},
        {"not lower, with the carry", 5, 9, 0, 13},  {"not lower, with the carry, below", -5, -1, 0, 13},
        {"the ceiling without the carry", 5, 4, 0, 12}, {"the ceiling without the carry, below", -5, 4, 0, 12},
    };
    uint8_t record[CEILING_RECORD], bytes[CEILING_CASE], text[TEXT];
    int64_t table[FULL];
    for (size_t i = 0; i < sizeof rows / sizeof *rows; i++) {
        struct sample s = carrying(&P4, rows[i].carry);
        size_t length = rows[i].press ? put_round(text, 0, 1, 2, 2, rows[i].bound) : put_line(text, 0, 4, 0, 0, 0, rows[i].bound);
        case_of(&s, bytes);
        memcpy(table, s.table, sizeof table);
        uint64_t number = ceiling_replay_start(bytes, table, FULL, record);
        struct ceiling_lines_answer a = ceiling_replay_lines(bytes, table, FULL, record, text, length);
        struct ceiling_rounds_answer e = ceiling_replay_end(bytes, record, 0);
        size_t passed = length / CEILING_LINE - (rows[i].number != 0);
        test("ceiling_replay_lines", rows[i].name, number == 0 && a.number == rows[i].number && a.lines == passed);
        test("ceiling_replay_end", rows[i].name, e.number == rows[i].number && e.rounds == (rows[i].number ? 0 : 1));
    }
}

/* A block without a whole line: the number that stands, else 3 to 8 and 15, else 0. */
static void no_whole_line(void) {
    uint8_t bytes[CEILING_CASE], record[CEILING_RECORD], text[CEILING_LINE] = {0};
    for (size_t length = 0; length < CEILING_LINE; length += CEILING_LINE - 1) {
        for (int standing = 0; standing < 17; standing++) {
            struct record wanted = FRESH;
            int64_t table[FULL];
            wanted.standing = (uint8_t)standing;
            case_of(&P4, bytes);
            memcpy(table, P4.table, sizeof table);
            ceiling_replay_start(bytes, table, FULL, record);
            record[51] = (uint8_t)standing;
            struct ceiling_lines_answer a = ceiling_replay_lines(bytes, table, FULL, record, text, length);
            int same = says(record, &wanted) && !memcmp(table, P4.table, sizeof table);
            test("ceiling_replay_lines", "no whole line", a.number == (uint64_t)standing && a.lines == 0 && same);
        }
        for (size_t i = 0; i < FAULT_COUNT; i++) {
            struct sample s = faulty(&FAULTS[i], WORKING), before = s;
            case_of(&s, bytes);
            memset(record, 0, sizeof record);
            struct ceiling_lines_answer a = ceiling_replay_lines(bytes, s.table, s.length, record, text, length);
            int same = !memcmp(s.table, before.table, sizeof s.table);
            test("ceiling_replay_lines", "no whole line, handed over", a.number == FAULTS[i].number && a.lines == 0 && same);
        }
    }
}

/* A good record on a case or a table with a fault: lines that are in columns and due ask 3 to 8 and 15. */
static void handed_over(void) {
    uint8_t bytes[CEILING_CASE], record[CEILING_RECORD], line[CEILING_LINE];
    const struct record fresh = {0, 0, 0, 0, 0, 0, 0, 0, 0, 0, {0}};
    for (size_t i = 0; i < FAULT_COUNT; i++) {
        for (int fault = 0; fault < 3; fault++) {
            struct sample s = faulty(&FAULTS[i], WORKING), before = s;
            struct record after = fresh;
            case_of(&s, bytes);
            memset(record, 0, sizeof record);
            put_line(line, 0, fault == 1 ? 3 : 1, 0, 0, 0, 1);
            if (fault == 2) line[0] = 'x';
            struct ceiling_lines_answer a = ceiling_replay_lines(bytes, s.table, s.length, record, line, CEILING_LINE);
            after.standing = (uint8_t)(fault == 0 ? FAULTS[i].number : fault == 1 ? 2 : 1);
            int same = says(record, &after) && !memcmp(s.table, before.table, sizeof s.table);
            test("ceiling_replay_lines", FAULTS[i].name, a.number == after.standing && a.lines == 0 && same);
        }
        /* the end is lent no table: where the case is taken, 14 of the byte that is left */
        memset(record, 0, sizeof record);
        struct ceiling_rounds_answer e = ceiling_replay_end(bytes, record, 1), whole = ceiling_replay_end(bytes, record, 0);
        test("ceiling_replay_end", FAULTS[i].name, e.number == (FAULTS[i].alone ? FAULTS[i].alone : 14) && e.rounds == 0);
        test("ceiling_replay_end", FAULTS[i].name, whole.number == FAULTS[i].alone && whole.rounds == 0 && whole.is_void == 0);
    }
}

/* Records that say nothing, or a number out of its range, or a number that stands. */
static void records(void) {
    static const struct {
        const char *name;
        int byte;
        uint64_t value; /* eight bytes below 48, one byte from there on */
        uint64_t number;
        int kept; /* the record's bytes stay: they say no record */
    } rows[] = {
        {"moved is 2", 48, 2, 5, 1},
        {"due is 4", 49, 4, 5, 1},
        {"a press with no lines left", 49, 1, 5, 0},
        {"a void line with no lines left", 49, 2, 5, 0},
        {"raised is 2", 50, 2, 5, 1},
        {"17 stands", 51, 17, 5, 1},
        {"16 stands", 51, 16, 16, 1},
        {"15 stands", 51, 15, 15, 1},
        {"1 stands", 51, 1, 1, 1},
        {"too many rounds", 0, 1000000000000000000, 5, 0},
    };
    uint8_t bytes[CEILING_CASE], record[CEILING_RECORD], before[CEILING_RECORD], line[CEILING_LINE];
    int64_t table[FULL];
    case_of(&P4, bytes);
    for (size_t i = 0; i < sizeof rows / sizeof *rows; i++) {
        int raise = rows[i].byte == 49;
        put_line(line, 0, raise ? 3 : 1, 0, 0, 0, !raise);
        memcpy(table, P4.table, sizeof table);
        ceiling_replay_start(bytes, table, FULL, record);
        if (rows[i].byte < 48) put_number(record + rows[i].byte, rows[i].value);
        else record[rows[i].byte] = (uint8_t)rows[i].value;
        memcpy(before, record, sizeof before);
        struct ceiling_rounds_answer e = ceiling_replay_end(bytes, record, 0);
        struct ceiling_lines_answer a = ceiling_replay_lines(bytes, table, FULL, record, line, CEILING_LINE);
        if (!rows[i].kept) before[51] = (uint8_t)rows[i].number;
        int same = !memcmp(record, before, sizeof before) && !memcmp(table, P4.table, sizeof table);
        test("ceiling_replay_lines", rows[i].name, a.number == rows[i].number && a.lines == 0 && same);
        test("ceiling_replay_end", rows[i].name, e.number == rows[i].number && e.rounds == 0);
    }
}

/* The count of rounds at its end: a bound line that would pass it is number 5. */
static void last_round(void) {
    uint8_t bytes[CEILING_CASE], record[CEILING_RECORD], text[TEXT];
    int64_t table[FULL];
    size_t length = put_round(text, 0, 1, 2, 2, 2);
    for (uint64_t rounds = 999999999999999998; rounds < 1000000000000000000; rounds++) {
        int good = rounds == 999999999999999998;
        case_of(&P4, bytes);
        memcpy(table, P4.table, sizeof table);
        ceiling_replay_start(bytes, table, FULL, record);
        put_number(record, rounds);
        struct ceiling_lines_answer a = ceiling_replay_lines(bytes, table, FULL, record, text, length);
        struct ceiling_rounds_answer e = ceiling_replay_end(bytes, record, 0);
        test("ceiling_replay_lines", "the last rounds", a.number == (good ? 0 : 5) && a.lines == (good ? 4 : 3));
        test("ceiling_replay_end", "the last rounds", e.number == (good ? 0 : 5) && e.rounds == (good ? rounds + 1 : 0));
    }
}

/* The view of a round. */
static void spans(void) {
    uint8_t log[TEXT];
    size_t length = put_round(log, put_round(log, 0, 1, 2, 1, 3), 1, 2, 1, 2);
    log[length] = '4';
    const struct {
        const char *name;
        int bad; /* a line that is not in columns, or none below 0 */
        size_t length;
        uint64_t round;
        struct ceiling_span_answer answer;
    } rows[] = {
        {"round 0", -1, length, 0, {0, 0, 108, 0}},
        {"round 1", -1, length, 1, {0, 108, 216, 0}},
        {"round 2", -1, length, 2, {5, 0, 0, 8}},
        {"the last number", -1, length, UINT64_MAX, {5, 0, 0, 8}},
        {"no log", -1, 0, 0, {5, 0, 0, 0}},
        {"a part line behind it", -1, length + 1, 1, {0, 108, 216, 0}},
        {"a part line before it", -1, length + 1, 2, {14, 0, 0, 8}},
        {"cut in the round", -1, 7 * CEILING_LINE + 26, 1, {14, 0, 0, 7}},
        {"not in columns, behind it", 5, length, 0, {0, 0, 108, 0}},
        {"not in columns, in it", 5, length, 1, {1, 0, 0, 5}},
        {"not in columns, before it", 0, length + 1, 1, {1, 0, 0, 0}},
    };
    for (size_t i = 0; i < sizeof rows / sizeof *rows; i++) {
        uint8_t lent[TEXT], before[TEXT];
        memcpy(lent, log, sizeof lent);
        if (rows[i].bad >= 0) lent[rows[i].bad * CEILING_LINE + 26] = ' ';
        memcpy(before, lent, sizeof before);
        struct ceiling_span_answer a = ceiling_round_span(lent, rows[i].length, rows[i].round);
        test("ceiling_round_span", rows[i].name, !memcmp(&a, &rows[i].answer, sizeof a) && !memcmp(lent, before, sizeof lent));
    }
}

/* ---- the engine */

/* What a round or a run must leave: lines at the output's first bytes, the last round's first, and the table. */
struct engine {
    const char *name;
    const struct sample *sample;
    size_t out;
    uint64_t limit; /* a run's; a round has none */
    struct ceiling_run_answer answer;
    int lines[5][5];
    size_t count;
    int64_t table[OWN];
};

/* No line is written; the tables before, and lines and tables after rounds. */
#define NONE {{0}}, 0
#define AS_P1 {0, 0, 0, 0, 0, 0, -1, 0, 0, -1, -1, 0, 0, -1, -1, 0, 0, -1}
#define AS_P10 {3, 4, 6, 2, -2, -4, 1, 1}
#define AS_TWO {0, 0, 1, 0, -1, 0, -2, 0, -2, -1, 0, 0, 0, -1}
#define AS_LOW {-499999999, -499999999, -499999999, 2, 1, 0, -3, -3, 0, -3, -3, 0, -3, -3, 0}
#define AS_COMES {1, -500000000, 0, 0, -2, -2, 0, -1}
#define AS_BACK {2, -2, -3, 0, 500000000, 0, 0, 0}
#define P1_PRESS {{2, 0, 3, 0, 1}, {3, 3, 0, 0, 0}, {3, 4, 0, 0, 0}, {3, 5, 0, 0, 0}, {4, 0, 0, 0, -1}}, 5, {-1, -1}
#define P5_PAIR {SHIFT_0, SHIFT_1, BOUND}, 3, SHIFTED
#define TWO_PAIR {{1, 0, 1, 0, -1}, {4, 0, 0, 0, 0}}, 2, {0, 0, 0, 0, -1, 0, -1, 0, -1, -1, 0, 0, 0, -1}
#define TWO_PRESS {{2, 0, 3, 0, 1}, {3, 2, 0, 0, 0}, {3, 3, 0, 0, 0}, {3, 4, 0, 0, 0}, {4, 0, 0, 0, -1}}, 5, {-1, -1}
#define LOW_PRESS {{2, 0, 2, 0, 1}, FIRST, LAST, {4, 0, 0, 0, -499999998}}, 4, \
    {-500000000, -500000000, -500000000, 2, 2, 1, -2, -2, 0, -2, -2, 0, -2, -2, 0}
#define COMES_PRESS {{2, 0, 1, 0, 1}, LAST, {4, 0, 0, 0, 0}}, 3, {0, -500000000, 0, 0, -1, -1, 0, 0}
/* the pair round's two lines, and the last line of the press before it */
#define COMES_PAIR {{1, 0, 0, 1, 500000000}, {4, 0, 0, 0, -1}, {4, 0, 0, 0, 0}}, 3, {0, 0, 0, 0, -1, -1, -500000000, -500000000}
#define BACK_PRESS {{2, 0, 2, 0, 3}, FIRST, LAST, {4, 0, 0, 0, 499999999}}, 4, {-1, -2, 0, 0, 500000000, 3, 3, 3}
#define AS_SINGLE {2, BAR, 1, 0, BAR, 0, 0, 3}
#define AS_LATE {0, BAR, 4, BAR, BAR, -1, 0, -2}
#define AS_EDGE {-499999999, BAR, 0, -5, BAR, 0, 0, 0}
#define NO_PLAN_VOID {VOID, FIRST, LAST}, 3, AS_NO_PLAN
#define LATE_PRESS {{2, 0, 1, 0, 1}, LAST, {4, 0, 0, 0, 3}}, 3, {-1, BAR, 4, BAR, BAR, 0, 0, -1}
/* the void line's three lines, and the last line of the press before it */
#define LATE_VOID {VOID, FIRST, LAST, {4, 0, 0, 0, 2}}, 4, {-2, BAR, 4, BAR, BAR, 0, 0, 0}
#define SINGLE_PAIR {{1, 0, 0, 0, -2}, {1, 0, 1, 0, -1}, {4, 0, 0, 0, 3}}, 3, {0, BAR, 0, 0, BAR, 2, 1, 3}
#define SINGLE_PRESS {{2, 0, 1, 0, 1}, LAST, {4, 0, 0, 0, 2}}, 3, {-1, BAR, 0, 0, BAR, 3, 2, 3}
#define A_PLAN_PRESS {{2, 0, 2, 0, 5}, FIRST, LAST, {4, 0, 0, 0, -5}}, 4, {-5, BAR, 0, 0, BAR, 0, 0, 0}
#define HIGHER_PAIR {{1, 1, 0, 0, 1}, {4, 0, 0, 0, 1}}, 2, {0, 0, 0, 0, 0, 0, 1, 0, -500000000, 0, -1, 0, 0, 0}

static const struct engine RUNS[] = {
    {"P1, limit 0", &P1, 297, 0, {0, 1, 0, 0, 0}, NONE, AS_P1},
    {"P1, limit 1", &P1, 297, 1, {0, 0, 1, -1, 0}, P1_PRESS},
    {"P1, no limit", &P1, OUT, UINT64_MAX, {0, 0, 1, -1, 0}, P1_PRESS},
    {"P1, a short output", &P1, 296, 1, {4, 0, 0, 0, 0}, NONE, AS_P1},
    {"P1, a short output and limit 0", &P1, 296, 0, {4, 0, 0, 0, 0}, NONE, AS_P1},
    {"P5", &P4, 216, 9, {0, 0, 1, 2, 0}, P5_PAIR},
    {"P5, limit 0", &P4, 216, 0, {0, 1, 0, 4, 0}, NONE, START},
    {"P5, limit 1", &P4, 216, 1, {0, 0, 1, 2, 0}, P5_PAIR},
    {"P5, a short output", &P4, 215, 9, {4, 0, 0, 0, 0}, NONE, START},
    {"P10", &P10, 216, 9, {0, 0, 0, 11, 0}, NONE, AS_P10},
    {"P10, limit 0", &P10, 216, 0, {0, 0, 0, 11, 0}, NONE, AS_P10},
    {"P10, a short output", &P10, 215, 9, {4, 0, 0, 0, 0}, NONE, AS_P10},
    {"P10, a short output and limit 0", &P10, 215, 0, {4, 0, 0, 0, 0}, NONE, AS_P10},
    {"P12", &P11, 108, 9, {0, 0, 0, -7, 0}, NONE, {-7}},
    {"P12, limit 0", &P11, 108, 0, {0, 0, 0, -7, 0}, NONE, {-7}},
    {"P12, a short output", &P11, 107, 9, {4, 0, 0, 0, 0}, NONE, {-7}},
    {"a pair, limit 1", &TWO, 270, 1, {0, 1, 1, 0, 0}, TWO_PAIR},
    {"a pair, then a press", &TWO, 270, 2, {0, 0, 2, -1, 0}, TWO_PRESS},
    {"out of range, limit 0", &LOW, 270, 0, {0, 1, 0, -499999997, 0}, NONE, AS_LOW},
    {"out of range, limit 1", &LOW, 270, 1, {0, 1, 1, -499999998, 0}, LOW_PRESS},
    {"out of range", &LOW, 270, 2, {11, 0, 1, -499999998, 0}, LOW_PRESS},
    {"out of range, a short output", &LOW, 269, 2, {4, 0, 0, 0, 0}, NONE, AS_LOW},
    {"passed over, a press, limit 1", &COMES, 216, 1, {0, 1, 1, 0, 0}, COMES_PRESS},
    {"passed over, a press, then the pair", &COMES, 216, 9, {0, 0, 2, -1, 0}, COMES_PAIR},
    {"passed over at end 0", &BACK, 216, 9, {0, 0, 1, 499999999, 0}, BACK_PRESS},
    {"passed over, a higher pair", &HIGHER, 270, 9, {0, 0, 1, 1, 0}, HIGHER_PAIR},
    {"void, limit 0", &NO_PLAN, 216, 0, {0, 0, 0, 0, 1}, NO_PLAN_VOID},
    {"void, limit 1", &NO_PLAN, 216, 1, {0, 0, 0, 0, 1}, NO_PLAN_VOID},
    {"void, no limit", &NO_PLAN, OUT, UINT64_MAX, {0, 0, 0, 0, 1}, NO_PLAN_VOID},
    {"void, a short output", &NO_PLAN, 215, 1, {4, 0, 0, 0, 0}, NONE, AS_NO_PLAN},
    {"void, a short output and limit 0", &NO_PLAN, 215, 0, {4, 0, 0, 0, 0}, NONE, AS_NO_PLAN},
    {"two presses before void, limit 0", &LATE, 216, 0, {0, 1, 0, 4, 0}, NONE, AS_LATE},
    {"two presses before void, limit 1", &LATE, 216, 1, {0, 1, 1, 3, 0}, LATE_PRESS},
    {"two presses, void at the limit", &LATE, 216, 2, {0, 0, 2, 2, 1}, LATE_VOID},
    {"two presses, then void", &LATE, 216, 9, {0, 0, 2, 2, 1}, LATE_VOID},
    {"barred values left out, limit 0", &SINGLE, 216, 0, {0, 1, 0, 6, 0}, NONE, AS_SINGLE},
    {"barred values left out, limit 1", &SINGLE, 216, 1, {0, 1, 1, 3, 0}, SINGLE_PAIR},
    {"barred values left out", &SINGLE, 216, 9, {0, 0, 2, 2, 0}, SINGLE_PRESS},
    {"not lower, so a press", &A_PLAN, 216, 9, {0, 0, 1, -5, 0}, A_PLAN_PRESS},
    {"out of range beside barred, limit 0", &EDGE, 216, 0, {0, 1, 0, -499999999, 0}, NONE, AS_EDGE},
    {"out of range beside barred", &EDGE, 216, 9, {11, 0, 0, -499999999, 0}, NONE, AS_EDGE},
};

static const struct engine PAIR_RUNS[] = {
    {"P1, a press is left", &P1, 297, 9, {0, 0, 0, 0, 0}, NONE, AS_P1},
    {"P1, limit 0", &P1, 297, 0, {0, 0, 0, 0, 0}, NONE, AS_P1},
    {"P1, a short output", &P1, 296, 9, {4, 0, 0, 0, 0}, NONE, AS_P1},
    {"P5", &P4, 216, 9, {0, 0, 1, 2, 0}, P5_PAIR},
    {"P5, no limit", &P4, OUT, UINT64_MAX, {0, 0, 1, 2, 0}, P5_PAIR},
    {"P5, limit 0", &P4, 216, 0, {0, 1, 0, 4, 0}, NONE, START},
    {"P5, limit 1", &P4, 216, 1, {0, 0, 1, 2, 0}, P5_PAIR},
    {"P5, a short output", &P4, 215, 9, {4, 0, 0, 0, 0}, NONE, START},
    {"P5, a short output and limit 0", &P4, 215, 0, {4, 0, 0, 0, 0}, NONE, START},
    {"P10", &P10, 216, 9, {0, 0, 0, 11, 0}, NONE, AS_P10},
    {"P12", &P11, 108, 9, {0, 0, 0, -7, 0}, NONE, {-7}},
    {"P12, a short output", &P11, 107, 9, {4, 0, 0, 0, 0}, NONE, {-7}},
    {"a pair, limit 0", &TWO, 270, 0, {0, 1, 0, 1, 0}, NONE, AS_TWO},
    {"a pair, and a press is left", &TWO, 270, 9, {0, 0, 1, 0, 0}, TWO_PAIR},
    {"passed over, before 11", &LOW, 270, 9, {0, 0, 0, -499999997, 0}, NONE, AS_LOW},
    {"passed over, and a press is left", &COMES, 216, 9, {0, 0, 0, 1, 0}, NONE, AS_COMES},
    {"passed over, limit 0", &COMES, 216, 0, {0, 0, 0, 1, 0}, NONE, AS_COMES},
    {"passed over at end 0", &BACK, 216, 9, {0, 0, 0, 500000002, 0}, NONE, AS_BACK},
    {"passed over, a higher pair", &HIGHER, 270, 9, {0, 0, 1, 1, 0}, HIGHER_PAIR},
    {"no choice, a void line is left", &NO_PLAN, 216, 9, {0, 0, 0, 0, 0}, NONE, AS_NO_PLAN},
    {"no choice, limit 0", &NO_PLAN, 216, 0, {0, 0, 0, 0, 0}, NONE, AS_NO_PLAN},
    {"no choice, a press is left", &LATE, 216, 9, {0, 0, 0, 4, 0}, NONE, AS_LATE},
    {"barred values left out", &SINGLE, 216, 9, {0, 0, 1, 3, 0}, SINGLE_PAIR},
    {"not lower", &A_PLAN, 216, 9, {0, 0, 0, 0, 0}, NONE, AS_A_PLAN},
    {"passed over beside barred", &EDGE, 216, 9, {0, 0, 0, -499999999, 0}, NONE, AS_EDGE},
};

/* The output must hold the lines and then what it held; so must everything behind what was lent. The table holds 0 past the case's own places. */
static int left(const struct engine *row, int64_t carry, const uint8_t *out, const int64_t *table) {
    uint8_t wanted[OUT];
    int64_t after[PLACES];
    memset(wanted, 0xa5, sizeof wanted);
    for (size_t i = 0, at = 0; i < row->count; i++) at = put_carried(wanted, at, row->lines[i], carry);
    for (size_t i = 0; i < PLACES; i++) after[i] = i < OWN ? row->table[i] : i < row->sample->length ? 0 : 77;
    return !memcmp(out, wanted, OUT) && !memcmp(table, after, sizeof after);
}

/* What a run answers with a carry: a refusal by 4 says no bound. */
static struct ceiling_run_answer with_carry(struct ceiling_run_answer answer, int64_t carry) {
    if (answer.number == 0 || answer.number == 11) answer.bound += carry;
    return answer;
}

static void lend(const struct sample *s, uint8_t bytes[CEILING_CASE], int64_t table[PLACES], uint8_t out[OUT]) {
    case_of(s, bytes);
    memset(out, 0xa5, OUT);
    for (size_t i = 0; i < PLACES; i++) table[i] = i < s->length ? s->table[i] : 77;
}

static void runs(void) {
    uint8_t bytes[CEILING_CASE], out[OUT];
    int64_t table[PLACES];
    for (size_t i = 0; i < sizeof RUNS / sizeof *RUNS * CARRY_COUNT; i++) {
        const struct engine *row = &RUNS[i / CARRY_COUNT];
        int64_t carry = CARRIES[i % CARRY_COUNT];
        struct sample s = carrying(row->sample, carry);
        lend(&s, bytes, table, out);
        struct ceiling_run_answer a = ceiling_run(bytes, table, s.length, out, row->out, row->limit), wanted = with_carry(row->answer, carry);
        test("ceiling_run", row->name, !memcmp(&a, &wanted, sizeof a) && left(row, carry, out, table));
        /* one round alone is the run's first: the rows whose run ended with it, or with a void line at once */
        uint64_t most = !row->answer.number && !row->answer.none_lawful;
        if (row->limit == 0 || row->answer.rounds > most) continue;
        lend(&s, bytes, table, out);
        struct ceiling_round_answer r = ceiling_round(bytes, table, s.length, out, row->out);
        const int *last = row->count ? row->lines[row->count - 1] : NULL;
        int64_t bound = last && last[0] == 4 ? last[4] + carry : 0;
        int good = r.number == row->answer.number && r.bytes == row->count * CEILING_LINE && r.bound == bound;
        test("ceiling_round", row->name, good && r.none_lawful == row->answer.none_lawful && left(row, carry, out, table));
    }
}

/* Every plan's total on the table is its total on the sample's; an unlawful plan has none in both. */
static int same_totals(const struct sample *s, const uint8_t bytes[CEILING_CASE], const int64_t *table) {
    size_t plans = 1;
    for (size_t i = 0; i < s->n; i++) plans *= s->d;
    for (size_t p = 0; p < plans; p++) {
        uint8_t plan[3];
        for (size_t i = 0, rest = p; i < s->n; i++, rest /= s->d) plan[i] = (uint8_t)(rest % s->d);
        struct ceiling_total_answer before = ceiling_objective(bytes, s->table, s->length, plan, s->n);
        struct ceiling_total_answer after = ceiling_objective(bytes, table, s->length, plan, s->n);
        if (before.number != after.number || before.total != after.total) return 0;
    }
    return 1;
}

static void pair_runs(void) {
    uint8_t bytes[CEILING_CASE], out[OUT];
    int64_t table[PLACES];
    for (size_t i = 0; i < sizeof PAIR_RUNS / sizeof *PAIR_RUNS * CARRY_COUNT; i++) {
        const struct engine *row = &PAIR_RUNS[i / CARRY_COUNT];
        int64_t carry = CARRIES[i % CARRY_COUNT];
        struct sample s = carrying(row->sample, carry);
        lend(&s, bytes, table, out);
        struct ceiling_run_answer a = ceiling_run_pairs(bytes, table, s.length, out, row->out, row->limit), wanted = with_carry(row->answer, carry);
        int good = !memcmp(&a, &wanted, sizeof a) && left(row, carry, out, table);
        test("ceiling_run_pairs", row->name, good && same_totals(&s, bytes, table));
    }
}

/* Rounds one after another: settled writes nothing, number 11 changes nothing, a void line leaves the table. */
static void rounds(void) {
    static const struct {
        struct ceiling_round_answer answers[3];
        struct engine after;
    } rows[] = {
        {{{0, 54, 0, 0}, {0, 135, -1, 0}, {0, 0, 0, 0}}, {"a pair, a press, settled", &TWO, 270, 0, {0, 0, 0, 0, 0}, TWO_PRESS}},
        {{{0, 81, 0, 0}, {0, 54, -1, 0}, {0, 0, 0, 0}}, {"a press, a pair, settled", &COMES, 216, 0, {0, 0, 0, 0, 0}, COMES_PAIR}},
        {{{0, 108, -499999998, 0}, {11, 0, 0, 0}, {11, 0, 0, 0}}, {"a press, out of range", &LOW, 270, 0, {0, 0, 0, 0, 0}, LOW_PRESS}},
        {{{0, 81, 0, 1}, {0, 81, 0, 1}, {0, 81, 0, 1}}, {"void again", &NO_PLAN, 216, 0, {0, 0, 0, 0, 0}, NO_PLAN_VOID}},
        {{{0, 81, 3, 0}, {0, 108, 2, 0}, {0, 81, 0, 1}}, {"two presses, void", &LATE, 216, 0, {0, 0, 0, 0, 0}, LATE_VOID}},
    };
    uint8_t bytes[CEILING_CASE], out[OUT];
    int64_t table[PLACES];
    for (size_t i = 0; i < sizeof rows / sizeof *rows * CARRY_COUNT; i++) {
        const struct engine *after = &rows[i / CARRY_COUNT].after;
        int64_t carry = CARRIES[i % CARRY_COUNT];
        struct sample s = carrying(after->sample, carry);
        lend(&s, bytes, table, out);
        for (size_t k = 0; k < 3; k++) {
            struct ceiling_round_answer r = ceiling_round(bytes, table, s.length, out, after->out), wanted = rows[i / CARRY_COUNT].answers[k];
            if (wanted.bytes && !wanted.none_lawful) wanted.bound += carry;
            test("ceiling_round", after->name, !memcmp(&r, &wanted, sizeof r) && (k < 2 || left(after, carry, out, table)));
        }
    }
}

/* The engine's void logs, round by round, in the checker's functions: void at the end, and the record says that nothing is due. */
static void void_logs(void) {
    static const struct sample *const rows[] = {&NO_PLAN, &LATE};
    uint8_t bytes[CEILING_CASE], out[OUT], record[CEILING_RECORD], log[TEXT];
    int64_t table[PLACES], replayed[PLACES];
    for (size_t i = 0; i < sizeof rows / sizeof *rows * CARRY_COUNT; i++) {
        struct sample carried = carrying(rows[i / CARRY_COUNT], CARRIES[i % CARRY_COUNT]), *s = &carried;
        struct ceiling_round_answer r = {0, 0, 0, 0};
        size_t length = 0;
        lend(s, bytes, table, out);
        memcpy(replayed, table, sizeof replayed);
        for (int k = 0; k < 3 && !r.none_lawful; k++) {
            r = ceiling_round(bytes, table, s->length, log + length, sizeof log - length);
            length += r.bytes;
        }
        uint64_t number = ceiling_replay_start(bytes, replayed, s->length, record);
        struct ceiling_lines_answer a = ceiling_replay_lines(bytes, replayed, s->length, record, log, length);
        struct ceiling_rounds_answer e = ceiling_replay_end(bytes, record, 0);
        test("ceiling_round", "a void log", r.none_lawful == 1 && number == 0 && a.number == 0 && a.lines == length / CEILING_LINE);
        test("ceiling_replay_end", "a void log", e.number == 0 && e.is_void == 1 && e.rounds == 0 && record[49] == 3);
        test("ceiling_replay_lines", "a void log", !memcmp(table, replayed, sizeof table));
        a = ceiling_replay_lines(bytes, replayed, s->length, record, log, CEILING_LINE);
        test("ceiling_replay_lines", "a line after a void log", a.number == 2 && a.lines == 0);
    }
    /* what a run with limit 0 wrote: a void line and two raise lines */
    lend(&NO_PLAN, bytes, table, out);
    struct ceiling_run_answer a = ceiling_run(bytes, table, NO_PLAN.length, out, OUT, 0);
    uint64_t number = ceiling_replay_start(bytes, table, NO_PLAN.length, record);
    struct ceiling_lines_answer l = ceiling_replay_lines(bytes, table, NO_PLAN.length, record, out, 3 * CEILING_LINE);
    test("ceiling_run", "a void log", a.none_lawful == 1 && number == 0 && l.number == 0 && l.lines == 3);
    test("ceiling_replay_end", "a run's void log", ceiling_replay_end(bytes, record, 0).is_void == 1 && record[49] == 3);
}

/* The largest case, all of its weights 0: settled with room for the longest round, and number 4 with a byte less. The last link keeps channel 0,
 * with which all others go. */
static void rooms(void) {
    enum { TABLE = CEILING_TABLE(CEILING_CHANNELS) };
    static int64_t table[TABLE];
    uint8_t bytes[CEILING_CASE], out[CEILING_ROOM], family[CEILING_LINKS], partners[CEILING_PARTNERS];
    put_number(bytes, CEILING_LINKS), put_number(bytes + 8, CEILING_CHANNELS), put_number(bytes + 16, CEILING_PAIRS), put_number(bytes + CARRY_AT, 0);
    for (int e = 0; e < CEILING_PAIRS; e++) {
        bytes[24 + e] = (uint8_t)(e % 24);
        bytes[120 + e] = (uint8_t)(24 + (e % 24 + e / 24) % 24);
    }
    for (size_t less = 0; less < 2; less++) {
        size_t room = CEILING_ROOM - less;
        uint64_t number = less ? 4 : 0;
        struct ceiling_round_answer r = ceiling_round(bytes, table, TABLE, out, room);
        test("ceiling_round", "the longest round", r.number == number && r.bytes == 0);
        struct ceiling_run_answer a = ceiling_run(bytes, table, TABLE, out, room, 1), p = ceiling_run_pairs(bytes, table, TABLE, out, room, 1);
        test("ceiling_run", "the longest round", a.number == number && a.limit == 0 && a.rounds == 0);
        test("ceiling_run_pairs", "the longest round", p.number == number && p.limit == 0 && p.rounds == 0);
    }
    const size_t last = CEILING_LINKS - 1;
    int good = ceiling_supported_value(bytes, table, TABLE, last, family, CEILING_LINKS - 1, partners, CEILING_PARTNERS).number == 4
        && ceiling_supported_value(bytes, table, TABLE, last, family, CEILING_LINKS, partners, CEILING_PARTNERS - 1).number == 4;
    test("ceiling_supported_value", "a byte less", good);
    struct ceiling_value_answer v = ceiling_supported_value(bytes, table, TABLE, last, family, CEILING_LINKS, partners, CEILING_PARTNERS);
    good = v.number == 0 && v.value == 0;
    for (size_t i = 0; i < CEILING_LINKS; i++) good = good && family[i] == (i == last ? 1 : 255);
    for (size_t i = 0; i < CEILING_PARTNERS; i++) {
        size_t k = i % CEILING_CHANNELS, end = i / CEILING_CHANNELS % 2, e = i / CEILING_CHANNELS / 2;
        good = good && partners[i] == (k && bytes[24 + 96 * end + e] == last ? OUTSIDE : 0);
    }
    test("ceiling_supported_value", "the largest case", good);
}

static void engine_faults(void) {
    uint8_t bytes[CEILING_CASE], out[OUT], before[OUT];
    int64_t table[PLACES], start[PLACES];
    memset(before, 0xa5, sizeof before);
    for (size_t i = 0; i < FAULT_COUNT; i++) {
        struct sample s = faulty(&FAULTS[i], WORKING);
        lend(&s, bytes, table, out);
        memcpy(start, table, sizeof start);
        struct ceiling_round_answer r = ceiling_round(bytes, table, s.length, out, OUT);
        int same = !memcmp(table, start, sizeof start) && !memcmp(out, before, sizeof out);
        test("ceiling_round", FAULTS[i].name, r.number == FAULTS[i].number && r.bytes == 0 && r.bound == 0 && same);
        struct ceiling_run_answer a = ceiling_run(bytes, table, s.length, out, OUT, 9), wanted = {FAULTS[i].number, 0, 0, 0, 0};
        same = !memcmp(table, start, sizeof start) && !memcmp(out, before, sizeof out);
        test("ceiling_run", FAULTS[i].name, !memcmp(&a, &wanted, sizeof a) && same);
        a = ceiling_run(bytes, table, s.length, out, OUT, 0);
        same = !memcmp(table, start, sizeof start) && !memcmp(out, before, sizeof out);
        test("ceiling_run", "refused at limit 0", !memcmp(&a, &wanted, sizeof a) && same);
        a = ceiling_run_pairs(bytes, table, s.length, out, OUT, 9);
        same = !memcmp(table, start, sizeof start) && !memcmp(out, before, sizeof out);
        test("ceiling_run_pairs", FAULTS[i].name, !memcmp(&a, &wanted, sizeof a) && same);
    }
    static const struct {
        const char *name;
        int64_t table[8];
        uint64_t number;
    } rows[] = {
        {"a link wholly barred", {BAR, BAR, 0, 0, 0, 0, 0, 0}, 15},  {"a pair wholly barred", {0, 0, 0, 0, BAR, BAR, BAR, BAR}, 15},
        {"8 before 15", {500000001, 0, 0, 0, BAR, BAR, BAR, BAR}, 8}, {"above barred", {0, BAR + 1, 0, BAR, 0, 0, 0, 0}, 8},
        {"below barred", {0, BAR - 1, 0, BAR, 0, 0, 0, 0}, 8},
    };
    case_of(&P4, bytes);
    for (size_t i = 0; i < sizeof rows / sizeof *rows; i++) {
        put_table(table, rows[i].table);
        test("ceiling_round", rows[i].name, ceiling_round(bytes, table, FULL, out, OUT).number == rows[i].number);
        test("ceiling_run", rows[i].name, ceiling_run(bytes, table, FULL, out, OUT, 0).number == rows[i].number);
        test("ceiling_run_pairs", rows[i].name, ceiling_run_pairs(bytes, table, FULL, out, OUT, 9).number == rows[i].number);
        test("ceiling_round", "barred and refused", holds(table, rows[i].table) && !memcmp(out, before, sizeof out));
    }
}

/* ---- the version, and null pointers with length 0 */

static void versions(void) {
    test("ceiling_version", "the header's", ceiling_version() == CEILING_VERSION);
    test("ceiling_engine_version", "the header's", ceiling_engine_version() == CEILING_VERSION);
}

/* A case and a log of no bytes, a table and an output of no elements, a plan of none: answered as what is empty. */
static void nulls(void) {
    uint8_t bytes[CEILING_CASE], text[TEXT], record[CEILING_RECORD], plan[2] = {0, 0};
    int64_t table[FULL];
    case_of(&P4, bytes);
    memcpy(table, P4.table, sizeof table);
    size_t length = put_case(&P4, text);
    test("ceiling_case_size", "null", ceiling_case_size(NULL, 0).number == 14);
    test("ceiling_read_case", "null text", ceiling_read_case(NULL, 0, bytes, table, FULL).number == 14);
    test("ceiling_read_case", "null table", ceiling_read_case(text, length, bytes, NULL, 0).number == 4);
    test("ceiling_upper_bound", "null", ceiling_upper_bound(bytes, NULL, 0).number == 4);
    test("ceiling_objective", "null table", ceiling_objective(bytes, NULL, 0, plan, 2).number == 4);
    test("ceiling_objective", "null plan", ceiling_objective(bytes, table, FULL, NULL, 0).number == 4);
    test("ceiling_better_of", "null table", ceiling_better_of(bytes, NULL, 0, plan, 2, plan, 2).number == 4);
    test("ceiling_better_of", "null plans", ceiling_better_of(bytes, table, FULL, NULL, 0, NULL, 0).number == 4);
    test("ceiling_supported_value", "null table", ceiling_supported_value(bytes, NULL, 0, 0, plan, 2, text, 4).number == 4);
    test("ceiling_supported_value", "null family", ceiling_supported_value(bytes, table, FULL, 0, NULL, 0, text, 4).number == 4);
    test("ceiling_supported_value", "null partners", ceiling_supported_value(bytes, table, FULL, 0, plan, 2, NULL, 0).number == 4);
    test("ceiling_replay_start", "null", ceiling_replay_start(bytes, NULL, 0, record) == 4);
    test("ceiling_replay_start", "a table", ceiling_replay_start(bytes, table, FULL, record) == 0);
    test("ceiling_replay_lines", "null lines", ceiling_replay_lines(bytes, table, FULL, record, NULL, 0).number == 0);
    test("ceiling_replay_lines", "null table", ceiling_replay_lines(bytes, NULL, 0, record, NULL, 0).number == 4);
    test("ceiling_round_span", "null", ceiling_round_span(NULL, 0, 0).number == 5);
    test("ceiling_round", "null table", ceiling_round(bytes, NULL, 0, text, sizeof text).number == 4);
    test("ceiling_round", "null output", ceiling_round(bytes, table, FULL, NULL, 0).number == 4);
    test("ceiling_run", "null", ceiling_run(bytes, NULL, 0, NULL, 0, 1).number == 4);
    test("ceiling_run_pairs", "null", ceiling_run_pairs(bytes, NULL, 0, NULL, 0, 1).number == 4);
    case_of(&P11, bytes);
    struct ceiling_value_answer v = ceiling_supported_value(bytes, P11.table, P11.length, 0, plan, 1, NULL, 0);
    test("ceiling_supported_value", "null, no pairs", v.number == 0 && plan[0] == 1);
}

int main(void) {
    versions(), nulls();
    sizes(), readings(), full_readings(), barred_readings();
    ceilings(), totals(), choices(), unlawful(), barred_tables();
    kept_channels();
    loops();
    starts();
    steps(&P4, STEPS, sizeof STEPS / sizeof *STEPS);
    steps(&NO_PLAN, NO_PLAN_STEPS, sizeof NO_PLAN_STEPS / sizeof *NO_PLAN_STEPS);
    steps(&A_PLAN, A_PLAN_STEPS, sizeof A_PLAN_STEPS / sizeof *A_PLAN_STEPS);
    carried_bounds();
    no_whole_line(), handed_over(), records(), last_round();
    spans();
    runs(), pair_runs(), rounds(), void_logs(), rooms(), engine_faults();
    printf("%u passed, %u failed\n", passed, failed);
    return failed > 0;
}
