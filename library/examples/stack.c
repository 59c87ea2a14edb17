/* How much stack each function takes on a case of the largest size: each call runs on a stack of its own that was painted before, and the
 * deepest byte that changed is looked for. Prints the bytes of each call; a call that takes more than CEILING_STACK failed. The count is the
 * last line. */
#include <stdio.h>
#include <string.h>
#include <ucontext.h>

#include "ceiling.h"

enum { LINKS = CEILING_LINKS, CHANNELS = CEILING_CHANNELS, PAIRS = CEILING_PAIRS };
enum { TABLE = CEILING_TABLE(CHANNELS), TEXT = (1 + TABLE + PAIRS) * CEILING_LINE, STACK = 1 << 18, PAINT = 0xa5 };

static uint8_t text[TEXT], bytes[CEILING_CASE], record[CEILING_RECORD], out[CEILING_ROOM], log_lines[2 * CEILING_ROOM], plan[LINKS];
static uint8_t family[LINKS], partners[CEILING_PARTNERS];
static int64_t start[TABLE], table[TABLE], lowered[TABLE];
static size_t logged;
static uint64_t number; /* of the last call */

static _Alignas(64) uint8_t stack[STACK];
static ucontext_t home, there;

/* ---- the case: among links 0, 1 and 2 only channels 0 and 1, if they differ, do not disturb each other. Two of the links always do: a press is
 * made, and only a look at each channel alone shows that. Before it the last two links have a pair round with a shift for each of their channels:
 * both would have channel 0, which they cannot share. */

static size_t put_line(size_t at, int kind, int a, int b, int c, int amount) {
    char line[64];
    snprintf(line, sizeof line, "%2d%4d%4d%4d%12d\n", kind, a, b, c, amount);
    memcpy(text + at, line, CEILING_LINE);
    return at + CEILING_LINE;
}

static int pair_weight(int lower, int higher, int k, int l) {
    if (lower == LINKS - 2) return k == 0 && l == 0 ? -4 : 0;
    return higher > 2 || (k != l && k < 2 && l < 2) ? 0 : -1;
}

static void put_case(void) {
    size_t at = put_line(0, 10, LINKS, CHANNELS, PAIRS, 0);
    for (int i = 0; i < LINKS; i++)
        for (int k = 0; k < CHANNELS; k++) at = put_line(at, 11, i, k, 0, i < LINKS - 2 ? 0 : k ? -1 : 1);
    for (int e = 0, lower = 0, apart = 1; e < PAIRS; e++, lower++) {
        if (lower + apart == LINKS) lower = 0, apart++;
        at = put_line(at, 12, e, lower, lower + apart, 0);
        for (int k = 0; k < CHANNELS; k++)
            for (int l = 0; l < CHANNELS; l++) at = put_line(at, 13, e, k, l, pair_weight(lower, lower + apart, k, l));
    }
}

/* ---- the calls */

static void nothing(void) { number = 0; }
static void version(void) { number = ceiling_version() != CEILING_VERSION; }
static void case_size(void) { number = ceiling_case_size(text, TEXT).number; }
static void read_case(void) { number = ceiling_read_case(text, TEXT, bytes, start, TABLE).number; }
static void upper_bound(void) { number = ceiling_upper_bound(bytes, start, TABLE).number; }
static void objective(void) { number = ceiling_objective(bytes, start, TABLE, plan, LINKS).number; }
static void better_of(void) { number = ceiling_better_of(bytes, start, TABLE, plan, LINKS, plan, LINKS).number; }
static void is_acyclic(void) { number = ceiling_is_acyclic(bytes).number; }
static void replay_start(void) { number = ceiling_replay_start(bytes, start, TABLE, record); }
static void replay_lines(void) { number = ceiling_replay_lines(bytes, table, TABLE, record, log_lines, logged).number; }
static void replay_end(void) { number = ceiling_replay_end(bytes, record, 0).number; }
static void round_span(void) { number = ceiling_round_span(log_lines, logged, 0).number; }
static void engine_version(void) { number = ceiling_engine_version() != CEILING_VERSION; }

/* A run of both rounds, and of the pair round alone. */
static void run(void) {
    struct ceiling_run_answer r = ceiling_run(bytes, table, TABLE, out, CEILING_ROOM, 2);
    number = r.rounds == 2 ? r.number : 1;
}

static void run_pairs(void) {
    struct ceiling_run_answer r = ceiling_run_pairs(bytes, table, TABLE, out, CEILING_ROOM, 2);
    number = r.rounds == 1 ? r.number : 1;
}

/* The pair round and the press. */
static void two_rounds(void) {
    struct ceiling_round_answer pair = ceiling_round(bytes, table, TABLE, log_lines, CEILING_ROOM);
    struct ceiling_round_answer press = ceiling_round(bytes, table, TABLE, log_lines + pair.bytes, CEILING_ROOM);
    number = pair.bytes == (2 * CHANNELS + 1) * CEILING_LINE && press.bytes ? press.number : 1;
    logged = pair.bytes + press.bytes;
    memcpy(lowered, table, sizeof lowered);
}

/* After the two rounds, where each link keeps a channel. */
static void supported_value(void) {
    number = ceiling_supported_value(bytes, lowered, TABLE, 0, family, LINKS, partners, CEILING_PARTNERS).number;
}

/* The bytes of stack that a call takes. */
static size_t taken(void (*call)(void)) {
    memset(stack, PAINT, STACK);
    getcontext(&there);
    there.uc_stack.ss_sp = stack;
    there.uc_stack.ss_size = STACK;
    there.uc_link = &home;
    makecontext(&there, call, 0);
    swapcontext(&home, &there);
    size_t deepest = 0;
    while (deepest < STACK && stack[deepest] == PAINT) deepest++;
    return STACK - deepest;
}

int main(void) {
    static const struct {
        const char *name;
        void (*call)(void);
    } rows[] = {
        {"ceiling_version", version},           {"ceiling_case_size", case_size},       {"ceiling_read_case", read_case},
        {"ceiling_upper_bound", upper_bound},   {"ceiling_objective", objective},       {"ceiling_better_of", better_of},
        {"ceiling_replay_start", replay_start}, {"ceiling_engine_version", engine_version}, {"ceiling_round", two_rounds},
        {"ceiling_run", run},                   {"ceiling_run_pairs", run_pairs},       {"ceiling_replay_lines", replay_lines},
        {"ceiling_replay_end", replay_end},     {"ceiling_round_span", round_span},     {"ceiling_supported_value", supported_value},
        {"ceiling_is_acyclic", is_acyclic},
    };
    unsigned passed = 0, failed = 0;
    size_t before = taken(nothing);
    put_case();
    for (size_t i = 0; i < sizeof rows / sizeof *rows; i++) {
        memcpy(table, start, sizeof table);
        size_t most = taken(rows[i].call) - before;
        printf("%6zu %s\n", most, rows[i].name);
        if (number == 0 && most <= CEILING_STACK) passed++;
        else failed++, printf("failed: %s: number %llu, %zu bytes of stack\n", rows[i].name, (unsigned long long)number, most);
    }
    printf("%u passed, %u failed\n", passed, failed);
    return failed > 0;
}
