/* The ceiling library: a checker and an engine for channel plans. docs/LIBRARY.md has the layouts and the numbers.
 *
 * Every answer has a number: 0, or why the call was refused, 1 to 16. Every function returns on all contents; of its pointers it asks that
 * each is aligned for its type and points to as many elements as its length or its array says, and that nothing a call writes overlaps
 * another argument. Where a length is 0 the pointer may be null or anything (see the end).
 *
 * The checker's functions are in libchecker_library.a, the engine's in libengine_library.a. The checker's need nothing of the engine's.
 */
#ifndef CEILING_H
#define CEILING_H

#include <stddef.h>
#include <stdint.h>

/* How the functions at the end are declared: in C++ one for the whole program, so that other inline functions may call them. */
#ifdef __cplusplus
#define CEILING_INLINE inline
extern "C" {
#else
#define CEILING_INLINE static inline
#endif

/* The version that this header is of: major * 10000 + minor * 100 + patch. */
#define CEILING_VERSION 20000

/* The most links, channels and pairs of a case, and the bytes of a line. */
#define CEILING_LINKS 48
#define CEILING_CHANNELS 8
#define CEILING_PAIRS 96
#define CEILING_LINE 27

/* The length of every table of a case with so many channels, whatever its links and pairs: that of a case with the most of both. The case's own
 * weights stand first, and 0 at all places past them. The most is CEILING_TABLE(CEILING_CHANNELS), 6528. */
#define CEILING_TABLE(channels) (CEILING_LINKS * (channels) + CEILING_PAIRS * (channels) * (channels))

/* What a table holds where a channel, or a pair of channels, is barred. A plan that uses such a place is unlawful: it has no total. */
#define CEILING_BARRED (-2000000000)

/* A case and the replay's record as bytes. A case's last eight are its carry, from -20,000,000,000 to 20,000,000,000 (else number 5), which counts
 * in every ceiling and in no plan's total; a case that was read has carry 0. */
#define CEILING_CASE (32 + 2 * CEILING_PAIRS)
#define CEILING_RECORD (52 + CEILING_LINKS + CEILING_PAIRS)

/* Room for the lines of any round: a line for each link and pair, two for each channel and one more. The engine's functions ask for that much by
 * the case's own counts, also where nothing is written. */
#define CEILING_ROOM (CEILING_LINE * (CEILING_LINKS + CEILING_PAIRS + 2 * CEILING_CHANNELS + 1))

/* What stands in place of a partner where the channel is outside the family, and room for the partners of any case. */
#define CEILING_OUTSIDE 255
#define CEILING_PARTNERS (2 * CEILING_PAIRS * CEILING_CHANNELS)

/* No call takes more bytes of stack. */
#define CEILING_STACK 16384

struct ceiling_size_answer { uint64_t number; size_t n, d, m, table; };
struct ceiling_lines_answer { uint64_t number; size_t lines; };
struct ceiling_total_answer { uint64_t number; int64_t total; };
struct ceiling_rounds_answer { uint64_t number, rounds, is_void; };
struct ceiling_span_answer { uint64_t number; size_t from, to, line; };
struct ceiling_choice_answer { uint64_t number, choice; };
struct ceiling_value_answer { uint64_t number; size_t value; };
struct ceiling_verdict_answer { uint64_t number, yes; };
struct ceiling_round_answer { uint64_t number; size_t bytes; int64_t bound; uint64_t none_lawful; };
struct ceiling_run_answer { uint64_t number, limit, rounds; int64_t bound; uint64_t none_lawful; };

/* ---- the checker */

/* The version of libchecker_library.a. */
uint64_t ceiling_version(void);

/* What the head of a case file says: links, channels, pairs, and the length of the table to lend, CEILING_TABLE of the channels. */
struct ceiling_size_answer ceiling_case_size(const uint8_t *text, size_t text_length);

/* Reads a case file with nothing after it: the case's bytes, its starting weights and 0 past them, and the lines used, or the line that was refused.
 * Refused, the case's bytes stay, and the table is as after the last good line: a place whose weight was not read keeps what it held, and so do all
 * past the case's own. */
struct ceiling_lines_answer ceiling_read_case(const uint8_t *text, size_t text_length, uint8_t case_bytes[CEILING_CASE],
                                              int64_t *table, size_t table_length);

/* The ceiling: the sum over scopes of the greatest weight, and the carry. No lawful plan's total with the carry added is above it. */
struct ceiling_total_answer ceiling_upper_bound(const uint8_t case_bytes[CEILING_CASE], const int64_t *table, size_t table_length);

/* A plan's total; a plan is one channel, a byte, for each link. An unlawful one is number 5. */
struct ceiling_total_answer ceiling_objective(const uint8_t case_bytes[CEILING_CASE], const int64_t *table, size_t table_length,
                                              const uint8_t *plan, size_t plan_length);

/* Which plan has the greater total on starting weights: 0 the first, 1 the second, the first on a tie. Unlawful plans are level, below the
 * lawful. */
struct ceiling_choice_answer ceiling_better_of(const uint8_t case_bytes[CEILING_CASE], const int64_t *table, size_t table_length,
                                               const uint8_t *first, size_t first_length, const uint8_t *second, size_t second_length);

/* Why a channel was kept: the lowest active channel of the link that is not refuted with all other scopes raised. Active are the channels with
 * the link's greatest weight. The channel's largest family is written to `family`, a byte for each link, bit k for channel k; the lowest partner of
 * each of the family's channels to `partners`, the byte at (2 * pair + end) * channels + channel, CEILING_OUTSIDE where the channel is outside its
 * link's set; end 0 is the pair's lower link. `family` needs a byte for each link, `partners` 2 * pairs * channels, or the number is 4; bytes past
 * these are left as they are. A link that is not there is number 5. So is, asked last of all, a link without such a channel: all its active channels
 * are refuted, and a press or a void line of it is left. Refused, nothing is written. */
struct ceiling_value_answer ceiling_supported_value(const uint8_t case_bytes[CEILING_CASE], const int64_t *table, size_t table_length,
                                                    size_t link, uint8_t *family, size_t family_length, uint8_t *partners,
                                                    size_t partners_length);

/* Whether the pairs form no loop: `yes` is 1 if they form none, else 0. No table is asked for: only the case's limits, carry and pairs' ends. */
struct ceiling_verdict_answer ceiling_is_acyclic(const uint8_t case_bytes[CEILING_CASE]);

/* Writes a fresh record for a replay that begins with these starting weights, and answers its number.
 * Refused, the record stands refused: later lines get the same number. */
uint64_t ceiling_replay_start(const uint8_t case_bytes[CEILING_CASE], const int64_t *table, size_t table_length,
                              uint8_t record[CEILING_RECORD]);

/* Replays whole lines on the table and the record that the last call left: the first refusal's number, and how many lines got none.
 * A part line at the end is not looked at. */
struct ceiling_lines_answer ceiling_replay_lines(const uint8_t case_bytes[CEILING_CASE], int64_t *table, size_t table_length,
                                                 uint8_t record[CEILING_RECORD], const uint8_t *lines, size_t lines_length);

/* The end of the log, after whose last whole line `part` bytes are left: its rounds, or the number that stands, or 14 inside a round or a line.
 * With number 0 and `is_void` 1 the log is void: it ends with a void line, which shows that no lawful plan exists, and has no rounds to tell. Else
 * `is_void` is 0: the log is accepted. */
struct ceiling_rounds_answer ceiling_replay_end(const uint8_t case_bytes[CEILING_CASE], const uint8_t record[CEILING_RECORD],
                                                size_t part);

/* Where a round's lines lie in a log, from the first byte to before `to`; or the refusal and its line. */
struct ceiling_span_answer ceiling_round_span(const uint8_t *log, size_t log_length, uint64_t round);

/* ---- the engine
 *
 * A pair gains if the greatest weights of the pair and its two links add up to more than these three weights do for any two channels that are not
 * barred. Its round shifts the links' weights into the pair, which keeps every lawful plan's total. A pair is passed over if no two channels are
 * free of bars at both links and in the pair, or if its round would leave the working range or not lower the ceiling.
 *
 * Where no gap limits a press, because everything that it closes is barred and every other channel of its link, the engine writes a void line in its
 * stead: `none_lawful` is 1, and no lawful plan exists. The table stays. 0 promises nothing: where no lawful plan exists the engine may also settle,
 * end by its limit or be refused by 11. */

/* The version of libengine_library.a. */
uint64_t ceiling_engine_version(void);

/* One round, of the lowest pair that gains and is not passed over, or else a press: its lines from the output's first byte, how many bytes, and
 * the ceiling. With `none_lawful` 1 the bytes are a void line's, which is no round, and `bound` is 0. No bytes and number 0: settled, and `bound`
 * says nothing then: ask ceiling_upper_bound. */
struct ceiling_round_answer ceiling_round(const uint8_t case_bytes[CEILING_CASE], int64_t *table, size_t table_length,
                                          uint8_t *out, size_t out_length);

/* At most `limit` rounds, each writing from the output's first byte: rounds, ceiling, limit 1 if it ended by its limit, and `none_lawful` 1 if it
 * ended with a void line, which is written even at the limit; with number 0 and neither it is settled. Refused by 11, the earlier rounds stand. */
struct ceiling_run_answer ceiling_run(const uint8_t case_bytes[CEILING_CASE], int64_t *table, size_t table_length,
                                      uint8_t *out, size_t out_length, uint64_t limit);

/* The same with pair rounds only: settled where no pair gains but those passed over, also where a press or a void line is left. Never refused by
 * 11, and never void. */
struct ceiling_run_answer ceiling_run_pairs(const uint8_t case_bytes[CEILING_CASE], int64_t *table, size_t table_length,
                                            uint8_t *out, size_t out_length, uint64_t limit);

/* ---- null pointers
 *
 * The libraries' own functions ask for pointers that are not null, also where the length is 0. So in a program that includes this header the
 * names above stand for the functions below: where a length is 0 they hand on a pointer of their own, through which nothing is read or
 * written. A caller that has the symbols by another way (dlsym, another language) hands over no null. */

CEILING_INLINE struct ceiling_size_answer ceiling_case_size_or_empty(const uint8_t *text, size_t text_length) {
    uint8_t none = 0;
    return ceiling_case_size(text_length ? text : &none, text_length);
}

CEILING_INLINE struct ceiling_lines_answer ceiling_read_case_or_empty(const uint8_t *text, size_t text_length,
                                                                      uint8_t case_bytes[CEILING_CASE], int64_t *table, size_t table_length) {
    uint8_t none = 0;
    int64_t no_weight = 0;
    return ceiling_read_case(text_length ? text : &none, text_length, case_bytes, table_length ? table : &no_weight, table_length);
}

CEILING_INLINE struct ceiling_total_answer ceiling_upper_bound_or_empty(const uint8_t case_bytes[CEILING_CASE], const int64_t *table,
                                                                        size_t table_length) {
    int64_t no_weight = 0;
    return ceiling_upper_bound(case_bytes, table_length ? table : &no_weight, table_length);
}

CEILING_INLINE struct ceiling_total_answer ceiling_objective_or_empty(const uint8_t case_bytes[CEILING_CASE], const int64_t *table,
                                                                      size_t table_length, const uint8_t *plan, size_t plan_length) {
    uint8_t none = 0;
    int64_t no_weight = 0;
    return ceiling_objective(case_bytes, table_length ? table : &no_weight, table_length, plan_length ? plan : &none, plan_length);
}

CEILING_INLINE struct ceiling_choice_answer ceiling_better_of_or_empty(const uint8_t case_bytes[CEILING_CASE], const int64_t *table,
                                                                       size_t table_length, const uint8_t *first, size_t first_length,
                                                                       const uint8_t *second, size_t second_length) {
    uint8_t none = 0;
    int64_t no_weight = 0;
    return ceiling_better_of(case_bytes, table_length ? table : &no_weight, table_length, first_length ? first : &none, first_length,
                             second_length ? second : &none, second_length);
}

CEILING_INLINE struct ceiling_value_answer ceiling_supported_value_or_empty(const uint8_t case_bytes[CEILING_CASE], const int64_t *table,
                                                                            size_t table_length, size_t link, uint8_t *family,
                                                                            size_t family_length, uint8_t *partners, size_t partners_length) {
    uint8_t none = 0, no_partner = 0;
    int64_t no_weight = 0;
    return ceiling_supported_value(case_bytes, table_length ? table : &no_weight, table_length, link, family_length ? family : &none,
                                   family_length, partners_length ? partners : &no_partner, partners_length);
}

CEILING_INLINE uint64_t ceiling_replay_start_or_empty(const uint8_t case_bytes[CEILING_CASE], const int64_t *table, size_t table_length,
                                                      uint8_t record[CEILING_RECORD]) {
    int64_t no_weight = 0;
    return ceiling_replay_start(case_bytes, table_length ? table : &no_weight, table_length, record);
}

CEILING_INLINE struct ceiling_lines_answer ceiling_replay_lines_or_empty(const uint8_t case_bytes[CEILING_CASE], int64_t *table,
                                                                         size_t table_length, uint8_t record[CEILING_RECORD],
                                                                         const uint8_t *lines, size_t lines_length) {
    uint8_t none = 0;
    int64_t no_weight = 0;
    return ceiling_replay_lines(case_bytes, table_length ? table : &no_weight, table_length, record, lines_length ? lines : &none,
                                lines_length);
}

CEILING_INLINE struct ceiling_span_answer ceiling_round_span_or_empty(const uint8_t *log, size_t log_length, uint64_t round) {
    uint8_t none = 0;
    return ceiling_round_span(log_length ? log : &none, log_length, round);
}

CEILING_INLINE struct ceiling_round_answer ceiling_round_or_empty(const uint8_t case_bytes[CEILING_CASE], int64_t *table, size_t table_length,
                                                                  uint8_t *out, size_t out_length) {
    uint8_t none = 0;
    int64_t no_weight = 0;
    return ceiling_round(case_bytes, table_length ? table : &no_weight, table_length, out_length ? out : &none, out_length);
}

CEILING_INLINE struct ceiling_run_answer ceiling_run_or_empty(const uint8_t case_bytes[CEILING_CASE], int64_t *table, size_t table_length,
                                                              uint8_t *out, size_t out_length, uint64_t limit) {
    uint8_t none = 0;
    int64_t no_weight = 0;
    return ceiling_run(case_bytes, table_length ? table : &no_weight, table_length, out_length ? out : &none, out_length, limit);
}

CEILING_INLINE struct ceiling_run_answer ceiling_run_pairs_or_empty(const uint8_t case_bytes[CEILING_CASE], int64_t *table,
                                                                    size_t table_length, uint8_t *out, size_t out_length, uint64_t limit) {
    uint8_t none = 0;
    int64_t no_weight = 0;
    return ceiling_run_pairs(case_bytes, table_length ? table : &no_weight, table_length, out_length ? out : &none, out_length, limit);
}

#define ceiling_case_size ceiling_case_size_or_empty
#define ceiling_read_case ceiling_read_case_or_empty
#define ceiling_upper_bound ceiling_upper_bound_or_empty
#define ceiling_objective ceiling_objective_or_empty
#define ceiling_better_of ceiling_better_of_or_empty
#define ceiling_supported_value ceiling_supported_value_or_empty
#define ceiling_replay_start ceiling_replay_start_or_empty
#define ceiling_replay_lines ceiling_replay_lines_or_empty
#define ceiling_round_span ceiling_round_span_or_empty
#define ceiling_round ceiling_round_or_empty
#define ceiling_run ceiling_run_or_empty
#define ceiling_run_pairs ceiling_run_pairs_or_empty

#ifdef __cplusplus
}
#endif

#endif
