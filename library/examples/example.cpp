// Reads a case file, lets the engine lower its ceiling, replays the log in blocks, and prints what the checker says, the first round's lines,
// which of two simple plans is better, and what pair rounds alone come to.
#include <algorithm>
#include <array>
#include <cstdint>
#include <fstream>
#include <iostream>
#include <iterator>
#include <stdexcept>
#include <string>
#include <vector>

#include "ceiling.h"

namespace {

constexpr std::uint64_t rounds_at_most = 100000;
constexpr std::size_t block = 100 * CEILING_LINE;

using Bytes = std::vector<std::uint8_t>;
using Table = std::vector<std::int64_t>;

// Thrown where a call answers a number; the line is counted from 0 in the whole input.
struct Refused : std::runtime_error {
    Refused(std::uint64_t number, std::size_t line)
        : std::runtime_error("refused " + std::to_string(number) + " " + std::to_string(line)) {}
};

void ask(std::uint64_t number, std::size_t line) {
    if (number) throw Refused(number, line);
}

// A case: its bytes, its starting weights, and how many lines it took.
struct Case {
    std::array<std::uint8_t, CEILING_CASE> bytes{};
    ceiling_size_answer size{};
    Table start;
    std::size_t lines = 0;

    explicit Case(const Bytes &text) : size(ceiling_case_size(text.data(), text.size())) {
        ask(size.number, 0);
        start.resize(size.table);
        const auto read = ceiling_read_case(text.data(), text.size(), bytes.data(), start.data(), start.size());
        ask(read.number, read.lines);
        lines = read.lines;
    }
};

// The engine's rounds, one after another, and their lines joined; a void line is the last.
Bytes press(const Case &c, Table &table) {
    Bytes log, out(CEILING_ROOM);
    for (std::uint64_t i = 0; i < rounds_at_most; i++) {
        const auto round = ceiling_round(c.bytes.data(), table.data(), table.size(), out.data(), out.size());
        ask(round.number, c.lines);
        if (!round.bytes) break;
        log.insert(log.end(), out.begin(), out.begin() + static_cast<std::ptrdiff_t>(round.bytes));
        if (round.none_lawful) break;
    }
    return log;
}

// The same in one run.
ceiling_run_answer run(const Case &c, Table &table) {
    Bytes out(CEILING_ROOM);
    const auto made = ceiling_run(c.bytes.data(), table.data(), table.size(), out.data(), out.size(), rounds_at_most);
    ask(made.number, c.lines);
    return made;
}

// The replay of the log in blocks, on the starting weights: its rounds, or that it is void.
ceiling_rounds_answer replay(const Case &c, Table &table, const Bytes &log) {
    std::array<std::uint8_t, CEILING_RECORD> record{};
    ask(ceiling_replay_start(c.bytes.data(), table.data(), table.size(), record.data()), c.lines);
    for (std::size_t at = 0; at < log.size(); at += block) {
        const auto length = std::min(block, log.size() - at);
        const auto lines = ceiling_replay_lines(c.bytes.data(), table.data(), table.size(), record.data(), log.data() + at, length);
        ask(lines.number, c.lines + at / CEILING_LINE + lines.lines);
    }
    const auto end = ceiling_replay_end(c.bytes.data(), record.data(), log.size() % CEILING_LINE);
    ask(end.number, c.lines + log.size() / CEILING_LINE);
    return end;
}

// A plan's total in words; an unlawful plan has none.
std::string total(const Case &c, const Table &table, const Bytes &plan) {
    const auto answer = ceiling_objective(c.bytes.data(), table.data(), table.size(), plan.data(), plan.size());
    if (answer.number == 5) return "unlawful";
    ask(answer.number, 0);
    return std::to_string(answer.total);
}

// Every link on channel 0, or the channels in turn.
Bytes print_better_plan(const Case &c) {
    Bytes first(c.size.n), second(c.size.n);
    for (std::size_t i = 0; i < second.size(); i++) second[i] = static_cast<std::uint8_t>(i % c.size.d);
    const auto better = ceiling_better_of(c.bytes.data(), c.start.data(), c.start.size(), first.data(), first.size(), second.data(), second.size());
    ask(better.number, 0);
    const Bytes &plan = better.choice ? second : first;
    std::cout << "plan " << better.choice << ' ' << total(c, c.start, plan) << '\n';
    return plan;
}

// Pair rounds only: the plan keeps its total, if it is lawful.
void print_pair_rounds(const Case &c, const Bytes &plan) {
    Table table = c.start;
    Bytes out(CEILING_ROOM);
    const auto made = ceiling_run_pairs(c.bytes.data(), table.data(), table.size(), out.data(), out.size(), rounds_at_most);
    ask(made.number, c.lines);
    if (total(c, table, plan) != total(c, c.start, plan)) throw std::logic_error("another total");
    std::cout << "pairs " << made.rounds << ' ' << made.bound << '\n';
}

void example(const Bytes &text) {
    const Case c(text);
    Table table = c.start, again = c.start, replayed = c.start;
    const Bytes log = press(c, table);
    const auto made = run(c, again);
    const auto end = replay(c, replayed, log);
    if (end.is_void != made.none_lawful) throw std::logic_error("not void in both");
    if (end.is_void) {
        std::cout << "void\n";
        return;
    }
    const auto ceiling = ceiling_upper_bound(c.bytes.data(), replayed.data(), replayed.size());
    ask(ceiling.number, 0);
    if (again != table || replayed != table || end.rounds != made.rounds || ceiling.total != made.bound) throw std::logic_error("not the same");
    std::cout << "accepted " << end.rounds << ' ' << ceiling.total << '\n';
    if (end.rounds) {
        const auto view = ceiling_round_span(log.data(), log.size(), 0);
        ask(view.number, view.line);
        std::cout.write(reinterpret_cast<const char *>(log.data()) + view.from, static_cast<std::streamsize>(view.to - view.from));
    }
    print_pair_rounds(c, print_better_plan(c));
}

}  // namespace

int main(int count, char **arguments) {
    if (count != 2) return 2;
    std::ifstream file(arguments[1], std::ios::binary);
    if (!file) return 2;
    const Bytes text{std::istreambuf_iterator<char>(file), std::istreambuf_iterator<char>()};
    try {
        example(text);
    } catch (const Refused &refused) {
        std::cout << refused.what() << '\n';
        return 1;
    }
}
