//! Samples of barred channels and void lines made by hand from document 02: case files,
//! logs, runs from tables, totals and scores.

use crate::pair_samples::{bound, raise, shift, Row, Table};
use crate::samples::{case_of, lines, pressed, replayed, Sample};
use crate::types::*;
use crate::{calls, score, slow};

const B: i32 = BARRED;
const R: i32 = 500_000_000;
const TOP: i64 = R as i64;
const LOW: i64 = B as i64;
const ENOUGH: u64 = PROGRAM_ROUNDS;

const fn two(weights: &'static [i32]) -> Table {
    Table {
        values: 2,
        edges: &[(0, 1)],
        weights,
    }
}

const fn press(link: i64, count: i64, amount: i64) -> [i64; 5] {
    [2, link, count, 0, amount]
}

const fn void(link: i64, count: i64) -> [i64; 5] {
    [5, link, count, 0, 0]
}

/// Either link has one channel, and the two may not go together.
static NONE: Table = two(&[0, B, 0, B, B, 0, 0, 0]);
/// The same with nothing else left in the row of the barred value.
static BARE_ROW: Table = two(&[0, B, 0, B, B, 0, B, B]);
/// Another value of link 0 is left, by 5 worse.
static OTHER: Table = two(&[0, -5, 0, B, B, 0, 0, 0]);
/// The two channels go together, by 1 worse than the greatest.
static WORSE: Table = two(&[0, B, 0, B, -1, 0, 0, 0]);
static FREE: Table = two(&[0, -5, 0, B, 0, 0, 0, 0]);
/// No unbarred choice, though the pair's round would lower the ceiling.
static NO_CHOICE: Table = two(&[5, B, 5, B, B, 0, -20, -20]);
static NO_CHOICE_LINK: Table = two(&[5, B, 5, 0, 0, B, 0, 0]);
static LOWER: Table = two(&[3, 0, 2, B, -9, -4, 0, -4]);
static PARTLY: Table = two(&[3, 0, 2, B, -9, 0, 0, -4]);
static BARRED_ROW: Table = two(&[R, 0, 1, 0, B, B, 0, 0]);
static STUCK: Table = two(&[-R, B, 0, B, B, 0, -1, 0]);
static LOW_VOID: Table = two(&[-R, B, R, B, B, R, R, R]);
/// The round of pair 0 lowers the ceiling only after that of pair 1.
static LOWER_THEN: Table = Table {
    values: 2,
    edges: &[(0, 1), (0, 2)],
    weights: &[-5, B, 2, 0, 2, 0, -3, 0, -4, -4, -3, 0, -20, -20],
};
static LATER: Table = Table {
    values: 2,
    edges: &[(0, 1), (2, 3)],
    weights: &[0, B, 0, B, 2, 0, 2, 0, B, 0, 0, 0, -3, 0, 0, 0],
};
static TRIANGLE: Table = Table {
    values: 2,
    edges: &[(0, 1), (0, 2), (1, 2)],
    weights: &[0, 0, 0, 0, 0, 0, B, 0, 0, B, B, 0, 0, B, B, 0, 0, B],
};
static HIGHER_LINK: Table = Table {
    values: 2,
    edges: &[(1, 2), (1, 3), (2, 3)],
    weights: &[4, 4, 0, 0, 0, 0, 0, 0, B, 0, 0, B, B, 0, 0, B, B, 0, 0, B],
};
static ONE_LINK: Table = Table {
    values: 2,
    edges: &[],
    weights: &[0, B],
};
/// Four links, three channels, no two equal: no lawful plan, and nothing is refuted.
static COLOURS: Table = Table {
    values: 3,
    edges: &[(0, 1), (0, 2), (0, 3), (1, 2), (1, 3), (2, 3)],
    weights: &[
        0, 0, 0, 0, 0, 0, 0, 0, 0, 0, 0, 0, //
        B, 0, 0, 0, B, 0, 0, 0, B, B, 0, 0, 0, B, 0, 0, 0, B, B, 0, 0, 0, B, 0, 0, 0, B, //
        B, 0, 0, 0, B, 0, 0, 0, B, B, 0, 0, 0, B, 0, 0, 0, B, B, 0, 0, 0, B, 0, 0, 0, B,
    ],
};

const ROWS: &[Row] = &[
    Row {
        name: "void",
        table: &NONE,
        run: (Rounds::All, ENOUGH),
        end: (Stop::Void, 0),
        log: &[void(0, 2), raise(1), raise(2)],
        weights: NONE.weights,
    },
    Row {
        name: "void at limit 0",
        table: &NONE,
        run: (Rounds::All, 0),
        end: (Stop::Void, 0),
        log: &[void(0, 2), raise(1), raise(2)],
        weights: NONE.weights,
    },
    Row {
        name: "no void, pairs only",
        table: &NONE,
        run: (Rounds::Pairs, 0),
        end: (Stop::Settled, 0),
        log: &[],
        weights: NONE.weights,
    },
    Row {
        name: "void at the ends of the range",
        table: &LOW_VOID,
        run: (Rounds::All, 0),
        end: (Stop::Void, TOP),
        log: &[void(0, 2), raise(1), raise(2)],
        weights: LOW_VOID.weights,
    },
    Row {
        name: "a pair round before a void line, limit 0",
        table: &LATER,
        run: (Rounds::All, 0),
        end: (Stop::Limit, 4),
        log: &[],
        weights: LATER.weights,
    },
    Row {
        name: "a pair round before a void line, limit 1",
        table: &LATER,
        run: (Rounds::All, 1),
        end: (Stop::Void, 2),
        log: &[
            shift(1, 0, 0, -2),
            shift(1, 1, 0, -2),
            bound(2),
            void(0, 2),
            raise(1),
            raise(4),
        ],
        weights: &[0, B, 0, B, 0, 0, 0, 0, B, 0, 0, 0, 1, 2, 2, 0],
    },
    Row {
        name: "a pair round before a void line",
        table: &LATER,
        run: (Rounds::All, ENOUGH),
        end: (Stop::Void, 2),
        log: &[
            shift(1, 0, 0, -2),
            shift(1, 1, 0, -2),
            bound(2),
            void(0, 2),
            raise(1),
            raise(4),
        ],
        weights: &[0, B, 0, B, 0, 0, 0, 0, B, 0, 0, 0, 1, 2, 2, 0],
    },
    Row {
        name: "a pair round before a void line, pairs only",
        table: &LATER,
        run: (Rounds::Pairs, 1),
        end: (Stop::Settled, 2),
        log: &[shift(1, 0, 0, -2), shift(1, 1, 0, -2), bound(2)],
        weights: &[0, B, 0, B, 0, 0, 0, 0, B, 0, 0, 0, 1, 2, 2, 0],
    },
    Row {
        name: "equal values barred in a triangle",
        table: &TRIANGLE,
        run: (Rounds::All, ENOUGH),
        end: (Stop::Void, 0),
        log: &[void(0, 3), raise(3), raise(4), raise(5)],
        weights: TRIANGLE.weights,
    },
    Row {
        name: "void of a higher link",
        table: &HIGHER_LINK,
        run: (Rounds::All, 0),
        end: (Stop::Void, 4),
        log: &[void(1, 3), raise(4), raise(5), raise(6)],
        weights: HIGHER_LINK.weights,
    },
    Row {
        name: "settled without a lawful plan",
        table: &COLOURS,
        run: (Rounds::All, 0),
        end: (Stop::Settled, 0),
        log: &[],
        weights: COLOURS.weights,
    },
    Row {
        name: "a pair not lower, a press by the own gap",
        table: &OTHER,
        run: (Rounds::All, ENOUGH),
        end: (Stop::Settled, -5),
        log: &[press(0, 2, 5), raise(1), raise(2), bound(-5)],
        weights: &[-5, -5, 0, B, B, 0, 0, 0],
    },
    Row {
        name: "a press next, limit 0",
        table: &OTHER,
        run: (Rounds::All, 0),
        end: (Stop::Limit, 0),
        log: &[],
        weights: OTHER.weights,
    },
    Row {
        name: "a pair not lower, pairs only",
        table: &OTHER,
        run: (Rounds::Pairs, 0),
        end: (Stop::Settled, 0),
        log: &[],
        weights: OTHER.weights,
    },
    Row {
        name: "a press by the pair's gap",
        table: &WORSE,
        run: (Rounds::All, ENOUGH),
        end: (Stop::Settled, -1),
        log: &[press(0, 2, 1), raise(1), raise(2), bound(-1)],
        weights: &[-1, B, 0, B, 0, 0, 0, 0],
    },
    Row {
        name: "no choice, then void",
        table: &NO_CHOICE,
        run: (Rounds::All, ENOUGH),
        end: (Stop::Void, -10),
        log: &[
            press(0, 2, 20),
            raise(1),
            raise(2),
            bound(-10),
            void(0, 2),
            raise(1),
            raise(2),
        ],
        weights: &[-15, B, 5, B, B, 0, 0, 0],
    },
    Row {
        name: "no choice, limit 1",
        table: &NO_CHOICE,
        run: (Rounds::All, 1),
        end: (Stop::Void, -10),
        log: &[
            press(0, 2, 20),
            raise(1),
            raise(2),
            bound(-10),
            void(0, 2),
            raise(1),
            raise(2),
        ],
        weights: &[-15, B, 5, B, B, 0, 0, 0],
    },
    Row {
        name: "no choice, pairs only",
        table: &NO_CHOICE,
        run: (Rounds::Pairs, 0),
        end: (Stop::Settled, 10),
        log: &[],
        weights: NO_CHOICE.weights,
    },
    Row {
        name: "one choice, active",
        table: &NO_CHOICE_LINK,
        run: (Rounds::All, 0),
        end: (Stop::Settled, 10),
        log: &[],
        weights: NO_CHOICE_LINK.weights,
    },
    Row {
        name: "unbarred weights only",
        table: &LOWER,
        run: (Rounds::All, ENOUGH),
        end: (Stop::Settled, 2),
        log: &[shift(0, 0, 0, -3), shift(0, 1, 0, -2), bound(2)],
        weights: &[0, 0, 0, B, -4, -1, 2, -4],
    },
    Row {
        name: "the pair's greatest weight has a barred end",
        table: &PARTLY,
        run: (Rounds::All, ENOUGH),
        end: (Stop::Settled, 2),
        log: &[
            shift(0, 0, 0, -3),
            shift(0, 1, 0, -2),
            bound(3),
            press(0, 2, 1),
            raise(1),
            raise(2),
            bound(2),
        ],
        weights: &[-1, -1, 0, B, -3, 3, 3, -3],
    },
    Row {
        name: "a lower pair, after a higher one made it lower",
        table: &LOWER_THEN,
        run: (Rounds::All, ENOUGH),
        end: (Stop::Settled, -5),
        log: &[
            shift(1, 0, 0, 5),
            shift(1, 1, 0, -2),
            bound(-3),
            shift(0, 1, 0, -2),
            bound(-5),
        ],
        weights: &[0, B, 0, 0, 0, 0, -1, 0, -2, -4, -6, -5, -18, -20],
    },
    Row {
        name: "a lower pair not lower yet, limit 1",
        table: &LOWER_THEN,
        run: (Rounds::Pairs, 1),
        end: (Stop::Limit, -3),
        log: &[shift(1, 0, 0, 5), shift(1, 1, 0, -2), bound(-3)],
        weights: &[0, B, 2, 0, 0, 0, -3, 0, -4, -4, -6, -5, -18, -20],
    },
    Row {
        name: "a barred row is never out of range",
        table: &BARRED_ROW,
        run: (Rounds::All, ENOUGH),
        end: (Stop::Settled, 1),
        log: &[shift(0, 0, 0, -TOP), shift(0, 1, 0, -1), bound(1)],
        weights: &[0, 0, 0, 0, B, B, 1, 0],
    },
    Row {
        name: "11 without a lawful plan",
        table: &STUCK,
        run: (Rounds::All, 1),
        end: (Stop::Refused(11), -TOP),
        log: &[],
        weights: STUCK.weights,
    },
    Row {
        name: "11 without a lawful plan, limit 0",
        table: &STUCK,
        run: (Rounds::All, 0),
        end: (Stop::Limit, -TOP),
        log: &[],
        weights: STUCK.weights,
    },
];

/// A case, a log, and what `replay` prints. Cases of two links have lines 0 to 9.
type LogRow = (&'static Table, &'static [[i64; 5]], &'static str);

const END: [[i64; 5]; 3] = [void(0, 2), raise(1), raise(2)];
const MOST: i64 = 1_000_000_000;

const LOGS: &[LogRow] = &[
    (&NONE, &[], "accepted 0 0"),
    (&NONE, &END, "void"),
    (&NONE, &[void(1, 2), raise(0), raise(2)], "void"),
    (&TRIANGLE, &[void(2, 3), raise(3), raise(4), raise(5)], "void"),
    // more scopes than needed
    (&TRIANGLE, &[void(1, 5), raise(0), raise(2), raise(3), raise(4), raise(5)], "void"),
    (&LATER, &[void(0, 2), raise(1), raise(4)], "void"),
    (&LATER, &[void(0, 3), raise(1), raise(2), raise(4)], "refused 16 22"),
    (&LATER, &[void(2, 2), raise(1), raise(4)], "refused 10 21"),
    // every link of a case without a family, if its own values and all closed are barred
    (&LATER, &[void(2, 3), raise(0), raise(1), raise(4)], "refused 16 22"),
    (&COLOURS, &[void(0, 6), raise(4), raise(5), raise(6), raise(7), raise(8), raise(9)], "refused 10 79"),
    // cut off
    (&NONE, &[void(0, 2)], "refused 14 11"),
    (&NONE, &[void(0, 2), raise(1)], "refused 14 12"),
    // the kind is not due
    (&NONE, &[void(0, 2), shift(0, 0, 0, 1)], "refused 2 11"),
    (&NONE, &[void(0, 2), press(0, 2, 1)], "refused 2 11"),
    (&NONE, &[void(0, 2), bound(0)], "refused 2 11"),
    (&NONE, &[void(0, 2), void(0, 2)], "refused 2 11"),
    (&NONE, &[press(0, 2, 1), void(0, 2)], "refused 2 11"),
    (&NONE, &[void(0, 2), raise(1), void(0, 2)], "refused 2 12"),
    // nothing is due after it, whatever it is
    (&NONE, &[void(0, 2), raise(1), raise(2), bound(0)], "refused 2 13"),
    (&NONE, &[void(0, 2), raise(1), raise(2), bound(-1)], "refused 2 13"),
    (&NONE, &[void(0, 2), raise(1), raise(2), raise(2)], "refused 2 13"),
    (&NONE, &[void(0, 2), raise(1), raise(2), shift(0, 0, 0, 1)], "refused 2 13"),
    (&NONE, &[void(0, 2), raise(1), raise(2), shift(9, 9, 9, 0)], "refused 2 13"),
    (&NONE, &[void(0, 2), raise(1), raise(2), press(0, 2, 1)], "refused 2 13"),
    (&NONE, &[void(0, 2), raise(1), raise(2), void(0, 2)], "refused 2 13"),
    (&NONE, &[void(0, 2), raise(1), raise(2), [14, 0, 0, 0, 0]], "refused 2 13"),
    (&NONE, &[void(0, 2), raise(1), raise(2), [99, 0, 0, 0, 0]], "refused 2 13"),
    // an unused column is not 0, before 5
    (&NONE, &[[5, 0, 2, 1, 0]], "refused 2 10"),
    (&NONE, &[[5, 0, 2, 0, 1]], "refused 2 10"),
    (&NONE, &[[5, 0, 2, 0, -1]], "refused 2 10"),
    (&NONE, &[[5, 9, 0, 1, 0]], "refused 2 10"),
    (&NONE, &[[5, 9, 0, 0, 1]], "refused 2 10"),
    (&NONE, &[void(0, 2), [3, 1, 1, 0, 0]], "refused 2 11"),
    (&NONE, &[void(0, 2), [3, 1, 0, 1, 0]], "refused 2 11"),
    (&NONE, &[void(0, 2), [3, 1, 0, 0, 1]], "refused 2 11"),
    // 5
    (&NONE, &[void(2, 2)], "refused 5 10"),
    (&NONE, &[void(-1, 2)], "refused 5 10"),
    (&NONE, &[void(0, 0)], "refused 5 10"),
    (&NONE, &[void(0, 3)], "refused 5 10"),
    (&NONE, &[void(0, -1)], "refused 5 10"),
    (&NONE, &[void(0, 2), raise(3)], "refused 5 11"),
    (&NONE, &[void(0, 2), raise(-1)], "refused 5 11"),
    (&ONE_LINK, &[void(0, 0)], "refused 5 3"),
    (&ONE_LINK, &[void(0, 1)], "refused 5 3"),
    (&ONE_LINK, &[press(0, 1, 1)], "refused 5 3"),
    // 9, before 10
    (&NONE, &[void(0, 2), raise(0)], "refused 9 11"),
    (&NONE, &[void(0, 1), raise(0)], "refused 9 11"),
    (&NONE, &[void(1, 2), raise(0), raise(1)], "refused 9 12"),
    (&NONE, &[void(0, 2), raise(1), raise(1)], "refused 9 12"),
    (&NONE, &[void(0, 2), raise(2), raise(1)], "refused 9 12"),
    // 10: what is barred in a scope not raised stays open
    (&NONE, &[void(0, 1), raise(1)], "refused 10 11"),
    (&NONE, &[void(0, 1), raise(2)], "refused 10 11"),
    (&NONE, &[press(0, 1, 1), raise(1)], "refused 10 11"),
    (&NONE, &[press(0, 1, 1), raise(2)], "refused 10 11"),
    // 10 before 16: another value is left, and so is a closed combination
    (&FREE, &[void(0, 1), raise(1)], "refused 10 11"),
    (&FREE, &[void(0, 2), raise(1), raise(2)], "refused 10 12"),
    (&FREE, &[void(1, 1), raise(0)], "refused 10 11"),
    // 16: another value is not barred, a closed combination is not barred
    (&OTHER, &END, "refused 16 12"),
    (&WORSE, &END, "refused 16 12"),
    (&WORSE, &[void(1, 2), raise(0), raise(2)], "refused 16 12"),
    (&NO_CHOICE, &END, "refused 16 12"),
    // the count is met only with the line that makes it hold
    (&NONE, &[void(0, 2), raise(2)], "refused 14 12"),
    // after moves without a bound line
    (&NONE, &[shift(0, 0, 0, 5), shift(0, 0, 0, -5), END[0], END[1], END[2]], "void"),
    (&NONE, &[shift(0, 0, 0, 5), END[0], END[1], END[2]], "refused 16 13"),
    (&NONE, &[press(0, 2, 3), raise(1), raise(2), END[0], END[1], END[2]], "void"),
    (&NONE, &[press(0, 2, 3), raise(1), raise(2), bound(-3), END[0], END[1], END[2]], "void"),
    (&NONE, &[press(0, 2, 3), raise(1), raise(2), END[0], END[1]], "refused 14 15"),
    // bound lines are asked before a void line as ever
    (&NONE, &[bound(0), END[0], END[1], END[2]], "refused 13 10"),
    (&NONE, &[bound(1), END[0], END[1], END[2]], "refused 12 10"),
    // a press that sets no gap instead of a void line
    (&NONE, &[press(0, 2, 1), raise(1), raise(2), bound(-1)], "accepted 1 -1"),
    (&NONE, &[press(0, 2, TOP), raise(1), raise(2), bound(-TOP)], "accepted 1 -500000000"),
    (&NONE, &[press(0, 2, TOP + 1), raise(1), raise(2)], "refused 11 12"),
    (&NONE, &[press(0, 2, MOST), raise(1), raise(2)], "refused 11 12"),
    (&NONE, &[press(0, 1, MOST), raise(1)], "refused 10 11"),
    // barred places are not moved by a press, and no range is asked of them
    (&OTHER, &[press(0, 2, 5), raise(1), raise(2), bound(-5)], "accepted 1 -5"),
    (&OTHER, &[press(0, 2, 7), raise(1), raise(2), bound(-5)], "accepted 1 -5"),
    (&OTHER, &[press(0, 2, TOP), raise(1), raise(2), bound(-5)], "accepted 1 -5"),
    (&OTHER, &[press(0, 2, TOP), raise(1), raise(2), END[0], END[1], END[2]], "refused 10 15"),
    // a shift of a barred value: its place stays, the pair's unbarred places move
    (&NONE, &[shift(0, 0, 1, -3), bound(3)], "refused 13 11"),
    (&NONE, &[shift(0, 0, 1, -3), bound(0)], "refused 12 11"),
    (&NONE, &[shift(0, 0, 1, 3), bound(0)], "refused 13 11"),
    (&NONE, &[shift(0, 0, 1, 3), END[0], END[1], END[2]], "refused 16 13"),
    (&NONE, &[shift(0, 0, 1, 3), shift(0, 0, 1, -3), END[0], END[1], END[2]], "void"),
    (&NONE, &[shift(0, 1, 1, TOP), bound(0)], "refused 13 11"),
    (&NONE, &[shift(0, 1, 1, TOP + 1)], "refused 11 10"),
    (&NONE, &[shift(0, 1, 1, -TOP), bound(TOP)], "refused 13 11"),
    (&NONE, &[shift(0, 1, 1, -TOP - 1)], "refused 11 10"),
    (&NONE, &[shift(0, 0, 1, 0)], "refused 5 10"),
    (&NONE, &[shift(0, 0, 1, MOST + 1)], "refused 5 10"),
    (&NONE, &[shift(0, 0, 0, TOP), bound(TOP)], "refused 13 11"),
    (&NONE, &[shift(0, 0, 0, TOP + 1)], "refused 11 10"),
    (&NONE, &[shift(0, 0, 0, TOP), shift(0, 0, 0, -TOP), END[0], END[1], END[2]], "void"),
    // all that it moves is barred
    (&BARE_ROW, &[shift(0, 0, 1, MOST)], "refused 14 11"),
    (&BARE_ROW, &[shift(0, 0, 1, MOST), bound(0)], "refused 13 11"),
    (&BARE_ROW, &[shift(0, 0, 1, MOST), shift(0, 0, 1, MOST), END[0], END[1], END[2]], "void"),
    (&BARE_ROW, &[shift(0, 0, 1, -MOST), shift(0, 0, 1, -MOST), END[0], END[1], END[2]], "void"),
    // pair rounds as the engine writes them
    (&LOWER, &[shift(0, 0, 0, -3), shift(0, 1, 0, -2), bound(2)], "accepted 1 2"),
    (&PARTLY, &[shift(0, 0, 0, -3), shift(0, 1, 0, -2), bound(2)], "refused 12 12"),
    (&PARTLY, &[shift(0, 0, 0, -3), shift(0, 1, 0, -2), bound(3)], "accepted 1 3"),
    (&OTHER, &[shift(0, 0, 1, 5), bound(0)], "refused 13 11"),
];

/// The lines of a case file alone, and the answer: a number at a line.
type CaseRow = (&'static [[i64; 5]], u8, usize);

const HEAD: [i64; 5] = [10, 1, 2, 0, 0];
const PAIR: [[i64; 5]; 4] = [
    [10, 2, 1, 1, 0],
    [11, 0, 0, 0, 0],
    [11, 1, 0, 0, 0],
    [12, 0, 0, 1, 0],
];

const CASES: &[CaseRow] = &[
    // not due
    (&[[14, 0, 0, 0, 0]], 2, 0),
    (&[[15, 0, 0, 0, 0]], 2, 0),
    (&[HEAD, [15, 0, 0, 0, 0]], 2, 1),
    (&[HEAD, [13, 0, 0, 0, 0]], 2, 1),
    (&[HEAD, [16, 0, 0, 0, 0]], 2, 1),
    (&[PAIR[0], PAIR[1], PAIR[2], [14, 0, 0, 0, 0]], 2, 3),
    (&[PAIR[0], PAIR[1], PAIR[2], [15, 0, 0, 0, 0]], 2, 3),
    (&[PAIR[0], PAIR[1], PAIR[2], PAIR[3], [14, 0, 0, 0, 0]], 2, 4),
    (&[PAIR[0], PAIR[1], PAIR[2], PAIR[3], [11, 0, 0, 0, 0]], 2, 4),
    // an unused column is not 0, before 5, 8 and 15
    (&[HEAD, [14, 0, 0, 0, 1]], 2, 1),
    (&[HEAD, [14, 0, 0, 0, LOW]], 2, 1),
    (&[HEAD, [14, 0, 0, 0, -1_000_000]], 2, 1),
    (&[HEAD, [14, 0, 0, 1, 0]], 2, 1),
    (&[HEAD, [14, 1, 0, 0, 1]], 2, 1),
    (&[HEAD, [14, 0, 0, 0, 0], [14, 0, 1, 0, 1]], 2, 2),
    (&[HEAD, [14, 0, 0, 0, 0], [14, 0, 1, 1, 0]], 2, 2),
    (&[PAIR[0], PAIR[1], PAIR[2], PAIR[3], [15, 0, 0, 0, 1]], 2, 4),
    (&[PAIR[0], PAIR[1], PAIR[2], PAIR[3], [15, 0, 0, 0, LOW]], 2, 4),
    (&[PAIR[0], PAIR[1], PAIR[2], PAIR[3], [15, 1, 0, 0, 1]], 2, 4),
    // another place than the one due, before 15
    (&[HEAD, [14, 1, 0, 0, 0]], 5, 1),
    (&[HEAD, [14, 0, 1, 0, 0]], 5, 1),
    (&[HEAD, [14, 0, -1, 0, 0]], 5, 1),
    (&[HEAD, [14, 0, 0, 0, 0], [14, 0, 0, 0, 0]], 5, 2),
    (&[HEAD, [14, 0, 0, 0, 0], [14, 1, 1, 0, 0]], 5, 2),
    (&[HEAD, [14, 0, 0, 0, 0], [14, 0, 2, 0, 0]], 5, 2),
    (&[PAIR[0], PAIR[1], PAIR[2], PAIR[3], [15, 1, 0, 0, 0]], 5, 4),
    (&[PAIR[0], PAIR[1], PAIR[2], PAIR[3], [15, 0, 1, 0, 0]], 5, 4),
    (&[PAIR[0], PAIR[1], PAIR[2], PAIR[3], [15, 0, 0, 1, 0]], 5, 4),
    // only kinds 14 and 15 bar
    (&[HEAD, [11, 0, 0, 0, LOW]], 8, 1),
    (&[HEAD, [11, 1, 0, 0, LOW]], 5, 1),
    (&[HEAD, [11, 0, 0, 0, LOW + 1]], 8, 1),
    (&[HEAD, [14, 0, 0, 0, 0], [11, 0, 1, 0, LOW]], 8, 2),
    (&[HEAD, [14, 0, 0, 0, 0], [11, 0, 1, 0, 1_000_001]], 8, 2),
    (&[PAIR[0], PAIR[1], PAIR[2], PAIR[3], [13, 0, 0, 0, LOW]], 8, 4),
    // a scope is wholly barred, at its last line
    (&[HEAD, [14, 0, 0, 0, 0], [14, 0, 1, 0, 0]], 15, 2),
    (&[[10, 1, 1, 0, 0], [14, 0, 0, 0, 0]], 15, 1),
    (&[PAIR[0], [14, 0, 0, 0, 0]], 15, 1),
    (&[PAIR[0], PAIR[1], [14, 1, 0, 0, 0]], 15, 2),
    (&[PAIR[0], PAIR[1], PAIR[2], PAIR[3], [15, 0, 0, 0, 0]], 15, 4),
    (&[HEAD, [14, 0, 0, 0, 0], [14, 0, 1, 0, 0], [9, 9, 9, 9, 9]], 15, 2),
    // not before its last line, and not with a weight in it
    (&[HEAD, [14, 0, 0, 0, 0]], 14, 2),
    (&[[10, 2, 2, 0, 0], [14, 0, 0, 0, 0], [11, 0, 1, 0, 0]], 14, 3),
    (&[[10, 2, 2, 0, 0], [11, 0, 0, 0, 0], [14, 0, 1, 0, 0]], 14, 3),
    // the end of one scope and the beginning of the next
    (
        &[
            [10, 2, 2, 0, 0],
            [11, 0, 0, 0, 0],
            [14, 0, 1, 0, 0],
            [14, 1, 0, 0, 0],
            [11, 1, 1, 0, 0],
            [14, 0, 0, 0, 0],
        ],
        2,
        5,
    ),
];

/// A pair's lines, each with 15 or 13, after two links of two values.
fn pair_rows() -> Vec<Sample> {
    let front = [
        [10, 2, 2, 1, 0],
        [11, 0, 0, 0, 0],
        [11, 0, 1, 0, 0],
        [11, 1, 0, 0, 0],
        [11, 1, 1, 0, 0],
        [12, 0, 0, 1, 0],
    ];
    let mut samples = Vec::new();
    for marks in 0..16u8 {
        let mut file = front.to_vec();
        for at in 0..4 {
            let kind = if marks >> at & 1 == 1 { 15 } else { 13 };
            file.push([kind, 0, at / 2, at % 2, 0]);
        }
        let output = if marks == 15 { "refused 15 9\n" } else { "accepted 0 0\n" };
        samples.push(Sample {
            name: "by hand, barred pair",
            input: lines(&file),
            press: false,
            output: output.into(),
        });
    }
    samples
}

fn case_rows() -> Vec<Sample> {
    let mut samples = Vec::new();
    for &(file, number, line) in CASES {
        for press in [true, false] {
            samples.push(Sample {
                name: "by hand, barred case",
                input: lines(file),
                press,
                output: format!("refused {number} {line}\n"),
            });
        }
    }
    samples
}

fn log_rows() -> Vec<Sample> {
    let row = |&(table, log, answer): &LogRow| {
        let case = case_of(table.values, table.edges, table.weights);
        replayed("by hand, barred log", &case, &lines(log), answer)
    };
    LOGS.iter().map(row).collect()
}

/// What is no whole line in columns, inside a void line and after it.
fn byte_rows() -> Vec<Sample> {
    let case = case_of(NONE.values, NONE.edges, NONE.weights);
    let bad = b" 4   0   0   0          +2\n";
    let mut samples = Vec::new();
    for (held, line) in [(&END[..1], 11), (&END[..2], 12), (&END[..], 13)] {
        let held = lines(held);
        let answer = format!("refused 1 {line}");
        samples.push(replayed("by hand, void", &case, &[&held[..], bad].concat(), &answer));
        for length in 1..27 {
            let part = [&held[..], &bad[..length]].concat();
            let answer = format!("refused 14 {line}");
            samples.push(replayed("by hand, void", &case, &part, &answer));
        }
    }
    samples
}

/// What `press` prints of a case file, its void lines being the end.
fn press_rows() -> Vec<Sample> {
    let small = |row: &&Row| row.table.weights.iter().all(|&w| w == B || w.abs() <= 1_000_000);
    let whole = |row: &&Row| row.run == (Rounds::All, ENOUGH) && small(row);
    let rows = ROWS.iter().filter(whole);
    rows.map(|row| pressed(row.name, &row.case(), &lines(row.log))).collect()
}

/// The log of each run, replayed.
fn own_rows() -> Vec<Sample> {
    let small = |row: &&Row| row.table.weights.iter().all(|&w| w == B || w.abs() <= 1_000_000);
    let rows = ROWS.iter().filter(small);
    let own = |row: &Row| {
        let run = row.expected();
        let answer = match run.stop {
            Stop::Void => "void".into(),
            _ => format!("accepted {} {}", run.rounds, run.upper_bound),
        };
        replayed(row.name, &row.case(), &run.log, &answer)
    };
    rows.map(own).collect()
}

pub fn by_hand() -> Vec<Sample> {
    [case_rows(), pair_rows(), log_rows(), byte_rows(), press_rows(), own_rows()].concat()
}

/// A table, and the number that applies to a run from it.
type RefusedRow = (&'static str, Table, u8);

const REFUSED: &[RefusedRow] = &[
    ("a link barred", two(&[B, B, 0, 0, 0, 0, 0, 0]), 15),
    ("the last link barred", two(&[0, 0, B, B, 0, 0, 0, 0]), 15),
    ("a pair barred", two(&[0, 0, 0, 0, B, B, B, B]), 15),
    ("all barred", two(&[B, B, B, B, B, B, B, B]), 15),
    ("8 before 15, later", two(&[B, B, 0, 0, 0, 0, 0, R + 1]), 8),
    ("8 before 15, earlier", two(&[-R - 1, 0, B, B, 0, 0, 0, 0]), 8),
    ("nearly barred", two(&[0, B + 1, 0, 0, 0, 0, 0, 0]), 8),
    ("below barred", two(&[0, B - 1, 0, 0, 0, 0, 0, 0]), 8),
    ("2,000,000,000", two(&[0, 0, 0, 0, 0, 0, 0, -B]), 8),
    ("6 before 15", Table { values: 2, edges: &[(1, 0)], weights: &[B, B, 0, 0, 0, 0, 0, 0] }, 6),
    ("4 before 15", two(&[B, B, 0, 0, 0, 0, 0]), 4),
];

/// Tables that are refused: name, table, number.
pub fn refused() -> Vec<(&'static str, Case, u8)> {
    let case = |table: &Table| Case {
        variables: 2,
        values: table.values,
        edges: table.edges.to_vec(),
        weights: table.weights.to_vec(),
    };
    let rows = REFUSED.iter();
    rows.map(|(name, table, number)| (*name, case(table), *number)).collect()
}

pub fn rows() -> &'static [Row] {
    ROWS
}

/// A case, a plan, and its total.
type TotalRow = (&'static Table, &'static [u64], Result<i64, u8>);

const TOTALS: &[TotalRow] = &[
    (&OTHER, &[1, 0], Ok(-5)),
    (&OTHER, &[0, 0], Err(5)),
    (&OTHER, &[0, 1], Err(5)),
    (&OTHER, &[1, 1], Err(5)),
    (&OTHER, &[2, 0], Err(5)),
    (&OTHER, &[0], Err(4)),
    (&OTHER, &[0, 0, 0], Err(4)),
    (&OTHER, &[2], Err(4)),
    (&WORSE, &[0, 0], Ok(-1)),
    (&NONE, &[0, 0], Err(5)),
    (&LOWER, &[0, 0], Ok(-4)),
    (&LOWER, &[1, 0], Ok(2)),
];

/// A case, two plans, and the better one.
type ScoreRow = (&'static Table, [&'static [u64]; 2], Result<Better, u8>);

const SCORES: &[ScoreRow] = &[
    (&OTHER, [&[0, 0], &[1, 0]], Ok(Better::Second)),
    (&OTHER, [&[1, 0], &[0, 0]], Ok(Better::First)),
    (&OTHER, [&[0, 0], &[0, 1]], Ok(Better::First)),
    (&OTHER, [&[1, 1], &[0, 0]], Ok(Better::First)),
    (&OTHER, [&[1, 0], &[1, 0]], Ok(Better::First)),
    (&OTHER, [&[0, 0], &[2, 0]], Err(5)),
    (&OTHER, [&[0, 0], &[0]], Err(4)),
    (&NONE, [&[0, 0], &[1, 1]], Ok(Better::First)),
    // a great sum over what is not barred does not help
    (&NO_CHOICE, [&[1, 1], &[0, 0]], Ok(Better::First)),
    (&LOWER, [&[0, 0], &[1, 0]], Ok(Better::Second)),
    (&LOWER, [&[0, 1], &[0, 0]], Ok(Better::Second)),
];

/// Totals and scores of both readings; the number of answers compared.
pub fn check() -> Result<usize, String> {
    for (name, case, number) in refused() {
        if calls::refusal(&case, calls::needed(&case)) != Some(number) {
            return Err(format!("{name}: not refused by {number}"));
        }
    }
    for (table, plan, total) in TOTALS {
        let case = case_of(table.values, table.edges, table.weights);
        if score::objective(&case, plan) != *total {
            return Err(format!("total of {plan:?} of {case:?}"));
        }
    }
    for (table, [first, second], better) in SCORES {
        let case = case_of(table.values, table.edges, table.weights);
        for found in [
            score::score(&case, first, second),
            slow::score::score(&case, first, second),
        ] {
            if found != *better {
                return Err(format!("{found:?} of {first:?} and {second:?} of {case:?}"));
            }
        }
    }
    Ok(REFUSED.len() + TOTALS.len() + 2 * SCORES.len())
}
