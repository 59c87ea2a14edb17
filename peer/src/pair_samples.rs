//! Samples of pair rounds made by hand from document 02: working tables lent to a run,
//! many of them at the ends of the working range, asked of the three engines.

use crate::samples::{case_of, lines};
use crate::types::*;
use crate::{barred_samples, engine, plain, programs, slow};

const R: i32 = 500_000_000;
const TOP: i64 = R as i64;
const ENOUGH: u64 = PROGRAM_ROUNDS;

pub struct Table {
    pub values: usize,
    pub edges: &'static [(usize, usize)],
    pub weights: &'static [i32],
}

/// A run of the table: what it is, rounds and limit, how it ends, ceiling, log, weights.
pub struct Row {
    pub name: &'static str,
    pub table: &'static Table,
    pub run: (Rounds, u64),
    pub end: (Stop, i64),
    pub log: &'static [[i64; 5]],
    pub weights: &'static [i32],
}

pub const fn bound(amount: i64) -> [i64; 5] {
    [4, 0, 0, 0, amount]
}

pub const fn raise(scope: i64) -> [i64; 5] {
    [3, scope, 0, 0, 0]
}

pub const fn shift(pair: i64, end: i64, value: i64, amount: i64) -> [i64; 5] {
    [1, pair, end, value, amount]
}

const fn two(weights: &'static [i32]) -> Table {
    Table {
        values: 2,
        edges: &[(0, 1)],
        weights,
    }
}

const fn four(weights: &'static [i32]) -> Table {
    Table {
        values: 2,
        edges: &[(0, 1), (2, 3)],
        weights,
    }
}

static P5: Table = two(&[2, 0, 2, 0, -3, 0, 0, 0]);
static ZEROS: Table = Table {
    values: 3,
    edges: &[(0, 1)],
    weights: &[0, 4, -1, 5, 0, 0, 0, 0, 0, -3, 0, 0, 0, 0, 0],
};
static ONE_END: Table = two(&[0, 0, 2, 0, -1, 0, -1, 0]);
static EQUAL: Table = two(&[2, 2, 1, 0, -3, 0, 0, 0]);
static BORDER: Table = two(&[R, 0, 2, 0, -3, 0, 0, 0]);
static PASSED: Table = two(&[R, 0, 1, 0, 0, 1, 1, 0]);
static HALF_WAY: Table = two(&[R, 0, 0, -1, 0, 1, 1, 0]);
static HIGHER: Table = four(&[R, 0, 1, 0, 2, 0, 2, 0, 0, 1, 1, 0, -3, 0, 0, 0]);
static LINK_0: Table = Table {
    values: 2,
    edges: &[(1, 2)],
    weights: &[0, 0, R, 0, 1, 0, 0, 1, 1, 0],
};
static BACK: Table = two(&[R, 0, 0, -3, -5, 1, -5, 0]);
static BACK_BY_PAIR: Table = Table {
    values: 2,
    edges: &[(0, 1), (1, 2)],
    weights: &[5, 0, R, 0, 1, 0, 0, 0, 3, 0, -2, -1, 0, 0],
};
static OUT_BY_PAIR: Table = Table {
    values: 2,
    edges: &[(0, 1), (1, 2)],
    weights: &[1, 0, -5, -6, R, 0, -3, 0, 0, 0, 1, 5, 0, 0],
};
static TRIANGLE: Table = Table {
    values: 2,
    edges: &[(0, 1), (0, 2), (1, 2), (2, 3)],
    weights: &[
        0, 0, 0, 0, 2, 0, 2, 0, -1, 0, 0, -1, -1, 0, 0, -1, -1, 0, 0, -1, -3, 0, 0, 0,
    ],
};
static ONE_VALUE: Table = Table {
    values: 1,
    edges: &[(0, 1)],
    weights: &[5, -3, 7],
};
static NO_PAIR: Table = Table {
    values: 2,
    edges: &[],
    weights: &[R, -R, 3, 4],
};
static STUCK: Table = two(&[-R, -R, 0, -1, -1, 0, -1, 0]);
static STUCK_LATER: Table = four(&[-R, -R, 0, -1, 2, 0, 2, 0, -1, 0, -1, 0, -3, 0, 0, 0]);

const ROWS: &[Row] = &[
    Row {
        name: "P5",
        table: &P5,
        run: (Rounds::All, ENOUGH),
        end: (Stop::Settled, 2),
        log: &[shift(0, 0, 0, -2), shift(0, 1, 0, -2), bound(2)],
        weights: &[0, 0, 0, 0, 1, 2, 2, 0],
    },
    Row {
        name: "P5 at its limit",
        table: &P5,
        run: (Rounds::All, 0),
        end: (Stop::Limit, 4),
        log: &[],
        weights: P5.weights,
    },
    Row {
        name: "weights of 0 left out",
        table: &ZEROS,
        run: (Rounds::All, ENOUGH),
        end: (Stop::Settled, 6),
        log: &[
            shift(0, 0, 1, -4),
            shift(0, 0, 2, 1),
            shift(0, 1, 0, -5),
            bound(6),
        ],
        weights: &[0, 0, 0, 0, 0, 0, 5, 0, 0, 6, 4, 4, 4, -1, -1],
    },
    Row {
        name: "a link of zeros",
        table: &ONE_END,
        run: (Rounds::All, ENOUGH),
        end: (Stop::Settled, 1),
        log: &[shift(0, 1, 0, -2), bound(1)],
        weights: &[0, 0, 0, 0, 1, 0, 1, 0],
    },
    Row {
        name: "equality",
        table: &EQUAL,
        run: (Rounds::All, 0),
        end: (Stop::Settled, 3),
        log: &[],
        weights: EQUAL.weights,
    },
    Row {
        name: "at the border",
        table: &BORDER,
        run: (Rounds::All, ENOUGH),
        end: (Stop::Settled, TOP),
        log: &[shift(0, 0, 0, -TOP), shift(0, 1, 0, -2), bound(TOP)],
        weights: &[0, 0, 0, 0, R - 1, R, 2, 0],
    },
    Row {
        name: "passed over, a press",
        table: &PASSED,
        run: (Rounds::All, ENOUGH),
        end: (Stop::Settled, TOP + 1),
        log: &[[2, 0, 2, 0, 1], raise(1), raise(2), bound(TOP + 1)],
        weights: &[R - 1, 0, 1, 1, 1, 1, 1, 1],
    },
    Row {
        name: "passed over, pairs only",
        table: &PASSED,
        run: (Rounds::Pairs, 0),
        end: (Stop::Settled, TOP + 2),
        log: &[],
        weights: PASSED.weights,
    },
    Row {
        name: "passed over, link 0 is pressed though it has no pair",
        table: &LINK_0,
        run: (Rounds::All, ENOUGH),
        end: (Stop::Settled, TOP + 1),
        log: &[[2, 0, 3, 0, 1], raise(1), raise(2), raise(3), bound(TOP + 1)],
        weights: &[-1, -1, R, 1, 1, 1, 1, 1, 1, 1],
    },
    Row {
        name: "out of range half way",
        table: &HALF_WAY,
        run: (Rounds::All, ENOUGH),
        end: (Stop::Settled, TOP),
        log: &[[2, 0, 2, 0, 1], raise(1), raise(2), bound(TOP)],
        weights: &[R - 1, 0, 0, 0, 1, 1, 1, 1],
    },
    Row {
        name: "a higher pair",
        table: &HIGHER,
        run: (Rounds::All, ENOUGH),
        end: (Stop::Settled, TOP + 3),
        log: &[
            shift(1, 0, 0, -2),
            shift(1, 1, 0, -2),
            bound(TOP + 4),
            [2, 0, 2, 0, 1],
            raise(1),
            raise(4),
            bound(TOP + 3),
        ],
        weights: &[R - 1, 0, 1, 1, 0, 0, 0, 0, 1, 1, 1, 1, 1, 2, 2, 0],
    },
    Row {
        name: "a higher pair, pairs only",
        table: &HIGHER,
        run: (Rounds::Pairs, 1),
        end: (Stop::Settled, TOP + 4),
        log: &[shift(1, 0, 0, -2), shift(1, 1, 0, -2), bound(TOP + 4)],
        weights: &[R, 0, 1, 0, 0, 0, 0, 0, 0, 1, 1, 0, 1, 2, 2, 0],
    },
    Row {
        name: "a pair round after a press",
        table: &BACK,
        run: (Rounds::All, ENOUGH),
        end: (Stop::Settled, TOP - 2),
        log: &[
            [2, 0, 2, 0, 1],
            raise(1),
            raise(2),
            bound(TOP),
            shift(0, 0, 0, 1 - TOP),
            shift(0, 1, 1, 2),
            bound(TOP - 2),
        ],
        weights: &[0, 0, 0, 0, R - 5, R - 2, -4, -1],
    },
    Row {
        name: "the lower pair after the higher one",
        table: &BACK_BY_PAIR,
        run: (Rounds::Pairs, ENOUGH),
        end: (Stop::Settled, TOP + 4),
        log: &[
            shift(1, 0, 0, -TOP),
            shift(1, 1, 0, -1),
            bound(TOP + 7),
            shift(0, 0, 0, -5),
            bound(TOP + 4),
        ],
        weights: &[0, 0, 0, 0, 0, 0, 5, 5, 3, 0, R - 1, R - 1, 1, 0],
    },
    Row {
        name: "pairs only at its limit",
        table: &BACK_BY_PAIR,
        run: (Rounds::Pairs, 1),
        end: (Stop::Limit, TOP + 7),
        log: &[shift(1, 0, 0, -TOP), shift(1, 1, 0, -1), bound(TOP + 7)],
        weights: &[5, 0, 0, 0, 0, 0, 0, 0, 3, 0, R - 1, R - 1, 1, 0],
    },
    Row {
        name: "the higher pair out of range by the lower one",
        table: &OUT_BY_PAIR,
        run: (Rounds::All, ENOUGH),
        end: (Stop::Settled, TOP - 4),
        log: &[
            shift(0, 0, 0, -1),
            shift(0, 1, 0, 5),
            shift(0, 1, 1, 6),
            bound(TOP),
            [2, 0, 2, 0, 4],
            raise(2),
            raise(4),
            bound(TOP - 4),
        ],
        weights: &[-4, -4, 0, 0, R, 4, -7, -5, -5, -6, 5, 5, 4, 4],
    },
    Row {
        name: "a press after the pairs",
        table: &TRIANGLE,
        run: (Rounds::All, ENOUGH),
        end: (Stop::Settled, 1),
        log: &[
            shift(3, 0, 0, -2),
            shift(3, 1, 0, -2),
            bound(2),
            [2, 0, 3, 0, 1],
            raise(4),
            raise(5),
            raise(6),
            bound(1),
        ],
        weights: &[
            -1, -1, 0, 0, 0, 0, 0, 0, 0, 0, 0, 0, 0, 0, 0, 0, 0, 0, 0, 0, 1, 2, 2, 0,
        ],
    },
    Row {
        name: "pairs only with a press left",
        table: &TRIANGLE,
        run: (Rounds::Pairs, 1),
        end: (Stop::Settled, 2),
        log: &[shift(3, 0, 0, -2), shift(3, 1, 0, -2), bound(2)],
        weights: &[
            0, 0, 0, 0, 0, 0, 0, 0, -1, 0, 0, -1, -1, 0, 0, -1, -1, 0, 0, -1, 1, 2, 2, 0,
        ],
    },
    Row {
        name: "one value",
        table: &ONE_VALUE,
        run: (Rounds::All, 0),
        end: (Stop::Settled, 9),
        log: &[],
        weights: ONE_VALUE.weights,
    },
    Row {
        name: "no pair",
        table: &NO_PAIR,
        run: (Rounds::Pairs, 0),
        end: (Stop::Settled, TOP + 4),
        log: &[],
        weights: NO_PAIR.weights,
    },
    Row {
        name: "refused",
        table: &STUCK,
        run: (Rounds::All, 1),
        end: (Stop::Refused(11), -TOP),
        log: &[],
        weights: STUCK.weights,
    },
    Row {
        name: "limit before refused",
        table: &STUCK,
        run: (Rounds::All, 0),
        end: (Stop::Limit, -TOP),
        log: &[],
        weights: STUCK.weights,
    },
    Row {
        name: "refused after a round",
        table: &STUCK_LATER,
        run: (Rounds::All, ENOUGH),
        end: (Stop::Refused(11), 2 - TOP),
        log: &[shift(1, 0, 0, -2), shift(1, 1, 0, -2), bound(2 - TOP)],
        weights: &[-R, -R, 0, -1, 0, 0, 0, 0, -1, 0, -1, 0, 1, 2, 2, 0],
    },
];

impl Row {
    pub fn expected(&self) -> Run {
        Run {
            stop: self.end.0,
            rounds: self.log.iter().filter(|line| line[0] == 4).count() as u64,
            upper_bound: self.end.1,
            log: lines(self.log),
            weights: self.weights.to_vec(),
        }
    }

    pub fn case(&self) -> Case {
        case_of(self.table.values, self.table.edges, self.table.weights)
    }
}

/// Every row, with barred places and without, of the three engines; the number of runs
/// compared.
pub fn check() -> Result<usize, String> {
    let rows = || ROWS.iter().chain(barred_samples::rows());
    for row in rows() {
        let (case, (kind, limit)) = (row.case(), row.run);
        for engine in [engine::run_case, plain::run_case, slow::engine::run] {
            let run = engine(&case, kind, limit);
            if run != row.expected() {
                return Err(format!("{}: {run:?}", row.name));
            }
        }
    }
    printed_refusal()?;
    Ok(3 * rows().count() + 2)
}

/// What `press` would print of a run that is refused after a round.
fn printed_refusal() -> Result<(), String> {
    let table = case_of(2, STUCK_LATER.edges, STUCK_LATER.weights);
    let run = engine::run_case(&table, Rounds::All, ENOUGH);
    let expected = " 1   1   0   0          -2
 1   1   1   0          -2
 4   0   0   0  -499999998
refused 11 19
";
    for print in [programs::press_text, slow::programs::press_text] {
        let text = print(run.clone(), table.file_lines());
        if text != expected.as_bytes() {
            return Err(format!("refused after a round: {text:?}"));
        }
    }
    Ok(())
}

/// Every row, those with barred places too: name, table, rounds and limit, the run.
pub fn runs() -> Vec<(&'static str, Case, (Rounds, u64), Run)> {
    let rows = ROWS.iter().chain(barred_samples::rows());
    rows.map(|row| (row.name, row.case(), row.run, row.expected())).collect()
}

/// The rows that are whole runs from a case file: name, case, log.
pub fn for_press() -> Vec<(&'static str, Case, Vec<u8>)> {
    let small = |row: &&Row| row.case().weights.iter().all(|w| w.abs() <= START_LIMIT as i32);
    let whole = |row: &&Row| row.run == (Rounds::All, ENOUGH) && small(row);
    let rows = ROWS.iter().filter(whole);
    rows.map(|row| (row.name, row.case(), lines(row.log))).collect()
}
