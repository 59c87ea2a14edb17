//! Inputs made by hand, with the answer read from document 01: every number a
//! program can give, at every kind of line it can meet, and which number comes first.

use crate::samples::{lines, p4, replayed, Sample};
use crate::slow;

/// P4's case has lines 0 to 9, so its log begins at line 10.
const P4_LINES: usize = 10;

const PRESS: [i64; 5] = [2, 0, 2, 0, 2];
const FIRST: [i64; 5] = [3, 1, 0, 0, 0];
const LAST: [i64; 5] = [3, 2, 0, 0, 0];
const BOUND: [i64; 5] = [4, 0, 0, 0, 2];
const TOP: i64 = 1_000_000_000;

/// Log lines after P4's case; the answer is a number at the line counted from the
/// log's first.
type LogRow = (&'static [[i64; 5]], u8, usize);

const LOGS: &[LogRow] = &[
    // 2: the kind is not due
    (&[[3, 1, 0, 0, 0]], 2, 0),
    (&[[0, 0, 0, 0, 0]], 2, 0),
    (&[[6, 0, 0, 0, 0]], 2, 0),
    (&[[14, 0, 0, 0, 0]], 2, 0),
    (&[[15, 0, 0, 0, 0]], 2, 0),
    (&[[10, 1, 1, 0, 0]], 2, 0),
    (&[[11, 0, 0, 0, 2]], 2, 0),
    (&[[12, 0, 0, 1, 0]], 2, 0),
    (&[[13, 0, 0, 0, 0]], 2, 0),
    (&[[99, 0, 0, 0, 0]], 2, 0),
    (&[[-1, 0, 0, 0, 0]], 2, 0),
    (&[PRESS, [1, 0, 0, 0, 1]], 2, 1),
    (&[PRESS, PRESS], 2, 1),
    (&[PRESS, BOUND], 2, 1),
    (&[PRESS, FIRST, BOUND], 2, 2),
    (&[PRESS, FIRST, LAST, LAST], 2, 3),
    // 2: an unused column is not 0
    (&[[2, 0, 2, 1, 2]], 2, 0),
    (&[PRESS, [3, 1, 1, 0, 0]], 2, 1),
    (&[PRESS, [3, 1, 0, 1, 0]], 2, 1),
    (&[PRESS, [3, 1, 0, 0, 1]], 2, 1),
    (&[PRESS, FIRST, LAST, [4, 1, 0, 0, 2]], 2, 3),
    (&[PRESS, FIRST, LAST, [4, 0, 1, 0, 2]], 2, 3),
    (&[PRESS, FIRST, LAST, [4, 0, 0, 1, 2]], 2, 3),
    // 2 before 5
    (&[[2, 9, 9, 1, 0]], 2, 0),
    (&[PRESS, [3, 9, 0, 0, 1]], 2, 1),
    // 5: shift
    (&[[1, 1, 0, 0, 1]], 5, 0),
    (&[[1, -1, 0, 0, 1]], 5, 0),
    (&[[1, 0, 2, 0, 1]], 5, 0),
    (&[[1, 0, -1, 0, 1]], 5, 0),
    (&[[1, 0, 0, 2, 1]], 5, 0),
    (&[[1, 0, 0, -1, 1]], 5, 0),
    (&[[1, 0, 0, 0, 0]], 5, 0),
    (&[[1, 0, 0, 0, TOP + 1]], 5, 0),
    (&[[1, 0, 0, 0, -TOP - 1]], 5, 0),
    // 5: press and raise
    (&[[2, 2, 2, 0, 1]], 5, 0),
    (&[[2, -1, 2, 0, 1]], 5, 0),
    (&[[2, 0, 0, 0, 1]], 5, 0),
    (&[[2, 0, 3, 0, 1]], 5, 0),
    (&[[2, 0, -1, 0, 1]], 5, 0),
    (&[[2, 0, 2, 0, 0]], 5, 0),
    (&[[2, 0, 2, 0, -1]], 5, 0),
    (&[[2, 0, 2, 0, TOP + 1]], 5, 0),
    (&[PRESS, [3, 3, 0, 0, 0]], 5, 1),
    (&[PRESS, [3, -1, 0, 0, 0]], 5, 1),
    // 5 before 9
    (&[PRESS, LAST, [3, -1, 0, 0, 0]], 5, 2),
    // 9
    (&[PRESS, [3, 0, 0, 0, 0]], 9, 1),
    (&[PRESS, FIRST, FIRST], 9, 2),
    (&[PRESS, LAST, FIRST], 9, 2),
    (&[[2, 1, 2, 0, 2], [3, 0, 0, 0, 0], FIRST], 9, 2),
    // 9 before 10, at the last raise line
    (&[[2, 0, 1, 0, 2], [3, 0, 0, 0, 0]], 9, 1),
    // 10
    (&[[2, 0, 1, 0, 2], FIRST], 10, 1),
    (&[[2, 0, 1, 0, 2], LAST], 10, 1),
    (&[PRESS, FIRST, LAST, BOUND, PRESS, FIRST, LAST], 10, 6),
    // 10 before 11
    (&[[2, 0, 1, 0, TOP], FIRST], 10, 1),
    // 11
    (&[[1, 0, 0, 0, TOP]], 11, 0),
    (&[[1, 0, 0, 0, -TOP]], 11, 0),
    (&[[1, 0, 0, 0, 499_999_998]], 11, 0),
    (&[[1, 0, 0, 1, 500_000_001]], 11, 0),
    (&[[1, 0, 1, 1, -500_000_001]], 11, 0),
    (&[[2, 0, 2, 0, TOP], FIRST, LAST], 11, 2),
    (&[[2, 0, 2, 0, 500_000_003], FIRST, LAST], 11, 2),
    // 12
    (&[[4, 0, 0, 0, 5]], 12, 0),
    (&[[4, 0, 0, 0, 3]], 12, 0),
    (&[[4, 0, 0, 0, 999_999_999_999]], 12, 0),
    (&[[4, 0, 0, 0, -99_999_999_999]], 12, 0),
    (&[PRESS, FIRST, LAST, [4, 0, 0, 0, 3]], 12, 3),
    // 13
    (&[[4, 0, 0, 0, 4]], 13, 0),
    (&[PRESS, FIRST, LAST, BOUND, BOUND], 13, 4),
    (
        &[[1, 0, 0, 1, 500_000_000], [4, 0, 0, 0, 500_000_002]],
        13,
        1,
    ),
    (
        &[[1, 0, 0, 0, 499_999_997], [4, 0, 0, 0, 500_000_001]],
        13,
        1,
    ),
    // 14
    (&[PRESS], 14, 1),
    (&[PRESS, FIRST], 14, 2),
    (&[PRESS, FIRST, LAST], 14, 3),
    (&[[1, 0, 0, 0, 1]], 14, 1),
    (&[PRESS, FIRST, LAST, BOUND, [1, 0, 0, 0, 1]], 14, 5),
];

/// Lines of a case file alone; the answer is a number at a line.
type CaseRow = (&'static [[i64; 5]], u8, usize);

const HEAD: [i64; 5] = [10, 3, 1, 2, 0];
const LINKS: [[i64; 5]; 3] = [[11, 0, 0, 0, 0], [11, 1, 0, 0, 0], [11, 2, 0, 0, 0]];
const ONE: [i64; 5] = [12, 0, 0, 1, 0];
const ONE_WEIGHT: [i64; 5] = [13, 0, 0, 0, 0];

const HEADS: &[CaseRow] = &[
    (&[[11, 0, 0, 0, 0]], 2, 0),
    (&[[1, 1, 1, 0, 0]], 2, 0),
    (&[[10, 1, 1, 0, 1]], 2, 0),
    (&[[10, 49, 1, 0, 1]], 2, 0),
    (&[[10, 0, 1, 0, 0]], 3, 0),
    (&[[10, 49, 1, 0, 0]], 3, 0),
    (&[[10, -1, 1, 0, 0]], 3, 0),
    (&[[10, 1, 0, 0, 0]], 3, 0),
    (&[[10, 1, 9, 0, 0]], 3, 0),
    (&[[10, 1, 1, 97, 0]], 3, 0),
    (&[[10, 1, 1, -1, 0]], 3, 0),
    (&[[10, 48, 8, 96, 0]], 14, 1),
    (&[HEAD, [11, 0, 0, 1, 0]], 2, 1),
    (&[HEAD, [12, 0, 0, 1, 0]], 2, 1),
    (&[HEAD, HEAD], 2, 1),
    (&[HEAD, [11, 1, 0, 0, 0]], 5, 1),
    (&[HEAD, [11, 3, 0, 0, 0]], 5, 1),
    (&[HEAD, [11, 0, 1, 0, 0]], 5, 1),
    (&[HEAD, [11, 0, -1, 0, 0]], 5, 1),
    (&[HEAD, [11, 1, 0, 0, 1_000_001]], 5, 1),
    (&[HEAD, [11, 0, 0, 0, 1_000_001]], 8, 1),
    (&[HEAD, [11, 0, 0, 0, -1_000_001]], 8, 1),
    (&[HEAD, [11, 0, 0, 0, 999_999_999_999]], 8, 1),
    (&[HEAD, [11, 0, 0, 0, -1_000_000]], 14, 2),
];

/// The same after the head and three link weights, at lines counted from there.
const EDGES: &[CaseRow] = &[
    (&[[11, 0, 0, 0, 0]], 2, 0),
    (&[[12, 0, 0, 1, 1]], 2, 0),
    (&[ONE_WEIGHT], 2, 0),
    (&[[12, 1, 0, 1, 0]], 5, 0),
    (&[[12, 0, 3, 1, 0]], 5, 0),
    (&[[12, 0, 0, 3, 0]], 5, 0),
    (&[[12, 0, -1, 1, 0]], 5, 0),
    (&[[12, 1, 1, 0, 0]], 5, 0),
    (&[[12, 0, 1, 1, 0]], 6, 0),
    (&[[12, 0, 1, 0, 0]], 6, 0),
    (&[ONE, [12, 1, 0, 2, 0]], 2, 1),
    (&[ONE, [13, 1, 0, 0, 0]], 5, 1),
    (&[ONE, [13, 0, 1, 0, 0]], 5, 1),
    (&[ONE, [13, 0, 0, 1, 0]], 5, 1),
    (&[ONE, [13, 0, 0, 0, -1_000_001]], 8, 1),
    (&[ONE, [13, 0, 0, 1, -1_000_001]], 5, 1),
    (&[ONE, ONE_WEIGHT], 14, 2),
    (&[ONE, ONE_WEIGHT, [12, 0, 0, 2, 0]], 5, 2),
    (&[ONE, ONE_WEIGHT, [12, 1, 0, 1, 0]], 7, 2),
    (&[ONE, ONE_WEIGHT, [12, 1, 1, 0, 0]], 6, 2),
    (&[ONE, ONE_WEIGHT, [12, 1, 1, 2, 0]], 14, 3),
    (
        &[
            ONE,
            ONE_WEIGHT,
            [12, 1, 1, 2, 0],
            [13, 1, 0, 0, 0],
            [10, 1, 1, 0, 0],
        ],
        2,
        4,
    ),
];

/// Lines that are not in columns, all 27 bytes long.
const NO_COLUMNS: [&[u8; 27]; 14] = [
    b"xxxxxxxxxxxxxxxxxxxxxxxxxxx",
    b" 4   0   0   0           2 ",
    b" 4   0   0   0           2\r",
    b" 4   0   0   0          02\n",
    b" 4   0   0   0          +2\n",
    b" 4   0   0   0          2 \n",
    b" 4   0   0  -0           2\n",
    b" 4   0   0               2\n",
    b" 4   0 -     0           2\n",
    b" 4   00      0           2\n",
    b"04   0   0   0           2\n",
    b"4    0   0   0           2\n",
    b" 4   0   0   0         - 2\n",
    b" 4   0\t  0   0           2\n",
];

fn refusal(number: u8, line: usize) -> String {
    format!("refused {number} {line}")
}

fn log_rows() -> Vec<Sample> {
    let row = |&(log, number, line): &LogRow| {
        let answer = refusal(number, P4_LINES + line);
        replayed("by hand, log", &p4(), &lines(log), &answer)
    };
    LOGS.iter().map(row).collect()
}

fn case_rows() -> Vec<Sample> {
    let front = [&[HEAD][..], &LINKS].concat();
    let sample = |input: Vec<u8>, number, line, press| Sample {
        name: "by hand, case",
        input,
        press,
        output: refusal(number, line) + "\n",
    };
    let mut samples = Vec::new();
    for &(file, number, line) in HEADS {
        samples.push(sample(lines(file), number, line, true));
        samples.push(sample(lines(file), number, line, false));
    }
    for &(rest, number, line) in EDGES {
        let file = lines(&[&front[..], rest].concat());
        samples.push(sample(file.clone(), number, front.len() + line, true));
        samples.push(sample(file, number, front.len() + line, false));
    }
    samples
}

/// Bad columns and part lines: first in the input, after the case, inside a press.
fn byte_rows() -> Vec<Sample> {
    let mut samples = Vec::new();
    let press = lines(&[PRESS]);
    for bad in NO_COLUMNS {
        let output = "refused 1 0\n".to_string();
        samples.push(Sample {
            name: "columns",
            input: bad.to_vec(),
            press: true,
            output,
        });
        samples.push(replayed("columns", &p4(), bad, &refusal(1, P4_LINES)));
        let inside = [&press[..], bad].concat();
        samples.push(replayed(
            "columns",
            &p4(),
            &inside,
            &refusal(1, P4_LINES + 1),
        ));
    }
    let whole = lines(&[PRESS, FIRST, LAST, BOUND]);
    for length in 1..27 {
        let part = &whole[..3 * 27 + length];
        samples.push(replayed(
            "part line",
            &p4(),
            part,
            &refusal(14, P4_LINES + 3),
        ));
        let after = [&whole[..], &whole[..length]].concat();
        samples.push(replayed(
            "part line",
            &p4(),
            &after,
            &refusal(14, P4_LINES + 4),
        ));
        let input = slow::case::write(&p4())[..length].to_vec();
        let output = "refused 14 0\n".to_string();
        samples.push(Sample {
            name: "part line",
            input,
            press: true,
            output,
        });
    }
    samples
}

/// The working range's ends are inside it.
fn accepted() -> Vec<Sample> {
    let there_and_back = lines(&[
        [1, 0, 0, 1, 500_000_000],
        [1, 0, 0, 1, -500_000_000],
        PRESS,
        FIRST,
        LAST,
        BOUND,
    ]);
    let high = lines(&[
        [1, 0, 0, 0, 499_999_997],
        [1, 0, 0, 0, -499_999_997],
        PRESS,
        FIRST,
        LAST,
        BOUND,
    ]);
    vec![
        replayed("there and back", &p4(), &there_and_back, "accepted 1 2"),
        replayed("there and back, low", &p4(), &high, "accepted 1 2"),
    ]
}

pub fn by_hand() -> Vec<Sample> {
    let mut samples = log_rows();
    samples.extend(case_rows());
    samples.extend(byte_rows());
    samples.extend(accepted());
    samples
}
