//! Samples of links that join and leave made by hand from document 02's change 5: logs with
//! lines of kind 7 and 8, and the answer.

use crate::joins;
use crate::pair_samples::{bound, raise, shift, Table};
use crate::samples::{case_of, lines, replayed, Sample};
use crate::types::*;

const B: i32 = BARRED;
const TOP: i64 = WORK_LIMIT;
const MOST: i64 = START_LIMIT;
const LOW: i64 = B as i64;

const fn two(weights: &'static [i32]) -> Table {
    Table {
        values: 2,
        edges: &[(0, 1)],
        weights,
    }
}

/// P4 and a third link, which is paired with link 1.
const fn three(weights: &'static [i32]) -> Table {
    Table {
        values: 2,
        edges: &[(0, 1), (1, 2)],
        weights,
    }
}

const fn leave(link: i64) -> [i64; 5] {
    [7, link, 0, 0, 0]
}

const fn join(count: i64) -> [i64; 5] {
    [8, count, 0, 0, 0]
}

const fn press(link: i64, count: i64, amount: i64) -> [i64; 5] {
    [2, link, count, 0, amount]
}

const fn void(link: i64, count: i64) -> [i64; 5] {
    [5, link, count, 0, 0]
}

/// The first lines of some.
const fn first(lines: &'static [[i64; 5]], count: usize) -> &'static [[i64; 5]] {
    lines.split_at(count).0
}

const fn own(link: i64, value: i64, weight: i64) -> [i64; 5] {
    [11, link, value, 0, weight]
}

const fn pair(pair: i64, lower: i64, higher: i64) -> [i64; 5] {
    [12, pair, lower, higher, 0]
}

const fn both(pair: i64, first: i64, second: i64, weight: i64) -> [i64; 5] {
    [13, pair, first, second, weight]
}

/// 3 lines, ceiling 5.
static LINK: Table = Table {
    values: 2,
    edges: &[],
    weights: &[5, 3],
};
/// 2 lines, ceiling 5.
static VALUE: Table = Table {
    values: 1,
    edges: &[],
    weights: &[5],
};
/// 10 lines, ceiling 4; its pair round gives 2.
static P4: Table = two(&[2, 0, 2, 0, -3, 0, 0, 0]);
/// 17 lines each; the third link and its pair are flat, have a spread of 1 or 2, or a bar.
static FLAT: Table = three(&[2, 0, 2, 0, 0, 0, -3, 0, 0, 0, 0, 0, 0, 0]);
static HIGH: Table = three(&[2, 0, 2, 0, 7, 7, -3, 0, 0, 0, -4, -4, -4, -4]);
static SPREAD_1: Table = three(&[2, 0, 2, 0, 0, 1, -3, 0, 0, 0, 0, 0, 0, 0]);
static PAIR_1: Table = three(&[2, 0, 2, 0, 0, 0, -3, 0, 0, 0, 0, 0, 0, -1]);
static SPREAD_2: Table = three(&[2, 0, 2, 0, 0, 2, -3, 0, 0, 0, 0, 0, 0, 0]);
static BOTH_1: Table = three(&[2, 0, 2, 0, 0, 1, -3, 0, 0, 0, 0, 0, 0, -1]);
static BAR_LINK: Table = three(&[2, 0, 2, 0, 0, B, -3, 0, 0, 0, 0, 0, 0, 0]);
static BAR_PAIR: Table = three(&[2, 0, 2, 0, 0, 0, -3, 0, 0, 0, 0, B, 0, 0]);
static BAR_OTHER: Table = three(&[2, 0, 2, 0, 0, 0, -3, 0, 0, B, 0, 0, 0, 0]);
static BAR_OTHER_LINK: Table = three(&[2, B, 2, 0, 0, 0, -3, 0, 0, 0, 0, 0, 0, 0]);
/// 10 lines, no lawful plan.
static NONE: Table = two(&[0, B, 0, B, B, 0, 0, 0]);
/// 22 lines: links 1 and 2 are P4, links 0 and 2 are like it with greater weights.
static FRONT: Table = Table {
    values: 2,
    edges: &[(0, 1), (0, 2), (1, 2)],
    weights: &[5, 0, 2, 0, 2, 0, 0, 0, 0, 0, -6, 0, 0, 0, -3, 0, 0, 0],
};
/// 24 lines: links 0 and 1 have one channel each that do not go together; all others can be
/// pressed as far as their range goes.
static FALL: Table = Table {
    values: 2,
    edges: &[(0, 1)],
    weights: &[0, B, 0, B, 0, 0, 0, 0, 0, 0, 0, 0, 0, 0, 0, 0, 0, B, B, 0, 0, 0],
};

/// P5's pair round of pair 0.
const ROUND: [[i64; 5]; 3] = [shift(0, 0, 0, -2), shift(0, 1, 0, -2), bound(2)];
/// A press of P4.
const PRESSED: [[i64; 5]; 4] = [press(0, 2, 2), raise(1), raise(2), bound(2)];
/// Link 1 joins the case of one link, with a pair.
const JOIN: [[i64; 5]; 8] = [
    join(1),
    own(1, 0, 4),
    own(1, 1, -1),
    pair(0, 0, 1),
    both(0, 0, 0, -1),
    both(0, 0, 1, -2),
    both(0, 1, 0, -3),
    both(0, 1, 1, -4),
];
/// P4's link 1 joins again.
const BACK: [[i64; 5]; 8] = [
    join(1),
    own(1, 0, 2),
    own(1, 1, 0),
    pair(0, 0, 1),
    both(0, 0, 0, -3),
    both(0, 0, 1, 0),
    both(0, 1, 0, 0),
    both(0, 1, 1, 0),
];

/// A case, log lines in parts, and the answer.
type LogRow = (&'static Table, &'static [&'static [[i64; 5]]], &'static str);

const LEAVES: &[LogRow] = &[
    // the fresh ceiling is not higher: 2 against 4 + 0 + 3
    (&P4, &[&[leave(0)]], "accepted 0 2"),
    (&P4, &[&[leave(1)]], "accepted 0 2"),
    (&P4, &[&ROUND, &[leave(1)]], "accepted 1 2"),
    // the last link stays, whatever link is named
    (&LINK, &[&[leave(0)]], "refused 3 3"),
    (&LINK, &[&[leave(1)]], "refused 3 3"),
    (&LINK, &[&[leave(-1)]], "refused 3 3"),
    (&LINK, &[&[[7, 0, 0, 0, 1]]], "refused 2 3"),
    (&P4, &[&[leave(0), leave(0)]], "refused 3 11"),
    (&P4, &[&[leave(0), leave(1)]], "refused 3 11"),
    (&P4, &[&[leave(1), leave(9999)]], "refused 3 11"),
    // no such link
    (&P4, &[&[leave(2)]], "refused 5 10"),
    (&P4, &[&[leave(-1)]], "refused 5 10"),
    (&P4, &[&[leave(9999)]], "refused 5 10"),
    // unused columns, before 3 and 5
    (&P4, &[&[[7, 0, 1, 0, 0]]], "refused 2 10"),
    (&P4, &[&[[7, 0, 0, 1, 0]]], "refused 2 10"),
    (&P4, &[&[[7, 0, 0, 0, -1]]], "refused 2 10"),
    (&P4, &[&[[7, 5, 0, 0, 1]]], "refused 2 10"),
    (&P4, &[&[leave(0), [7, 0, 0, 1, 0]]], "refused 2 11"),
    // not in a round, nor inside a press
    (&P4, &[first(&ROUND, 1), &[leave(0)]], "refused 2 11"),
    (&P4, &[first(&ROUND, 2), &[leave(0)]], "refused 2 12"),
    (&P4, &[first(&PRESSED, 1), &[leave(0)]], "refused 2 11"),
    (&P4, &[first(&PRESSED, 2), &[leave(0)]], "refused 2 12"),
    (&P4, &[first(&PRESSED, 3), &[leave(0)]], "refused 2 13"),
    (&P4, &[first(&PRESSED, 3), &[leave(9), leave(0)]], "refused 2 13"),
    (&P4, &[&[shift(0, 0, 0, 1), shift(0, 0, 0, -1), leave(0)]], "refused 2 12"),
    // the round's start is the ceiling after the leave
    (&P4, &[&[leave(0), bound(2)]], "refused 13 11"),
    (&P4, &[&[leave(0), bound(4)]], "refused 12 11"),
    // a shift of a pair that left
    (&P4, &[&[leave(0), shift(0, 0, 0, 1)]], "refused 5 11"),
    (&P4, &[&[leave(0), press(0, 1, 1)]], "refused 5 11"),
    // what is behind moves down: P4 is left
    (&FRONT, &[], "accepted 0 9"),
    (&FRONT, &[&[leave(0)]], "accepted 0 4"),
    (&FRONT, &[&[leave(0)], &ROUND], "accepted 1 2"),
    (&FRONT, &[&[leave(0)], &PRESSED], "accepted 1 2"),
    (&FRONT, &[&[leave(0), press(0, 2, 2), raise(1), raise(3)]], "refused 5 25"),
    (&FRONT, &[&[leave(0), press(0, 3, 2)]], "refused 5 23"),
    (&FRONT, &[&[leave(0), shift(1, 0, 0, 1)]], "refused 5 23"),
    (&FRONT, &[&[leave(0), press(2, 1, 1)]], "refused 5 23"),
    // pair 1 is pair 0 then: −6 for 5 and 2
    (&FRONT, &[&[leave(1)]], "accepted 0 7"),
    (
        &FRONT,
        &[&[leave(1), shift(0, 0, 0, -5), shift(0, 1, 0, -2), bound(5)]],
        "accepted 1 5",
    ),
    (&FRONT, &[&[leave(2)]], "accepted 0 7"),
    (&FRONT, &[&[leave(2), leave(0)]], "accepted 0 2"),
    (&FRONT, &[&[leave(2), leave(1)]], "accepted 0 5"),
];

const CARRIES: &[LogRow] = &[
    // without a round the two ceilings are level
    (&FLAT, &[&[leave(2)]], "accepted 0 4"),
    (&FLAT, &[&[leave(2)], &ROUND], "accepted 1 2"),
    (&FLAT, &[&ROUND], "accepted 1 2"),
    // after one the fresh ceiling is higher: 4 against 2
    (&FLAT, &[&ROUND, &[leave(2)]], "accepted 1 2"),
    (&HIGH, &[&[leave(2)]], "accepted 0 4"),
    (
        &HIGH,
        &[&[shift(0, 0, 0, -2), shift(0, 1, 0, -2), bound(5), leave(2)]],
        "accepted 1 2",
    ),
    // the working weights are kept: the same shifts again make 5
    (&FLAT, &[&ROUND, &[leave(2)], &ROUND], "refused 12 23"),
    (
        &FLAT,
        &[&ROUND, &[leave(2)], first(&ROUND, 2), &[bound(5)]],
        "refused 13 23",
    ),
    // by 1: 4 against 3, and the carry is 1
    (
        &SPREAD_1,
        &[first(&ROUND, 2), &[bound(3), leave(2)]],
        "accepted 1 3",
    ),
    (&PAIR_1, &[&ROUND, &[leave(2)]], "accepted 1 3"),
    // by 2: 4 against 4, so work restarts and the pair round can be made again
    (
        &SPREAD_2,
        &[first(&ROUND, 2), &[bound(4), leave(2)]],
        "accepted 1 4",
    ),
    (
        &SPREAD_2,
        &[first(&ROUND, 2), &[bound(4), leave(2)], &ROUND],
        "accepted 2 2",
    ),
    (
        &BOTH_1,
        &[first(&ROUND, 2), &[bound(3), leave(2)], &ROUND],
        "accepted 2 2",
    ),
    // a barred combination that leaves, and one that stays
    (&BAR_LINK, &[&ROUND, &[leave(2)]], "accepted 1 4"),
    (&BAR_LINK, &[&ROUND, &[leave(2)], &ROUND], "accepted 2 2"),
    (&BAR_PAIR, &[&ROUND, &[leave(2)]], "accepted 1 4"),
    (&BAR_PAIR, &[&ROUND, &[leave(2)], &ROUND], "accepted 2 2"),
    (&BAR_OTHER, &[&ROUND, &[leave(2)]], "accepted 1 2"),
    (&BAR_OTHER_LINK, &[&ROUND, &[leave(2)]], "accepted 1 2"),
    // the base after a restart is higher than the last bound line
    (
        &BAR_LINK,
        &[&ROUND, &[leave(2), press(0, 2, 1), raise(1), raise(2), bound(3)]],
        "accepted 2 3",
    ),
    // links 0 and 1 leave: 2 against 2 + 0 + 3, 2 + 3
    (&FLAT, &[&ROUND, &[leave(0)]], "accepted 1 2"),
    (&FLAT, &[&ROUND, &[leave(1)]], "accepted 1 2"),
];

/// A round that shifts 5 from pair 1 to link 1, or back.
const OUT: [[i64; 5]; 5] = [
    shift(1, 0, 0, 5),
    shift(1, 0, 1, 5),
    ROUND[0],
    ROUND[1],
    ROUND[2],
];
const IN: [[i64; 5]; 5] = [
    shift(1, 0, 0, -5),
    shift(1, 0, 1, -5),
    ROUND[0],
    ROUND[1],
    ROUND[2],
];
const PLAIN_JOIN: [[i64; 5]; 3] = [join(0), own(2, 0, 1), own(2, 1, 1)];

const SIGNS: &[LogRow] = &[
    // 0 + 7 − 5, and 0 − 3 + 5
    (&FLAT, &[&OUT, &[leave(2)]], "accepted 1 2"),
    (&FLAT, &[&IN, &[leave(2)]], "accepted 1 2"),
    (&FLAT, &[&OUT, &[leave(2), bound(2)]], "refused 13 23"),
    (&FLAT, &[&OUT, &[leave(2), bound(7)]], "refused 12 23"),
    (&FLAT, &[&IN, &[leave(2), bound(2)]], "refused 13 23"),
    (&FLAT, &[&IN, &[leave(2), bound(-3)]], "refused 12 23"),
    // a link that joins leaves the carry as it is
    (&FLAT, &[&OUT, &[leave(2)], &PLAIN_JOIN], "accepted 1 3"),
    (&FLAT, &[&IN, &[leave(2)], &PLAIN_JOIN], "accepted 1 3"),
    (&FLAT, &[&OUT, &[leave(2)], &PLAIN_JOIN, &[bound(3)]], "refused 13 26"),
    (&FLAT, &[&OUT, &[leave(2)], &PLAIN_JOIN, &[bound(8)]], "refused 12 26"),
    (&FLAT, &[&OUT, &[leave(2)], &PLAIN_JOIN, &[leave(2)]], "accepted 1 2"),
    (
        &FLAT,
        &[&OUT, &[leave(2)], &PLAIN_JOIN, &[leave(2), bound(7)]],
        "refused 12 27",
    ),
    // a restart takes the carry away: 2 against 2 + 3
    (&FLAT, &[&OUT, &[leave(2), leave(0)]], "accepted 1 2"),
    (&FLAT, &[&OUT, &[leave(2), leave(1)]], "accepted 1 2"),
    (&FLAT, &[&OUT, &[leave(2), leave(1), bound(2)]], "refused 13 24"),
    // a link joins with 3 and has a pair round with link 0: the bound line states the carry
    (
        &FLAT,
        &[
            &OUT,
            &[leave(2), join(1), own(2, 0, 3), own(2, 1, 0), pair(1, 0, 2)],
            &[both(1, 0, 0, -9), both(1, 0, 1, 0), both(1, 1, 0, -9), both(1, 1, 1, 0)],
            &[shift(1, 1, 0, -3), bound(2)],
        ],
        "accepted 2 2",
    ),
    (
        &FLAT,
        &[
            &OUT,
            &[leave(2), join(1), own(2, 0, 3), own(2, 1, 0), pair(1, 0, 2)],
            &[both(1, 0, 0, -9), both(1, 0, 1, 0), both(1, 1, 0, -9), both(1, 1, 1, 0)],
            &[shift(1, 1, 0, -3), bound(7)],
        ],
        "refused 12 32",
    ),
];

const JOINS: &[LogRow] = &[
    (&LINK, &[&JOIN], "accepted 0 8"),
    (&LINK, &[&[join(0), own(1, 0, 4), own(1, 1, -1)]], "accepted 0 9"),
    (&LINK, &[&[join(0), own(1, 0, MOST), own(1, 1, -MOST)]], "accepted 0 1000005"),
    (&LINK, &[&[join(0), [14, 1, 0, 0, 0], own(1, 1, -4)]], "accepted 0 1"),
    (&LINK, &[&[join(0), own(1, 0, -4), [14, 1, 1, 0, 0]]], "accepted 0 1"),
    (&VALUE, &[&[join(0), own(1, 0, -4)]], "accepted 0 1"),
    (&VALUE, &[&[join(1), own(1, 0, -4), pair(0, 0, 1), both(0, 0, 0, -1)]], "accepted 0 0"),
    // the count of pairs: 0 to n, and 96 in all
    (&LINK, &[&[join(2)]], "refused 5 3"),
    (&LINK, &[&[join(-1)]], "refused 5 3"),
    (&LINK, &[&[join(-999)]], "refused 5 3"),
    (&LINK, &[&[join(96)]], "refused 5 3"),
    (&LINK, &[&[join(97)]], "refused 3 3"),
    (&LINK, &[&[join(9999)]], "refused 3 3"),
    (&P4, &[&[join(3)]], "refused 5 10"),
    (&P4, &[&[join(95)]], "refused 5 10"),
    (&P4, &[&[join(96)]], "refused 3 10"),
    (&P4, &[&[join(-1)]], "refused 5 10"),
    (&P4, &[&[join(-2)]], "refused 5 10"),
    // unused columns, before 3 and 5
    (&LINK, &[&[[8, 0, 1, 0, 0]]], "refused 2 3"),
    (&LINK, &[&[[8, 0, 0, 1, 0]]], "refused 2 3"),
    (&LINK, &[&[[8, 0, 0, 0, 1]]], "refused 2 3"),
    (&LINK, &[&[[8, 97, 0, 0, 1]]], "refused 2 3"),
    (&LINK, &[&[[8, 2, 0, 1, 0]]], "refused 2 3"),
    // not in a round, nor inside a press
    (&P4, &[first(&ROUND, 1), &[join(0)]], "refused 2 11"),
    (&P4, &[first(&PRESSED, 1), &[join(0)]], "refused 2 11"),
    (&P4, &[first(&PRESSED, 2), &[join(0)]], "refused 2 12"),
    (&P4, &[first(&PRESSED, 3), &[join(0)]], "refused 2 13"),
    (&P4, &[first(&PRESSED, 3), &[join(97)]], "refused 2 13"),
    (&P4, &[&PRESSED, &PLAIN_JOIN], "accepted 1 3"),
    (&P4, &[&PLAIN_JOIN, first(&PLAIN_JOIN, 1), &[own(3, 0, 1), own(3, 1, 0)]], "accepted 0 6"),
    // the round's start is the ceiling after the join
    (&P4, &[&PLAIN_JOIN, &[bound(5)]], "refused 13 13"),
    (&P4, &[&PLAIN_JOIN, &[bound(4)]], "refused 12 13"),
    (&P4, &[&PLAIN_JOIN, first(&ROUND, 2), &[bound(3)]], "accepted 1 3"),
    (&P4, &[&ROUND, &PLAIN_JOIN, &[bound(3)]], "refused 13 16"),
    (&P4, &[&[join(0), own(2, 0, -9), own(2, 1, -9)], first(&ROUND, 2), &[bound(-7)]], "accepted 1 -7"),
    // the pairs' scopes move up by one
    (&P4, &[&PLAIN_JOIN, &[press(0, 2, 2), raise(1), raise(3), bound(3)]], "accepted 1 3"),
    (&P4, &[&PLAIN_JOIN, &[press(0, 2, 2), raise(1), raise(2)]], "refused 10 15"),
    (&P4, &[&PLAIN_JOIN, &[press(0, 3, 2), raise(1), raise(2), raise(3), bound(3)]], "accepted 1 3"),
    (&P4, &[&PLAIN_JOIN, &[press(0, 4, 2)]], "refused 5 13"),
    (&P4, &[&PLAIN_JOIN, &[press(2, 1, 1), raise(4)]], "refused 5 14"),
    (&NONE, &[&PLAIN_JOIN, &[void(0, 2), raise(1), raise(3)]], "void"),
    (&NONE, &[&PLAIN_JOIN, &[void(0, 2), raise(1), raise(2)]], "refused 10 15"),
    (&NONE, &[&PLAIN_JOIN, &[void(2, 3), raise(0), raise(1), raise(3)]], "void"),
    // the other link's channel is gone: nothing is void any more
    (&NONE, &[&[leave(1), void(0, 1)]], "refused 5 11"),
    (
        &NONE,
        &[&[leave(1)], &[join(0), own(1, 0, 0), own(1, 1, 0), void(0, 1), raise(1)]],
        "refused 10 15",
    ),
    // after a void line nothing is due
    (&NONE, &[&[void(0, 2), raise(1), raise(2), leave(0)]], "refused 2 13"),
    (&NONE, &[&[void(0, 2), raise(1), raise(2), join(0)]], "refused 2 13"),
    (&NONE, &[&[void(0, 2), raise(1), leave(0)]], "refused 2 12"),
    (&NONE, &[&[void(0, 2), join(0)]], "refused 2 11"),
    // a pair that joined is shifted and pressed
    (&LINK, &[&[leave(0)]], "refused 3 3"),
    (&LINK, &[&JOIN, &[shift(0, 0, 0, -1), bound(8)]], "refused 13 12"),
    (&LINK, &[&JOIN, &[shift(1, 0, 0, -1)]], "refused 5 11"),
    (&LINK, &[&JOIN, &[leave(1)]], "accepted 0 5"),
    (&LINK, &[&JOIN, &[leave(0)]], "accepted 0 4"),
    (&LINK, &[&JOIN, &[leave(0), leave(0)]], "refused 3 12"),
    // there and back
    (&P4, &[&[leave(1)], &BACK], "accepted 0 4"),
    (&P4, &[&[leave(1)], &BACK, &ROUND], "accepted 1 2"),
    (&P4, &[&[leave(0)], &BACK, &ROUND], "accepted 1 2"),
    (&P4, &[&ROUND, &[leave(1)], &BACK, &ROUND], "accepted 2 2"),
    (&P4, &[&[leave(1)], &BACK, &[leave(0)], &BACK, &ROUND], "accepted 1 2"),
];

/// Lines of the join of link 1 that are wrong, by their place in it, and the number.
type SpoiltRow = (usize, [i64; 5], u8);

const SPOILT: &[SpoiltRow] = &[
    // unused columns, before 5 and 8
    (1, [11, 1, 0, 1, 4], 2),
    (1, [11, 9, 0, 1, 2_000_000], 2),
    (1, [14, 1, 0, 1, 0], 2),
    (1, [14, 1, 0, 0, 4], 2),
    (1, [14, 1, 0, 0, LOW], 2),
    (1, [14, 0, 0, 0, 4], 2),
    (3, [12, 0, 0, 1, 1], 2),
    (3, [12, 9, 9, 9, -1], 2),
    (4, [15, 0, 0, 0, 1], 2),
    (7, [15, 0, 1, 1, -1], 2),
    // another place than the one due
    (1, [11, 0, 0, 0, 4], 5),
    (1, [11, 2, 0, 0, 4], 5),
    (1, [11, 1, 1, 0, 4], 5),
    (1, [11, 1, -1, 0, 4], 5),
    (1, [14, 0, 0, 0, 0], 5),
    (1, [14, 1, 1, 0, 0], 5),
    (2, [11, 1, 0, 0, 4], 5),
    (2, [11, 1, 2, 0, 4], 5),
    (4, [13, 1, 0, 0, 0], 5),
    (4, [13, -1, 0, 0, 0], 5),
    (4, [13, 0, 1, 0, 0], 5),
    (4, [13, 0, 0, 1, 0], 5),
    (5, [13, 0, 1, 0, 0], 5),
    (7, [15, 0, 0, 1, 0], 5),
    // the pair's number and links
    (3, [12, 1, 0, 1, 0], 5),
    (3, [12, -1, 0, 1, 0], 5),
    (3, [12, 0, 0, 0, 0], 5),
    (3, [12, 0, 1, 0, 0], 5),
    (3, [12, 0, 0, 2, 0], 5),
    (3, [12, 0, 2, 1, 0], 5),
    (3, [12, 0, -1, 1, 0], 5),
    (3, [12, 0, 0, -1, 0], 5),
    (3, [12, 0, 2, 2, 0], 5),
    (3, [12, 0, -1, -1, 0], 5),
    (3, [12, 1, 1, 1, 0], 5),
    (3, [12, 0, 1, 1, 0], 6),
    // the starting range, after 5
    (1, [11, 1, 0, 0, MOST + 1], 8),
    (1, [11, 1, 0, 0, -MOST - 1], 8),
    (1, [11, 1, 0, 0, LOW], 8),
    (1, [11, 0, 0, 0, MOST + 1], 5),
    (2, [11, 1, 1, 0, 999_999_999_999], 8),
    (4, [13, 0, 0, 0, -99_999_999_999], 8),
    (7, [13, 0, 1, 1, MOST + 1], 8),
    (7, [13, 0, 1, 0, MOST + 1], 5),
];

/// Kinds due at each line of that join.
const DUE: [&[i64]; 8] = [
    &[1, 2, 4, 5, 7, 8],
    &[11, 14],
    &[11, 14],
    &[12],
    &[13, 15],
    &[13, 15],
    &[13, 15],
    &[13, 15],
];

const LATER: &[LogRow] = &[
    // a scope is wholly barred, at its last line
    (&VALUE, &[&[join(0), [14, 1, 0, 0, 0]]], "refused 15 3"),
    (&VALUE, &[&[join(1), [14, 1, 0, 0, 0]]], "refused 15 3"),
    (&VALUE, &[&[join(1), [14, 0, 0, 0, 0]]], "refused 5 3"),
    (
        &VALUE,
        &[&[join(1), own(1, 0, 0), pair(0, 0, 1), [15, 0, 0, 0, 0]]],
        "refused 15 5",
    ),
    (&LINK, &[&[join(0), [14, 1, 0, 0, 0], [14, 1, 1, 0, 0]]], "refused 15 5"),
    (&LINK, &[&[join(1), [14, 1, 0, 0, 0], [14, 1, 1, 0, 0]]], "refused 15 5"),
    (&LINK, &[&[join(1), [14, 1, 0, 0, 0], [14, 1, 1, 0, 1]]], "refused 2 5"),
    (&LINK, &[&[join(1), [14, 1, 0, 0, 0], [14, 1, 2, 0, 0]]], "refused 5 5"),
    (
        &LINK,
        &[first(&JOIN, 4), &[[15, 0, 0, 0, 0], [15, 0, 0, 1, 0], [15, 0, 1, 0, 0], [15, 0, 1, 1, 0]]],
        "refused 15 10",
    ),
    (
        &LINK,
        &[first(&JOIN, 4), &[[15, 0, 0, 0, 0], [15, 0, 0, 1, 0], [15, 0, 1, 0, 0], JOIN[7]]],
        "accepted 0 5",
    ),
    (
        &LINK,
        &[first(&JOIN, 4), &[JOIN[4], [15, 0, 0, 1, 0], [15, 0, 1, 0, 0], [15, 0, 1, 1, 0]]],
        "accepted 0 8",
    ),
    // two pairs of a link that joins P4: the lower link twice, and a pair that was there
    (
        &P4,
        &[
            &[join(2), own(2, 0, 0), own(2, 1, 0), pair(1, 0, 2)],
            &[both(1, 0, 0, 0), both(1, 0, 1, 0), both(1, 1, 0, 0), both(1, 1, 1, 0)],
            &[pair(2, 0, 2)],
        ],
        "refused 7 18",
    ),
    (
        &P4,
        &[
            &[join(2), own(2, 0, 0), own(2, 1, 0), pair(1, 1, 2)],
            &[both(1, 0, 0, 0), both(1, 0, 1, 0), both(1, 1, 0, 0), both(1, 1, 1, 0)],
            &[pair(2, 0, 2)],
            &[both(2, 0, 0, 0), both(2, 0, 1, 0), both(2, 1, 0, 0), both(2, 1, 1, -1)],
        ],
        "accepted 0 4",
    ),
    (
        &P4,
        &[
            &[join(2), own(2, 0, 0), own(2, 1, 0), pair(1, 1, 2)],
            &[both(1, 0, 0, 0), both(1, 0, 1, 0), both(1, 1, 0, 0), both(1, 1, 1, 0)],
            &[pair(1, 0, 2)],
        ],
        "refused 5 18",
    ),
    (&P4, &[&[join(1), own(2, 0, 0), own(2, 1, 0), pair(1, 0, 1)]], "refused 5 13"),
    (&P4, &[&[join(1), own(2, 0, 0), own(2, 1, 0), pair(0, 0, 2)]], "refused 5 13"),
    (&P4, &[&[join(1), own(2, 0, 0), own(2, 1, 0), pair(1, 2, 2)]], "refused 6 13"),
    (&P4, &[&[join(1), own(2, 0, 0), own(2, 1, 0), pair(1, 2, 1)]], "refused 5 13"),
    (&P4, &[&[join(1), own(2, 0, 0), own(2, 1, 0), pair(1, 1, 1)]], "refused 5 13"),
    (&P4, &[&[join(1), own(2, 0, 0), own(2, 1, 0), pair(1, 3, 2)]], "refused 5 13"),
];

fn table_case(table: &Table) -> Case {
    case_of(table.values, table.edges, table.weights)
}

fn log_rows() -> Vec<Sample> {
    let all = [LEAVES, CARRIES, SIGNS, JOINS, LATER].concat();
    let row = |&(table, parts, answer): &LogRow| {
        let log = lines(&parts.concat());
        replayed("by hand, links", &table_case(table), &log, answer)
    };
    all.iter().map(row).collect()
}

/// The join of link 1 with one line that is wrong, cut before each line, inside each line,
/// with a line that is not in columns, and with a kind that is not due.
fn spoilt_rows() -> Vec<Sample> {
    let case = table_case(&LINK);
    let refused = |log: &[u8], number: u8, at: usize| {
        replayed("by hand, join", &case, log, &format!("refused {number} {}", 3 + at))
    };
    let with = |at: usize, line: [i64; 5]| lines(&[&JOIN[..at], &[line]].concat());
    let mut samples: Vec<Sample> = Vec::new();
    for &(at, line, number) in SPOILT {
        samples.push(refused(&with(at, line), number, at));
    }
    for at in 0..JOIN.len() {
        let front = lines(&JOIN[..at]);
        if at > 0 {
            samples.push(refused(&front, 14, at));
        }
        let part = [&front[..], b" 8"].concat();
        samples.push(refused(&part, 14, at));
        let bad = [&front[..], b"11   1   0   0          +4\n"].concat();
        samples.push(refused(&bad, 1, at));
        for kind in -1..=17 {
            if !DUE[at].contains(&kind) {
                samples.push(refused(&with(at, [kind, 0, 0, 0, 0]), 2, at));
            }
        }
    }
    samples
}

/// 44 links: the hub 0 is paired with links 1 to 41, links 42 and 43 are P4.
fn star() -> Case {
    let mut edges: Vec<(usize, usize)> = (1..42).map(|link| (0, link)).collect();
    edges.push((42, 43));
    let mut weights = vec![0; 2 * 44 + 4 * 41];
    weights[84..88].copy_from_slice(&[2, 0, 2, 0]);
    weights.extend([-3, 0, 0, 0]);
    case_of(2, &edges, &weights)
}

const STAR_LINES: usize = 299;

/// Lowers the hub's first pairs by these amounts, their other links rising, then P4's round.
fn lowered(amounts: &[i64]) -> Vec<[i64; 5]> {
    let mut log = Vec::new();
    for (edge, &amount) in amounts.iter().enumerate() {
        log.extend([0, 1].map(|value| shift(edge as i64, 1, value, amount)));
    }
    log.extend([shift(41, 0, 0, -2), shift(41, 1, 0, -2), bound(2)]);
    log
}

/// The carry at its limit, and one beyond: the ceiling stays 2, or is 4 again. In the first
/// two the pairs alone go beyond it, and the hub's own weight leads back.
fn limit_rows() -> Vec<Sample> {
    let mut samples = Vec::new();
    for sign in [1, -1] {
        let own = [0, 1].map(|value| shift(40, 0, value, sign * TOP));
        let log = [&own[..], &lowered(&[sign * TOP; 40]), &[leave(0)]].concat();
        samples.push(replayed("by hand, carry", &star(), &lines(&log), "accepted 1 2"));
    }
    for sign in [1, -1] {
        for (last, ceiling) in [(0, 2), (1, 4), (-1, 2), (TOP, 4)] {
            let mut amounts = vec![sign * TOP; 40];
            if last != 0 {
                amounts.push(sign * last);
            }
            let mut log = lowered(&amounts);
            log.push(leave(0));
            let answer = format!("accepted 1 {ceiling}");
            samples.push(replayed("by hand, carry", &star(), &lines(&log), &answer));
            // a link that was raised leaves: its weight is in the carry, or at its start
            log.push(leave(0));
            samples.push(replayed("by hand, carry", &star(), &lines(&log), &answer));
            // those that were raised leave in turn, and P4 is left with carry 0 or at its start
            log.extend([leave(0); 40]);
            samples.push(replayed("by hand, carry", &star(), &lines(&log), &answer));
            log.extend(ROUND);
            let answer = match ceiling {
                4 => "accepted 2 2".into(),
                _ => format!("refused 12 {}", STAR_LINES + log.len() - 1),
            };
            samples.push(replayed("by hand, carry", &star(), &lines(&log), &answer));
        }
    }
    samples
}

/// Links 2 to 7 of the falling case pressed by so much, against links 0 and 1.
fn fallen(amount: i64) -> Vec<[i64; 5]> {
    let mut log = Vec::new();
    for link in 2..8 {
        log.extend([press(link, 3, amount), raise(0), raise(1), raise(9)]);
        log.push(bound(-amount * (link - 1)));
    }
    log
}

/// A fall so far that the fresh ceiling is higher even where a barred weight counted as
/// −2,000,000,000.
fn fall_rows() -> Vec<Sample> {
    let case = table_case(&FALL);
    let rows: [(&[[i64; 5]], &str); 7] = [
        (&[], "accepted 6 -3000000000"),
        (&[leave(8)], "accepted 6 0"),
        (&[leave(0)], "accepted 6 0"),
        (&[leave(7)], "accepted 6 -3000000000"),
        (&[leave(7), leave(6)], "accepted 6 -3000000000"),
        (&[leave(7), leave(7)], "accepted 6 0"),
        (&[leave(7), void(0, 2), raise(1), raise(8)], "void"),
    ];
    let row = |(end, answer): &(&[[i64; 5]], &str)| {
        let log = [&fallen(TOP)[..], end].concat();
        replayed("by hand, fall", &case, &lines(&log), answer)
    };
    rows.iter().map(row).collect()
}

/// So many links with one value, and the first pairs of them.
fn sized(links: usize, pairs: usize) -> Case {
    let all = (1..links).flat_map(|higher| (0..higher).map(move |lower| (lower, higher)));
    let edges: Vec<(usize, usize)> = all.take(pairs).collect();
    case_of(1, &edges, &vec![0; links + pairs])
}

/// Joins at the limits of links and pairs.
fn size_rows() -> Vec<Sample> {
    let one = |links: i64, pairs: i64| {
        vec![join(1), own(links, 0, 1), pair(pairs, 0, links), both(pairs, 0, 0, 1)]
    };
    let none = |links: i64| vec![join(0), own(links, 0, 1)];
    let rows = [
        (sized(47, 0), none(47), "accepted 0 1"),
        (sized(47, 0), [none(47), vec![join(0)]].concat(), "refused 3 50"),
        (sized(48, 0), vec![join(0)], "refused 3 49"),
        (sized(48, 0), vec![join(-1)], "refused 3 49"),
        (sized(48, 0), vec![join(49)], "refused 3 49"),
        (sized(48, 0), vec![[8, 0, 0, 0, 1]], "refused 2 49"),
        (sized(48, 0), [vec![leave(3)], none(47)].concat(), "accepted 0 1"),
        (sized(15, 95), one(15, 95), "accepted 0 2"),
        (sized(15, 95), vec![join(2)], "refused 3 206"),
        (sized(15, 95), vec![join(16)], "refused 3 206"),
        (sized(15, 94), vec![join(3)], "refused 3 204"),
        (sized(15, 80), vec![join(16)], "refused 5 176"),
        (sized(15, 80), vec![join(17)], "refused 3 176"),
        (sized(15, 96), vec![join(1)], "refused 3 208"),
        (sized(15, 96), vec![join(-1)], "refused 5 208"),
        (sized(15, 96), none(15), "accepted 0 1"),
        (sized(47, 95), one(47, 95), "accepted 0 2"),
        (sized(47, 95), [one(47, 95), vec![leave(47)], one(47, 95)].concat(), "accepted 0 2"),
    ];
    let row = |(case, log, answer): &(Case, Vec<[i64; 5]>, &str)| {
        replayed("by hand, sizes", case, &lines(log), answer)
    };
    rows.iter().map(row).collect()
}

/// Where links may not join and leave, the two kinds are due nowhere.
fn not_due() -> Vec<Sample> {
    let case = table_case(&P4);
    let refused = |log: &[[i64; 5]], line: usize| {
        let answer = format!("refused 2 {line}");
        replayed("by hand, no links", &case, &lines(log), &answer)
    };
    vec![
        refused(&[leave(0)], 10),
        refused(&[join(0)], 10),
        refused(&[leave(9)], 10),
        refused(&[join(97)], 10),
        refused(&[&ROUND[..], &[leave(1)]].concat(), 13),
        refused(&[&ROUND[..], &PLAIN_JOIN].concat(), 13),
    ]
}

pub fn by_hand() -> Vec<Sample> {
    if !joins::allowed() {
        return not_due();
    }
    [log_rows(), spoilt_rows(), limit_rows(), fall_rows(), size_rows()].concat()
}
