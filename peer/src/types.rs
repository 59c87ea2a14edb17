//! Data types and limits of documents 01 and 02, shared by the fast and the slow reading.
//! Nothing here computes anything.

pub const LINE_BYTES: usize = 27;
pub const MAX_VARIABLES: usize = 48;
pub const MAX_VALUES: usize = 8;
pub const MAX_EDGES: usize = 96;
pub const MAX_SCOPES: usize = MAX_VARIABLES + MAX_EDGES;
pub const START_LIMIT: i64 = 1_000_000;
pub const WORK_LIMIT: i64 = 500_000_000;
pub const MOVE_LIMIT: i64 = 1_000_000_000;
pub const ROUND_LIMIT: u64 = 999_999_999_999_999_999;
pub const PROGRAM_ROUNDS: u64 = 100_000;
pub const CARRY_LIMIT: i64 = 20_000_000_000;
/// What a barred combination holds in a table.
pub const BARRED: i32 = -2_000_000_000;
/// What a partner byte holds outside the family.
pub const OUTSIDE: u8 = 255;

/// One case: `edges[e]` joins a lower and a higher variable; `weights` is the table in
/// document 01's order, of starting weights or, where a run is lent one, of working
/// weights.
#[derive(Clone, PartialEq, Eq, Debug)]
pub struct Case {
    pub variables: usize,
    pub values: usize,
    pub edges: Vec<(usize, usize)>,
    pub weights: Vec<i32>,
}

/// The five numbers of a line.
#[derive(Clone, Copy, PartialEq, Eq, Debug)]
pub struct Line {
    pub kind: i64,
    pub a: i64,
    pub b: i64,
    pub c: i64,
    pub amount: i64,
}

/// A refusal in a file: the number and the line counted from 0.
#[derive(Clone, Copy, PartialEq, Eq, Debug)]
pub struct Refusal {
    pub number: u8,
    pub line: usize,
}

#[derive(Clone, Copy, PartialEq, Eq, Debug)]
pub enum Stop {
    Settled,
    Limit,
    Void,
    Refused(u8),
}

/// Which rounds a run makes: pair rounds and presses, or pair rounds only.
#[derive(Clone, Copy, PartialEq, Eq, Debug)]
pub enum Rounds {
    All,
    Pairs,
}

/// What a run hands back.
#[derive(Clone, PartialEq, Eq, Debug)]
pub struct Run {
    pub stop: Stop,
    pub rounds: u64,
    pub upper_bound: i64,
    pub log: Vec<u8>,
    pub weights: Vec<i32>,
}

/// What the call of change 3 hands back: the value or a number, and the lent bytes.
#[derive(Clone, PartialEq, Eq, Debug)]
pub struct Shown {
    pub answer: Result<usize, u8>,
    pub family: Vec<u8>,
    pub partners: Vec<u8>,
}

/// What the replay of an accepted case and log says.
#[derive(Clone, Copy, PartialEq, Eq, Debug)]
pub enum Verdict {
    /// Rounds and upper bound.
    Accepted(u64, i64),
    Void,
}

#[derive(Clone, Copy, PartialEq, Eq, Debug)]
pub enum Better {
    First,
    Second,
}
