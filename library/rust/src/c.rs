//! The library's functions and answers as ceiling.h declares them.

#[repr(C)]
pub struct Size {
    pub number: u64,
    pub n: usize,
    pub d: usize,
    pub m: usize,
    pub table: usize,
}

#[repr(C)]
pub struct Lines {
    pub number: u64,
    pub lines: usize,
}

#[repr(C)]
pub struct Total {
    pub number: u64,
    pub total: i64,
}

#[repr(C)]
pub struct Rounds {
    pub number: u64,
    pub rounds: u64,
    pub is_void: u64,
}

#[repr(C)]
pub struct Span {
    pub number: u64,
    pub from: usize,
    pub to: usize,
    pub line: usize,
}

#[repr(C)]
pub struct Choice {
    pub number: u64,
    pub choice: u64,
}

#[repr(C)]
pub struct Value {
    pub number: u64,
    pub value: usize,
}

#[repr(C)]
pub struct Verdict {
    pub number: u64,
    pub yes: u64,
}

extern "C" {
    pub fn ceiling_version() -> u64;
    pub fn ceiling_case_size(text: *const u8, n: usize) -> Size;
    pub fn ceiling_read_case(text: *const u8, n: usize, case: *mut u8, table: *mut i64, t: usize) -> Lines;
    pub fn ceiling_upper_bound(case: *const u8, table: *const i64, t: usize) -> Total;
    pub fn ceiling_objective(case: *const u8, table: *const i64, t: usize, plan: *const u8, p: usize) -> Total;
    pub fn ceiling_better_of(
        case: *const u8,
        table: *const i64,
        t: usize,
        first: *const u8,
        f: usize,
        second: *const u8,
        s: usize,
    ) -> Choice;
    pub fn ceiling_supported_value(
        case: *const u8,
        table: *const i64,
        t: usize,
        link: usize,
        family: *mut u8,
        f: usize,
        partners: *mut u8,
        p: usize,
    ) -> Value;
    pub fn ceiling_is_acyclic(case: *const u8) -> Verdict;
    pub fn ceiling_replay_start(case: *const u8, table: *const i64, t: usize, record: *mut u8) -> u64;
    pub fn ceiling_replay_lines(
        case: *const u8,
        table: *mut i64,
        t: usize,
        record: *mut u8,
        lines: *const u8,
        n: usize,
    ) -> Lines;
    pub fn ceiling_replay_end(case: *const u8, record: *const u8, part: usize) -> Rounds;
    pub fn ceiling_round_span(log: *const u8, n: usize, round: u64) -> Span;
}

#[cfg(feature = "engine")]
pub use engine::*;

#[cfg(feature = "engine")]
mod engine {
    #[repr(C)]
    pub struct Round {
        pub number: u64,
        pub bytes: usize,
        pub bound: i64,
        pub none_lawful: u64,
    }

    #[repr(C)]
    pub struct Run {
        pub number: u64,
        pub limit: u64,
        pub rounds: u64,
        pub bound: i64,
        pub none_lawful: u64,
    }

    extern "C" {
        pub fn ceiling_engine_version() -> u64;
        pub fn ceiling_round(case: *const u8, table: *mut i64, t: usize, out: *mut u8, o: usize) -> Round;
        pub fn ceiling_run(case: *const u8, table: *mut i64, t: usize, out: *mut u8, o: usize, limit: u64) -> Run;
        pub fn ceiling_run_pairs(case: *const u8, table: *mut i64, t: usize, out: *mut u8, o: usize, limit: u64) -> Run;
    }
}
