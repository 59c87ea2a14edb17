//! Figures of speed: the engine's rounds on the largest cases, and the bytes a
//! second of replay, case reading and case writing.

use crate::generate::{self, Bars, Plan, Shape, Weights};
use crate::options::Options;
use crate::programs::Engine;
use crate::random::Random;
use crate::refute::all_active_refuted;
use crate::replay::replay_file;
use crate::state::State;
use crate::types::*;
use crate::{case, engine, line, plain};
use std::hint::black_box;
use std::process::ExitCode;
use std::time::Instant;

/// Different cases of each kind.
const CASES: u64 = 4;

/// The plain engine makes the first rounds of each case only.
const PLAIN_ROUNDS: u64 = 100;

pub fn bench(options: &mut Options) -> Result<ExitCode, String> {
    let seconds = options.number("seconds", 20)? as f64 / 10.0;
    options.finish()?;
    println!("largest cases: {MAX_VARIABLES} links, {MAX_VALUES} values, {MAX_EDGES} pairs");
    let kinds = [
        ("uniform, whole range", Shape::Random, Weights::Uniform, 0, Bars::None),
        ("uniform, mesh", Shape::Mesh, Weights::Uniform, 0, Bars::None),
        ("small, -9 to 9", Shape::Random, Weights::Small(9), 0, Bars::None),
        ("small, -1 to 1", Shape::Random, Weights::Small(1), 0, Bars::None),
        ("links 0, whole range", Shape::Random, Weights::Flat(START_LIMIT), 0, Bars::None),
        ("links 0, -9 to 9", Shape::Mesh, Weights::Flat(9), 0, Bars::None),
        ("extreme", Shape::Random, Weights::Extreme, 0, Bars::None),
        ("interference, mesh", Shape::Mesh, Weights::Interference, 0, Bars::None),
        (
            "interference, unusable",
            Shape::Mesh,
            Weights::Interference,
            25,
            Bars::None,
        ),
        ("uniform, 20% barred", Shape::Mesh, Weights::Uniform, 0, Bars::Share(20)),
        ("equal values barred", Shape::Mesh, Weights::Uniform, 0, Bars::Near(0)),
    ];
    for (name, shape, weights, unusable, bars) in kinds {
        let kind = (shape, weights, unusable, bars);
        rounds(name, kind, seconds);
    }
    replays(seconds);
    files(seconds);
    Ok(ExitCode::SUCCESS)
}

type Kind = (Shape, Weights, u64, Bars);

const UNIFORM: Kind = (Shape::Random, Weights::Uniform, 0, Bars::None);

fn largest(random: &mut Random, (shape, weights, unusable, bars): Kind) -> Case {
    let (variables, values, edges) = (MAX_VARIABLES, MAX_VALUES, MAX_EDGES);
    generate::case(
        random,
        Plan {
            shape,
            weights,
            unusable,
            bars,
            variables,
            values,
            edges,
        },
    )
}

fn rounds(name: &str, kind: Kind, seconds: f64) {
    let cases: Vec<Case> = (0..CASES)
        .map(|seed| largest(&mut Random::new(seed), kind))
        .collect();
    engine_rounds("engine", name, &cases, seconds, PROGRAM_ROUNDS, engine::run_case);
    engine_rounds("plain", name, &cases, seconds, PLAIN_ROUNDS, plain::run_case);
}

fn engine_rounds(
    engine: &str,
    name: &str,
    cases: &[Case],
    seconds: f64,
    limit: u64,
    run: Engine,
) {
    let (mut rounds, mut pairs, mut raises, mut spent) = (0, 0, 0, 0.0);
    for case in cases {
        let whole = run(case, Rounds::All, limit);
        rounds += whole.rounds;
        let presses = count_kind(&whole.log, b'2');
        raises += count_kind(&whole.log, b'3');
        pairs += whole.rounds - presses;
        spent += best_time(seconds / CASES as f64, || {
            black_box(run(case, Rounds::All, limit));
        });
    }
    println!(
        "{engine:<7} {name:<24} {:>9.0} rounds/s  ({CASES} cases, {rounds} rounds, {pairs} of \
         pairs, {:.1} raise lines a press, {:.2} ms a case)",
        rounds as f64 / spent,
        raises as f64 / (rounds - pairs).max(1) as f64,
        1000.0 * spent / CASES as f64
    );
}

/// Lines of a kind below 10.
fn count_kind(log: &[u8], kind: u8) -> u64 {
    let lines = log.chunks(LINE_BYTES);
    lines.filter(|line| line[1] == kind).count() as u64
}

/// A log of untrimmed presses by 1: almost all raise lines.
pub fn raise_log(case: &Case, rounds: usize) -> Vec<u8> {
    let mut state = State::new(case);
    let mut log = Vec::new();
    for _ in 0..rounds {
        let pressed = (0..state.variables)
            .find(|&variable| all_active_refuted(&state, &state.others(variable), variable));
        let Some(variable) = pressed else { break };
        let raised = state.others(variable);
        line::write(&mut log, 2, variable as i64, raised.count() as i64, 0, 1);
        for scope in raised.list(state.variables) {
            line::write(&mut log, 3, scope as i64, 0, 0, 0);
        }
        assert!(state.press(variable, &raised, 1).is_ok());
        line::write(&mut log, 4, 0, 0, 0, state.upper_bound);
    }
    log
}

fn replays(seconds: f64) {
    let case = largest(&mut Random::new(7), UNIFORM);
    let untrimmed = raise_log(&case, 4000);
    let own = engine::run_case(&case, Rounds::All, PROGRAM_ROUNDS).log;
    for (name, log) in [
        ("untrimmed presses", &untrimmed),
        ("the engine's own log", &own),
    ] {
        let rate = rate(log.len(), seconds, || {
            let replay = replay_file(&case, log, 0);
            assert!(black_box(replay).is_ok());
        });
        let lines = log.len() / LINE_BYTES;
        println!("replay  {name:<24} {rate:>9.0} MB/s  ({lines} lines)");
    }
}

fn files(seconds: f64) {
    let case = largest(&mut Random::new(7), UNIFORM);
    let file = case::write(&case);
    let lines = file.len() / LINE_BYTES;
    let reading = rate(file.len(), seconds, || {
        assert!(black_box(case::read_alone(&file)).is_ok());
    });
    println!(
        "case    {:<24} {reading:>9.0} MB/s  ({lines} lines)",
        "reading"
    );
    let writing = rate(file.len(), seconds, || {
        black_box(case::write(&case));
    });
    println!(
        "case    {:<24} {writing:>9.0} MB/s  ({lines} lines)",
        "writing"
    );
}

/// Megabytes a second of a task that handles so many bytes.
fn rate(bytes: usize, seconds: f64, task: impl FnMut()) -> f64 {
    bytes as f64 / best_time(seconds, task) / 1e6
}

/// The shortest time of many tries: others share the cores.
fn best_time(seconds: f64, mut task: impl FnMut()) -> f64 {
    let began = Instant::now();
    let mut best = f64::MAX;
    while began.elapsed().as_secs_f64() < seconds {
        let now = Instant::now();
        task();
        best = best.min(now.elapsed().as_secs_f64());
    }
    best
}
