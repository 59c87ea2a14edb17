//! The engine's round and run by the definition, each round from its table alone.

use super::figures::*;
use super::line;
use super::moves;
use super::refute::active_refuted;
use crate::types::{Case, Line, Rounds, Run, Stop};

fn all_but(case: &Case, variable: usize) -> Vec<usize> {
    (0..scope_count(case))
        .filter(|&scope| scope != variable)
        .collect()
}

/// The lowest link that a press or a void line can be made at.
pub fn lowest(case: &Case, weights: &[i64]) -> Option<usize> {
    (0..case.variables).find(|&i| active_refuted(case, weights, &all_but(case, i), i))
}

/// Goes through the raised scopes upwards and drops each one that is not needed.
fn trim(case: &Case, weights: &[i64], variable: usize) -> Vec<usize> {
    let mut kept = all_but(case, variable);
    for scope in all_but(case, variable) {
        let without: Vec<usize> = kept
            .iter()
            .copied()
            .filter(|&other| other != scope)
            .collect();
        if active_refuted(case, weights, &without, variable) {
            kept = without;
        }
    }
    kept
}

fn gap(case: &Case, weights: &[i64], scope: usize) -> Option<i64> {
    let greatest = greatest(case, weights, scope);
    tuples(case, scope)
        .iter()
        .filter(|tuple| !is_active(case, weights, scope, tuple))
        .filter(|tuple| !is_barred(case, weights, scope, tuple))
        .map(|tuple| greatest - weight(case, weights, scope, tuple))
        .min()
}

/// A round: its lines and the table after it, or number 11.
pub type Round = Result<(Vec<u8>, Vec<i64>), u8>;

/// What comes next.
enum Next {
    Settled,
    Round(Round),
    /// The lines of a void line.
    Void(Vec<u8>),
}

fn line_of(kind: i64, a: usize, b: usize, c: usize, amount: i64) -> Vec<u8> {
    line::write(Line {
        kind,
        a: a as i64,
        b: b as i64,
        c: c as i64,
        amount,
    })
}

fn bound_line(case: &Case, weights: &[i64]) -> Vec<u8> {
    line_of(4, 0, 0, 0, upper_bound(case, weights))
}

/// The total of a pair and its two links for every choice of values that is unbarred in
/// all three.
pub fn totals_of_three(case: &Case, weights: &[i64], edge: usize) -> Vec<i64> {
    let (lower, higher) = case.edges[edge];
    let scope = case.variables + edge;
    let unbarred = |tuple: &&Tuple| {
        !is_barred(case, weights, lower, &tuple[..1])
            && !is_barred(case, weights, higher, &tuple[1..])
            && !is_barred(case, weights, scope, tuple)
    };
    let total = |tuple: &Tuple| {
        weight(case, weights, lower, &tuple[..1])
            + weight(case, weights, higher, &tuple[1..])
            + weight(case, weights, scope, tuple)
    };
    let all = tuples(case, scope);
    all.iter().filter(unbarred).map(total).collect()
}

/// The three greatest weights add up to more than the best total of the three.
pub fn due(case: &Case, weights: &[i64], edge: usize) -> bool {
    let (lower, higher) = case.edges[edge];
    let three = [lower, higher, case.variables + edge];
    let greatest: i64 = three.iter().map(|&x| greatest(case, weights, x)).sum();
    totals_of_three(case, weights, edge)
        .iter()
        .all(|&total| total < greatest)
}

/// Every unbarred link value's whole weight shifted into the pair, one shift after
/// another.
pub fn pair_round(case: &Case, weights: &[i64], edge: usize) -> Round {
    let mut now = weights.to_vec();
    let mut log = Vec::new();
    for (end, link) in members(case, case.variables + edge).into_iter().enumerate() {
        for value in 0..case.values {
            let amount = -weight(case, &now, link, &[value]);
            if amount != 0 && !is_barred(case, &now, link, &[value]) {
                now = moves::shift(case, &now, edge, end, value, amount)?;
                log.extend(line_of(1, edge, end, value, amount));
            }
        }
    }
    log.extend(bound_line(case, &now));
    Ok((log, now))
}

/// Why a pair is passed over.
#[derive(Clone, Copy, PartialEq, Eq, Debug)]
pub enum Passed {
    NoChoice,
    OutOfRange,
    NotLower,
}

/// The round of a pair that is due, or why the pair is passed over.
pub fn round_of_due(
    case: &Case,
    weights: &[i64],
    edge: usize,
) -> Result<(Vec<u8>, Vec<i64>), Passed> {
    if totals_of_three(case, weights, edge).is_empty() {
        return Err(Passed::NoChoice);
    }
    let (log, next) = pair_round(case, weights, edge).map_err(|_| Passed::OutOfRange)?;
    if upper_bound(case, &next) >= upper_bound(case, weights) {
        return Err(Passed::NotLower);
    }
    Ok((log, next))
}

/// The round of the lowest pair that is due and not passed over.
fn lowest_pair_round(case: &Case, weights: &[i64]) -> Option<Round> {
    (0..case.edges.len())
        .filter(|&edge| due(case, weights, edge))
        .find_map(|edge| round_of_due(case, weights, edge).ok())
        .map(Ok)
}

fn press_round(case: &Case, weights: &[i64]) -> Next {
    let Some(variable) = lowest(case, weights) else {
        return Next::Settled;
    };
    let kept = trim(case, weights, variable);
    let mut limits: Vec<i64> = kept.iter().filter_map(|&s| gap(case, weights, s)).collect();
    limits.extend(gap(case, weights, variable));
    let raise_lines: Vec<u8> = kept.iter().flat_map(|&s| line_of(3, s, 0, 0, 0)).collect();
    let Some(amount) = limits.into_iter().min() else {
        let void = line_of(5, variable, kept.len(), 0, 0);
        return Next::Void([void, raise_lines].concat());
    };
    let next = match moves::press(case, weights, variable, &kept, amount) {
        Ok(next) => next,
        Err(number) => return Next::Round(Err(number)),
    };
    let press = line_of(2, variable, kept.len(), 0, amount);
    let log = [press, raise_lines, bound_line(case, &next)].concat();
    Next::Round(Ok((log, next)))
}

/// What the engine does next.
fn next(case: &Case, weights: &[i64], rounds: Rounds) -> Next {
    match (lowest_pair_round(case, weights), rounds) {
        (Some(round), _) => Next::Round(round),
        (None, Rounds::All) => press_round(case, weights),
        (None, Rounds::Pairs) => Next::Settled,
    }
}

/// A run from the weights that the case holds.
pub fn run(case: &Case, kind: Rounds, limit: u64) -> Run {
    let mut weights = starting_weights(case);
    let mut log = Vec::new();
    let mut rounds = 0;
    let stop = loop {
        match next(case, &weights, kind) {
            Next::Settled => break Stop::Settled,
            Next::Void(lines) => {
                log.extend(lines);
                break Stop::Void;
            }
            Next::Round(_) if rounds == limit => break Stop::Limit,
            Next::Round(Err(number)) => break Stop::Refused(number),
            Next::Round(Ok((lines, next))) => {
                log.extend(lines);
                weights = next;
                rounds += 1;
            }
        }
    };
    let upper_bound = upper_bound(case, &weights);
    let weights = weights.into_iter().map(|weight| weight as i32).collect();
    Run {
        stop,
        rounds,
        upper_bound,
        log,
        weights,
    }
}
