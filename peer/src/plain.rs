//! The engine as one writes it at the first go: byte sets, every round from its table
//! alone, edges swept until nothing changes, raised scopes dropped one after another.
//! It is the yardstick of speed; the fast reading shows what more thought can buy.

use crate::line;
use crate::types::*;

/// What a round reads of its table: each scope's greatest weight, the active values of
/// each variable, the active partners of each value at either end of each edge.
pub struct Active {
    pub greatest: Vec<i64>,
    sets: Vec<u8>,
    above: Vec<[u8; MAX_VALUES]>,
    below: Vec<[u8; MAX_VALUES]>,
}

pub fn part(case: &Case, scope: usize) -> std::ops::Range<usize> {
    let (n, d) = (case.variables, case.values);
    if scope < n {
        scope * d..(scope + 1) * d
    } else {
        let first = n * d + (scope - n) * d * d;
        first..first + d * d
    }
}

pub fn read(case: &Case, weights: &[i64]) -> Active {
    let (n, d) = (case.variables, case.values);
    let greatest: Vec<i64> = (0..scopes(case))
        .map(|scope| *weights[part(case, scope)].iter().max().unwrap())
        .collect();
    let sets = (0..n)
        .map(|i| (0..d).fold(0, |set, k| set | u8::from(weights[i * d + k] == greatest[i]) << k))
        .collect();
    let mut above = vec![[0; MAX_VALUES]; case.edges.len()];
    let mut below = vec![[0; MAX_VALUES]; case.edges.len()];
    for e in 0..case.edges.len() {
        let tuples = &weights[part(case, n + e)];
        for k in 0..d {
            for l in 0..d {
                let active = u8::from(tuples[k * d + l] == greatest[n + e]);
                above[e][k] |= active << l;
                below[e][l] |= active << k;
            }
        }
    }
    Active { greatest, sets, above, below }
}

pub fn scopes(case: &Case) -> usize {
    case.variables + case.edges.len()
}

pub fn upper_bound(case: &Case, weights: &[i64]) -> i64 {
    let greatest = |scope| weights[part(case, scope)].iter().max().unwrap();
    (0..scopes(case)).map(greatest).sum()
}

fn supported(partners: &[u8; MAX_VALUES], own: u8, other: u8) -> u8 {
    let (mut kept, mut left) = (own, own);
    while left != 0 {
        let k = left.trailing_zeros() as usize;
        left &= left - 1;
        if partners[k] & other == 0 {
            kept &= !(1 << k);
        }
    }
    kept
}

/// No supported family is left inside the sets.
fn empties(case: &Case, active: &Active, raised: &[bool], mut sets: [u8; MAX_VARIABLES]) -> bool {
    loop {
        let mut changed = false;
        for (e, &(i, j)) in case.edges.iter().enumerate() {
            if !raised[case.variables + e] {
                continue;
            }
            let lower = supported(&active.above[e], sets[i], sets[j]);
            let upper = supported(&active.below[e], sets[j], lower);
            if lower == 0 || upper == 0 {
                return true;
            }
            changed |= lower != sets[i] || upper != sets[j];
            (sets[i], sets[j]) = (lower, upper);
        }
        if !changed {
            return false;
        }
    }
}

pub fn all_refuted(case: &Case, active: &Active, raised: &[bool], variable: usize) -> bool {
    let full = (((1u16 << case.values) - 1) & 255) as u8;
    let mut sets = [full; MAX_VARIABLES];
    for j in 0..case.variables {
        if raised[j] {
            sets[j] = active.sets[j];
        }
    }
    (0..case.values)
        .filter(|k| active.sets[variable] >> k & 1 == 1)
        .all(|k| {
            let mut fixed = sets;
            fixed[variable] &= 1 << k;
            fixed[variable] == 0 || empties(case, active, raised, fixed)
        })
}

fn choose(case: &Case, active: &Active) -> Option<(usize, Vec<bool>)> {
    (0..case.variables).find_map(|i| {
        let mut raised = vec![true; active.greatest.len()];
        raised[i] = false;
        all_refuted(case, active, &raised, i).then_some((i, raised))
    })
}

fn trim(case: &Case, active: &Active, variable: usize, raised: &mut [bool]) {
    for scope in 0..raised.len() {
        if raised[scope] {
            raised[scope] = false;
            raised[scope] = !all_refuted(case, active, raised, variable);
        }
    }
}

pub fn barred(weight: i64) -> bool {
    weight == i64::from(BARRED)
}

/// A weight with another added to it, but where either is barred.
fn with(weight: i64, other: i64) -> i64 {
    if barred(weight) || barred(other) {
        weight
    } else {
        weight + other
    }
}

/// The weights of pair e after the shifts of end 0 and after those of both ends.
fn shifted(case: &Case, weights: &[i64], e: usize) -> [Vec<i64>; 2] {
    let d = case.values;
    let (i, j) = case.edges[e];
    let pair = weights[part(case, case.variables + e)].iter().enumerate();
    let half: Vec<i64> = pair.map(|(at, &w)| with(w, weights[i * d + at / d])).collect();
    let both = half.iter().enumerate();
    let whole = both.map(|(at, &w)| with(w, weights[j * d + at % d])).collect();
    [half, whole]
}

/// Some (k, l) is unbarred in the pair and in both links.
fn has_choice(case: &Case, weights: &[i64], e: usize) -> bool {
    let d = case.values;
    let (i, j) = case.edges[e];
    let mut pair = weights[part(case, case.variables + e)].iter().enumerate();
    pair.any(|(at, &w)| ![w, weights[i * d + at / d], weights[j * d + at % d]].map(barred).contains(&true))
}

/// The lowest pair to shift into, and its weights after it.
fn choose_pair(case: &Case, active: &Active, weights: &[i64]) -> Option<(usize, Vec<i64>)> {
    let good = |pair: &Vec<i64>| pair.iter().all(|&w| barred(w) || w.abs() <= WORK_LIMIT);
    case.edges.iter().enumerate().find_map(|(e, &(i, j))| {
        let greatest = [i, j, case.variables + e].map(|x| active.greatest[x]);
        let [half, whole] = shifted(case, weights, e);
        let lower = greatest.iter().sum::<i64>() > *whole.iter().max().unwrap();
        let found = lower && has_choice(case, weights, e) && good(&half) && good(&whole);
        found.then_some((e, whole))
    })
}

fn shift_all(case: &Case, weights: &mut [i64], e: usize, pair: &[i64], log: &mut Vec<u8>) {
    let (i, j) = case.edges[e];
    let moves = |w: i64| w != 0 && !barred(w);
    for (end, link) in [(0, i), (1, j)] {
        let values = weights[part(case, link)].iter_mut().enumerate();
        for (k, w) in values.filter(|(_, w)| moves(**w)) {
            line::write(log, 1, e as i64, end, k as i64, -*w);
            *w = 0;
        }
    }
    weights[part(case, case.variables + e)].copy_from_slice(pair);
}

/// A press found: its link, the link and the kept scopes, the amount. Without an amount
/// it is a void line.
struct Press {
    variable: usize,
    touched: Vec<usize>,
    amount: Option<i64>,
}

fn find_press(case: &Case, active: &Active, weights: &[i64]) -> Option<Press> {
    let (variable, mut raised) = choose(case, active)?;
    trim(case, active, variable, &mut raised);
    let touched: Vec<usize> = (0..raised.len()).filter(|&x| raised[x] || x == variable).collect();
    let amount = touched
        .iter()
        .flat_map(|&x| weights[part(case, x)].iter().map(move |w| (x, w)))
        .filter(|&(_, &w)| !barred(w))
        .map(|(x, w)| active.greatest[x] - w)
        .filter(|&gap| gap > 0)
        .min();
    Some(Press { variable, touched, amount })
}

fn write_press(log: &mut Vec<u8>, press: &Press) {
    let (kind, amount) = press.amount.map_or((5, 0), |amount| (2, amount));
    let raised = press.touched.iter().filter(|&&x| x != press.variable);
    line::write(log, kind, press.variable as i64, raised.clone().count() as i64, 0, amount);
    for &x in raised {
        line::write(log, 3, x as i64, 0, 0, 0);
    }
}

fn make_press(
    case: &Case,
    active: &Active,
    weights: &mut [i64],
    press: &Press,
    amount: i64,
) -> Result<(), u8> {
    let mut next = weights.to_vec();
    for &x in &press.touched {
        for w in next[part(case, x)].iter_mut().filter(|w| !barred(**w)) {
            if x == press.variable && *w == active.greatest[x] {
                *w -= amount;
            } else if x != press.variable && *w != active.greatest[x] {
                *w += amount;
            }
            if w.abs() > WORK_LIMIT {
                return Err(11);
            }
        }
    }
    weights.copy_from_slice(&next);
    Ok(())
}

/// One round: its lines and the table after it, or why there is none.
fn round(
    case: &Case,
    kind: Rounds,
    weights: &mut [i64],
    log: &mut Vec<u8>,
    at_limit: bool,
) -> Result<(), Stop> {
    let active = read(case, weights);
    let left = if at_limit { Err(Stop::Limit) } else { Ok(()) };
    if let Some((e, pair)) = choose_pair(case, &active, weights) {
        left?;
        shift_all(case, weights, e, &pair, log);
        return Ok(());
    }
    if kind == Rounds::Pairs {
        return Err(Stop::Settled);
    }
    let press = find_press(case, &active, weights).ok_or(Stop::Settled)?;
    let Some(amount) = press.amount else {
        write_press(log, &press);
        return Err(Stop::Void);
    };
    left?;
    make_press(case, &active, weights, &press, amount).map_err(Stop::Refused)?;
    write_press(log, &press);
    Ok(())
}

/// A run from the weights that the case holds.
pub fn run_case(case: &Case, kind: Rounds, limit: u64) -> Run {
    let mut weights: Vec<i64> = case.weights.iter().map(|&w| i64::from(w)).collect();
    let mut log = Vec::new();
    let mut rounds = 0;
    let stop = loop {
        if let Err(stop) = round(case, kind, &mut weights, &mut log, rounds == limit) {
            break stop;
        }
        rounds += 1;
        line::write(&mut log, 4, 0, 0, 0, upper_bound(case, &weights));
    };
    let upper_bound = upper_bound(case, &weights);
    let weights = weights.into_iter().map(|weight| weight as i32).collect();
    Run { stop, rounds, upper_bound, log, weights }
}
