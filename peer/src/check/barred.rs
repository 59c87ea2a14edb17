//! What follows from document 02's barred channels: facts about presses, about pairs
//! passed over and about runs from starting weights, round by round.

use super::pairs::Step;
use super::*;
use crate::slow::engine::{due, round_of_due, Passed};

/// Every active combination stays active and one more is; the greatest weights stay but
/// the pressed link's, which falls by the amount.
fn active_grows(table: &Case, step: &Step, file: &[u8]) -> Result<(), Difference> {
    let (mut before, mut after) = (0, 0);
    for scope in 0..table.scopes() {
        for tuple in figures::tuples(table, scope) {
            let was = figures::is_active(table, &step.before, scope, &tuple);
            let is = figures::is_active(table, &step.after, scope, &tuple);
            holds("a press keeps what is active", is || !was, file)?;
            before += u64::from(was);
            after += u64::from(is);
        }
        let [old, new] = [&step.before, &step.after].map(|w| figures::greatest(table, w, scope));
        let fall = if scope == step.first() { step.amount() } else { 0 };
        same("greatest weight after a press", &new, &(old - fall), file)?;
    }
    holds("a press makes one more active", after > before, file)
}

/// Greatest minus least unbarred weight.
fn spread(table: &Case, weights: &[i64], scope: usize) -> i64 {
    let all = weights[figures::places(table, scope)].iter();
    let least = all.filter(|&&weight| weight != figures::BARRED).min().unwrap();
    figures::greatest(table, weights, scope) - least
}

/// No scope's spread grows by a press, and all together shrink by its amount or more.
fn spreads_shrink(table: &Case, step: &Step, file: &[u8]) -> Result<(), Difference> {
    let mut shrunk = 0;
    for scope in 0..table.scopes() {
        let [old, new] = [&step.before, &step.after].map(|w| spread(table, w, scope));
        holds("no spread grows by a press", new <= old, file)?;
        shrunk += old - new;
    }
    holds("spreads shrink by the amount", shrunk >= step.amount(), file)
}

fn eligible(table: &Case, weights: &[i64], edge: usize) -> bool {
    due(table, weights, edge) && round_of_due(table, weights, edge).is_ok()
}

/// A pair that can have its round after a press was out of range before.
fn none_eligible(table: &Case, step: &Step, file: &[u8]) -> Result<(), Difference> {
    for edge in 0..table.edges.len() {
        let out = step.passed.contains(&(edge, Passed::OutOfRange));
        let after = eligible(table, &step.after, edge);
        holds("a press makes no pair eligible", out || !after, file)?;
    }
    Ok(())
}

pub fn press_facts(table: &Case, step: &Step, file: &[u8]) -> Result<(), Difference> {
    active_grows(table, step, file)?;
    spreads_shrink(table, step, file)?;
    none_eligible(table, step, file)
}

/// Some choice is active in the pair and both links.
fn has_active_choice(table: &Case, weights: &[i64], edge: usize) -> bool {
    let (lower, higher) = table.edges[edge];
    let scope = table.variables + edge;
    figures::tuples(table, scope).iter().any(|tuple| {
        figures::is_active(table, weights, scope, tuple)
            && figures::is_active(table, weights, lower, &tuple[..1])
            && figures::is_active(table, weights, higher, &tuple[1..])
    })
}

/// What holds where no press and no void line is left.
pub fn settled_fact(table: &Case, weights: &[i64], file: &[u8]) -> Result<(), Difference> {
    for edge in 0..table.edges.len() {
        let active = has_active_choice(table, weights, edge);
        holds("every pair has an active choice at the end", active, file)?;
        holds("no pair is eligible at the end", !eligible(table, weights, edge), file)?;
    }
    Ok(())
}

/// Weights in the pair phase and after it, from starting weights of at most U in size.
pub fn pair_phase(table: &Case, steps: &[Step], file: &[u8]) -> Result<(), Difference> {
    let start = figures::starting_weights(table);
    let unbarred = start.iter().filter(|&&weight| weight != figures::BARRED);
    let most = unbarred.map(|weight| weight.abs()).max().unwrap();
    let links = table.variables * table.values;
    let pairs: Vec<&Step> = steps.iter().take_while(|step| step.is_pair_round()).collect();
    for step in &pairs {
        for (place, &weight) in step.after.iter().enumerate() {
            let good = match place {
                _ if weight == figures::BARRED => true,
                _ if place < links => weight == 0 || weight == start[place],
                _ => weight.abs() <= 3 * most,
            };
            holds("weights of the pair phase", good, file)?;
        }
    }
    let now = pairs.last().map_or(&start, |step| &step.after);
    let spreads: i64 = (0..table.scopes()).map(|scope| spread(table, now, scope)).sum();
    let scopes = table.scopes() as i64;
    holds("spreads after the pair phase", spreads <= 2 * scopes * most, file)
}
