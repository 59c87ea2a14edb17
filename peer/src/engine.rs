//! The engine's round and its run, fast.
//!
//! A round is the pair round of the lowest edge that is due and not passed over, or
//! else a press. An edge is due while no choice of values is active in all its three
//! scopes. It is passed over if no choice is unbarred in all three, if a shift would
//! leave the range, or if the round would not lower the ceiling.
//!
//! A press takes the lowest variable whose active values are all refuted with all
//! other scopes raised, and drops raised scopes upwards. The dropping is done in
//! halves: a block of scopes without which the values stay refuted (lower kept and
//! all higher ones raised) is dropped at once, which gives the same kept scopes as
//! one after another, because raising more scopes never takes a refutation away.
//!
//! No press makes an active tuple inactive (every amount is at most every gap), and a
//! pair round does so in its own edge only: the unbarred values of its two variables
//! are all active after it. So an edge that is not due never becomes so, and one that
//! had its pair round has no second one. An edge passed over because its round would
//! not lower the ceiling is asked again after pair rounds only, one out of range before
//! each round. While an edge is without active choice, no family at all is supported
//! and the lowest variable is 0; after that a variable passed over stays passed over,
//! and a run looks on from the variable it pressed last.
//!
//! Where no scope of a press sets a gap, it is a void line instead, and the run ends.

use crate::line;
use crate::refute::{close, full_domains, no_active_choice, none_supported, Joint};
use crate::scopes::Scopes;
use crate::state::State;
use crate::types::*;

/// A press, or a void line, which has no amount.
pub struct Press {
    pub variable: usize,
    pub raised: Scopes,
    pub amount: Option<i32>,
}

/// Scopes that close something, without the pressed variable's own, rising.
fn candidates(state: &State, variable: usize) -> ([u8; MAX_SCOPES], usize) {
    let mut list = [0; MAX_SCOPES];
    let mut count = 0;
    for scope in 0..state.scopes() {
        list[count] = scope as u8;
        count += usize::from(scope != variable && state.closes_something(scope));
    }
    (list, count)
}

fn set_of(state: &State, scopes: &[u8]) -> Scopes {
    let mut set = Scopes::default();
    scopes
        .iter()
        .for_each(|&scope| set.insert(state.variables, scope as usize));
    set
}

/// Drops the scopes of a block upwards; `raised` are the kept ones below it and all
/// above it, and `joint` is what these leave standing.
fn trim(state: &State, block: &[u8], raised: &Scopes, joint: &Joint) -> Scopes {
    if joint.standing == 0 {
        return Scopes::default();
    }
    if block.len() <= 1 {
        return set_of(state, block);
    }
    let (below, above) = block.split_at(block.len() / 2);
    let (with_above, next) = raise(state, &set_of(state, above), raised, joint);
    let kept_below = trim(state, below, &with_above, &next);
    let (with_below, next) = raise(state, &kept_below, raised, joint);
    let kept_above = trim(state, above, &with_below, &next);
    kept_below.union(&kept_above)
}

fn raise(state: &State, added: &Scopes, raised: &Scopes, joint: &Joint) -> (Scopes, Joint) {
    let all = raised.union(added);
    let mut next = *joint;
    next.add(state, added, &all);
    (all, next)
}

/// The lowest variable from `from` on that can be pressed with all others raised.
fn lowest(state: &State, from: usize) -> Option<usize> {
    let all = Scopes::range(state.variables, 0, state.scopes());
    let mut base = full_domains(state);
    if !close(state, &all, &mut base) {
        return Some(from);
    }
    (from..state.variables).find(|&variable| none_supported(state, &all, variable, &base))
}

/// The least gap among the kept scopes and the variable's own scope, if there is one.
fn amount(state: &State, variable: usize, raised: &Scopes) -> Option<i32> {
    let mut least = i32::MAX;
    let mut limit = |scope: usize| least = least.min(state.gap(scope).unwrap_or(i32::MAX));
    limit(variable);
    raised.each_variable(&mut limit);
    raised.each_edge(|edge| limit(state.variables + edge));
    (least < i32::MAX).then_some(least)
}

/// The press of the next round, or nothing if settled. `from` is a variable below
/// which none can be pressed.
pub fn find_press(state: &State, from: usize) -> Option<Press> {
    let variable = lowest(state, from)?;
    let joint = Joint::new(&full_domains(state), variable, state.active[variable]);
    let (list, count) = candidates(state, variable);
    let raised = trim(state, &list[..count], &Scopes::default(), &joint);
    Some(Press {
        variable,
        raised,
        amount: amount(state, variable, &raised),
    })
}

fn write_press(out: &mut Vec<u8>, state: &State, press: &Press) {
    let (variable, count) = (press.variable as i64, press.raised.count() as i64);
    match press.amount {
        Some(amount) => line::write(out, 2, variable, count, 0, amount.into()),
        None => line::write(out, 5, variable, count, 0, 0),
    }
    let mut raise = |scope: usize| line::write(out, 3, scope as i64, 0, 0, 0);
    press.raised.each_variable(&mut raise);
    press.raised.each_edge(|edge| raise(state.variables + edge));
}

/// The shifts of the edge's pair round, read before it.
pub fn write_shifts(out: &mut Vec<u8>, state: &State, edge: usize) {
    for (end, variable) in state.ends[edge].into_iter().enumerate() {
        for (value, weight) in state.working(variable as usize).enumerate() {
            if weight != 0 && weight != BARRED {
                let (edge, end, value) = (edge as i64, end as i64, value as i64);
                line::write(out, 1, edge, end, value, -i64::from(weight));
            }
        }
    }
}

/// What is to be said of an edge.
enum Look {
    /// It is not due, or has no unbarred choice, now and later.
    Never,
    /// Its round would not lower the ceiling.
    Level,
    OutOfRange,
    /// Its weights after its round.
    Round(Vec<i32>),
}

fn look(state: &State, edge: usize) -> Look {
    if !no_active_choice(state, edge) || !state.choice[edge] {
        return Look::Never;
    }
    match state.gathered(edge) {
        None => Look::OutOfRange,
        Some(weights) if state.lowers(edge, &weights) => Look::Round(weights),
        Some(_) => Look::Level,
    }
}

/// The edges of a working table that are due and passed over, but those without an
/// unbarred choice.
pub fn passed_over(table: &Case) -> Vec<usize> {
    let state = State::new(table);
    let passed = |&edge: &usize| matches!(look(&state, edge), Look::Level | Look::OutOfRange);
    (0..state.edges).filter(passed).collect()
}

enum Round {
    /// The edge and its weights after the round.
    Pair(usize, Vec<i32>),
    Press(Press),
}

/// An edge that may have its round yet; `level` if no press makes it so.
struct Left {
    edge: usize,
    level: bool,
}

/// Where a run looks on: the edges left, and a variable below which none can be pressed.
struct Search {
    kind: Rounds,
    edges: Vec<Left>,
    from: usize,
}

impl Search {
    fn new(state: &State, kind: Rounds) -> Search {
        let level = false;
        let edges = (0..state.edges).map(|edge| Left { edge, level }).collect();
        Search { kind, edges, from: 0 }
    }

    /// The lowest edge that is due and not passed over.
    fn pair(&mut self, state: &State) -> Option<Round> {
        let mut found = None;
        self.edges.retain_mut(|left| {
            if found.is_some() || left.level {
                return true;
            }
            match look(state, left.edge) {
                Look::Never => return false,
                Look::OutOfRange => {}
                Look::Level => left.level = true,
                Look::Round(weights) => {
                    found = Some(Round::Pair(left.edge, weights));
                    return false;
                }
            }
            true
        });
        if found.is_some() {
            self.edges.iter_mut().for_each(|left| left.level = false);
        }
        found
    }

    fn next(&mut self, state: &State) -> Option<Round> {
        let pair = self.pair(state);
        if pair.is_some() || self.kind == Rounds::Pairs {
            return pair;
        }
        let press = find_press(state, self.from)?;
        self.from = press.variable;
        Some(Round::Press(press))
    }
}

fn make(state: &mut State, round: &Round, log: &mut Vec<u8>) -> Result<(), u8> {
    match round {
        Round::Pair(edge, weights) => {
            write_shifts(log, state, *edge);
            state.gather(*edge, weights);
        }
        Round::Press(press) => {
            let amount = press.amount.unwrap_or_default();
            state.press(press.variable, &press.raised, amount)?;
            write_press(log, state, press);
        }
    }
    line::write(log, 4, 0, 0, 0, state.upper_bound);
    Ok(())
}

/// Runs up to `limit` rounds from the given state.
fn run(state: &mut State, kind: Rounds, limit: u64, log: &mut Vec<u8>) -> (Stop, u64) {
    let mut rounds = 0;
    let mut search = Search::new(state, kind);
    while let Some(round) = search.next(state) {
        if let Round::Press(void @ Press { amount: None, .. }) = &round {
            write_press(log, state, void);
            return (Stop::Void, rounds);
        }
        if rounds == limit {
            return (Stop::Limit, rounds);
        }
        if let Err(number) = make(state, &round, log) {
            return (Stop::Refused(number), rounds);
        }
        rounds += 1;
    }
    (Stop::Settled, rounds)
}

/// A run from the weights that the case holds, with everything it hands back.
pub fn run_case(case: &Case, kind: Rounds, limit: u64) -> Run {
    let mut state = State::new(case);
    let mut log = Vec::new();
    let (stop, rounds) = run(&mut state, kind, limit, &mut log);
    Run {
        stop,
        rounds,
        upper_bound: state.upper_bound,
        log,
        weights: state.weights(),
    }
}
