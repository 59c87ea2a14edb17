//! The replay as one writes it at the first go: byte sets, every press and every bound
//! line from the table alone. It is the yardstick of speed beside the plain engine.

use crate::case;
use crate::joins;
use crate::line;
use crate::plain::{all_refuted, barred, part, read, scopes, upper_bound, Active};
use crate::plain_links::{self, Joining};
use crate::replay::below;
use crate::types::*;

/// A press or, without an amount, a void line.
struct Held {
    variable: usize,
    amount: Option<i64>,
    left: usize,
    last: Option<usize>,
    raised: Vec<bool>,
}

struct Replay {
    case: Case,
    weights: Vec<i64>,
    carry: i64,
    rounds: u64,
    round_start: i64,
    open_moves: bool,
    held: Option<Held>,
    joining: Option<Joining>,
    void: bool,
}

impl Replay {
    fn new(case: Case) -> Replay {
        let weights: Vec<i64> = case.weights.iter().map(|&weight| i64::from(weight)).collect();
        let round_start = upper_bound(&case, &weights);
        Replay {
            case,
            weights,
            carry: 0,
            rounds: 0,
            round_start,
            open_moves: false,
            held: None,
            joining: None,
            void: false,
        }
    }

    fn ceiling(&self) -> i64 {
        upper_bound(&self.case, &self.weights) + self.carry
    }

    fn unfinished(&self) -> bool {
        self.held.is_some() || self.joining.is_some() || self.open_moves && !self.void
    }

    fn take(&mut self, bytes: &[u8]) -> Result<(), u8> {
        let line = line::parse(bytes).ok_or(1)?;
        if let Some(joining) = self.joining.take() {
            return self.join(line, joining);
        }
        let between = joins::allowed() && !self.open_moves;
        match (line.kind, self.held.take()) {
            _ if self.void => Err(2),
            (3, Some(held)) => self.raise(line, held),
            (1, None) => self.shift(line),
            (2, None) => self.press(line),
            (4, None) => self.bound(line),
            (5, None) => self.void(line),
            (7, None) if between => self.leave(line),
            (8, None) if between => {
                self.joining = Some(Joining::begin(&self.case, line)?);
                Ok(())
            }
            _ => Err(2),
        }
    }

    fn leave(&mut self, line: Line) -> Result<(), u8> {
        if [line.b, line.c, line.amount] != [0; 3] {
            return Err(2);
        }
        if self.case.variables < 2 {
            return Err(3);
        }
        let link = below(line.a, self.case.variables)?;
        let left = plain_links::leave(&self.case, &self.weights, self.carry, link);
        (self.case, self.weights, self.carry) = left;
        self.round_start = self.ceiling();
        Ok(())
    }

    fn join(&mut self, line: Line, mut joining: Joining) -> Result<(), u8> {
        if !joining.take(&self.case, line)? {
            self.joining = Some(joining);
            return Ok(());
        }
        (self.case, self.weights) = joining.joined(&self.case, &self.weights);
        self.round_start = self.ceiling();
        Ok(())
    }

    /// The weights of some scopes, changed in a copy first.
    fn change(&mut self, touched: &[usize], to: impl Fn(usize, usize, i64) -> i64) -> Result<(), u8> {
        let mut parts = vec![];
        for &scope in touched {
            let old = self.weights[part(&self.case, scope)].iter().enumerate();
            let mut new = vec![];
            for (at, &weight) in old {
                let next = if barred(weight) { weight } else { to(scope, at, weight) };
                if !barred(weight) && next.abs() > WORK_LIMIT {
                    return Err(11);
                }
                new.push(next);
            }
            parts.push(new);
        }
        for (&scope, new) in touched.iter().zip(&parts) {
            self.weights[part(&self.case, scope)].copy_from_slice(new);
        }
        self.open_moves = true;
        Ok(())
    }

    fn shift(&mut self, line: Line) -> Result<(), u8> {
        let (n, d) = (self.case.variables, self.case.values);
        let edge = below(line.a, self.case.edges.len())?;
        let end = below(line.b, 2)?;
        let value = below(line.c, d)?;
        if line.amount == 0 || line.amount.abs() > MOVE_LIMIT {
            return Err(5);
        }
        let (i, j) = self.case.edges[edge];
        let variable = [i, j][end];
        self.change(&[variable, n + edge], |scope, at, weight| {
            let own = line.amount * i64::from(scope == variable && at == value);
            let used = scope != variable && [at / d, at % d][end] == value;
            weight + own - line.amount * i64::from(used)
        })
    }

    fn press(&mut self, line: Line) -> Result<(), u8> {
        if line.c != 0 {
            return Err(2);
        }
        if !(1..=MOVE_LIMIT).contains(&line.amount) {
            return Err(5);
        }
        self.hold(line, Some(line.amount))
    }

    fn void(&mut self, line: Line) -> Result<(), u8> {
        if (line.c | line.amount) != 0 {
            return Err(2);
        }
        self.hold(line, None)
    }

    fn hold(&mut self, line: Line, amount: Option<i64>) -> Result<(), u8> {
        let variable = below(line.a, self.case.variables)?;
        let left = below(line.b, scopes(&self.case))?;
        if left == 0 {
            return Err(5);
        }
        let raised = vec![false; scopes(&self.case)];
        self.held = Some(Held { variable, amount, left, last: None, raised });
        Ok(())
    }

    fn raise(&mut self, line: Line, mut held: Held) -> Result<(), u8> {
        if (line.b | line.c | line.amount) != 0 {
            return Err(2);
        }
        let scope = below(line.a, scopes(&self.case))?;
        if held.last.is_some_and(|last| scope <= last) || scope == held.variable {
            return Err(9);
        }
        held.raised[scope] = true;
        held.last = Some(scope);
        held.left -= 1;
        if held.left > 0 {
            self.held = Some(held);
            return Ok(());
        }
        let active = read(&self.case, &self.weights);
        if !all_refuted(&self.case, &active, &held.raised, held.variable) {
            return Err(10);
        }
        held.raised[held.variable] = true;
        let touched: Vec<usize> = (0..held.raised.len()).filter(|&x| held.raised[x]).collect();
        let Some(amount) = held.amount else {
            return self.end_void(&active, &touched);
        };
        self.change(&touched, |scope, _, weight| {
            match (scope == held.variable, weight == active.greatest[scope]) {
                (true, true) => weight - amount,
                (false, false) => weight + amount,
                _ => weight,
            }
        })
    }

    /// All that is inactive in the link and in the raised scopes must be barred.
    fn end_void(&mut self, active: &Active, touched: &[usize]) -> Result<(), u8> {
        for &scope in touched {
            let weights = &self.weights[part(&self.case, scope)];
            if weights.iter().any(|&w| w != active.greatest[scope] && !barred(w)) {
                return Err(16);
            }
        }
        self.void = true;
        Ok(())
    }

    fn bound(&mut self, line: Line) -> Result<(), u8> {
        if (line.a | line.b | line.c) != 0 {
            return Err(2);
        }
        let bound = self.ceiling();
        if self.rounds >= ROUND_LIMIT {
            return Err(5);
        }
        if line.amount != bound || bound >= self.round_start {
            return Err(if line.amount != bound { 12 } else { 13 });
        }
        (self.rounds, self.round_start, self.open_moves) = (self.rounds + 1, bound, false);
        Ok(())
    }
}

/// What an accepted case and log say, or the refusal.
pub fn answer(input: &[u8]) -> Result<Verdict, Refusal> {
    let (case, used) = case::read_front(input)?;
    let mut replay = Replay::new(case);
    let lines = input[used * LINE_BYTES..].chunks_exact(LINE_BYTES);
    let (end, whole) = (used + lines.len(), lines.remainder().is_empty());
    for (line, bytes) in (used..).zip(lines) {
        replay.take(bytes).map_err(|number| Refusal { number, line })?;
    }
    if !whole || replay.unfinished() {
        return Err(Refusal { number: 14, line: end });
    }
    if replay.void {
        return Ok(Verdict::Void);
    }
    Ok(Verdict::Accepted(replay.rounds, replay.ceiling()))
}
