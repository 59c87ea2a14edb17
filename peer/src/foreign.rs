//! Logs as other engines write them: shifts, whole pair rounds, untrimmed presses by odd amounts,
//! several moves a round, rounds whose first move raises the ceiling, void lines, and where
//! wanted links that join and leave. A careful writer's log is accepted; a careless one also
//! writes what must be refused.

pub mod directed;
mod links;

pub use links::spoil;

use crate::engine::{find_press, run_case, write_shifts};
use crate::joins;
use crate::line;
use crate::random::Random;
use crate::refute::{all_active_refuted, no_active_choice};
use crate::scopes::Scopes;
use crate::state::State;
use crate::types::*;

#[derive(Clone, Copy)]
struct Shift {
    edge: usize,
    end: usize,
    value: usize,
    amount: i32,
}

struct Writer<'a> {
    random: &'a mut Random,
    /// The case as it stands, with its starting weights.
    case: Case,
    state: State,
    carry: i64,
    log: Vec<u8>,
    careless: bool,
    /// Links may join and leave.
    links: bool,
    /// A void line was written.
    void: bool,
}

/// A foreign log for the case; `careless` ones may be refused at any number.
pub fn log(random: &mut Random, case: &Case, careless: bool) -> Vec<u8> {
    let mut writer = Writer::new(random, case, careless);
    writer.write_all();
    writer.log
}

/// The same, mostly with links that join and leave, where they may.
pub fn mixed(random: &mut Random, case: &Case, careless: bool) -> Vec<u8> {
    let links = joins::allowed() && random.chance(2, 3);
    let mut writer = Writer::new(random, case, careless);
    writer.links = links;
    writer.write_all();
    writer.log
}

/// The lines of one join that the case can take.
pub fn one_join(random: &mut Random, case: &Case) -> Vec<Line> {
    Writer::new(random, case, false).some_join()
}

/// The same of a link whose scopes are flat.
pub fn flat_join(random: &mut Random, case: &Case) -> Vec<Line> {
    let count = random.below(1 + case.variables.min(MAX_EDGES - case.edges.len()));
    let lower = links::some_lower(random, case.variables, count);
    let style = links::Style::Flat(random.between(-START_LIMIT, START_LIMIT));
    links::join_lines(random, case, &lower, style, 0)
}

/// Tables up to this length begin with many of the engine's rounds now and then.
const MANY_ROUNDS: usize = 250;

impl<'a> Writer<'a> {
    fn new(random: &'a mut Random, case: &Case, careless: bool) -> Writer<'a> {
        Writer {
            random,
            case: case.clone(),
            state: State::new(case),
            carry: 0,
            log: Vec::new(),
            careless,
            links: false,
            void: false,
        }
    }

    fn write_all(&mut self) {
        if self.random.chance(1, 3) {
            let many = self.case.weights.len() <= MANY_ROUNDS;
            let limit = match self.random.below(3) {
                0 if many => PROGRAM_ROUNDS,
                _ => self.random.below(30) as u64,
            };
            self.engine_rounds(limit);
        }
        let rounds = *self.random.pick(&[0, 0, 1, 1, 2, 2, 3, 5, 8, 8, 20]);
        for _ in 0..rounds {
            if self.links && self.random.chance(1, 2) && !self.some_links() {
                return;
            }
            let goes_on = self.links && !self.careless;
            if !self.round() && (self.void || !goes_on) {
                return;
            }
        }
        if self.links && !self.some_links() {
            return;
        }
        if self.random.chance(1, 2) {
            self.some_void();
        }
    }

    /// Some of the engine's rounds, but not its void line; bound lines state the carry too.
    fn engine_rounds(&mut self, limit: u64) {
        let weights = self.state.weights();
        let run = run_case(&Case { weights, ..self.case.clone() }, Rounds::All, limit);
        for bytes in run.log.chunks(LINE_BYTES) {
            match line::parse(bytes) {
                Some(line) if line.kind == 5 => break,
                Some(line) if line.kind == 4 => {
                    line::write(&mut self.log, 4, 0, 0, 0, line.amount + self.carry);
                }
                _ => self.log.extend(bytes),
            }
        }
        let weights = run.weights;
        self.state = State::new(&Case { weights, ..self.case.clone() });
    }

    /// One round. False if the log ends here.
    fn round(&mut self) -> bool {
        let start = self.state.upper_bound;
        let before = (self.state.clone(), self.log.len());
        if self.random.chance(1, 3) {
            self.raise_and_return();
        }
        if self.random.chance(1, 4) {
            self.any_pair_round();
        }
        if self.random.chance(1, 6) && self.some_void() {
            return self.careless && self.random.chance(1, 3);
        }
        for _ in 0..*self.random.pick(&[0, 0, 1, 2, 4]) {
            if self.random.chance(1, 2) {
                self.any_shift();
            } else {
                self.any_press();
            }
        }
        if self.links && self.careless && self.random.chance(1, 12) {
            self.stray_links();
        }
        for _ in 0..4 {
            if self.state.upper_bound < start {
                break;
            }
            self.any_press();
        }
        if self.random.chance(1, 12) && self.some_void() {
            return self.careless && self.random.chance(1, 3);
        }
        if self.state.upper_bound >= start {
            self.engine_press();
        }
        if self.state.upper_bound < start {
            self.bound(0);
            return true;
        }
        self.give_up(before)
    }

    /// No lower ceiling was reached: back to the round's start, or a bad ending.
    fn give_up(&mut self, before: (State, usize)) -> bool {
        if !self.careless {
            self.state = before.0;
            self.log.truncate(before.1);
            return false;
        }
        match self.random.below(3) {
            0 => self.bound(0),
            1 => {
                let error = *self.random.pick(&[-1, 1, 1000]);
                self.bound(error);
            }
            _ => return false,
        }
        true
    }

    fn bound(&mut self, error: i64) {
        let error = if self.careless && self.random.chance(1, 40) {
            1
        } else {
            error
        };
        let forgotten = self.carry != 0 && self.careless && self.random.chance(1, 15);
        let carry = if forgotten { 0 } else { self.carry };
        line::write(&mut self.log, 4, 0, 0, 0, self.state.upper_bound + carry + error);
    }

    fn some_shift(&mut self) -> Option<Shift> {
        if self.state.edges == 0 {
            return None;
        }
        let most = *self
            .random
            .pick(&[1, 3, 10, 10, 1000, 100_000, 1_000_000, 400_000_000]);
        let size = self.amount(most);
        let amount = if self.random.chance(1, 2) {
            size
        } else {
            -size
        };
        Some(Shift {
            edge: self.random.below(self.state.edges),
            end: self.random.below(2),
            value: self.random.below(self.state.values),
            amount,
        })
    }

    /// 1 to `most`; from a careless writer sometimes far more.
    fn amount(&mut self, most: i64) -> i32 {
        let huge = self.careless && self.random.chance(1, 25);
        let most = if huge { MOVE_LIMIT } else { most };
        self.random.between(1, most) as i32
    }

    /// Makes and writes a shift. One out of range is written by careless writers only.
    fn shift(&mut self, shift: Shift) -> bool {
        let Shift {
            edge,
            end,
            value,
            amount,
        } = shift;
        let good = self.state.shift(edge, end, value, amount).is_ok();
        if good || self.careless {
            let (edge, end, value) = (edge as i64, end as i64, value as i64);
            line::write(&mut self.log, 1, edge, end, value, amount.into());
        }
        good
    }

    fn any_shift(&mut self) {
        if let Some(shift) = self.some_shift() {
            self.shift(shift);
        }
    }

    /// The shifts of a pair round of any edge, mostly one that is due.
    fn any_pair_round(&mut self) {
        let offset = self.random.below(self.state.edges);
        let any = self.random.chance(1, 6);
        for step in 0..self.state.edges {
            let edge = (offset + step) % self.state.edges;
            if !any && !no_active_choice(&self.state, edge) {
                continue;
            }
            if let Some(weights) = self.state.gathered(edge) {
                write_shifts(&mut self.log, &self.state, edge);
                return self.state.gather(edge, &weights);
            }
        }
    }

    /// A first shift that raises the ceiling, taken back whole or in part.
    fn raise_and_return(&mut self) {
        for _ in 0..6 {
            let Some(shift) = self.some_shift() else {
                return;
            };
            let mut trial = self.state.clone();
            let made = trial.shift(shift.edge, shift.end, shift.value, shift.amount);
            if made.is_err() || trial.upper_bound <= self.state.upper_bound {
                continue;
            }
            self.shift(shift);
            if self.random.chance(1, 2) {
                self.any_press();
            }
            let part = if self.random.chance(3, 4) { 1 } else { 2 };
            let amount = -(shift.amount / part);
            if amount != 0 {
                self.shift(Shift { amount, ..shift });
            }
            return;
        }
    }

    /// A press of any variable that can be pressed, with more scopes than needed.
    fn any_press(&mut self) {
        if self.careless && self.random.chance(1, 12) {
            return self.wild_press();
        }
        let offset = self.random.below(self.state.variables);
        for step in 0..self.state.variables {
            let variable = (offset + step) % self.state.variables;
            let raised = self.state.others(variable);
            if all_active_refuted(&self.state, &raised, variable) {
                let raised = self.drop_some(variable, raised);
                let amount = self.odd_amount(variable, &raised);
                self.press(variable, raised, amount);
                return;
            }
        }
    }

    fn engine_press(&mut self) {
        if let Some(press) = find_press(&self.state, 0) {
            let amount = press.amount.unwrap_or(1);
            self.press(press.variable, press.raised, amount);
        }
    }

    /// A void line where it holds, with more scopes than needed. A careless writer also
    /// writes others. True if one was written.
    fn some_void(&mut self) -> bool {
        let bad = self.careless && self.random.chance(1, 3);
        match self.find_void() {
            Some((variable, raised)) if bad => self.wrong_void(variable, raised),
            Some((variable, raised)) => self.write_void(variable, &raised),
            None if !bad => return false,
            None => return self.bad_void(),
        }
        true
    }

    /// A link and scopes that set no gap and refute all its active values.
    fn find_void(&mut self) -> Option<(usize, Scopes)> {
        let offset = self.random.below(self.state.variables);
        for step in 0..self.state.variables {
            let variable = (offset + step) % self.state.variables;
            let mut raised = Scopes::default();
            for scope in 0..self.state.scopes() {
                if scope != variable && self.state.gap(scope).is_none() {
                    raised.insert(self.state.variables, scope);
                }
            }
            let good = self.state.bars_rest(variable, &raised)
                && all_active_refuted(&self.state, &raised, variable);
            if good {
                return Some((variable, self.drop_some(variable, raised)));
            }
        }
        None
    }

    /// A void line that would hold, made wrong, perhaps: a scope less, a scope more, or
    /// another link.
    fn wrong_void(&mut self, variable: usize, mut raised: Scopes) {
        let variables = self.state.variables;
        let list = raised.list(variables);
        let scope = self.random.below(self.state.scopes());
        match self.random.below(4) {
            0 if list.len() > 1 => raised.remove(variables, *self.random.pick(&list)),
            1 if scope < variables && raised.variables >> scope & 1 == 0 => {
                return self.write_void(scope, &raised);
            }
            2 => raised = self.state.others(variable),
            _ if scope != variable => raised.insert(variables, scope),
            _ => {}
        }
        self.write_void(variable, &raised);
    }

    /// A void line of a link that can be pressed, or of any.
    fn bad_void(&mut self) -> bool {
        let any = self.random.chance(1, 4);
        let offset = self.random.below(self.state.variables);
        for step in 0..self.state.variables {
            let variable = (offset + step) % self.state.variables;
            let mut raised = self.state.others(variable);
            if all_active_refuted(&self.state, &raised, variable) {
                raised = self.drop_some(variable, raised);
            } else if !any {
                continue;
            }
            if raised.count() > 0 {
                self.write_void(variable, &raised);
                return true;
            }
        }
        false
    }

    fn write_void(&mut self, variable: usize, raised: &Scopes) {
        self.void = true;
        line::write(&mut self.log, 5, variable as i64, raised.count() as i64, 0, 0);
        self.write_raised(raised);
    }

    fn drop_some(&mut self, variable: usize, mut raised: Scopes) -> Scopes {
        let variables = self.state.variables;
        let tries = *self.random.pick(&[0, 3, 20, 300]);
        for _ in 0..tries {
            let scope = self.random.below(self.state.scopes());
            let mut fewer = raised;
            fewer.remove(variables, scope);
            if all_active_refuted(&self.state, &fewer, variable) {
                raised = fewer;
            }
        }
        raised
    }

    /// An amount below, at or above the least gap.
    fn odd_amount(&mut self, variable: usize, raised: &Scopes) -> i32 {
        let state = &self.state;
        let mut scopes = raised.list(state.variables);
        scopes.push(variable);
        let gaps = scopes.iter().filter_map(|&scope| state.gap(scope));
        let least = gaps.min().unwrap_or(1 + self.random.below(1000) as i32).max(1);
        let amount = match self.random.below(6) {
            0 => 1,
            1 | 2 => i64::from(least),
            3 => i64::from(least) + self.random.between(1, 1 + i64::from(least)),
            4 => i64::from(self.amount(i64::from(least))),
            _ => (i64::from(least) / 2).max(1),
        };
        amount.min(MOVE_LIMIT) as i32
    }

    fn press(&mut self, variable: usize, raised: Scopes, amount: i32) {
        let good = self.state.press(variable, &raised, amount).is_ok();
        if good || self.careless {
            self.write_press(variable, &raised, amount);
        }
    }

    /// A press nobody has looked into; made only if it happens to be allowed.
    fn wild_press(&mut self) {
        let variable = self.random.below(self.state.variables);
        let mut raised = Scopes::default();
        for scope in 0..self.state.scopes() {
            if scope != variable && self.random.chance(1, 2) {
                raised.insert(self.state.variables, scope);
            }
        }
        if raised.count() == 0 {
            return;
        }
        let amount = self.amount(10);
        if all_active_refuted(&self.state, &raised, variable) {
            return self.press(variable, raised, amount);
        }
        self.write_press(variable, &raised, amount);
    }

    fn write_press(&mut self, variable: usize, raised: &Scopes, amount: i32) {
        let count = raised.count() as i64;
        line::write(&mut self.log, 2, variable as i64, count, 0, amount.into());
        self.write_raised(raised);
    }

    fn write_raised(&mut self, raised: &Scopes) {
        for scope in raised.list(self.state.variables) {
            line::write(&mut self.log, 3, scope as i64, 0, 0, 0);
        }
    }
}
