//! Document 01's plain replay with document 02's void lines and links that join and leave,
//! word for word.

use super::figures::*;
use super::line;
use super::links::{self, HeldJoin};
use super::moves;
use super::refute::active_refuted;
use crate::joins;
use crate::types::{Case, Line};

/// A press, or a void line held like a press.
struct HeldPress {
    is_void: bool,
    variable: usize,
    amount: i64,
    raised: Vec<usize>,
    left: i64,
}

pub struct PlainReplay {
    /// The case as it stands, with its starting weights.
    pub case: Case,
    pub weights: Vec<i64>,
    pub carry: i64,
    pub rounds: u64,
    pub number: Option<u8>,
    round_start: i64,
    press: Option<HeldPress>,
    join: Option<HeldJoin>,
    moves_without_bound: bool,
    /// A void line is whole.
    pub void: bool,
}

impl PlainReplay {
    pub fn new(case: &Case) -> PlainReplay {
        let weights = starting_weights(case);
        let round_start = upper_bound(case, &weights);
        PlainReplay {
            case: case.clone(),
            weights,
            carry: 0,
            rounds: 0,
            number: None,
            round_start,
            press: None,
            join: None,
            moves_without_bound: false,
            void: false,
        }
    }

    pub fn ceiling(&self) -> i64 {
        upper_bound(&self.case, &self.weights) + self.carry
    }

    pub fn feed(&mut self, bytes: &[u8]) -> Option<u8> {
        if self.number.is_none() {
            self.number = self.ask(bytes).err();
        }
        self.number
    }

    pub fn end(&self) -> Option<u8> {
        match self.number {
            Some(number) => Some(number),
            None if self.void => None,
            None if self.press.is_some() || self.moves_without_bound => Some(14),
            None if self.join.is_some() => Some(14),
            None => None,
        }
    }

    fn ask(&mut self, bytes: &[u8]) -> Result<(), u8> {
        let Some(line) = line::parse(bytes) else {
            return Err(1);
        };
        if self.join.is_some() {
            return self.join_line(line);
        }
        let due: &[i64] = if self.void {
            &[]
        } else if self.press.is_some() {
            &[3]
        } else if self.moves_without_bound || !joins::allowed() {
            &[1, 2, 4, 5]
        } else {
            &[1, 2, 4, 5, 7, 8]
        };
        if !due.contains(&line.kind) || unused(&line).iter().any(|&column| column != 0) {
            return Err(2);
        }
        if !self.sizes_good(&line) {
            return Err(3);
        }
        if !self.ranges_good(&line) {
            return Err(5);
        }
        match line.kind {
            1 => self.make_shift(&line),
            2 | 5 => self.hold_press(&line),
            3 => self.raise(&line),
            7 => self.leave(&line),
            8 => self.begin_join(&line),
            _ => self.bound(&line),
        }
    }

    /// The case that a leave or a join would give has at least one link and passes no limit.
    fn sizes_good(&self, line: &Line) -> bool {
        let (links, pairs) = (self.case.variables as i64, self.case.edges.len() as i64);
        match line.kind {
            7 => links - 1 >= 1,
            8 => links + 1 <= 48 && pairs + line.a <= 96,
            _ => true,
        }
    }

    fn leave(&mut self, line: &Line) -> Result<(), u8> {
        let link = line.a as usize;
        let left = links::leave(&self.case, &self.weights, self.carry, link);
        (self.case, self.weights, self.carry) = left;
        self.round_start = self.ceiling();
        Ok(())
    }

    fn begin_join(&mut self, line: &Line) -> Result<(), u8> {
        self.join = Some(HeldJoin::new(&self.case, line.a as usize));
        Ok(())
    }

    fn join_line(&mut self, line: Line) -> Result<(), u8> {
        let join = self.join.as_mut().unwrap();
        join.take(line)?;
        if join.is_whole() {
            (self.case, self.weights) = join.made(&self.case, &self.weights);
            self.join = None;
            self.round_start = self.ceiling();
        }
        Ok(())
    }

    fn ranges_good(&self, line: &Line) -> bool {
        let within = |number: i64, count: usize| number >= 0 && number < count as i64;
        let scopes = scope_count(&self.case);
        let amount = line.amount;
        match line.kind {
            1 => {
                within(line.a, self.case.edges.len())
                    && within(line.b, 2)
                    && within(line.c, self.case.values)
                    && amount != 0
                    && (-1_000_000_000..=1_000_000_000).contains(&amount)
            }
            2 => {
                within(line.a, self.case.variables)
                    && line.b >= 1
                    && line.b <= scopes as i64 - 1
                    && (1..=1_000_000_000).contains(&amount)
            }
            3 => within(line.a, scopes),
            5 => {
                within(line.a, self.case.variables) && line.b >= 1 && line.b <= scopes as i64 - 1
            }
            7 => within(line.a, self.case.variables),
            8 => line.a >= 0 && line.a <= self.case.variables as i64,
            _ => self.rounds < 999_999_999_999_999_999,
        }
    }

    fn make_shift(&mut self, line: &Line) -> Result<(), u8> {
        let (edge, end, value) = (line.a as usize, line.b as usize, line.c as usize);
        self.weights = moves::shift(&self.case, &self.weights, edge, end, value, line.amount)?;
        self.moves_without_bound = true;
        Ok(())
    }

    fn hold_press(&mut self, line: &Line) -> Result<(), u8> {
        self.press = Some(HeldPress {
            is_void: line.kind == 5,
            variable: line.a as usize,
            amount: line.amount,
            raised: vec![],
            left: line.b,
        });
        Ok(())
    }

    fn raise(&mut self, line: &Line) -> Result<(), u8> {
        let press = self.press.as_ref().unwrap();
        let scope = line.a as usize;
        let above = press.raised.iter().all(|&earlier| earlier < scope);
        if !above || scope == press.variable {
            return Err(9);
        }
        let mut raised = press.raised.clone();
        raised.push(scope);
        if press.left == 1 {
            if !active_refuted(&self.case, &self.weights, &raised, press.variable) {
                return Err(10);
            }
            if press.is_void {
                if !self.barring_holds(press.variable, &raised) {
                    return Err(16);
                }
                self.press = None;
                self.void = true;
                return Ok(());
            }
            let (variable, amount) = (press.variable, press.amount);
            self.weights = moves::press(&self.case, &self.weights, variable, &raised, amount)?;
            self.press = None;
            self.moves_without_bound = true;
            return Ok(());
        }
        let press = self.press.as_mut().unwrap();
        press.raised = raised;
        press.left -= 1;
        Ok(())
    }

    /// All values of the link but the active ones are barred, and so are all closed
    /// combinations.
    fn barring_holds(&self, variable: usize, raised: &[usize]) -> bool {
        let active = active_values(&self.case, &self.weights, variable);
        for value in 0..self.case.values {
            let barred = is_barred(&self.case, &self.weights, variable, &[value]);
            if !active.contains(&value) && !barred {
                return false;
            }
        }
        for &scope in raised {
            for tuple in tuples(&self.case, scope) {
                let closed = !is_active(&self.case, &self.weights, scope, &tuple);
                if closed && !is_barred(&self.case, &self.weights, scope, &tuple) {
                    return false;
                }
            }
        }
        true
    }

    fn bound(&mut self, line: &Line) -> Result<(), u8> {
        let ceiling = self.ceiling();
        if line.amount != ceiling {
            return Err(12);
        }
        if ceiling >= self.round_start {
            return Err(13);
        }
        self.rounds += 1;
        self.round_start = line.amount;
        self.moves_without_bound = false;
        Ok(())
    }
}

fn unused(line: &Line) -> Vec<i64> {
    match line.kind {
        2 => vec![line.c],
        3 => vec![line.b, line.c, line.amount],
        4 => vec![line.a, line.b, line.c],
        5 => vec![line.c, line.amount],
        7 | 8 => vec![line.b, line.c, line.amount],
        _ => vec![],
    }
}
