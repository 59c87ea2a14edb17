//! The replay of log lines, fast. Answers are those of document 01's plain replay, with
//! document 02's void lines and links that join and leave.

use crate::joins;
use crate::line;
use crate::links::{self, Joining};
use crate::refute::all_active_refuted;
use crate::scopes::Scopes;
use crate::state::State;
use crate::types::*;

/// What is done at the last raise line.
#[derive(Clone, Copy)]
enum Target {
    Press(i32),
    Void,
}

/// A press or void line whose raise lines are not all there yet; `next` is the lowest
/// scope that is above the raised ones.
#[derive(Clone, Copy)]
struct Held {
    variable: usize,
    target: Target,
    left: usize,
    next: usize,
    raised: Scopes,
}

pub struct Replay {
    /// The case as it stands, with its starting weights.
    pub case: Case,
    pub state: State,
    pub carry: i64,
    pub rounds: u64,
    /// The number that stands, once a line was refused.
    pub standing: Option<u8>,
    /// A void line is whole: nothing is due any more.
    pub void: bool,
    /// What became of leaves and joins.
    pub links: links::Figures,
    round_start: i64,
    open_moves: bool,
    held: Option<Held>,
    joining: Option<Joining>,
}

impl Replay {
    pub fn new(case: &Case) -> Replay {
        let state = State::new(case);
        let round_start = state.upper_bound;
        Replay {
            case: case.clone(),
            state,
            carry: 0,
            rounds: 0,
            standing: None,
            void: false,
            links: links::Figures::default(),
            round_start,
            open_moves: false,
            held: None,
            joining: None,
        }
    }

    /// The upper bound and the carry.
    #[inline]
    pub fn ceiling(&self) -> i64 {
        self.state.upper_bound + self.carry
    }

    /// Takes one line, any bytes; the answer is a number or nothing.
    #[inline]
    pub fn step(&mut self, bytes: &[u8]) -> Option<u8> {
        if self.standing.is_none() {
            self.standing = self.take(bytes).err();
        }
        self.standing
    }

    /// The answer at the end of the list.
    pub fn end(&self) -> Option<u8> {
        let held = self.held.is_some() || self.joining.is_some();
        let unfinished = held || self.open_moves && !self.void;
        self.standing.or(unfinished.then_some(14))
    }

    /// What became of leaves and joins, at the end of the list.
    pub fn link_figures(&self) -> links::Figures {
        let mut figures = self.links;
        match self.standing {
            Some(_) => figures.refused += u64::from(self.joining.is_some()),
            None => figures.cut += u64::from(self.joining.is_some()),
        }
        figures
    }

    #[inline]
    fn take(&mut self, bytes: &[u8]) -> Result<(), u8> {
        let line = line::parse(bytes).ok_or(1)?;
        match (line.kind, self.held.is_some()) {
            _ if self.void => Err(2),
            _ if self.joining.is_some() => self.join(line),
            (3, true) => self.raise(line),
            (1, false) => self.shift(line),
            (2, false) => self.press(line),
            (4, false) => self.bound(line),
            (5, false) => self.void(line),
            (7, false) if self.between_rounds() => self.leave(line),
            (8, false) if self.between_rounds() => self.begin_join(line),
            _ => Err(2),
        }
    }

    fn between_rounds(&self) -> bool {
        joins::allowed() && !self.open_moves
    }

    fn leave(&mut self, line: Line) -> Result<(), u8> {
        if (line.b | line.c | line.amount) != 0 {
            return Err(2);
        }
        if self.case.variables == 1 {
            return Err(3);
        }
        let link = below(line.a, self.case.variables)?;
        let left = links::leave(&self.case, &self.state, self.carry, link);
        self.links.note(&left);
        (self.case, self.state, self.carry) = (left.case, left.state, left.carry);
        self.round_start = self.ceiling();
        Ok(())
    }

    fn begin_join(&mut self, line: Line) -> Result<(), u8> {
        let joining = Joining::begin(&self.case, line);
        self.links.refused += u64::from(matches!(joining, Err(3 | 5)));
        self.joining = Some(joining?);
        Ok(())
    }

    /// A line of a join; with the last one the join is made.
    fn join(&mut self, line: Line) -> Result<(), u8> {
        let Some(joining) = &mut self.joining else {
            return Err(2);
        };
        if joining.take(line)? {
            let working = joining.joined(&self.case, &self.state.weights());
            self.case = joining.joined(&self.case, &self.case.weights);
            self.state = State::new(&working);
            self.joining = None;
            self.links.joins += 1;
            self.round_start = self.ceiling();
        }
        Ok(())
    }

    fn shift(&mut self, line: Line) -> Result<(), u8> {
        let edge = below(line.a, self.state.edges)?;
        let end = below(line.b, 2)?;
        let value = below(line.c, self.state.values)?;
        if line.amount == 0 || line.amount.abs() > MOVE_LIMIT {
            return Err(5);
        }
        self.state.shift(edge, end, value, line.amount as i32)?;
        self.open_moves = true;
        Ok(())
    }

    fn press(&mut self, line: Line) -> Result<(), u8> {
        if line.c != 0 {
            return Err(2);
        }
        if !(1..=MOVE_LIMIT).contains(&line.amount) {
            return Err(5);
        }
        self.hold(line, Target::Press(line.amount as i32))
    }

    fn void(&mut self, line: Line) -> Result<(), u8> {
        if (line.c | line.amount) != 0 {
            return Err(2);
        }
        self.hold(line, Target::Void)
    }

    fn hold(&mut self, line: Line, target: Target) -> Result<(), u8> {
        let variable = below(line.a, self.state.variables)?;
        let left = below(line.b, self.state.scopes())?;
        if left == 0 {
            return Err(5);
        }
        self.held = Some(Held {
            variable,
            target,
            left,
            next: 0,
            raised: Scopes::default(),
        });
        Ok(())
    }

    #[inline]
    fn raise(&mut self, line: Line) -> Result<(), u8> {
        if (line.b | line.c | line.amount) != 0 {
            return Err(2);
        }
        let scope = below(line.a, self.state.scopes())?;
        let Some(held) = &mut self.held else {
            return Err(2);
        };
        if scope < held.next || scope == held.variable {
            return Err(9);
        }
        held.raised.insert(self.state.variables, scope);
        held.next = scope + 1;
        held.left -= 1;
        if held.left > 0 {
            return Ok(());
        }
        let held = *held;
        self.finish(&held)
    }

    fn finish(&mut self, held: &Held) -> Result<(), u8> {
        if !all_active_refuted(&self.state, &held.raised, held.variable) {
            return Err(10);
        }
        match held.target {
            Target::Press(amount) => {
                self.state.press(held.variable, &held.raised, amount)?;
                self.open_moves = true;
            }
            Target::Void if !self.state.bars_rest(held.variable, &held.raised) => return Err(16),
            Target::Void => self.void = true,
        }
        self.held = None;
        Ok(())
    }

    fn bound(&mut self, line: Line) -> Result<(), u8> {
        if (line.a | line.b | line.c) != 0 {
            return Err(2);
        }
        if self.rounds >= ROUND_LIMIT {
            return Err(5);
        }
        if line.amount != self.ceiling() {
            return Err(12);
        }
        if line.amount >= self.round_start {
            return Err(13);
        }
        self.rounds += 1;
        self.round_start = line.amount;
        self.open_moves = false;
        Ok(())
    }
}

#[inline]
pub fn below(number: i64, end: usize) -> Result<usize, u8> {
    match usize::try_from(number) {
        Ok(number) if number < end => Ok(number),
        _ => Err(5),
    }
}

/// Replays a log as a file; the line of a refusal is counted from `first`.
pub fn replay_file(case: &Case, log: &[u8], first: usize) -> Result<Replay, Refusal> {
    let mut replay = Replay::new(case);
    let mut line = first;
    let chunks = log.chunks_exact(LINE_BYTES);
    let tail = chunks.remainder();
    for bytes in chunks {
        if let Some(number) = replay.step(bytes) {
            return Err(Refusal { number, line });
        }
        line += 1;
    }
    if !tail.is_empty() || replay.end().is_some() {
        return Err(Refusal { number: 14, line });
    }
    Ok(replay)
}
