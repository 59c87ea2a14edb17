//! Links that leave and join: the case and its tables with a link less or one more, and
//! the carry, fast.

use crate::replay::below;
use crate::state::State;
use crate::types::*;

/// What speaks for a restart when a link leaves.
#[derive(Clone, Copy, PartialEq, Eq, Debug)]
pub struct Reasons {
    /// A combination that leaves is barred.
    pub barred: bool,
    /// The carry would pass its limit.
    pub past: bool,
    /// The fresh ceiling is not higher than the one that the carry would give.
    pub not_higher: bool,
}

impl Reasons {
    pub fn restart(&self) -> bool {
        self.barred || self.past || self.not_higher
    }
}

/// What became of leaves and joins.
#[derive(Default, Clone, Copy, PartialEq, Eq, Debug)]
pub struct Figures {
    /// Leaves that kept the carry, and those of them with one below 0, one above 0, and one
    /// of exactly its limit.
    pub kept: u64,
    pub below: u64,
    pub above: u64,
    pub at_limit: u64,
    /// Leaves that restarted: by one reason alone, or by several.
    pub barred: u64,
    pub past: u64,
    pub not_higher: u64,
    pub several: u64,
    pub joins: u64,
    /// Joins refused at their first line (not by 2) or at a later one, and joins cut off.
    pub refused: u64,
    pub cut: u64,
}

impl Figures {
    pub fn add(&mut self, other: &Figures) {
        self.kept += other.kept;
        self.below += other.below;
        self.above += other.above;
        self.at_limit += other.at_limit;
        self.barred += other.barred;
        self.past += other.past;
        self.not_higher += other.not_higher;
        self.several += other.several;
        self.joins += other.joins;
        self.refused += other.refused;
        self.cut += other.cut;
    }

    pub fn note(&mut self, left: &Left) {
        let Reasons { barred, past, not_higher } = left.reasons;
        match (barred, past, not_higher) {
            (false, false, false) => {
                self.kept += 1;
                self.below += u64::from(left.carry < 0);
                self.above += u64::from(left.carry > 0);
                self.at_limit += u64::from(left.carry.abs() == CARRY_LIMIT);
            }
            (true, false, false) => self.barred += 1,
            (false, true, false) => self.past += 1,
            (false, false, true) => self.not_higher += 1,
            _ => self.several += 1,
        }
    }

    pub fn text(&self) -> String {
        format!(
            "leaves that kept the carry {} ({} below 0, {} above 0, {} at its limit), restarted \
             {} for a barred combination alone, {} for the limit alone, {} for the ceiling alone, \
             {} for several; joins {}, refused {}, cut off {}",
            self.kept,
            self.below,
            self.above,
            self.at_limit,
            self.barred,
            self.past,
            self.not_higher,
            self.several,
            self.joins,
            self.refused,
            self.cut
        )
    }
}

/// The case, its working weights and the carry when a link has left.
pub struct Left {
    pub case: Case,
    pub state: State,
    pub carry: i64,
    pub reasons: Reasons,
}

/// Takes a link away. The ceiling that the carry would give is the one before less the
/// least starting weights of what leaves.
pub fn leave(case: &Case, state: &State, carry: i64, link: usize) -> Left {
    let (least, barred) = leaving(case, state, link);
    let smaller = without(case, case.weights.clone(), link);
    let fresh = State::new(&smaller);
    let kept = State::new(&without(case, state.weights(), link));
    let ceiling = state.upper_bound + carry - least;
    let grown = ceiling - kept.upper_bound;
    let reasons = Reasons {
        barred,
        past: grown.abs() > CARRY_LIMIT,
        not_higher: fresh.upper_bound <= ceiling,
    };
    let (state, carry) = match reasons.restart() {
        true => (fresh, 0),
        false => (kept, grown),
    };
    Left { case: smaller, state, carry, reasons }
}

/// The least unbarred starting weights of the link's scopes together, and whether one of
/// their combinations is barred.
fn leaving(case: &Case, state: &State, link: usize) -> (i64, bool) {
    let edges = state.neighbours(link).iter().map(|near| near.edge as usize);
    let scopes = edges.map(|edge| case.variables + edge).chain([link]);
    let (mut least, mut barred) = (0, false);
    for scope in scopes {
        let weights = &case.weights[state.places(scope)];
        let unbarred = weights.iter().filter(|&&weight| weight != BARRED);
        least += i64::from(unbarred.min().copied().unwrap_or(0));
        barred |= weights.contains(&BARRED);
    }
    (least, barred)
}

/// The case without a link, its table moved down in place.
fn without(case: &Case, mut weights: Vec<i32>, link: usize) -> Case {
    let (d, square) = (case.values, case.values * case.values);
    weights.copy_within((link + 1) * d.., link * d);
    let mut to = (case.variables - 1) * d;
    let mut from = to;
    let mut edges = Vec::with_capacity(case.edges.len());
    let lower = |end: usize| end - usize::from(end > link);
    for &(i, j) in &case.edges {
        if i != link && j != link {
            weights.copy_within(from..from + square, to);
            to += square;
            edges.push((lower(i), lower(j)));
        }
        from += square;
    }
    weights.truncate(to);
    Case { variables: case.variables - 1, values: d, edges, weights }
}

#[derive(Clone, Copy)]
enum Due {
    Link(usize),
    Pair,
    /// The place in the pair's own table.
    Weight(usize),
}

/// A join whose lines are not all there yet.
pub struct Joining {
    values: usize,
    /// The new link, and the next new pair.
    link: usize,
    pair: usize,
    /// New pairs whose line of kind 12 is still to come.
    left: usize,
    due: Due,
    lower: Vec<usize>,
    paired: u64,
    weights: Vec<i32>,
    /// Some combination of the scope that is read is not barred.
    unbarred: bool,
}

impl Joining {
    /// The line of kind 8, or its number.
    pub fn begin(case: &Case, line: Line) -> Result<Joining, u8> {
        if (line.b | line.c | line.amount) != 0 {
            return Err(2);
        }
        let (n, m) = (case.variables, case.edges.len());
        if n == MAX_VARIABLES || line.a > (MAX_EDGES - m) as i64 {
            return Err(3);
        }
        let left = below(line.a, n + 1)?;
        Ok(Joining {
            values: case.values,
            link: n,
            pair: m,
            left,
            due: Due::Link(0),
            lower: Vec::with_capacity(left),
            paired: 0,
            weights: Vec::new(),
            unbarred: false,
        })
    }

    /// Takes the next line; true if it is the last one.
    pub fn take(&mut self, line: Line) -> Result<bool, u8> {
        match self.due {
            Due::Link(value) => {
                let place = [self.link, value, 0].map(|number| number as i64);
                self.weight(line, [11, 14], place)?;
                let next = value + 1;
                self.after(next == self.values, Due::Link(next))
            }
            Due::Pair => self.pair(line),
            Due::Weight(at) => {
                let place = [self.pair, at / self.values, at % self.values];
                self.weight(line, [13, 15], place.map(|number| number as i64))?;
                let next = at + 1;
                self.after(next == self.values * self.values, Due::Weight(next))
            }
        }
    }

    /// What is due after a weight, and number 15 at the scope's last one.
    fn after(&mut self, scope_ends: bool, next: Due) -> Result<bool, u8> {
        if !scope_ends {
            self.due = next;
            return Ok(false);
        }
        if !self.unbarred {
            return Err(15);
        }
        self.unbarred = false;
        self.pair += usize::from(matches!(self.due, Due::Weight(_)));
        self.due = Due::Pair;
        Ok(self.left == 0)
    }

    fn weight(&mut self, line: Line, kinds: [i64; 2], place: [i64; 3]) -> Result<(), u8> {
        let barred = line.kind == kinds[1];
        let of_link = kinds[0] == 11;
        if !kinds.contains(&line.kind) || of_link && line.c != 0 || barred && line.amount != 0 {
            return Err(2);
        }
        if [line.a, line.b, line.c] != place {
            return Err(5);
        }
        if line.amount.abs() > START_LIMIT {
            return Err(8);
        }
        self.unbarred |= !barred;
        self.weights.push(if barred { BARRED } else { line.amount as i32 });
        Ok(())
    }

    fn pair(&mut self, line: Line) -> Result<bool, u8> {
        if line.kind != 12 || line.amount != 0 {
            return Err(2);
        }
        let lower = below(line.b, self.link + 1)?;
        if line.a != self.pair as i64 || line.c != self.link as i64 {
            return Err(5);
        }
        if lower == self.link {
            return Err(6);
        }
        if self.paired >> lower & 1 == 1 {
            return Err(7);
        }
        self.paired |= 1 << lower;
        self.lower.push(lower);
        self.left -= 1;
        self.due = Due::Weight(0);
        Ok(false)
    }

    /// The case with the new link, `weights` being those of the others.
    pub fn joined(&self, case: &Case, weights: &[i32]) -> Case {
        let (links, pairs) = weights.split_at(case.variables * case.values);
        let (link, new) = self.weights.split_at(case.values);
        let edges = self.lower.iter().map(|&lower| (lower, self.link));
        Case {
            variables: case.variables + 1,
            values: case.values,
            edges: case.edges.iter().copied().chain(edges).collect(),
            weights: [links, link, pairs, new].concat(),
        }
    }
}
