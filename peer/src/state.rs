//! Working weights with what the inner loops need beside them: each scope's
//! greatest weight, active values and tuples as u8 masks, and the upper bound.

use crate::scopes::Scopes;
use crate::types::*;

/// A neighbour over an edge: `end` is the neighbour's end of that edge.
#[derive(Clone, Copy, Default)]
pub struct Near {
    pub edge: u8,
    pub variable: u8,
    pub end: u8,
}

/// The working weights are kept in a way that a press by less than every gap costs
/// nothing for each tuple: an active tuple's weight is its scope's `greatest`, an
/// inactive one's is the stored weight plus the scope's `lift`. Stored weights equal
/// to `mark` belong to active tuples. A barred tuple is stored as `BARRED`, which no
/// other one's stored weight is, and nothing is ever added to it.
#[derive(Clone)]
pub struct State {
    pub variables: usize,
    pub values: usize,
    pub edges: usize,
    pub full: u8,
    full_rows: u64,
    pub ends: [[u8; 2]; MAX_EDGES],
    first_near: [u16; MAX_VARIABLES + 1],
    near: [Near; 2 * MAX_EDGES],
    stored: Vec<i32>,
    mark: [i32; MAX_SCOPES],
    lift: [i32; MAX_SCOPES],
    greatest: [i32; MAX_SCOPES],
    /// The greatest inactive weight, `NONE` if all unbarred tuples are active.
    runner_up: [i32; MAX_SCOPES],
    /// Active values of each variable.
    pub active: [u8; MAX_VARIABLES],
    /// Byte k of `rows[e][end]`: the other end's values that are active with k.
    pub rows: [[u64; 2]; MAX_EDGES],
    /// Edges in which some choice of values is unbarred in all three scopes.
    pub choice: [bool; MAX_EDGES],
    pub upper_bound: i64,
}

const NONE: i32 = i32::MIN;

impl State {
    /// The state with the weights that the case holds.
    pub fn new(case: &Case) -> State {
        let full = (0xffu16 >> (8 - case.values)) as u8;
        let used_rows = u64::MAX >> (8 * (8 - case.values));
        let mut state = State {
            variables: case.variables,
            values: case.values,
            edges: case.edges.len(),
            full,
            full_rows: used_rows & (0x0101_0101_0101_0101 * u64::from(full)),
            ends: [[0; 2]; MAX_EDGES],
            first_near: [0; MAX_VARIABLES + 1],
            near: [Near::default(); 2 * MAX_EDGES],
            stored: case.weights.clone(),
            mark: [0; MAX_SCOPES],
            lift: [0; MAX_SCOPES],
            greatest: [0; MAX_SCOPES],
            runner_up: [NONE; MAX_SCOPES],
            active: [0; MAX_VARIABLES],
            rows: [[0; 2]; MAX_EDGES],
            choice: [false; MAX_EDGES],
            upper_bound: 0,
        };
        state.join(case);
        for edge in 0..state.edges {
            state.choice[edge] = state.has_choice(edge);
        }
        for scope in 0..state.scopes() {
            state.refresh(scope);
        }
        state
    }

    fn join(&mut self, case: &Case) {
        let mut next = 0;
        for variable in 0..self.variables {
            self.first_near[variable] = next as u16;
            for (edge, &(lower, higher)) in case.edges.iter().enumerate() {
                self.ends[edge] = [lower as u8, higher as u8];
                let (other, end) = match variable {
                    _ if variable == lower => (higher, 1),
                    _ if variable == higher => (lower, 0),
                    _ => continue,
                };
                self.near[next] = Near {
                    edge: edge as u8,
                    variable: other as u8,
                    end,
                };
                next += 1;
            }
        }
        self.first_near[self.variables] = next as u16;
    }

    fn has_choice(&self, edge: usize) -> bool {
        let [lower, higher] = self.ends[edge].map(|end| self.places(end as usize).start);
        let tuples = self.places(self.variables + edge).enumerate();
        let places = |(at, place)| [place, lower + at / self.values, higher + at % self.values];
        let unbarred = |places: [usize; 3]| places.iter().all(|&at| self.stored[at] != BARRED);
        tuples.map(places).any(unbarred)
    }

    pub fn scopes(&self) -> usize {
        self.variables + self.edges
    }

    pub fn others(&self, variable: usize) -> Scopes {
        let mut set = Scopes::range(self.variables, 0, self.scopes());
        set.remove(self.variables, variable);
        set
    }

    #[inline]
    pub fn neighbours(&self, variable: usize) -> &[Near] {
        let from = self.first_near[variable] as usize;
        let to = self.first_near[variable + 1] as usize;
        &self.near[from..to]
    }

    /// The scope's places in the table.
    #[inline]
    pub fn places(&self, scope: usize) -> std::ops::Range<usize> {
        if scope < self.variables {
            return scope * self.values..(scope + 1) * self.values;
        }
        let square = self.values * self.values;
        let from = self.variables * self.values + (scope - self.variables) * square;
        from..from + square
    }

    /// The scope's working weights in table order.
    pub fn working(&self, scope: usize) -> impl Iterator<Item = i32> + '_ {
        let (top, mark, lift) = (self.greatest[scope], self.mark[scope], self.lift[scope]);
        let now = move |&weight: &i32| lifted(weight, mark, top, lift);
        self.stored[self.places(scope)].iter().map(now)
    }

    /// The table of working weights.
    pub fn weights(&self) -> Vec<i32> {
        let mut state = self.clone();
        for scope in 0..self.scopes() {
            state.store(scope, state.greatest[scope]);
        }
        state.stored
    }

    /// Stores the scope's weights, those of active tuples being `top`.
    #[inline]
    fn store(&mut self, scope: usize, top: i32) {
        let (places, mark, lift) = (self.places(scope), self.mark[scope], self.lift[scope]);
        for weight in &mut self.stored[places] {
            *weight = lifted(*weight, mark, top, lift);
        }
        self.mark[scope] = top;
        self.lift[scope] = 0;
    }

    /// Finds again what belongs to a scope whose weights were just stored.
    fn refresh(&mut self, scope: usize) {
        let weights = &self.stored[self.places(scope)];
        let greatest = weights.iter().fold(NONE, |most, &weight| most.max(weight));
        let inactive = |weight: i32| match weight {
            BARRED => NONE,
            _ if weight == greatest => NONE,
            _ => weight,
        };
        self.runner_up[scope] = weights.iter().fold(NONE, |most, &w| most.max(inactive(w)));
        if scope < self.variables {
            self.active[scope] = equal_mask(weights, greatest);
        } else {
            let rows = match self.values {
                8 => equal_rows(weights, 8, greatest),
                values => equal_rows(weights, values, greatest),
            };
            self.rows[scope - self.variables] = [rows, transpose(rows)];
        }
        self.set_greatest(scope, greatest);
        self.mark[scope] = greatest;
        self.lift[scope] = 0;
    }

    #[inline]
    fn set_greatest(&mut self, scope: usize, greatest: i32) {
        self.upper_bound += i64::from(greatest) - i64::from(self.greatest[scope]);
        self.greatest[scope] = greatest;
    }

    /// Whether the scope has an inactive tuple.
    #[inline]
    pub fn closes_something(&self, scope: usize) -> bool {
        if scope < self.variables {
            return self.active[scope] != self.full;
        }
        self.rows[scope - self.variables][0] != self.full_rows
    }

    /// Greatest weight minus greatest inactive weight; no limit if all unbarred ones are
    /// active.
    #[inline]
    pub fn gap(&self, scope: usize) -> Option<i32> {
        let runner_up = self.runner_up[scope];
        (runner_up != NONE).then(|| self.greatest[scope] - runner_up)
    }

    /// Whether all inactive combinations of the variable and of the raised scopes are
    /// barred: none of them sets a gap.
    pub fn bars_rest(&self, variable: usize, raised: &Scopes) -> bool {
        let mut barred = self.gap(variable).is_none();
        raised.each_variable(|other| barred &= self.gap(other).is_none());
        raised.each_edge(|edge| barred &= self.gap(self.variables + edge).is_none());
        barred
    }

    /// Shift, or number 11. Ranges of the arguments are the caller's.
    pub fn shift(&mut self, edge: usize, end: usize, value: usize, amount: i32) -> Result<(), u8> {
        let variable = self.ends[edge][end] as usize;
        let scope = self.variables + edge;
        self.store(variable, self.greatest[variable]);
        self.store(scope, self.greatest[scope]);
        let place = self.places(variable).start + value;
        let (first, step) = if end == 0 {
            (value * self.values, 1)
        } else {
            (value, self.values)
        };
        let first = self.places(scope).start + first;
        let mut good = stays(self.stored[place], amount);
        for other in 0..self.values {
            good &= stays(self.stored[first + other * step], -amount);
        }
        if !good {
            return Err(11);
        }
        self.stored[place] = moved(self.stored[place], amount);
        for other in 0..self.values {
            let weight = &mut self.stored[first + other * step];
            *weight = moved(*weight, -amount);
        }
        self.refresh(variable);
        self.refresh(scope);
        Ok(())
    }

    /// What the edge's weights become when both variables' unbarred weights are shifted
    /// into it; nothing if a weight is out of range then or after the shifts of end 0.
    pub fn gathered(&self, edge: usize) -> Option<Vec<i32>> {
        let [lower, higher] = self.ends[edge].map(usize::from);
        let lower: Vec<i32> = self.working(lower).collect();
        let higher: Vec<i32> = self.working(higher).collect();
        let share = |weight: i32| if weight == BARRED { 0 } else { weight };
        let sums = |(at, weight): (usize, i32)| {
            if weight == BARRED {
                return Some(BARRED);
            }
            let half = weight + share(lower[at / self.values]);
            let whole = half + share(higher[at % self.values]);
            (in_range(half) && in_range(whole)).then_some(whole)
        };
        let tuples = self.working(self.variables + edge).enumerate();
        tuples.map(sums).collect()
    }

    /// Whether the ceiling is lower with what `gathered` found.
    pub fn lowers(&self, edge: usize, weights: &[i32]) -> bool {
        let [lower, higher] = self.ends[edge].map(|end| i64::from(self.greatest[end as usize]));
        let before = lower + higher + i64::from(self.greatest[self.variables + edge]);
        weights.iter().all(|&weight| i64::from(weight) < before)
    }

    /// Gives the edge what `gathered` found and its variables zeros, but where barred.
    pub fn gather(&mut self, edge: usize, weights: &[i32]) {
        let scope = self.variables + edge;
        let places = self.places(scope);
        self.stored[places].copy_from_slice(weights);
        self.refresh(scope);
        for variable in self.ends[edge].map(usize::from) {
            let places = self.places(variable);
            for weight in &mut self.stored[places] {
                *weight = if *weight == BARRED { BARRED } else { 0 };
            }
            self.refresh(variable);
        }
    }

    /// Press, or number 11. That it is allowed is the caller's to know.
    pub fn press(&mut self, variable: usize, raised: &Scopes, amount: i32) -> Result<(), u8> {
        let mut good = in_range(self.greatest[variable] - amount);
        let mut check = |scope: usize| {
            let runner_up = self.runner_up[scope];
            good &= runner_up == NONE || in_range(runner_up + amount);
        };
        let variables = self.variables;
        raised.each_variable(&mut check);
        raised.each_edge(|edge| check(variables + edge));
        if !good {
            return Err(11);
        }
        raised.each_variable(|other| self.lift_inactive(other, amount));
        raised.each_edge(|edge| self.lift_inactive(variables + edge, amount));
        self.lower_active(variable, amount);
        Ok(())
    }

    #[inline]
    fn lift_inactive(&mut self, scope: usize, amount: i32) {
        let Some(gap) = self.gap(scope) else { return };
        self.lift[scope] += amount;
        if amount < gap {
            self.runner_up[scope] += amount;
            return;
        }
        self.store(scope, self.greatest[scope]);
        self.refresh(scope);
    }

    fn lower_active(&mut self, scope: usize, amount: i32) {
        let lower = self.greatest[scope] - amount;
        if self.gap(scope).is_none_or(|gap| amount < gap) {
            return self.set_greatest(scope, lower);
        }
        self.store(scope, lower);
        self.refresh(scope);
    }
}

/// The weight now of a stored one.
#[inline]
fn lifted(weight: i32, mark: i32, top: i32, lift: i32) -> i32 {
    let other = if weight == BARRED { weight } else { weight.wrapping_add(lift) };
    if weight == mark {
        top
    } else {
        other
    }
}

/// A weight after a move; a barred one stays.
#[inline]
fn moved(weight: i32, amount: i32) -> i32 {
    if weight == BARRED {
        weight
    } else {
        weight + amount
    }
}

/// Whether a weight stays within its range under a move; nothing is asked of a barred
/// one.
#[inline]
fn stays(weight: i32, amount: i32) -> bool {
    weight == BARRED || in_range(weight + amount)
}

#[inline]
fn in_range(weight: i32) -> bool {
    i64::from(weight).abs() <= WORK_LIMIT
}

#[inline]
fn equal_mask(weights: &[i32], greatest: i32) -> u8 {
    let mut mask = 0;
    for (value, &weight) in weights.iter().enumerate() {
        mask |= u8::from(weight == greatest) << value;
    }
    mask
}

#[inline(always)]
fn equal_rows(weights: &[i32], values: usize, greatest: i32) -> u64 {
    let mut rows = 0;
    for (value, row) in weights.chunks_exact(values).enumerate() {
        rows |= u64::from(equal_mask(row, greatest)) << (8 * value);
    }
    rows
}

/// Transposes an 8 by 8 matrix of bits, byte k being row k.
#[inline]
pub fn transpose(rows: u64) -> u64 {
    let mut bits = rows;
    let swap = (bits ^ (bits >> 7)) & 0x00aa_00aa_00aa_00aa;
    bits ^= swap ^ (swap << 7);
    let swap = (bits ^ (bits >> 14)) & 0x0000_cccc_0000_cccc;
    bits ^= swap ^ (swap << 14);
    let swap = (bits ^ (bits >> 28)) & 0x0000_0000_f0f0_f0f0;
    bits ^ swap ^ (swap << 28)
}
