//! Leaves and joins in foreign logs: links that are nearly flat, so that their leave keeps
//! the carry, and any others; from careless writers also wrong, cut and misplaced ones.

use super::Writer;
use crate::line;
use crate::links::{self, Joining};
use crate::plain::part;
use crate::random::Random;
use crate::state::State;
use crate::types::*;

/// Small cases stay so small that their plans can be listed.
const MOST_PLANS: usize = 1500;

/// The most links that a log gives a case with so many.
fn room(links: usize, values: usize) -> usize {
    let plans = |links: usize| values.saturating_pow(links as u32);
    match plans(links) <= MOST_PLANS && links <= 7 {
        true => (links..=7).rev().find(|&n| plans(n) <= MOST_PLANS).unwrap_or(links),
        false => MAX_VARIABLES,
    }
}

/// How the weights of a new scope look.
#[derive(Clone, Copy, PartialEq, Eq)]
pub enum Style {
    /// One number everywhere.
    Flat(i64),
    /// That number or one more.
    Near(i64),
    /// Up to this size.
    Any(i64),
}

impl Style {
    pub fn some(random: &mut Random) -> Style {
        let size = *random.pick(&[0, 1, 3, 20, START_LIMIT - 1]);
        let middle = random.between(-size, size);
        match random.below(6) {
            0..=2 => Style::Flat(middle),
            3 => Style::Near(middle),
            _ => Style::Any(size + 1),
        }
    }

    pub fn weight(self, random: &mut Random) -> i64 {
        match self {
            Style::Flat(middle) => middle,
            Style::Near(middle) => middle + i64::from(random.chance(1, 4)),
            Style::Any(size) => random.between(-size, size),
        }
    }
}

/// The lines of a join with these lower links; of a hundred combinations so many are barred,
/// but not the last of a scope.
pub fn join_lines(
    random: &mut Random,
    case: &Case,
    lower: &[usize],
    style: Style,
    barred: u64,
) -> Vec<Line> {
    let (n, m, d) = (case.variables as i64, case.edges.len() as i64, case.values as i64);
    let count = lower.len() as i64;
    let mut lines = vec![Line { kind: 8, a: count, b: 0, c: 0, amount: 0 }];
    let mut weight = |[a, b, c]: [i64; 3], kinds: [i64; 2], last: bool| {
        let bars = !last && random.chance(barred, 100);
        let amount = style.weight(random);
        match bars {
            true => Line { kind: kinds[1], a, b, c, amount: 0 },
            false => Line { kind: kinds[0], a, b, c, amount },
        }
    };
    lines.extend((0..d).map(|k| weight([n, k, 0], [11, 14], k == d - 1)));
    for (pair, &other) in (m..).zip(lower) {
        lines.push(Line { kind: 12, a: pair, b: other as i64, c: n, amount: 0 });
        let cells = (0..d * d).map(|at| ([pair, at / d, at % d], at == d * d - 1));
        lines.extend(cells.map(|(place, last)| weight(place, [13, 15], last)));
    }
    lines
}

/// So many of the links, in any order.
pub fn some_lower(random: &mut Random, links: usize, count: usize) -> Vec<usize> {
    let mut all: Vec<usize> = (0..links).collect();
    random.shuffle(&mut all);
    all.truncate(count);
    all
}

impl Writer<'_> {
    /// One to three leaves and joins. False if the log ends here.
    pub fn some_links(&mut self) -> bool {
        for _ in 0..*self.random.pick(&[1, 1, 1, 2, 3]) {
            let leaves = self.random.chance(1, 2);
            let goes_on = if leaves { self.any_leave() } else { self.any_join() };
            if !goes_on {
                return false;
            }
        }
        true
    }

    fn write_lines(&mut self, lines: &[Line]) {
        for &line in lines {
            line::write_line(&mut self.log, line);
        }
    }

    /// Lines of kind 7 and 8 where none may stand, perhaps.
    pub fn stray_links(&mut self) {
        if self.random.chance(1, 2) {
            let link = self.random.below(self.case.variables) as i64;
            return line::write(&mut self.log, 7, link, 0, 0, 0);
        }
        let lines = self.some_join();
        self.write_lines(&lines);
    }

    fn any_leave(&mut self) -> bool {
        let links = self.case.variables;
        let bad = self.careless && self.random.chance(1, 10);
        if bad || links == 1 {
            return self.careless && self.bad_leave();
        }
        let link = match self.random.chance(2, 3) {
            true => self.flattest(),
            false => self.random.below(links),
        };
        self.leave(link);
        true
    }

    /// The link whose leave is the nearest to keeping the carry, or keeps it.
    pub fn flattest(&self) -> usize {
        let loss = |&link: &usize| {
            let scopes = (0..self.case.scopes()).filter(|&scope| self.meets(scope, link));
            let range = |scope: usize| {
                let weights = &self.case.weights[part(&self.case, scope)];
                let most = weights.iter().max().map_or(0, |&weight| i64::from(weight));
                most - weights.iter().min().map_or(0, |&weight| i64::from(weight))
            };
            scopes.map(range).sum::<i64>()
        };
        (0..self.case.variables).min_by_key(loss).unwrap_or(0)
    }

    fn meets(&self, scope: usize, link: usize) -> bool {
        match scope.checked_sub(self.case.variables) {
            None => scope == link,
            Some(edge) => self.case.edges[edge].0 == link || self.case.edges[edge].1 == link,
        }
    }

    /// Takes a link away; after a void line only careless writers do.
    pub fn leave(&mut self, link: usize) {
        if self.void && !self.careless {
            return;
        }
        line::write(&mut self.log, 7, link as i64, 0, 0, 0);
        let left = links::leave(&self.case, &self.state, self.carry, link);
        (self.case, self.state, self.carry) = (left.case, left.state, left.carry);
    }

    /// A leave that is refused; the log may go on after it.
    fn bad_leave(&mut self) -> bool {
        let links = self.case.variables as i64;
        let link = *self.random.pick(&[0, -1, links, links, links + 1, 9999]);
        let others = *self.random.pick(&[[0, 0, 0], [0, 0, 0], [1, 0, 0], [0, 1, 0], [0, 0, -1]]);
        let [b, c, amount] = others;
        line::write(&mut self.log, 7, link, b, c, amount);
        self.random.chance(1, 3)
    }

    /// Lines of a join that the case can take, if it has room.
    pub fn some_join(&mut self) -> Vec<Line> {
        let (n, m) = (self.case.variables, self.case.edges.len());
        let most = n.min(MAX_EDGES - m);
        let count = match self.random.below(4) {
            0 => 0,
            1 => most,
            _ => self.random.below(most + 1).min(4),
        };
        let lower = some_lower(self.random, n, count);
        let style = Style::some(self.random);
        let barred = *self.random.pick(&[0, 0, 0, 5, 30, 80]);
        join_lines(self.random, &self.case, &lower, style, barred)
    }

    fn any_join(&mut self) -> bool {
        let full = self.case.variables >= room(self.case.variables, self.case.values);
        if full && !(self.careless && self.random.chance(1, 2)) {
            return true;
        }
        let mut lines = self.some_join();
        if self.careless && self.random.chance(1, 5) {
            let line = self.random.below(lines.len());
            spoil(self.random, &self.case, &mut lines, line);
            self.write_lines(&lines);
            return self.random.chance(1, 3);
        }
        if self.case.variables == MAX_VARIABLES {
            self.write_lines(&lines);
            return false;
        }
        self.join(&lines);
        true
    }

    /// Writes the lines of a join that is good, and makes it; after a void line only
    /// careless writers do.
    pub fn join(&mut self, lines: &[Line]) {
        if self.void && !self.careless {
            return;
        }
        self.write_lines(lines);
        let mut joining = Joining::begin(&self.case, lines[0]).expect("a good join");
        for &line in &lines[1..] {
            joining.take(line).expect("a good join");
        }
        let working = joining.joined(&self.case, &self.state.weights());
        self.case = joining.joined(&self.case, &self.case.weights);
        self.state = State::new(&working);
    }
}

/// Makes one line of a join wrong, perhaps, or cuts the join before it.
pub fn spoil(random: &mut Random, case: &Case, lines: &mut Vec<Line>, at: usize) {
    let (n, m) = (case.variables as i64, case.edges.len() as i64);
    let earlier = lines.iter().find(|line| line.kind == 12).map_or(0, |line| line.b);
    let line = &mut lines[at];
    match (random.below(10), line.kind) {
        (0, _) => lines.truncate(at),
        (1, _) => drop(lines.remove(at)),
        (2, _) => lines.insert(at, lines[at]),
        (3, _) => line.kind = *random.pick(&[4, 7, 8, 11, 12, 13, 14, 15]),
        (4, _) => line.a += random.between(-1, 1),
        (5, _) => line.b += random.between(-1, 1),
        (6, _) => line.c += random.between(-1, 1),
        (_, 8) => {
            let left = MAX_EDGES as i64 - m;
            line.a = *random.pick(&[-1, n, n + 1, left, left + 1, 9999]);
        }
        (7, 12) => (line.b, line.c) = (line.c, line.b),
        (8, 12) => line.b = n,
        (_, 12) => line.b = earlier,
        (7, _) => line.amount = *random.pick(&[START_LIMIT + 1, -START_LIMIT - 1, BARRED.into()]),
        (8, _) => line.amount += 1,
        _ => bar_scope(lines, at),
    }
}

/// Bars the whole scope of a weight line.
fn bar_scope(lines: &mut [Line], at: usize) {
    let a = lines[at].a;
    let kinds = if [11, 14].contains(&lines[at].kind) { [11, 14] } else { [13, 15] };
    for line in lines {
        if kinds.contains(&line.kind) && line.a == a {
            (line.kind, line.amount) = (kinds[1], 0);
        }
    }
}
