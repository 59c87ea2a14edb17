//! Cases and logs aimed at what random leaves and joins hardly meet: carries that are kept,
//! of either sign and up to their limit, each reason to restart alone, joins at the limits
//! of the case, and the way back to the first case.

use super::links::{join_lines, some_lower, Style};
use super::{Shift, Writer};
use crate::generate::{self, any_case, Bars, Plan, Shape, Weights};
use crate::line;
use crate::plain::part;
use crate::random::Random;
use crate::scopes::Scopes;
use crate::types::*;

/// A case and its log, the log accepted unless `careless`.
pub fn any(random: &mut Random, careless: bool) -> (Case, Vec<u8>) {
    match random.below(16) {
        0..=4 => flat_leaves(random, careless),
        5..=8 => flat_joins(random, careless),
        9 => at_the_limit(random, careless),
        10 | 11 => barred_fall(random, careless),
        12 => full(random, careless),
        _ => there_and_back(random, careless),
    }
}

fn small(random: &mut Random) -> Case {
    let sizes = [[3, 2, 3], [3, 3, 3], [4, 2, 6], [4, 3, 5], [5, 2, 8], [3, 4, 3], [2, 5, 1]];
    let [links, values, pairs] = *random.pick(&sizes);
    loop {
        let case = any_case(random, links, values, pairs);
        if case.variables > 1 {
            return case;
        }
    }
}

/// Gives all scopes of a link nearly the same weights and no bars.
fn flatten(random: &mut Random, case: &mut Case, link: usize) {
    for scope in 0..case.scopes() {
        let meets = match scope.checked_sub(case.variables) {
            None => scope == link,
            Some(edge) => case.edges[edge].0 == link || case.edges[edge].1 == link,
        };
        if meets {
            let middle = random.between(-3, 3);
            let near = random.chance(1, 4);
            let style = if near { Style::Near(middle) } else { Style::Flat(middle) };
            for place in part(case, scope) {
                case.weights[place] = style.weight(random) as i32;
            }
        }
    }
}

/// Rounds, then leaves of links that are nearly flat, more than once.
fn flat_leaves(random: &mut Random, careless: bool) -> (Case, Vec<u8>) {
    let mut case = small(random);
    for _ in 0..1 + random.below(2) {
        let link = random.below(case.variables);
        flatten(random, &mut case, link);
    }
    let mut writer = Writer::new(random, &case, false);
    writer.links = true;
    for _ in 0..1 + writer.random.below(3) {
        writer.some_rounds();
        if writer.case.variables > 1 {
            let link = writer.flattest();
            writer.drained_round(link);
            writer.leave(writer.flattest());
        }
    }
    finish(writer, case, careless)
}

/// Flat links join, weights are shifted out of them or into them, and they leave.
fn flat_joins(random: &mut Random, careless: bool) -> (Case, Vec<u8>) {
    let case = small(random);
    let mut writer = Writer::new(random, &case, false);
    writer.links = true;
    for _ in 0..1 + writer.random.below(3) {
        if writer.random.chance(1, 2) {
            writer.some_rounds();
        }
        let link = writer.case.variables;
        let style = *writer.random.pick(&[Style::Flat(0), Style::Flat(-7), Style::Near(2)]);
        let count = writer.random.below(link + 1);
        let lower = some_lower(writer.random, link, count);
        let lines = join_lines(writer.random, &writer.case, &lower, style, 0);
        writer.join(&lines);
        writer.drained_round(link);
        writer.some_rounds();
        if writer.random.chance(4, 5) {
            writer.leave(link);
        }
    }
    finish(writer, case, careless)
}

/// The end of a log: perhaps more rounds and links, of a careless writer.
fn finish(mut writer: Writer, case: Case, careless: bool) -> (Case, Vec<u8>) {
    if writer.random.chance(1, 2) && (careless || !writer.void) {
        writer.careless = careless;
        writer.write_all();
    }
    (case, writer.log)
}

/// What leaves a star of hubs: so many of them, and by how much all pairs are lowered.
struct Star {
    hubs: usize,
    total: i64,
}

/// 48 links: the hubs are paired with all others, their weights flat; two of the others can
/// have a pair round. The pairs of the hubs are lowered by so much together, in a round with
/// that pair round, then the hubs leave.
fn at_the_limit(random: &mut Random, careless: bool) -> (Case, Vec<u8>) {
    let beyond = *random.pick(&[-1, 0, 0, 0, 1, 1, 2]);
    let sign = *random.pick(&[-1, 1]);
    let star = Star { hubs: 1 + random.below(2), total: sign * (CARRY_LIMIT + beyond) };
    let case = star.case();
    let mut writer = Writer::new(random, &case, false);
    writer.links = true;
    writer.lower_star(&star);
    for hub in (0..star.hubs).rev() {
        writer.leave(hub);
        if writer.random.chance(1, 3) {
            writer.some_rounds();
        }
    }
    if careless && writer.random.chance(1, 2) {
        writer.careless = true;
        writer.some_links();
    }
    (case, writer.log)
}

impl Star {
    fn case(&self) -> Case {
        let others = self.hubs..MAX_VARIABLES;
        let rays = (0..self.hubs).flat_map(|hub| others.clone().map(move |link| (hub, link)));
        let mut edges: Vec<(usize, usize)> = rays.collect();
        edges.push((MAX_VARIABLES - 2, MAX_VARIABLES - 1));
        let mut weights = vec![0; 2 * MAX_VARIABLES + 4 * edges.len()];
        let last = weights.len() - 4;
        weights[last] = -3;
        weights[2 * MAX_VARIABLES - 4] = 2;
        weights[2 * MAX_VARIABLES - 2] = 2;
        Case { variables: MAX_VARIABLES, values: 2, edges, weights }
    }
}

impl Writer<'_> {
    /// One round, by foreign moves or by the engine, or some; none where none is left.
    fn some_rounds(&mut self) {
        if self.void {
            return;
        }
        match self.random.below(3) {
            0 => {
                let limit = 1 + self.random.below(6) as u64;
                self.engine_rounds(limit);
            }
            _ => {
                self.round();
            }
        }
    }

    /// Shifts the same amount at all values of a pair's end.
    fn shift_all(&mut self, edge: usize, end: usize, amount: i32) {
        for value in 0..self.case.values {
            self.shift(Shift { edge, end, value, amount });
        }
    }

    /// Shifts out of the link's pairs or into them, then what lowers the ceiling; nothing is
    /// written where nothing lowers it.
    fn drained_round(&mut self, link: usize) {
        if self.void {
            return;
        }
        let start = self.state.upper_bound;
        let before = (self.state.clone(), self.log.len());
        for (edge, &(lower, higher)) in self.case.edges.clone().iter().enumerate() {
            if lower == link || higher == link {
                let most = *self.random.pick(&[1, 5, 5, 1000, 400_000_000]);
                let amount = self.random.between(-most, most) as i32;
                let other = usize::from(lower == link);
                let end = if self.random.chance(1, 4) { 1 - other } else { other };
                if amount != 0 {
                    self.shift_all(edge, end, amount);
                }
            }
        }
        for _ in 0..1 + self.random.below(3) {
            self.engine_press();
        }
        if self.state.upper_bound < start {
            return self.bound(0);
        }
        self.state = before.0;
        self.log.truncate(before.1);
    }

    fn lower_star(&mut self, star: &Star) {
        let rays = self.case.edges.len() - 1;
        let parts = rays as i64;
        for edge in 0..rays {
            let extra = i64::from((edge as i64) < star.total.abs() % parts);
            let amount = (star.total.abs() / parts + extra) * star.total.signum();
            self.shift_all(edge, 1, -amount as i32);
        }
        for end in 0..2 {
            self.shift(Shift { edge: rays, end, value: 0, amount: -2 });
        }
        self.bound(0);
    }
}

/// Links of which two have one channel each that do not go together, so that all links can
/// be pressed as far as their range goes, and no plan is lawful; then leaves.
fn barred_fall(random: &mut Random, careless: bool) -> (Case, Vec<u8>) {
    let links = 2 + random.below(10);
    let plan = Plan {
        shape: *random.pick(&[Shape::Tree, Shape::Chain, Shape::Random]),
        weights: *random.pick(&[Weights::Small(0), Weights::Small(1)]),
        unusable: 0,
        bars: *random.pick(&[Bars::None, Bars::Share(10)]),
        variables: links,
        values: 2,
        edges: links,
    };
    let mut case = generate::case(random, plan);
    case.edges.retain(|&ends| ends != (0, 1));
    case.edges.insert(0, (0, 1));
    case.weights.truncate(2 * links);
    case.weights[..4].copy_from_slice(&[0, BARRED, 0, BARRED]);
    case.weights.extend([BARRED, 0, 0, 0]);
    case.weights.extend(vec![0; 4 * (case.edges.len() - 1)]);
    let mut writer = Writer::new(random, &case, false);
    writer.links = true;
    for _ in 0..1 + writer.random.below(2) {
        writer.fall();
        let last = writer.case.variables - 1;
        if last > 0 {
            let link = if writer.random.chance(1, 2) { last } else { writer.random.below(last) };
            writer.leave(link);
        }
    }
    finish(writer, case, careless)
}

impl Writer<'_> {
    /// Presses of the links against links 0 and 1 and their pair, a bound line after each.
    fn fall(&mut self) {
        let Some(edge) = self.case.edges.iter().position(|&ends| ends == (0, 1)) else {
            return;
        };
        for link in 0..self.case.variables {
            let mut raised = Scopes::default();
            for scope in [0, 1, self.case.variables + edge] {
                if scope != link {
                    raised.insert(self.case.variables, scope);
                }
            }
            let start = self.state.upper_bound;
            let before = (self.state.clone(), self.log.len());
            if crate::refute::all_active_refuted(&self.state, &raised, link) {
                let amount = *self.random.pick(&[499_999_999, 499_999_999, 300_000_000, 1]);
                self.press(link, raised, amount);
            }
            if self.state.upper_bound < start {
                self.bound(0);
            } else {
                self.state = before.0;
                self.log.truncate(before.1);
            }
        }
    }
}

/// Links and pairs near their limits, and joins up to them.
fn full(random: &mut Random, careless: bool) -> (Case, Vec<u8>) {
    let plan = Plan {
        shape: Shape::Random,
        weights: Weights::Small(3),
        unusable: 0,
        bars: *random.pick(&[Bars::None, Bars::Share(5)]),
        variables: MAX_VARIABLES - random.below(4),
        values: 1 + random.below(3),
        edges: MAX_EDGES - random.below(8),
    };
    let case = generate::case(random, plan);
    let mut writer = Writer::new(random, &case, false);
    writer.links = true;
    for _ in 0..4 {
        let (n, left) = (writer.case.variables, MAX_EDGES - writer.case.edges.len());
        if n == MAX_VARIABLES {
            break;
        }
        let count = if writer.random.chance(2, 3) { left } else { writer.random.below(left + 1) };
        let lower = some_lower(writer.random, n, count);
        let style = Style::some(writer.random);
        let lines = join_lines(writer.random, &writer.case, &lower, style, 5);
        writer.join(&lines);
        if writer.random.chance(1, 4) {
            let link = writer.random.below(n);
            writer.leave(link);
        }
    }
    if careless {
        let (n, m) = (writer.case.variables as i64, writer.case.edges.len() as i64);
        let left = MAX_EDGES as i64 - m;
        let count = *writer.random.pick(&[0, left, left + 1, n, n + 1, -1]);
        line::write(&mut writer.log, 8, count, 0, 0, 0);
    }
    (case, writer.log)
}

/// The lines with which a link that left joins again, its pairs turned round where they must.
fn back_lines(case: &Case, link: usize, now: &Case) -> Vec<Line> {
    let d = case.values;
    let line = |kind: i64, [a, b, c]: [usize; 3], amount: i64| {
        let [a, b, c] = [a, b, c].map(|number| number as i64);
        Line { kind, a, b, c, amount }
    };
    let weight = |kinds: [i64; 2], place: [usize; 3], weight: i32| match weight {
        BARRED => line(kinds[1], place, 0),
        _ => line(kinds[0], place, weight.into()),
    };
    let (n, m) = (now.variables, now.edges.len());
    let own = case.weights[part(case, link)].iter().enumerate();
    let mut lines: Vec<Line> = own.map(|(k, &w)| weight([11, 14], [n, k, 0], w)).collect();
    let mut pairs = 0;
    for (edge, &(lower, higher)) in case.edges.iter().enumerate() {
        if lower != link && higher != link {
            continue;
        }
        let turned = lower == link;
        let other = if turned { higher } else { lower };
        let weights = &case.weights[part(case, case.variables + edge)];
        lines.push(line(12, [m + pairs, other - usize::from(other > link), n], 0));
        for at in 0..d * d {
            let (k, l) = (at / d, at % d);
            let from = if turned { l * d + k } else { at };
            lines.push(weight([13, 15], [m + pairs, k, l], weights[from]));
        }
        pairs += 1;
    }
    lines.insert(0, line(8, [pairs, 0, 0], 0));
    lines
}

/// Links leave and join again with the weights they had, with rounds between or without.
fn there_and_back(random: &mut Random, careless: bool) -> (Case, Vec<u8>) {
    let case = small(random);
    let mut writer = Writer::new(random, &case, false);
    writer.links = true;
    let rounds = writer.random.chance(1, 2);
    for _ in 0..1 + writer.random.below(4) {
        let (before, link) = (writer.case.clone(), writer.random.below(writer.case.variables));
        if rounds {
            writer.some_rounds();
        }
        if before.variables == 1 {
            break;
        }
        writer.leave(link);
        if rounds {
            writer.some_rounds();
        }
        if writer.void {
            break;
        }
        let lines = back_lines(&before, link, &writer.case);
        writer.join(&lines);
    }
    if careless {
        return finish(writer, case, careless);
    }
    (case, writer.log)
}
