//! Cases of many kinds and sizes.

use crate::forests;
use crate::plain;
use crate::random::Random;
use crate::types::*;

#[derive(Clone, Copy, PartialEq, Eq, Debug)]
pub enum Shape {
    Chain,
    Ring,
    Tree,
    Mesh,
    Random,
    Forest,
    NearForest,
}

#[derive(Clone, Copy, PartialEq, Eq, Debug)]
pub enum Weights {
    /// The whole starting range.
    Uniform,
    /// From minus to plus this number.
    Small(i64),
    /// The ends of the range and numbers beside them.
    Extreme,
    /// Links 0, pairs from minus to plus this number.
    Flat(i64),
    /// At and near the ends of the working range and its half, or small; no case file.
    Border,
    /// Likes on links, losses for equal and neighbouring channels on pairs.
    Interference,
}

/// Which combinations are barred; every scope keeps one that is not.
#[derive(Clone, Copy, PartialEq, Eq, Debug)]
pub enum Bars {
    None,
    /// So many of a hundred link values and pair combinations.
    Share(u64),
    /// So many of a hundred link values.
    Links(u64),
    /// So many of a hundred pair combinations.
    Pairs(u64),
    /// Values that differ by this or less, in most pairs.
    Near(usize),
    /// All but so many combinations of most pairs.
    Few(usize),
}

/// What a generated case looks like.
#[derive(Clone, Copy, Debug)]
pub struct Plan {
    pub shape: Shape,
    pub weights: Weights,
    /// Of a hundred link values, how many may not be used (−1,000,000).
    pub unusable: u64,
    pub bars: Bars,
    pub variables: usize,
    pub values: usize,
    pub edges: usize,
}

pub const KINDS: [&str; 12] = [
    "uniform", "small", "extreme", "flat", "chain", "ring", "tree", "mesh", "unusable", "border",
    "forest", "near-forest",
];

/// Shape, weights and unusable share of a named kind.
pub fn kind(name: &str) -> Option<(Shape, Weights, u64)> {
    Some(match name {
        "uniform" => (Shape::Random, Weights::Uniform, 0),
        "small" => (Shape::Random, Weights::Small(9), 0),
        "extreme" => (Shape::Random, Weights::Extreme, 0),
        "flat" => (Shape::Random, Weights::Flat(9), 0),
        "border" => (Shape::Random, Weights::Border, 0),
        "forest" => (Shape::Forest, Weights::Small(3), 0),
        "near-forest" => (Shape::NearForest, Weights::Small(3), 0),
        "chain" => (Shape::Chain, Weights::Interference, 0),
        "ring" => (Shape::Ring, Weights::Interference, 0),
        "tree" => (Shape::Tree, Weights::Interference, 0),
        "mesh" => (Shape::Mesh, Weights::Interference, 0),
        "unusable" => (Shape::Mesh, Weights::Interference, 25),
        _ => return None,
    })
}

pub fn case(random: &mut Random, plan: Plan) -> Case {
    let edges = join(random, plan);
    let weights = match plan.weights {
        Weights::Border => border_table(random, plan.variables, plan.values, edges.len()),
        _ => table(random, plan, edges.len()),
    };
    let mut case = Case {
        variables: plan.variables,
        values: plan.values,
        edges,
        weights,
    };
    bar(random, &mut case, plan.bars);
    case
}

/// Bars combinations of a table.
pub fn bar(random: &mut Random, case: &mut Case, bars: Bars) {
    for scope in 0..case.scopes() {
        let (is_link, d) = (scope < case.variables, case.values);
        let places = plain::part(case, scope);
        let count = places.len();
        let spared = random.below(count);
        let skipped = random.chance(1, 6);
        for (at, place) in places.enumerate() {
            let barred = match bars {
                Bars::None => false,
                Bars::Share(percent) => random.chance(percent, 100),
                Bars::Links(percent) => is_link && random.chance(percent, 100),
                Bars::Pairs(percent) => !is_link && random.chance(percent, 100),
                Bars::Near(most) => !is_link && !skipped && (at / d).abs_diff(at % d) <= most,
                Bars::Few(left) => !is_link && !skipped && !random.chance(left as u64, count as u64),
            };
            if barred && at != spared {
                case.weights[place] = BARRED;
            }
        }
    }
}

/// Some way of barring, or none.
fn some_bars(random: &mut Random) -> Bars {
    let percent = *random.pick(&[3, 10, 25, 50, 80]);
    match random.below(12) {
        0 | 1 => Bars::Share(percent),
        2 => Bars::Links(percent),
        3 | 4 => Bars::Pairs(percent),
        5 => Bars::Near(0),
        6 => Bars::Near(1),
        7 | 8 => Bars::Few(1 + random.below(3)),
        _ => Bars::None,
    }
}

fn table(random: &mut Random, plan: Plan, edges: usize) -> Vec<i32> {
    let mut weights = Vec::new();
    let scale = *random.pick(&[1, 1, 3, 10, 100]);
    for _ in 0..plan.variables {
        for _ in 0..plan.values {
            weights.push(variable_weight(random, plan, scale));
        }
    }
    for _ in 0..edges {
        edge_weights(random, plan, scale, &mut weights);
    }
    weights
}

fn border_table(random: &mut Random, variables: usize, values: usize, edges: usize) -> Vec<i32> {
    let mut weights = Vec::new();
    let spread = *random.pick(&[1, 2, 3, 6, 30]);
    for _ in 0..variables {
        border_weights(random, values, spread, &mut weights);
    }
    for _ in 0..edges {
        border_weights(random, values * values, spread, &mut weights);
    }
    weights
}

/// A scope's weights, most of them near one number.
fn border_weights(random: &mut Random, count: usize, spread: i64, weights: &mut Vec<i32>) {
    let half = WORK_LIMIT / 2;
    let middles = [0, 0, 0, WORK_LIMIT, -WORK_LIMIT, half, -half];
    let middle = *random.pick(&middles);
    for _ in 0..count {
        let other = random.chance(1, 12);
        let near = if other { *random.pick(&middles) } else { middle };
        let weight = near + random.between(-spread, spread);
        weights.push(weight.clamp(-WORK_LIMIT, WORK_LIMIT) as i32);
    }
}

fn variable_weight(random: &mut Random, plan: Plan, scale: i64) -> i32 {
    if random.chance(plan.unusable, 100) {
        return -(START_LIMIT as i32);
    }
    match plan.weights {
        Weights::Interference => (scale * random.between(0, 20)) as i32,
        Weights::Flat(_) => 0,
        other => plain_weight(random, other),
    }
}

fn plain_weight(random: &mut Random, weights: Weights) -> i32 {
    let weight = match weights {
        Weights::Small(most) | Weights::Flat(most) => random.between(-most, most),
        Weights::Extreme => {
            let most = START_LIMIT;
            *random.pick(&[-most, most, -most, most, 0, 1 - most, most - 1, 1, -1])
        }
        _ => random.between(-START_LIMIT, START_LIMIT),
    };
    weight as i32
}

fn edge_weights(random: &mut Random, plan: Plan, scale: i64, weights: &mut Vec<i32>) {
    let same = -scale * random.between(20, 200);
    let beside = same / random.between(2, 10);
    let even = random.chance(1, 2);
    for first in 0..plan.values {
        for second in 0..plan.values {
            if plan.weights != Weights::Interference {
                weights.push(plain_weight(random, plan.weights));
                continue;
            }
            let loss = match first.abs_diff(second) {
                0 => same,
                1 => beside,
                _ => 0,
            };
            let extra = if even || loss == 0 {
                0
            } else {
                random.between(-scale, scale)
            };
            let shut = plan.unusable > 0 && random.chance(1, 50);
            weights.push(if shut {
                -(START_LIMIT as i32)
            } else {
                (loss + extra) as i32
            });
        }
    }
}

/// The pairs, all different, at most as many as asked for and as there are.
fn join(random: &mut Random, plan: Plan) -> Vec<(usize, usize)> {
    let mut pairs = match plan.shape {
        Shape::Chain => chain(plan.variables),
        Shape::Ring => ring(plan.variables),
        Shape::Tree => tree(random, plan.variables),
        Shape::Mesh => mesh(random, plan.variables, plan.edges),
        Shape::Random => all_pairs(plan.variables),
        Shape::Forest => forests::forest(random, plan.variables),
        Shape::NearForest => forests::near_forest(random, plan.variables),
    };
    if plan.shape == Shape::Random || random.chance(1, 3) {
        random.shuffle(&mut pairs);
    }
    pairs.truncate(plan.edges.min(MAX_EDGES));
    pairs
}

fn chain(variables: usize) -> Vec<(usize, usize)> {
    (1..variables).map(|higher| (higher - 1, higher)).collect()
}

fn ring(variables: usize) -> Vec<(usize, usize)> {
    let mut pairs = chain(variables);
    if variables > 2 {
        pairs.push((0, variables - 1));
    }
    pairs
}

fn tree(random: &mut Random, variables: usize) -> Vec<(usize, usize)> {
    (1..variables)
        .map(|higher| (random.below(higher), higher))
        .collect()
}

fn all_pairs(variables: usize) -> Vec<(usize, usize)> {
    let mut pairs = Vec::new();
    for lower in 0..variables {
        for higher in lower + 1..variables {
            pairs.push((lower, higher));
        }
    }
    pairs
}

/// A grid, then diagonals and other near pairs until there are enough.
fn mesh(random: &mut Random, variables: usize, edges: usize) -> Vec<(usize, usize)> {
    let width = (1..).find(|width| width * width >= variables).unwrap_or(1);
    let place = |variable: usize| (variable / width, variable % width);
    let (mut near, mut far) = (Vec::new(), Vec::new());
    for (lower, higher) in all_pairs(variables) {
        let (from, to) = (place(lower), place(higher));
        let distance = (from.0.abs_diff(to.0), from.1.abs_diff(to.1));
        match distance {
            (0, 1) | (1, 0) => near.push((lower, higher)),
            (0..=2, 0..=2) => far.push((lower, higher)),
            _ => {}
        }
    }
    random.shuffle(&mut far);
    let missing = edges.saturating_sub(near.len());
    near.extend(far.into_iter().take(missing));
    near
}

/// A working table near the borders for the links and pairs of a case, barred where the
/// case is.
pub fn border_for(random: &mut Random, case: &Case) -> Case {
    let weights = border_table(random, case.variables, case.values, case.edges.len());
    with_bars_of(case, weights)
}

fn with_bars_of(case: &Case, mut weights: Vec<i32>) -> Case {
    for (weight, &old) in weights.iter_mut().zip(&case.weights) {
        if old == BARRED {
            *weight = BARRED;
        }
    }
    Case { weights, ..case.clone() }
}

/// Weights of all sizes for the links and pairs of a case, or low ones only, barred
/// where the case is.
pub fn any_table_for(random: &mut Random, case: &Case) -> Case {
    let size = *random.pick(&[2, 1_000_000, WORK_LIMIT]);
    let low = random.chance(1, 2);
    let mut any = || {
        let weight = random.between(-size, size);
        if low {
            (weight.abs() / 1000 - WORK_LIMIT) as i32
        } else {
            weight as i32
        }
    };
    let weights = case.weights.iter().map(|_| any()).collect();
    with_bars_of(case, weights)
}

/// Weights of 0, and some below, for the links and pairs of a case, barred where the case
/// is: many combinations are active, so that some families are supported, and not all. In
/// some pairs each value has one active partner, or all but one.
pub fn loose_for(random: &mut Random, case: &Case) -> Case {
    let percent = *random.pick(&[40, 60, 75, 85, 92, 97]);
    let styles = *random.pick(&[4, 4, 40]);
    let d = case.values;
    let mut weights = Vec::with_capacity(case.weights.len());
    for scope in 0..case.scopes() {
        let style = if scope < case.variables { 2 } else { random.below(styles) };
        let turn = random.below(d);
        for at in 0..plain::part(case, scope).len() {
            let meets = at % d == (at / d + turn) % d;
            let active = match style {
                0 => meets,
                1 => !meets,
                _ => random.chance(percent, 100),
            };
            weights.push(if active { 0 } else { -1 - random.below(3) as i32 });
        }
    }
    with_bars_of(case, weights)
}

/// Any kind of case with at most these sizes.
pub fn any_case(random: &mut Random, variables: usize, values: usize, edges: usize) -> Case {
    let shape = *random.pick(&[
        Shape::Chain,
        Shape::Ring,
        Shape::Tree,
        Shape::Mesh,
        Shape::Random,
    ]);
    any_of_shape(random, shape, [variables, values, edges])
}

/// Any kind of case of a shape: so many links, values and pairs at most.
pub fn any_of_shape(random: &mut Random, shape: Shape, most: [usize; 3]) -> Case {
    let [variables, values, edges] = most;
    let bars = some_bars(random);
    let small = match bars {
        Bars::None => *random.pick(&[1, 2, 3, 9, 50]),
        _ => *random.pick(&[0, 1, 1, 2, 3, 9]),
    };
    let weights = match random.below(9) {
        8 => Weights::Flat(small),
        0 => Weights::Uniform,
        1 => Weights::Extreme,
        2 | 3 => Weights::Interference,
        _ => Weights::Small(small),
    };
    let unusable = if random.chance(1, 3) {
        5 + random.below(40) as u64
    } else {
        0
    };
    let least = 1 + usize::from(bars != Bars::None && random.chance(7, 8));
    let variables = (1 + random.below(variables)).max(least);
    let values = (1 + random.below(values)).max(least);
    let edges = if random.chance(2, 3) {
        edges
    } else {
        random.below(edges + 1)
    };
    case(
        random,
        Plan {
            shape,
            weights,
            unusable,
            bars,
            variables,
            values,
            edges,
        },
    )
}
