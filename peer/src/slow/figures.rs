//! Places, weights, barred and active tuples, upper bound and totals by scanning.

use crate::types::Case;

pub fn scope_count(case: &Case) -> usize {
    case.variables + case.edges.len()
}

/// A tuple of a scope: one value, or two.
#[derive(Clone, Copy)]
pub enum Tuple {
    One([usize; 1]),
    Two([usize; 2]),
}

impl std::ops::Deref for Tuple {
    type Target = [usize];

    fn deref(&self) -> &[usize] {
        match self {
            Tuple::One(values) => values,
            Tuple::Two(values) => values,
        }
    }
}

/// All tuples of a scope in table order.
pub fn tuples(case: &Case, scope: usize) -> Vec<Tuple> {
    let mut all = Vec::new();
    for first in 0..case.values {
        if scope < case.variables {
            all.push(Tuple::One([first]));
            continue;
        }
        for second in 0..case.values {
            all.push(Tuple::Two([first, second]));
        }
    }
    all
}

pub fn place(case: &Case, scope: usize, tuple: &[usize]) -> usize {
    let (n, d) = (case.variables, case.values);
    match tuple {
        [k] => scope * d + k,
        [k, l] => n * d + (scope - n) * d * d + k * d + l,
        _ => unreachable!("a scope has one or two variables"),
    }
}

pub fn weight(case: &Case, weights: &[i64], scope: usize, tuple: &[usize]) -> i64 {
    weights[place(case, scope, tuple)]
}

/// The places of all tuples of a scope; they lie side by side.
pub fn places(case: &Case, scope: usize) -> std::ops::RangeInclusive<usize> {
    let all = tuples(case, scope);
    place(case, scope, &all[0])..=place(case, scope, &all[all.len() - 1])
}

/// What a barred place holds.
pub const BARRED: i64 = -2_000_000_000;

pub fn is_barred(case: &Case, weights: &[i64], scope: usize, tuple: &[usize]) -> bool {
    weight(case, weights, scope, tuple) == BARRED
}

/// The greatest weight of the tuples that are not barred.
pub fn greatest(case: &Case, weights: &[i64], scope: usize) -> i64 {
    let all = weights[places(case, scope)].iter();
    *all.filter(|&&weight| weight != BARRED).max().unwrap()
}

/// A barred tuple is never active.
pub fn is_active(case: &Case, weights: &[i64], scope: usize, tuple: &[usize]) -> bool {
    !is_barred(case, weights, scope, tuple)
        && weight(case, weights, scope, tuple) == greatest(case, weights, scope)
}

pub fn active_values(case: &Case, weights: &[i64], variable: usize) -> Vec<usize> {
    (0..case.values)
        .filter(|&value| is_active(case, weights, variable, &[value]))
        .collect()
}

pub fn upper_bound(case: &Case, weights: &[i64]) -> i64 {
    (0..scope_count(case))
        .map(|scope| greatest(case, weights, scope))
        .sum()
}

/// The variables of a scope, in order.
pub fn members(case: &Case, scope: usize) -> Vec<usize> {
    if scope < case.variables {
        vec![scope]
    } else {
        let (lower, higher) = case.edges[scope - case.variables];
        vec![lower, higher]
    }
}

/// The assignment's total; nothing if it is unlawful.
pub fn objective(case: &Case, weights: &[i64], assignment: &[usize]) -> Option<i64> {
    let mut total = 0;
    for scope in 0..scope_count(case) {
        let used: Vec<usize> = members(case, scope)
            .iter()
            .map(|&member| assignment[member])
            .collect();
        if is_barred(case, weights, scope, &used) {
            return None;
        }
        total += weight(case, weights, scope, &used);
    }
    Some(total)
}

/// Every assignment there is.
pub fn assignments(case: &Case) -> Vec<Vec<usize>> {
    let mut all = vec![vec![]];
    for _ in 0..case.variables {
        let mut longer = Vec::new();
        for assignment in &all {
            for value in 0..case.values {
                let mut next: Vec<usize> = assignment.clone();
                next.push(value);
                longer.push(next);
            }
        }
        all = longer;
    }
    all
}

pub fn starting_weights(case: &Case) -> Vec<i64> {
    case.weights
        .iter()
        .map(|&weight| i64::from(weight))
        .collect()
}
