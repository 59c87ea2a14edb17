//! Refutation by trying every family. Where there are too many of them, by deleting
//! values without a partner until none is left to delete; small cases ask both.

use super::figures::*;
use crate::types::Case;

/// What is open, looked up once for a set of raised scopes.
pub struct Open<'a> {
    pub case: &'a Case,
    allowed: Vec<bool>,
}

impl<'a> Open<'a> {
    pub fn new(case: &'a Case, weights: &[i64], raised: &[usize]) -> Open<'a> {
        let mut allowed = vec![true; case.weights.len()];
        for &scope in raised {
            let greatest = greatest(case, weights, scope);
            for here in places(case, scope) {
                allowed[here] = weights[here] != BARRED && weights[here] == greatest;
            }
        }
        Open { case, allowed }
    }

    pub fn is_open(&self, scope: usize, tuple: &[usize]) -> bool {
        self.allowed[place(self.case, scope, tuple)]
    }

    /// Open values only, each with a partner.
    pub fn supports(&self, family: &[u32]) -> bool {
        self.holds_open_values(family) && self.has_partners(family)
    }

    fn holds_open_values(&self, family: &[u32]) -> bool {
        (0..self.case.variables).all(|variable| {
            values_of(family[variable]).all(|value| self.is_open(variable, &[value]))
        })
    }

    fn has_partners(&self, family: &[u32]) -> bool {
        for (edge, &(lower, higher)) in self.case.edges.iter().enumerate() {
            let scope = self.case.variables + edge;
            for k in values_of(family[lower]) {
                if !values_of(family[higher]).any(|l| self.is_open(scope, &[k, l])) {
                    return false;
                }
            }
            for l in values_of(family[higher]) {
                if !values_of(family[lower]).any(|k| self.is_open(scope, &[k, l])) {
                    return false;
                }
            }
        }
        true
    }
}

pub fn values_of(set: u32) -> impl Iterator<Item = usize> {
    (0..8).filter(move |value| set >> value & 1 == 1)
}

/// The next family in counting order, `fixed` staying as it is.
pub fn advance(family: &mut [u32], fixed: usize, last_set: u32) -> bool {
    for variable in 0..family.len() {
        if variable == fixed {
            continue;
        }
        if family[variable] < last_set {
            family[variable] += 1;
            return true;
        }
        family[variable] = 1;
    }
    false
}

/// No family of non-empty sets, {value} at `variable`, is supported.
fn refuted(open: &Open, variable: usize, value: usize) -> bool {
    if can_list(open.case) {
        no_family(open, variable, value)
    } else {
        nothing_left(open, variable, value)
    }
}

/// Both ways of finding out; for small cases only.
pub fn refuted_both_ways(
    case: &Case,
    weights: &[i64],
    raised: &[usize],
    variable: usize,
    value: usize,
) -> [bool; 2] {
    let open = Open::new(case, weights, raised);
    [
        no_family(&open, variable, value),
        nothing_left(&open, variable, value),
    ]
}

fn no_family(open: &Open, variable: usize, value: usize) -> bool {
    let mut family = vec![1; open.case.variables];
    family[variable] = 1 << value;
    let last_set = (1 << open.case.values) - 1;
    loop {
        if open.supports(&family) {
            return false;
        }
        if !advance(&mut family, variable, last_set) {
            return true;
        }
    }
}

fn nothing_left(open: &Open, variable: usize, value: usize) -> bool {
    let left = values_left(open, variable, value);
    left.iter().any(|values| !values.contains(&true))
}

/// Starts with all open values and deletes those without a partner.
pub fn values_left(open: &Open, variable: usize, value: usize) -> Vec<Vec<bool>> {
    let case = open.case;
    let mut left = vec![vec![false; case.values]; case.variables];
    for other in 0..case.variables {
        for k in 0..case.values {
            left[other][k] = (other != variable || k == value) && open.is_open(other, &[k]);
        }
    }
    while delete_one_pass(open, &mut left) {}
    left
}

fn delete_one_pass(open: &Open, left: &mut [Vec<bool>]) -> bool {
    let mut deleted = false;
    for (edge, &(lower, higher)) in open.case.edges.iter().enumerate() {
        let scope = open.case.variables + edge;
        let values = 0..open.case.values;
        for k in values.clone() {
            let partner = values
                .clone()
                .any(|l| left[higher][l] && open.is_open(scope, &[k, l]));
            deleted |= left[lower][k] && !partner;
            left[lower][k] &= partner;
        }
        for l in values.clone() {
            let partner = values
                .clone()
                .any(|k| left[lower][k] && open.is_open(scope, &[k, l]));
            deleted |= left[higher][l] && !partner;
            left[higher][l] &= partner;
        }
    }
    deleted
}

/// Every active value of the variable is refuted.
pub fn active_refuted(case: &Case, weights: &[i64], raised: &[usize], variable: usize) -> bool {
    let open = Open::new(case, weights, raised);
    let active = active_values(case, weights, variable);
    active
        .into_iter()
        .all(|value| refuted(&open, variable, value))
}

const MOST_FAMILIES: u64 = 5000;

/// Whether the families of one refutation can all be tried.
pub fn can_list(case: &Case) -> bool {
    let sets = (1u64 << case.values) - 1;
    sets.saturating_pow(case.variables as u32 - 1) <= MOST_FAMILIES
}
