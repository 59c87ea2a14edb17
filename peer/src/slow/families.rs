//! Change 3 as document 02 says it: every family listed, the supported ones united, the
//! lowest partner by scanning upwards. Where there are too many families, the largest is
//! what is left when values without a partner are deleted.

use super::figures::*;
use super::refute::{advance, can_list, values_left, values_of, Open};
use crate::types::Case;

/// A set of values for each link, bit k for value k.
pub type Family = Vec<u32>;

/// What is open with all scopes but the link's own raised.
pub fn open_for<'a>(case: &'a Case, weights: &[i64], variable: usize) -> Open<'a> {
    let scopes = 0..scope_count(case);
    let others: Vec<usize> = scopes.filter(|&scope| scope != variable).collect();
    Open::new(case, weights, &others)
}

/// Every supported family with {value} at the link.
pub fn every_supported(open: &Open, variable: usize, value: usize) -> Vec<Family> {
    let mut family = vec![1; open.case.variables];
    family[variable] = 1 << value;
    let last_set = (1 << open.case.values) - 1;
    let mut all = Vec::new();
    loop {
        if open.supports(&family) {
            all.push(family.clone());
        }
        if !advance(&mut family, variable, last_set) {
            return all;
        }
    }
}

/// The union of all of them; nothing if there is none.
fn united(families: &[Family]) -> Option<Family> {
    let mut union = families.first()?.clone();
    for family in families {
        for (set, other) in union.iter_mut().zip(family) {
            *set |= other;
        }
    }
    Some(union)
}

fn left_over(open: &Open, variable: usize, value: usize) -> Option<Family> {
    let left = values_left(open, variable, value);
    let set = |values: &Vec<bool>| {
        let bits = values.iter().enumerate().map(|(k, &there)| u32::from(there) << k);
        bits.sum()
    };
    let family: Family = left.iter().map(set).collect();
    (!family.contains(&0)).then_some(family)
}

/// The union of the supported families and what deleting leaves; for small cases only.
pub fn both_ways(open: &Open, variable: usize, value: usize) -> [Option<Family>; 2] {
    let listed = united(&every_supported(open, variable, value));
    [listed, left_over(open, variable, value)]
}

fn largest(open: &Open, variable: usize, value: usize) -> Option<Family> {
    if can_list(open.case) {
        united(&every_supported(open, variable, value))
    } else {
        left_over(open, variable, value)
    }
}

/// The lowest value of the other end's set such that the combination is open.
fn lowest_partner(
    open: &Open,
    family: &Family,
    edge: usize,
    end: usize,
    value: usize,
) -> Option<usize> {
    let scope = open.case.variables + edge;
    let other = members(open.case, scope)[1 - end];
    values_of(family[other]).find(|&partner| {
        let tuple = match end {
            0 => [value, partner],
            _ => [partner, value],
        };
        open.is_open(scope, &tuple)
    })
}

fn partner_byte(open: &Open, family: &Family, edge: usize, end: usize, value: usize) -> u8 {
    let own = members(open.case, open.case.variables + edge)[end];
    if !values_of(family[own]).any(|other| other == value) {
        return 255;
    }
    lowest_partner(open, family, edge, end, value).unwrap() as u8
}

/// The numbers in their order, but the last 5.
fn ask(case: &Case, variable: u64, lent: [usize; 2]) -> Result<(), u8> {
    let (n, d, m) = (case.variables, case.values, case.edges.len());
    if !(1..=48).contains(&n) || !(1..=8).contains(&d) || m > 96 {
        return Err(3);
    }
    if case.weights.len() != n * d + m * d * d || lent[0] < n || lent[1] < 2 * m * d {
        return Err(4);
    }
    let no_link = |&link: &usize| link >= n;
    if variable >= n as u64 || case.edges.iter().any(|(i, j)| no_link(i) || no_link(j)) {
        return Err(5);
    }
    if case.edges.iter().any(|(lower, higher)| lower >= higher) {
        return Err(6);
    }
    for later in 0..m {
        if (0..later).any(|earlier| case.edges[earlier] == case.edges[later]) {
            return Err(7);
        }
    }
    let good = |&weight: &i32| {
        weight == -2_000_000_000 || (-500_000_000..=500_000_000).contains(&weight)
    };
    if !case.weights.iter().all(good) {
        return Err(8);
    }
    let weights = starting_weights(case);
    for scope in 0..n + m {
        let all = tuples(case, scope);
        if all.iter().all(|tuple| is_barred(case, &weights, scope, tuple)) {
            return Err(15);
        }
    }
    Ok(())
}

pub fn show(
    case: &Case,
    variable: u64,
    family: &mut [u8],
    partners: &mut [u8],
) -> Result<usize, u8> {
    ask(case, variable, [family.len(), partners.len()])?;
    let (weights, variable) = (starting_weights(case), variable as usize);
    let open = open_for(case, &weights, variable);
    for value in active_values(case, &weights, variable) {
        let Some(sets) = largest(&open, variable, value) else {
            continue;
        };
        for (byte, &set) in family.iter_mut().zip(&sets) {
            *byte = set as u8;
        }
        for edge in 0..case.edges.len() {
            for end in 0..2 {
                for v in 0..case.values {
                    let at = (2 * edge + end) * case.values + v;
                    partners[at] = partner_byte(&open, &sets, edge, end, v);
                }
            }
        }
        return Ok(value);
    }
    Err(5)
}
