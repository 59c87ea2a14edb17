//! Shift and press by the definition: the whole next table, then the range rule. Barred
//! places stay what they are, and no range is asked of them.

use super::figures::*;
use crate::types::Case;

/// The table after a shift, or number 11.
pub fn shift(
    case: &Case,
    weights: &[i64],
    edge: usize,
    end: usize,
    value: usize,
    amount: i64,
) -> Result<Vec<i64>, u8> {
    let mut next = weights.to_vec();
    let scope = case.variables + edge;
    let variable = members(case, scope)[end];
    next[place(case, variable, &[value])] += amount;
    for tuple in tuples(case, scope) {
        if tuple[end] == value {
            next[place(case, scope, &tuple)] -= amount;
        }
    }
    checked(weights, next)
}

/// The table after a press, or number 11.
pub fn press(
    case: &Case,
    weights: &[i64],
    variable: usize,
    raised: &[usize],
    amount: i64,
) -> Result<Vec<i64>, u8> {
    let mut next = weights.to_vec();
    for value in active_values(case, weights, variable) {
        next[place(case, variable, &[value])] -= amount;
    }
    for &scope in raised {
        for tuple in tuples(case, scope) {
            if !is_active(case, weights, scope, &tuple) {
                next[place(case, scope, &tuple)] += amount;
            }
        }
    }
    checked(weights, next)
}

/// The next table with the barred places of the last one, if all others are in range.
fn checked(last: &[i64], mut next: Vec<i64>) -> Result<Vec<i64>, u8> {
    for (place, weight) in next.iter_mut().enumerate() {
        if last[place] == BARRED {
            *weight = BARRED;
        } else if !(-500_000_000..=500_000_000).contains(weight) {
            return Err(11);
        }
    }
    Ok(next)
}
