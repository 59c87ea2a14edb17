//! Scoring by the numbers asked in turn of both assignments. Unlawful ones are level and
//! below all others.

use super::figures::{objective, starting_weights};
use crate::types::{Better, Case};

pub fn score(case: &Case, first: &[u64], second: &[u64]) -> Result<Better, u8> {
    let both = [first, second];
    if both
        .iter()
        .any(|assignment| assignment.len() != case.variables)
    {
        return Err(4);
    }
    if both
        .iter()
        .any(|assignment| assignment.iter().any(|&v| v >= case.values as u64))
    {
        return Err(5);
    }
    let weights = starting_weights(case);
    let totals = both.map(|assignment| {
        let assignment: Vec<usize> = assignment.iter().map(|&value| value as usize).collect();
        objective(case, &weights, &assignment)
    });
    let second = match totals {
        [_, None] => false,
        [None, Some(_)] => true,
        [Some(first), Some(second)] => second > first,
    };
    Ok(if second {
        Better::Second
    } else {
        Better::First
    })
}
