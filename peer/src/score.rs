//! Starting totals of assignments, and which of two is the better.

use crate::types::{Better, Case, BARRED};

/// The assignment's starting total; number 4 for its length, 5 for a value or a barred
/// combination used.
pub fn objective(case: &Case, assignment: &[u64]) -> Result<i64, u8> {
    check_length(case, assignment)?;
    check_values(case, assignment)?;
    sum(case, assignment).ok_or(5)
}

/// The one with the greater starting total, the first on a tie. All that use a barred
/// combination are level, below the others.
pub fn score(case: &Case, first: &[u64], second: &[u64]) -> Result<Better, u8> {
    check_length(case, first)?;
    check_length(case, second)?;
    check_values(case, first)?;
    check_values(case, second)?;
    if sum(case, second) > sum(case, first) {
        Ok(Better::Second)
    } else {
        Ok(Better::First)
    }
}

fn check_length(case: &Case, assignment: &[u64]) -> Result<(), u8> {
    if assignment.len() == case.variables {
        Ok(())
    } else {
        Err(4)
    }
}

fn check_values(case: &Case, assignment: &[u64]) -> Result<(), u8> {
    if assignment.iter().all(|&value| value < case.values as u64) {
        Ok(())
    } else {
        Err(5)
    }
}

/// Nothing if the assignment uses a barred combination.
fn sum(case: &Case, assignment: &[u64]) -> Option<i64> {
    let values = case.values;
    let mut total = 0i64;
    for (variable, &value) in assignment.iter().enumerate() {
        total += unbarred(case.weights[variable * values + value as usize])?;
    }
    let pairs = &case.weights[case.variables * values..];
    for (edge, &(lower, higher)) in case.edges.iter().enumerate() {
        let (first, second) = (assignment[lower] as usize, assignment[higher] as usize);
        total += unbarred(pairs[(edge * values + first) * values + second])?;
    }
    Some(total)
}

fn unbarred(weight: i32) -> Option<i64> {
    (weight != BARRED).then_some(weight.into())
}
