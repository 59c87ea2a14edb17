//! What is asked of a lent table before a call: numbers 3 to 8 and 15, in their order.

use crate::case::table_length;
use crate::plain::part;
use crate::types::*;

/// Some scope has no unbarred combination.
pub fn wholly_barred(case: &Case) -> bool {
    let barred = |scope| case.weights[part(case, scope)].iter().all(|&weight| weight == BARRED);
    (0..case.scopes()).any(barred)
}

fn beyond_limits(case: &Case) -> bool {
    let sized = (1..=MAX_VARIABLES).contains(&case.variables);
    !sized || !(1..=MAX_VALUES).contains(&case.values) || case.edges.len() > MAX_EDGES
}

/// Numbers 5, 6 and 7 of the pairs, and whether they apply.
fn of_pairs(case: &Case) -> [(u8, bool); 3] {
    let (n, m) = (case.variables, case.edges.len());
    let seen = |at: usize| case.edges[..at].contains(&case.edges[at]);
    [
        (5, case.edges.iter().any(|&(i, j)| i >= n || j >= n)),
        (6, case.edges.iter().any(|&(i, j)| i >= j)),
        (7, (0..m).any(seen)),
    ]
}

fn first(numbers: &[(u8, bool)]) -> Option<u8> {
    let first = numbers.iter().find(|(_, applies)| *applies);
    first.map(|&(number, _)| number)
}

/// What is asked of a case where no table is lent: the first of 3, 5, 6 and 7 that applies.
pub fn case_refusal(case: &Case) -> Option<u8> {
    let [links, order, again] = of_pairs(case);
    first(&[(3, beyond_limits(case)), links, order, again])
}

/// The first of the numbers 3 to 8 and 15 that applies. `short`: an output is shorter than
/// it must be; `outside`: the call names a link that is none.
pub fn refusal(case: &Case, short: bool, outside: bool) -> Option<u8> {
    let (n, d, m) = (case.variables, case.values, case.edges.len());
    let beyond = |&weight: &i32| weight != BARRED && i64::from(weight).abs() > WORK_LIMIT;
    let [(_, links), order, again] = of_pairs(case);
    let number = first(&[
        (3, beyond_limits(case)),
        (4, case.weights.len() != table_length(n, d, m) || short),
        (5, outside || links),
        order,
        again,
        (8, case.weights.iter().any(beyond)),
    ]);
    number.or_else(|| wholly_barred(case).then_some(15))
}
