//! Inputs for a program that is asked whether the pairs of a case form no loop, and what it
//! must print. Only the case is handed over, no table: numbers 3, 5, 6 and 7 may apply.

use crate::calls::Batch;
use crate::generate::{any_of_shape, Shape};
use crate::inputs::random_for;
use crate::random::Random;
use crate::types::*;
use crate::{lent, line, loops};

/// Batches are numbered apart from the other programs' inputs.
const FIRST: u64 = 1 << 43;

/// The program reads no more than this.
const MOST_INPUT: usize = 40_000;

fn answer(case: &Case) -> String {
    match lent::case_refusal(case) {
        Some(number) => format!("refused {number}"),
        None if loops::no_loop(case) => "yes".into(),
        None => "no".into(),
    }
}

/// The case's lines and the call with its answer.
fn ask(case: &Case, answer: &str) -> Batch {
    let mut batch = Batch::default();
    let [n, d, m] = [case.variables, case.values, case.edges.len()].map(|size| size as i64);
    line::write(&mut batch.input, 1, n, d, m, 0);
    for (edge, &(one, other)) in case.edges.iter().enumerate() {
        line::write(&mut batch.input, 2, edge as i64, one as i64, other as i64, 0);
    }
    line::write(&mut batch.input, 29, 0, 0, 0, 0);
    batch.output.extend(format!("  is_acyclic 0 0 0 0: {answer}\n").into_bytes());
    let figures = &mut batch.figures;
    figures.tables += 1;
    match answer {
        "yes" => figures.found += 1,
        "no" => figures.none += 1,
        _ => figures.refused += 1,
    }
    batch
}

/// Batch number `index` of a seed.
pub fn batch(seed: u64, index: u64) -> Batch {
    let mut random = random_for(seed, FIRST + index);
    let mut batch = Batch::default();
    loop {
        let case = some_case(&mut random);
        let next = ask(&case, &answer(&case));
        if batch.input.len() + next.input.len() > MOST_INPUT {
            return batch;
        }
        batch.join(next);
    }
}

fn some_case(random: &mut Random) -> Case {
    let shapes = [Shape::Random, Shape::Forest, Shape::NearForest, Shape::Tree, Shape::Ring];
    let shape = *random.pick(&shapes);
    let links = *random.pick(&[2, 4, 4, 7, 7, 12, 20, MAX_VARIABLES]);
    let pairs = *random.pick(&[links - 1, links, links, links + 2, MAX_EDGES]);
    let mut case = any_of_shape(random, shape, [links, 1, pairs]);
    case.values = 1 + random.below(MAX_VALUES);
    case.weights.clear();
    if random.chance(1, 3) {
        for _ in 0..1 + random.below(3) {
            spoil(random, &mut case);
        }
    }
    case
}

/// One of the numbers mostly applies afterwards; an end stays a byte.
fn spoil(random: &mut Random, case: &mut Case) {
    let n = case.variables;
    if case.edges.is_empty() || random.chance(1, 5) {
        return beyond(random, case);
    }
    let at = random.below(case.edges.len());
    let other = *random.pick(&case.edges);
    let (lower, higher) = case.edges[at];
    let outside = *random.pick(&[n, n + 1, 47, 48, 63, 64, 127, 128, 255]);
    match random.below(6) {
        0 => case.edges[at].0 = outside,
        1 => case.edges[at].1 = outside,
        2 => case.edges[at] = (higher, lower),
        3 => case.edges[at] = (lower, lower),
        4 if case.edges.len() < MAX_EDGES => case.edges.push(other),
        _ => case.edges[at] = other,
    }
}

/// Sizes at or outside their limits.
fn beyond(random: &mut Random, case: &mut Case) {
    match random.below(6) {
        0 => case.variables = *random.pick(&[0, 49, 50, 64, 255]),
        1 => case.values = *random.pick(&[0, 9, 10, 64, 255]),
        2 => {
            let pairs = MAX_EDGES + 1 + random.below(3);
            case.edges.resize(pairs, (0, 1));
        }
        3 => case.variables = MAX_VARIABLES,
        _ => case.values = *random.pick(&[1, MAX_VALUES]),
    }
}

fn made(variables: usize, values: usize, edges: &[(usize, usize)]) -> Case {
    Case { variables, values, edges: edges.to_vec(), weights: vec![] }
}

/// The first so many pairs of 48 links.
fn many(count: usize) -> Vec<(usize, usize)> {
    let all = (0..48).flat_map(|lower| (lower + 1..48).map(move |higher| (lower, higher)));
    all.take(count).collect()
}

/// Cases made by hand, each with the answer read from the documents.
fn by_hand() -> Vec<(Case, &'static str)> {
    let chain: Vec<(usize, usize)> = (1..48).map(|higher| (higher - 1, higher)).collect();
    let ring = [&chain[..], &[(0, 47)]].concat();
    vec![
        (made(1, 1, &[]), "yes"),
        (made(48, 8, &[]), "yes"),
        (made(2, 2, &[(0, 1)]), "yes"),
        (made(48, 8, &chain), "yes"),
        (made(48, 1, &many(47)), "yes"),
        (made(48, 1, &many(48)), "no"),
        (made(48, 8, &ring), "no"),
        (made(48, 8, &many(96)), "no"),
        (made(3, 2, &[(0, 1), (0, 2), (1, 2)]), "no"),
        (made(4, 2, &[(0, 1), (1, 2), (2, 3)]), "yes"),
        (made(4, 2, &[(2, 3), (0, 3), (1, 2), (0, 1)]), "no"),
        (made(5, 2, &[(0, 4), (1, 3)]), "yes"),
        (made(6, 3, &[(0, 1), (2, 4), (3, 5), (2, 3), (4, 5)]), "no"),
        (made(7, 3, &[(0, 6), (1, 6), (2, 6), (3, 5), (4, 5)]), "yes"),
    ]
}

/// Cases made by hand to which a number applies.
fn refused_by_hand() -> Vec<(Case, &'static str)> {
    vec![
        (made(0, 1, &[]), "refused 3"),
        (made(49, 1, &[]), "refused 3"),
        (made(1, 0, &[]), "refused 3"),
        (made(1, 9, &[]), "refused 3"),
        (made(48, 1, &many(97)), "refused 3"),
        (made(49, 1, &[(50, 0)]), "refused 3"),
        (made(3, 1, &[(0, 3)]), "refused 5"),
        (made(3, 1, &[(255, 1)]), "refused 5"),
        (made(48, 1, &[(0, 48)]), "refused 5"),
        (made(3, 1, &[(1, 0), (1, 0), (0, 3)]), "refused 5"),
        (made(3, 1, &[(1, 0)]), "refused 6"),
        (made(3, 1, &[(1, 1)]), "refused 6"),
        (made(3, 1, &[(0, 1), (0, 1), (2, 1)]), "refused 6"),
        (made(3, 1, &[(0, 1), (0, 1)]), "refused 7"),
        (made(3, 1, &[(0, 1), (0, 2), (1, 2), (0, 1)]), "refused 7"),
    ]
}

fn all_by_hand() -> impl Iterator<Item = (Case, &'static str)> {
    by_hand().into_iter().chain(refused_by_hand())
}

/// The cases made by hand with the answers written there.
pub fn samples() -> Batch {
    let mut batch = Batch::default();
    all_by_hand().for_each(|(case, said)| batch.join(ask(&case, said)));
    batch
}

/// The peer answers the cases made by hand as they say; how many there are.
pub fn check() -> Result<usize, String> {
    let mut count = 0;
    for (case, said) in all_by_hand() {
        let found = answer(&case);
        if found != said {
            return Err(format!("loops: {found} instead of {said} for {case:?}"));
        }
        count += 1;
    }
    Ok(count)
}
