//! Links that leave and join, by lists of scopes: the case is taken apart into its scopes
//! and put together again from those that are left or were added.

use super::case::{due_of, take, Due};
use super::figures::*;
use crate::types::{Case, Line};

/// A link or a pair with both its parts of the tables.
struct Scope {
    links: Vec<usize>,
    starting: Vec<i64>,
    working: Vec<i64>,
}

impl Scope {
    fn is_barred(&self) -> bool {
        self.starting.contains(&BARRED)
    }

    fn growth(&self) -> i64 {
        let unbarred = |weights: &[i64]| -> Vec<i64> {
            weights.iter().copied().filter(|&weight| weight != BARRED).collect()
        };
        let greatest = unbarred(&self.working).into_iter().max().unwrap();
        let least = unbarred(&self.starting).into_iter().min().unwrap();
        greatest - least
    }
}

fn apart(case: &Case, weights: &[i64]) -> Vec<Scope> {
    let starting = starting_weights(case);
    let mut all = Vec::new();
    for scope in 0..scope_count(case) {
        all.push(Scope {
            links: members(case, scope),
            starting: starting[places(case, scope)].to_vec(),
            working: weights[places(case, scope)].to_vec(),
        });
    }
    all
}

/// The case of these scopes and its working weights: the links first, then the pairs, each
/// in the order of the list.
fn together(values: usize, scopes: &[Scope]) -> (Case, Vec<i64>) {
    let mut case = Case { variables: 0, values, edges: vec![], weights: vec![] };
    let mut working = Vec::new();
    for size in [1, 2] {
        for scope in scopes.iter().filter(|scope| scope.links.len() == size) {
            match scope.links[..] {
                [lower, higher] => case.edges.push((lower, higher)),
                _ => case.variables += 1,
            }
            case.weights.extend(scope.starting.iter().map(|&weight| weight as i32));
            working.extend(&scope.working);
        }
    }
    (case, working)
}

/// The case, its working weights and the carry when the link has left.
pub fn leave(case: &Case, weights: &[i64], carry: i64, link: usize) -> (Case, Vec<i64>, i64) {
    let scopes = apart(case, weights).into_iter();
    let (left, mut staying): (Vec<Scope>, Vec<Scope>) =
        scopes.partition(|scope| scope.links.contains(&link));
    for scope in &mut staying {
        for other in &mut scope.links {
            *other -= usize::from(*other > link);
        }
    }
    let (smaller, working) = together(case.values, &staying);
    let starting = starting_weights(&smaller);
    let grown = carry + left.iter().map(Scope::growth).sum::<i64>();
    let fresh_ceiling = upper_bound(&smaller, &starting);
    let carried_ceiling = upper_bound(&smaller, &working) + grown;
    let restarts = left.iter().any(Scope::is_barred)
        || !(-20_000_000_000..=20_000_000_000).contains(&grown)
        || fresh_ceiling <= carried_ceiling;
    if restarts {
        (smaller, starting, 0)
    } else {
        (smaller, working, grown)
    }
}

/// A join begun: the lines still due, and the case file's reading of those taken, whose
/// weights are the new ones only.
pub struct HeldJoin {
    due: Vec<Due>,
    taken: Case,
}

impl HeldJoin {
    pub fn new(case: &Case, count: usize) -> HeldJoin {
        let (link, first) = (case.variables, case.edges.len());
        let mut taken = case.clone();
        taken.variables += 1;
        taken.weights.clear();
        HeldJoin { due: due_of(link..link + 1, case.values, first..first + count), taken }
    }

    /// A case line, whose pair has the new link as its higher one.
    pub fn take(&mut self, line: Line) -> Result<(), u8> {
        let due = self.due.remove(0);
        let new_link = self.taken.variables as i64 - 1;
        let is_pair = matches!(due, Due::Edge(_));
        match take(&mut self.taken, due, line) {
            Err(2) => Err(2),
            _ if is_pair && line.c != new_link => Err(5),
            answer => answer,
        }
    }

    pub fn is_whole(&self) -> bool {
        self.due.is_empty()
    }

    /// The case with the new link and its working weights, the new ones being starting ones.
    pub fn made(&self, case: &Case, weights: &[i64]) -> (Case, Vec<i64>) {
        let mut new = starting_weights(&self.taken).into_iter();
        let mut next = |links: Vec<usize>, count: usize| {
            let starting: Vec<i64> = new.by_ref().take(count).collect();
            Scope { links, working: starting.clone(), starting }
        };
        let mut scopes = apart(case, weights);
        scopes.push(next(vec![case.variables], case.values));
        for &(lower, higher) in &self.taken.edges[case.edges.len()..] {
            scopes.push(next(vec![lower, higher], case.values * case.values));
        }
        together(case.values, &scopes)
    }
}
