//! Links that leave and join as one writes them at the first go: new tables scope after
//! scope, and a join's lines kept as a list in which each is judged by its place.

use crate::plain::{part, scopes, upper_bound};
use crate::types::*;

fn touches(case: &Case, scope: usize, link: usize) -> bool {
    match scope.checked_sub(case.variables) {
        None => scope == link,
        Some(edge) => [case.edges[edge].0, case.edges[edge].1].contains(&link),
    }
}

/// What the table holds in these scopes.
fn gathered<T: Copy>(case: &Case, table: &[T], chosen: &[usize]) -> Vec<T> {
    chosen.iter().flat_map(|&scope| table[part(case, scope)].to_vec()).collect()
}

/// The case, its working weights and the carry when a link has left.
pub fn leave(case: &Case, weights: &[i64], carry: i64, link: usize) -> (Case, Vec<i64>, i64) {
    let (leave, stay): (Vec<usize>, Vec<usize>) =
        (0..scopes(case)).partition(|&scope| touches(case, scope, link));
    let moved = |end: usize| if end > link { end - 1 } else { end };
    let edges = stay.iter().filter(|&&scope| scope >= case.variables);
    let ends = |&scope: &usize| case.edges[scope - case.variables];
    let smaller = Case {
        variables: case.variables - 1,
        values: case.values,
        edges: edges.map(ends).map(|(i, j)| (moved(i), moved(j))).collect(),
        weights: gathered(case, &case.weights, &stay),
    };
    let start: Vec<i64> = smaller.weights.iter().map(|&weight| i64::from(weight)).collect();
    let kept = gathered(case, weights, &stay);
    let mut grown = carry;
    let mut has_bar = false;
    for scope in leave {
        let starting = &case.weights[part(case, scope)];
        has_bar |= starting.contains(&BARRED);
        grown += weights[part(case, scope)].iter().max().unwrap();
        grown -= i64::from(*starting.iter().min().unwrap());
    }
    let higher = upper_bound(&smaller, &start) > upper_bound(&smaller, &kept) + grown;
    if has_bar || grown.abs() > CARRY_LIMIT || !higher {
        return (smaller, start, 0);
    }
    (smaller, kept, grown)
}

/// The lines of a join so far, without the first.
pub struct Joining {
    pairs: usize,
    lines: Vec<Line>,
}

impl Joining {
    /// The line of kind 8, or its number.
    pub fn begin(case: &Case, line: Line) -> Result<Joining, u8> {
        if [line.b, line.c, line.amount] != [0; 3] {
            return Err(2);
        }
        let (n, m) = (case.variables as i64, case.edges.len() as i64);
        if n + 1 > MAX_VARIABLES as i64 || m + line.a > MAX_EDGES as i64 {
            return Err(3);
        }
        if line.a < 0 || line.a > n {
            return Err(5);
        }
        Ok(Joining { pairs: line.a as usize, lines: vec![] })
    }

    fn length(&self, case: &Case) -> usize {
        case.values + self.pairs * (1 + case.values * case.values)
    }

    /// Takes the next line; true if it is the last one.
    pub fn take(&mut self, case: &Case, line: Line) -> Result<bool, u8> {
        let (n, m, d) = (case.variables, case.edges.len(), case.values);
        let at = self.lines.len();
        self.lines.push(line);
        if at < d {
            self.weight([n, at, 0], [11, 14], d, at + 1 == d)?;
        } else {
            let (pair, rest) = ((at - d) / (1 + d * d), (at - d) % (1 + d * d));
            match rest.checked_sub(1) {
                None => self.pair(case, line, m + pair)?,
                Some(cell) => {
                    self.weight([m + pair, cell / d, cell % d], [13, 15], d * d, rest == d * d)?
                }
            }
        }
        Ok(self.lines.len() == self.length(case))
    }

    /// The last line as the weight of a place, in a scope of so many places.
    fn weight(&self, place: [usize; 3], kinds: [i64; 2], count: usize, last: bool) -> Result<(), u8> {
        let line = self.lines[self.lines.len() - 1];
        let unused = match line.kind {
            11 => [line.c, 0],
            14 => [line.c, line.amount],
            15 => [line.amount, 0],
            _ => [0, 0],
        };
        if !kinds.contains(&line.kind) || unused != [0, 0] {
            return Err(2);
        }
        if [line.a, line.b, line.c] != place.map(|number| number as i64) {
            return Err(5);
        }
        if line.amount.abs() > START_LIMIT {
            return Err(8);
        }
        let scope = self.lines.iter().rev().take(count);
        if last && scope.into_iter().all(|line| line.kind == kinds[1]) {
            return Err(15);
        }
        Ok(())
    }

    fn pair(&self, case: &Case, line: Line, pair: usize) -> Result<(), u8> {
        let n = case.variables as i64;
        if line.kind != 12 || line.amount != 0 {
            return Err(2);
        }
        if line.a != pair as i64 || !(0..=n).contains(&line.b) || line.c != n {
            return Err(5);
        }
        if line.b >= line.c {
            return Err(6);
        }
        let same = |other: &&Line| other.kind == 12 && other.b == line.b;
        if self.lines.iter().filter(same).count() > 1 {
            return Err(7);
        }
        Ok(())
    }

    /// The case with the new link, and its working weights.
    pub fn joined(&self, case: &Case, weights: &[i64]) -> (Case, Vec<i64>) {
        let (n, d) = (case.variables, case.values);
        let weight = |line: &Line| match line.kind {
            11 | 13 => line.amount,
            _ => BARRED.into(),
        };
        let (pairs, new): (Vec<Line>, Vec<Line>) =
            self.lines.iter().partition(|line| line.kind == 12);
        let new: Vec<i64> = new.iter().map(weight).collect();
        let insert = |table: &mut Vec<i64>| {
            table.splice(n * d..n * d, new[..d].iter().copied());
            table.extend(&new[d..]);
        };
        let mut start: Vec<i64> = case.weights.iter().map(|&weight| i64::from(weight)).collect();
        let mut working = weights.to_vec();
        insert(&mut start);
        insert(&mut working);
        let mut next = case.clone();
        next.variables += 1;
        next.edges.extend(pairs.iter().map(|line| (line.b as usize, line.c as usize)));
        next.weights = start.iter().map(|&weight| weight as i32).collect();
        (next, working)
    }
}
