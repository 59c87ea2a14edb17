//! The greatest total of a table whose pairs form no loop, without listing plans: links
//! with one pair left are taken away, each handing its best totals to its neighbour.

use crate::types::Case;

/// A link taken away, its neighbour then, and its best value for each of the neighbour's.
struct Leaf {
    link: usize,
    next: usize,
    values: Vec<usize>,
}

/// What is left: for each link and value the best total of what was taken away behind it,
/// and the pairs.
struct Left<'a> {
    case: &'a Case,
    weights: &'a [i64],
    totals: Vec<Vec<Option<i64>>>,
    edges: Vec<usize>,
}

fn unbarred(weight: i64) -> Option<i64> {
    (weight != crate::types::BARRED.into()).then_some(weight)
}

/// The greatest of some totals, and where it is first.
fn greatest(totals: &[Option<i64>]) -> Option<(i64, usize)> {
    let most = totals.iter().flatten().max()?;
    let at = totals.iter().position(|total| *total == Some(*most))?;
    Some((*most, at))
}

impl<'a> Left<'a> {
    fn new(case: &'a Case, weights: &'a [i64]) -> Left<'a> {
        let totals = |link: &[i64]| link.iter().map(|&weight| unbarred(weight)).collect();
        let links = weights.chunks(case.values).take(case.variables);
        Left {
            case,
            weights,
            totals: links.map(totals).collect(),
            edges: (0..case.edges.len()).collect(),
        }
    }

    /// A link with one pair left, and that pair.
    fn leaf(&self) -> Option<(usize, usize)> {
        (0..self.case.variables).find_map(|link| {
            let meets = |edge: &usize| {
                let (lower, higher) = self.case.edges[*edge];
                lower == link || higher == link
            };
            let mut met = self.edges.iter().copied().filter(meets);
            met.next().filter(|_| met.next().is_none()).map(|edge| (link, edge))
        })
    }

    fn pair_weight(&self, edge: usize, link: usize, value: usize, other: usize) -> Option<i64> {
        let (n, d) = (self.case.variables, self.case.values);
        let is_lower = self.case.edges[edge].0 == link;
        let (first, second) = if is_lower { (value, other) } else { (other, value) };
        unbarred(self.weights[n * d + edge * d * d + first * d + second])
    }

    fn take(&mut self, link: usize, edge: usize) -> Leaf {
        let (lower, higher) = self.case.edges[edge];
        let next = if lower == link { higher } else { lower };
        let mut values = Vec::new();
        for other in 0..self.case.values {
            let total = |k: usize| {
                let pair = self.pair_weight(edge, link, k, other)?;
                Some(self.totals[link][k]? + pair)
            };
            let totals: Vec<Option<i64>> = (0..self.case.values).map(total).collect();
            let best = greatest(&totals);
            let total = &mut self.totals[next][other];
            *total = total.and_then(|total| Some(total + best?.0));
            values.push(best.map_or(0, |(_, value)| value));
        }
        Leaf { link, next, values }
    }
}

/// The links that are taken away, in order, each with its pair.
pub fn leaves(case: &Case) -> Vec<(usize, usize)> {
    let mut left = Left::new(case, &[]);
    let mut all = Vec::new();
    while let Some((link, edge)) = left.leaf() {
        left.edges.retain(|&other| other != edge);
        all.push((link, edge));
    }
    assert!(left.edges.is_empty(), "the pairs form a loop");
    all
}

/// The greatest total of lawful plans and a plan that has it; nothing if none is lawful.
pub fn best(case: &Case, weights: &[i64]) -> Option<(i64, Vec<usize>)> {
    let mut left = Left::new(case, weights);
    let taken = leaves(case).into_iter();
    let leaves: Vec<Leaf> = taken.map(|(link, edge)| left.take(link, edge)).collect();
    let (mut total, mut plan) = (0, vec![0; case.variables]);
    for link in 0..case.variables {
        if leaves.iter().all(|leaf| leaf.link != link) {
            let (most, value) = greatest(&left.totals[link])?;
            total += most;
            plan[link] = value;
        }
    }
    for leaf in leaves.iter().rev() {
        plan[leaf.link] = leaf.values[plan[leaf.next]];
    }
    Some((total, plan))
}
