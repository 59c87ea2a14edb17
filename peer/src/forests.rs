//! Pairs that form no loop, and such with one pair more that closes one.

use crate::random::Random;

type Pairs = Vec<(usize, usize)>;

/// The links in groups of any size, lone ones too.
fn groups(random: &mut Random, variables: usize) -> Vec<Vec<usize>> {
    let mut links: Vec<usize> = (0..variables).collect();
    if random.chance(2, 3) {
        random.shuffle(&mut links);
    }
    let cut = *random.pick(&[0, 0, 15, 15, 40, 70, 100]);
    let mut groups: Vec<Vec<usize>> = vec![];
    for link in links {
        match groups.last_mut() {
            Some(group) if !random.chance(cut, 100) => group.push(link),
            _ => groups.push(vec![link]),
        }
    }
    groups
}

/// A group joined as a chain, a star, a random tree or a chain with branches.
fn joined(random: &mut Random, group: &[usize]) -> Pairs {
    let style = random.below(4);
    let mut pairs = Vec::new();
    for at in 1..group.len() {
        let with = match style {
            0 => at - 1,
            1 => 0,
            2 => random.below(at),
            _ => at - 1 - random.below(at.min(2)),
        };
        pairs.push(ordered(group[with], group[at]));
    }
    pairs
}

fn ordered(one: usize, other: usize) -> (usize, usize) {
    (one.min(other), one.max(other))
}

/// Chains, stars, trees and lone links.
pub fn forest(random: &mut Random, variables: usize) -> Pairs {
    let groups = groups(random, variables);
    groups.iter().flat_map(|group| joined(random, group)).collect()
}

/// A forest and one pair that closes a loop of three links or more, in any place; a
/// forest where there are less than three links.
pub fn near_forest(random: &mut Random, variables: usize) -> Pairs {
    let mut groups = groups(random, variables);
    if groups.iter().all(|group| group.len() < 3) {
        groups = vec![groups.concat()];
    }
    let mut pairs = Vec::new();
    let mut closing = Vec::new();
    for group in &groups {
        let tree = joined(random, group);
        let all = group.iter().flat_map(|&one| group.iter().map(move |&other| (one, other)));
        let apart = all.filter(|pair| pair.0 < pair.1 && !tree.contains(pair));
        closing.extend(apart);
        pairs.extend(tree);
    }
    if !closing.is_empty() {
        let pair = *random.pick(&closing);
        let at = random.below(pairs.len() + 1);
        pairs.insert(at, pair);
    }
    pairs
}
