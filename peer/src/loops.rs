//! Document 02's change 4: whether the pairs form no loop, by two readings that share
//! nothing.

use crate::types::Case;

/// What both readings say.
pub fn no_loop_both_ways(case: &Case) -> [bool; 2] {
    [all_taken(case), no_way_round(case)]
}

/// No loop; the readings must agree.
pub fn no_loop(case: &Case) -> bool {
    let [taken, searched] = no_loop_both_ways(case);
    assert_eq!(taken, searched, "the two readings of a loop differ: {:?}", case.edges);
    taken
}

/// Links with one pair or none are taken away, that pair too, until there is no such link;
/// a link is left exactly if there is a loop.
fn all_taken(case: &Case) -> bool {
    let mut links: Vec<usize> = (0..case.variables).collect();
    let mut pairs = case.edges.clone();
    while let Some(at) = links.iter().position(|&link| count_of(&pairs, link) <= 1) {
        let link = links.swap_remove(at);
        pairs.retain(|&(lower, higher)| lower != link && higher != link);
    }
    links.is_empty()
}

fn count_of(pairs: &[(usize, usize)], link: usize) -> usize {
    let meets = |pair: &&(usize, usize)| pair.0 == link || pair.1 == link;
    pairs.iter().filter(meets).count()
}

/// From one end of a pair its other end cannot be reached over the other pairs.
fn no_way_round(case: &Case) -> bool {
    (0..case.edges.len()).all(|edge| {
        let mut others = case.edges.clone();
        let (lower, higher) = others.remove(edge);
        !reaches(&others, lower, higher)
    })
}

fn reaches(pairs: &[(usize, usize)], from: usize, to: usize) -> bool {
    let mut reached = vec![from];
    let mut at = 0;
    while at < reached.len() {
        let here = reached[at];
        for &(lower, higher) in pairs {
            let next = match here {
                _ if here == lower => higher,
                _ if here == higher => lower,
                _ => continue,
            };
            if !reached.contains(&next) {
                reached.push(next);
            }
        }
        at += 1;
    }
    reached.contains(&to)
}
