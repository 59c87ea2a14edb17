//! Damages inputs (a case, a log, or both) in ways that reach every number.

mod bytes;
mod file;
mod links;
mod numbers;

use crate::joins;
use crate::random::Random;
use bytes::*;
use links::bad_links;
use numbers::*;

/// One to three damages, one after another.
pub fn damage(random: &mut Random, input: &[u8]) -> Vec<u8> {
    let mut file = input.to_vec();
    for _ in 0..*random.pick(&[1, 1, 1, 2, 3]) {
        once(random, &mut file);
    }
    file
}

fn once(random: &mut Random, file: &mut Vec<u8>) {
    let ways = if joins::allowed() { 28 } else { 24 };
    match random.below(ways) {
        0 => change_byte(random, file),
        1 => insert_or_delete_byte(random, file),
        2 | 3 => cut_short(random, file),
        4 => append(random, file),
        5 => bad_column(random, file),
        6 | 7 => move_lines(random, file),
        8 => line_ends(random, file),
        9..=12 => change_number(random, file),
        13 => change_kind(random, file),
        14 => bad_edge(random, file),
        15 => bad_head(random, file),
        16 | 17 => bad_press(random, file),
        18 => insert_move(random, file),
        19 => bad_weight(random, file),
        20 => same_edge(random, file),
        21 | 22 => bad_bar(random, file),
        23 => wrong_bound(random, file),
        _ => bad_links(random, file),
    }
}
