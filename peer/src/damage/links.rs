//! Damage to leaves and joins: put in, moved, with other numbers, shorter or longer.

use super::file::*;
use super::numbers::other_number;
use crate::line;
use crate::random::Random;
use crate::types::*;

pub fn bad_links(random: &mut Random, file: &mut Vec<u8>) {
    match random.below(8) {
        0 => insert_leave(random, file),
        1 => insert_join(random, file),
        2 | 3 => change_leave(random, file),
        4 | 5 => change_count(random, file),
        6 => inside_join(random, file),
        _ => cut_join(random, file),
    }
}

/// A place in the log, or behind it.
fn place(random: &mut Random, file: &[u8]) -> usize {
    let start = log_start(file);
    start + random.below(lines(file) - start + 1)
}

fn insert_leave(random: &mut Random, file: &mut Vec<u8>) {
    let at = place(random, file);
    let mut text = Vec::new();
    line::write(&mut text, 7, random.between(-1, 4), 0, 0, 0);
    insert(file, at, &text);
}

/// A join of a link without pairs, or its first line.
fn insert_join(random: &mut Random, file: &mut Vec<u8>) {
    let at = place(random, file);
    let (link, values) = (random.between(0, 5), random.between(0, 3));
    let mut text = Vec::new();
    line::write(&mut text, 8, random.between(-1, 2) / 2, 0, 0, 0);
    for value in 0..values {
        line::write(&mut text, 11, link, value, 0, random.between(-2, 2));
    }
    insert(file, at, &text);
}

fn change_leave(random: &mut Random, file: &mut Vec<u8>) {
    let Some(at) = one_of_kind(random, file, 7) else {
        return;
    };
    let Some(line) = get(file, at) else { return };
    let text = bytes_of(file, at).to_vec();
    match random.below(5) {
        0 => remove(file, at),
        1 => insert(file, at, &text),
        2 => set(file, at, Line { b: 1, ..line }),
        3 => set(file, at, Line { a: other_number(random, line.a), ..line }),
        _ => set(file, at, Line { a: line.a + random.between(-1, 1), ..line }),
    }
}

fn change_count(random: &mut Random, file: &mut [u8]) {
    let Some(at) = one_of_kind(random, file, 8) else {
        return;
    };
    let Some(line) = get(file, at) else { return };
    let other = match random.below(4) {
        0 => Line { b: 1, ..line },
        1 => Line { amount: -1, ..line },
        2 => Line { a: other_number(random, line.a), ..line },
        _ => Line { a: line.a + random.between(-1, 1), ..line },
    };
    set(file, at, other);
}

/// A line of a join lost, doubled, or one of another kind before it.
fn inside_join(random: &mut Random, file: &mut Vec<u8>) {
    let Some(at) = one_of_kind(random, file, 8) else {
        return;
    };
    let at = (at + random.below(12)).min(lines(file) - 1);
    let mut text = bytes_of(file, at).to_vec();
    if random.chance(1, 2) {
        text.clear();
        line::write(&mut text, *random.pick(&[1, 2, 3, 4, 5, 7, 8, 12, 14, 15]), 0, 0, 0, 0);
    }
    match random.chance(1, 3) {
        true => remove(file, at),
        false => insert(file, at, &text),
    }
}

fn cut_join(random: &mut Random, file: &mut Vec<u8>) {
    if let Some(at) = one_of_kind(random, file, 8) {
        let to = (at + random.below(14)) * LINE_BYTES + random.below(2);
        file.truncate(to);
    }
}
