//! Damage to numbers in good columns: places, ranges, moves and bound lines.

use super::file::*;
use crate::joins;
use crate::line;
use crate::random::Random;
use crate::types::*;

/// A number near the old one, at an end of a range, or just past it.
pub fn other_number(random: &mut Random, old: i64) -> i64 {
    const ENDS: [i64; 28] = [
        0,
        1,
        2,
        7,
        8,
        9,
        47,
        48,
        49,
        95,
        96,
        97,
        143,
        144,
        145,
        999_999,
        1_000_000,
        1_000_001,
        500_000_000,
        500_000_001,
        999_999_999,
        1_000_000_000,
        1_000_000_001,
        2_000_000_000,
        2_000_000_000,
        99_999_999_999,
        999_999_999_999,
        3,
    ];
    match random.below(5) {
        0 => old + 1,
        1 => old - 1,
        2 => -old,
        3 => old + random.between(-10, 10),
        _ => {
            let end = *random.pick(&ENDS);
            if random.chance(1, 3) {
                -end
            } else {
                end
            }
        }
    }
}

pub fn change_number(random: &mut Random, file: &mut [u8]) {
    let Some(at) = any_line(random, file) else {
        return;
    };
    let Some(mut line) = get(file, at) else {
        return;
    };
    let field = match random.below(5) {
        0 => &mut line.a,
        1 => &mut line.b,
        2 => &mut line.c,
        _ => &mut line.amount,
    };
    *field = other_number(random, *field);
    set(file, at, line);
}

pub fn change_kind(random: &mut Random, file: &mut [u8]) {
    let Some(at) = any_line(random, file) else {
        return;
    };
    let Some(mut line) = get(file, at) else {
        return;
    };
    let mut kinds = vec![-1, 0, 1, 2, 3, 4, 5, 6, 9, 10, 11, 12, 13, 14, 15, 16, 99];
    if joins::allowed() {
        kinds.extend([7, 8]);
    }
    line.kind = *random.pick(&kinds);
    if random.chance(1, 2) {
        (line.a, line.b, line.c, line.amount) = (0, 0, 0, 0);
    }
    set(file, at, line);
}

pub fn bad_edge(random: &mut Random, file: &mut [u8]) {
    let Some(at) = one_of_kind(random, file, 12) else {
        return;
    };
    let Some(mut line) = get(file, at) else {
        return;
    };
    match random.below(5) {
        0 => (line.b, line.c) = (line.c, line.b),
        1 => line.c = line.b,
        2 => line.b = line.c,
        3 => {
            let other = one_of_kind(random, file, 12).and_then(|other| get(file, other));
            let other = other.unwrap_or(line);
            (line.b, line.c) = (other.b, other.c);
        }
        _ => line.c = other_number(random, line.c),
    }
    set(file, at, line);
}

/// Two pairs of the same links.
pub fn same_edge(random: &mut Random, file: &mut [u8]) {
    let edges = of_kind(file, 12);
    if edges.len() < 2 {
        return;
    }
    let later = 1 + random.below(edges.len() - 1);
    let earlier = random.below(later);
    let (Some(first), Some(second)) = (get(file, edges[earlier]), get(file, edges[later])) else {
        return;
    };
    set(
        file,
        edges[later],
        Line {
            b: first.b,
            c: first.c,
            ..second
        },
    );
}

/// A weight at or just past an end of the starting range, or far outside.
pub fn bad_weight(random: &mut Random, file: &mut [u8]) {
    let kind = *random.pick(&[11, 13]);
    let Some(at) = one_of_kind(random, file, kind) else {
        return;
    };
    let Some(line) = get(file, at) else { return };
    let sizes = [1_000_000, 1_000_001, 1_000_001, 500_000_001, 2_000_000_000, 99_999_999_999];
    let size = *random.pick(&sizes);
    let amount = if random.chance(1, 2) { size } else { -size };
    set(file, at, Line { amount, ..line });
}

pub fn bad_head(random: &mut Random, file: &mut [u8]) {
    let Some(mut line) = get(file, 0) else { return };
    match random.below(5) {
        0 => line.a = *random.pick(&[0, -1, 1, 48, 49, 9999]),
        1 => line.b = *random.pick(&[0, -1, 1, 8, 9, 9999]),
        2 => line.c = *random.pick(&[0, -1, 96, 97, 9999]),
        3 => line.amount = *random.pick(&[1, -1]),
        _ => line.a += random.between(-1, 1),
    }
    set(file, 0, line);
}

/// Barred places: one more, one less, a whole scope, or with an amount.
pub fn bad_bar(random: &mut Random, file: &mut [u8]) {
    let (weight, barred) = *random.pick(&[(11, 14), (13, 15)]);
    let kind = if random.chance(1, 3) { barred } else { weight };
    let Some(at) = one_of_kind(random, file, kind) else {
        return;
    };
    let Some(line) = get(file, at) else { return };
    let other = match random.below(6) {
        0 => Line { kind: barred, ..line },
        1 => Line { kind: weight, amount: *random.pick(&[0, 1, -1, -2_000_000_000]), ..line },
        2 => Line { kind: barred, amount: *random.pick(&[1, -1, -2_000_000_000]), ..line },
        3 => Line { kind: 29 - kind, ..line },
        4 => return bar_scope(file, line, [weight, barred]),
        _ => Line { kind: barred, amount: 0, ..line },
    };
    set(file, at, other);
}

/// Bars all places of the line's scope.
fn bar_scope(file: &mut [u8], line: Line, kinds: [i64; 2]) {
    for at in 0..lines(file) {
        let Some(other) = get(file, at) else { continue };
        if kinds.contains(&other.kind) && other.a == line.a {
            set(file, at, Line { kind: kinds[1], amount: 0, ..other });
        }
    }
}

/// Press, void and raise lines made wrong: order, own scope, one scope fewer, amount.
pub fn bad_press(random: &mut Random, file: &mut Vec<u8>) {
    let kinds = if random.chance(1, 2) { [2, 5] } else { [5, 2] };
    let found = kinds.iter().find_map(|&kind| one_of_kind(random, file, kind));
    let Some(at) = found else {
        return;
    };
    let Some(mut press) = get(file, at) else {
        return;
    };
    let count = press.b.clamp(0, 144) as usize;
    let raise = at + 1 + random.below(count.max(1));
    let Some(mut raised) = get(file, raise) else {
        return;
    };
    match random.below(9) {
        8 => (press.kind, press.amount) = (7 - press.kind, i64::from(press.kind == 5)),
        0 => {
            press.b -= 1;
            remove(file, raise);
        }
        1 => press.b += random.between(-1, 1),
        2 => press.amount = other_number(random, press.amount),
        3 => press.a = random.between(0, 3),
        4 => raised.a = press.a,
        5 => raised.a = get(file, raise.saturating_sub(1)).map_or(0, |line| line.a),
        6 => raised.a = other_number(random, raised.a),
        _ => press.amount += random.between(1, 3),
    }
    if raise < lines(file) && get(file, raise).is_some_and(|line| line.kind == 3) {
        set(file, raise, raised);
    }
    set(file, at, press);
}

/// A shift, a press begun or a bound line put into the log.
pub fn insert_move(random: &mut Random, file: &mut Vec<u8>) {
    let start = log_start(file);
    let at = start + random.below(lines(file) - start + 1);
    let sizes = [
        1,
        2,
        1000,
        499_000_000,
        500_000_000,
        501_000_000,
        1_000_000_000,
        1_000_000_001,
    ];
    let size = *random.pick(&sizes);
    let amount = if random.chance(1, 2) { size } else { -size };
    let mut text = Vec::new();
    match random.below(5) {
        0 => line::write(&mut text, 4, 0, 0, 0, random.between(-5, 5)),
        2 => {
            let (link, count) = (random.between(0, 2), random.between(0, 4));
            line::write(&mut text, 5, link, count, 0, 0);
        }
        1 => line::write(
            &mut text,
            2,
            random.between(0, 2),
            random.between(0, 4),
            0,
            1,
        ),
        _ => {
            let (edge, end, value) = (
                random.between(0, 2),
                random.between(0, 2),
                random.between(0, 2),
            );
            line::write(&mut text, 1, edge, end, value, amount);
        }
    }
    insert(file, at, &text);
}

pub fn wrong_bound(random: &mut Random, file: &mut Vec<u8>) {
    let Some(at) = one_of_kind(random, file, 4) else {
        return;
    };
    let Some(mut line) = get(file, at) else {
        return;
    };
    match random.below(4) {
        0 => line.amount += random.between(-2, 2),
        1 => line.amount = other_number(random, line.amount),
        2 => line.a = 1,
        _ => {
            let text = bytes_of(file, at).to_vec();
            return insert(file, at, &text);
        }
    }
    set(file, at, line);
}
