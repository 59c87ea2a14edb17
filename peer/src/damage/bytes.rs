//! Damage to bytes, columns and the order of lines.

use super::file::*;
use crate::line;
use crate::random::Random;
use crate::types::*;

pub fn change_byte(random: &mut Random, file: &mut [u8]) {
    if file.is_empty() {
        return;
    }
    let at = random.below(file.len());
    file[at] = if random.chance(1, 3) {
        random.next() as u8
    } else {
        *random.pick(b" -+0123456789\n\r\t.")
    };
}

pub fn insert_or_delete_byte(random: &mut Random, file: &mut Vec<u8>) {
    if random.chance(1, 2) || file.is_empty() {
        let at = random.below(file.len() + 1);
        file.insert(at, *random.pick(b" 0\n\r-"));
    } else {
        file.remove(random.below(file.len()));
    }
}

pub fn cut_short(random: &mut Random, file: &mut Vec<u8>) {
    let length = match random.below(4) {
        0 => random.below(file.len() + 1),
        1 => random.below(lines(file) + 1) * LINE_BYTES,
        2 => file.len().saturating_sub(1 + random.below(30)),
        _ => {
            let back = 1 + random.below(4);
            lines(file).saturating_sub(back) * LINE_BYTES
        }
    };
    file.truncate(length);
}

pub fn append(random: &mut Random, file: &mut Vec<u8>) {
    match random.below(5) {
        0 => file.push(b'\n'),
        1 => file.extend(std::iter::repeat_n(b' ', 1 + random.below(60))),
        2 => {
            let line = any_line(random, file).map(|at| bytes_of(file, at).to_vec());
            file.extend(line.unwrap_or_default());
        }
        3 => {
            let line = Line {
                kind: random.between(-1, 16),
                a: 0,
                b: 0,
                c: 0,
                amount: 0,
            };
            line::write_line(file, line);
        }
        _ => {
            let again = file.clone();
            file.extend(again);
        }
    }
}

const COLUMNS: [(usize, usize); 5] = [(0, 2), (2, 6), (6, 10), (10, 14), (14, 26)];

/// Column faults: left-justified, leading zero, −0, plus, blank, split.
pub fn bad_column(random: &mut Random, file: &mut [u8]) {
    let Some(at) = any_line(random, file) else {
        return;
    };
    let (from, to) = *random.pick(&COLUMNS);
    let column = &mut file[at * LINE_BYTES + from..at * LINE_BYTES + to];
    let width = column.len();
    let text = String::from_utf8_lossy(column).trim().to_string();
    let bad = match random.below(8) {
        0 => format!("{text:<width$}"),
        1 => format!("{:>width$}", format!("0{text}")),
        2 => format!("{:>width$}", "-0"),
        3 => format!("{:>width$}", format!("+{text}")),
        4 => " ".repeat(width),
        5 => format!("{:>width$}", format!("{text} ")),
        6 => format!("-{text:>rest$}", rest = width - 1),
        _ => format!("{:>width$}", "-"),
    };
    column.copy_from_slice(&bad.as_bytes()[..width]);
}

pub fn move_lines(random: &mut Random, file: &mut Vec<u8>) {
    let Some(at) = any_line(random, file) else {
        return;
    };
    let text = bytes_of(file, at).to_vec();
    match random.below(4) {
        0 => remove(file, at),
        1 => insert(file, at, &text),
        2 => {
            remove(file, at);
            insert(file, at + 1, &text);
        }
        _ => {
            remove(file, at);
            let to = random.below(lines(file) + 1);
            insert(file, to, &text);
        }
    }
}

pub fn line_ends(random: &mut Random, file: &mut Vec<u8>) {
    match random.below(3) {
        0 => {
            *file = file
                .iter()
                .flat_map(|&b| if b == 10 { vec![13, 10] } else { vec![b] })
                .collect()
        }
        1 => file.retain(|&byte| byte != 10),
        _ => {
            let Some(at) = any_line(random, file) else {
                return;
            };
            file[at * LINE_BYTES + 26] = *random.pick(b" \r0");
        }
    }
}
