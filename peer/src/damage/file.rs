//! A file as lines that can be found, changed, put in and taken out.

use crate::joins;
use crate::line;
use crate::random::Random;
use crate::types::*;

pub fn lines(file: &[u8]) -> usize {
    file.len() / LINE_BYTES
}

pub fn bytes_of(file: &[u8], at: usize) -> &[u8] {
    &file[at * LINE_BYTES..(at + 1) * LINE_BYTES]
}

pub fn get(file: &[u8], at: usize) -> Option<Line> {
    if at >= lines(file) {
        return None;
    }
    line::parse(bytes_of(file, at))
}

/// Puts a line in another's place, if its numbers fit their columns.
pub fn set(file: &mut [u8], at: usize, line: Line) {
    if line::fits(line) {
        let mut text = Vec::new();
        line::write_line(&mut text, line);
        file[at * LINE_BYTES..(at + 1) * LINE_BYTES].copy_from_slice(&text);
    }
}

pub fn insert(file: &mut Vec<u8>, at: usize, text: &[u8]) {
    let from = (at * LINE_BYTES).min(file.len());
    file.splice(from..from, text.iter().copied());
}

pub fn remove(file: &mut Vec<u8>, at: usize) {
    file.drain(at * LINE_BYTES..(at + 1) * LINE_BYTES);
}

/// All lines of one kind.
pub fn of_kind(file: &[u8], kind: i64) -> Vec<usize> {
    (0..lines(file))
        .filter(|&at| get(file, at).is_some_and(|line| line.kind == kind))
        .collect()
}

/// A line of a kind picked first, so that rare kinds come up as often as others.
pub fn any_line(random: &mut Random, file: &[u8]) -> Option<usize> {
    let mut kinds = vec![1, 2, 3, 4, 5, 10, 11, 12, 13, 14, 15];
    if joins::allowed() {
        kinds.extend([7, 8]);
    }
    random.shuffle(&mut kinds);
    for kind in kinds {
        let found = of_kind(file, kind);
        if !found.is_empty() {
            return Some(*random.pick(&found));
        }
    }
    None
}

pub fn one_of_kind(random: &mut Random, file: &[u8], kind: i64) -> Option<usize> {
    let found = of_kind(file, kind);
    (!found.is_empty()).then(|| *random.pick(&found))
}

/// The first line of the log in the input, or past the end.
pub fn log_start(file: &[u8]) -> usize {
    let kinds = 1..=if joins::allowed() { 8 } else { 5 };
    let is_log = |&at: &usize| get(file, at).is_some_and(|line| kinds.contains(&line.kind));
    (0..lines(file)).find(is_log).unwrap_or(lines(file))
}
