//! Which number occurred at which kind of line, in cases and in logs.

use crate::case;
use crate::line;
use crate::types::*;
use std::collections::BTreeMap;

#[derive(Default)]
pub struct Counts {
    seen: BTreeMap<(&'static str, u8, String), u64>,
    accepted: u64,
}

impl Counts {
    /// Notes a program's answer to its input.
    pub fn note_output(&mut self, input: &[u8], output: &[u8]) {
        match parse_refusal(output) {
            Some(refusal) => {
                let in_log = case::read_front(input).is_ok_and(|(_, used)| refusal.line >= used);
                let part = if in_log { "log" } else { "case" };
                self.note(part, refusal.number, label(input, refusal.line));
            }
            None => self.accepted += 1,
        }
    }

    /// Notes the answer to one line of a list.
    pub fn note_line(&mut self, number: u8, bytes: &[u8]) {
        self.note("list", number, kind_label(bytes));
    }

    pub fn note(&mut self, part: &'static str, number: u8, kind: String) {
        *self.seen.entry((part, number, kind)).or_default() += 1;
    }

    /// The numbers seen in one part, lowest first.
    pub fn numbers(&self, part: &str) -> Vec<u8> {
        let mut numbers: Vec<u8> = self
            .seen
            .keys()
            .filter(|key| key.0 == part)
            .map(|key| key.1)
            .collect();
        numbers.dedup();
        numbers
    }

    pub fn print(&self) {
        println!("answers without a refusal: {}", self.accepted);
        println!("{:<5} {:>6}  at kind: count", "part", "number");
        let mut row: Option<(&'static str, u8)> = None;
        let mut text = String::new();
        for ((part, number, kind), count) in &self.seen {
            if row != Some((part, *number)) {
                flush(&mut text);
                row = Some((part, *number));
                text = format!("{part:<5} {number:>6} ");
            }
            text.push_str(&format!(" {kind}: {count}"));
        }
        flush(&mut text);
    }
}

fn flush(text: &mut String) {
    if !text.is_empty() {
        println!("{text}");
    }
    text.clear();
}

pub fn parse_refusal(output: &[u8]) -> Option<Refusal> {
    let text = std::str::from_utf8(output).ok()?.strip_prefix("refused ")?;
    let (number, line) = text.trim_end().split_once(' ')?;
    Some(Refusal {
        number: number.parse().ok()?,
        line: line.parse().ok()?,
    })
}

fn label(input: &[u8], line: usize) -> String {
    let from = line * LINE_BYTES;
    match input.get(from..from + LINE_BYTES) {
        Some(bytes) => kind_label(bytes),
        None if from >= input.len() => "missing".into(),
        None => "part".into(),
    }
}

fn kind_label(bytes: &[u8]) -> String {
    match line::parse(bytes) {
        None => "bad".into(),
        Some(line) if matches!(line.kind, 1..=5 | 7 | 8 | 10..=15) => format!("k{}", line.kind),
        Some(_) => "other".into(),
    }
}
