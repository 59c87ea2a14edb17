//! What the two programs print, by the slow reading.

use super::case;
use super::engine;
use super::line;
use super::replay::PlainReplay;
use crate::types::{Refusal, Rounds, Run, Stop};

fn refused(refusal: Refusal) -> String {
    format!("refused {} {}\n", refusal.number, refusal.line)
}

pub fn press(input: &[u8]) -> Vec<u8> {
    press_rounds(input, Rounds::All, 100_000)
}

pub fn press_rounds(input: &[u8], kind: Rounds, limit: u64) -> Vec<u8> {
    match case::read_alone(input) {
        Ok((case, used)) => press_text(engine::run(&case, kind, limit), used),
        Err(refusal) => refused(refusal).into_bytes(),
    }
}

/// The log of the rounds that stand, then the refusal if there is one.
pub fn press_text(run: Run, line: usize) -> Vec<u8> {
    let last = match run.stop {
        Stop::Refused(number) => refused(Refusal { number, line }),
        _ => String::new(),
    };
    [run.log, last.into_bytes()].concat()
}

pub fn replay(input: &[u8]) -> Vec<u8> {
    replay_text(input).unwrap_or_else(refused).into_bytes()
}

fn replay_text(input: &[u8]) -> Result<String, Refusal> {
    let (case, used) = case::read_front(input)?;
    let mut replay = PlainReplay::new(&case);
    let pieces = line::cut(input);
    for (line, piece) in pieces.iter().enumerate().skip(used) {
        let answer = if piece.len() < 27 {
            Some(14)
        } else {
            replay.feed(piece)
        };
        if let Some(number) = answer {
            return Err(Refusal { number, line });
        }
    }
    if let Some(number) = replay.end() {
        return Err(Refusal {
            number,
            line: pieces.len(),
        });
    }
    if replay.void {
        return Ok("void\n".into());
    }
    Ok(format!(
        "accepted {} {}\n",
        replay.rounds,
        replay.ceiling()
    ))
}
