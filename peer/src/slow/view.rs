//! The view of a round, by listing the log's lines first.

use super::line;
use crate::types::Refusal;

/// First and last line of the round's stretch.
pub fn view(log: &[u8], round: u64) -> Result<(usize, usize), Refusal> {
    let pieces = line::cut(log);
    let good = pieces
        .iter()
        .take_while(|piece| line::parse(piece).is_some())
        .count();
    let bounds: Vec<usize> = (0..good)
        .filter(|&at| line::parse(pieces[at]).is_some_and(|line| line.kind == 4))
        .collect();
    if let Some(&last) = bounds.get(round.min(usize::MAX as u64) as usize) {
        let first = if round == 0 {
            0
        } else {
            bounds[round as usize - 1] + 1
        };
        return Ok((first, last));
    }
    let number = match pieces.get(good) {
        None => 5,
        Some(piece) if piece.len() < 27 => 14,
        Some(_) => 1,
    };
    Err(Refusal { number, line: good })
}
