//! The view of one round: the stretch of the log itself.

use crate::line;
use crate::types::{Refusal, LINE_BYTES};

/// From the line after the bound line before through the round's own bound line.
/// Lines past that one are not read.
pub fn view(log: &[u8], round: u64) -> Result<&[u8], Refusal> {
    let chunks = log.chunks_exact(LINE_BYTES);
    let tail = chunks.remainder();
    let mut from = 0;
    let mut bounds = 0;
    let mut at = 0;
    for bytes in chunks {
        let Some(line) = line::parse(bytes) else {
            return Err(Refusal {
                number: 1,
                line: at,
            });
        };
        at += 1;
        if line.kind != 4 {
            continue;
        }
        if bounds == round {
            return Ok(&log[from * LINE_BYTES..at * LINE_BYTES]);
        }
        bounds += 1;
        from = at;
    }
    let number = if tail.is_empty() { 5 } else { 14 };
    Err(Refusal { number, line: at })
}
