//! Reads a case file, lets the engine lower its ceiling, replays the log in blocks, and prints what the checker says, the first round's
//! lines, which of two simple plans is better, and what pair rounds alone come to.

use ceiling::{case_size, read_case, view, Case, End, Ending, Refused, Replay, Round, LINE, ROOM};
use std::io::Write;

const ROUNDS: u64 = 100_000;

fn main() {
    let path = std::env::args().nth(1).expect("the path of a case file");
    let text = std::fs::read(path).expect("a file that can be read");
    match example(&text) {
        Ok(printed) => std::io::stdout().write_all(&printed).expect("an output"),
        Err(refused) => println!("{refused}"),
    }
}

fn example(text: &[u8]) -> Result<Vec<u8>, Refused> {
    let (case, start) = read_case(text)?;
    let lines = text.len() / LINE;
    let later = |refused: Refused| Refused { line: refused.line + lines, ..refused };

    // The engine's rounds, one after another, and their lines joined; a void line is the last.
    let mut table = start.clone();
    let mut out = vec![0; ROOM];
    let mut log = Vec::new();
    for _ in 0..ROUNDS {
        match case.round(&mut table, &mut out).map_err(later)? {
            Round::Settled => break,
            Round::Made { bytes, .. } => log.extend_from_slice(&out[..bytes]),
            Round::Void { bytes } => {
                log.extend_from_slice(&out[..bytes]);
                break;
            }
        }
    }

    // The same in one run.
    let mut again = start.clone();
    let run = case.run(&mut again, &mut out, ROUNDS);
    assert!(!matches!(run.ending, Ending::Refused(_)) && again == table);

    // The replay of the log in blocks, on the starting weights.
    let mut table = start.clone();
    let mut replay = Replay::start(&case, &table).map_err(later)?;
    let mut passed = lines;
    for block in log.chunks(100 * LINE) {
        passed += replay.lines(&case, &mut table, block).map_err(|r| Refused { line: r.line + passed, ..r })?;
    }
    let end = replay.end(&case, log.len() % LINE).map_err(|r| Refused { line: passed, ..r })?;
    assert!((end == End::Void) == (run.ending == Ending::Void));
    let End::Accepted(rounds) = end else {
        return Ok(b"void\n".to_vec());
    };
    let ceiling = case.upper_bound(&table)?;
    assert!(rounds == run.rounds && ceiling == run.bound);

    let mut printed = format!("accepted {rounds} {ceiling}\n").into_bytes();
    if rounds > 0 {
        printed.extend_from_slice(view(&log, 0)?);
    }

    // Every link on channel 0, or the channels in turn.
    let size = case_size(text)?;
    let first = vec![0; size.n];
    let second: Vec<u8> = (0..size.n).map(|i| (i % size.d) as u8).collect();
    let better = case.better(&start, &first, &second)?;
    let choice = if std::ptr::eq(better.as_ptr(), first.as_ptr()) { 0 } else { 1 };
    let kept = total(&case, &start, better)?;
    printed.extend_from_slice(format!("plan {choice} {kept}\n").as_bytes());

    // Pair rounds only: the plan keeps its total, if it is lawful.
    let mut table = start.clone();
    let pairs = case.run_pairs(&mut table, &mut out, ROUNDS);
    assert!(!matches!(pairs.ending, Ending::Refused(_)) && total(&case, &table, better)? == kept);
    printed.extend_from_slice(format!("pairs {} {}\n", pairs.rounds, pairs.bound).as_bytes());
    Ok(printed)
}

/// A plan's total in words; an unlawful plan has none.
fn total(case: &Case, table: &[i64], plan: &[u8]) -> Result<String, Refused> {
    match case.objective(table, plan) {
        Err(Refused { number: 5, .. }) => Ok("unlawful".to_string()),
        other => other.map(|total| total.to_string()),
    }
}
