//! What the programs `press` and `replay` print, and the call of change 3, fast reading.

use crate::case;
use crate::engine;
use crate::families::partner_bytes;
use crate::links;
use crate::plain_replay;
use crate::replay::{replay_file, Replay};
use crate::types::*;

pub fn refusal_text(refusal: Refusal) -> Vec<u8> {
    format!("refused {} {}\n", refusal.number, refusal.line).into_bytes()
}

/// A run of one of the engines from the weights that a case holds.
pub type Engine = fn(&Case, Rounds, u64) -> Run;

pub fn press_by(input: &[u8], engine: Engine, kind: Rounds, limit: u64) -> Vec<u8> {
    match case::read_alone(input) {
        Ok((case, used)) => press_text(engine(&case, kind, limit), used),
        Err(refusal) => refusal_text(refusal),
    }
}

/// The log of the rounds that stand, then the refusal if there is one.
pub fn press_text(run: Run, line: usize) -> Vec<u8> {
    let mut text = run.log;
    if let Stop::Refused(number) = run.stop {
        text.extend(refusal_text(Refusal { number, line }));
    }
    text
}

pub fn press(input: &[u8]) -> Vec<u8> {
    press_by(input, engine::run_case, Rounds::All, PROGRAM_ROUNDS)
}

/// The log of a run from a working table, then how it ended, rounds and ceiling.
pub fn run_table(input: &[u8], engine: Engine, kind: Rounds, limit: u64) -> Vec<u8> {
    let (table, _) = match case::read_table(input) {
        Ok(read) => read,
        Err(refusal) => return refusal_text(refusal),
    };
    let run = engine(&table, kind, limit);
    let stop = match run.stop {
        Stop::Settled => "settled".into(),
        Stop::Limit => "limit".into(),
        Stop::Void => "void".into(),
        Stop::Refused(number) => format!("refused {number}"),
    };
    let last = format!("{stop} {} {}\n", run.rounds, run.upper_bound);
    [run.log, last.into_bytes()].concat()
}

/// A reading of the call of change 3: case, link, family and partners.
pub type Show = fn(&Case, u64, &mut [u8], &mut [u8]) -> Result<usize, u8>;

/// A call that is lent so many bytes for family and partners, each of them 46; a negative
/// link stands for the greatest.
pub fn shown(show: Show, case: &Case, link: i64, lent: [usize; 2]) -> Shown {
    let [mut family, mut partners] = lent.map(|bytes| vec![b'.'; bytes]);
    let link = u64::try_from(link).unwrap_or(u64::MAX);
    let answer = show(case, link, &mut family, &mut partners);
    Shown { answer, family, partners }
}

/// The call's three lines.
pub fn shown_text(link: i64, shown: &Shown) -> String {
    let answer = match shown.answer {
        Ok(value) => format!("value {value}"),
        Err(number) => format!("refused {number}"),
    };
    let numbers = |bytes: &[u8]| -> String { bytes.iter().map(|b| format!(" {b}")).collect() };
    let [family, partners] = [&shown.family, &shown.partners].map(|bytes| numbers(bytes));
    format!("link {link} {answer}\nfamily{family}\npartners{partners}\n")
}

/// The bytes that family and partners take.
pub fn shown_bytes(case: &Case) -> [usize; 2] {
    [case.variables, partner_bytes(case)]
}

/// The call of a link on the weights of the case that was read.
pub fn family(read: Result<(Case, usize), Refusal>, show: Show, link: i64) -> Vec<u8> {
    match read {
        Ok((case, _)) => {
            let shown = shown(show, &case, link, shown_bytes(&case));
            shown_text(link, &shown).into_bytes()
        }
        Err(refusal) => refusal_text(refusal),
    }
}

/// What an accepted case and log say, or the refusal.
pub fn replay_answer(input: &[u8]) -> Result<Verdict, Refusal> {
    let (case, used) = case::read_front(input)?;
    let replay = replay_file(&case, &input[used * LINE_BYTES..], used)?;
    Ok(match replay.void {
        true => Verdict::Void,
        false => Verdict::Accepted(replay.rounds, replay.ceiling()),
    })
}

/// What became of the leaves and joins of an input.
pub fn link_figures(input: &[u8]) -> links::Figures {
    let Ok((case, used)) = case::read_front(input) else {
        return links::Figures::default();
    };
    let mut replay = Replay::new(&case);
    for bytes in input[used * LINE_BYTES..].chunks_exact(LINE_BYTES) {
        if replay.step(bytes).is_some() {
            break;
        }
    }
    replay.link_figures()
}

fn judgement(answer: Result<Verdict, Refusal>) -> Vec<u8> {
    match answer {
        Ok(Verdict::Accepted(rounds, bound)) => {
            format!("accepted {rounds} {bound}\n").into_bytes()
        }
        Ok(Verdict::Void) => b"void\n".to_vec(),
        Err(refusal) => refusal_text(refusal),
    }
}

pub fn replay(input: &[u8]) -> Vec<u8> {
    judgement(replay_answer(input))
}

/// The same by the plain replay.
pub fn plain_replay(input: &[u8]) -> Vec<u8> {
    judgement(plain_replay::answer(input))
}
