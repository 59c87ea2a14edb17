//! Inputs for a program of the calls of change 3, and what it must print: tables handed
//! over as to the engine's program, and on each of them calls for several links.

use crate::calls::{fill, spoilt_case, Batch};
use crate::engine::run_case;
use crate::generate::{any_case, any_table_for, border_for, loose_for};
use crate::inputs::{random_for, sized_case, small_case};
use crate::programs::{shown, shown_bytes, shown_text, Show};
use crate::random::Random;
use crate::replay::Replay;
use crate::types::*;
use crate::{families, family_samples, foreign, lent, line, slow};

/// Batches are numbered apart from the other programs' inputs.
const FIRST: u64 = 1 << 42;

/// What is lent at most, family and partners.
const MOST_LENT: [usize; 2] = [64, 1600];

/// Most links asked for on one table.
const MOST_LINKS: usize = 8;

/// Tables up to this length are asked of the slow mode now and then.
const SLOW_CALL: usize = 60;

/// Larger tables than this are run to the end less often.
const WHOLE_RUN: usize = 250;

fn print(batch: &mut Batch, case: &Case, link: i64, lent: [usize; 2], shown: &Shown) {
    line::write(&mut batch.input, 20, link, lent[0] as i64, lent[1] as i64, 0);
    batch.output.extend(shown_text(link, shown).into_bytes());
    let figures = &mut batch.figures;
    figures.calls += 1;
    match shown.answer {
        Ok(_) => figures.found += 1,
        Err(_) if is_last(case, link, lent) => figures.none += 1,
        Err(_) => figures.refused += 1,
    }
}

/// Nothing but the last 5 can refuse the call.
pub fn is_last(case: &Case, link: i64, lent: [usize; 2]) -> bool {
    let short = lent.iter().zip(shown_bytes(case)).any(|(&lent, needed)| lent < needed);
    let outside = !(0..case.variables as i64).contains(&link);
    lent::refusal(case, short, outside).is_none()
}

/// The calls made by hand, in as many batches as they take.
pub fn samples() -> Vec<Batch> {
    let mut batches = vec![Batch::default()];
    for sample in family_samples::all() {
        let mut next = Batch::default();
        next.hand_over(sample.name, &sample.case);
        for (link, lent, shown) in sample.calls() {
            print(&mut next, &sample.case, link, lent, &shown);
        }
        match batches.last_mut() {
            Some(last) if last.has_room(&next) => last.join(next),
            _ => batches.push(next),
        }
    }
    batches
}

/// Batch number `index` of a seed.
pub fn batch(seed: u64, index: u64) -> Batch {
    fill(&mut random_for(seed, FIRST + index), index, one_table)
}

fn one_table(random: &mut Random, name: &str) -> Batch {
    let case = match random.below(10) {
        0 => spoilt_case(random),
        _ => some_table(random),
    };
    let mut batch = Batch::default();
    batch.hand_over(name, &case);
    let show = some_reading(random, &case);
    for link in some_links(random, &case) {
        let lent = some_lengths(random, &case);
        let shown = shown(show, &case, link, lent);
        print(&mut batch, &case, link, lent, &shown);
    }
    batch
}

fn some_reading(random: &mut Random, case: &Case) -> Show {
    match random.below(8) {
        0 if case.weights.len() <= SLOW_CALL => slow::families::show,
        _ => families::show,
    }
}

/// A table as it stands, or what rounds of the engine or a foreign log leave of it.
pub fn some_table(random: &mut Random) -> Case {
    let case = match random.below(4) {
        0 => sized_case(random),
        1 => any_case(random, 12, 8, 20),
        _ => small_case(random),
    };
    let table = match random.below(6) {
        0 => border_for(random, &case),
        1 => any_table_for(random, &case),
        2 | 3 => loose_for(random, &case),
        _ => case,
    };
    let weights = match random.below(5) {
        0 => return table,
        1 => foreign_weights(random, &table),
        2 => run_case(&table, Rounds::All, random.below(40) as u64).weights,
        _ if table.weights.len() <= WHOLE_RUN || random.chance(1, 2) => {
            run_case(&table, Rounds::All, PROGRAM_ROUNDS).weights
        }
        _ => return table,
    };
    Case { weights, ..table }
}

/// The weights after a foreign log, up to its first refused line.
fn foreign_weights(random: &mut Random, table: &Case) -> Vec<i32> {
    let careless = random.chance(1, 2);
    let log = foreign::log(random, table, careless);
    let mut replay = Replay::new(table);
    for bytes in log.chunks(LINE_BYTES) {
        replay.step(bytes);
    }
    replay.state.weights()
}

/// All links of a small case, some of a larger one, now and then one that is none.
fn some_links(random: &mut Random, case: &Case) -> Vec<i64> {
    let mut links: Vec<i64> = (0..case.variables as i64).collect();
    if links.len() > MOST_LINKS {
        random.shuffle(&mut links);
        links.truncate(MOST_LINKS);
    }
    if random.chance(1, 4) || links.is_empty() {
        let n = case.variables as i64;
        links.push(*random.pick(&[n, n + 1, 47, 48, 63, 64, 9999, -1, -999]));
    }
    links
}

/// Mostly what is needed, sometimes a byte less, none, or more than enough.
pub fn some_lengths(random: &mut Random, case: &Case) -> [usize; 2] {
    let needed = shown_bytes(case);
    let mut next = |at: usize| {
        let (needed, most) = (needed[at], MOST_LENT[at]);
        match random.below(30) {
            0 => random.below(needed),
            1 => needed.saturating_sub(1),
            2 => needed + 1,
            3 | 4 => needed + random.below(most - needed + 1),
            _ => needed,
        }
    };
    [next(0), next(1)]
}
