//! The fast reading against the slow one on small cases, with the statements of
//! demand 3 checked by listing every assignment.

mod barred;
pub mod chains;
pub mod every;
mod families;
mod links;
mod lists;
mod outputs;
mod pairs;
mod runs;
mod tables;

use crate::counts::Counts;
use crate::damage::damage;
use crate::inputs::{input_for, random_for, sized_case, small_case, some_log, Program};
use crate::generate::{any_table_for, border_for, loose_for};
use crate::random::Random;
use crate::refute;
use crate::replay::Replay;
use crate::scopes::Scopes;
use crate::slow::figures;
use crate::slow::replay::PlainReplay;
use crate::state::State;
use crate::types::*;
use crate::{calls, case, engine, family_calls, foreign, line, plain, programs, score, slow, view};

/// One of so many cases is of any size, the others small.
const LARGE_EVERY: u64 = 40;

/// One of so many cases comes with a batch of calls.
const CALLS_EVERY: u64 = 100;

/// Tables up to this length are run to the end by the slow mode too.
const WHOLE_RUN: usize = 250;

/// Statements about every plan are checked where there are no more plans than this.
const MOST_PLANS: usize = 5000;

/// A difference: what was compared, and the input to keep.
pub struct Difference {
    pub what: String,
    pub input: Vec<u8>,
}

/// Comparisons made, by subject.
#[derive(Default, Clone, Copy)]
pub struct Figures {
    pub cases: u64,
    pub large: u64,
    pub refutations: u64,
    pub runs: u64,
    pub lines: u64,
    pub lists: u64,
    /// Rounds made in which the ceiling rose before it fell; no comparisons.
    pub climbs: u64,
    /// Lists that ended with a void line.
    pub voids: u64,
    /// Cases with barred combinations, and those of them without a lawful plan.
    pub barred: u64,
    pub unlawful: u64,
    pub programs: u64,
    pub others: u64,
    pub pairs: pairs::PairFigures,
    pub families: families::FamilyFigures,
    pub chains: chains::ChainFigures,
    pub links: links::LinkFigures,
}

impl Figures {
    pub fn comparisons(&self) -> u64 {
        let logs = self.lines + self.lists + self.programs;
        let chains = self.chains.graphs + self.chains.quiet + self.chains.larger;
        self.refutations + self.runs + logs + self.others + self.families.calls + chains
    }
}

pub struct Check {
    pub figures: Figures,
    pub counts: Counts,
}

fn same<T: PartialEq + std::fmt::Debug>(
    what: &str,
    fast: &T,
    slow: &T,
    input: &[u8],
) -> Result<(), Difference> {
    if fast == slow {
        return Ok(());
    }
    let mut text = format!("{what}: fast {fast:?}, slow {slow:?}");
    text.truncate(2000);
    Err(Difference {
        what: text,
        input: input.to_vec(),
    })
}

fn holds(what: &str, statement: bool, input: &[u8]) -> Result<(), Difference> {
    if statement {
        return Ok(());
    }
    Err(Difference {
        what: what.into(),
        input: input.to_vec(),
    })
}

fn narrow(weights: &[i64]) -> Vec<i32> {
    weights.iter().map(|&weight| weight as i32).collect()
}

impl Check {
    pub fn new() -> Check {
        Check {
            figures: Figures::default(),
            counts: Counts::default(),
        }
    }

    /// Everything about case number `index` of a seed.
    pub fn one(&mut self, seed: u64, index: u64) -> Result<(), Difference> {
        let mut random = random_for(seed, index);
        if index % LARGE_EVERY == LARGE_EVERY - 1 {
            return self.large(&mut random);
        }
        let case = small_case(&mut random);
        self.figures.barred += u64::from(case.has_barred());
        self.figures.unlawful += u64::from(!has_lawful(&case));
        self.files(&case)?;
        self.totals(&case)?;
        self.refutation(&mut random, &case)?;
        self.runs(&mut random, &case)?;
        for _ in 0..4 {
            let log = some_log(&mut random, &case);
            self.logs(&mut random, &case, &log)?;
        }
        self.other_start(&mut random, &case)?;
        self.careful(&mut random, &case)?;
        for _ in 0..8 {
            self.programs(&mut random, &case)?;
        }
        self.scores(&mut random, &case)?;
        self.columns(&mut random)?;
        self.families(&mut random, &case)?;
        self.chains(&mut random)?;
        self.links(&mut random)?;
        if index % CALLS_EVERY == 0 {
            self.calls(seed, index)?;
        }
        self.figures.cases += 1;
        Ok(())
    }

    /// A case of any size, where plans cannot be listed nor families tried: some
    /// rounds from the start and from other tables, and logs of the first few rounds.
    fn large(&mut self, random: &mut Random) -> Result<(), Difference> {
        let case = sized_case(random);
        self.files(&case)?;
        let middling = case.weights.len() <= WHOLE_RUN;
        let limit = if middling {
            PROGRAM_ROUNDS
        } else {
            1 + random.below(2) as u64
        };
        self.run_of_all(&case, Rounds::All, limit)?;
        self.run_of_all(&case, Rounds::Pairs, limit)?;
        let most = self.whole_run(&case)?.rounds as usize;
        let made = random.below(most + 1) as u64;
        let weights = engine::run_case(&case, Rounds::All, made).weights;
        let later = Case { weights, ..case.clone() };
        self.run_of_all(&later, Rounds::All, 1)?;
        let table = border_for(random, &case);
        self.run_of_all(&table, Rounds::Pairs, limit)?;
        self.run_of_all(&table, Rounds::All, limit)?;
        self.against_plain(&table, Rounds::Pairs, PROGRAM_ROUNDS)?;
        self.against_plain(&table, Rounds::All, 40)?;
        self.whole_run(&table)?;
        let careless = random.chance(1, 2);
        let log = foreign::mixed(random, &case, careless);
        self.list(&case, &cut(&log))?;
        self.programs(random, &case)?;
        self.large_families(random, &[case, later, table])?;
        self.figures.large += 1;
        Ok(())
    }
}

/// Whether some plan is lawful, by listing all.
fn has_lawful(case: &Case) -> bool {
    let weights = figures::starting_weights(case);
    let plans = figures::assignments(case);
    plans.iter().any(|plan| figures::objective(case, &weights, plan).is_some())
}

fn cut(log: &[u8]) -> Vec<Vec<u8>> {
    log.chunks(LINE_BYTES).map(|bytes| bytes.to_vec()).collect()
}

fn text(bytes: &[u8]) -> String {
    String::from_utf8_lossy(bytes).into_owned()
}

fn slow_press_takes_long(input: &[u8]) -> bool {
    case::read_alone(input).is_ok_and(|(case, _)| case.weights.len() > 120)
}
