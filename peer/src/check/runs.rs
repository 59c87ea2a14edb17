//! Runs from the starting weights and from other tables.

use super::*;
use crate::slow::engine::Passed;

impl Check {
    /// Runs from the starting weights and from tables that are none.
    pub fn runs(&mut self, random: &mut Random, case: &Case) -> Result<(), Difference> {
        self.run_both_kinds(random, case)?;
        self.from_start(case)?;
        let table = any_table_for(random, case);
        self.run_both_kinds(random, &table)?;
        for _ in 0..3 {
            let table = border_for(random, case);
            self.run_both_kinds(random, &table)?;
        }
        Ok(())
    }

    /// What holds of runs from starting weights only.
    pub fn from_start(&mut self, case: &Case) -> Result<(), Difference> {
        let file = case::write(case);
        let weights = figures::starting_weights(case);
        let totals = figures::assignments(case);
        let totals = totals.iter().map(|plan| figures::objective(case, &weights, plan));
        let best = totals.max().unwrap();
        let enough = best.map(|best| figures::upper_bound(case, &weights) - best);
        let limit = enough.map_or(PROGRAM_ROUNDS, |rounds| rounds as u64);
        let run = self.run_of_all(case, Rounds::All, limit)?;
        let void = best.is_none() && run.stop == Stop::Void;
        let ended = run.stop == Stop::Settled || void;
        holds("settled when the limit is enough", ended, &file)?;
        let steps = pairs::steps(case, &run.log, pairs::start_range(case));
        holds("weights of a run from the start", steps.is_some(), &file)?;
        let steps = steps.unwrap_or_default();
        barred::pair_phase(case, &steps, &file)?;
        let first = steps.iter().take_while(|step| step.is_pair_round()).count();
        let sorted = !steps[first..].iter().any(|step| step.is_pair_round());
        holds("pair rounds come first", sorted, &file)?;
        let out = |step: &pairs::Step| step.passed.iter().any(|(_, why)| *why == Passed::OutOfRange);
        holds("no pair is out of range from the start", !steps.iter().any(out), &file)
    }

    /// The run's log is accepted with the run's rounds, ceiling and weights.
    pub fn own_log(&mut self, case: &Case, run: &Run) -> Result<(), Difference> {
        let mut replay = Replay::new(case);
        for bytes in run.log.chunks(LINE_BYTES) {
            replay.step(bytes);
        }
        let file = [case::write(case), run.log.clone()].concat();
        let found = (
            replay.end(),
            replay.void,
            replay.rounds,
            replay.state.upper_bound,
            replay.state.weights(),
        );
        let void = run.stop == Stop::Void;
        let expected = (None, void, run.rounds, run.upper_bound, run.weights.clone());
        self.figures.others += 1;
        same("own log replayed", &found, &expected, &file)
    }
}
