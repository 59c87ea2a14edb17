//! Every table of a small size: all runs with their facts, every void line, the leave of
//! every link after each round, and the family of every link.

use super::*;
use crate::joins;
use crate::lent::wholly_barred;

/// Links, values, and the pairs 0–1, 0–2, 1–2, 0–3 and so on, as many as asked for.
pub fn empty_case(variables: usize, values: usize, edges: usize) -> Case {
    let pairs = (1..variables).flat_map(|higher| (0..higher).map(move |lower| (lower, higher)));
    let edges: Vec<(usize, usize)> = pairs.take(edges).collect();
    let weights = vec![0; case::table_length(variables, values, edges.len())];
    Case {
        variables,
        values,
        edges,
        weights,
    }
}

/// The next table with weights up to `most` in size, and barred ones; false after the
/// last.
pub fn advance(case: &mut Case, most: i32) -> bool {
    for weight in &mut case.weights {
        *weight = match *weight {
            BARRED => -most,
            last if last == most => {
                *weight = BARRED;
                continue;
            }
            other => other + 1,
        };
        return true;
    }
    false
}

/// The first table: all barred.
pub fn first(case: &mut Case) {
    case.weights.fill(BARRED);
}

impl Check {
    /// Everything about the table, unless a scope is wholly barred.
    pub fn each(&mut self, random: &mut Random, case: &Case) -> Result<(), Difference> {
        if wholly_barred(case) {
            return Ok(());
        }
        self.figures.barred += u64::from(case.has_barred());
        self.figures.unlawful += u64::from(!has_lawful(case));
        self.run_both_kinds(random, case)?;
        self.from_start(case)?;
        for link in 0..case.variables {
            self.every_void(case, link)?;
            self.every_leave(case, link)?;
        }
        self.families_of(case)?;
        self.figures.cases += 1;
        Ok(())
    }

    fn every_void(&mut self, case: &Case, link: usize) -> Result<(), Difference> {
        for marks in 1..1u64 << case.scopes() {
            if marks >> link & 1 == 1 {
                continue;
            }
            let count = marks.count_ones().into();
            let mut log = Vec::new();
            line::write(&mut log, 5, link as i64, count, 0, 0);
            for scope in (0..case.scopes()).filter(|scope| marks >> scope & 1 == 1) {
                line::write(&mut log, 3, scope as i64, 0, 0, 0);
            }
            self.list(case, &cut(&log))?;
        }
        Ok(())
    }

    /// The link leaves after each number of the engine's rounds.
    fn every_leave(&mut self, case: &Case, link: usize) -> Result<(), Difference> {
        if !joins::allowed() {
            return Ok(());
        }
        let run = engine::run_case(case, Rounds::All, PROGRAM_ROUNDS);
        for limit in 0..=run.rounds {
            let lines = engine::run_case(case, Rounds::All, limit).log;
            let mut log = cut(&lines);
            log.truncate(log.iter().take_while(|line| !line.starts_with(b" 5")).count());
            let mut leave = Vec::new();
            line::write(&mut leave, 7, link as i64, 0, 0, 0);
            log.push(leave);
            self.list(case, &log)?;
        }
        Ok(())
    }
}
