//! `press` and the engine's program on pairs without a loop, and now and then with one more:
//! what they print, and what change 4 says of the tables they end with.

use super::*;
use crate::check::chains::{has_press, large_forest, small_forest, tables_of, wide};
use crate::random::Random;
use crate::replay::replay_file;
use crate::slow::replay::PlainReplay;
use crate::types::*;

/// Forests are numbered apart from the other inputs.
const FIRST: u64 = 1 << 44;

/// So many cases go to `press` for each batch of tables, which holds those of so many.
const FILES: u64 = 30;
const TABLES: usize = 4;

/// The table and the stop that the log of a whole run leaves, by the plain replay.
fn replayed(case: &Case, log: &[u8]) -> Result<(Stop, Vec<i64>), Difference> {
    let mut replay = PlainReplay::new(case);
    for bytes in log.chunks(LINE_BYTES) {
        replay.feed(bytes);
    }
    if let Some(number) = replay.end() {
        return Err(Difference {
            what: format!("log of press refused by {number}"),
            input: [case::write(case), log.to_vec()].concat(),
        });
    }
    let stop = if replay.void { Stop::Void } else { Stop::Settled };
    Ok((stop, replay.weights))
}

/// The same by the fast replay, for cases of any size.
fn replayed_fast(case: &Case, log: &[u8]) -> Result<(Stop, Vec<i32>), Difference> {
    let replay = replay_file(case, log, 0).map_err(|refusal| Difference {
        what: format!("log of press refused by {}", refusal.number),
        input: [case::write(case), log.to_vec()].concat(),
    })?;
    let stop = if replay.void { Stop::Void } else { Stop::Settled };
    Ok((stop, replay.state.weights()))
}

impl Programs {
    pub fn forests(&mut self, seed: u64, end: &End) -> Result<(), Difference> {
        let engine = self.callers[Calls::Engine as usize].is_some();
        if self.press.is_none() && !engine {
            return Ok(());
        }
        let mut index = 0;
        while !end.reached(index) {
            let mut random = random_for(seed, FIRST + index);
            let name = format!("forest {index}");
            if index % FILES == 0 && engine {
                self.forest_tables(&mut random, &name)?;
            }
            if self.press.is_some() {
                self.forest_file(&mut random, &name)?;
            }
            index += 1;
        }
        Ok(())
    }

    /// The log that `press` prints from a case file, and the table that it leaves.
    fn forest_file(&mut self, random: &mut Random, name: &str) -> Result<(), Difference> {
        let is_large = random.chance(1, 8);
        let case = if is_large { large_forest(random) } else { small_forest(random) };
        let file = case::write(&case);
        let log = programs::press(&file);
        self.ask(Program::Press, &file, &log, name)?;
        if is_large {
            let (stop, weights) = replayed_fast(&case, &log)?;
            return self.forests.large_end(&case, stop, &weights);
        }
        let (stop, weights) = replayed(&case, &log)?;
        self.forests.run_end(&case, stop, &weights, has_press(&log))
    }

    /// Runs of the engine's program from the starting weights, of all rounds and of pair
    /// rounds only, and from tables that are none.
    fn forest_tables(&mut self, random: &mut Random, name: &str) -> Result<(), Difference> {
        let mut batch = Batch::default();
        let mut ends = Vec::new();
        for at in 0..TABLES {
            let case = small_forest(random);
            let tables = tables_of(random, &case);
            let pairs = std::iter::once((case, Rounds::Pairs));
            let all = tables.into_iter().map(|table| (table, Rounds::All));
            for (number, (table, kind)) in pairs.chain(all).enumerate() {
                let name = format!("table {at}.{number} of {name}");
                let (next, run) = calls::whole_run(&name, &table, kind);
                batch.join(next);
                ends.push((table, kind, run));
            }
        }
        self.call(Calls::Engine, name, &batch)?;
        for (table, kind, run) in ends {
            self.table_end(&table, kind, &run)?;
        }
        Ok(())
    }

    fn table_end(&mut self, table: &Case, kind: Rounds, run: &Run) -> Result<(), Difference> {
        let weights = wide(&run.weights);
        if kind == Rounds::Pairs {
            self.forests.shifts_end(table, &weights)?;
            return Ok(());
        }
        self.forests.any_state(table, &wide(&table.weights))?;
        self.forests.run_end(table, run.stop, &weights, has_press(&run.log))
    }
}
