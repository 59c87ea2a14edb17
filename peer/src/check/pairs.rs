//! What document 02 says of pair rounds, and what follows from it, round by round and
//! with every plan listed.

use super::*;
use crate::slow::engine::{due, round_of_due, totals_of_three, Passed};
use crate::slow::moves;

/// How often what the readings could differ in occurred.
#[derive(Default, Clone, Copy)]
pub struct PairFigures {
    pub rounds: u64,
    /// Pair rounds with a lower pair passed over.
    pub higher: u64,
    /// Pair rounds of a pair that was passed over before.
    pub back: u64,
    pub after_press: u64,
    /// Presses while a pair is passed over.
    pub presses: u64,
    /// Pairs passed over at end 0 though all shifts together would stay in range.
    pub half_way: u64,
    /// Pairs without an unbarred choice, and pairs whose round would not lower the
    /// ceiling, before a round.
    pub no_choice: u64,
    pub not_lower: u64,
    pub refused: u64,
    pub settled_passed: u64,
    /// Runs that ended void.
    pub void: u64,
    /// Pair rounds of a pair that was not lower before.
    pub lower_now: u64,
}

/// One round of a log: its lines, the tables before and after it, and the pairs that
/// are due and passed over before it.
pub struct Step {
    lines: Vec<Line>,
    pub before: Vec<i64>,
    pub after: Vec<i64>,
    due: Vec<usize>,
    pub passed: Vec<(usize, Passed)>,
}

impl Step {
    fn new(table: &Case, lines: Vec<Line>, before: Vec<i64>, after: Vec<i64>) -> Step {
        let due = due_edges(table, &before);
        let passed = passed_over(table, &before, &due);
        Step {
            lines,
            before,
            after,
            due,
            passed,
        }
    }

    pub fn is_pair_round(&self) -> bool {
        self.lines[0].kind == 1
    }

    /// The pair or the pressed link.
    pub fn first(&self) -> usize {
        self.lines[0].a as usize
    }

    pub fn amount(&self) -> i64 {
        self.lines[0].amount
    }
}

/// The rounds of a log made from the table; nothing if a weight on the way is outside
/// the range.
pub fn steps(table: &Case, log: &[u8], range: (i64, i64)) -> Option<Vec<Step>> {
    let mut now = figures::starting_weights(table);
    let mut all = Vec::new();
    let (mut lines, mut before) = (vec![], now.clone());
    for bytes in log.chunks(LINE_BYTES) {
        lines.push(slow::line::parse(bytes)?);
        now = apply(table, &now, &lines)?;
        let within = |weight: &i64| *weight == figures::BARRED || (range.0..=range.1).contains(weight);
        if !now.iter().all(within) {
            return None;
        }
        if lines[lines.len() - 1].kind == 4 {
            all.push(Step::new(table, lines, before, now.clone()));
            (lines, before) = (vec![], now.clone());
        }
    }
    Some(all)
}

/// The table after the last of a round's lines.
fn apply(table: &Case, now: &[i64], lines: &[Line]) -> Option<Vec<i64>> {
    let last = lines[lines.len() - 1];
    let scopes: Vec<usize> = lines[1..].iter().map(|raise| raise.a as usize).collect();
    let place = |number: i64| number as usize;
    match last.kind {
        1 => moves::shift(
            table,
            now,
            place(last.a),
            place(last.b),
            place(last.c),
            last.amount,
        )
        .ok(),
        3 if lines[0].kind == 2 && scopes.len() as i64 == lines[0].b => {
            moves::press(table, now, place(lines[0].a), &scopes, lines[0].amount).ok()
        }
        _ => Some(now.to_vec()),
    }
}

fn due_edges(table: &Case, weights: &[i64]) -> Vec<usize> {
    let edges = 0..table.edges.len();
    edges.filter(|&edge| due(table, weights, edge)).collect()
}

fn passed_over(table: &Case, weights: &[i64], due: &[usize]) -> Vec<(usize, Passed)> {
    let due = due.iter().copied();
    due.filter_map(|edge| Some((edge, round_of_due(table, weights, edge).err()?)))
        .collect()
}

fn every_total(table: &Case, weights: &[i64]) -> Vec<Option<i64>> {
    let total = |plan: &Vec<usize>| figures::objective(table, weights, plan);
    figures::assignments(table).iter().map(total).collect()
}

/// By how much a pair round lowers the ceiling at most, and without bars exactly: by how
/// much the three greatest weights are above the best total of the three.
fn difference(table: &Case, weights: &[i64], edge: usize) -> i64 {
    let (lower, higher) = table.edges[edge];
    let three = [lower, higher, table.variables + edge];
    let greatest = three.map(|scope| figures::greatest(table, weights, scope));
    greatest.iter().sum::<i64>() - totals_of_three(table, weights, edge).iter().max().unwrap()
}

/// The most rounds of a run from any table: m + nD + 2mD².
pub fn most_rounds(case: &Case) -> u64 {
    let (n, d, m) = (case.variables, case.values, case.edges.len());
    (m + n * d + 2 * m * d * d) as u64
}

fn pair_fact(
    table: &Case,
    earlier: &[Step],
    step: &Step,
    file: &[u8],
) -> Result<(), Difference> {
    let edge = step.first();
    let again = |other: &Step| other.is_pair_round() && other.first() == edge;
    holds("no pair has two pair rounds", !earlier.iter().any(again), file)?;
    let tables = [&step.before, &step.after];
    let [before, after] = tables.map(|weights| every_total(table, weights));
    same("totals over a pair round", &after, &before, file)?;
    let [before, after] = tables.map(|weights| figures::upper_bound(table, weights));
    let fall = difference(table, &step.before, edge);
    let most = before - after <= fall && (table.has_barred() || before - after == fall);
    holds("fall of a pair round", most, file)?;
    holds("a pair round lowers the ceiling", before > after, file)
}

fn press_fact(table: &Case, step: &Step, file: &[u8]) -> Result<(), Difference> {
    let lowest = step.due.is_empty() || step.first() == 0;
    holds("link 0 is pressed while a pair is due", lowest, file)?;
    let tables = [&step.before, &step.after];
    let [before, after] = tables.map(|weights| every_total(table, weights));
    let kept = before.iter().zip(&after).all(|(old, new)| old <= new);
    holds("no total falls by a press", kept, file)?;
    barred::press_facts(table, step, file)
}

/// No run from starting weights leaves these.
pub fn start_range(case: &Case) -> (i64, i64) {
    let unbarred = case.weights.iter().filter(|weight| **weight != BARRED);
    let most = unbarred.map(|&weight| i64::from(weight).abs()).max().unwrap();
    (-(2 * case.scopes() as i64 + 1) * most, 3 * most)
}

impl Check {
    /// A run from the table by the three readings, whole and with a limit, and what
    /// holds of it.
    pub fn run_both_kinds(&mut self, random: &mut Random, table: &Case) -> Result<(), Difference> {
        for kind in [Rounds::All, Rounds::Pairs] {
            let file = case::write(table);
            let full = self.run_of_all(table, kind, most_rounds(table))?;
            let limit = random.below(full.rounds as usize + 2) as u64;
            let early = self.run_of_all(table, kind, limit)?;
            let stop = match limit {
                _ if limit < full.rounds => Stop::Limit,
                _ if limit == full.rounds && matches!(full.stop, Stop::Refused(_)) => Stop::Limit,
                _ => full.stop,
            };
            holds("limit rule", early.stop == stop, &file)?;
            holds("rounds with a limit", early.rounds == limit.min(full.rounds), &file)?;
            holds("most rounds", full.stop != Stop::Limit, &file)?;
            self.own_log(table, &full)?;
            if random.chance(1, 4) {
                self.list(table, &cut(&full.log))?;
            }
            self.facts(table, kind, &full)?;
        }
        Ok(())
    }

    /// The same run by the slow, the fast and the plain reading.
    pub fn run_of_all(
        &mut self,
        table: &Case,
        kind: Rounds,
        limit: u64,
    ) -> Result<Run, Difference> {
        let file = case::write(table);
        let slow = slow::engine::run(table, kind, limit);
        let fast = self.against_plain(table, kind, limit)?;
        same(&format!("run of {kind:?}, limit {limit}"), &fast, &slow, &file)?;
        if let Stop::Refused(number) = slow.stop {
            self.counts.note("run", number, "table".into());
        }
        self.figures.runs += 1;
        Ok(slow)
    }

    pub fn against_plain(
        &mut self,
        table: &Case,
        kind: Rounds,
        limit: u64,
    ) -> Result<Run, Difference> {
        let fast = engine::run_case(table, kind, limit);
        let plain = plain::run_case(table, kind, limit);
        let what = format!("run of {kind:?}, limit {limit}, the slow one being the plain");
        same(&what, &fast, &plain, &case::write(table))?;
        self.figures.runs += 1;
        Ok(fast)
    }

    /// The fast reading alone: its own log is accepted and no longer than it may be,
    /// and a run from starting weights is settled and far from the range's ends.
    pub fn whole_run(&mut self, table: &Case) -> Result<Run, Difference> {
        let file = case::write(table);
        let run = engine::run_case(table, Rounds::All, PROGRAM_ROUNDS);
        holds("most rounds", run.rounds <= most_rounds(table), &file)?;
        self.own_log(table, &run)?;
        let small = |&weight: &i32| weight == BARRED || i64::from(weight.abs()) <= START_LIMIT;
        if table.weights.iter().all(small) {
            let ended = matches!(run.stop, Stop::Settled | Stop::Void);
            holds("settled or void from the start", ended, &file)?;
            let (least, most) = start_range(table);
            let within = |&weight: &i32| {
                weight == BARRED || (least..=most).contains(&i64::from(weight))
            };
            holds("weights from the start", run.weights.iter().all(within), &file)?;
        }
        Ok(run)
    }

    /// What holds of every round of a run and at its end.
    fn facts(&mut self, table: &Case, kind: Rounds, run: &Run) -> Result<(), Difference> {
        let file = case::write(table);
        let steps = steps(table, &run.log, (-WORK_LIMIT, WORK_LIMIT));
        holds("weights on the way", steps.is_some(), &file)?;
        let steps = steps.unwrap_or_default();
        for (at, step) in steps.iter().enumerate() {
            self.note(table, &steps[..at], step);
            let after = due_edges(table, &step.after);
            let own = |&edge: &usize| step.is_pair_round() && edge == step.first();
            let kept = after.iter().all(|edge| step.due.contains(edge) || own(edge));
            holds("no pair becomes due", kept, &file)?;
            if step.is_pair_round() {
                pair_fact(table, &steps[..at], step, &file)?;
            } else {
                press_fact(table, step, &file)?;
            }
        }
        self.end_facts(table, kind, run, &steps, &file)
    }

    fn end_facts(
        &mut self,
        table: &Case,
        kind: Rounds,
        run: &Run,
        steps: &[Step],
        file: &[u8],
    ) -> Result<(), Difference> {
        let weights: Vec<i64> = run.weights.iter().map(|&weight| i64::from(weight)).collect();
        let left = due_edges(table, &weights);
        let passed = passed_over(table, &weights, &left);
        if kind == Rounds::Pairs {
            holds("pairs only", steps.iter().all(Step::is_pair_round), file)?;
            holds("no refusal of pairs only", !matches!(run.stop, Stop::Refused(_)), file)?;
            let totals = every_total(table, &figures::starting_weights(table));
            same("totals of pairs only", &every_total(table, &weights), &totals, file)?;
            self.shifts_end(table, &weights)?;
        } else {
            self.run_end(table, run.stop, &weights, chains::has_press(&run.log))?;
        }
        if run.stop == Stop::Settled {
            holds("pairs left are passed over", left.len() == passed.len(), file)?;
            if kind == Rounds::All {
                barred::settled_fact(table, &weights, file)?;
            }
            self.figures.pairs.settled_passed += u64::from(!left.is_empty());
        }
        if run.stop == Stop::Void {
            holds("void without a lawful plan", !has_lawful(table), file)?;
            self.figures.pairs.void += 1;
        }
        self.figures.pairs.refused += u64::from(matches!(run.stop, Stop::Refused(_)));
        self.figures.others += 1;
        Ok(())
    }

    fn note(&mut self, table: &Case, earlier: &[Step], step: &Step) {
        let figures = &mut self.figures.pairs;
        for &(edge, why) in &step.passed {
            let whole = totals_of_three(table, &step.before, edge);
            let back = whole.iter().all(|total| total.abs() <= WORK_LIMIT);
            figures.half_way += u64::from(why == Passed::OutOfRange && back);
            figures.no_choice += u64::from(why == Passed::NoChoice);
            figures.not_lower += u64::from(why == Passed::NotLower);
        }
        if !step.is_pair_round() {
            figures.presses += u64::from(!step.passed.is_empty());
            return;
        }
        let edge = step.first();
        let passed = |step: &Step| step.passed.iter().any(|&(other, _)| other == edge);
        let back = earlier.iter().any(passed);
        let level = |step: &Step| step.passed.contains(&(edge, Passed::NotLower));
        figures.rounds += 1;
        figures.lower_now += u64::from(earlier.iter().any(level));
        figures.higher += u64::from(step.passed.iter().any(|&(other, _)| other < edge));
        figures.back += u64::from(back);
        figures.after_press += u64::from(earlier.iter().any(|step| !step.is_pair_round()));
    }
}
