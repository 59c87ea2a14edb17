//! Document 02's change 4, with every plan listed: where the pairs form no loop and no press
//! and no void line is left, some plan uses active combinations only. Such a table is called
//! quiet here, whether pair rounds are left or not.

use super::*;
use crate::generate::{any_of_shape, Shape};
use crate::slow::engine::lowest;
use crate::slow::moves;
use crate::{chains, forests, loops};

/// What was looked at, and how often what the statement does not say occurred.
#[derive(Default, Clone, Copy)]
pub struct ChainFigures {
    /// Pairs asked whether they form a loop, and those that form none.
    pub graphs: u64,
    pub without: u64,
    /// Quiet tables without a loop, and those of them with barred places.
    pub quiet: u64,
    pub barred: u64,
    /// Those with more links or values than can be listed.
    pub larger: u64,
    /// Runs without a loop that ended void.
    pub void: u64,
    /// Tables without a loop after shifts only: quiet ones, and others.
    pub shifted: u64,
    pub unquiet: u64,
    /// Runs without a loop that settled after a press, and those with a ceiling above the
    /// best total of the table they began with.
    pub pressed: u64,
    pub above: u64,
    /// Those where no plan of active combinations has that best total.
    pub worse: u64,
    /// Quiet tables with a loop, and those where no plan uses active combinations only.
    pub with_loop: u64,
    pub stuck: u64,
}

/// A forest, now and then with one loop or many, whose plans can all be listed.
pub fn small_forest(random: &mut Random) -> Case {
    let sizes = [[6, 2], [4, 4], [5, 3], [6, 3], [3, 3], [5, 4], [6, 4], [2, 5], [4, 2]];
    let [links, values] = *random.pick(&sizes);
    let shape = match random.below(12) {
        0 => return all_joined(random),
        1 | 2 => Shape::NearForest,
        _ => Shape::Forest,
    };
    any_of_shape(random, shape, [links, values, MAX_EDGES])
}

/// All pairs of four or five links with three values, each punishing values that are equal,
/// mostly in one naming of the values: no press is left and no plan uses active
/// combinations only. (It needs loops that have no link in common, and three values.)
fn all_joined(random: &mut Random) -> Case {
    let mut case = every::empty_case(4 + random.below(2), 3, MAX_EDGES);
    let names: Vec<usize> = (0..case.variables).map(|_| random.below(3)).collect();
    for edge in 0..case.edges.len() {
        let (lower, higher) = case.edges[edge];
        let other = random.below(3) * usize::from(random.chance(1, 12));
        for tuple in figures::tuples(&case, case.variables + edge) {
            if (tuple[0] + names[lower] + other) % 3 == (tuple[1] + names[higher]) % 3 {
                let place = figures::place(&case, case.variables + edge, &tuple);
                case.weights[place] = -1 - random.below(2) as i32;
            }
        }
    }
    case
}

/// A forest of any size.
pub fn large_forest(random: &mut Random) -> Case {
    let sizes = [[10, 4], [20, 3], [MAX_VARIABLES, 3], [MAX_VARIABLES, MAX_VALUES]];
    let [links, values] = *random.pick(&sizes);
    any_of_shape(random, Shape::Forest, [links, values, MAX_EDGES])
}

/// Which places of the table are active.
fn active_places(case: &Case, weights: &[i64]) -> Vec<bool> {
    let mut active = vec![false; weights.len()];
    for scope in 0..case.scopes() {
        for tuple in figures::tuples(case, scope) {
            let here = figures::is_active(case, weights, scope, &tuple);
            active[figures::place(case, scope, &tuple)] = here;
        }
    }
    active
}

fn uses_active(case: &Case, active: &[bool], plan: &[usize]) -> bool {
    (0..case.scopes()).all(|scope| {
        let members = figures::members(case, scope);
        let used: Vec<usize> = members.iter().map(|&link| plan[link]).collect();
        active[figures::place(case, scope, &used)]
    })
}

/// The greatest total of the lawful plans, by listing all.
pub fn best_total(case: &Case, weights: &[i64]) -> Option<i64> {
    let plans = figures::assignments(case);
    plans.iter().filter_map(|plan| figures::objective(case, weights, plan)).max()
}

/// How many plans use active combinations only. Each of them is lawful in the case and has
/// the ceiling as its working total, and no plan has more.
fn plans_on_top(case: &Case, weights: &[i64], file: &[u8]) -> Result<u64, Difference> {
    let start = figures::starting_weights(case);
    let active = active_places(case, weights);
    let ceiling = figures::upper_bound(case, weights);
    let mut count = 0;
    for plan in figures::assignments(case) {
        let lawful = figures::objective(case, &start, &plan).is_some();
        let total = figures::objective(case, weights, &plan);
        same("lawful, now and in the case", &total.is_some(), &lawful, file)?;
        holds("no working total is above the ceiling", total <= Some(ceiling), file)?;
        if uses_active(case, &active, &plan) {
            holds("a plan of active combinations is lawful", lawful, file)?;
            same("working total of active combinations", &total, &Some(ceiling), file)?;
            count += 1;
        }
    }
    Ok(count)
}

/// The best total, in the table that the case holds, of the plans that use active
/// combinations of the other table only.
fn top_total(case: &Case, weights: &[i64]) -> Option<i64> {
    let start = figures::starting_weights(case);
    let active = active_places(case, weights);
    let plans = figures::assignments(case);
    let top = plans.iter().filter(|plan| uses_active(case, &active, plan));
    top.filter_map(|plan| figures::objective(case, &start, plan)).max()
}

/// Without one of the links there is no loop.
fn one_on_all_loops(case: &Case) -> bool {
    (0..case.variables).any(|link| {
        let mut without = case.clone();
        without.edges.retain(|&(lower, higher)| lower != link && higher != link);
        loops::no_loop(&without)
    })
}

/// Shifts only: each link with one pair left has its weights shifted into that pair, and
/// what is best there shifted into the other link. Nothing if a weight leaves the range.
fn levelled(case: &Case) -> Option<Vec<i64>> {
    let mut now = figures::starting_weights(case);
    for (link, edge) in chains::leaves(case) {
        let scope = case.variables + edge;
        let end = usize::from(case.edges[edge].1 == link);
        for value in 0..case.values {
            let weight = figures::weight(case, &now, link, &[value]);
            if weight != figures::BARRED {
                now = moves::shift(case, &now, edge, end, value, -weight).ok()?;
            }
        }
        for value in 0..case.values {
            let own = |tuple: &&figures::Tuple| {
                let barred = figures::is_barred(case, &now, scope, tuple)
                    || figures::is_barred(case, &now, link, &[tuple[end]]);
                tuple[1 - end] == value && !barred
            };
            let tuples = figures::tuples(case, scope);
            let met = tuples.iter().filter(own);
            if let Some(most) = met.map(|tuple| figures::weight(case, &now, scope, tuple)).max() {
                now = moves::shift(case, &now, edge, 1 - end, value, most).ok()?;
            }
        }
    }
    Some(now)
}

/// A table's weights as those of a case.
fn with_weights(case: &Case, weights: &[i64]) -> Case {
    Case { weights: narrow(weights), ..case.clone() }
}

impl Check {
    /// A quiet table of the case.
    fn quiet(&mut self, case: &Case, weights: &[i64], file: &[u8]) -> Result<(), Difference> {
        let count = plans_on_top(case, weights, file)?;
        let chains = &mut self.figures.chains;
        if !loops::no_loop(case) {
            chains.with_loop += 1;
            chains.stuck += u64::from(count == 0);
            let some = count > 0 || !one_on_all_loops(case);
            return holds("some plan where one link lies on all loops", some, file);
        }
        chains.quiet += 1;
        chains.barred += u64::from(case.has_barred());
        holds("some plan uses active combinations only", count > 0, file)?;
        let ceiling = figures::upper_bound(case, weights);
        same("greatest working total", &best_total(case, weights), &Some(ceiling), file)?;
        let leaves = chains::best(case, weights).map(|(total, _)| total);
        same("greatest working total, by leaves", &leaves, &Some(ceiling), file)?;
        barred::settled_fact(case, weights, file)
    }

    /// What is said of any table of the case; whether it is quiet.
    pub fn any_state(&mut self, case: &Case, weights: &[i64]) -> Result<bool, Difference> {
        let quiet = lowest(case, weights).is_none();
        let file = case::write(&with_weights(case, weights));
        if quiet {
            self.quiet(case, weights, &file)?;
        } else {
            let top = top_total(case, weights);
            holds("quiet where a plan uses active combinations only", top.is_none(), &file)?;
        }
        Ok(quiet)
    }

    /// The end of a run of all rounds from the table that the case holds.
    pub fn run_end(
        &mut self,
        case: &Case,
        stop: Stop,
        weights: &[i64],
        pressed: bool,
    ) -> Result<(), Difference> {
        let file = case::write(case);
        let quiet = self.any_state(case, weights)?;
        same("quiet where settled", &quiet, &(stop == Stop::Settled), &file)?;
        let best = best_total(case, &figures::starting_weights(case));
        if stop == Stop::Void {
            holds("void without a lawful plan", best.is_none(), &file)?;
        }
        if !loops::no_loop(case) {
            return Ok(());
        }
        let chains = &mut self.figures.chains;
        chains.void += u64::from(stop == Stop::Void);
        if quiet {
            holds("settled with a lawful plan", best.is_some(), &file)?;
            let ceiling = figures::upper_bound(case, weights);
            holds("the ceiling is not below a total", best <= Some(ceiling), &file)?;
            let same_total = pressed || best == Some(ceiling);
            holds("the best total, without a press", same_total, &file)?;
            chains.pressed += u64::from(pressed);
            chains.above += u64::from(best < Some(ceiling));
            chains.worse += u64::from(top_total(case, weights) < best);
        }
        Ok(())
    }

    /// The end of shifts only from the table that the case holds.
    pub fn shifts_end(&mut self, case: &Case, weights: &[i64]) -> Result<bool, Difference> {
        let quiet = self.any_state(case, weights)?;
        if !loops::no_loop(case) {
            return Ok(quiet);
        }
        if quiet {
            let best = best_total(case, &figures::starting_weights(case));
            let ceiling = Some(figures::upper_bound(case, weights));
            same("ceiling after shifts only", &ceiling, &best, &case::write(case))?;
            self.figures.chains.shifted += 1;
        } else {
            self.figures.chains.unquiet += 1;
        }
        Ok(quiet)
    }

    /// The end of a run on a forest of any size.
    pub fn large_end(&mut self, case: &Case, stop: Stop, table: &[i32]) -> Result<(), Difference> {
        let file = case::write(case);
        let weights: Vec<i64> = table.iter().map(|&weight| i64::from(weight)).collect();
        let best = chains::best(case, &weights);
        let start = figures::starting_weights(case);
        if stop == Stop::Void {
            self.figures.chains.void += 1;
            return holds("void without a lawful plan", best.is_none(), &file);
        }
        if stop != Stop::Settled {
            return Ok(());
        }
        let ended = Case { weights: table.to_vec(), ..case.clone() };
        let again = engine::run_case(&ended, Rounds::All, 0).stop;
        same("settled again", &again, &Stop::Settled, &file)?;
        holds("settled with a lawful plan", best.is_some(), &file)?;
        let (total, plan) = best.unwrap_or_default();
        same("greatest working total", &total, &figures::upper_bound(case, &weights), &file)?;
        let lawful = figures::objective(case, &start, &plan).is_some();
        holds("the plan is lawful", lawful, &file)?;
        let active = uses_active(case, &active_places(case, &weights), &plan);
        holds("the plan uses active combinations only", active, &file)?;
        self.figures.chains.larger += 1;
        Ok(())
    }

    /// Forests by the peer's own engine: runs from the starting weights and other tables,
    /// shifts only, and tables as they stand.
    pub fn chains(&mut self, random: &mut Random) -> Result<(), Difference> {
        self.loops(random)?;
        let case = small_forest(random);
        let run = engine::run_case(&case, Rounds::Pairs, PROGRAM_ROUNDS);
        self.shifts_end(&case, &wide(&run.weights))?;
        if loops::no_loop(&case) {
            if let Some(weights) = levelled(&case) {
                self.levelled_end(&case, &weights)?;
            }
        }
        for table in tables_of(random, &case) {
            self.any_state(&table, &figures::starting_weights(&table))?;
            let run = engine::run_case(&table, Rounds::All, PROGRAM_ROUNDS);
            self.run_end(&table, run.stop, &wide(&run.weights), has_press(&run.log))?;
        }
        if random.chance(1, 8) {
            let case = large_forest(random);
            let run = engine::run_case(&case, Rounds::All, PROGRAM_ROUNDS);
            self.large_end(&case, run.stop, &run.weights)?;
        }
        Ok(())
    }

    /// Without barred places these shifts leave nothing to press.
    fn levelled_end(&mut self, case: &Case, weights: &[i64]) -> Result<(), Difference> {
        let quiet = self.shifts_end(case, weights)?;
        let file = case::write(case);
        holds("levelled without bars", quiet || case.has_barred(), &file)
    }

    /// Graphs of all sizes: both readings of a loop, and a third.
    fn loops(&mut self, random: &mut Random) -> Result<(), Difference> {
        let links = *random.pick(&[3, 5, 8, 20, MAX_VARIABLES]);
        for shape in [Shape::Random, Shape::Random, Shape::Ring] {
            let pairs = *random.pick(&[links, links, links - 1, MAX_EDGES]);
            let case = any_of_shape(random, shape, [links, 1, pairs]);
            self.loop_of(&case, None)?;
        }
        let links = 3 + random.below(MAX_VARIABLES - 2);
        let mut case = Case { variables: links, values: 1, edges: vec![], weights: vec![] };
        case.edges = forests::forest(random, links);
        self.loop_of(&case, Some(true))?;
        case.edges = forests::near_forest(random, links);
        self.loop_of(&case, Some(false))
    }

    fn loop_of(&mut self, case: &Case, made: Option<bool>) -> Result<(), Difference> {
        let file = format!("{case:?}").into_bytes();
        let found = loops::no_loop_both_ways(case);
        same("loops", &found, &[!families::has_loop(case); 2], &file)?;
        same("loop as made", &found[0], &made.unwrap_or(found[0]), &file)?;
        self.figures.chains.graphs += 1;
        self.figures.chains.without += u64::from(found[0]);
        Ok(())
    }
}

/// The case and working tables of its links and pairs, also such as a foreign log leaves.
pub fn tables_of(random: &mut Random, case: &Case) -> Vec<Case> {
    let log = foreign::log(random, case, false);
    let mut replay = Replay::new(case);
    for bytes in log.chunks(LINE_BYTES) {
        replay.step(bytes);
    }
    let weights = replay.state.weights();
    let mut tables = vec![case.clone(), Case { weights, ..case.clone() }];
    tables.extend([any_table_for(random, case), border_for(random, case)]);
    tables.extend((0..4).map(|_| loose_for(random, case)));
    tables
}

pub fn wide(weights: &[i32]) -> Vec<i64> {
    weights.iter().map(|&weight| i64::from(weight)).collect()
}

/// Some line of the log is a press.
pub fn has_press(log: &[u8]) -> bool {
    log.chunks(LINE_BYTES).any(|line| line.starts_with(b" 2"))
}
