//! Inputs for a program of engine calls, and what it must print: working tables handed
//! over as case lines, and on each of them calls one after another. The program of
//! families (`family_calls`) is handed its tables in the same way.

use crate::case::{self, table_length};
use crate::generate::{any_case, any_table_for, border_for};
use crate::inputs::{random_for, sized_case, small_case};
use crate::programs::Engine;
use crate::random::Random;
use crate::types::*;
use crate::{barred_samples, engine, lent, line, pair_samples, plain, slow};

/// Batches are numbered apart from the other programs' inputs.
const FIRST: u64 = 1 << 41;

/// The program reads no more than this.
const MOST_INPUT: usize = 240_000;
const MOST_TABLES: usize = 60;
const MOST_OUTPUT: usize = 4_400;

/// Tables up to this length are run to the end, and by the plain engine now and then.
const WHOLE_RUN: usize = 250;

/// Tables up to this length are run by the slow mode now and then.
const SLOW_RUN: usize = 60;

/// What was handed over and what came of it.
#[derive(Default, Clone, Copy)]
pub struct Figures {
    pub tables: u64,
    pub calls: u64,
    pub rounds: u64,
    /// Calls refused by 3 to 8 or 15.
    pub refused: u64,
    /// Calls that answered void.
    pub void: u64,
    /// Tables with barred combinations.
    pub barred: u64,
    /// Calls refused by 11.
    pub met_11: u64,
    /// Calls after which a pair is passed over.
    pub passed: u64,
    /// Pair rounds of a pair that was passed over before an earlier call or this one.
    pub back: u64,
    /// Of families: calls that found a value, and calls that found none.
    pub found: u64,
    pub none: u64,
}

impl Figures {
    pub fn add(&mut self, other: &Figures) {
        self.tables += other.tables;
        self.calls += other.calls;
        self.rounds += other.rounds;
        self.refused += other.refused;
        self.void += other.void;
        self.barred += other.barred;
        self.met_11 += other.met_11;
        self.passed += other.passed;
        self.back += other.back;
        self.found += other.found;
        self.none += other.none;
    }
}

#[derive(Clone, Copy)]
enum Call {
    Run(Rounds, u64),
    Round,
}

impl Call {
    fn kind(self) -> i64 {
        match self {
            Call::Run(Rounds::All, _) => 20,
            Call::Run(Rounds::Pairs, _) => 24,
            Call::Round => 21,
        }
    }

    /// A round is a run of at most one, without the void line that may come after it.
    fn run(self, engine: Engine, case: &Case) -> Run {
        let Call::Run(kind, limit) = self else {
            let mut run = engine(case, Rounds::All, 1);
            if run.rounds == 1 {
                let ends = |line: &[u8]| line.starts_with(b" 4");
                let lines = 1 + run.log.chunks(LINE_BYTES).take_while(|line| !ends(line)).count();
                run.log.truncate(lines * LINE_BYTES);
                run.stop = Stop::Limit;
            }
            return run;
        };
        engine(case, kind, limit)
    }

    fn write(self, out: &mut Vec<u8>, bytes: usize) {
        let limit = match self {
            Call::Run(_, limit) => limit as i64,
            Call::Round => 0,
        };
        line::write(out, self.kind(), bytes as i64, 0, 0, limit);
    }

    /// The line printed before the output.
    fn answer(self, run: &Run) -> String {
        let (kind, limit) = match self {
            Call::Round => return round_answer(run),
            Call::Run(kind, limit) => (kind, limit),
        };
        let word = if kind == Rounds::All { "run" } else { "pairs" };
        let stop = match run.stop {
            Stop::Settled => "settled".into(),
            Stop::Limit => "limit".into(),
            Stop::Void => "void".into(),
            Stop::Refused(number) => format!("refused {number}"),
        };
        format!("{word} {limit} {stop} {} {}\n", run.rounds, run.upper_bound)
    }
}

fn round_answer(run: &Run) -> String {
    match run.stop {
        Stop::Refused(number) => format!("round refused {number}\n"),
        Stop::Void => format!("round void {}\n", run.log.len()),
        _ if run.rounds == 0 => "round settled\n".into(),
        _ => format!("round made {} {}\n", run.log.len(), run.upper_bound),
    }
}

/// What the output holds afterwards: each round is written from its first byte.
fn last_written(log: &[u8], bytes: usize) -> Vec<u8> {
    let mut output = vec![b'.'; bytes];
    let mut at = 0;
    for bytes in log.chunks(LINE_BYTES) {
        output[at..at + LINE_BYTES].copy_from_slice(bytes);
        let ends = bytes.starts_with(b" 4");
        at = if ends { 0 } else { at + LINE_BYTES };
    }
    output
}

/// What the output must hold at least.
pub fn needed(case: &Case) -> usize {
    LINE_BYTES * (case.scopes() + 2 * case.values + 1)
}

/// The first of the numbers 3 to 8 and 15 that applies to the call.
pub fn refusal(case: &Case, bytes: usize) -> Option<u8> {
    lent::refusal(case, bytes < needed(case), false)
}

/// The table's lines, kinds 11 and 13 for barred places too; a table of another length
/// ends with fewer or more weights.
pub fn table_lines(case: &Case) -> Vec<u8> {
    let length = table_length(case.variables, case.values, case.edges.len());
    let held = case.weights.len();
    let mut whole = case.clone();
    whole.weights.resize(length.max(held), 0);
    let mut lines = case::write_numbers(&whole);
    for _ in held..length {
        lines.truncate(lines.len() - LINE_BYTES);
    }
    for &weight in case.weights.iter().skip(length) {
        line::write(&mut lines, 13, 0, 0, 0, weight.into());
    }
    lines
}

/// Several tables in one input, and what the program must print.
#[derive(Default)]
pub struct Batch {
    pub input: Vec<u8>,
    pub output: Vec<u8>,
    pub figures: Figures,
}

impl Batch {
    pub fn hand_over(&mut self, name: &str, case: &Case) {
        let name = format!("{name:<26.26}\n").into_bytes();
        self.input.extend_from_slice(&name);
        self.output.extend(name);
        self.input.extend(table_lines(case));
        self.figures.tables += 1;
        self.figures.barred += u64::from(case.has_barred());
    }

    fn print(&mut self, call: Call, bytes: usize, run: &Run) {
        call.write(&mut self.input, bytes);
        self.output.extend(call.answer(run).into_bytes());
        self.output.extend(last_written(&run.log, bytes));
        self.output.push(b'\n');
        self.figures.calls += 1;
        self.figures.rounds += run.rounds;
        self.figures.void += u64::from(run.stop == Stop::Void);
    }

    fn print_weights(&mut self, weights: &[i32]) {
        line::write(&mut self.input, 23, weights.len() as i64, 0, 0, 0);
        let numbers = weights.iter().map(|weight| format!(" {weight}"));
        let numbers: String = numbers.collect();
        self.output.extend(format!("weights{numbers}\n").into_bytes());
    }

    /// Whether both together are not too long.
    pub fn has_room(&self, other: &Batch) -> bool {
        self.input.len() + other.input.len() <= MOST_INPUT
    }

    pub fn join(&mut self, other: Batch) {
        self.input.extend(other.input);
        self.output.extend(other.output);
        self.figures.add(&other.figures);
    }
}

/// A table with calls made on it, and the pairs passed over so far.
struct Table {
    case: Case,
    engine: Engine,
    passed: Vec<usize>,
}

impl Table {
    fn call(&mut self, batch: &mut Batch, call: Call, bytes: usize) {
        let run = match refusal(&self.case, bytes) {
            Some(number) => {
                batch.figures.refused += 1;
                refused(number, &self.case)
            }
            None => self.run(&mut batch.figures, call),
        };
        batch.print(call, bytes, &run);
        self.case.weights = run.weights;
        batch.print_weights(&self.case.weights);
    }

    fn run(&mut self, figures: &mut Figures, call: Call) -> Run {
        self.passed.extend(engine::passed_over(&self.case));
        let run = call.run(self.engine, &self.case);
        let weights = run.weights.clone();
        let after = Case { weights, ..self.case.clone() };
        let back = |&edge: &usize| self.passed.contains(&edge);
        figures.back += shifted(&run.log).iter().filter(|edge| back(edge)).count() as u64;
        figures.met_11 += u64::from(run.stop == Stop::Refused(11));
        figures.passed += u64::from(!engine::passed_over(&after).is_empty());
        run
    }
}

fn refused(number: u8, case: &Case) -> Run {
    Run {
        stop: Stop::Refused(number),
        rounds: 0,
        upper_bound: 0,
        log: vec![],
        weights: case.weights.clone(),
    }
}

/// The pairs of a log's pair rounds.
fn shifted(log: &[u8]) -> Vec<usize> {
    let lines = log.chunks(LINE_BYTES).filter_map(line::parse);
    let shifts = lines.filter(|line| line.kind == 1);
    let mut edges: Vec<usize> = shifts.map(|line| line.a as usize).collect();
    edges.dedup();
    edges
}

/// The runs made by hand.
pub fn samples() -> Batch {
    let mut batch = Batch::default();
    for (name, case, (kind, limit), run) in pair_samples::runs() {
        batch.hand_over(name, &case);
        batch.print(Call::Run(kind, limit), needed(&case), &run);
        batch.print_weights(&run.weights);
        batch.figures.met_11 += u64::from(run.stop == Stop::Refused(11));
        let weights = run.weights;
        let after = engine::passed_over(&Case { weights, ..case });
        batch.figures.passed += u64::from(!after.is_empty());
    }
    for (name, case, number) in barred_samples::refused() {
        batch.hand_over(name, &case);
        for call in [Call::Run(Rounds::All, 5), Call::Run(Rounds::Pairs, 0), Call::Round] {
            batch.print(call, needed(&case), &refused(number, &case));
            batch.print_weights(&case.weights);
            batch.figures.refused += 1;
        }
    }
    batch
}

/// A table with one run to the end, and that run.
pub fn whole_run(name: &str, case: &Case, kind: Rounds) -> (Batch, Run) {
    let mut batch = Batch::default();
    batch.hand_over(name, case);
    let call = Call::Run(kind, 999_999_999_999);
    let run = call.run(engine::run_case, case);
    batch.print(call, needed(case), &run);
    batch.print_weights(&run.weights);
    batch.figures.met_11 += u64::from(run.stop == Stop::Refused(11));
    (batch, run)
}

/// Batch number `index` of a seed.
pub fn batch(seed: u64, index: u64) -> Batch {
    fill(&mut random_for(seed, FIRST + index), index, one_table)
}

/// Tables until there are enough, each with its calls.
pub fn fill(random: &mut Random, index: u64, one: fn(&mut Random, &str) -> Batch) -> Batch {
    let mut batch = Batch::default();
    for at in 0..MOST_TABLES {
        let next = one(random, &format!("table {at} of {index}"));
        if !batch.has_room(&next) {
            break;
        }
        batch.join(next);
    }
    batch
}

fn one_table(random: &mut Random, name: &str) -> Batch {
    let case = match random.below(10) {
        0 => spoilt_case(random),
        _ => some_table(random),
    };
    let mut batch = Batch::default();
    batch.hand_over(name, &case);
    let engine = some_engine(random, &case);
    let passed = vec![];
    let mut table = Table { case, engine, passed };
    for _ in 0..1 + random.below(5) {
        let call = some_call(random, &table.case);
        let bytes = some_length(random, &table.case);
        table.call(&mut batch, call, bytes);
    }
    batch
}

/// Mostly tables that are not starting weights.
fn some_table(random: &mut Random) -> Case {
    let case = match random.below(3) {
        0 => sized_case(random),
        1 => any_case(random, 8, 3, 14),
        _ => small_case(random),
    };
    match random.below(8) {
        0 => case,
        1 => any_table_for(random, &case),
        _ => border_for(random, &case),
    }
}

fn some_engine(random: &mut Random, case: &Case) -> Engine {
    let length = case.weights.len();
    match random.below(8) {
        0 if length <= SLOW_RUN => slow::engine::run,
        1 | 2 if length <= WHOLE_RUN => plain::run_case,
        _ => engine::run_case,
    }
}

fn some_call(random: &mut Random, case: &Case) -> Call {
    let small = case.weights.len() <= WHOLE_RUN;
    let most = *random.pick(&[30, 30, 30, 300]);
    let limit = match random.below(4) {
        0 if small => 999_999_999_999,
        1 => 0,
        2 => random.below(4) as u64,
        _ => random.below(most) as u64,
    };
    match random.below(5) {
        0 | 1 => Call::Round,
        2 => Call::Run(Rounds::Pairs, limit),
        _ => Call::Run(Rounds::All, limit),
    }
}

/// Mostly what is needed, sometimes one byte less or more than enough.
fn some_length(random: &mut Random, case: &Case) -> usize {
    let needed = needed(case).min(MOST_OUTPUT);
    match random.below(24) {
        0 => random.below(needed),
        1 => needed - 1,
        2 | 3 => needed + random.below(MOST_OUTPUT - needed + 1),
        _ => needed,
    }
}

/// A case to which, mostly, some of the numbers 3 to 8 apply.
pub fn spoilt_case(random: &mut Random) -> Case {
    if random.chance(1, 6) {
        return too_large(random);
    }
    let case = any_case(random, 6, 3, 8);
    let mut case = border_for(random, &case);
    for _ in 0..1 + random.below(2) {
        spoil(random, &mut case);
    }
    case
}

fn spoil(random: &mut Random, case: &mut Case) {
    let most = *random.pick(&[WORK_LIMIT + 1, 1_999_999_999, 2_000_000_000, 2_000_000_001]);
    let weight = *random.pick(&[most, -most]) as i32;
    let place = random.below(case.weights.len());
    let edge = random.below(case.edges.len());
    let (paired, n) = (!case.edges.is_empty(), case.variables);
    let whole = case.weights.len() == table_length(n, case.values, case.edges.len());
    match random.below(9) {
        7 | 8 if whole => {
            let scope = plain::part(case, random.below(case.scopes()));
            case.weights[scope].fill(BARRED);
        }
        0 if whole && place > 0 => drop(case.weights.pop()),
        1 => case.weights.push(0),
        2 if paired => case.edges[edge].1 = n + random.below(3),
        3 if paired => case.edges[edge].0 = n,
        4 if paired => case.edges[edge] = (case.edges[edge].1, case.edges[edge].0),
        5 if paired => case.edges[edge] = case.edges[0],
        _ => case.weights[place] = weight,
    }
}

/// A case outside the limits.
fn too_large(random: &mut Random) -> Case {
    let sizes = [(49, 1, 0), (49, 2, 9), (2, 9, 1), (16, 1, 97), (16, 2, 97), (0, 2, 0), (2, 0, 1)];
    let (variables, values, edges) = *random.pick(&sizes);
    let ends = |edge| (edge % 14, 15 - edge / 14);
    Case {
        variables,
        values,
        edges: (0..edges).map(ends).collect(),
        weights: vec![0; table_length(variables, values, edges)],
    }
}
