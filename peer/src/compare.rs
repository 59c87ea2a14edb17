//! The comparison: samples, fast reading against slow one, and other programs
//! against the fast reading, byte for byte.

use crate::calls::{self, Batch};
use crate::check::{every, Check, Difference};
use crate::counts::Counts;
use crate::inputs::{input_for, random_for, sized_case, Program};
use crate::options::Options;
use crate::outside::Outside;
use crate::{case, family_calls, joins, links, loop_calls, programs, samples};
use std::path::{Path, PathBuf};
use std::process::ExitCode;
use std::time::{Duration, Instant};

mod forests;

const DEFAULT_SECONDS: u64 = 90;
const DEFAULT_KEEP: &str = "peer/target/failed";

/// When to stop: after some time, or after a number of cases.
enum End {
    At(Instant),
    After(u64),
}

impl End {
    fn reached(&self, done: u64) -> bool {
        match self {
            End::At(time) => Instant::now() >= *time,
            End::After(count) => done >= *count,
        }
    }
}

fn in_seconds(seconds: f64) -> End {
    End::At(Instant::now() + Duration::from_secs_f64(seconds))
}

/// `peer check`: no other programs.
pub fn check(options: &mut Options) -> Result<ExitCode, String> {
    let seed = options.number("seed", 1)?;
    let keep = PathBuf::from(options.text("keep").unwrap_or(DEFAULT_KEEP.into()));
    let seconds = options.number("seconds", DEFAULT_SECONDS)?;
    let cases = options.number("cases", 0)?;
    let counts = options.flag("counts");
    options.finish()?;
    println!("seed {seed}");
    let end = if cases > 0 {
        End::After(cases)
    } else {
        in_seconds(seconds as f64)
    };
    let began = Instant::now();
    let mut check = Check::new();
    let result = samples_first().and_then(|samples| {
        against_slow(&mut check, seed, &end)?;
        Ok(samples)
    });
    finish(
        result,
        &keep,
        "check",
        seed,
        |samples| {
            if counts {
                check.counts.print();
            }
            format!(
                "samples {samples}, {}, {}",
                slow_figures(&check),
                missing(&[&check.counts])
            )
        },
        began,
    )
}

/// `peer compare`: the same, then the programs that are there.
pub fn compare(options: &mut Options) -> Result<ExitCode, String> {
    let seed = options.number("seed", 1)?;
    let keep = PathBuf::from(options.text("keep").unwrap_or(DEFAULT_KEEP.into()));
    let seconds = options.number("seconds", DEFAULT_SECONDS)? as f64;
    let names = ["press", "replay", "engine", "families", "calls"];
    let paths = names.map(|name| options.text(name));
    let counts = options.flag("counts");
    options.finish()?;
    println!("seed {seed}");
    let began = Instant::now();
    let mut check = Check::new();
    let mut programs = Programs::new(paths, &keep)?;
    let shares = programs.shares().map(|share| share * seconds);
    let [slow, files, forests, tables, families, loops] = shares;
    let result = samples_first().and_then(|samples| {
        against_slow(&mut check, seed, &in_seconds(slow))?;
        programs.samples()?;
        programs.generated(seed, &in_seconds(files))?;
        programs.forests(seed, &in_seconds(forests))?;
        programs.batches(Calls::Engine, seed, &in_seconds(tables))?;
        programs.batches(Calls::Families, seed, &in_seconds(families))?;
        programs.batches(Calls::Loops, seed, &in_seconds(loops))?;
        Ok(samples)
    });
    finish(
        result,
        &keep,
        "compare",
        seed,
        |samples| {
            if counts {
                print_counts(&check.counts, &programs.counts);
            }
            let seen = missing(&[&check.counts, &programs.counts]);
            format!(
                "samples {samples}, {}, {}, {seen}",
                slow_figures(&check),
                programs.figures()
            )
        },
        began,
    )
}

fn print_counts(slow: &Counts, programs: &Counts) {
    println!("fast against slow:");
    slow.print();
    println!("programs against fast:");
    programs.print();
}

/// `peer every`: all tables of a size, or one of so many.
pub fn every(options: &mut Options) -> Result<ExitCode, String> {
    let keep = PathBuf::from(options.text("keep").unwrap_or(DEFAULT_KEEP.into()));
    let links = options.size("links", 1, 4, 2)?;
    let values = options.size("values", 1, 4, 2)?;
    let pairs = options.size("pairs", 0, 6, 1)?;
    let most = options.size("weights", 0, 9, 1)? as i32;
    let part = options.number("part", 1)?.max(1);
    let seed = options.number("seed", 1)?;
    options.finish()?;
    let began = Instant::now();
    let mut check = Check::new();
    let mut random = random_for(seed, 0);
    let mut case = every::empty_case(links, values, pairs);
    every::first(&mut case);
    let mut result = Ok(0);
    while every::advance(&mut case, most) {
        if part > 1 && !random.chance(1, part) {
            continue;
        }
        if let Err(difference) = check.each(&mut random, &case) {
            result = Err(difference);
            break;
        }
    }
    finish(result, &keep, "every", seed, |_| slow_figures(&check), began)
}

fn samples_first() -> Result<usize, Difference> {
    let counts = samples::check().and_then(|count| Ok(count + loop_calls::check()?));
    counts.map_err(|what| Difference {
        what,
        input: vec![],
    })
}

fn against_slow(check: &mut Check, seed: u64, end: &End) -> Result<(), Difference> {
    let mut index = 0;
    while !end.reached(index) {
        check.one(seed, index).map_err(|difference| Difference {
            what: format!("case {index}: {}", difference.what),
            ..difference
        })?;
        index += 1;
    }
    Ok(())
}

fn slow_figures(check: &Check) -> String {
    let figures = check.figures;
    format!(
        "slow mode: cases {} and {} large, comparisons {} (refutations {}, runs {}, lines {}, \
         lists {}, programs {}, others {}; rounds with a climb {}, void lists {}; cases barred \
         {}, without a lawful plan {}), {}, {}, graphs {} (without a loop {}), {}, {}",
        figures.cases,
        figures.large,
        figures.comparisons(),
        figures.refutations,
        figures.runs,
        figures.lines,
        figures.lists,
        figures.programs,
        figures.others,
        figures.climbs,
        figures.voids,
        figures.barred,
        figures.unlawful,
        pair_figures(check),
        family_figures(check),
        figures.chains.graphs,
        figures.chains.without,
        chain_figures(check),
        link_figures(check)
    )
}

fn link_figures(check: &Check) -> String {
    let links = check.figures.links;
    format!(
        "{}; stretches {}, states with every plan listed {}, quiet states without a loop {} ({} \
         with a carry), flat links there and back with a carry {}",
        links.made.text(),
        links.stretches,
        links.states,
        links.quiet,
        links.carried,
        links.returned
    )
}

fn chain_figures(check: &Check) -> String {
    let chains = check.figures.chains;
    format!(
        "quiet tables without a loop {} ({} barred) and {} larger, runs void {}, quiet after \
         shifts only {} (not quiet {}), settled after a press {} ({} with a ceiling above the \
         best total before, {} with no best plan of active combinations), quiet tables with a \
         loop {} ({} without a plan of active combinations)",
        chains.quiet,
        chains.barred,
        chains.larger,
        chains.void,
        chains.shifted,
        chains.unquiet,
        chains.pressed,
        chains.above,
        chains.worse,
        chains.with_loop,
        chains.stuck
    )
}

fn family_figures(check: &Check) -> String {
    let families = check.figures.families;
    format!(
        "family calls {} (values found {}, {} of them not the lowest active one, families without \
         an active value {}, partners not the lowest active one {}, values of a family refuted at \
         their own link {}; refused by the last 5 {}, by other numbers {})",
        families.calls,
        families.found,
        families.not_lowest,
        families.narrowed,
        families.higher,
        families.refuted,
        families.none,
        families.numbers
    )
}

fn pair_figures(check: &Check) -> String {
    let pairs = check.figures.pairs;
    format!(
        "pair rounds {} ({} with a lower pair passed over, {} of one passed over before, {} of \
         one not lower before, {} after a press), presses with a pair passed over {}, pairs out of range half way only \
         {}, pairs without a choice {}, pairs not lower {}, runs void {}, refused {}, settled with a pair passed over {}",
        pairs.rounds,
        pairs.higher,
        pairs.back,
        pairs.lower_now,
        pairs.after_press,
        pairs.presses,
        pairs.half_way,
        pairs.no_choice,
        pairs.not_lower,
        pairs.void,
        pairs.refused,
        pairs.settled_passed
    )
}

/// Which numbers the programs can answer were not met.
fn missing(counts: &[&Counts]) -> String {
    let met = |part: &str, number: &u8| counts.iter().any(|c| c.numbers(part).contains(number));
    let case = [1, 2, 3, 5, 6, 7, 8, 14, 15]
        .into_iter()
        .filter(|number| !met("case", number));
    let of_joins: &[u8] = if joins::allowed() { &[3, 6, 7, 8, 15] } else { &[] };
    let log = [1, 2, 5, 9, 10, 11, 12, 13, 14, 16]
        .into_iter()
        .chain(of_joins.iter().copied())
        .filter(|number| !met("log", number));
    let (case, log): (Vec<u8>, Vec<u8>) = (case.collect(), log.collect());
    if case.is_empty() && log.is_empty() {
        return "every number met".into();
    }
    format!("numbers not met: case {case:?}, log {log:?}")
}

fn finish(
    result: Result<usize, Difference>,
    keep: &Path,
    name: &str,
    seed: u64,
    figures: impl FnOnce(usize) -> String,
    began: Instant,
) -> Result<ExitCode, String> {
    let seconds = began.elapsed().as_secs();
    match result {
        Ok(samples) => {
            let figures = figures(samples);
            println!("{name}: seed {seed}, {figures}, differences 0, {seconds} s");
            Ok(ExitCode::SUCCESS)
        }
        Err(difference) => {
            let kept = keep_input(keep, &difference, seed).map_err(|error| error.to_string())?;
            println!("{}", difference.what);
            println!(
                "{name}: seed {seed}, differences 1, kept in {}, {seconds} s",
                kept.display()
            );
            Ok(ExitCode::from(1))
        }
    }
}

fn keep_input(keep: &Path, difference: &Difference, seed: u64) -> std::io::Result<PathBuf> {
    std::fs::create_dir_all(keep)?;
    let stamp = std::process::id();
    let path = keep.join(format!("seed-{seed}-{stamp}.input"));
    std::fs::write(&path, &difference.input)?;
    std::fs::write(path.with_extension("txt"), &difference.what)?;
    Ok(path)
}

/// The programs that are handed tables.
#[derive(Clone, Copy, Debug)]
enum Calls {
    Engine,
    Families,
    Loops,
}

impl Calls {
    fn batch(self, seed: u64, index: u64) -> Batch {
        match self {
            Calls::Engine => calls::batch(seed, index),
            Calls::Families => family_calls::batch(seed, index),
            Calls::Loops => loop_calls::batch(seed, index),
        }
    }

    fn samples(self) -> Vec<Batch> {
        match self {
            Calls::Engine => vec![calls::samples()],
            Calls::Families => family_calls::samples(),
            Calls::Loops => vec![loop_calls::samples()],
        }
    }
}

/// The programs compared with the fast reading.
struct Programs {
    press: Option<Outside>,
    replay: Option<Outside>,
    /// The engine's, that of families and that of loops.
    callers: [Option<Outside>; 3],
    counts: Counts,
    compared: [u64; 2],
    /// Inputs of each with barred places.
    barred: [u64; 2],
    /// Logs that ended void.
    void: u64,
    /// Leaves and joins of the logs.
    links: links::Figures,
    called: [calls::Figures; 3],
    bytes: u64,
    /// What was found on forests.
    forests: Check,
}

impl Programs {
    fn new(paths: [Option<String>; 5], keep: &Path) -> Result<Programs, String> {
        let outside = |path: Option<String>| path.map(|path| Outside::new(&path, keep));
        let [press, replay, engine, families, loops] = paths.map(|path| outside(path).transpose());
        Ok(Programs {
            press: press?,
            replay: replay?,
            callers: [engine?, families?, loops?],
            counts: Counts::default(),
            compared: [0; 2],
            barred: [0; 2],
            void: 0,
            links: links::Figures::default(),
            called: [calls::Figures::default(); 3],
            bytes: 0,
            forests: Check::new(),
        })
    }

    /// Which part of the time goes to the slow mode, to inputs of `press` and `replay`, to
    /// forests, to tables for the engine, to tables for families and to loops.
    fn shares(&self) -> [f64; 6] {
        let files = self.press.is_some() || self.replay.is_some();
        let [engine, families, loops] = [0, 1, 2].map(|at| self.callers[at].is_some());
        let forests = self.press.is_some() || engine;
        let there = [files, forests, engine, families].map(|there| f64::from(u8::from(there)));
        let loops = 0.3 * f64::from(u8::from(loops));
        let all = there.iter().sum::<f64>() + loops;
        if all == 0.0 {
            return [1.0, 0.0, 0.0, 0.0, 0.0, 0.0];
        }
        let [files, forests, engine, families] = there.map(|one| 0.7 * one / all);
        [0.3, files, forests, engine, families, 0.7 * loops / all]
    }

    fn samples(&mut self) -> Result<(), Difference> {
        for (name, press, input, output) in samples::for_programs() {
            let program = if press {
                Program::Press
            } else {
                Program::Replay
            };
            self.ask(program, &input, &output, name)?;
        }
        for calls in [Calls::Engine, Calls::Families, Calls::Loops] {
            for batch in calls.samples() {
                self.call(calls, "samples", &batch)?;
            }
        }
        Ok(())
    }

    fn generated(&mut self, seed: u64, end: &End) -> Result<(), Difference> {
        if self.press.is_none() && self.replay.is_none() {
            return Ok(());
        }
        let mut index = 1 << 40;
        while !end.reached(index) {
            let mut random = random_for(seed, index);
            let case = sized_case(&mut random);
            for _ in 0..4 {
                let input = input_for(&mut random, &case);
                let expected = match input.program {
                    Program::Press => programs::press(&input.bytes),
                    Program::Replay => programs::replay(&input.bytes),
                };
                self.ask(
                    input.program,
                    &input.bytes,
                    &expected,
                    &format!("input {index}"),
                )?;
            }
            index += 1;
        }
        Ok(())
    }

    fn ask(
        &mut self,
        program: Program,
        input: &[u8],
        expected: &[u8],
        name: &str,
    ) -> Result<(), Difference> {
        let outside = match program {
            Program::Press => &mut self.press,
            Program::Replay => &mut self.replay,
        };
        let Some(outside) = outside else {
            return Ok(());
        };
        let barred = case::read_front(input).is_ok_and(|(case, _)| case.has_barred());
        answers(outside, &format!("{name}, program {program:?}"), input, expected)?;
        self.counts.note_output(input, expected);
        self.compared[program as usize] += 1;
        self.barred[program as usize] += u64::from(barred);
        self.void += u64::from(expected == b"void\n");
        if let Program::Replay = program {
            self.links.add(&programs::link_figures(input));
        }
        self.bytes += input.len() as u64;
        Ok(())
    }

    /// Working tables, many in one input.
    fn batches(&mut self, calls: Calls, seed: u64, end: &End) -> Result<(), Difference> {
        let mut index = 0;
        while self.callers[calls as usize].is_some() && !end.reached(index) {
            let batch = calls.batch(seed, index);
            self.call(calls, &format!("batch {index}"), &batch)?;
            index += 1;
        }
        Ok(())
    }

    fn call(&mut self, calls: Calls, name: &str, batch: &Batch) -> Result<(), Difference> {
        let Some(outside) = &mut self.callers[calls as usize] else {
            return Ok(());
        };
        let name = format!("{name}, program {calls:?}");
        answers(outside, &name, &batch.input, &batch.output)?;
        self.called[calls as usize].add(&batch.figures);
        self.bytes += batch.input.len() as u64;
        Ok(())
    }

    fn figures(&self) -> String {
        if self.shares()[0] == 1.0 {
            return "no programs".into();
        }
        let [press, replay] = self.compared;
        let [press_barred, replay_barred] = self.barred;
        format!(
            "press {press} inputs ({press_barred} barred), replay {replay} inputs ({replay_barred} \
             barred, {} void; {}), {}, {}, {}, by programs: {}, {} MB in",
            self.void,
            self.links.text(),
            self.call_figures(),
            self.family_figures(),
            self.loop_figures(),
            chain_figures(&self.forests),
            self.bytes / 1_000_000
        )
    }

    fn call_figures(&self) -> String {
        let [called, _, _] = self.called;
        format!(
            "engine {} tables ({} barred; {} calls, {} rounds; calls refused by 3 to 8 or 15 {}, \
             void {}, that met 11 {}, that ended with a pair passed over {}; pair rounds of one passed over before {})",
            called.tables,
            called.barred,
            called.calls,
            called.rounds,
            called.refused,
            called.void,
            called.met_11,
            called.passed,
            called.back
        )
    }

    fn family_figures(&self) -> String {
        let [_, called, _] = self.called;
        format!(
            "families {} tables ({} barred; {} calls, values found {}, refused by the last 5 {}, \
             by other numbers {})",
            called.tables, called.barred, called.calls, called.found, called.none, called.refused
        )
    }

    fn loop_figures(&self) -> String {
        let [_, _, called] = self.called;
        format!(
            "loops {} cases (none {}, some {}, refused {})",
            called.tables, called.found, called.none, called.refused
        )
    }
}

/// The program's answer to the input is the expected one.
fn answers(
    outside: &mut Outside,
    name: &str,
    input: &[u8],
    expected: &[u8],
) -> Result<(), Difference> {
    let (found, note) = outside.answer(input);
    if found == expected && note.is_empty() {
        return Ok(());
    }
    let same = found.iter().zip(expected).take_while(|(a, b)| a == b);
    let same = same.count();
    let what = format!(
        "{name} {note}\nbytes alike: {same}, lines {}{}\nfound:\n{}\nexpected:\n{}",
        expected[..same].iter().filter(|&&byte| byte == b'\n').count(),
        last_name(&expected[..same]),
        shown(&found, same),
        shown(expected, same)
    );
    Err(Difference {
        what,
        input: input.to_vec(),
    })
}

/// The last table named in an answer.
fn last_name(answer: &[u8]) -> String {
    let text = String::from_utf8_lossy(answer);
    let name = text.lines().rfind(|line| line.starts_with("table "));
    name.map_or(String::new(), |name| format!(", {}", name.trim_end()))
}

/// The answer, or some of it around a byte.
fn shown(bytes: &[u8], around: usize) -> String {
    let from = around.saturating_sub(300);
    let to = bytes.len().min(from + 600);
    let mut text = String::from_utf8_lossy(&bytes[from..to]).into_owned();
    if to - from < bytes.len() {
        text.push_str(&format!("... {} bytes in all", bytes.len()));
    }
    text
}
