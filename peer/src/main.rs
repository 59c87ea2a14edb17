//! The peer: a second reading of document 01 and of changes 1 to 5 of document 02 in plain
//! Rust, to hold programs, vectors and speed against. See ../README.md.

mod barred_samples;
mod bench;
mod calls;
mod case;
mod chains;
mod check;
mod compare;
mod counts;
mod damage;
mod engine;
mod families;
mod family_calls;
mod family_samples;
mod foreign;
mod forests;
mod generate;
mod inputs;
mod join_samples;
mod joins;
mod lent;
mod line;
mod links;
mod loop_calls;
mod loops;
mod options;
mod outside;
mod pair_samples;
mod plain;
mod plain_links;
mod plain_replay;
mod programs;
mod random;
mod refusals;
mod refute;
mod replay;
mod samples;
mod scopes;
mod score;
mod slow;
mod state;
mod types;
mod view;

use options::Options;
use random::Random;
use std::io::{Read, Write};
use std::process::ExitCode;
use types::*;

const USAGE: &str = "usage: peer COMMAND [OPTIONS]
  press [--pairs] [--limit ROUNDS] [--plain]  case file in, log out (by the plain engine)
  replay [--plain]            case file and log in, accepted, void or refused out
  slow-press [--pairs] [--limit ROUNDS], slow-replay  the same by the slow reading
  run-table [--pairs] [--limit ROUNDS] [--plain | --slow]  working table as a case file
                              in, log and settled, limit, void or refused 11 out
  family LINK [--table], slow-family LINK [--table]  case file (or working table) in, the
                              link's lowest value kept, its family and partners out
  loops                       case file in, no loop or loop out
  view ROUND                  log in, the round's lines out
  score FIRST SECOND          case file in, first or second out (plans like 0,1,0)
  total PLAN                  case file in, the plan's starting total out
  ceiling                     case file in, its ceiling out
  generate KIND [--seed S] [--links N] [--values D] [--pairs M] [--unusable PERCENT]
           [--barred PERCENT]
  foreign [--seed S] [--careful]    case file in, case file and a foreign log out
  directed [--seed S] [--careful]   a case file and a log aimed at leaves and joins out
  damage [--seed S]           any input in, damaged input out
  untrimmed [--rounds N]      case file in, a log of untrimmed presses by 1 out
  check [--seconds N | --cases N] [--seed S] [--keep DIR] [--counts]
  compare [--seconds N] [--seed S] [--press PROGRAM] [--replay PROGRAM] [--engine PROGRAM]
          [--families PROGRAM] [--calls PROGRAM] [--keep DIR] [--counts]
  every [--links N] [--values D] [--pairs M] [--weights W] [--part P] [--seed S] [--keep DIR]
                              every table of a small size with weights up to W in size, or
                              one of P of them: its runs with their facts, every void
                              line and leave, and the family of every link
  bench [--seconds N]         figures of speed
With --no-joins every command is as before change 5: kinds 7 and 8 are due nowhere.";

fn main() -> ExitCode {
    let arguments: Vec<String> = std::env::args().skip(1).collect();
    let Some((command, rest)) = arguments.split_first() else {
        return usage("no command");
    };
    match Options::new(command, rest).and_then(|mut options| {
        if options.flag("no-joins") {
            joins::forbid();
        }
        let code = run(command, &mut options)?;
        Ok(code)
    }) {
        Ok(code) => code,
        Err(message) => usage(&message),
    }
}

fn usage(message: &str) -> ExitCode {
    eprintln!("peer: {message}\n{USAGE}");
    ExitCode::from(2)
}

fn run(command: &str, options: &mut Options) -> Result<ExitCode, String> {
    match command {
        "press" => press(options),
        "replay" if options.flag("plain") => print_after(options, programs::plain_replay),
        "replay" => print_after(options, programs::replay),
        "slow-press" => slow_press(options),
        "slow-replay" => print_after(options, slow::programs::replay),
        "run-table" => run_table(options),
        "family" => family(options, case::read_alone, families::show),
        "slow-family" => family(options, slow::case::read_alone, slow::families::show),
        "loops" => loops_of_pairs(options),
        "view" => view_round(options),
        "score" => score_plans(options),
        "total" => total(options),
        "ceiling" => print_after(options, ceiling),
        "generate" => generate_case(options),
        "foreign" => foreign_log(options),
        "untrimmed" => untrimmed_log(options),
        "directed" => directed_log(options),
        "damage" => {
            let mut random = Random::new(options.number("seed", 1)?);
            print_after(options, |input| damage::damage(&mut random, input))
        }
        "check" => compare::check(options),
        "compare" => compare::compare(options),
        "every" => compare::every(options),
        "bench" => bench::bench(options),
        _ => Err(format!("no command {command}")),
    }
}

fn input() -> Vec<u8> {
    let mut bytes = Vec::new();
    std::io::stdin()
        .lock()
        .read_to_end(&mut bytes)
        .expect("standard input");
    bytes
}

fn output(bytes: &[u8]) -> Result<ExitCode, String> {
    std::io::stdout()
        .lock()
        .write_all(bytes)
        .map_err(|error| error.to_string())?;
    Ok(ExitCode::SUCCESS)
}

/// Reads standard input and prints what the function makes of it.
fn print_after(
    options: &Options,
    answer: impl FnOnce(&[u8]) -> Vec<u8>,
) -> Result<ExitCode, String> {
    options.finish()?;
    output(&answer(&input()))
}

fn rounds_option(options: &mut Options) -> Result<(Rounds, u64), String> {
    let kind = match options.flag("pairs") {
        true => Rounds::Pairs,
        false => Rounds::All,
    };
    Ok((kind, options.number("limit", PROGRAM_ROUNDS)?))
}

fn press(options: &mut Options) -> Result<ExitCode, String> {
    let (kind, limit) = rounds_option(options)?;
    let engine = match options.flag("plain") {
        true => plain::run_case,
        false => engine::run_case,
    };
    print_after(options, |input| {
        programs::press_by(input, engine, kind, limit)
    })
}

fn slow_press(options: &mut Options) -> Result<ExitCode, String> {
    let (kind, limit) = rounds_option(options)?;
    print_after(options, |input| {
        slow::programs::press_rounds(input, kind, limit)
    })
}

fn run_table(options: &mut Options) -> Result<ExitCode, String> {
    let (kind, limit) = rounds_option(options)?;
    let engine = match (options.flag("plain"), options.flag("slow")) {
        (true, _) => plain::run_case,
        (_, true) => slow::engine::run,
        _ => engine::run_case,
    };
    print_after(options, |input| {
        programs::run_table(input, engine, kind, limit)
    })
}

type Reader = fn(&[u8]) -> Result<(Case, usize), Refusal>;

fn family(options: &mut Options, read: Reader, show: programs::Show) -> Result<ExitCode, String> {
    let link = options.word("LINK")?;
    let link: i64 = link.parse().map_err(|_| "LINK is no number")?;
    let read = if options.flag("table") { case::read_table } else { read };
    print_after(options, |input| programs::family(read(input), show, link))
}

/// Asks both readings; ends with 1 if they differ.
fn loops_of_pairs(options: &Options) -> Result<ExitCode, String> {
    options.finish()?;
    let (case, _) = match case::read_alone(&input()) {
        Ok(read) => read,
        Err(refusal) => return output(&programs::refusal_text(refusal)),
    };
    match loops::no_loop_both_ways(&case) {
        [true, true] => output(b"no loop\n"),
        [false, false] => output(b"loop\n"),
        [taken, searched] => {
            eprintln!("peer: no loop by taking links away {taken}, by searching {searched}");
            Ok(ExitCode::from(1))
        }
    }
}

fn ceiling(input: &[u8]) -> Vec<u8> {
    match case::read_alone(input) {
        Ok((case, _)) => format!("{}\n", state::State::new(&case).upper_bound).into_bytes(),
        Err(refusal) => programs::refusal_text(refusal),
    }
}

fn view_round(options: &mut Options) -> Result<ExitCode, String> {
    let round = options
        .word("ROUND")?
        .parse()
        .map_err(|_| "ROUND is no number")?;
    print_after(options, |log| match view::view(log, round) {
        Ok(stretch) => stretch.to_vec(),
        Err(refusal) => programs::refusal_text(refusal),
    })
}

fn plan(text: &str) -> Result<Vec<u64>, String> {
    if text.is_empty() {
        return Ok(vec![]);
    }
    text.split(',')
        .map(|value| value.parse().map_err(|_| format!("bad plan {text}")))
        .collect()
}

/// Reads the case alone; the answer is a word or a number refused.
fn about_case(
    options: &Options,
    answer: impl FnOnce(&Case) -> Result<String, u8>,
) -> Result<ExitCode, String> {
    print_after(options, |input| match case::read_alone(input) {
        Ok((case, _)) => match answer(&case) {
            Ok(text) => format!("{text}\n").into_bytes(),
            Err(number) => format!("refused {number}\n").into_bytes(),
        },
        Err(refusal) => programs::refusal_text(refusal),
    })
}

fn score_plans(options: &mut Options) -> Result<ExitCode, String> {
    let first = plan(&options.word("FIRST")?)?;
    let second = plan(&options.word("SECOND")?)?;
    about_case(options, |case| {
        score::score(case, &first, &second).map(|better| match better {
            Better::First => "first".into(),
            Better::Second => "second".into(),
        })
    })
}

fn total(options: &mut Options) -> Result<ExitCode, String> {
    let plan = plan(&options.word("PLAN")?)?;
    about_case(options, |case| {
        score::objective(case, &plan).map(|total| total.to_string())
    })
}

fn generate_case(options: &mut Options) -> Result<ExitCode, String> {
    let name = options.word("KIND")?;
    let mut random = Random::new(options.number("seed", 1)?);
    let variables = options.size("links", 1, MAX_VARIABLES, 8)?;
    let values = options.size("values", 1, MAX_VALUES, 4)?;
    let edges = options.size("pairs", 0, MAX_EDGES, 2 * variables)?;
    let (shape, weights, share) = generate::kind(&name)
        .ok_or_else(|| format!("no kind {name}; there are {}", generate::KINDS.join(", ")))?;
    let unusable = options.number("unusable", share)?;
    let bars = match options.number("barred", 0)? {
        0 => generate::Bars::None,
        percent => generate::Bars::Share(percent),
    };
    options.finish()?;
    let plan = generate::Plan {
        shape,
        weights,
        unusable,
        bars,
        variables,
        values,
        edges,
    };
    output(&case::write(&generate::case(&mut random, plan)))
}

fn untrimmed_log(options: &mut Options) -> Result<ExitCode, String> {
    let rounds = options.number("rounds", 1000)?;
    print_after(options, |input| match case::read_alone(input) {
        Ok((case, _)) => bench::raise_log(&case, rounds as usize),
        Err(refusal) => programs::refusal_text(refusal),
    })
}

fn foreign_log(options: &mut Options) -> Result<ExitCode, String> {
    let mut random = Random::new(options.number("seed", 1)?);
    let careless = !options.flag("careful");
    print_after(options, |input| match case::read_alone(input) {
        Ok((case, _)) => [input.to_vec(), foreign::mixed(&mut random, &case, careless)].concat(),
        Err(refusal) => programs::refusal_text(refusal),
    })
}

fn directed_log(options: &mut Options) -> Result<ExitCode, String> {
    let mut random = Random::new(options.number("seed", 1)?);
    let careless = !options.flag("careful");
    options.finish()?;
    if !joins::allowed() {
        return Err("directed logs hold leaves and joins".into());
    }
    let (case, log) = foreign::directed::any(&mut random, careless);
    output(&[case::write(&case), log].concat())
}
