//! The samples P1 to P12 of document 01, P5 as document 02 restates it, and P13 of the
//! register, asked of both readings.

use crate::refusals::by_hand;
use crate::types::*;
use crate::{barred_samples, case, engine, family_samples, join_samples, pair_samples};
use crate::{plain, programs, slow};

#[derive(Clone)]
pub struct Sample {
    pub name: &'static str,
    pub input: Vec<u8>,
    /// True for `press`, false for `replay`.
    pub press: bool,
    pub output: String,
}

const P1_LOG: &str = " 2   0   3   0           1
 3   3   0   0           0
 3   4   0   0           0
 3   5   0   0           0
 4   0   0   0          -1
";

pub fn case_of(values: usize, edges: &[(usize, usize)], weights: &[i32]) -> Case {
    let pairs = edges.len() * values * values;
    let variables = (weights.len() - pairs) / values;
    Case {
        variables,
        values,
        edges: edges.to_vec(),
        weights: weights.to_vec(),
    }
}

pub fn triangle() -> Case {
    let pair = [-1, 0, 0, -1];
    let weights = [[0; 6].as_slice(), &pair, &pair, &pair].concat();
    case_of(2, &[(0, 1), (0, 2), (1, 2)], &weights)
}

/// P1's case with −3 for equal values and −1 at link 0, value 1: no pair round.
fn uneven_triangle() -> Case {
    let pair = [-3, 0, 0, -3];
    let weights = [[0, -1, 0, 0, 0, 0].as_slice(), &pair, &pair, &pair].concat();
    case_of(2, &[(0, 1), (0, 2), (1, 2)], &weights)
}

fn triangle_press(amount: i64, bound: i64) -> Vec<u8> {
    let raise = |scope| [3, scope, 0, 0, 0];
    let press = [2, 0, 3, 0, amount];
    lines(&[press, raise(3), raise(4), raise(5), [4, 0, 0, 0, bound]])
}

fn two(first: [i32; 2], second: [i32; 2], pair: [i32; 4]) -> Case {
    case_of(2, &[(0, 1)], &[&first[..], &second[..], &pair[..]].concat())
}

pub fn p4() -> Case {
    two([2, 0], [2, 0], [-3, 0, 0, 0])
}

pub fn p10() -> Case {
    two([3, 4], [6, 2], [-2, -4, 1, 1])
}

pub fn single() -> Case {
    case_of(1, &[], &[-7])
}

pub fn lines(numbers: &[[i64; 5]]) -> Vec<u8> {
    let mut text = Vec::new();
    for &[kind, a, b, c, amount] in numbers {
        text.extend(slow::line::write(Line {
            kind,
            a,
            b,
            c,
            amount,
        }));
    }
    text
}

/// A press of P4 as other engines may make it, and a bound line.
fn press_by(amount: i64, bound: i64) -> Vec<u8> {
    let press = [2, 0, 2, 0, amount];
    lines(&[press, [3, 1, 0, 0, 0], [3, 2, 0, 0, 0], [4, 0, 0, 0, bound]])
}

/// P5's pair round.
fn shifts_of_p5() -> Vec<u8> {
    lines(&[[1, 0, 0, 0, -2], [1, 0, 1, 0, -2], [4, 0, 0, 0, 2]])
}

pub fn replayed(name: &'static str, case: &Case, log: &[u8], output: &str) -> Sample {
    let input = [slow::case::write(case), log.to_vec()].concat();
    Sample {
        name,
        input,
        press: false,
        output: format!("{output}\n"),
    }
}

pub fn pressed(name: &'static str, case: &Case, output: &[u8]) -> Sample {
    let output = String::from_utf8_lossy(output).into_owned();
    Sample {
        name,
        input: slow::case::write(case),
        press: true,
        output,
    }
}

fn program_samples() -> Vec<Sample> {
    let without_5 = lines(&[
        [2, 0, 2, 0, 1],
        [3, 3, 0, 0, 0],
        [3, 4, 0, 0, 0],
        [4, 0, 0, 0, -1],
    ]);
    let shift = lines(&[[1, 0, 0, 0, -2], [4, 0, 0, 0, 4]]);
    vec![
        pressed("P1 P2 press", &triangle(), P1_LOG.as_bytes()),
        replayed(
            "P1 P2 replay",
            &triangle(),
            P1_LOG.as_bytes(),
            "accepted 1 -1",
        ),
        replayed("P1 no lines", &triangle(), b"", "accepted 0 0"),
        replayed("P3", &triangle(), &without_5, "refused 10 24"),
        pressed("P4 P5 press", &p4(), &shifts_of_p5()),
        replayed("P4 P5 replay", &p4(), &shifts_of_p5(), "accepted 1 2"),
        replayed("P4 press by 2", &p4(), &press_by(2, 2), "accepted 1 2"),
        replayed("P4 no lines", &p4(), b"", "accepted 0 4"),
        replayed("P6", &p4(), &press_by(1, 3), "accepted 1 3"),
        replayed("P7", &p4(), &press_by(3, 3), "accepted 1 3"),
        replayed("P8", &p4(), &press_by(4, 5), "refused 13 13"),
        replayed("P9", &p4(), &shift, "refused 13 11"),
        pressed("P10 press", &p10(), b""),
        replayed("P10 replay", &p10(), b"", "accepted 0 11"),
        pressed("P11 press", &single(), b""),
        replayed("P11 replay", &single(), b"", "accepted 0 -7"),
    ]
}

fn limit_samples() -> Vec<Sample> {
    let wide = |links: usize| lines(&[[10, links as i64, 1, 0, 0]]);
    let links = |links: usize| {
        let mut file = wide(links);
        for link in 0..links {
            file.extend(lines(&[[11, link as i64, 0, 0, 0]]));
        }
        file
    };
    let weight = |weight: i64| lines(&[[10, 1, 1, 0, 0], [11, 0, 0, 0, weight]]);
    let sample = |name, input, output: &str| Sample {
        name,
        input,
        press: true,
        output: output.to_string(),
    };
    vec![
        sample("48 links", links(48), ""),
        sample("49 links", links(49), "refused 3 0\n"),
        sample("weight 1000000", weight(1_000_000), ""),
        sample("weight 1000001", weight(1_000_001), "refused 8 1\n"),
        sample("weight -1000001", weight(-1_000_001), "refused 8 1\n"),
        sample("nothing", vec![], "refused 14 0\n"),
        sample(
            "after the case",
            [weight(0), weight(0)].concat(),
            "refused 2 2\n",
        ),
        sample(
            "bad after the case",
            [weight(0), vec![b'x'; 27]].concat(),
            "refused 1 2\n",
        ),
        sample(
            "part after the case",
            [weight(0), vec![b'\n']].concat(),
            "refused 14 2\n",
        ),
    ]
}

/// The register's P13: what P1 to P12 leave alive.
fn p13_samples() -> Vec<Sample> {
    let own_gap = two([2, 1], [2, 0], [-3, 0, 0, 0]);
    let all_weights = lines(&[
        [1, 0, 0, 0, -2],
        [1, 0, 0, 1, -1],
        [1, 0, 1, 0, -2],
        [4, 0, 0, 0, 3],
    ]);
    let own_first = [triangle_press(1, -1), triangle_press(2, -3)].concat();
    let half = two([0, 2], [0, 2], [0, 0, 0, -3]);
    let up_first = lines(&[
        [1, 0, 0, 1, 3],
        [1, 0, 0, 1, -3],
        [2, 0, 2, 0, 2],
        [3, 1, 0, 0, 0],
        [3, 2, 0, 0, 0],
        [4, 0, 0, 0, 2],
    ]);
    let two_rounds = [press_by(1, 3), press_by(1, 2)].concat();
    vec![
        pressed("P13 two values of a link", &own_gap, &all_weights),
        pressed("P13 own gap", &uneven_triangle(), &own_first),
        replayed(
            "P13 own gap by 2",
            &own_gap,
            &press_by(2, 3),
            "accepted 1 3",
        ),
        replayed("P13 two rounds", &p4(), &two_rounds, "accepted 2 2"),
        replayed("P13 half press", &half, &press_by(3, 3), "accepted 1 3"),
        replayed("P13 first move up", &p4(), &up_first, "accepted 1 2"),
    ]
}

fn ask(sample: &Sample) -> Result<(), String> {
    let plain = |input| programs::press_by(input, plain::run_case, Rounds::All, PROGRAM_ROUNDS);
    let answers = if sample.press {
        [
            programs::press(&sample.input),
            plain(&sample.input),
            slow::programs::press(&sample.input),
        ]
    } else {
        [
            programs::replay(&sample.input),
            programs::plain_replay(&sample.input),
            slow::programs::replay(&sample.input),
        ]
    };
    for (answer, reading) in answers.iter().zip(["fast", "plain", "slow"]) {
        if answer != sample.output.as_bytes() {
            let answer = String::from_utf8_lossy(answer);
            return Err(format!(
                "{} ({reading}): {answer}instead of {}",
                sample.name, sample.output
            ));
        }
    }
    Ok(())
}

/// Runs with limits: P2's weights, P12, and the ceilings of P1, P4, P10, P11.
fn ask_runs() -> Result<usize, String> {
    let table = [
        ("P1 limit 0", triangle(), 0, Stop::Limit, 0, 0),
        ("P1 limit 1", triangle(), 1, Stop::Settled, 1, -1),
        ("P5 limit 1", p4(), 1, Stop::Settled, 1, 2),
        ("P10 limit 0", p10(), 0, Stop::Settled, 0, 11),
        ("P12 limit 0", single(), 0, Stop::Settled, 0, -7),
    ];
    let count = 2 * table.len();
    for (name, case, limit, stop, rounds, bound) in table {
        for run in [
            engine::run_case(&case, Rounds::All, limit),
            slow::engine::run(&case, Rounds::All, limit),
        ] {
            if (run.stop, run.rounds, run.upper_bound) != (stop, rounds, bound) {
                return Err(format!("{name}: {run:?}"));
            }
        }
    }
    let all_active = [vec![-1; 2], vec![0; 16]].concat();
    if engine::run_case(&triangle(), Rounds::All, 1).weights != all_active {
        return Err("P2: not all is active".into());
    }
    Ok(count + 1)
}

fn all() -> Vec<Sample> {
    let mut samples = program_samples();
    samples.extend(limit_samples());
    samples.extend(p13_samples());
    for (name, case, log) in pair_samples::for_press() {
        samples.push(pressed(name, &case, &log));
    }
    samples.extend(by_hand());
    samples.extend(barred_samples::by_hand());
    samples.extend(join_samples::by_hand());
    samples
}

/// Every sample of all readings; the number of answers compared.
pub fn check() -> Result<usize, String> {
    let mut count = ask_runs()? + pair_samples::check()? + barred_samples::check()?;
    count += family_samples::check()?;
    for sample in all() {
        ask(&sample)?;
        count += 3;
    }
    let read = case::read_front(&case::write(&p4()));
    if read != Ok((p4(), 10)) {
        return Err("P4 read back".into());
    }
    Ok(count + 1)
}

/// The samples as inputs for other programs: name, press or replay, input, output.
pub fn for_programs() -> Vec<(&'static str, bool, Vec<u8>, Vec<u8>)> {
    let of = |sample: Sample| {
        let output = sample.output.into_bytes();
        (sample.name, sample.press, sample.input, output)
    };
    all().into_iter().map(of).collect()
}
