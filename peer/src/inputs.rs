//! Inputs for both programs, the same for the same seed and number.

use crate::case;
use crate::damage::damage;
use crate::engine;
use crate::foreign;
use crate::generate::{any_case, Bars, Plan, Shape, Weights};
use crate::joins;
use crate::random::Random;
use crate::types::*;

#[derive(Clone, Copy, PartialEq, Eq, Debug)]
pub enum Program {
    Press,
    Replay,
}

pub struct Input {
    pub program: Program,
    pub bytes: Vec<u8>,
}

/// The generator of input number `index` of a seed.
pub fn random_for(seed: u64, index: u64) -> Random {
    Random::new(seed.wrapping_mul(0x1000_0000_01b3).wrapping_add(index))
}

/// A case that the slow mode can still do.
pub fn small_case(random: &mut Random) -> Case {
    let sizes = [
        (3, 2, 3),
        (3, 3, 3),
        (4, 2, 6),
        (4, 3, 5),
        (5, 2, 8),
        (3, 4, 3),
        (2, 8, 1),
        (2, 5, 1),
    ];
    let (variables, values, edges) = *random.pick(&sizes);
    any_case(random, variables, values, edges)
}

/// Mostly small cases, some of middle size, a few of the largest.
pub fn sized_case(random: &mut Random) -> Case {
    match random.below(20) {
        0..=7 => any_case(random, 4, 3, 6),
        8..=12 => any_case(random, 8, 4, 14),
        13..=16 => any_case(random, 16, 6, 30),
        17 | 18 => any_case(random, MAX_VARIABLES, MAX_VALUES, MAX_EDGES),
        _ => largest_case(random),
    }
}

fn largest_case(random: &mut Random) -> Case {
    let weights = *random.pick(&[
        Weights::Uniform,
        Weights::Small(9),
        Weights::Interference,
        Weights::Extreme,
    ]);
    let shape = *random.pick(&[Shape::Mesh, Shape::Random]);
    let unusable = *random.pick(&[0, 0, 20]);
    let bars = *random.pick(&[Bars::None, Bars::Share(20), Bars::Near(0), Bars::Pairs(60)]);
    let (variables, values, edges) = (MAX_VARIABLES, MAX_VALUES, MAX_EDGES);
    crate::generate::case(
        random,
        Plan {
            shape,
            weights,
            unusable,
            bars,
            variables,
            values,
            edges,
        },
    )
}

/// The engine's own log, or a foreign one.
pub fn some_log(random: &mut Random, case: &Case) -> Vec<u8> {
    let small = case.weights.len() <= 250;
    match random.below(5) {
        0 => engine::run_case(case, Rounds::All, random.below(60) as u64).log,
        1 if small => engine::run_case(case, Rounds::All, PROGRAM_ROUNDS).log,
        2 => foreign::mixed(random, case, false),
        _ => foreign::mixed(random, case, true),
    }
}

fn press_input(random: &mut Random, case: &Case) -> Input {
    let mut bytes = case::write(case);
    if random.chance(1, 2) {
        bytes = damage(random, &bytes);
    }
    Input {
        program: Program::Press,
        bytes,
    }
}

/// The case's file and a log, or another case's with links that join and leave.
fn case_and_log(random: &mut Random, case: &Case) -> (Vec<u8>, Vec<u8>) {
    if joins::allowed() && random.chance(1, 3) {
        let careless = random.chance(1, 2);
        let (case, log) = foreign::directed::any(random, careless);
        return (case::write(&case), log);
    }
    (case::write(case), some_log(random, case))
}

/// An input made from the case for one of the two programs.
pub fn input_for(random: &mut Random, case: &Case) -> Input {
    if random.chance(1, 4) {
        return press_input(random, case);
    }
    let (mut bytes, mut log) = case_and_log(random, case);
    if random.chance(1, 3) {
        log = damage(random, &log);
    }
    bytes.extend(log);
    if random.chance(1, 3) {
        bytes = damage(random, &bytes);
    }
    Input {
        program: Program::Replay,
        bytes,
    }
}
