//! Calls of change 3 made by hand from the documents: values kept with their families and
//! partners, links without one, and every number with its neighbours.

use crate::check::every::empty_case;
use crate::programs::{shown, shown_bytes};
use crate::samples::{case_of, p10, p4, single, triangle};
use crate::types::*;
use crate::{families, slow};

const B: i32 = BARRED;
const R: i32 = 500_000_000;
const N: u8 = OUTSIDE;

/// What a link of a table answers.
enum Expected {
    Value(usize, Vec<u8>, Vec<u8>),
    /// The last 5.
    None,
    /// Another number, with so many bytes lent for family and partners.
    Number(u8, [usize; 2]),
}

pub struct Sample {
    pub name: &'static str,
    pub case: Case,
    link: i64,
    expected: Expected,
}

fn kept(
    name: &'static str,
    case: Case,
    link: i64,
    value: usize,
    family: &[u8],
    partners: &[u8],
) -> Sample {
    let expected = Expected::Value(value, family.to_vec(), partners.to_vec());
    Sample { name, case, link, expected }
}

fn none(name: &'static str, case: Case, link: i64) -> Sample {
    let expected = Expected::None;
    Sample { name, case, link, expected }
}

fn lent(name: &'static str, number: u8, case: Case, link: i64, lent: [usize; 2]) -> Sample {
    let expected = Expected::Number(number, lent);
    Sample { name, case, link, expected }
}

/// Lent as many bytes as are needed.
fn refused(name: &'static str, number: u8, case: Case, link: i64) -> Sample {
    let bytes = shown_bytes(&case);
    lent(name, number, case, link, bytes)
}

fn with(case: &Case, weights: &[i32]) -> Case {
    let weights = weights.to_vec();
    Case { weights, ..case.clone() }
}

fn two(weights: [i32; 8]) -> Case {
    case_of(2, &[(0, 1)], &weights)
}

/// The documents' samples, before and after their rounds.
fn documents() -> Vec<Sample> {
    let mut all_active = [0; 18];
    all_active[..2].fill(-1);
    let p2 = with(&triangle(), &all_active);
    let p5 = two([0, 0, 0, 0, 1, 2, 2, 0]);
    let pressed = two([0, 0, 2, 2, -1, 0, 0, 0]);
    let p6 = two([1, 0, 2, 1, -2, 0, 0, 0]);
    let p7 = two([-1, 0, 2, 3, 0, 0, 0, 0]);
    let p8 = two([-2, 0, 2, 4, 1, 0, 0, 0]);
    vec![
        none("P1 link 0", triangle(), 0),
        none("P1 link 1", triangle(), 1),
        none("P1 link 2", triangle(), 2),
        kept("P2 link 0", p2.clone(), 0, 0, &[1, 3, 3], &[0, N, 0, 0, 0, N, 0, 0, 0, 0, 0, 0]),
        kept("P2 link 1", p2.clone(), 1, 0, &[3, 1, 3], &[0, 0, 0, N, 0, 0, 0, 0, 0, N, 0, 0]),
        kept("P2 link 2", p2, 2, 0, &[3, 3, 1], &[0, 0, 0, 0, 0, 0, 0, N, 0, 0, 0, N]),
        none("P4 link 0", p4(), 0),
        none("P4 link 1", p4(), 1),
        kept("P5 link 0", p5.clone(), 0, 0, &[1, 2], &[1, N, N, 0]),
        kept("P5 link 1", p5, 1, 0, &[2, 1], &[N, 0, 1, N]),
        kept("P4 press by 2, link 0", pressed.clone(), 0, 0, &[1, 2], &[1, N, N, 0]),
        kept("P4 press by 2, link 1", pressed, 1, 0, &[2, 1], &[N, 0, 1, N]),
        none("P6 link 0", p6, 0),
        kept("P7 link 0", p7.clone(), 0, 1, &[2, 2], &[N, 1, N, 1]),
        kept("P7 link 1", p7, 1, 1, &[2, 2], &[N, 1, N, 1]),
        none("P8 link 0", p8.clone(), 0),
        none("P8 link 1", p8, 1),
        kept("P10 link 0", p10(), 0, 1, &[2, 1], &[N, 0, 1, N]),
        kept("P10 link 1", p10(), 1, 0, &[2, 1], &[N, 0, 1, N]),
        kept("P11", single(), 0, 0, &[1], &[]),
    ]
}

/// A case of links that are all 0 and pairs whose weights are 0 where the test holds, else
/// below.
fn joined(
    links: usize,
    values: usize,
    edges: &[(usize, usize)],
    active: impl Fn(usize, usize, usize) -> bool,
) -> Case {
    let mut weights = vec![0; links * values];
    for edge in 0..edges.len() {
        for k in 0..values {
            let row = (0..values).map(|l| if active(edge, k, l) { 0 } else { -1 });
            weights.extend(row);
        }
    }
    case_of(values, edges, &weights)
}

const RING: [(usize, usize); 3] = [(0, 1), (0, 2), (1, 2)];

fn apart(_: usize, k: usize, l: usize) -> bool {
    k != l
}

/// Which value, which partner is the lowest, and which end is which.
fn partners_kept() -> Vec<Sample> {
    let second = two([0, 0, 0, 0, -1, -1, 0, -1]);
    let turned = joined(2, 3, &[(0, 1)], |_, k, l| l == (k + 2) % 3);
    let inside = joined(3, 3, &[(0, 1), (1, 2)], |edge, k, _| edge == 0 || k > 0);
    let long = [(2, 3), (1, 2), (0, 1)];
    let along = joined(4, 2, &long, |edge, k, l| (k == l) == (edge < 2));
    let along_bytes = [0, N, 0, N, 0, N, 0, N, N, 0, 1, N];
    let inactive = case_of(3, &[(0, 1)], &[[0, 0, 0, -1, 0, 0].as_slice(), &[0; 9]].concat());
    let from_0 = [1, N, N, N, 0, 0, N, 0, 0, 1, 1, 1];
    let from_1 = [1, 1, 1, N, 0, N, N, 0, N, 1, 1, 1];
    let from_2 = [1, 1, 1, N, 0, 0, N, 0, 0, 1, N, N];
    vec![
        kept("the lowest is refuted", second.clone(), 0, 1, &[2, 1], &[N, 0, 1, N]),
        kept("the other end", second, 1, 0, &[2, 1], &[N, 0, 1, N]),
        kept("k belongs to the lower", turned.clone(), 0, 0, &[1, 4], &[2, N, N, N, N, 0]),
        kept("l belongs to the higher", turned, 1, 0, &[2, 1], &[N, 0, N, 1, N, N]),
        kept("a partner in the family", inside.clone(), 0, 0, &[1, 6, 7], &from_0),
        kept("the value in the middle", inside.clone(), 1, 1, &[7, 2, 7], &from_1),
        kept("from the last link", inside, 2, 0, &[7, 6, 1], &from_2),
        kept("pairs downwards", along, 3, 0, &[2, 1, 1, 1], &along_bytes),
        kept("active values only", inactive, 0, 0, &[1, 6], &[1, N, N, N, 0, 0]),
    ]
}

/// Loops: what is refuted by the fixed value only, and what the other links hold then.
fn loops_kept() -> Vec<Sample> {
    let colours = joined(3, 3, &RING, apart);
    let first = [1, N, N, N, 0, 0, 1, N, N, N, 0, 0, N, 2, 1, N, 2, 1];
    let last = [N, 2, 1, N, 2, 1, N, 0, 0, 1, N, N, N, 0, 0, 1, N, N];
    let every = [(0, 1), (0, 2), (1, 2), (0, 3), (1, 3), (2, 3)];
    let no_plan = joined(4, 3, &every, apart);
    let [fixed, free] = [[1, N, N, N, 0, 0], [N, 2, 1, N, 2, 1]];
    let no_plan_bytes = [fixed, fixed, free, fixed, free, free].concat();
    let two_colours = joined(4, 2, &[(1, 2), (1, 3), (2, 3)], apart);
    let third = |_: usize, k: usize, l: usize| (k == 2) == (l == 2) && (k != l || k == 2);
    let mut settled = joined(4, 3, &RING, third);
    settled.weights[10..12].fill(-1);
    let all_third = [N, N, 2].repeat(6);
    let elsewhere = case_of(2, &[(1, 2)], &[0, 0, R, 0, 1, 0, 0, 1, 1, 0]);
    vec![
        kept("three colours, link 0", colours.clone(), 0, 0, &[1, 6, 6], &first),
        kept("three colours, link 2", colours, 2, 0, &[6, 6, 1], &last),
        kept("kept without a plan", no_plan, 0, 0, &[1, 6, 6, 6], &no_plan_bytes),
        kept("two colours", two_colours.clone(), 0, 0, &[1, 3, 3, 3], &[1, 0].repeat(6)),
        none("two colours, refuted there", two_colours, 1),
        kept("two refuted, one kept", settled.clone(), 1, 2, &[4, 4, 4, 1], &all_third),
        kept("the refuted two elsewhere", settled, 3, 0, &[7, 7, 7, 1], &[1, 0, 2].repeat(6)),
        none("a pair elsewhere", elsewhere.clone(), 0),
        none("a pair elsewhere, link 2", elsewhere, 2),
    ]
}

/// One link, no pair, one value, eight values, the largest case.
fn sizes() -> Vec<Sample> {
    let alone = case_of(8, &[], &[1, 7, 7, 3, 7, 0, 0, 7]);
    let three = case_of(3, &[], &[0, 0, -1, -4, 2, 2, 5, 5, 5]);
    let one_value = case_of(1, &[(0, 1)], &[5, -3, 7]);
    let mirror = joined(2, 8, &[(0, 1)], |_, k, l| k + l == 7);
    let mut last = mirror.clone();
    last.weights[..7].fill(-1);
    let all = joined(2, 8, &[(0, 1)], |_, _, _| true);
    let first = |byte: u8| [[byte].as_slice(), &[N; 7]].concat();
    let eighth = |byte: u8| [[N; 7].as_slice(), &[byte]].concat();
    let up = [first(7), eighth(0)].concat();
    let down = [eighth(0), first(7)].concat();
    let mut samples = vec![
        kept("one link alone", alone, 0, 1, &[2], &[]),
        kept("no pair, link 0", three.clone(), 0, 0, &[1, 6, 7], &[]),
        kept("no pair, link 1", three.clone(), 1, 1, &[3, 2, 7], &[]),
        kept("no pair, link 2", three, 2, 0, &[3, 6, 1], &[]),
        kept("one value, link 0", one_value.clone(), 0, 0, &[1, 1], &[0, 0]),
        kept("one value, link 1", one_value, 1, 0, &[1, 1], &[0, 0]),
        kept("eight values, link 0", mirror.clone(), 0, 0, &[1, 128], &up),
        kept("eight values, link 1", mirror, 1, 0, &[128, 1], &down),
        kept("the eighth value", last, 0, 7, &[128, 1], &down),
        kept("all of eight", all, 0, 0, &[1, 255], &[first(0), vec![0; 8]].concat()),
        kept("48 links", case_of(1, &[], &[0; 48]), 47, 0, &[1; 48], &[]),
    ];
    samples.extend([0, 14, 20, 47].map(largest));
    samples
}

/// The largest case with all weights alike.
fn largest(link: usize) -> Sample {
    let case = empty_case(MAX_VARIABLES, MAX_VALUES, MAX_EDGES);
    let mut family = [255; MAX_VARIABLES];
    family[link] = 1;
    let mut partners = Vec::new();
    for &(lower, higher) in &case.edges {
        for end in [lower, higher] {
            let rest = if end == link { N } else { 0 };
            partners.extend([0, rest, rest, rest, rest, rest, rest, rest]);
        }
    }
    kept("the largest case", case, link as i64, 0, &family, &partners)
}

fn barred() -> Vec<Sample> {
    let crossed = two([0, 0, 0, 0, B, 0, 0, B]);
    let low = two([B, -R, -R, B, B, B, -R, B]);
    let high = two([B, R, R, B, -R, B, R, -R]);
    let outweighed = two([B, -5, -5, B, -5, -5, -5, -5]);
    vec![
        kept("a barred value", two([0, -5, 0, B, 0, 0, 0, 0]), 0, 0, &[1, 1], &[0, N, 0, N]),
        kept("barred choices, link 0", crossed.clone(), 0, 0, &[1, 2], &[1, N, N, 0]),
        kept("barred choices, link 1", crossed, 1, 0, &[2, 1], &[N, 0, 1, N]),
        kept("the lowest weight", low.clone(), 0, 1, &[2, 1], &[N, 0, 1, N]),
        kept("the lowest weight, link 1", low, 1, 0, &[2, 1], &[N, 0, 1, N]),
        kept("the greatest weight", high, 0, 1, &[2, 1], &[N, 0, 1, N]),
        kept("all that is unbarred", outweighed, 1, 0, &[2, 1], &[N, 0, 1, N]),
        none("void, link 0", two([0, B, 0, B, B, 0, 0, 0]), 0),
        none("void, link 1", two([0, B, 0, B, B, 0, 0, 0]), 1),
        none("a choice of barred values", two([0, B, 0, B, -1, B, B, 0]), 0),
    ]
}

fn of(values: usize, links: usize, edges: &[(usize, usize)], weights: &[i32]) -> Case {
    Case { variables: links, values, edges: edges.to_vec(), weights: weights.to_vec() }
}

fn ends(edges: &[(usize, usize)], weights: [i32; 8]) -> Case {
    of(2, 2, edges, &weights)
}

/// Numbers 3 and 4, with later ones.
fn sizes_refused() -> Vec<Sample> {
    let many = empty_case(16, 1, 97).edges;
    let good = two([0; 8]);
    let short = of(2, 2, &[(0, 1)], &[0; 7]);
    let long = of(2, 2, &[(0, 1)], &[0; 9]);
    vec![
        refused("49 links", 3, of(1, 49, &[], &[0; 49]), 0),
        refused("3 before 4, table", 3, of(1, 49, &[], &[0; 48]), 0),
        lent("3 before 4, output", 3, of(1, 49, &[], &[0; 49]), 0, [48, 0]),
        refused("no link", 3, of(2, 0, &[], &[]), 0),
        refused("nine values", 3, of(9, 1, &[], &[0; 9]), 0),
        refused("3 before 5", 3, of(9, 1, &[], &[0; 9]), 1),
        refused("no value", 3, of(0, 2, &[], &[]), 0),
        refused("97 pairs", 3, of(1, 16, &many, &[0; 113]), 0),
        kept("96 pairs", of(1, 16, &many[..96], &[0; 112]), 3, 0, &[1; 16], &[0; 192]),
        refused("a table too short", 4, short.clone(), 0),
        refused("a table too long", 4, long.clone(), 1),
        refused("4 before 5, short", 4, short, 2),
        refused("4 before 5, long", 4, long, -1),
        refused("4 before 5, pair", 4, of(2, 2, &[(0, 2)], &[0; 9]), 0),
        lent("a family too short", 4, good.clone(), 0, [1, 4]),
        lent("no family", 4, good.clone(), 0, [0, 4]),
        lent("partners too short", 4, good.clone(), 0, [2, 3]),
        lent("no partners", 4, good.clone(), 0, [2, 0]),
        lent("one for the other", 4, good.clone(), 0, [4, 2]),
        lent("both too short", 4, good.clone(), 1, [1, 3]),
        lent("4 before 5, family", 4, good.clone(), 2, [1, 4]),
        lent("4 before 5, partners", 4, good, -1, [2, 3]),
        lent("4 before 6", 4, ends(&[(1, 0)], [0; 8]), 0, [2, 3]),
        lent("4 before 8", 4, two([0, 0, 0, 0, 0, 0, 0, R + 1]), 0, [1, 4]),
        lent("4 before 15", 4, two([B, B, 0, 0, 0, 0, 0, 0]), 0, [2, 3]),
        lent("4 before the last 5", 4, p4(), 0, [1, 4]),
        lent("4 before the last 5, too", 4, p4(), 1, [2, 3]),
    ]
}

/// Numbers 5 to 7, with later ones.
fn ends_refused() -> Vec<Sample> {
    let twice = [(0, 1), (0, 1)];
    let of_twice = |weights: &[i32]| of(2, 2, &twice, weights);
    let of_three = |edges: &[(usize, usize)]| of(1, 3, edges, &[0; 6]);
    let beyond = [0, 0, 0, 0, 0, 0, 0, R + 1];
    let barred = [0, 0, B, B, 0, 0, 0, 0];
    vec![
        refused("link 2 of 2", 5, two([0; 8]), 2),
        refused("the greatest link", 5, two([0; 8]), -1),
        refused("link 9999", 5, two([0; 8]), 9999),
        refused("link 48 of 48", 5, of(1, 48, &[], &[0; 48]), 48),
        refused("link 64 of 1", 5, single(), 64),
        refused("link before 6", 5, ends(&[(1, 0)], [0; 8]), 2),
        refused("link before 7", 5, of_twice(&[0; 12]), 2),
        refused("link before 8", 5, two(beyond), 2),
        refused("link before 15", 5, two(barred), 2),
        refused("link and no value", 5, p4(), 2),
        refused("a higher end", 5, ends(&[(0, 2)], [0; 8]), 0),
        refused("a lower end", 5, ends(&[(2, 1)], [0; 8]), 0),
        refused("both ends", 5, ends(&[(2, 2)], [0; 8]), 0),
        refused("end before 8", 5, ends(&[(0, 2)], beyond), 0),
        refused("end of a later pair", 5, of_three(&[(1, 0), (0, 1), (0, 3)]), 0),
        refused("ends turned", 6, ends(&[(1, 0)], [0; 8]), 0),
        refused("ends alike", 6, ends(&[(1, 1)], [0; 8]), 0),
        refused("6 before 8", 6, ends(&[(1, 0)], beyond), 0),
        refused("6 before 15", 6, ends(&[(1, 0)], barred), 0),
        refused("6 before the last 5", 6, ends(&[(1, 0)], [2, 0, 2, 0, -3, 0, 0, 0]), 0),
        refused("6 before an earlier 7", 6, of_three(&[(0, 1), (0, 1), (2, 1)]), 0),
        refused("paired twice", 7, of_twice(&[0; 12]), 0),
        refused("paired twice, apart", 7, of_three(&[(0, 2), (1, 2), (0, 2)]), 1),
        refused("7 before 8", 7, of_twice(&[R + 1, 0, 0, 0, 0, 0, 0, 0, 0, 0, 0, 0]), 0),
        refused("7 before 15", 7, of_twice(&[B, B, 0, 0, 0, 0, 0, 0, 0, 0, 0, 0]), 0),
        refused("7 before the last 5", 7, of_twice(&[2, 0, 2, 0, -3, 0, 0, 0, 0, 0, 0, 0]), 0),
    ]
}

/// Numbers 8 and 15, with the last 5.
fn weights_refused() -> Vec<Sample> {
    let last = |weight: i32| two([0, 0, 0, 0, 0, 0, 0, weight]);
    let third = of(2, 3, &[(0, 1)], &[2, 0, 2, 0, B, B, -3, 0, 0, 0]);
    vec![
        refused("500,000,001", 8, last(R + 1), 0),
        refused("-500,000,001", 8, last(-R - 1), 1),
        refused("nearly barred", 8, last(B + 1), 0),
        refused("below barred", 8, last(B - 1), 0),
        refused("2,000,000,000", 8, last(-B), 0),
        refused("the least number", 8, last(i32::MIN), 0),
        refused("the greatest number", 8, last(i32::MAX), 0),
        refused("8 at a link", 8, two([-R - 1, 0, 0, 0, 0, 0, 0, 0]), 1),
        refused("8 before 15, later", 8, two([B, B, 0, 0, 0, 0, 0, R + 1]), 0),
        refused("8 before 15, earlier", 8, two([R + 1, 0, B, B, 0, 0, 0, 0]), 0),
        refused("8 before the last 5", 8, two([2, 0, 2, 0, -3, 0, 0, -R - 1]), 0),
        refused("the link barred", 15, two([B, B, 0, 0, 0, 0, 0, 0]), 0),
        refused("another link barred", 15, two([0, 0, B, B, 0, 0, 0, 0]), 0),
        refused("a pair barred", 15, two([0, 0, 0, 0, B, B, B, B]), 1),
        refused("all barred", 15, two([B; 8]), 0),
        refused("a single link barred", 15, case_of(1, &[], &[B]), 0),
        refused("15 before the last 5", 15, third.clone(), 0),
        refused("15 before the last 5, link 2", 15, third, 2),
        refused("15 of a pair, no value", 15, two([0, B, B, 0, B, B, B, B]), 0),
    ]
}

pub fn all() -> Vec<Sample> {
    let kept = [documents(), partners_kept(), loops_kept(), sizes(), barred()];
    let refused = [sizes_refused(), ends_refused(), weights_refused()];
    kept.into_iter().chain(refused).flatten().collect()
}

/// Bytes as they must be, then those past them, which stay.
fn followed(bytes: &[u8], length: usize) -> Vec<u8> {
    let mut all = bytes.to_vec();
    all.resize(length, b'.');
    all
}

impl Sample {
    /// The calls with what each hands back: lent what is needed, more, and a byte less of
    /// either.
    pub fn calls(&self) -> Vec<(i64, [usize; 2], Shown)> {
        let [family, partners] = shown_bytes(&self.case);
        let mut all = Vec::new();
        if let Expected::Number(number, bytes) = self.expected {
            all.push((bytes, Err(number)));
        } else {
            let value = match self.expected {
                Expected::Value(value, ..) => Ok(value),
                _ => Err(5),
            };
            for lent in [[0, 0], [1, 0], [0, 1], [5, 9]] {
                all.push(([family + lent[0], partners + lent[1]], value));
            }
            all.push(([family - 1, partners], Err(4)));
            if partners > 0 {
                all.push(([family, partners - 1], Err(4)));
            }
        }
        let whole = |(lent, answer)| (self.link, lent, self.shown(lent, answer));
        all.into_iter().map(whole).collect()
    }

    fn shown(&self, lent: [usize; 2], answer: Result<usize, u8>) -> Shown {
        let (family, partners) = match &self.expected {
            Expected::Value(_, family, partners) if answer.is_ok() => (&family[..], &partners[..]),
            _ => (&[][..], &[][..]),
        };
        let [family, partners] = [followed(family, lent[0]), followed(partners, lent[1])];
        Shown { answer, family, partners }
    }
}

/// Every call of both readings; the number of answers compared.
pub fn check() -> Result<usize, String> {
    let mut count = 0;
    for sample in all() {
        for (link, lent, expected) in sample.calls() {
            for show in [families::show, slow::families::show] {
                let found = shown(show, &sample.case, link, lent);
                if found != expected {
                    return Err(format!("{}, lent {lent:?}: {found:?}", sample.name));
                }
                count += 1;
            }
        }
    }
    Ok(count)
}
