//! Calls every function of the Rust wrapper on accepted and on refused input and compares answers and everything lent with what document 01
//! says, and document 02 of pair rounds, barred channels, partners, loops, the length of tables and the carry. Each call is a test: a line for each
//! that failed, the count as the last line. vectors.c has more rows; here the wrapper is tried. A case's table of the wrong length (number 4) cannot
//! be handed to `read_case`, which makes the table itself.

use ceiling::{case_size, engine_version, read_case, table_length, version, view, Case, End, Ending, Refused, Replay, Round, Run, Size};
use ceiling::{BARRED, CASE, CHANNELS, LINE, LINKS, OUTSIDE, PAIRS, PARTNERS, RECORD, ROOM};

const STARTING: i64 = 1_000_000;
const WORKING: i64 = 500_000_000;
const CARRY: i64 = 20_000_000_000;

/// Carries that every call takes.
const CARRIES: [i64; 5] = [0, 5, -5, CARRY, -CARRY];

#[derive(Default)]
struct Count {
    passed: usize,
    failed: usize,
}

impl Count {
    fn test(&mut self, function: &str, name: &str, good: bool) {
        if good {
            self.passed += 1;
        } else {
            self.failed += 1;
            println!("failed: {function}: {name}");
        }
    }
}

fn line(kind: i64, a: i64, b: i64, c: i64, amount: i64) -> Vec<u8> {
    format!("{kind:2}{a:4}{b:4}{c:4}{amount:12}\n").into_bytes()
}

fn lines(rows: &[[i64; 5]]) -> Vec<u8> {
    carried(rows, 0)
}

/// Lines of a case with a carry, which every bound line has in its ceiling.
fn carried(rows: &[[i64; 5]], carry: i64) -> Vec<u8> {
    rows.iter().flat_map(|r| line(r[0], r[1], r[2], r[3], r[4] + if r[0] == 4 { carry } else { 0 })).collect()
}

fn refused<T>(number: u64, line: usize) -> Result<T, Refused> {
    Err(Refused { number, line })
}

#[derive(Clone)]
struct Sample {
    n: u64,
    d: u64,
    m: u64,
    pairs: Vec<[u8; 2]>,
    table: Vec<i64>,
    carry: i64,
}

/// A table of a full case's length: these weights, and 0 past them.
fn full(d: u64, own: &[i64]) -> Vec<i64> {
    let mut table = own.to_vec();
    table.resize(table_length(d as usize), 0);
    table
}

fn sample(n: u64, d: u64, pairs: &[[u8; 2]], own: &[i64]) -> Sample {
    Sample { n, d, m: pairs.len() as u64, pairs: pairs.to_vec(), table: full(d, own), carry: 0 }
}

fn p1() -> Sample {
    let pair = [-1, 0, 0, -1];
    sample(3, 2, &[[0, 1], [0, 2], [1, 2]], &[&[0; 6][..], &pair, &pair, &pair].concat())
}

fn p4() -> Sample {
    sample(2, 2, &[[0, 1]], &[2, 0, 2, 0, -3, 0, 0, 0])
}

fn p10() -> Sample {
    sample(2, 2, &[[0, 1]], &[3, 4, 6, 2, -2, -4, 1, 1])
}

/// P1 after its round.
fn round_1() -> Sample {
    sample(3, 2, &[[0, 1], [0, 2], [1, 2]], &[&[-1; 2][..], &[0; 16]].concat())
}

/// Channel 0 of link 1 is not among the best across pair 1.
fn chain() -> Sample {
    sample(3, 2, &[[0, 1], [1, 2]], &[&[0; 10][..], &[-1, -1, 0, 0]].concat())
}

/// One link and no pairs.
fn p11() -> Sample {
    sample(1, 1, &[], &[-7])
}

/// A pair round, and then a press.
fn two() -> Sample {
    sample(3, 2, &[[0, 1], [1, 2]], &[0, 0, 1, 0, -1, 0, -2, 0, -2, -1, 0, 0, 0, -1])
}

/// Barred channels: one lawful plan, 0 1; none; one again, but no press that a void line would need.
fn single() -> Sample {
    sample(2, 2, &[[0, 1]], &[2, BARRED, 1, 0, BARRED, 0, 0, 3])
}

fn no_plan() -> Sample {
    sample(2, 2, &[[0, 1]], &NO_PLAN)
}

fn a_plan() -> Sample {
    sample(2, 2, &[[0, 1]], &A_PLAN)
}

/// Link 1's channel 0 is active and refuted: it goes with a barred channel of link 0 alone.
fn passed() -> Sample {
    sample(2, 2, &[[0, 1]], &[0, BARRED, 0, 0, BARRED, 0, 0, 0])
}

/// No lawful plan, which shows after two presses.
fn late() -> Sample {
    sample(2, 2, &[[0, 1]], &[0, BARRED, 4, BARRED, BARRED, -1, 0, -2])
}

/// Not starting weights: the pair gains but is passed over, the first press by 1 takes link 0 to the end of the range, the second is number 11.
fn low() -> Sample {
    let pair = [-3, -3, 0];
    sample(2, 3, &[[0, 1]], &[&[-499_999_999; 3][..], &[2, 1, 0], &pair, &pair, &pair].concat())
}

impl Sample {
    fn case(&self) -> Case {
        let mut bytes = [0; CASE];
        for (i, z) in [self.n, self.d, self.m].into_iter().enumerate() {
            bytes[8 * i..8 * i + 8].copy_from_slice(&z.to_le_bytes());
        }
        for (e, pair) in self.pairs.iter().enumerate() {
            bytes[24 + e] = pair[0];
            bytes[120 + e] = pair[1];
        }
        bytes[CASE - 8..].copy_from_slice(&self.carry.to_le_bytes());
        Case::from_bytes(bytes)
    }

    fn carrying(&self, carry: i64) -> Sample {
        Sample { carry, ..self.clone() }
    }

    fn text(&self) -> Vec<u8> {
        let (n, d) = (self.n as i64, self.d as i64);
        let mut weights = self.table.iter();
        let weight = |kind, a, b, c, weight| {
            if weight == BARRED { line(if kind == 11 { 14 } else { 15 }, a, b, c, 0) } else { line(kind, a, b, c, weight) }
        };
        let mut text = line(10, n, d, self.m as i64, 0);
        for (i, k) in (0..n).flat_map(|i| (0..d).map(move |k| (i, k))) {
            text.extend(weight(11, i, k, 0, *weights.next().unwrap()));
        }
        for (e, pair) in self.pairs.iter().enumerate() {
            text.extend(line(12, e as i64, pair[0] as i64, pair[1] as i64, 0));
            for (k, l) in (0..d).flat_map(|k| (0..d).map(move |l| (k, l))) {
                text.extend(weight(13, e as i64, k, l, *weights.next().unwrap()));
            }
        }
        text
    }
}

/// P1 with one thing changed, and the number that every call on a case answers; weights lie just outside the range.
fn faults(range: i64) -> Vec<(&'static str, u64, Sample)> {
    let of = |change: &dyn Fn(&mut Sample)| {
        let mut s = p1();
        change(&mut s);
        s
    };
    vec![
        ("no links", 3, of(&|s| s.n = 0)),
        ("49 links", 3, of(&|s| s.n = 49)),
        ("9 values", 3, of(&|s| s.d = 9)),
        ("97 pairs", 3, of(&|s| s.m = 97)),
        ("3 before a carry", 3, of(&|s| (s.n, s.carry) = (49, CARRY + 1))),
        ("a short table", 4, of(&|s| s.table.truncate(479))),
        ("a long table", 4, of(&|s| s.table.push(0))),
        ("the own places alone", 4, of(&|s| s.table.truncate(18))),
        ("no places", 4, of(&|s| s.table.clear())),
        ("the table of more values", 4, of(&|s| s.table.resize(table_length(3), 0))),
        ("an end that is no link", 5, of(&|s| s.pairs[2] = [1, 3])),
        ("a carry above", 5, of(&|s| s.carry = CARRY + 1)),
        ("a carry below", 5, of(&|s| s.carry = -CARRY - 1)),
        ("the greatest number as a carry", 5, of(&|s| s.carry = i64::MAX)),
        ("the least number as a carry", 5, of(&|s| s.carry = i64::MIN)),
        ("a carry before 6", 5, of(&|s| (s.pairs[1], s.carry) = ([2, 2], CARRY + 1))),
        ("a carry before 8", 5, of(&|s| (s.table[18], s.carry) = (1, CARRY + 1))),
        ("equal ends", 6, of(&|s| s.pairs[1] = [2, 2])),
        ("a pair twice", 7, of(&|s| s.pairs[2] = [0, 1])),
        ("7 before 8 past the own places", 7, of(&|s| (s.pairs[2], s.table[18]) = ([0, 1], 1))),
        ("a weight above", 8, of(&|s| s.table[0] = range + 1)),
        ("a weight below", 8, of(&|s| s.table[17] = -range - 1)),
        ("a weight below barred", 8, of(&|s| s.table[1] = BARRED - 1)),
        ("1 past the own places", 8, of(&|s| s.table[18] = 1)),
        ("-1 past the own places", 8, of(&|s| s.table[18] = -1)),
        ("barred past the own places", 8, of(&|s| s.table[18] = BARRED)),
        ("1 at the last place", 8, of(&|s| s.table[479] = 1)),
        ("-1 at the last place", 8, of(&|s| s.table[479] = -1)),
        ("barred at the last place", 8, of(&|s| s.table[479] = BARRED)),
        ("past the own places, and a carry", 8, of(&|s| (s.table[18], s.carry) = (1, -CARRY))),
    ]
}

fn files(count: &mut Count) {
    let good = p1().text();
    let size = Size { n: 3, d: 2, m: 3, table: 480 };
    count.test("case_size", "P1", case_size(&good) == Ok(size));
    for (n, d, m, table) in [(1, 1, 0, 144), (48, 1, 96, 144), (1, 8, 0, 6528), (2, 3, 1, 1008), (48, 8, 96, 6528)] {
        let size = case_size(&line(10, n, d, m, 0));
        count.test("case_size", "a head", size == Ok(Size { n: n as usize, d: d as usize, m: m as usize, table }));
        count.test("case_size", "the package's length", table == table_length(d as usize));
    }
    let (case, table) = (p1().case(), p1().table);
    count.test("read_case", "P1", matches!(read_case(&good), Ok((c, t)) if c == case && t == table));
    let rows: [(&str, u64, usize, Vec<u8>); 9] = [
        ("head not in columns", 1, 0, b"10   3   2   3          00\n".to_vec()),
        ("head of another kind", 2, 0, line(11, 3, 2, 3, 0)),
        ("49 links", 3, 0, line(10, 49, 2, 3, 0)),
        ("nothing", 14, 0, vec![]),
        ("another link", 5, 1, line(11, 1, 0, 0, 0)),
        ("equal ends", 6, 12, line(12, 1, 2, 2, 0)),
        ("a pair twice", 7, 17, line(12, 2, 0, 1, 0)),
        ("pair weight below", 8, 21, line(13, 2, 1, 1, -1_000_001)),
        ("a head behind the case", 2, 22, line(10, 1, 1, 0, 0)),
    ];
    for (name, number, at, new) in rows {
        let text = [&good[..at * LINE], &new].concat();
        if at == 0 {
            count.test("case_size", name, case_size(&text) == refused(number, 0));
        }
        count.test("read_case", name, matches!(read_case(&text), Err(r) if r == Refused { number, line: at }));
    }
    let s = single();
    count.test("read_case", "barred channels", matches!(read_case(&s.text()), Ok((c, t)) if c == s.case() && t == s.table));
    let s = p11();
    count.test("read_case", "one link", matches!(read_case(&s.text()), Ok((c, t)) if c == s.case() && t == s.table && t.len() == 144));
    let fewer = Sample { m: 2, pairs: p1().pairs[..2].to_vec(), table: full(2, &p1().table[..14]), ..p1() };
    count.test("read_case", "a pair less", matches!(read_case(&fewer.text()), Ok((c, t)) if c == fewer.case() && t == fewer.table));
    let barred = sample(2, 2, &[[0, 1]], &[0, 0, BARRED, BARRED, 0, 0, 0, 0]);
    count.test("read_case", "a link wholly barred", matches!(read_case(&barred.text()), Err(Refused { number: 15, line: 4 })));
    let cut = read_case(&good[..9 * LINE + 5]);
    count.test("read_case", "cut in a pair weight", matches!(cut, Err(Refused { number: 14, line: 9 })));
}

fn totals(count: &mut Count) {
    let (case, table) = (p4().case(), p4().table);
    count.test("upper_bound", "P4", case.upper_bound(&table) == Ok(4));
    for carry in CARRIES {
        let carried = p4().carrying(carry).case();
        count.test("upper_bound", "a carry", carried.upper_bound(&table) == Ok(4 + carry));
        count.test("objective", "a carry", carried.objective(&table, &[0, 0]) == Ok(1));
        count.test("better", "a carry", carried.better(&table, &[0, 0], &[0, 1]) == Ok(&[0, 1]));
    }
    for (plan, answer) in [
        (&[0, 0][..], Ok(1)),
        (&[0, 1], Ok(2)),
        (&[0], refused(4, 0)),
        (&[0, 0, 0], refused(4, 0)),
        (&[0, 2], refused(5, 0)),
    ] {
        count.test("objective", "P4", case.objective(&table, plan) == answer);
    }
    for (first, second, choice) in [
        (&[0, 1][..], &[0, 0][..], Ok(0)),
        (&[0, 0], &[0, 1], Ok(1)),
        (&[0, 1], &[1, 0], Ok(0)),
        (&[0], &[0, 1], refused(4, 0)),
        (&[0, 1], &[0, 2], refused(5, 0)),
    ] {
        let same = |plan: &[u8]| if std::ptr::eq(plan, first) { 0 } else { usize::from(std::ptr::eq(plan, second)) };
        count.test("better", "P4", case.better(&table, first, second).map(same) == choice);
    }
    for (name, number, s) in faults(WORKING) {
        count.test("upper_bound", name, s.case().upper_bound(&s.table) == refused(number, 0));
        count.test("objective", name, s.case().objective(&s.table, &[0, 1, 0]) == refused(number, 0));
    }
    for (name, number, s) in faults(STARTING) {
        count.test("better", name, s.case().better(&s.table, &[0, 1, 0], &[0, 1, 0]) == refused(number, 0));
        count.test("start", name, matches!(Replay::start(&s.case(), &s.table), Err(r) if r == Refused { number, line: 0 }));
    }
}

/// Unlawful plans have no total and rank level, below the lawful; a scope wholly barred is number 15.
fn barred(count: &mut Count) {
    let (case, table) = (single().case(), single().table);
    count.test("upper_bound", "barred channels", case.upper_bound(&table) == Ok(6));
    for (plan, answer) in [([0, 1], Ok(2)), ([0, 0], refused(5, 0)), ([1, 1], refused(5, 0))] {
        count.test("objective", "barred channels", case.objective(&table, &plan) == answer);
    }
    for (first, second, better) in [([0, 1], [0, 0], 0), ([0, 0], [0, 1], 1), ([0, 0], [1, 1], 0)] {
        let choice = case.better(&table, &first, &second);
        count.test("better", "barred channels", choice == Ok([&first[..], &second][better]));
    }
    for (name, number, own) in [
        ("a link wholly barred", 15, [BARRED, BARRED, 0, 0, 0, 0, 0, 0]),
        ("a pair wholly barred", 15, [0, 0, 0, 0, BARRED, BARRED, BARRED, BARRED]),
        ("8 before 15", 8, [BARRED, BARRED, 0, 0, 0, 0, 0, WORKING + 1]),
    ] {
        let mut table = full(2, &own);
        count.test("upper_bound", name, case.upper_bound(&table) == refused(number, 0));
        count.test("objective", name, case.objective(&table, &[0, 0]) == refused(5, 0));
        count.test("better", name, case.better(&table, &[0, 0], &[0, 1]) == refused(number, 0));
        count.test("start", name, matches!(Replay::start(&case, &table), Err(r) if r == Refused { number, line: 0 }));
        let answer = Replay::from_bytes([0; RECORD]).lines(&case, &mut table, &lines(&[[1, 0, 0, 0, 1]]));
        count.test("lines", name, answer == refused(number, 0));
    }
}

/// What a link keeps, with bytes past the family and the partners or without; nothing is written where the call is refused.
type KeptRow = (&'static str, Sample, usize, Result<usize, Refused>, &'static [u8], &'static [u8]);

fn keeping(count: &mut Count, row: &KeptRow, room: [usize; 2], answer: Result<usize, Refused>) {
    let (name, s, link, _, family, partners) = row;
    let (mut f, mut p) = (vec![0xa5; room[0]], vec![0xa5; room[1]]);
    let good = s.case().supported_value(&s.table, *link, &mut f, &mut p) == answer;
    let wrote = |out: &[u8], bytes: &[u8]| out.starts_with(bytes) && out[bytes.len()..].iter().all(|&byte| byte == 0xa5);
    let (family, partners) = if answer.is_ok() { (*family, *partners) } else { (&[][..], &[][..]) };
    count.test("supported_value", name, good && wrote(&f, family) && wrote(&p, partners));
}

fn kept(count: &mut Count) {
    const NOT: u8 = OUTSIDE;
    let rows: [KeptRow; 14] = [
        ("P1, all refuted", p1(), 0, refused(5, 0), &[], &[]),
        ("P1, all refuted, link 2", p1(), 2, refused(5, 0), &[], &[]),
        ("P1 after its round", round_1(), 0, Ok(0), &[1, 3, 3], &[0, NOT, 0, 0, 0, NOT, 0, 0, 0, 0, 0, 0]),
        ("P1 after its round, link 2", round_1(), 2, Ok(0), &[3, 3, 1], &[0, 0, 0, 0, 0, 0, 0, NOT, 0, 0, 0, NOT]),
        ("P1 after its round, no such link", round_1(), 3, refused(5, 0), &[], &[]),
        ("a chain", chain(), 0, Ok(0), &[1, 2, 3], &[1, NOT, NOT, 0, NOT, 0, 1, 1]),
        ("a chain, the lowest refuted", chain(), 1, Ok(1), &[3, 2, 3], &[1, 1, NOT, 0, NOT, 0, 1, 1]),
        ("P4, a press is left", p4(), 0, refused(5, 0), &[], &[]),
        ("P10, the lowest not active", p10(), 0, Ok(1), &[2, 1], &[NOT, 0, 1, NOT]),
        ("one link", p11(), 0, Ok(0), &[1], &[]),
        ("barred channels", passed(), 0, Ok(0), &[1, 2], &[1, NOT, NOT, 0]),
        ("barred channels, the lowest refuted", passed(), 1, Ok(1), &[1, 2], &[1, NOT, NOT, 0]),
        ("a void line is left", no_plan(), 0, refused(5, 0), &[], &[]),
        ("the last number", p10(), usize::MAX, refused(5, 0), &[], &[]),
    ];
    for row in &rows {
        let (n, p) = (row.1.n as usize, 2 * row.1.pairs.len() * row.1.d as usize);
        for room in [[n, p], [n + 1, p], [LINKS, PARTNERS]] {
            keeping(count, row, room, row.3);
        }
        for carry in CARRIES {
            let (name, s, link, answer, family, partners) = row;
            keeping(count, &(name, s.carrying(carry), *link, *answer, family, partners), [n, p], row.3);
        }
        keeping(count, row, [n - 1, PARTNERS], refused(4, 0));
        keeping(count, row, [0, 0], refused(4, 0));
        if p > 0 {
            keeping(count, row, [LINKS, p - 1], refused(4, 0));
        }
    }
    for (name, number, s) in faults(WORKING) {
        let row: KeptRow = (name, s.clone(), 0, refused(number, 0), &[], &[]);
        keeping(count, &row, [LINKS, PARTNERS], refused(number, 0));
        keeping(count, &row, [2, PARTNERS], refused(number.min(4), 0));
        keeping(count, &(name, s, 3, row.3, &[], &[]), [LINKS, PARTNERS], refused(number.min(5), 0));
    }
    for (name, number, table) in [
        ("8 before the last 5", 8, [2, 0, 2, 0, -3, 0, 0, WORKING + 1]),
        ("15 before the last 5", 15, [2, 0, 2, 0, BARRED, BARRED, BARRED, BARRED]),
        ("15 of a link before the last 5", 15, [BARRED, BARRED, 2, 0, -3, 0, 0, 0]),
    ] {
        let row: KeptRow = (name, sample(2, 2, &[[0, 1]], &table), 0, refused(number, 0), &[], &[]);
        keeping(count, &row, [2, 4], refused(number, 0));
    }
}

/// Whether the pairs form no loop, asked of the case alone: of P1, whose pairs do, 4 and 8 are not answered.
fn loops(count: &mut Count) {
    let rows: [(&str, u64, &[[u8; 2]], Result<bool, Refused>); 12] = [
        ("one link", 1, &[], Ok(true)),
        ("one pair", 2, &[[0, 1]], Ok(true)),
        ("a chain from its end", 4, &[[2, 3], [1, 2], [0, 1]], Ok(true)),
        ("its ends joined", 4, &[[2, 3], [1, 2], [0, 1], [0, 3]], Ok(false)),
        ("a star", 5, &[[0, 2], [1, 2], [2, 3], [2, 4]], Ok(true)),
        ("two components", 4, &[[0, 1], [2, 3]], Ok(true)),
        ("a loop of three", 3, &[[0, 1], [0, 2], [1, 2]], Ok(false)),
        ("a loop beside a chain", 5, &[[0, 1], [2, 3], [3, 4], [2, 4]], Ok(false)),
        ("3 before 5", 0, &[[0, 1]], refused(3, 0)),
        ("5 before 6", 2, &[[1, 0], [0, 2]], refused(5, 0)),
        ("6 before 7", 2, &[[0, 1], [0, 1], [1, 1]], refused(6, 0)),
        ("7 before a loop", 3, &[[0, 1], [0, 2], [1, 2], [0, 1]], refused(7, 0)),
    ];
    for (name, n, pairs, answer) in rows {
        count.test("is_acyclic", name, sample(n, 2, pairs, &[]).case().is_acyclic() == answer);
    }
    for (name, number, s) in faults(WORKING) {
        let answer = if number == 4 || number == 8 { Ok(false) } else { refused(number, 0) };
        count.test("is_acyclic", name, s.case().is_acyclic() == answer);
    }
    for carry in CARRIES {
        count.test("is_acyclic", "a carry", p1().carrying(carry).case().is_acyclic() == Ok(false));
        count.test("is_acyclic", "a carry, a chain", chain().carrying(carry).case().is_acyclic() == Ok(true));
    }
    let last = LINKS as u8 - 1;
    let mut pairs: Vec<[u8; 2]> = (0..last).map(|i| [i, i + 1]).collect();
    let longest = |pairs: &[[u8; 2]]| sample(LINKS as u64, CHANNELS as u64, pairs, &[]).case().is_acyclic();
    count.test("is_acyclic", "the longest chain", longest(&pairs) == Ok(true));
    pairs.push([0, last]);
    count.test("is_acyclic", "the longest loop", longest(&pairs) == Ok(false));
}

const PRESS: [i64; 5] = [2, 0, 2, 0, 2];
const FIRST: [i64; 5] = [3, 1, 0, 0, 0];
const LAST: [i64; 5] = [3, 2, 0, 0, 0];
const BOUND: [i64; 5] = [4, 0, 0, 0, 2];
const START: [i64; 8] = [2, 0, 2, 0, -3, 0, 0, 0];
const PRESSED: [i64; 8] = [0, 0, 2, 2, -1, 0, 0, 0];
const SHIFTS: [[i64; 5]; 2] = [[1, 0, 0, 0, -2], [1, 0, 1, 0, -2]];
const SHIFTED: [i64; 8] = [0, 0, 0, 0, 1, 2, 2, 0];
const VOID: [i64; 5] = [5, 0, 2, 0, 0];
const NO_PLAN: [i64; 8] = [0, BARRED, 0, BARRED, BARRED, 0, 0, 0];
const A_PLAN: [i64; 8] = [0, BARRED, 0, -5, BARRED, 0, 0, 0];

/// Lines of a replay of a sample: what the block answers, the table after it, and what the end answers.
type Row = (&'static str, &'static [[i64; 5]], Result<usize, Refused>, [i64; 8], Result<End, u64>);

const fn at(number: u64, line: usize) -> Result<usize, Refused> {
    Err(Refused { number, line })
}

const ROWS: &[Row] = &[
    ("a round", &[PRESS, FIRST, LAST, BOUND], Ok(4), PRESSED, Ok(End::Accepted(1))),
    ("a pair round", &[SHIFTS[0], SHIFTS[1], BOUND], Ok(3), SHIFTED, Ok(End::Accepted(1))),
    ("a press without a bound", &[PRESS, FIRST, LAST], Ok(3), PRESSED, Err(14)),
    ("a shift", &[[1, 0, 1, 0, 5]], Ok(1), [2, 0, 7, 0, -8, 0, -5, 0], Err(14)),
    ("kind not due", &[FIRST], at(2, 0), START, Err(2)),
    ("no such end", &[[1, 0, 2, 0, 5]], at(5, 0), START, Err(5)),
    ("a scope again", &[PRESS, FIRST, FIRST], at(9, 2), START, Err(9)),
    ("not refuted", &[[2, 0, 1, 0, 2], FIRST], at(10, 1), START, Err(10)),
    ("out of range", &[[1, 0, 0, 0, 500_000_000]], at(11, 0), START, Err(11)),
    ("another ceiling", &[PRESS, FIRST, LAST, [4, 0, 0, 0, 3]], at(12, 3), PRESSED, Err(12)),
    ("not lower", &[[4, 0, 0, 0, 4]], at(13, 0), START, Err(13)),
];

const NO_PLAN_ROWS: &[Row] = &[
    ("no lines", &[], Ok(0), NO_PLAN, Ok(End::Accepted(0))),
    ("a void line", &[VOID, FIRST, LAST], Ok(3), NO_PLAN, Ok(End::Void)),
    ("a void line cut", &[VOID, FIRST], Ok(2), NO_PLAN, Err(14)),
    ("a line after it", &[VOID, FIRST, LAST, [4, 0, 0, 0, 0]], at(2, 3), NO_PLAN, Err(2)),
    ("void, not refuted", &[[5, 0, 1, 0, 0], FIRST], at(10, 1), NO_PLAN, Err(10)),
];

const A_PLAN_ROWS: &[Row] = &[
    ("not all barred", &[VOID, FIRST, LAST], at(16, 2), A_PLAN, Err(16)),
    ("a press", &[[2, 0, 2, 0, 5], FIRST, LAST, [4, 0, 0, 0, -5]], Ok(4), [-5, BARRED, 0, 0, BARRED, 0, 0, 0], Ok(End::Accepted(1))),
];

/// Lines in blocks of so many bytes: how many, or the first refusal.
fn in_blocks(replay: &mut Replay, case: &Case, table: &mut [i64], lines: &[u8], size: usize) -> Result<usize, Refused> {
    let mut passed = 0;
    for block in lines.chunks(size) {
        passed += replay.lines(case, table, block).map_err(|r| Refused { line: r.line + passed, ..r })?;
    }
    Ok(passed)
}

/// A row line by line, and in one block.
fn replayed(count: &mut Count, s: &Sample, row: &Row) {
    let &(name, rows, answer, own, end) = row;
    let (case, after, log) = (s.case(), full(2, &own), carried(rows, s.carry));
    for size in [LINE, 5 * LINE] {
        let mut table = s.table.clone();
        let Ok(mut replay) = Replay::start(&case, &table) else {
            count.test("start", name, false);
            continue;
        };
        let answered = in_blocks(&mut replay, &case, &mut table, &log, size);
        count.test("lines", name, answered == answer && table == after);
        let kept = Replay::from_bytes(*replay.bytes());
        count.test("end", name, kept.end(&case, 0) == end.map_err(|number| Refused { number, line: 0 }));
        let number = end.err().unwrap_or(14);
        count.test("end", "a part line left", kept.end(&case, 26) == refused(number, 0));
        if let Err(Refused { number, .. }) = answer {
            let again = replay.lines(&case, &mut table, &lines(&[PRESS]));
            count.test("lines", "the number that stands", again == refused(number, 0) && table == after);
        }
    }
}

fn replays(count: &mut Count) {
    for (s, rows) in [(p4(), ROWS), (no_plan(), NO_PLAN_ROWS), (a_plan(), A_PLAN_ROWS)] {
        for carry in CARRIES {
            rows.iter().for_each(|row| replayed(count, &s.carrying(carry), row));
        }
    }
    let (case, mut table) = (p4().carrying(5).case(), p4().table);
    let mut replay = Replay::start(&case, &table).expect("a fresh record");
    let answer = replay.lines(&case, &mut table, &lines(&[PRESS, FIRST, LAST, BOUND]));
    count.test("lines", "the carry left out", answer == refused(12, 3) && replay.end(&case, 0) == refused(12, 0));
    for (name, number, mut s) in faults(WORKING) {
        let (case, before) = (s.case(), s.table.clone());
        let mut replay = Replay::from_bytes([0; RECORD]);
        let answer = replay.lines(&case, &mut s.table, &lines(&[[1, 0, 0, 0, 1]]));
        count.test("lines", name, answer == refused(number, 0) && s.table == before && replay.bytes()[51] == number as u8);
        if number != 4 && number != 8 {
            count.test("end", name, Replay::from_bytes([0; RECORD]).end(&case, 0) == refused(number, 0));
        }
    }
    for (name, number, mut s) in faults(WORKING) {
        let (case, before) = (s.case(), s.table.clone());
        let answer = Replay::from_bytes([0; RECORD]).lines(&case, &mut s.table, b" 4");
        count.test("lines", &format!("no whole line, {name}"), answer == refused(number, 0) && s.table == before);
    }
    let (case, mut table) = (p4().case(), p4().table);
    let mut none = Replay::from_bytes([2; RECORD]);
    let answer = none.lines(&case, &mut table, &lines(&[PRESS]));
    count.test("lines", "no record", answer == refused(5, 0) && none.bytes() == &[2; RECORD] && none.end(&case, 0) == refused(5, 0));
}

fn views(count: &mut Count) {
    let log = lines(&[[2, 0, 2, 0, 1], FIRST, LAST, [4, 0, 0, 0, 3], [2, 0, 2, 0, 1], FIRST, LAST, BOUND]);
    let mut bad = log.clone();
    bad[5 * LINE + 26] = b' ';
    let itself = |part: &[u8], from: usize| std::ptr::eq(part, &log[from..from + 4 * LINE]);
    count.test("view", "round 0", view(&log, 0).is_ok_and(|part| itself(part, 0)));
    count.test("view", "round 1", view(&log, 1).is_ok_and(|part| itself(part, 4 * LINE)));
    count.test("view", "round 2", view(&log, 2) == refused(5, 8));
    count.test("view", "cut", view(&log[..8 * LINE - 1], 1) == refused(14, 7));
    count.test("view", "not in columns", view(&bad, 1) == refused(1, 5));
}

/// A run's answer, and that the output begins with these lines and keeps what it held behind them.
type RunRow<'a> = (&'static str, Sample, u64, usize, Run, &'a [[i64; 5]]);

/// With each carry, which the bound lines and the answer's bound have in them; refused by 4, no bound is said.
fn ran(count: &mut Count, function: &str, row: RunRow, call: fn(&Case, &mut [i64], &mut [u8], u64) -> Run) {
    let (name, s, limit, room, answer, rows) = row;
    let own = (s.n * s.d + s.m * s.d * s.d) as usize;
    for carry in CARRIES {
        let (mut table, mut out, wrote) = (s.table.clone(), vec![0xa5; room], carried(rows, carry));
        let run = call(&s.carrying(carry).case(), &mut table, &mut out, limit);
        let bound = if answer.ending == Ending::Refused(4) { 0 } else { answer.bound + carry };
        let kept = out[wrote.len()..].iter().all(|&byte| byte == 0xa5) && table[own..].iter().all(|&weight| weight == 0);
        count.test(function, name, run == Run { bound, ..answer } && out.starts_with(&wrote) && kept && (run.rounds > 0) == (table != s.table));
    }
}

fn engine(count: &mut Count) {
    let made = |ending, rounds, bound| Run { ending, rounds, bound };
    let one = [[2, 0, 3, 0, 1], [3, 3, 0, 0, 0], [3, 4, 0, 0, 0], [3, 5, 0, 0, 0], [4, 0, 0, 0, -1]];
    let pair = [SHIFTS[0], SHIFTS[1], BOUND];
    let first = [[1, 0, 1, 0, -1], [4, 0, 0, 0, 0]];
    let second = [[2, 0, 3, 0, 1], LAST, [3, 3, 0, 0, 0], [3, 4, 0, 0, 0], [4, 0, 0, 0, -1]];
    let lowest = [[2, 0, 2, 0, 1], FIRST, LAST, [4, 0, 0, 0, -499_999_998]];
    let void = [VOID, FIRST, LAST];
    let void_after = [VOID, FIRST, LAST, BOUND];
    let unbarred = [[1, 0, 0, 0, -2], [1, 0, 1, 0, -1], [4, 0, 0, 0, 3]];
    for row in [
        ("P1, limit 0", p1(), 0, 297, made(Ending::Limit, 0, 0), &[][..]),
        ("P1, limit 1", p1(), 1, 297, made(Ending::Settled, 1, -1), &one),
        ("P1, a short output", p1(), 1, 296, made(Ending::Refused(4), 0, 0), &[]),
        ("P5", p4(), 9, 216, made(Ending::Settled, 1, 2), &pair),
        ("P10", p10(), 0, 216, made(Ending::Settled, 0, 11), &[]),
        ("a pair, limit 1", two(), 1, 270, made(Ending::Limit, 1, 0), &first),
        ("a pair, then a press", two(), 9, 270, made(Ending::Settled, 2, -1), &second),
        ("out of range", low(), 9, 270, made(Ending::Refused(11), 1, -499_999_998), &lowest),
        ("void, limit 0", no_plan(), 0, 216, made(Ending::Void, 0, 0), &void),
        ("void, limit 9", no_plan(), 9, 216, made(Ending::Void, 0, 0), &void),
        ("void, a short output", no_plan(), 0, 215, made(Ending::Refused(4), 0, 0), &[]),
        ("before void, limit 0", late(), 0, 216, made(Ending::Limit, 0, 4), &[]),
        ("void at the limit", late(), 2, 216, made(Ending::Void, 2, 2), &void_after),
        ("barred values left out", single(), 1, 216, made(Ending::Limit, 1, 3), &unbarred),
    ] {
        ran(count, "run", row, Case::run);
    }
    for row in [
        ("P1, a press is left", p1(), 9, 297, made(Ending::Settled, 0, 0), &[][..]),
        ("P1, a short output", p1(), 9, 296, made(Ending::Refused(4), 0, 0), &[]),
        ("P5", p4(), 9, 216, made(Ending::Settled, 1, 2), &pair),
        ("P5, limit 0", p4(), 0, 216, made(Ending::Limit, 0, 4), &[]),
        ("a pair, and a press is left", two(), 9, 270, made(Ending::Settled, 1, 0), &first),
        ("passed over, before 11", low(), 9, 270, made(Ending::Settled, 0, -499_999_997), &[]),
        ("no choice, a void line is left", no_plan(), 9, 216, made(Ending::Settled, 0, 0), &[]),
        ("barred values left out", single(), 9, 216, made(Ending::Settled, 1, 3), &unbarred),
        ("not lower", a_plan(), 9, 216, made(Ending::Settled, 0, 0), &[]),
    ] {
        ran(count, "run_pairs", row, Case::run_pairs);
    }
    for carry in CARRIES {
        let (case, shifted) = (p4().carrying(carry).case(), full(2, &SHIFTED));
        let (mut table, mut out) = (p4().table, vec![0xa5; 217]);
        let round = case.round(&mut table, &mut out);
        let wrote = out.starts_with(&carried(&pair, carry)) && out[81..].iter().all(|&byte| byte == 0xa5);
        count.test("round", "P5", round == Ok(Round::Made { bytes: 81, bound: 2 + carry }) && wrote && table == shifted);
        count.test("round", "settled", case.round(&mut table, &mut out) == Ok(Round::Settled) && table == shifted);
        count.test("round", "a short output", case.round(&mut table, &mut out[..215]) == refused(4, 0) && table == shifted);
    }
    for (name, number, s) in faults(WORKING) {
        let (mut table, mut out) = (s.table.clone(), vec![0xa5; 320]);
        let same = |table: &[i64], out: &[u8]| table == s.table && out == [0xa5; 320];
        count.test("round", name, s.case().round(&mut table, &mut out) == refused(number, 0) && same(&table, &out));
        count.test("run", name, s.case().run(&mut table, &mut out, 9) == made(Ending::Refused(number), 0, 0) && same(&table, &out));
        count.test("run_pairs", name, s.case().run_pairs(&mut table, &mut out, 9) == made(Ending::Refused(number), 0, 0) && same(&table, &out));
    }
}

/// The engine's void logs in the checker's calls: void at the end, and the record says that nothing is due.
fn void_logs(count: &mut Count) {
    for s in CARRIES.iter().flat_map(|&carry| [no_plan().carrying(carry), late().carrying(carry)]) {
        let (case, mut table, mut out, mut log) = (s.case(), s.table.clone(), vec![0; ROOM], Vec::new());
        while let Ok(Round::Made { bytes, .. }) = case.round(&mut table, &mut out) {
            log.extend_from_slice(&out[..bytes]);
        }
        let void = case.round(&mut table, &mut out);
        count.test("round", "void", void == Ok(Round::Void { bytes: 3 * LINE }));
        log.extend_from_slice(&out[..3 * LINE]);
        let mut replayed = s.table.clone();
        let mut replay = Replay::start(&case, &replayed).expect("a fresh record");
        count.test("lines", "a void log", replay.lines(&case, &mut replayed, &log) == Ok(log.len() / LINE) && replayed == table);
        count.test("end", "a void log", replay.end(&case, 0) == Ok(End::Void) && replay.bytes()[49] == 3);
    }
    let (case, mut table) = (single().case(), full(2, &[BARRED, BARRED]));
    count.test("round", "a link wholly barred", case.round(&mut table, &mut [0; 216]) == refused(15, 0));
    count.test("run", "a link wholly barred", case.run(&mut table, &mut [0; 216], 0).ending == Ending::Refused(15));
    table[1] = BARRED + 1;
    count.test("run_pairs", "above barred", case.run_pairs(&mut table, &mut [0; 216], 0).ending == Ending::Refused(8));
}

/// The largest case, all of its weights 0: settled with room for the longest round, and number 4 with a byte less.
fn room(count: &mut Count) {
    let pairs: Vec<[u8; 2]> = (0..PAIRS as u8).map(|e| [e % 24, 24 + (e % 24 + e / 24) % 24]).collect();
    let s = sample(LINKS as u64, CHANNELS as u64, &pairs, &[]);
    let (case, mut table, mut out) = (s.case(), s.table, vec![0; ROOM]);
    count.test("round", "the longest round", case.round(&mut table, &mut out) == Ok(Round::Settled));
    count.test("round", "a byte less", case.round(&mut table, &mut out[1..]) == refused(4, 0));
    count.test("run", "a byte less", case.run(&mut table, &mut out[1..], 1).ending == Ending::Refused(4));
    count.test("run_pairs", "a byte less", case.run_pairs(&mut table, &mut out[1..], 1).ending == Ending::Refused(4));
    let (mut family, mut partners) = ([0xa5; LINKS], [0xa5; PARTNERS]);
    let less = case.supported_value(&table, 0, &mut family, &mut partners[1..]);
    count.test("supported_value", "a byte less", less == refused(4, 0) && family == [0xa5; LINKS] && partners == [0xa5; PARTNERS]);
    let kept = case.supported_value(&table, 0, &mut family, &mut partners);
    let fixed = |i: usize| i / CHANNELS % 2 == 0 && pairs[i / CHANNELS / 2][0] == 0 && i % CHANNELS > 0;
    let same = (0..PARTNERS).all(|i| partners[i] == if fixed(i) { OUTSIDE } else { 0 });
    count.test("supported_value", "the largest case", kept == Ok(0) && family[0] == 1 && family[1..] == [255; LINKS - 1] && same);
}

/// Both libraries are of this package's version.
fn versions(count: &mut Count) {
    let parts = [env!("CARGO_PKG_VERSION_MAJOR"), env!("CARGO_PKG_VERSION_MINOR"), env!("CARGO_PKG_VERSION_PATCH")];
    let number = parts.iter().fold(0, |number, part| 100 * number + part.parse::<u64>().unwrap());
    count.test("version", "this package's", version() == number);
    count.test("engine_version", "this package's", engine_version() == number);
}

fn all(count: &mut Count) {
    versions(count);
    files(count);
    totals(count);
    barred(count);
    kept(count);
    loops(count);
    replays(count);
    views(count);
    engine(count);
    void_logs(count);
    room(count);
}

/// The same on four threads at once, each with little stack.
fn at_once(count: &mut Count) {
    let counted = || {
        let mut own = Count::default();
        all(&mut own);
        own
    };
    std::thread::scope(|scope| {
        let small = || std::thread::Builder::new().stack_size(65536);
        let threads: Vec<_> = (0..4).map(|_| small().spawn_scoped(scope, counted).expect("a thread")).collect();
        for thread in threads {
            count.test("all", "on a thread", thread.join().is_ok_and(|own| own.failed == 0));
        }
    });
}

fn main() {
    let mut count = Count::default();
    all(&mut count);
    at_once(&mut count);
    println!("{} passed, {} failed", count.passed, count.failed);
    std::process::exit((count.failed > 0) as i32);
}
