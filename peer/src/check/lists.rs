//! Logs as lists of lines, and what holds after every list.

use super::links::{has_links, Stretch};
use super::*;

impl Check {
    /// One log as a list of lines, whole and damaged, and its views.
    pub fn logs(&mut self, random: &mut Random, case: &Case, log: &[u8]) -> Result<(), Difference> {
        self.list(case, &cut(log))?;
        self.views(log)?;
        let bad = damage(random, log);
        self.views(&bad)?;
        let mut lines = cut(&bad);
        if random.chance(1, 3) {
            let at = random.below(lines.len() + 1);
            let length = *random.pick(&[0, 1, 26, 28, 54]);
            lines.insert(at, vec![b' '; length]);
        }
        self.list(case, &lines)
    }

    /// A foreign log from a table that is no starting one.
    pub fn other_start(&mut self, random: &mut Random, case: &Case) -> Result<(), Difference> {
        let table = match random.below(3) {
            0 => border_for(random, case),
            1 => any_table_for(random, case),
            _ => {
                let limit = random.below(12) as u64;
                let weights = engine::run_case(case, Rounds::All, limit).weights;
                Case { weights, ..case.clone() }
            }
        };
        let careless = random.chance(2, 3);
        let log = foreign::mixed(random, &table, careless);
        self.list(&table, &cut(&log))
    }

    pub fn list(&mut self, case: &Case, lines: &[Vec<u8>]) -> Result<(), Difference> {
        let input = [case::write(case), lines.concat()].concat();
        let mut fast = Replay::new(case);
        let mut slow = PlainReplay::new(case);
        let mut climb = Climb::new(fast.ceiling());
        for (at, bytes) in lines.iter().enumerate() {
            let answer = slow.feed(bytes);
            let what = format!("line {at} of the log");
            let before = (fast.standing, fast.case.variables);
            same(&what, &fast.step(bytes), &answer, &input)?;
            same_state(&what, &fast, &slow, &input)?;
            if let (None, Some(number)) = (before.0, answer) {
                self.counts.note_line(number, bytes);
            }
            if fast.case.variables != before.1 {
                climb = Climb::new(fast.ceiling());
                climb.rounds = fast.rounds;
            }
            self.figures.climbs += climb.note(fast.ceiling(), fast.rounds);
            self.figures.lines += 1;
        }
        same("end of the log", &fast.end(), &slow.end(), &input)?;
        same("void", &fast.void, &slow.void, &input)?;
        self.figures.voids += u64::from(fast.void);
        if fast.end() == Some(14) {
            self.counts.note("list", 14, "end".into());
        }
        same("ceiling of the log", &fast.ceiling(), &slow.ceiling(), &input)?;
        self.figures.lists += 1;
        self.figures.links.made.add(&fast.link_figures());
        if has_links(lines) {
            return self.stretches(case, lines);
        }
        self.promised(&slow, &Stretch::new(&PlainReplay::new(case)), &input)
    }
}

/// Case, weights, carry and rounds of both readings.
fn same_state(
    what: &str,
    fast: &Replay,
    slow: &PlainReplay,
    input: &[u8],
) -> Result<(), Difference> {
    same(what, &fast.case, &slow.case, input)?;
    same(what, &fast.state.weights(), &narrow(&slow.weights), input)?;
    same(what, &fast.carry, &slow.carry, input)?;
    same(what, &fast.rounds, &slow.rounds, input)
}

/// Counts the rounds made in which the ceiling rose before it fell.
struct Climb {
    start: i64,
    rose: bool,
    rounds: u64,
}

impl Climb {
    fn new(start: i64) -> Climb {
        Climb {
            start,
            rose: false,
            rounds: 0,
        }
    }

    /// 1 where such a round ends with this line.
    fn note(&mut self, bound: i64, rounds: u64) -> u64 {
        self.rose |= bound > self.start;
        if rounds == self.rounds {
            return 0;
        }
        let rose = self.rose;
        *self = Climb {
            start: bound,
            rose: false,
            rounds,
        };
        u64::from(rose)
    }
}
