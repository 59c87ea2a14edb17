//! Document 02's change 5, with every plan listed: what is promised of lawful plans by
//! stretches between lines of kind 7 and 8, and logs aimed at these lines.

use super::chains::best_total;
use super::*;
use crate::foreign::directed;
use crate::slow::engine::lowest;
use crate::{joins, links, loops};

/// After every line the promises are looked at where there are no more plans than this.
const FEW_PLANS: usize = 250;

/// What was looked at.
#[derive(Default, Clone, Copy)]
pub struct LinkFigures {
    pub made: links::Figures,
    /// Stretches ended, and states in which the promises were looked at.
    pub stretches: u64,
    pub states: u64,
    /// Quiet states without a loop, and those of them with a carry.
    pub quiet: u64,
    pub carried: u64,
    /// Flat links that joined and left at once, the state being the one before.
    pub returned: u64,
}

/// The rounds before a stretch and the ceiling at its start.
pub struct Stretch {
    links: usize,
    rounds: u64,
    ceiling: i64,
}

impl Stretch {
    pub fn new(replay: &PlainReplay) -> Stretch {
        Stretch {
            links: replay.case.variables,
            rounds: replay.rounds,
            ceiling: replay.ceiling(),
        }
    }

    /// A leave or a join was made since the stretch began.
    pub fn is_over(&self, replay: &PlainReplay) -> bool {
        replay.case.variables != self.links
    }
}

fn plans(case: &Case) -> usize {
    case.values.saturating_pow(case.variables as u32)
}

/// Whether a line begins a leave or a join, as far as its kind says.
fn is_link_line(bytes: &[u8]) -> bool {
    line::parse(bytes).is_some_and(|line| [7, 8].contains(&line.kind))
}

/// Whether links may join or leave in a list of lines.
pub fn has_links(lines: &[Vec<u8>]) -> bool {
    joins::allowed() && lines.iter().any(|bytes| is_link_line(bytes))
}

impl Check {
    /// What is promised of lawful plans in a state of a stretch, and that bars stay.
    pub fn promised(
        &mut self,
        replay: &PlainReplay,
        stretch: &Stretch,
        input: &[u8],
    ) -> Result<(), Difference> {
        let case = &replay.case;
        if plans(case) > MOST_PLANS {
            return Ok(());
        }
        let starting = figures::starting_weights(case);
        let mut both = starting.iter().zip(&replay.weights);
        let stays = |(old, new): (&i64, &i64)| (*old == figures::BARRED) == (*new == figures::BARRED);
        holds("bars stay", both.all(stays), input)?;
        if replay.void {
            holds("void without a lawful plan", !has_lawful(case), input)?;
        }
        holds("carry within its limit", replay.carry.abs() <= CARRY_LIMIT, input)?;
        let rounds = (replay.rounds - stretch.rounds) as i64;
        for plan in figures::assignments(case) {
            let working = figures::objective(case, &replay.weights, &plan);
            let total = figures::objective(case, &starting, &plan);
            same("lawful", &working.is_some(), &total.is_some(), input)?;
            let (Some(working), Some(total)) = (working, total) else { continue };
            let kept = working + replay.carry >= total;
            holds("working total and carry not below starting total", kept, input)?;
            holds("ceiling not below starting total", replay.ceiling() >= total, input)?;
            holds("rounds within the difference", rounds <= stretch.ceiling - total, input)?;
        }
        self.figures.links.states += 1;
        Ok(())
    }

    /// Where the pairs form no loop and no press and no void line is left, the ceiling is
    /// the greatest working total and the carry.
    fn hilltop(&mut self, replay: &PlainReplay, input: &[u8]) -> Result<(), Difference> {
        let case = &replay.case;
        let small = plans(case) <= MOST_PLANS;
        if !small || !loops::no_loop(case) || lowest(case, &replay.weights).is_some() {
            return Ok(());
        }
        let best = best_total(case, &replay.weights).map(|total| total + replay.carry);
        same("ceiling of a quiet state", &Some(replay.ceiling()), &best, input)?;
        self.figures.links.quiet += 1;
        self.figures.links.carried += u64::from(replay.carry != 0);
        Ok(())
    }

    /// Before a line of kind 7 or 8, and at the end of the list.
    fn stretch_ends(
        &mut self,
        replay: &PlainReplay,
        stretch: &Stretch,
        input: &[u8],
    ) -> Result<(), Difference> {
        self.promised(replay, stretch, input)?;
        self.hilltop(replay, input)?;
        self.figures.links.stretches += 1;
        Ok(())
    }

    /// A stretch begins: the ceiling is not above that of the starting weights, and a link
    /// that joined has raised both alike.
    fn stretch_begins(
        &self,
        last: (&Case, i64),
        replay: &PlainReplay,
        input: &[u8],
    ) -> Result<(), Difference> {
        let fresh = |case: &Case| figures::upper_bound(case, &figures::starting_weights(case));
        let [old, new] = [fresh(last.0), fresh(&replay.case)];
        holds("not above the fresh ceiling", replay.ceiling() <= new, input)?;
        let joined = replay.case.variables > last.0.variables;
        let raised = replay.ceiling() - last.1 == new - old;
        holds("raised by what joined", !joined || raised, input)?;
        let restarted = replay.ceiling() < new || replay.carry == 0;
        holds("no carry at the fresh ceiling", joined || restarted, input)
    }

    /// A list of lines by the slow reading, with the promises by stretches and, of few plans,
    /// after every line.
    pub fn stretches(&mut self, case: &Case, lines: &[Vec<u8>]) -> Result<(), Difference> {
        let input = [case::write(case), lines.concat()].concat();
        let mut replay = PlainReplay::new(case);
        let mut stretch = Stretch::new(&replay);
        for bytes in lines {
            if is_link_line(bytes) && replay.number.is_none() {
                self.stretch_ends(&replay, &stretch, &input)?;
            }
            let before = (replay.rounds, replay.weights.clone());
            let last = (replay.case.clone(), replay.ceiling());
            replay.feed(bytes);
            if stretch.is_over(&replay) {
                self.stretch_begins((&last.0, last.1), &replay, &input)?;
                stretch = Stretch::new(&replay);
            }
            let changed = (before.0, &before.1) != (replay.rounds, &replay.weights);
            if changed && plans(&replay.case) <= FEW_PLANS {
                self.promised(&replay, &stretch, &input)?;
            }
        }
        self.stretch_ends(&replay, &stretch, &input)
    }

    /// Logs aimed at leaves and joins, whole and damaged, and as the programs read them.
    pub fn links(&mut self, random: &mut Random) -> Result<(), Difference> {
        if !joins::allowed() {
            return Ok(());
        }
        let careless = random.chance(1, 2);
        let (case, log) = directed::any(random, careless);
        self.list(&case, &cut(&log))?;
        let input = [case::write(&case), log.clone()].concat();
        let answer = programs::replay(&input);
        self.plain_replay(&answer, &input)?;
        if !careless {
            let good = answer.starts_with(b"accepted ") || answer == b"void\n";
            holds("careful log with links", good, &input)?;
        }
        let bad = damage(random, &log);
        self.list(&case, &cut(&bad))?;
        let input = [case::write(&case), bad].concat();
        self.plain_replay(&programs::replay(&input), &input)?;
        self.lines_of_join(random)?;
        self.there_and_back(random)
    }

    /// A join cut before each of its lines, and with each of them spoilt.
    fn lines_of_join(&mut self, random: &mut Random) -> Result<(), Difference> {
        let case = small_case(random);
        let join = foreign::one_join(random, &case);
        for at in 0..join.len() {
            let mut bad = join.clone();
            foreign::spoil(random, &case, &mut bad, at);
            self.list(&case, &cut(&lines_text(&bad)))?;
            let log = lines_text(&join[..at]);
            self.list(&case, &cut(&log))?;
            let input = [case::write(&case), log].concat();
            let answer = programs::replay(&input);
            self.plain_replay(&answer, &input)?;
            let missing = format!("refused 14 {}\n", case.file_lines() + at);
            holds("a join cut off", at == 0 || text(&answer) == missing, &input)?;
        }
        Ok(())
    }

    /// A flat link that joins and leaves at once: all is as before, or work restarts.
    fn there_and_back(&mut self, random: &mut Random) -> Result<(), Difference> {
        let case = small_case(random);
        let log = foreign::mixed(random, &case, false);
        let input = [case::write(&case), log.clone()].concat();
        let mut replay = Replay::new(&case);
        for bytes in log.chunks(LINE_BYTES) {
            replay.step(bytes);
        }
        if replay.void || replay.end().is_some() {
            return Ok(());
        }
        let before = (replay.case.clone(), replay.state.weights(), replay.carry);
        let kept = replay.ceiling() < State::new(&before.0).upper_bound;
        let expected = match kept {
            true => before,
            false => (before.0.clone(), before.0.weights, 0),
        };
        let lines = foreign::flat_join(random, &replay.case);
        let leave = Line { kind: 7, a: replay.case.variables as i64, b: 0, c: 0, amount: 0 };
        for bytes in lines_text(&[&lines[..], &[leave]].concat()).chunks(LINE_BYTES) {
            same("a good line", &replay.step(bytes), &None, &input)?;
        }
        let after = (replay.case.clone(), replay.state.weights(), replay.carry);
        same("a flat link there and back", &after, &expected, &input)?;
        self.figures.links.returned += u64::from(after.2 != 0);
        Ok(())
    }
}

fn lines_text(lines: &[Line]) -> Vec<u8> {
    let mut text = Vec::new();
    for &line in lines {
        line::write_line(&mut text, line);
    }
    text
}
