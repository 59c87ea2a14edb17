//! The call of change 3, fast against slow, and what follows from document 02 about it.

use super::*;
use crate::calls::{spoilt_case, table_lines};
use crate::families;
use crate::family_calls::{is_last, some_lengths};
use crate::programs::{shown, shown_bytes};
use crate::slow::engine::due;
use crate::slow::families::{both_ways, every_supported, open_for, Family};
use crate::slow::refute::{active_refuted, values_of, Open};

/// How often what the readings could differ in occurred.
#[derive(Default, Clone, Copy)]
pub struct FamilyFigures {
    pub calls: u64,
    /// A value was found; a lower active one is refuted; some active value of another link
    /// is outside its family.
    pub found: u64,
    pub not_lowest: u64,
    pub narrowed: u64,
    /// Partners that are not the lowest active one, as that is outside the family.
    pub higher: u64,
    /// Values of a family that are themselves refuted at their own links.
    pub refuted: u64,
    /// Refused by the last 5, and by other numbers.
    pub none: u64,
    pub numbers: u64,
}

fn by_both(table: &Case, link: i64, lent: [usize; 2]) -> Result<Shown, Difference> {
    let [fast, slow] =
        [families::show, slow::families::show].map(|show| shown(show, table, link, lent));
    let file = table_lines(table);
    same(&format!("family of link {link}, lent {lent:?}"), &fast, &slow, &file)?;
    Ok(fast)
}

/// Whether the lent bytes are as they were.
fn untouched(shown: &Shown) -> bool {
    shown.family.iter().chain(&shown.partners).all(|&byte| byte == b'.')
}

/// What is said of every value inside and outside the family, byte by byte.
fn partner_facts(
    open: &Open,
    sets: &Family,
    partners: &[u8],
    file: &[u8],
) -> Result<u64, Difference> {
    let (case, mut higher) = (open.case, 0);
    let byte = |edge: usize, end: usize, v: usize| partners[(2 * edge + end) * case.values + v];
    for (edge, &(lower, upper)) in case.edges.iter().enumerate() {
        for (end, [own, other]) in [[lower, upper], [upper, lower]].into_iter().enumerate() {
            for v in 0..case.values {
                let partner = byte(edge, end, v);
                if sets[own] >> v & 1 == 0 {
                    holds("255 outside the family", partner == OUTSIDE, file)?;
                    continue;
                }
                let partner = partner as usize;
                let inside = partner < case.values && sets[other] >> partner & 1 == 1;
                holds("the partner is in the family", inside, file)?;
                let is_open = |w: usize| {
                    let tuple = if end == 0 { [v, w] } else { [w, v] };
                    open.is_open(case.variables + edge, &tuple)
                };
                holds("the partner is open", is_open(partner), file)?;
                let below = (0..partner).any(|w| sets[other] >> w & 1 == 1 && is_open(w));
                holds("no lower partner", !below, file)?;
                let back = byte(edge, 1 - end, partner) as usize <= v;
                holds("a partner's partner is not higher", back, file)?;
                higher += u64::from((0..partner).any(is_open));
            }
        }
    }
    Ok(higher)
}

/// Every supported family with the value lies inside, the family is one of them, and
/// deleting values without a partner leaves it.
fn union_facts(
    open: &Open,
    link: usize,
    value: usize,
    sets: &Family,
    file: &[u8],
) -> Result<(), Difference> {
    let inside = |family: &Family| family.iter().zip(sets).all(|(set, all)| set & !all == 0);
    let families = every_supported(open, link, value);
    holds("every supported family lies inside", families.iter().all(inside), file)?;
    holds("the family is one of them", families.contains(sets), file)?;
    let [listed, left] = both_ways(open, link, value);
    same("what deleting leaves", &left, &listed, file)
}

/// Some pair's links are connected by pairs before it.
pub fn has_loop(case: &Case) -> bool {
    let mut part: Vec<usize> = (0..case.variables).collect();
    case.edges.iter().any(|&(lower, higher)| {
        let [from, to] = [part[lower], part[higher]];
        let joined = part.iter_mut().filter(|other| **other == from);
        joined.for_each(|other| *other = to);
        from == to
    })
}

/// How a run of no rounds ends, and the first line of the next round or of the void line.
fn next_line(table: &Case) -> (Stop, Option<Line>) {
    let now = engine::run_case(table, Rounds::All, 0);
    let made = match now.stop {
        Stop::Limit => engine::run_case(table, Rounds::All, 1).log,
        _ => now.log,
    };
    (now.stop, made.chunks(LINE_BYTES).next().and_then(slow::line::parse))
}

impl Check {
    /// Tables of all kinds from a small case, and calls that are refused.
    pub fn families(&mut self, random: &mut Random, case: &Case) -> Result<(), Difference> {
        let mut tables = vec![case.clone(), any_table_for(random, case), border_for(random, case)];
        for _ in 0..4 {
            tables.push(loose_for(random, case));
        }
        for table in &tables {
            self.families_of(table)?;
            let limit = random.below(4) as u64;
            for limit in [limit, PROGRAM_ROUNDS] {
                let weights = engine::run_case(table, Rounds::All, limit).weights;
                self.families_of(&Case { weights, ..table.clone() })?;
            }
        }
        for table in [spoilt_case(random), spoilt_case(random), tables.swap_remove(3)] {
            self.family_numbers(random, &table)?;
        }
        Ok(())
    }

    /// Some links of tables of any size.
    pub fn large_families(
        &mut self,
        random: &mut Random,
        tables: &[Case],
    ) -> Result<(), Difference> {
        for table in tables {
            let weights = engine::run_case(table, Rounds::All, PROGRAM_ROUNDS).weights;
            let ended = Case { weights, ..table.clone() };
            let loose = loose_for(random, table);
            for table in [table, &ended, &loose] {
                for _ in 0..3 {
                    let link = random.below(table.variables) as i64;
                    let lent = some_lengths(random, table);
                    let shown = by_both(table, link, lent)?;
                    self.note_call(&shown, is_last(table, link, lent));
                }
            }
            self.ended_fact(&ended)?;
        }
        Ok(())
    }

    /// The call for every link of a small table, with all that holds.
    pub fn families_of(&mut self, table: &Case) -> Result<(), Difference> {
        let file = case::write(table);
        let lent = shown_bytes(table);
        for link in 0..table.variables {
            let shown = by_both(table, link as i64, lent)?;
            self.note_call(&shown, true);
            self.family_facts(table, link, &shown, &file)?;
        }
        self.ended_fact(table)
    }

    fn note_call(&mut self, shown: &Shown, last: bool) {
        let figures = &mut self.figures.families;
        figures.calls += 1;
        match shown.answer {
            Ok(_) => figures.found += 1,
            Err(_) if last => figures.none += 1,
            Err(_) => figures.numbers += 1,
        }
    }

    fn family_facts(
        &mut self,
        table: &Case,
        link: usize,
        shown: &Shown,
        file: &[u8],
    ) -> Result<(), Difference> {
        let weights = figures::starting_weights(table);
        let others: Vec<usize> = (0..table.scopes()).filter(|&scope| scope != link).collect();
        let refuted = active_refuted(table, &weights, &others, link);
        same("5 where all active are refuted", &shown.answer.is_err(), &refuted, file)?;
        let Ok(value) = shown.answer else {
            holds("number 5 is the last", shown.answer == Err(5), file)?;
            return holds("nothing is written", untouched(shown), file);
        };
        let open = open_for(table, &weights, link);
        let sets: Family = shown.family.iter().map(|&set| set.into()).collect();
        holds("the link's own set", sets[link] == 1 << value, file)?;
        holds("the family is supported", open.supports(&sets), file)?;
        holds("no set is empty", !sets.contains(&0), file)?;
        union_facts(&open, link, value, &sets, file)?;
        let active = figures::active_values(table, &weights, link);
        let lower: Vec<usize> = active.into_iter().take_while(|&k| k < value).collect();
        let any = lower.iter().any(|&k| !every_supported(&open, link, k).is_empty());
        holds("lower active values are refuted", !any, file)?;
        let higher = partner_facts(&open, &sets, &shown.partners, file)?;
        let figures = &mut self.figures.families;
        figures.not_lowest += u64::from(!lower.is_empty());
        figures.higher += higher;
        let refuted = self.note_family(table, link, &weights, &sets);
        let kept = refuted == 0 || table.variables > 3 && has_loop(table);
        holds("a family's values are kept without a loop", kept, file)
    }

    /// Notes whether a family leaves something out; how many of its values are refuted at
    /// their own links.
    fn note_family(&mut self, table: &Case, link: usize, weights: &[i64], sets: &Family) -> usize {
        let (mut narrowed, mut count) = (false, 0);
        for other in (0..table.variables).filter(|&other| other != link) {
            let active = figures::active_values(table, weights, other);
            narrowed |= active.iter().any(|&k| sets[other] >> k & 1 == 0);
            let open = open_for(table, weights, other);
            let refuted = |&k: &usize| every_supported(&open, other, k).is_empty();
            count += values_of(sets[other]).filter(refuted).count();
        }
        let figures = &mut self.figures.families;
        figures.narrowed += u64::from(narrowed);
        figures.refuted += count as u64;
        count
    }

    /// Where no press and no void line is left every link has a value; else the lowest link
    /// without one is the next press's or the void line's; while a pair is due none has one.
    fn ended_fact(&mut self, table: &Case) -> Result<(), Difference> {
        let file = case::write(table);
        let lent = shown_bytes(table);
        let answer = |link: usize| shown(families::show, table, link as i64, lent).answer;
        let without = (0..table.variables).find(|&link| answer(link) == Err(5));
        match next_line(table) {
            (Stop::Settled, _) => holds("a value where settled", without.is_none(), &file)?,
            (_, Some(Line { kind: 1, .. })) => {}
            (_, Some(line)) => same("link of 5", &without, &Some(line.a as usize), &file)?,
            (_, None) => holds("5 where 11 is met", without.is_some(), &file)?,
        }
        let weights = figures::starting_weights(table);
        if (0..table.edges.len()).any(|edge| due(table, &weights, edge)) {
            let none = (0..table.variables).all(|link| answer(link) == Err(5));
            holds("no value while a pair is due", none, &file)?;
        }
        self.figures.others += 1;
        Ok(())
    }

    /// Spoilt tables, links that are none and odd lengths: the same numbers, and nothing
    /// written.
    fn family_numbers(&mut self, random: &mut Random, table: &Case) -> Result<(), Difference> {
        let n = table.variables as i64;
        for _ in 0..4 {
            let within = random.below(table.variables) as i64;
            let link = *random.pick(&[within, within, within, n, 63, 64, -1]);
            let lent = some_lengths(random, table);
            let shown = by_both(table, link, lent)?;
            let file = table_lines(table);
            let last = is_last(table, link, lent);
            self.note_call(&shown, last);
            match shown.answer {
                Err(number) => {
                    holds("nothing is written", untouched(&shown), &file)?;
                    let kind = if last { "last" } else { "table" };
                    self.counts.note("family", number, kind.into());
                }
                Ok(_) => self.past_bytes(table, &shown, &file)?,
            }
        }
        Ok(())
    }

    /// Past what is written the bytes stay.
    fn past_bytes(&mut self, table: &Case, shown: &Shown, file: &[u8]) -> Result<(), Difference> {
        let [family, partners] = shown_bytes(table);
        let past = shown.family[family..].iter().chain(&shown.partners[partners..]);
        holds("bytes past the outputs stay", past.into_iter().all(|&byte| byte == b'.'), file)
    }
}
