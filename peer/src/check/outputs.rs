//! What the programs print, views, scoring and single lines.

use super::*;

impl Check {
    /// A careful foreign log is accepted by both readings.
    pub fn careful(&mut self, random: &mut Random, case: &Case) -> Result<(), Difference> {
        let input = [case::write(case), foreign::mixed(random, case, false)].concat();
        let answer = programs::replay(&input);
        holds(
            "careful foreign log",
            answer.starts_with(b"accepted ") || answer == b"void\n",
            &input,
        )?;
        same(
            "careful foreign log",
            &answer,
            &slow::programs::replay(&input),
            &input,
        )?;
        self.figures.programs += 1;
        self.plain_replay(&answer, &input)
    }

    pub fn programs(&mut self, random: &mut Random, case: &Case) -> Result<(), Difference> {
        let input = input_for(random, case);
        let (fast, slow) = match input.program {
            Program::Press if slow_press_takes_long(&input.bytes) => return Ok(()),
            Program::Press => (
                programs::press(&input.bytes),
                slow::programs::press(&input.bytes),
            ),
            Program::Replay => (
                programs::replay(&input.bytes),
                slow::programs::replay(&input.bytes),
            ),
        };
        let what = format!("program {:?}", input.program);
        same(&what, &text(&fast), &text(&slow), &input.bytes)?;
        if let Program::Replay = input.program {
            self.plain_replay(&fast, &input.bytes)?;
        }
        self.counts.note_output(&input.bytes, &fast);
        self.figures.programs += 1;
        Ok(())
    }

    pub fn plain_replay(&mut self, fast: &[u8], input: &[u8]) -> Result<(), Difference> {
        let plain = programs::plain_replay(input);
        same("plain replay", &text(fast), &text(&plain), input)?;
        self.figures.programs += 1;
        Ok(())
    }

    /// What is handed to the programs of calls: whole lines, and answers to all tables.
    pub fn calls(&mut self, seed: u64, index: u64) -> Result<(), Difference> {
        for batch in [calls::batch(seed, index), family_calls::batch(seed, index)] {
            let whole = batch.input.len() % LINE_BYTES == 0;
            holds("calls in whole lines", whole, &batch.input)?;
            let names = text(&batch.output).matches("table ").count() as u64;
            same("tables answered", &names, &batch.figures.tables, &batch.input)?;
            self.figures.others += 1;
        }
        Ok(())
    }

    pub fn views(&mut self, log: &[u8]) -> Result<(), Difference> {
        let rounds = log.len() / LINE_BYTES + 2;
        for round in (0..rounds.min(6) as u64).chain([u64::MAX]) {
            let fast = view::view(log, round);
            let slow = slow::view::view(log, round)
                .map(|(first, last)| &log[first * LINE_BYTES..(last + 1) * LINE_BYTES]);
            same(&format!("view of round {round}"), &fast, &slow, log)?;
            if let Err(refusal) = fast {
                self.counts.note("view", refusal.number, "log".into());
            }
            self.figures.others += 1;
        }
        Ok(())
    }

    pub fn scores(&mut self, random: &mut Random, case: &Case) -> Result<(), Difference> {
        for _ in 0..4 {
            let plans = [0, 1].map(|_| {
                let odd = random.chance(1, 8);
                let length = if odd { random.below(6) } else { case.variables };
                let top = case.values + usize::from(random.chance(1, 8));
                (0..length)
                    .map(|_| random.below(top) as u64)
                    .collect::<Vec<u64>>()
            });
            let fast = score::score(case, &plans[0], &plans[1]);
            let slow = slow::score::score(case, &plans[0], &plans[1]);
            same(
                &format!("score of {plans:?}"),
                &fast,
                &slow,
                &case::write(case),
            )?;
            if let Err(number) = fast {
                self.counts.note("score", number, "plan".into());
            }
            self.figures.others += 1;
        }
        Ok(())
    }

    /// Lines of random column texts, read by both, and written back.
    pub fn columns(&mut self, random: &mut Random) -> Result<(), Difference> {
        for _ in 0..40 {
            let mut bytes = Vec::new();
            for width in [2, 4, 4, 4, 12] {
                bytes.extend(column_text(random, width));
            }
            bytes.push(if random.chance(1, 30) { b' ' } else { b'\n' });
            let (fast, slow) = (line::parse(&bytes), slow::line::parse(&bytes));
            same("line", &fast, &slow, &bytes)?;
            if let Some(line) = fast {
                let mut again = Vec::new();
                line::write_line(&mut again, line);
                same("line written back", &again, &bytes, &bytes)?;
            }
            self.figures.others += 1;
        }
        Ok(())
    }
}

/// Text for a column: mostly a number that fits, sometimes any of its letters.
fn column_text(random: &mut Random, width: usize) -> Vec<u8> {
    if random.chance(1, 12) {
        return (0..width).map(|_| *random.pick(b"  -0019+")).collect();
    }
    let digits = 1 + random.below(width) as u32;
    let most = 10i64.pow(digits) - 1;
    let least = 1 - 10i64.pow(digits - 1);
    format!("{:>width$}", random.between(least, most)).into_bytes()
}
