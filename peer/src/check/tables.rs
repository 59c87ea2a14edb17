//! Case files, ceilings, totals and refutation.

use super::*;

impl Check {
    pub fn files(&mut self, case: &Case) -> Result<(), Difference> {
        let file = case::write(case);
        same("case file", &file, &slow::case::write(case), &file)?;
        let read = Ok((case.clone(), file.len() / LINE_BYTES));
        same("case read", &case::read_alone(&file), &read, &file)?;
        same(
            "case read, slow",
            &slow::case::read_alone(&file),
            &read,
            &file,
        )?;
        self.figures.others += 3;
        Ok(())
    }

    /// Ceiling, totals, and the ceiling above every total (Theorem 1).
    pub fn totals(&mut self, case: &Case) -> Result<(), Difference> {
        let file = case::write(case);
        let weights = figures::starting_weights(case);
        let bound = figures::upper_bound(case, &weights);
        same("ceiling", &State::new(case).upper_bound, &bound, &file)?;
        for assignment in figures::assignments(case) {
            let total = figures::objective(case, &weights, &assignment);
            let wide: Vec<u64> = assignment.iter().map(|&value| value as u64).collect();
            same("total", &score::objective(case, &wide), &total.ok_or(5), &file)?;
            holds("ceiling above total", total <= Some(bound), &file)?;
            self.figures.others += 1;
        }
        Ok(())
    }

    /// Every value under every set of raised scopes, or under many of them.
    pub fn refutation(&mut self, random: &mut Random, case: &Case) -> Result<(), Difference> {
        let scopes = case.scopes();
        let every = scopes <= 6 && random.chance(1, 4);
        let tries = if every { 1u64 << scopes } else { 12 };
        let weights = figures::starting_weights(case);
        let state = State::new(case);
        for number in 0..tries {
            let marks = match number {
                _ if every => number,
                0 => u64::MAX,
                _ if number % 2 == 0 => random.next() | random.next(),
                _ => random.next(),
            };
            let raised: Vec<usize> = (0..scopes).filter(|s| marks >> s & 1 == 1).collect();
            self.refuted_under(case, &state, &weights, &raised)?;
        }
        Ok(())
    }

    pub fn refuted_under(
        &mut self,
        case: &Case,
        state: &State,
        weights: &[i64],
        raised: &[usize],
    ) -> Result<(), Difference> {
        let mut set = Scopes::default();
        raised
            .iter()
            .for_each(|&scope| set.insert(case.variables, scope));
        for variable in 0..case.variables {
            for value in 0..case.values {
                let fast = refute::refuted(state, &set, variable, value);
                let slow = slow::refute::refuted_both_ways(case, weights, raised, variable, value);
                let what = format!("refuted, raised {raised:?}, link {variable}, value {value}");
                same(&what, &[fast; 2], &slow, &case::write(case))?;
                self.figures.refutations += 1;
            }
            if !raised.contains(&variable) {
                let fast = refute::all_active_refuted(state, &set, variable);
                let slow = slow::refute::active_refuted(case, weights, raised, variable);
                same("all active refuted", &fast, &slow, &case::write(case))?;
                self.figures.refutations += 1;
            }
        }
        Ok(())
    }
}
