//! Refutation, fast: arc consistency on u8 masks after one value is fixed.
//!
//! `Joint` does it for all values of the fixed variable at once: byte k of a word
//! belongs to the try in which the variable is fixed to its value k.

use crate::scopes::Scopes;
use crate::state::State;
use crate::types::MAX_VARIABLES;

/// The bytes of a word that are 1, or 255.
const ONES: u64 = 0x0101_0101_0101_0101;
const LOW: u64 = 0x7f7f_7f7f_7f7f_7f7f;
const GATHER: u64 = 0x0102_0408_1020_4080;

/// Byte k is 1 where byte k is not zero.
#[inline]
fn filled(bytes: u64) -> u64 {
    (((((bytes & LOW) + LOW) | bytes) & !LOW) >> 7) & ONES
}

/// Values of the end `rows` belongs to that have a partner in `domain`.
#[inline]
fn supported(rows: u64, domain: u8) -> u8 {
    (filled(rows & (ONES * u64::from(domain))).wrapping_mul(GATHER) >> 56) as u8
}

/// The same for eight domains at once; `rows` belongs to the domains' own end.
#[inline]
fn supported_jointly(rows: u64, domains: u64) -> u64 {
    let mut all = 0;
    for value in 0..8 {
        let row = rows >> (8 * value) & 0xff;
        all |= (domains >> value & ONES).wrapping_mul(row);
    }
    all
}

/// Whether no choice of values is active in the edge and in both its variables: then
/// the three greatest weights add up to more than any total of the three, barred
/// choices left out.
pub fn no_active_choice(state: &State, edge: usize) -> bool {
    let [lower, higher] = state.ends[edge].map(|variable| state.active[variable as usize]);
    lower & supported(state.rows[edge][0], higher) == 0
}

/// Domains for one try.
pub type Domains = [u8; MAX_VARIABLES];

/// Narrows the domains of `dirty` variables' neighbours until nothing changes.
/// False if some domain runs empty.
#[inline]
pub fn propagate(state: &State, raised: &Scopes, domains: &mut Domains, mut dirty: u64) -> bool {
    while dirty != 0 {
        let variable = dirty.trailing_zeros() as usize;
        dirty &= dirty - 1;
        let domain = domains[variable];
        for near in state.neighbours(variable) {
            if !raised.has_edge(near.edge as usize) {
                continue;
            }
            let rows = state.rows[near.edge as usize][near.end as usize];
            let old = domains[near.variable as usize];
            let new = old & supported(rows, domain);
            if new == old {
                continue;
            }
            if new == 0 {
                return false;
            }
            domains[near.variable as usize] = new;
            dirty |= 1 << near.variable;
        }
    }
    true
}

/// Closes what the raised scopes forbid. False if some domain runs empty.
pub fn close(state: &State, raised: &Scopes, domains: &mut Domains) -> bool {
    let mut alive = true;
    raised.each_variable(|variable| {
        domains[variable] &= state.active[variable];
        alive &= domains[variable] != 0;
    });
    let every = u64::MAX >> (64 - state.variables);
    alive && propagate(state, raised, domains, every)
}

/// Every value of every variable.
pub fn full_domains(state: &State) -> Domains {
    [state.full; MAX_VARIABLES]
}

/// Whether one value is refuted, for any set of raised scopes.
pub fn refuted(state: &State, raised: &Scopes, variable: usize, value: usize) -> bool {
    let mut domains = full_domains(state);
    domains[variable] = 1 << value;
    !close(state, raised, &mut domains)
}

/// Whether all active values of a variable are refuted; its own scope is not raised.
pub fn all_active_refuted(state: &State, raised: &Scopes, variable: usize) -> bool {
    let mut base = full_domains(state);
    base[variable] = state.active[variable];
    !close(state, raised, &mut base) || none_supported(state, raised, variable, &base)
}

/// The same with the consistent domains for all values of the variable at hand.
pub fn none_supported(state: &State, raised: &Scopes, variable: usize, base: &Domains) -> bool {
    let values = base[variable] & state.active[variable];
    if values == 0 {
        return true;
    }
    if base[variable].count_ones() == 1 {
        return false;
    }
    let lowest = values & values.wrapping_neg();
    let mut domains = *base;
    domains[variable] = lowest;
    if propagate(state, raised, &mut domains, 1 << variable) {
        return false;
    }
    let mut joint = Joint::new(base, variable, values ^ lowest);
    let mut changed = Changed::none();
    changed.note(variable, MANY);
    joint.propagate(state, raised, changed);
    joint.standing == 0
}

/// Domains for a try with each value of one variable. Byte k of `standing` is 255
/// while no domain of try k is empty, else 0; its other bytes no longer count.
#[derive(Clone, Copy)]
pub struct Joint {
    pub standing: u64,
    domains: [u64; MAX_VARIABLES],
}

impl Joint {
    /// Tries with each of the given values, the other variables as in `base`.
    pub fn new(base: &Domains, variable: usize, values: u8) -> Joint {
        let mut joint = Joint {
            standing: 0,
            domains: base.map(|domain| ONES * u64::from(domain)),
        };
        joint.domains[variable] = 0;
        for value in 0..8 {
            joint.domains[variable] |= 1 << (9 * value);
            joint.standing |= (u64::from(values >> value & 1) * 0xff) << (8 * value);
        }
        joint
    }

    /// Narrows one variable in all tries. True if that changed a standing one.
    #[inline]
    fn narrow(&mut self, variable: usize, to: u64) -> bool {
        let old = self.domains[variable];
        let new = old & to;
        if (new ^ old) & self.standing == 0 {
            return false;
        }
        self.domains[variable] = new;
        self.standing &= filled(new) * 0xff;
        true
    }

    /// Narrows the neighbours of changed variables until nothing changes.
    fn propagate(&mut self, state: &State, raised: &Scopes, mut changed: Changed) {
        while let Some((variable, only)) = changed.next() {
            let domains = self.domains[variable];
            for near in state.neighbours(variable) {
                if near.edge == only || !raised.has_edge(near.edge as usize) {
                    continue;
                }
                let rows = state.rows[near.edge as usize][1 - near.end as usize];
                if self.narrow(near.variable as usize, supported_jointly(rows, domains)) {
                    if self.standing == 0 {
                        return;
                    }
                    changed.note(near.variable as usize, near.edge);
                }
            }
        }
    }

    /// Closes what the scopes in `added` forbid too; `raised` holds them already.
    pub fn add(&mut self, state: &State, added: &Scopes, raised: &Scopes) {
        let mut changed = Changed::none();
        added.each_variable(|variable| {
            let active = ONES * u64::from(state.active[variable]);
            if self.narrow(variable, active) {
                changed.note(variable, MANY);
            }
        });
        added.each_edge(|edge| {
            let [rows, columns] = state.rows[edge];
            let [lower, higher] = state.ends[edge];
            let (lower, higher) = (lower as usize, higher as usize);
            if self.narrow(higher, supported_jointly(rows, self.domains[lower])) {
                changed.note(higher, edge as u8);
            }
            if self.narrow(lower, supported_jointly(columns, self.domains[higher])) {
                changed.note(lower, edge as u8);
            }
        });
        if self.standing != 0 {
            self.propagate(state, raised, changed);
        }
    }
}

/// Stands for more than one edge, or none.
const MANY: u8 = u8::MAX;

/// Variables narrowed since their neighbours were looked at, and the edge over which
/// each was narrowed if it was one only: what it lost supported nothing over that edge.
struct Changed {
    variables: u64,
    over: [u8; MAX_VARIABLES],
}

impl Changed {
    fn none() -> Changed {
        Changed {
            variables: 0,
            over: [MANY; MAX_VARIABLES],
        }
    }

    #[inline]
    fn note(&mut self, variable: usize, edge: u8) {
        let again = self.variables >> variable & 1 == 1;
        self.over[variable] = if again && self.over[variable] != edge {
            MANY
        } else {
            edge
        };
        self.variables |= 1 << variable;
    }

    #[inline]
    fn next(&mut self) -> Option<(usize, u8)> {
        if self.variables == 0 {
            return None;
        }
        let variable = self.variables.trailing_zeros() as usize;
        self.variables &= self.variables - 1;
        Some((variable, self.over[variable]))
    }
}
