//! Document 02's change 3, fast: a link's lowest active value that is not refuted with all
//! other scopes raised, its largest family and each value's lowest partner. What is left
//! when the masks narrow no more is the largest family. They are narrowed once with all
//! active values of the link, then for each of these that is left, upwards.

use crate::lent;
use crate::refute::{close, full_domains, propagate, Domains};
use crate::state::State;
use crate::types::*;

/// How many bytes the partners take.
pub fn partner_bytes(case: &Case) -> usize {
    2 * case.edges.len() * case.values
}

/// The value, family and partners written from the outputs' first bytes; or a number, and
/// nothing is written.
pub fn show(
    case: &Case,
    variable: u64,
    family: &mut [u8],
    partners: &mut [u8],
) -> Result<usize, u8> {
    let short = family.len() < case.variables || partners.len() < partner_bytes(case);
    let outside = variable >= case.variables as u64;
    if let Some(number) = lent::refusal(case, short, outside) {
        return Err(number);
    }
    let state = State::new(case);
    let (value, domains) = lowest_kept(&state, variable as usize).ok_or(5)?;
    family[..state.variables].copy_from_slice(&domains[..state.variables]);
    write_partners(&state, &domains, partners);
    Ok(value)
}

/// The lowest active value that is not refuted, and its largest family.
fn lowest_kept(state: &State, variable: usize) -> Option<(usize, Domains)> {
    let raised = state.others(variable);
    let mut base = full_domains(state);
    base[variable] = state.active[variable];
    if !close(state, &raised, &mut base) {
        return None;
    }
    let mut left = base[variable];
    while left != 0 {
        let value = left.trailing_zeros() as usize;
        let mut domains = base;
        domains[variable] = 1 << value;
        if propagate(state, &raised, &mut domains, 1 << variable) {
            return Some((value, domains));
        }
        left &= left - 1;
    }
    None
}

fn write_partners(state: &State, domains: &Domains, partners: &mut [u8]) {
    let places = partners.chunks_exact_mut(state.values).take(2 * state.edges);
    for (at, bytes) in places.enumerate() {
        let (edge, end) = (at / 2, at % 2);
        let ends = [end, 1 - end].map(|end| state.ends[edge][end] as usize);
        let [own, other] = ends.map(|variable| domains[variable]);
        for (value, byte) in bytes.iter_mut().enumerate() {
            let open = (state.rows[edge][end] >> (8 * value)) as u8 & other;
            let inside = own >> value & 1 == 1;
            *byte = if inside { open.trailing_zeros() as u8 } else { OUTSIDE };
        }
    }
}
