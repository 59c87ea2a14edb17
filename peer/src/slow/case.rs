//! Case files by the list of lines that are due.

use super::line;
use crate::types::{Case, Line, Refusal};
use std::ops::Range;

#[derive(Clone, Copy)]
pub enum Due {
    Unary(usize, usize),
    Edge(usize),
    Pair(usize, usize, usize),
}

fn due_lines(variables: usize, values: usize, edges: usize) -> Vec<Due> {
    due_of(0..variables, values, 0..edges)
}

/// The lines of some links and then of some pairs.
pub fn due_of(links: Range<usize>, values: usize, edges: Range<usize>) -> Vec<Due> {
    let mut due = Vec::new();
    for i in links {
        for k in 0..values {
            due.push(Due::Unary(i, k));
        }
    }
    for e in edges {
        due.push(Due::Edge(e));
        for k in 0..values {
            for l in 0..values {
                due.push(Due::Pair(e, k, l));
            }
        }
    }
    due
}

/// The file's line with that number, in columns.
fn line_at(file: &[u8], number: usize) -> Result<Line, u8> {
    match line::cut(file).get(number) {
        None => Err(14),
        Some(piece) if piece.len() < 27 => Err(14),
        Some(piece) => line::parse(piece).ok_or(1),
    }
}

fn head(line: Line) -> Result<(usize, usize, usize), u8> {
    if line.kind != 10 || line.amount != 0 {
        return Err(2);
    }
    let good =
        (1..=48).contains(&line.a) && (1..=8).contains(&line.b) && (0..=96).contains(&line.c);
    if !good {
        return Err(3);
    }
    Ok((line.a as usize, line.b as usize, line.c as usize))
}

/// Takes a line that is due; edges and weights are added to what the case holds.
pub fn take(case: &mut Case, due: Due, line: Line) -> Result<(), u8> {
    let barred = [14, 15].contains(&line.kind);
    let (kinds, unused): (&[i64], Vec<i64>) = match due {
        Due::Unary(..) if barred => (&[14], vec![line.c, line.amount]),
        Due::Unary(..) => (&[11], vec![line.c]),
        Due::Edge(..) => (&[12], vec![line.amount]),
        Due::Pair(..) if barred => (&[15], vec![line.amount]),
        Due::Pair(..) => (&[13], vec![]),
    };
    if !kinds.contains(&line.kind) || unused.iter().any(|&column| column != 0) {
        return Err(2);
    }
    let named = match due {
        Due::Unary(i, k) => line.a == i as i64 && line.b == k as i64,
        Due::Edge(e) => {
            let links = 0..case.variables as i64;
            line.a == e as i64 && links.contains(&line.b) && links.contains(&line.c)
        }
        Due::Pair(e, k, l) => line.a == e as i64 && line.b == k as i64 && line.c == l as i64,
    };
    if !named {
        return Err(5);
    }
    if let Due::Edge(_) = due {
        return take_edge(case, line.b as usize, line.c as usize);
    }
    if barred {
        case.weights.push(-2_000_000_000);
    } else if line.amount < -1_000_000 || line.amount > 1_000_000 {
        return Err(8);
    } else {
        case.weights.push(line.amount as i32);
    }
    if wholly_barred(case, due) {
        return Err(15);
    }
    Ok(())
}

/// The scope's last weight was the last one taken, and all of them are barred.
fn wholly_barred(case: &Case, due: Due) -> bool {
    let last = case.values - 1;
    let count = match due {
        Due::Unary(_, k) if k == last => case.values,
        Due::Pair(_, k, l) if k == last && l == last => case.values * case.values,
        _ => return false,
    };
    let mut scope = case.weights.iter().rev().take(count);
    scope.all(|&weight| weight == -2_000_000_000)
}

fn take_edge(case: &mut Case, lower: usize, higher: usize) -> Result<(), u8> {
    if lower >= higher {
        return Err(6);
    }
    if case.edges.contains(&(lower, higher)) {
        return Err(7);
    }
    case.edges.push((lower, higher));
    Ok(())
}

pub fn read_front(file: &[u8]) -> Result<(Case, usize), Refusal> {
    let refusal = |line: usize| move |number: u8| Refusal { number, line };
    let first = line_at(file, 0).map_err(refusal(0))?;
    let (variables, values, edges) = head(first).map_err(refusal(0))?;
    let mut case = Case {
        variables,
        values,
        edges: vec![],
        weights: vec![],
    };
    let due = due_lines(variables, values, edges);
    for (before, &due) in due.iter().enumerate() {
        let number = before + 1;
        let line = line_at(file, number).map_err(refusal(number))?;
        take(&mut case, due, line).map_err(refusal(number))?;
    }
    Ok((case, due.len() + 1))
}

pub fn read_alone(file: &[u8]) -> Result<(Case, usize), Refusal> {
    let (case, used) = read_front(file)?;
    if file.len() == used * 27 {
        return Ok((case, used));
    }
    let number = line_at(file, used).err().unwrap_or(2);
    Err(Refusal { number, line: used })
}

pub fn write(case: &Case) -> Vec<u8> {
    let number = |number: usize| number as i64;
    let mut weights = case.weights.iter();
    let mut next = |[kind, barred]: [i64; 2]| match *weights.next().unwrap() {
        -2_000_000_000 => (barred, 0),
        weight => (kind, i64::from(weight)),
    };
    let (a, b, c) = (
        number(case.variables),
        number(case.values),
        number(case.edges.len()),
    );
    let mut file = line::write(Line {
        kind: 10,
        a,
        b,
        c,
        amount: 0,
    });
    for due in due_lines(case.variables, case.values, case.edges.len()) {
        let line = match due {
            Due::Unary(i, k) => {
                let (kind, amount) = next([11, 14]);
                Line {
                    kind,
                    a: number(i),
                    b: number(k),
                    c: 0,
                    amount,
                }
            }
            Due::Edge(e) => {
                let (lower, higher) = case.edges[e];
                Line {
                    kind: 12,
                    a: number(e),
                    b: number(lower),
                    c: number(higher),
                    amount: 0,
                }
            }
            Due::Pair(e, k, l) => {
                let (kind, amount) = next([13, 15]);
                Line {
                    kind,
                    a: number(e),
                    b: number(k),
                    c: number(l),
                    amount,
                }
            }
        };
        file.extend(line::write(line));
    }
    file
}
