//! Case files: reading and writing, and the places of the table, fast.

use crate::line;
use crate::types::*;

impl Case {
    pub fn scopes(&self) -> usize {
        self.variables + self.edges.len()
    }

    pub fn file_lines(&self) -> usize {
        let square = self.values * self.values;
        1 + self.variables * self.values + self.edges.len() * (1 + square)
    }

    /// Whether some combination is barred.
    pub fn has_barred(&self) -> bool {
        self.weights.contains(&BARRED)
    }
}

pub fn table_length(variables: usize, values: usize, edges: usize) -> usize {
    variables * values + edges * values * values
}

/// Reads a case at the front of the input; hands back the lines used.
pub fn read_front(input: &[u8]) -> Result<(Case, usize), Refusal> {
    read_within(input, START_LIMIT)
}

fn read_within(input: &[u8], limit: i64) -> Result<(Case, usize), Refusal> {
    let mut reader = Reader { input, at: 0, limit };
    let (mut case, edges) = reader.head()?;
    let mut place = 0;
    for variable in 0..case.variables {
        for value in 0..case.values {
            case.weights[place] = reader.weight(11, variable, value, 0)?;
            place += 1;
        }
        reader.not_barred(&case.weights[place - case.values..place])?;
    }
    let mut paired = [0u64; MAX_VARIABLES];
    for edge in 0..edges {
        let ends = reader.edge(edge, case.variables, &mut paired)?;
        case.edges.push(ends);
        for first in 0..case.values {
            for second in 0..case.values {
                case.weights[place] = reader.weight(13, edge, first, second)?;
                place += 1;
            }
        }
        reader.not_barred(&case.weights[place - case.values * case.values..place])?;
    }
    Ok((case, reader.at))
}

/// Reads a case file alone: no kind is due after its last line.
pub fn read_alone(input: &[u8]) -> Result<(Case, usize), Refusal> {
    read_alone_within(input, START_LIMIT)
}

/// The same for a working table, whose weights have the working range.
pub fn read_table(input: &[u8]) -> Result<(Case, usize), Refusal> {
    read_alone_within(input, WORK_LIMIT)
}

fn read_alone_within(input: &[u8], limit: i64) -> Result<(Case, usize), Refusal> {
    let (case, used) = read_within(input, limit)?;
    let rest = &input[used * LINE_BYTES..];
    if rest.is_empty() {
        return Ok((case, used));
    }
    let number = if rest.len() < LINE_BYTES {
        14
    } else if line::parse(&rest[..LINE_BYTES]).is_none() {
        1
    } else {
        2
    };
    Err(Refusal { number, line: used })
}

struct Reader<'a> {
    input: &'a [u8],
    at: usize,
    limit: i64,
}

impl Reader<'_> {
    fn refuse<T>(&self, number: u8) -> Result<T, Refusal> {
        Err(Refusal {
            number,
            line: self.at,
        })
    }

    #[inline]
    fn due(&self, kind: i64) -> Result<Line, Refusal> {
        let line = self.line()?;
        if line.kind != kind {
            return self.refuse(2);
        }
        Ok(line)
    }

    #[inline]
    fn line(&self) -> Result<Line, Refusal> {
        let from = self.at * LINE_BYTES;
        let Some(bytes) = self.input.get(from..from + LINE_BYTES) else {
            return self.refuse(14);
        };
        match line::parse(bytes) {
            None => self.refuse(1),
            Some(line) => Ok(line),
        }
    }

    /// The case with no edge read yet, and its number of edges.
    fn head(&mut self) -> Result<(Case, usize), Refusal> {
        let line = self.due(10)?;
        if line.amount != 0 {
            return self.refuse(2);
        }
        let variables = limited(line.a, 1, MAX_VARIABLES);
        let values = limited(line.b, 1, MAX_VALUES);
        let edges = limited(line.c, 0, MAX_EDGES);
        let (Some(variables), Some(values), Some(edges)) = (variables, values, edges) else {
            return self.refuse(3);
        };
        self.at += 1;
        let weights = vec![0; table_length(variables, values, edges)];
        let case = Case {
            variables,
            values,
            edges: Vec::with_capacity(edges),
            weights,
        };
        Ok((case, edges))
    }

    /// The weight of a line of kind 11 or 13, or of the kind that bars instead.
    #[inline]
    fn weight(&mut self, kind: i64, a: usize, b: usize, c: usize) -> Result<i32, Refusal> {
        let line = self.line()?;
        let barred = line.kind == barring(kind);
        if line.kind != kind && !barred {
            return self.refuse(2);
        }
        if kind == 11 && line.c != 0 || barred && line.amount != 0 {
            return self.refuse(2);
        }
        if line.a != a as i64 || line.b != b as i64 || line.c != c as i64 {
            return self.refuse(5);
        }
        if line.amount.abs() > self.limit {
            return self.refuse(8);
        }
        self.at += 1;
        Ok(if barred { BARRED } else { line.amount as i32 })
    }

    /// Number 15 at the scope's last line, which was read just now.
    fn not_barred(&self, scope: &[i32]) -> Result<(), Refusal> {
        if scope.iter().any(|&weight| weight != BARRED) {
            return Ok(());
        }
        let (number, line) = (15, self.at - 1);
        Err(Refusal { number, line })
    }

    fn edge(
        &mut self,
        edge: usize,
        variables: usize,
        paired: &mut [u64; MAX_VARIABLES],
    ) -> Result<(usize, usize), Refusal> {
        let line = self.due(12)?;
        if line.amount != 0 {
            return self.refuse(2);
        }
        let lower = limited(line.b, 0, variables - 1);
        let higher = limited(line.c, 0, variables - 1);
        let (Some(lower), Some(higher)) = (lower, higher) else {
            return self.refuse(5);
        };
        if line.a != edge as i64 {
            return self.refuse(5);
        }
        if lower >= higher {
            return self.refuse(6);
        }
        if paired[lower] >> higher & 1 == 1 {
            return self.refuse(7);
        }
        paired[lower] |= 1 << higher;
        self.at += 1;
        Ok((lower, higher))
    }
}

/// The kind that bars where a weight of this kind is due.
fn barring(kind: i64) -> i64 {
    if kind == 11 {
        14
    } else {
        15
    }
}

fn limited(number: i64, least: usize, most: usize) -> Option<usize> {
    let number = usize::try_from(number).ok()?;
    (least..=most).contains(&number).then_some(number)
}

/// The case file of a valid case.
pub fn write(case: &Case) -> Vec<u8> {
    write_table(case, |kind, weight| match weight {
        BARRED => (barring(kind), 0),
        _ => (kind, weight.into()),
    })
}

/// The same lines with every weight as it stands, barred ones too.
pub fn write_numbers(case: &Case) -> Vec<u8> {
    write_table(case, |kind, weight| (kind, weight.into()))
}

fn write_table(case: &Case, shown: impl Fn(i64, i32) -> (i64, i64)) -> Vec<u8> {
    let mut out = Vec::with_capacity(case.file_lines() * LINE_BYTES);
    let (variables, values) = (case.variables as i64, case.values as i64);
    line::write(&mut out, 10, variables, values, case.edges.len() as i64, 0);
    let mut place = 0;
    for variable in 0..variables {
        for value in 0..values {
            let (kind, weight) = shown(11, case.weights[place]);
            line::write(&mut out, kind, variable, value, 0, weight);
            place += 1;
        }
    }
    for (edge, &(lower, higher)) in case.edges.iter().enumerate() {
        line::write(&mut out, 12, edge as i64, lower as i64, higher as i64, 0);
        for first in 0..values {
            for second in 0..values {
                let (kind, weight) = shown(13, case.weights[place]);
                line::write(&mut out, kind, edge as i64, first, second, weight);
                place += 1;
            }
        }
    }
    out
}
