//! Lines by the definition: a column is good if writing its number gives it back.

use crate::types::Line;

fn column(bytes: &[u8]) -> Option<i64> {
    let text = std::str::from_utf8(bytes).ok()?;
    let number: i64 = text.trim_start_matches(' ').parse().ok()?;
    let again = format!("{number:>width$}", width = bytes.len());
    (again == text).then_some(number)
}

pub fn parse(bytes: &[u8]) -> Option<Line> {
    if bytes.len() != 27 || bytes[26] != 10 {
        return None;
    }
    let mut numbers = [0; 5];
    let mut from = 0;
    for (place, width) in [2, 4, 4, 4, 12].into_iter().enumerate() {
        numbers[place] = column(&bytes[from..from + width])?;
        from += width;
    }
    let [kind, a, b, c, amount] = numbers;
    Some(Line {
        kind,
        a,
        b,
        c,
        amount,
    })
}

pub fn write(line: Line) -> Vec<u8> {
    let Line {
        kind,
        a,
        b,
        c,
        amount,
    } = line;
    format!("{kind:>2}{a:>4}{b:>4}{c:>4}{amount:>12}\n").into_bytes()
}

/// A file cut every 27 bytes; the last piece may be a part line.
pub fn cut(file: &[u8]) -> Vec<&[u8]> {
    file.chunks(27).collect()
}
