//! Lines of 27 bytes in columns of 2, 4, 4, 4 and 12 characters, fast.

use crate::types::{Line, LINE_BYTES};

const ZERO_NARROW: u32 = u32::from_le_bytes(*b"   0");
const ZERO_WIDE: u64 = u64::from_le_bytes(*b"       0");
const BLANK: u32 = u32::from_le_bytes(*b"    ");

/// The line's numbers, or nothing if it is not 27 bytes in five columns (number 1).
#[inline]
pub fn parse(bytes: &[u8]) -> Option<Line> {
    let bytes: &[u8; LINE_BYTES] = bytes.try_into().ok()?;
    if bytes[26] != b'\n' {
        return None;
    }
    let kind = match [bytes[0], bytes[1]] {
        [b' ', digit @ b'0'..=b'9'] => i64::from(digit - b'0'),
        [b'1', digit @ b'0'..=b'9'] => 10 + i64::from(digit - b'0'),
        _ => column(&bytes[0..2])?,
    };
    let a = narrow(&bytes[2..6])?;
    let b = narrow(&bytes[6..10])?;
    let c = narrow(&bytes[10..14])?;
    let amount = wide(&bytes[14..26])?;
    Some(Line {
        kind,
        a,
        b,
        c,
        amount,
    })
}

#[inline]
fn narrow(bytes: &[u8]) -> Option<i64> {
    let word = u32::from_le_bytes([bytes[0], bytes[1], bytes[2], bytes[3]]);
    if word == ZERO_NARROW {
        return Some(0);
    }
    column(bytes)
}

#[inline]
fn wide(bytes: &[u8]) -> Option<i64> {
    let low = u32::from_le_bytes([bytes[0], bytes[1], bytes[2], bytes[3]]);
    let high = u64::from_le_bytes(bytes[4..12].try_into().ok()?);
    if low == BLANK && high == ZERO_WIDE {
        return Some(0);
    }
    column(bytes)
}

/// One column: blanks, an optional minus, digits without leading zeros.
#[inline]
fn column(bytes: &[u8]) -> Option<i64> {
    let mut at = 0;
    while at < bytes.len() && bytes[at] == b' ' {
        at += 1;
    }
    let negative = at < bytes.len() && bytes[at] == b'-';
    if negative {
        at += 1;
    }
    let digits = &bytes[at..];
    match digits {
        [] => return None,
        [b'0'] if !negative => return Some(0),
        [b'0', ..] => return None,
        _ => {}
    }
    let mut number = 0i64;
    for &digit in digits {
        let figure = digit.wrapping_sub(b'0');
        if figure > 9 {
            return None;
        }
        number = number * 10 + i64::from(figure);
    }
    Some(if negative { -number } else { number })
}

/// Appends a line. Every number must fit its column.
#[inline]
pub fn write(out: &mut Vec<u8>, kind: i64, a: i64, b: i64, c: i64, amount: i64) {
    let mut text = *b"                          \n";
    put(&mut text[0..2], kind);
    put(&mut text[2..6], a);
    put(&mut text[6..10], b);
    put(&mut text[10..14], c);
    put(&mut text[14..26], amount);
    out.extend_from_slice(&text);
}

pub fn write_line(out: &mut Vec<u8>, line: Line) {
    write(out, line.kind, line.a, line.b, line.c, line.amount);
}

/// Whether the line's numbers fit their columns.
pub fn fits(line: Line) -> bool {
    let narrow = |number: i64| (-999..=9999).contains(&number);
    (-9..=99).contains(&line.kind)
        && narrow(line.a)
        && narrow(line.b)
        && narrow(line.c)
        && (-99_999_999_999..=999_999_999_999).contains(&line.amount)
}

#[inline]
fn put(column: &mut [u8], number: i64) {
    let mut rest = number.unsigned_abs();
    let mut at = column.len();
    loop {
        at -= 1;
        column[at] = b'0' + (rest % 10) as u8;
        rest /= 10;
        if rest == 0 {
            break;
        }
    }
    if number < 0 {
        column[at - 1] = b'-';
    }
}
