//! The lines the two programs print.

use crate::judge::judge;
use crate::number::*;
use crate::tape::{read_tape, BEGIN_ROOM, CORNER_ROOM, POINT_ROOM};
use crate::walk::walk;

/// How much of a tape the programs read.
pub const LONGEST_INPUT: usize = 21_510;
/// How much of the walking program's standard input is split into words.
pub const LONGEST_WORDS: usize = 256;

/// What the judging program prints for these bytes of standard input.
pub fn judging_line(input: &[u8]) -> String {
    let [number, a, b, c] = match tables(input) {
        Err((number, offset)) => [number, offset, 0, 0],
        Ok((points, corners, begins)) => judge(&points, &corners, &begins),
    };
    format!("{number} {a} {b} {c}\n")
}

/// What the walking program prints for this file and these bytes of standard input.
pub fn walking_line(tape: &[u8], input: &[u8]) -> String {
    let [number, vertex, height, moves] = match walked(tape, input) {
        Err(number) => [number, 0, 0, 0],
        Ok([vertex, height, moves]) => [ACCEPTED, vertex, height, moves],
    };
    format!("{number} {vertex} {height} {moves}\n")
}

fn walked(tape: &[u8], input: &[u8]) -> Result<[i64; 3], i64> {
    let (points, corners, begins) = tables(tape).map_err(|(number, _)| number)?;
    let judged = judge(&points, &corners, &begins);
    if judged[0] != ACCEPTED {
        return Err(judged[0]);
    }
    let vertices = points.len() / 3;
    let too_long = input.len() > LONGEST_WORDS;
    let words: Vec<&[u8]> = input[..input.len().min(LONGEST_WORDS)]
        .split(|&byte| byte == b' ' || byte == b'\n')
        .filter(|word| !word.is_empty())
        .collect();

    let start = words.first().and_then(|word| number_of(word));
    let start = match start {
        Some(start) if start >= 0 && start < vertices as i64 => start as u32,
        _ => return Err(START),
    };
    let mut direction = [0; 3];
    for (k, part) in direction.iter_mut().enumerate() {
        match words.get(k + 1).and_then(|word| number_of(word)) {
            Some(n) if (-32767..=32767).contains(&n) => *part = n as i32,
            _ => return Err(DIRECTION),
        }
    }
    if words.len() > 4 || too_long {
        return Err(DIRECTION);
    }

    let mut trail = vec![0; vertices];
    let ([number, ..], vertex, height, moves) =
        walk(&points, &corners, &begins, direction, start, &mut trail);
    match number {
        ACCEPTED => Ok([vertex, height, moves]),
        refusal => Err(refusal),
    }
}

type Tables = (Vec<i32>, Vec<u16>, Vec<u16>);

fn tables(input: &[u8]) -> Result<Tables, (i64, i64)> {
    let tape = &input[..input.len().min(LONGEST_INPUT)];
    let mut points = vec![0; POINT_ROOM];
    let mut corners = vec![0; CORNER_ROOM];
    let mut begins = vec![0; BEGIN_ROOM];
    let (number, sizes) = read_tape(tape, &mut points, &mut corners, &mut begins);
    if number != ACCEPTED {
        return Err((number, sizes[0]));
    }
    let [vertices, facets, run] = sizes.map(|n| n as usize);
    points.truncate(3 * vertices);
    corners.truncate(run);
    begins.truncate(facets + 1);
    Ok((points, corners, begins))
}

/// An optional minus sign and one or more digits; long values stop at a bound past all limits.
fn number_of(word: &[u8]) -> Option<i64> {
    const BOUND: i64 = 1_000_000_000_000;
    let (negative, digits) = match word.strip_prefix(b"-") {
        Some(digits) => (true, digits),
        None => (false, word),
    };
    if digits.is_empty() || !digits.iter().all(u8::is_ascii_digit) {
        return None;
    }
    let mut value = 0;
    for digit in digits {
        value = (value * 10 + i64::from(digit - b'0')).min(BOUND);
    }
    Some(if negative { -value } else { value })
}

#[cfg(test)]
mod tests {
    use super::number_of;

    #[test]
    fn words_are_numbers_or_not() {
        assert_eq!(number_of(b"007"), Some(7));
        assert_eq!(number_of(b"-0"), Some(0));
        assert_eq!(number_of(b"-12"), Some(-12));
        assert!(number_of(&[b'9'; 200]).is_some_and(|n| n > 1 << 32));
        assert!(number_of(b"-99999999999999999999999").is_some_and(|n| n < -(1 << 32)));
        let long_five = [vec![b'0'; 200], vec![b'5']].concat();
        assert_eq!(number_of(&long_five), Some(5));
        for word in [
            "", "-", "+5", "1.0", "--1", "1-", "1e3", "0x1", "5\t", "\u{0665}",
        ] {
            assert_eq!(number_of(word.as_bytes()), None, "{word}");
        }
    }
}
