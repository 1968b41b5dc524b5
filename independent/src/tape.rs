//! Reading and writing the tape.

use crate::judge::first_refusal;
use crate::number::*;

pub const POINT_ROOM: usize = 3072;
pub const CORNER_ROOM: usize = 6144;
pub const BEGIN_ROOM: usize = 2049;

/// The number 0 with V, F and corners, or a refusal with the byte offset first.
pub fn read_tape(
    tape: &[u8],
    points: &mut [i32],
    corners: &mut [u16],
    begins: &mut [u16],
) -> (i64, [i64; 3]) {
    if points.len() < POINT_ROOM || corners.len() < CORNER_ROOM || begins.len() < BEGIN_ROOM {
        return (ROOM, [0; 3]);
    }
    match parse(tape) {
        Err((number, offset)) => (number, [offset as i64, 0, 0]),
        Ok(read) => {
            points[..read.points.len()].copy_from_slice(&read.points);
            corners[..read.corners.len()].copy_from_slice(&read.corners);
            begins[..read.begins.len()].copy_from_slice(&read.begins);
            let sizes = [
                read.points.len() / 3,
                read.begins.len() - 1,
                read.corners.len(),
            ];
            (ACCEPTED, sizes.map(|n| n as i64))
        }
    }
}

struct Read {
    points: Vec<i32>,
    corners: Vec<u16>,
    begins: Vec<u16>,
}

fn parse(tape: &[u8]) -> Result<Read, (i64, usize)> {
    let mut read = Read {
        points: Vec::new(),
        corners: Vec::new(),
        begins: vec![0],
    };
    let mut offset = 0;
    loop {
        let vertices = read.points.len() / 3;
        let facets = read.begins.len() - 1;
        let Some(&kind) = tape.get(offset) else {
            return Err((CUT, tape.len()));
        };
        let length = match kind {
            0 => 4,
            1 => 6,
            3..=12 => 2 * usize::from(kind),
            _ => return Err((KIND, offset)),
        };
        if kind == 1 && facets > 0 {
            return Err((ORDER, offset));
        }
        let passes_limit = match kind {
            0 => false,
            1 => vertices + 1 > 1024,
            _ => facets + 1 > 2048 || read.corners.len() + usize::from(kind) > 6144,
        };
        if passes_limit {
            return Err((LIMIT, offset));
        }
        let rest = &tape[offset + 1..];
        if rest.len() < length {
            return Err((CUT, offset));
        }
        let body: Vec<u16> = rest[..length]
            .chunks_exact(2)
            .map(|pair| u16::from_le_bytes([pair[0], pair[1]]))
            .collect();
        let end = offset + 1 + length;
        match kind {
            0 => {
                if usize::from(body[0]) != vertices || usize::from(body[1]) != facets {
                    return Err((COUNT, offset));
                }
                if end < tape.len() {
                    return Err((TAIL, end));
                }
                return Ok(read);
            }
            1 => read
                .points
                .extend(body.iter().map(|&n| i32::from(n as i16))),
            _ => {
                read.corners.extend(body);
                read.begins.push(read.corners.len() as u16);
            }
        }
        offset = end;
    }
}

/// The number 0 with the length first, or a refusal with its places.
pub fn write_tape(
    points: &[i32],
    corners: &[u16],
    begins: &[u16],
    buffer: &mut [u8],
) -> (i64, [i64; 3]) {
    if let Some([number, a, b, c]) = first_refusal(points, corners, begins, INDEX) {
        return (number, [a, b, c]);
    }
    let mut tape = Vec::new();
    for point in points.chunks_exact(3) {
        tape.push(1);
        for &c in point {
            tape.extend((c as i16).to_le_bytes());
        }
    }
    for pair in begins.windows(2) {
        let facet = &corners[usize::from(pair[0])..usize::from(pair[1])];
        tape.push(facet.len() as u8);
        for c in facet {
            tape.extend(c.to_le_bytes());
        }
    }
    tape.push(0);
    tape.extend(((points.len() / 3) as u16).to_le_bytes());
    tape.extend(((begins.len() - 1) as u16).to_le_bytes());
    if buffer.len() < tape.len() {
        return (SPACE, [0; 3]);
    }
    buffer[..tape.len()].copy_from_slice(&tape);
    (ACCEPTED, [tape.len() as i64, 0, 0])
}
