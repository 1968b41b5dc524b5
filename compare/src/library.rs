//! The one shape all libraries are called in, that of the C ABI.

use independent::generate::Tables;

/// The three tables lent for reading.
#[derive(Clone, Copy, Debug)]
pub struct Lent<'a> {
    pub points: &'a [i32],
    pub corners: &'a [u16],
    pub begins: &'a [u16],
}

impl<'a> From<&'a Tables> for Lent<'a> {
    fn from(tables: &'a Tables) -> Self {
        Lent {
            points: &tables.points,
            corners: &tables.corners,
            begins: &tables.begins,
        }
    }
}

/// The three tables lent to the reader for writing.
#[derive(Debug)]
pub struct Room<'a> {
    pub points: &'a mut [i32],
    pub corners: &'a mut [u16],
    pub begins: &'a mut [u16],
}

impl<'a> From<&'a mut Tables> for Room<'a> {
    fn from(tables: &'a mut Tables) -> Self {
        Room {
            points: &mut tables.points,
            corners: &mut tables.corners,
            begins: &mut tables.begins,
        }
    }
}

/// Where a walk starts and which way it goes.
#[derive(Clone, Copy, Debug)]
pub struct Way {
    pub start: u32,
    pub direction: [i32; 3],
}

/// Each call returns the answer number and writes its places to `out` where `out` is long enough.
pub trait Library {
    fn name(&self) -> &str;
    fn judge(&self, t: Lent, out: &mut [i64]) -> u16;
    fn walk(&self, t: Lent, way: Way, trail: &mut [u16], out: &mut [i64]) -> u16;
    fn outline(&self, points: &[i32], out: &mut [i64]) -> u16;
    fn read_tape(&self, tape: &[u8], room: &mut Room, out: &mut [i64]) -> u16;
    fn write_tape(&self, t: Lent, buffer: &mut [u8], out: &mut [i64]) -> u16;
    fn look_up(&self, t: Lent, facet: u32, out: &mut [i64]) -> u16;
}

/// Writes the places where they all fit, else nothing.
pub fn put(out: &mut [i64], places: &[i64]) {
    if let Some(room) = out.get_mut(..places.len()) {
        room.copy_from_slice(places);
    }
}

/// The literal judge.
pub struct Independent;

impl Library for Independent {
    fn name(&self) -> &str {
        "independent"
    }

    fn judge(&self, t: Lent, out: &mut [i64]) -> u16 {
        let [number, places @ ..] = independent::judge(t.points, t.corners, t.begins);
        put(out, &places);
        number as u16
    }

    fn walk(&self, t: Lent, way: Way, trail: &mut [u16], out: &mut [i64]) -> u16 {
        let Way { start, direction } = way;
        let ([number, a, b, c], vertex, height, moves) =
            independent::walk(t.points, t.corners, t.begins, direction, start, trail);
        put(out, &[a, b, c, vertex, height, moves]);
        number as u16
    }

    fn outline(&self, points: &[i32], out: &mut [i64]) -> u16 {
        let (number, place) = independent::outline(points);
        put(out, &[place]);
        number as u16
    }

    fn read_tape(&self, tape: &[u8], room: &mut Room, out: &mut [i64]) -> u16 {
        let (number, places) = independent::read_tape(tape, room.points, room.corners, room.begins);
        put(out, &places);
        number as u16
    }

    fn write_tape(&self, t: Lent, buffer: &mut [u8], out: &mut [i64]) -> u16 {
        let (number, places) = independent::write_tape(t.points, t.corners, t.begins, buffer);
        put(out, &places);
        number as u16
    }

    fn look_up(&self, t: Lent, facet: u32, out: &mut [i64]) -> u16 {
        let part = independent::look_up(t.points, t.corners, t.begins, facet);
        put(out, &part);
        0
    }
}
