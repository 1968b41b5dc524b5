//! One call, with everything lent kept under watch, or one run of a program.

use crate::library::{Lent, Library, Room, Way};
use crate::Product;
use independent::generate::{pattern, Case, Tables};
use std::hint::black_box;
use std::io;

/// What a call answered and what the lent entries held afterwards, or what a program printed.
#[derive(Debug, PartialEq, Eq)]
pub struct Outcome {
    pub number: u16,
    pub places: Vec<i64>,
    pub lent: Vec<i64>,
    pub printed: Vec<u8>,
    /// A broken promise that needs no second library to be seen.
    pub fault: Option<String>,
}

const GUARD: usize = 8;
const UNWRITTEN: i64 = -0x5a5a_5a5a_5a5a;

/// A lent table between guard cells that nobody may touch.
struct Guarded<T> {
    before: Vec<T>,
    cells: Vec<T>,
}

impl<T: Copy + PartialEq> Guarded<T> {
    fn new(contents: impl Iterator<Item = T>, guard: T) -> Self {
        let mut cells = vec![guard; GUARD];
        cells.extend(contents);
        cells.extend([guard; GUARD]);
        Guarded {
            before: cells.clone(),
            cells,
        }
    }

    fn lend(&mut self) -> &mut [T] {
        let end = self.cells.len() - GUARD;
        black_box(&mut self.cells[GUARD..end])
    }

    /// Whether all but the first `need` lent entries still hold what they held.
    fn kept_past(&self, need: usize) -> bool {
        let end = GUARD + need.min(self.cells.len() - 2 * GUARD);
        self.before[..GUARD] == self.cells[..GUARD] && self.before[end..] == self.cells[end..]
    }

    fn now(&self) -> &[T] {
        &self.cells[GUARD..self.cells.len() - GUARD]
    }
}

fn lend(tables: &Tables) -> Lent<'_> {
    black_box(tables).into()
}

fn places(count: usize) -> Guarded<i64> {
    Guarded::new((0..count).map(|_| UNWRITTEN), UNWRITTEN)
}

/// Calls the library or runs the program with the case.
pub fn run(product: Product, case: &Case) -> Outcome {
    let Product { library, programs } = product;
    let copy = case.clone();
    let mut outcome = match case {
        Case::Judge(tables) => judge(library, tables),
        Case::Walk {
            tables,
            start,
            direction,
            trail,
        } => {
            let way = Way {
                start: *start,
                direction: *direction,
            };
            walk(library, tables, way, trail)
        }
        Case::Outline(points) => outline(library, points),
        Case::Read { tape, rooms, salt } => read(library, tape, *rooms, *salt),
        Case::Write { tables, room, salt } => write(library, tables, *room, *salt),
        Case::LookUp { tables, facet } => look_up(library, tables, *facet),
        Case::JudgingProgram(input) => printed(programs.judging(input)),
        Case::WalkingProgram { tape, input } => printed(programs.walking(tape.as_deref(), input)),
    };
    if black_box(case) != &copy {
        outcome.fault = Some("what was lent for reading has changed".into());
    }
    outcome
}

/// Gathers the outcome and looks for entries changed without leave.
fn finish(number: u16, out: &Guarded<i64>, kept: bool, short: Option<&str>) -> Outcome {
    let fault = if !out.kept_past(out.now().len()) {
        Some("an entry outside the places was written")
    } else if !kept {
        Some("a lent entry beyond the need was altered")
    } else {
        short
    };
    Outcome {
        number,
        places: out.now().to_vec(),
        lent: Vec::new(),
        printed: Vec::new(),
        fault: fault.map(str::to_string),
    }
}

/// With too little room for the places the number is the same and nothing is written.
fn short_out(
    number: u16,
    count: usize,
    call: impl FnOnce(&mut [i64]) -> u16,
) -> Option<&'static str> {
    let mut out = places(count - 1);
    if call(out.lend()) != number {
        return Some("the number changes when the places have no room");
    }
    (!out.kept_past(0)).then_some("places were written without room for all of them")
}

fn judge(library: &dyn Library, tables: &Tables) -> Outcome {
    let mut out = places(3);
    let number = library.judge(lend(tables), out.lend());
    let short = if tables.corners.len() < 200 {
        short_out(number, 3, |out| library.judge(lend(tables), out))
    } else {
        None
    };
    finish(number, &out, true, short)
}

fn walk(library: &dyn Library, tables: &Tables, way: Way, trail: &[u16]) -> Outcome {
    let mut out = places(6);
    let mut lent = Guarded::new(trail.iter().copied(), 0xa5a5);
    let number = library.walk(lend(tables), way, lent.lend(), out.lend());
    let short = if tables.corners.len() < 200 {
        let mut again = trail.to_vec();
        short_out(number, 6, |out| {
            library.walk(lend(tables), way, &mut again, out)
        })
    } else {
        None
    };
    let need = if number == 0 {
        out.now()[5].clamp(0, 1 << 16) as usize + 1
    } else {
        0
    };
    let mut outcome = finish(number, &out, lent.kept_past(need), short);
    outcome.lent = lent.now().iter().map(|&n| n.into()).collect();
    outcome
}

fn outline(library: &dyn Library, points: &[i32]) -> Outcome {
    let mut out = places(1);
    let number = library.outline(black_box(points), out.lend());
    let short = short_out(number, 1, |out| library.outline(points, out));
    finish(number, &out, true, short)
}

fn read(library: &dyn Library, tape: &[u8], rooms: [usize; 3], salt: usize) -> Outcome {
    let mut out = places(3);
    let held = |i| pattern(i, salt);
    let mut points = Guarded::new((0..rooms[0]).map(|i| i32::from(held(i)) - 99), i32::MIN);
    let mut corners = Guarded::new((0..rooms[1]).map(|i| u16::from(held(i))), 0xa5a5);
    let mut begins = Guarded::new((0..rooms[2]).map(|i| u16::from(held(i))), 0xa5a5);
    let mut room = Room {
        points: points.lend(),
        corners: corners.lend(),
        begins: begins.lend(),
    };
    let number = library.read_tape(black_box(tape), &mut room, out.lend());
    let need = match (number, out.now()) {
        (0, &[v, f, c]) => [3 * v, c, f + 1].map(|n| n.clamp(0, 1 << 16) as usize),
        _ => [0; 3],
    };
    let kept = points.kept_past(need[0]) && corners.kept_past(need[1]) && begins.kept_past(need[2]);
    let mut again = Tables {
        points: points.now().to_vec(),
        corners: corners.now().to_vec(),
        begins: begins.now().to_vec(),
    };
    let short = short_out(number, 3, |out| {
        library.read_tape(tape, &mut Room::from(&mut again), out)
    });
    let mut outcome = finish(number, &out, kept, short);
    let lent = &mut outcome.lent;
    lent.extend(points.now().iter().map(|&n| i64::from(n)));
    lent.extend(corners.now().iter().map(|&n| i64::from(n)));
    lent.extend(begins.now().iter().map(|&n| i64::from(n)));
    outcome
}

fn write(library: &dyn Library, tables: &Tables, room: usize, salt: usize) -> Outcome {
    let mut out = places(3);
    let mut buffer = Guarded::new((0..room).map(|i| pattern(i, salt)), 0xa5);
    let number = library.write_tape(lend(tables), buffer.lend(), out.lend());
    let need = if number == 0 {
        out.now()[0].clamp(0, 1 << 20) as usize
    } else {
        0
    };
    let kept = buffer.kept_past(need);
    let mut again = buffer.now().to_vec();
    let short = short_out(number, 3, |out| {
        library.write_tape(lend(tables), &mut again, out)
    });
    let mut outcome = finish(number, &out, kept, short);
    outcome.lent = buffer.now().iter().map(|&n| n.into()).collect();
    outcome
}

fn look_up(library: &dyn Library, tables: &Tables, facet: u32) -> Outcome {
    let mut out = places(2);
    let number = library.look_up(lend(tables), facet, out.lend());
    let short = short_out(number, 2, |out| library.look_up(lend(tables), facet, out));
    finish(number, &out, true, short)
}

/// The number is that of the line, or one no line may have.
fn printed(bytes: io::Result<Vec<u8>>) -> Outcome {
    let (printed, fault) = match bytes {
        Ok(bytes) => (bytes, None),
        Err(error) => (Vec::new(), Some(error.to_string())),
    };
    let text = String::from_utf8_lossy(&printed);
    let number = text.split(' ').next().and_then(|word| word.parse().ok());
    Outcome {
        number: number.unwrap_or(u16::MAX),
        places: Vec::new(),
        lent: Vec::new(),
        printed,
        fault,
    }
}
