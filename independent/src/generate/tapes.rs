//! Tapes, sound and damaged, record by record or byte by byte.

use super::solids::{sound, torus, Extent};
use super::{damage, Mesh, Rng, Tables};
use crate::number::ACCEPTED;
use crate::{read_tape, BEGIN_ROOM, CORNER_ROOM, LONGEST_INPUT, POINT_ROOM};

type Record = Vec<u8>;

fn point(p: [i32; 3]) -> Record {
    let mut record = vec![1];
    for c in p {
        record.extend((c as i16).to_le_bytes());
    }
    record
}

fn facet(corners: &[u16]) -> Record {
    let mut record = vec![corners.len() as u8];
    for c in corners {
        record.extend(c.to_le_bytes());
    }
    record
}

fn end(vertices: usize, facets: usize) -> Record {
    let mut record = vec![0];
    record.extend((vertices as u16).to_le_bytes());
    record.extend((facets as u16).to_le_bytes());
    record
}

fn records(mesh: &Mesh) -> Vec<Record> {
    let mut records: Vec<Record> = mesh.points.iter().map(|&p| point(p)).collect();
    records.extend(mesh.facets.iter().map(|f| facet(f)));
    records.push(end(mesh.points.len(), mesh.facets.len()));
    records
}

/// The tape of a solid as it stands, sound or not.
pub fn of_mesh(mesh: &Mesh) -> Vec<u8> {
    records(mesh).concat()
}

/// The solid on a tape that the reader accepts.
pub fn to_mesh(tape: &[u8]) -> Option<Mesh> {
    let mut tables = Tables {
        points: vec![0; POINT_ROOM],
        corners: vec![0; CORNER_ROOM],
        begins: vec![0; BEGIN_ROOM],
    };
    let Tables {
        points,
        corners,
        begins,
    } = &mut tables;
    let (number, sizes) = read_tape(tape, points, corners, begins);
    let [vertices, facets, run] = sizes.map(|n| n as usize);
    points.truncate(3 * vertices);
    corners.truncate(run);
    begins.truncate(facets + 1);
    if number == ACCEPTED {
        Mesh::from_tables(&tables)
    } else {
        None
    }
}

/// Any tape whose solid has few vertices.
pub fn any_small(rng: &mut Rng) -> Vec<u8> {
    let mut mesh = sound(rng, Extent::Small);
    if rng.one_in(3) {
        damage::strike(&mut mesh, rng);
    }
    let mut records = records(&mesh);
    for _ in 0..rng.pick(&[0, 1, 1, 1, 2]) {
        strike_record(&mut records, rng);
    }
    let mut tape = records.concat();
    if rng.one_in(8) {
        strike_byte(&mut tape, rng);
    }
    tape
}

/// Any tape, now and then a random string, or one at the limits of the sheet.
pub fn any(rng: &mut Rng) -> Vec<u8> {
    match rng.below(24) {
        0..=2 => at_the_limits(rng),
        3 => (0..rng.below(30)).map(|_| rng.below(14) as u8).collect(),
        4 => {
            let extent = if rng.one_in(10) {
                Extent::Large
            } else {
                Extent::Medium
            };
            let mut records = records(&sound(rng, extent));
            if rng.one_in(2) {
                strike_record(&mut records, rng);
            }
            records.concat()
        }
        _ => any_small(rng),
    }
}

/// Any tape for a program: mostly of a solid, sound or not, now and then longer than what is read.
pub fn any_for_a_program(rng: &mut Rng) -> Vec<u8> {
    match rng.below(20) {
        0 => about_as_long_as_read(rng),
        1..=11 => match Mesh::from_tables(&damage::any_tables(rng)) {
            Some(mesh) => of_mesh(&mesh),
            None => any(rng),
        },
        _ => any(rng),
    }
}

/// The longest tape there is, or a short one, cut or filled up to about the length that is read.
fn about_as_long_as_read(rng: &mut Rng) -> Vec<u8> {
    let mut tape = match rng.below(4) {
        0 => Vec::new(),
        1 => any_small(rng),
        _ => of_mesh(&torus(rng, 32, 32)),
    };
    let about = [LONGEST_INPUT - 2, LONGEST_INPUT - 1, LONGEST_INPUT];
    let past = [LONGEST_INPUT + 1, LONGEST_INPUT + 300, 70_000];
    let length = rng.pick(&[about, past])[rng.below(3)];
    tape.resize(length, rng.pick(&[0, 1, 3, 12, 255]));
    tape
}

fn strike_record(records: &mut Vec<Record>, rng: &mut Rng) {
    records.retain(|record| !record.is_empty());
    if records.is_empty() {
        return;
    }
    let i = rng.below(records.len());
    let j = rng.below(records.len());
    let last = records.len() - 1;
    match rng.below(11) {
        0 => {
            let kind = rng.pick(&[2, 13, 14, 100, 128, 254, 255]);
            records[i][0] = kind;
        }
        1 => records.push(vec![rng.pick(&[0, 1, 3, 2, 255])]),
        2 => {
            records[last] = end(rng.below(20), rng.below(20));
        }
        3 => {
            let field = 1 + rng.below(4);
            let changed = rng.pick(&[1, 2, 255]);
            if let Some(byte) = records[last].get_mut(field) {
                *byte = byte.wrapping_add(changed);
            }
        }
        4 => records.insert(last, point([1, 2, 3])),
        5 => records.swap(i, j),
        6 => {
            let keep = rng.below(records[last].len());
            records[last].truncate(keep);
        }
        7 => {
            records.truncate(i + 1);
            let keep = rng.below(records[i].len());
            records[i].truncate(keep);
        }
        8 => {
            records.remove(i);
        }
        9 => records.insert(i, records[j].clone()),
        _ => {
            records.pop();
        }
    }
}

fn strike_byte(tape: &mut Vec<u8>, rng: &mut Rng) {
    if tape.is_empty() {
        return;
    }
    let i = rng.below(tape.len());
    match rng.below(4) {
        0 => tape[i] ^= 1 << rng.below(8),
        1 => tape.truncate(i),
        2 => {
            tape.remove(i);
        }
        _ => tape.insert(i, rng.below(256) as u8),
    }
}

/// Tables at the upper limits or one past them; the corner numbers need not make a solid.
pub fn at_the_limits(rng: &mut Rng) -> Vec<u8> {
    let (vertices, facets) = match rng.below(4) {
        0 => (1024, vec![3; 4]),
        1 => (4, vec![3; 2048]),
        2 => (4, vec![12; 512]),
        _ => {
            let mut facets = vec![3; 2047 - 12];
            facets.extend([6; 13]);
            (1024, facets)
        }
    };
    let past = rng.below(5);
    let mut records: Vec<Record> = (0..vertices + usize::from(past == 1))
        .map(|i| point([i as i32, -(i as i32), 32767 - i as i32]))
        .collect();
    for &length in &facets {
        let corners: Vec<u16> = (0..length).map(|_| rng.below(70_000) as u16).collect();
        records.push(facet(&corners));
    }
    if past == 4 {
        // A point after a facet is out of order before it is past any limit.
        records.push(point([0; 3]));
        let keep = rng.pick(&[1, 4, 7]);
        records[vertices + facets.len()].truncate(keep);
        return records.concat();
    }
    if past >= 2 {
        let extra = rng.pick(&[3, 4, 12]);
        records.push(facet(&vec![7; extra]));
        if past == 3 {
            // Only the kind byte of the record that passes the limit.
            let kind = records.pop().map_or(3, |r| r[0]);
            records.push(vec![kind]);
            return records.concat();
        }
    }
    let total = facets.len() + usize::from(past >= 2);
    records.push(end(vertices, total));
    records.concat()
}

/// Entries lent to the reader for points, corners and begins.
pub fn rooms(rng: &mut Rng) -> [usize; 3] {
    let mut rooms = [POINT_ROOM, CORNER_ROOM, BEGIN_ROOM].map(|n| n + rng.pick(&[0, 0, 1, 9]));
    if rng.one_in(50) {
        // Room enough, though it would not be if it were cut down to 16 bits.
        rooms[rng.below(3)] = (1 << 16) + 5;
    }
    if rng.one_in(10) {
        let short = rng.below(3);
        let least = [POINT_ROOM, CORNER_ROOM, BEGIN_ROOM][short];
        rooms[short] = rng.pick(&[0, 5, least / 2, least - 1]);
    }
    rooms
}
