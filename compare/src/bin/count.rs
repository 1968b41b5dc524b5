//! Makes one call of the proved library, for an instruction counter: `tools/instructions` runs it.

use compare::library::{Lent, Library, Room, Way};
use independent::generate::{ball_of, polygon, solids, Rng, Tables};
use independent::{BEGIN_ROOM, CORNER_ROOM, POINT_ROOM};
use std::process::ExitCode;

fn main() -> ExitCode {
    let words: Vec<String> = std::env::args().skip(1).collect();
    let size = words.get(1).and_then(|word| word.parse().ok());
    let (Some(task), Some(size)) = (words.first(), size) else {
        eprintln!("count: give a task and a size");
        return ExitCode::from(2);
    };
    match call(task, size) {
        Some((number, out)) => {
            println!("{task} {size}: {number} {out:?}");
            ExitCode::SUCCESS
        }
        None => {
            eprintln!(
                "count: no such task, or built without the proved library (set SOLID_LIB_DIR)"
            );
            ExitCode::from(2)
        }
    }
}

#[cfg(proved)]
fn library() -> Option<impl Library> {
    Some(compare::proved::Proved)
}

#[cfg(not(proved))]
fn library() -> Option<compare::plain::Plain> {
    None
}

fn call(task: &str, size: usize) -> Option<(u16, [i64; 6])> {
    let library = library()?;
    let mut rng = Rng::new(7);
    let mut out = [0; 6];
    if task == "outline" {
        let points = outline_of(&mut rng, size);
        return Some((library.outline(&points, &mut out), out));
    }
    if task == "read" || task == "write" {
        return Some(tape_call(&library, task, &mut rng));
    }
    let t = match task {
        "wound" => wound(size),
        _ => ball_of(&mut rng, size, 8191).tables(),
    };
    let t = match task {
        "shut" => in_line(t),
        _ => t,
    };
    let lent = Lent::from(&t);
    let number = match task {
        "judge" | "wound" | "shut" => library.judge(lent, &mut out),
        "look-up" => library.look_up(lent, t.begins.len() as u32 - 2, &mut out),
        "walk" => {
            let way = Way {
                start: 0,
                direction: [1, 2, 3],
            };
            library.walk(lent, way, &mut vec![0; size], &mut out)
        }
        _ => return None,
    };
    Some((number, out))
}

// The first facet's corners in line: numbers 1 to 8 pass, and BENT refuses at once.
fn in_line(mut t: Tables) -> Tables {
    let (a, b) = (3 * t.corners[1] as usize, 3 * t.corners[2] as usize);
    for k in 0..3 {
        t.points[b + k] = t.points[a + k];
    }
    t
}

// A double pyramid whose waist runs twice round its axis.
fn wound(size: usize) -> Tables {
    let count = (size - 2) | 1;
    let waist: Vec<_> = (0..count)
        .map(|i| {
            let angle = 4.0 * std::f64::consts::PI * i as f64 / count as f64;
            [
                (8000.0 * angle.cos()).round() as i32,
                (8000.0 * angle.sin()).round() as i32,
            ]
        })
        .collect();
    solids::bipyramid(&waist, 8000, 8000).tables()
}

fn outline_of(rng: &mut Rng, count: usize) -> Vec<i32> {
    let once = polygon::many(rng, if count > 2000 { count / 2 } else { count });
    let rounds = if count > 2000 { 2 } else { 1 };
    (0..rounds)
        .flat_map(|_| once.iter().flatten().copied())
        .collect()
}

// The longest tape: 1,024 points, 2,048 facets of three corners.
fn tape_call(library: &impl Library, task: &str, rng: &mut Rng) -> (u16, [i64; 6]) {
    let mut out = [0; 6];
    let mut tables = Tables {
        points: (0..POINT_ROOM).map(|_| rng.between(-8191, 8191)).collect(),
        corners: (0..CORNER_ROOM).map(|_| rng.below(1024) as u16).collect(),
        begins: (0..BEGIN_ROOM).map(|f| 3 * f as u16).collect(),
    };
    let mut tape = vec![0; 21_509];
    let written = library.write_tape((&tables).into(), &mut tape, &mut out);
    if task == "write" {
        return (written, out);
    }
    let read = library.read_tape(&tape, &mut Room::from(&mut tables), &mut out);
    (read, out)
}
