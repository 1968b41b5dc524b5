//! Times the proved library against the independent judge and against plain Rust, on the same inputs.

use compare::library::{Independent, Lent, Library, Room, Way};
use compare::plain::Plain;
use independent::generate::{ball_of, polygon, Rng, Tables};
use independent::{BEGIN_ROOM, CORNER_ROOM, POINT_ROOM};
use std::hint::black_box;
use std::process::ExitCode;
use std::time::{Duration, Instant};

const VERTICES: [usize; 4] = [16, 64, 256, 1024];
// Within the limits no strictly convex outline has 4,096 points, so the longest winds twice.
const OUTLINES: [usize; 3] = [64, 512, 4096];
const SAMPLES: usize = 9;
const SAMPLE: Duration = Duration::from_millis(20);

struct Row {
    task: &'static str,
    size: usize,
    nanoseconds: [f64; 3],
}

/// The proved library, the literal judge, and straightforward Rust.
type Libraries<'a> = [&'a dyn Library; 3];
const NAMES: [&str; 3] = ["proved", "independent", "plain"];

fn main() -> ExitCode {
    let Some(proved) = proved() else {
        eprintln!("built without the proved library: set SOLID_LIB_DIR");
        return ExitCode::from(2);
    };
    let libraries: Libraries = [&proved, &Independent, &Plain];
    let mut rows = Vec::new();
    let mut rng = Rng::new(7);
    for vertices in VERTICES {
        let mut mesh = ball_of(&mut rng, vertices, 8191);
        mesh.scramble(&mut rng);
        solid_rows(&libraries, vertices, &mesh.tables(), &mut rows);
    }
    for count in OUTLINES {
        let points = outline_of(&mut rng, count);
        rows.push(measure("outline", count, &libraries, |library| {
            let mut out = [0];
            let number = library.outline(black_box(&points), &mut out);
            (number, out[0])
        }));
    }
    rows.sort_by_key(|row| TASKS.iter().position(|&task| task == row.task));
    print_times(&rows);
    print_growth(&rows);
    ExitCode::SUCCESS
}

#[cfg(proved)]
fn proved() -> Option<impl Library> {
    Some(compare::proved::Proved)
}

#[cfg(not(proved))]
fn proved() -> Option<Plain> {
    None
}

const TASKS: [&str; 5] = ["judge", "walk", "read", "write", "outline"];

fn solid_rows(libraries: &Libraries, vertices: usize, t: &Tables, rows: &mut Vec<Row>) {
    let lent = Lent::from(t);
    rows.push(measure("judge", vertices, libraries, |library| {
        let mut out = [0; 3];
        let number = library.judge(black_box(lent), &mut out);
        (number, out[0])
    }));

    let direction = [3, -5, 32767];
    let low = |v: &usize| t.points[3 * v + 2];
    let start = (0..vertices).min_by_key(low).unwrap_or(0) as u32;
    let way = Way { start, direction };
    let mut trail = vec![0; vertices];
    rows.push(measure("walk", vertices, libraries, |library| {
        let mut out = [0; 6];
        let number = library.walk(black_box(lent), way, &mut trail, &mut out);
        (number, out[3])
    }));

    let mut tape = vec![0; 21_509];
    rows.push(measure("write", vertices, libraries, |library| {
        let mut out = [0; 3];
        let number = library.write_tape(black_box(lent), &mut tape, &mut out);
        (number, out[0])
    }));

    let mut out = [0; 3];
    Plain.write_tape(lent, &mut tape, &mut out);
    tape.truncate(out[0] as usize);
    let mut room = Room {
        points: &mut [0; POINT_ROOM],
        corners: &mut [0; CORNER_ROOM],
        begins: &mut [0; BEGIN_ROOM],
    };
    rows.push(measure("read", vertices, libraries, |library| {
        let mut out = [0; 3];
        let number = library.read_tape(black_box(&tape), &mut room, &mut out);
        (number, out[1])
    }));
}

/// A convex outline, or a convex outline run twice whose second far point is the last point.
fn outline_of(rng: &mut Rng, count: usize) -> Vec<i32> {
    let once = if count > 2200 { count / 2 } else { count };
    let mut points = polygon::many(rng, once);
    let far = (0..once).max_by_key(|&i| points[i]).unwrap_or(0);
    points.rotate_left((far + 1) % once);
    points.repeat(count / once).concat()
}

/// The median time of a call for each library, sampled in turn.
fn measure(
    task: &'static str,
    size: usize,
    libraries: &Libraries,
    mut call: impl FnMut(&dyn Library) -> (u16, i64),
) -> Row {
    let answers = libraries.map(&mut call);
    assert!(
        answers.iter().all(|answer| *answer == answers[0]),
        "{task} {size}: the answers differ"
    );
    let mut rounds = [1_u32; 3];
    for (library, rounds) in libraries.iter().zip(&mut rounds) {
        // Doubling until a sample is long enough also warms everything up.
        while sample(*rounds, || call(*library)) < SAMPLE && *rounds < 1 << 24 {
            *rounds *= 2;
        }
    }
    let mut samples = [const { Vec::new() }; 3];
    for _ in 0..SAMPLES {
        for (k, library) in libraries.iter().enumerate() {
            let time = sample(rounds[k], || call(*library));
            samples[k].push(time.as_nanos() as f64 / f64::from(rounds[k]));
        }
    }
    let median = |mut times: Vec<f64>| {
        times.sort_by(f64::total_cmp);
        times[times.len() / 2]
    };
    Row {
        task,
        size,
        nanoseconds: samples.map(median),
    }
}

fn sample(rounds: u32, mut call: impl FnMut() -> (u16, i64)) -> Duration {
    let began = Instant::now();
    for _ in 0..rounds {
        black_box(call());
    }
    began.elapsed()
}

fn print_times(rows: &[Row]) {
    println!(
        "| task | size | {} ns | proved / independent | proved / plain |",
        NAMES.join(" ns | ")
    );
    println!("|---|---:|---:|---:|---:|---:|---:|");
    for row in rows {
        let [proved, independent, plain] = row.nanoseconds;
        println!(
            "| {} | {} | {proved:.0} | {independent:.0} | {plain:.0} | {:.2} | {:.2} |",
            row.task,
            row.size,
            proved / independent,
            proved / plain
        );
    }
}

/// By which factor, and as which power of the size, the times grow from one size to the next.
fn print_growth(rows: &[Row]) {
    println!();
    println!(
        "| task | from | to | {} grows | power |",
        NAMES.join(" grows | power | ")
    );
    println!("|---|---:|---:|---:|---:|---:|---:|---:|---:|");
    for pair in rows.windows(2).filter(|pair| pair[0].task == pair[1].task) {
        let step = (pair[1].size as f64 / pair[0].size as f64).ln();
        let grown = [0, 1, 2].map(|k| {
            let factor = pair[1].nanoseconds[k] / pair[0].nanoseconds[k];
            format!(" {factor:.1} | {:.2} |", factor.ln() / step)
        });
        println!(
            "| {} | {} | {} |{}",
            pair[0].task,
            pair[0].size,
            pair[1].size,
            grown.concat()
        );
    }
}
