//! Prints stored cases, one a line: the input, a colon, and the answer of the literal judge, byte for byte as it is to be printed.

use independent::generate::{damage, hull_of, outlines, pattern, solids, tapes, walk_input, words};
use independent::generate::{writer_room, Mesh, Rng, Tables};
use independent::number::*;
use independent::{judge, judging_line, look_up, outline, read_tape, walk, walking_line};
use independent::{write_tape, BEGIN_ROOM, CORNER_ROOM, POINT_ROOM};
use solids::Extent;
use std::fmt::Display;
use std::io::{self, BufWriter, Write};

const ABOUT: &str = "the few cases at the upper limits in place of the small ones";
const SEED: u64 = 20_260_101;
const MOST_VERTICES: usize = 20;
/// How many entries past the need are printed, to show that they keep their values.
const PAST_THE_NEED: usize = 8;
/// What the reader's tables and the writer's buffer hold before the call.
const FILLER: u8 = 77;

fn main() -> io::Result<()> {
    let mut printer = Printer {
        out: BufWriter::new(io::stdout().lock()),
        counts: [0; COUNT_OF_NUMBERS],
    };
    let mut rng = Rng::new(SEED);
    match std::env::args().nth(1).as_deref() {
        None => {
            judge_cases(&mut printer, &mut rng)?;
            walk_cases(&mut printer, &mut rng)?;
            outline_cases(&mut printer, &mut rng)?;
            reader_cases(&mut printer, &mut rng)?;
            writer_cases(&mut printer, &mut rng)?;
            look_up_cases(&mut printer)?;
            program_cases(&mut printer, &mut rng)?;
        }
        Some("--large") => large_cases(&mut printer, &mut rng)?,
        Some(other) => {
            eprintln!("make_cases [--large], not {other}: {ABOUT}");
            std::process::exit(2);
        }
    }
    printer.out.flush()?;
    eprintln!("{} cases", printer.counts.iter().sum::<usize>());
    for (number, count) in printer.counts.iter().enumerate() {
        eprintln!("{number:3} {:10}{count:5}", NAMES[number]);
    }
    Ok(())
}

struct Printer<W: Write> {
    out: W,
    counts: [usize; COUNT_OF_NUMBERS],
}

impl<W: Write> Printer<W> {
    fn judge(&mut self, t: &Tables) -> io::Result<()> {
        let answer = judge(&t.points, &t.corners, &t.begins);
        self.count(answer[0]);
        writeln!(self.out, "J{} :{}", lent(t), numbers(&answer))
    }

    fn walk(
        &mut self,
        t: &Tables,
        start: u32,
        direction: [i32; 3],
        length: usize,
    ) -> io::Result<()> {
        let before: Vec<u16> = (0..length).map(|i| pattern(i, 0).into()).collect();
        let mut trail = before.clone();
        let (record, vertex, height, moves) = walk(
            &t.points, &t.corners, &t.begins, direction, start, &mut trail,
        );
        self.count(record[0]);
        writeln!(
            self.out,
            "W{} {start}{}{} :{} {vertex} {height} {moves} |{}",
            lent(t),
            numbers(&direction),
            counted(&before),
            numbers(&record),
            numbers(&trail)
        )
    }

    fn outline(&mut self, points: &[i32]) -> io::Result<()> {
        let (number, place) = outline(points);
        self.count(number);
        writeln!(self.out, "O{} : {number} {place}", counted(points))
    }

    fn read(&mut self, tape: &[u8], rooms: [usize; 3]) -> io::Result<()> {
        let mut points = vec![i32::from(FILLER); rooms[0]];
        let mut corners = vec![u16::from(FILLER); rooms[1]];
        let mut begins = vec![u16::from(FILLER); rooms[2]];
        let (number, places) = read_tape(tape, &mut points, &mut corners, &mut begins);
        self.count(number);
        let need = match number {
            ACCEPTED => [3 * places[0], places[2], places[1] + 1].map(|n| n as usize),
            _ => [0; 3],
        };
        let points = shown(&points, need[0]);
        let corners = shown(&corners, need[1]);
        let begins = shown(&begins, need[2]);
        writeln!(
            self.out,
            "R{}{}{} : {number}{} |{} |{} |{}",
            counted(tape),
            numbers(&rooms),
            numbers(&[points.len(), corners.len(), begins.len()]),
            numbers(&places),
            numbers(points),
            numbers(corners),
            numbers(begins)
        )
    }

    fn write(&mut self, t: &Tables, room: usize) -> io::Result<()> {
        let mut buffer = vec![FILLER; room];
        let (number, places) = write_tape(&t.points, &t.corners, &t.begins, &mut buffer);
        self.count(number);
        let need = if number == ACCEPTED {
            places[0] as usize
        } else {
            0
        };
        let buffer = shown(&buffer, need);
        writeln!(
            self.out,
            "T{} {room} {} : {number}{} |{}",
            lent(t),
            buffer.len(),
            numbers(&places),
            numbers(buffer)
        )
    }

    fn judging(&mut self, input: &[u8]) -> io::Result<()> {
        let line = judging_line(input);
        self.count_line(&line);
        write!(self.out, "L{} :{line}", counted(input))
    }

    fn walking(&mut self, tape: &[u8], input: &[u8]) -> io::Result<()> {
        let line = walking_line(tape, input);
        self.count_line(&line);
        write!(self.out, "M{}{} :{line}", counted(tape), counted(input))
    }

    fn look_up(&mut self, t: &Tables, facet: u32) -> io::Result<()> {
        let [first, length] = look_up(&t.points, &t.corners, &t.begins, facet);
        let part = &t.corners[first as usize..][..length as usize];
        self.count(ACCEPTED);
        writeln!(
            self.out,
            "F{} {facet} : {ACCEPTED} {first} {length} |{}",
            lent(t),
            numbers(part)
        )
    }

    fn count(&mut self, number: i64) {
        self.counts[number as usize] += 1;
    }

    fn count_line(&mut self, line: &str) {
        let number = line.split(' ').next().and_then(|word| word.parse().ok());
        self.count(number.unwrap_or(0));
    }
}

/// Each number with a blank before it.
fn numbers<T: Display>(list: &[T]) -> String {
    list.iter().map(|n| format!(" {n}")).collect()
}

/// The length, then the numbers.
fn counted<T: Display>(list: &[T]) -> String {
    format!(" {}{}", list.len(), numbers(list))
}

fn lent(t: &Tables) -> String {
    counted(&t.points) + &counted(&t.corners) + &counted(&t.begins)
}

/// The part of a lent table that is printed after the call.
fn shown<T>(table: &[T], need: usize) -> &[T] {
    &table[..table.len().min(need + PAST_THE_NEED)]
}

fn tables(points: &[[i32; 3]], facets: &[&[u16]]) -> Tables {
    mesh(points, facets).tables()
}

fn mesh(points: &[[i32; 3]], facets: &[&[u16]]) -> Mesh {
    Mesh {
        points: points.to_vec(),
        facets: facets.iter().map(|f| f.to_vec()).collect(),
    }
}

const T_POINTS: [[i32; 3]; 4] = [[0, 0, 0], [1, 0, 0], [0, 1, 0], [0, 0, 1]];
const T_FACETS: [&[u16]; 4] = [&[0, 2, 1], &[0, 1, 3], &[0, 3, 2], &[1, 2, 3]];

const STAR_POINTS: [[i32; 3]; 7] = [
    [4, 0, 0],
    [-3, 2, 0],
    [1, -4, 0],
    [1, 4, 0],
    [-3, -2, 0],
    [0, 0, 3],
    [0, 0, -3],
];
const STAR_FACETS: [&[u16]; 10] = [
    &[0, 1, 5],
    &[1, 2, 5],
    &[2, 3, 5],
    &[3, 4, 5],
    &[4, 0, 5],
    &[1, 0, 6],
    &[2, 1, 6],
    &[3, 2, 6],
    &[4, 3, 6],
    &[0, 4, 6],
];

fn sheet_solids() -> Vec<Mesh> {
    let with_point = |v: usize, point: [i32; 3]| {
        let mut points = T_POINTS;
        points[v] = point;
        mesh(&points, &T_FACETS)
    };
    let with_last = |last: &[u16]| {
        let mut facets = T_FACETS;
        facets[3] = last;
        mesh(&T_POINTS, &facets)
    };
    let fifth = [&T_POINTS[..], &[[1, 1, 1]]].concat();
    vec![
        mesh(&T_POINTS, &T_FACETS),
        mesh(&T_POINTS, &T_FACETS[..3]),
        with_point(1, [8191, 0, 0]),
        with_point(1, [8192, 0, 0]),
        with_last(&[1, 2, 4]),
        with_last(&[1, 2, 2]),
        mesh(&fifth, &T_FACETS),
        with_last(&[1, 3, 2]),
        with_point(3, [0, 0, 0]),
        with_point(3, [0, 0, -1]),
        mesh(&STAR_POINTS, &STAR_FACETS),
    ]
}

fn sheet_tables() -> Vec<Tables> {
    sheet_solids().iter().map(Mesh::tables).collect()
}

/// Tables that a careless reading of the sheet gets wrong.
fn sharp_tables() -> Vec<Tables> {
    let t = tables(&T_POINTS, &T_FACETS);
    let raw = |points: &[i32], corners: &[u16], begins: &[u16]| Tables {
        points: points.to_vec(),
        corners: corners.to_vec(),
        begins: begins.to_vec(),
    };
    let begins = |begins: &[u16]| raw(&t.points, &t.corners, begins);
    let least = |value| {
        let mut low = t.clone();
        low.points[7] = value;
        low
    };
    let mut longer = t.clone();
    longer.corners.push(0);
    // INDEX in the last facet stands before REPEAT in the first.
    let late_index = tables(
        &T_POINTS,
        &[&[0, 0, 1], &[0, 1, 3], &[0, 3, 2], &[1, 2, 65535]],
    );
    let twice = tables(
        &T_POINTS,
        &[&[0, 1, 1, 0], &[0, 1, 3], &[0, 3, 2], &[1, 2, 3]],
    );
    let pillows = tables(&T_POINTS, &[&[0, 1, 2], &[0, 2, 1], &[0, 1, 3], &[0, 3, 1]]);
    let pillow_pair = tables(
        &[
            [0, 0, 0],
            [1, 0, 0],
            [0, 1, 0],
            [5, 5, 5],
            [6, 5, 5],
            [5, 6, 5],
        ],
        &[&[0, 1, 2], &[3, 4, 5], &[0, 2, 1], &[3, 5, 4]],
    );
    vec![
        raw(&[], &[], &[]),
        raw(&t.points, &t.corners, &[]),
        raw(&t.points, &[], &[0]),
        raw(&[], &t.corners, &t.begins),
        raw(&t.points[..11], &t.corners, &t.begins),
        raw(&t.points[..9], &t.corners, &t.begins),
        begins(&[0, 3, 6, 9, 11]),
        begins(&[1, 3, 6, 9, 12]),
        begins(&[0, 6, 3, 9, 12]),
        begins(&[0, 3, 65535, 9, 12]),
        begins(&[0, 3, 6, 9, 65535]),
        longer,
        least(i32::MIN),
        least(i32::MAX),
        least(-8192),
        least(-8191),
        late_index,
        twice,
        pillows,
        pillow_pair,
    ]
}

/// Draws until the solid is small enough to store.
fn stored(rng: &mut Rng, mut draw: impl FnMut(&mut Rng) -> Tables) -> Tables {
    loop {
        let t = draw(rng);
        if t.points.len() <= 3 * MOST_VERTICES && t.corners.len() <= 6 * MOST_VERTICES {
            return t;
        }
    }
}

fn aimed(rng: &mut Rng, number: i64) -> Tables {
    stored(rng, |rng| damage::aimed_at(number, Extent::Small, rng))
}

fn struck(rng: &mut Rng) -> Tables {
    stored(rng, |rng| {
        let mut mesh = solids::sound(rng, Extent::Small);
        for _ in 0..1 + rng.below(2) {
            damage::strike(&mut mesh, rng);
        }
        mesh.tables()
    })
}

/// Only some facets have a vertex outside, and seldom the first.
fn wound_twice(rng: &mut Rng) -> Tables {
    stored(rng, |rng| loop {
        if let Some(mut mesh) = solids::spiral(rng) {
            mesh.scramble(rng);
            return mesh.tables();
        }
    })
}

fn judge_cases<W: Write>(printer: &mut Printer<W>, rng: &mut Rng) -> io::Result<()> {
    for t in sheet_tables().iter().chain(&sharp_tables()) {
        printer.judge(t)?;
    }
    for number in ACCEPTED..=OUTSIDE {
        for _ in 0..12 {
            printer.judge(&aimed(rng, number))?;
        }
    }
    for _ in 0..60 {
        printer.judge(&struck(rng))?;
    }
    for _ in 0..12 {
        printer.judge(&wound_twice(rng))?;
    }
    printer.judge(&solids::torus(rng, 3, 3).tables())
}

fn walk_cases<W: Write>(printer: &mut Printer<W>, rng: &mut Rng) -> io::Result<()> {
    let t = tables(&T_POINTS, &T_FACETS);
    printer.walk(&t, 0, [1, 1, 1], 4)?;
    printer.walk(&t, 3, [0, 0, 0], 4)?;
    printer.walk(&t, 3, [0, 0, -1], 6)?;
    printer.walk(&t, 4, [32768, 0, 0], 0)?;
    printer.walk(&t, 3, [32768, 0, 0], 0)?;
    printer.walk(&t, 3, [0, i32::MIN, 0], 9)?;
    for length in [0, 1, 2, 3] {
        printer.walk(&t, 3, [32767, -32767, 0], length)?;
    }
    printer.walk(&t, u32::MAX, [0, 0, 1], 9)?;
    for round in 0..90 {
        let t = if round % 6 == 5 {
            struck(rng)
        } else {
            aimed(rng, ACCEPTED)
        };
        let (start, direction, length) = walk_input(&t, rng);
        printer.walk(&t, start, direction, length.min(2 * MOST_VERTICES))?;
    }
    Ok(())
}

fn outline_cases<W: Write>(printer: &mut Printer<W>, rng: &mut Rng) -> io::Result<()> {
    printer.outline(&[0, 0, 2, 0, 2, 2, 0, 2])?;
    printer.outline(&[0, 0, 1, 0, 2, 0, 2, 2, 0, 2])?;
    printer.outline(&[4, 0, -3, 2, 1, -4, 1, 4, -3, -2])?;
    printer.outline(&[])?;
    printer.outline(&[0])?;
    printer.outline(&[0, 0, 1, 0])?;
    printer.outline(&[0, 0, 1, 0, 0, 1, 1])?;
    printer.outline(&[0, 0, 1, 0, 0, 1])?;
    printer.outline(&[0, 0, 0, 1, 1, 0])?;
    printer.outline(&[0, 0, i32::MIN, 0, 8192, 1])?;
    printer.outline(&[0; 2 * 4097])?;
    for _ in 0..110 {
        printer.outline(&outlines::any_small(rng))?;
    }
    Ok(())
}

const ROOMS: [usize; 3] = [POINT_ROOM, CORNER_ROOM, BEGIN_ROOM];

fn tape_of_t() -> Vec<u8> {
    tapes::of_mesh(&mesh(&T_POINTS, &T_FACETS))
}

fn stored_tape(rng: &mut Rng) -> Vec<u8> {
    loop {
        let tape = tapes::any_small(rng);
        if tape.len() <= 400 {
            return tape;
        }
    }
}

/// 1,024 points, then the kind byte of one more.
fn point_past_the_limit() -> Vec<u8> {
    vec![1; 7 * 1024 + 1]
}

/// 512 facets of twelve corners, then the kind byte of one more facet.
fn corner_past_the_limit() -> Vec<u8> {
    let mut facet = [0; 25];
    facet[0] = 12;
    let mut tape = facet.repeat(512);
    tape.push(3);
    tape
}

fn reader_cases<W: Write>(printer: &mut Printer<W>, rng: &mut Rng) -> io::Result<()> {
    let t = tape_of_t();
    let point_after_facet = [&t[..56], &[1]].concat();
    printer.read(&t, ROOMS)?;
    printer.read(&t[..60], ROOMS)?;
    printer.read(&t[..56], ROOMS)?;
    printer.read(&[&t[..], &[0]].concat(), ROOMS)?;
    printer.read(&[], ROOMS)?;
    printer.read(&[0, 0, 0, 0, 0], ROOMS)?;
    printer.read(&[0, 0, 0, 0], ROOMS)?;
    printer.read(&[0, 1, 0, 0, 0, 9], ROOMS)?;
    printer.read(&point_after_facet, ROOMS)?;
    printer.read(&point_past_the_limit(), ROOMS)?;
    printer.read(&[&point_past_the_limit()[..], &[0; 6]].concat(), ROOMS)?;
    printer.read(&corner_past_the_limit(), ROOMS)?;
    for kind in [2, 12, 13, 255] {
        printer.read(&[kind], ROOMS)?;
    }
    for table in 0..3 {
        // The last is room enough, though it would not be if it were cut down to 16 bits.
        for room in [0, ROOMS[table] - 1, (1 << 16) + 5] {
            let mut rooms = ROOMS;
            rooms[table] = room;
            printer.read(&t, rooms)?;
            printer.read(&[2], rooms)?;
        }
    }
    for _ in 0..90 {
        let tape = stored_tape(rng);
        printer.read(&tape, tapes::rooms(rng))?;
    }
    Ok(())
}

fn writer_cases<W: Write>(printer: &mut Printer<W>, rng: &mut Rng) -> io::Result<()> {
    let t = tables(&T_POINTS, &T_FACETS);
    for room in [0, 60, 61, 62, 80] {
        printer.write(&t, room)?;
    }
    for t in &sheet_tables()[1..] {
        printer.write(t, 200)?;
    }
    for number in [ACCEPTED, SIZE, RANGE, INDEX, REPEAT, PAIR] {
        for _ in 0..6 {
            let t = aimed(rng, number);
            let room = writer_room(&t, rng);
            printer.write(&t, room)?;
        }
    }
    Ok(())
}

/// A prism over eight corners with six vertices cut off: facets of 3 to 8, of 10 and of 12 corners.
fn cut_prism() -> Tables {
    let ring = [
        [24, 12],
        [12, 24],
        [-12, 24],
        [-24, 12],
        [-24, -12],
        [-12, -24],
        [12, -24],
        [24, -12],
    ];
    let mut points = Vec::new();
    for (z, cut) in [(0, 4), (24, 2)] {
        for (i, [x, y]) in ring.into_iter().enumerate() {
            if i >= cut {
                points.push([x, y, z]);
                continue;
            }
            // A quarter of the way to each of the three vertices that an edge joins to this one.
            for [to_x, to_y] in [ring[(i + 1) % 8], ring[(i + 7) % 8]] {
                points.push([x + (to_x - x) / 4, y + (to_y - y) / 4, z]);
            }
            points.push([x, y, z + (12 - z) / 2]);
        }
    }
    let hull = hull_of(&points).expect("a solid with no facet past 12 corners");
    hull.tables()
}

/// One facet of each length over twelve vertices; not a solid, but SIZE does not apply.
fn every_length() -> Tables {
    let facets: Vec<Vec<u16>> = (3..=12).map(|length| (0..length).rev().collect()).collect();
    let points: Vec<[i32; 3]> = (0..12).map(|i| [i, i * i, -i]).collect();
    Mesh { points, facets }.tables()
}

/// Each way SIZE can apply to tables of a few entries.
fn size_refused() -> Vec<Tables> {
    let t = tables(&T_POINTS, &T_FACETS);
    let changed = |change: fn(&mut Tables)| {
        let mut t = t.clone();
        change(&mut t);
        t
    };
    let with_last = |last: &[u16]| {
        let mut facets = T_FACETS;
        facets[3] = last;
        tables(&T_POINTS, &facets)
    };
    vec![
        Tables::default(),
        tables(&T_POINTS[..3], &T_FACETS),
        tables(&T_POINTS, &T_FACETS[..3]),
        with_last(&[1, 2]),
        with_last(&[0; 13]),
        changed(|t| t.points.push(0)),
        changed(|t| t.corners.push(0)),
        changed(|t| t.begins.clear()),
        changed(|t| t.begins.truncate(1)),
        changed(|t| t.begins[0] = 1),
        changed(|t| t.begins[4] = 13),
        changed(|t| t.begins.swap(1, 2)),
    ]
}

fn look_up_cases<W: Write>(printer: &mut Printer<W>) -> io::Result<()> {
    let sheet = sheet_tables();
    for facet in [0, 1, 2, 3, 4, 65_536, u32::MAX] {
        printer.look_up(&sheet[0], facet)?;
    }
    let prism = cut_prism();
    let lengths: Vec<u16> = prism.begins.windows(2).map(|w| w[1] - w[0]).collect();
    for length in 3..=12 {
        // The last of its length, so that the part starts well inside the run.
        if let Some(facet) = lengths.iter().rposition(|&l| l == length) {
            printer.look_up(&prism, facet as u32)?;
        }
    }
    printer.look_up(&prism, lengths.len() as u32)?;
    for facet in [0, 6, 9, 10] {
        printer.look_up(&every_length(), facet)?;
    }
    for t in size_refused() {
        printer.look_up(&t, 1)?;
    }
    // Numbers 2 and up do not matter to the look-up.
    for t in &sheet[3..] {
        printer.look_up(t, 3)?;
    }
    Ok(())
}

fn program_cases<W: Write>(printer: &mut Printer<W>, rng: &mut Rng) -> io::Result<()> {
    let t = tape_of_t();
    for solid in sheet_solids() {
        printer.judging(&tapes::of_mesh(&solid))?;
    }
    printer.judging(&t[..60])?;
    printer.judging(&[])?;
    printer.judging(&[0, 0, 0, 0, 0])?;
    for _ in 0..50 {
        printer.judging(&stored_tape(rng))?;
    }

    let long_start = [vec![b'0'; 256], b"1 1 1 1".to_vec()].concat();
    let inputs: [&[u8]; 16] = [
        b"0 1 1 1",
        b"0 1 1 1\n",
        b"\n 3\n0 \n0 -1 \n",
        b"-0 -0 007 0",
        b"",
        b"4 1 1 1",
        b"4 x 1 1 9",
        b"-1 0 0 0",
        b"0 1 1",
        b"0 1 1 1 1",
        b"0 1 1 +1",
        b"0 32768 0 0",
        b"0 -32768 0 0",
        b"0\t1 1 1",
        b"18446744073709551616 1 1 1",
        &long_start,
    ];
    for input in inputs {
        printer.walking(&t, input)?;
    }
    for length in [255, 256, 257, 300] {
        let mut padded = b"1 0 0 1".to_vec();
        padded.resize(length, b' ');
        printer.walking(&t, &padded)?;
    }
    printer.walking(&[], b"0 1 1 1")?;
    printer.walking(&t[..60], b"0 1 1 1")?;
    for _ in 0..90 {
        let mut mesh = solids::sound(rng, Extent::Small);
        let vertices = mesh.points.len();
        if rng.one_in(12) {
            damage::strike(&mut mesh, rng);
        }
        let tape = if rng.one_in(12) {
            stored_tape(rng)
        } else {
            tapes::of_mesh(&mesh)
        };
        let input = words::any(rng, vertices);
        if tape.len() <= 500 {
            printer.walking(&tape, &input)?;
        }
    }
    Ok(())
}

fn large_cases<W: Write>(printer: &mut Printer<W>, rng: &mut Rng) -> io::Result<()> {
    for _ in 0..12 {
        let t = damage::at_a_size_limit(rng);
        printer.judge(&t)?;
        printer.look_up(&t, t.begins.len() as u32 - 2)?;
        let tape = tapes::at_the_limits(rng);
        printer.read(&tape, ROOMS)?;
        printer.judging(&tape)?;
    }
    for number in [ACCEPTED, ACCEPTED, PAIR, APART, REFLEX, OUTSIDE] {
        let t = damage::aimed_at(number, Extent::Large, rng);
        printer.judge(&t)?;
        let (start, direction, length) = walk_input(&t, rng);
        printer.walk(&t, start, direction, length)?;
        printer.write(&t, 21_509)?;
    }
    printer.judge(&solids::torus(rng, 32, 32).tables())?;
    for _ in 0..6 {
        printer.outline(&outlines::at_the_count_limit(rng))?;
    }
    // Past what the programs read: the rest of the input changes nothing.
    let mut long = point_past_the_limit();
    long.resize(21_600, 1);
    printer.judging(&long)?;
    printer.walking(&long, b"0 1 1 1")
}
