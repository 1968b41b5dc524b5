//! One call of the library with all that is lent to it, or one run of a program with its input.

use super::damage::{aimed_at, any_tables, at_a_size_limit, wrapped_sizes};
use super::solids::Extent;
use super::{outlines, tapes, words, Mesh, Rng, Tables};
use crate::number::{ACCEPTED, SIZE};

/// A call or a run and its input; `salt` fixes what the lent entries hold beforehand.
#[derive(Clone, Debug, PartialEq, Eq)]
pub enum Case {
    Judge(Tables),
    Walk {
        tables: Tables,
        start: u32,
        direction: [i32; 3],
        trail: Vec<u16>,
    },
    Outline(Vec<i32>),
    Read {
        tape: Vec<u8>,
        rooms: [usize; 3],
        salt: usize,
    },
    Write {
        tables: Tables,
        room: usize,
        salt: usize,
    },
    LookUp {
        tables: Tables,
        facet: u32,
    },
    JudgingProgram(Input),
    /// Without a tape there is no file.
    WalkingProgram {
        tape: Option<Vec<u8>>,
        input: Input,
    },
}

/// What stands on standard input; the last `late` bytes come after a pause.
#[derive(Clone, Debug, PartialEq, Eq)]
pub struct Input {
    pub bytes: Vec<u8>,
    pub late: usize,
}

impl Input {
    fn new(bytes: Vec<u8>, rng: &mut Rng) -> Self {
        let late = match rng.below(12) {
            0 => rng.below(bytes.len() + 1),
            _ => 0,
        };
        Input { bytes, late }
    }

    /// The bytes before the pause and those after it.
    pub fn parts(&self) -> (&[u8], &[u8]) {
        let early = self.bytes.len().saturating_sub(self.late);
        self.bytes.split_at(early)
    }
}

/// What entry `i` of a lent table holds before the call.
pub fn pattern(i: usize, salt: usize) -> u8 {
    ((i + salt) % 251) as u8
}

/// Any case of any kind.
pub fn any_case(rng: &mut Rng) -> Case {
    match rng.below(27) {
        0..=7 => Case::Judge(any_tables(rng)),
        8..=11 => walk(rng),
        12..=14 if rng.one_in(60) => Case::Outline(outlines::at_the_count_limit(rng)),
        12..=14 => Case::Outline(outlines::any(rng)),
        15..=17 => Case::Read {
            tape: tapes::any(rng),
            rooms: tapes::rooms(rng),
            salt: rng.below(251),
        },
        18..=19 => {
            let tables = if rng.one_in(2) {
                sound_tables(rng)
            } else {
                any_tables(rng)
            };
            let room = writer_room(&tables, rng);
            Case::Write {
                tables,
                room,
                salt: rng.below(251),
            }
        }
        20..=21 => judging_program(rng),
        22..=24 => walking_program(rng),
        _ => look_up(rng),
    }
}

fn sound_tables(rng: &mut Rng) -> Tables {
    let extent = match rng.below(60) {
        0 => Extent::Large,
        1..=4 => Extent::Medium,
        _ => Extent::Small,
    };
    aimed_at(ACCEPTED, extent, rng)
}

fn mostly_sound_tables(rng: &mut Rng) -> Tables {
    if rng.one_in(6) {
        any_tables(rng)
    } else {
        sound_tables(rng)
    }
}

/// Bytes lent to the writer: about what the tape needs.
pub fn writer_room(tables: &Tables, rng: &mut Rng) -> usize {
    let facets = tables.begins.len().saturating_sub(1);
    let need = tables.points.len() / 3 * 7 + facets + 2 * tables.corners.len() + 5;
    match rng.below(6) {
        0 => need - 1,
        1 => rng.below(need),
        2 => need + rng.below(20),
        3 => rng.pick(&[0, 1, 21_509, 21_510, (1 << 16) + 5]),
        _ => need,
    }
}

fn walk(rng: &mut Rng) -> Case {
    let tables = mostly_sound_tables(rng);
    let (start, direction, length) = walk_input(&tables, rng);
    Case::Walk {
        tables,
        start,
        direction,
        trail: (0..length).map(|_| rng.below(1 << 16) as u16).collect(),
    }
}

/// Tables for the look-up: SIZE is the one rule that matters to it.
fn look_up(rng: &mut Rng) -> Case {
    let tables = match rng.below(16) {
        0..=3 => aimed_at(SIZE, Extent::Small, rng),
        4 if rng.one_in(10) => wrapped_sizes(rng),
        4 => at_a_size_limit(rng),
        5..=9 => any_tables(rng),
        _ => sound_tables(rng),
    };
    let facet = look_up_input(&tables, rng);
    Case::LookUp { tables, facet }
}

/// A facet number for the tables: most are below F, some are F and some are far above.
fn look_up_input(tables: &Tables, rng: &mut Rng) -> u32 {
    let facets = tables.begins.len().saturating_sub(1) as u32;
    let below = rng.below(facets.max(1) as usize) as u32;
    match rng.below(8) {
        0 => facets,
        1 => facets.saturating_sub(1),
        // Some of these would be below F if they were cut down to 16 bits or taken with a sign.
        2 => rng.pick(&[
            facets + 1,
            65_535,
            65_536 + below,
            (1 << 31) + below,
            u32::MAX - below,
            u32::MAX,
        ]),
        _ => below,
    }
}

fn judging_program(rng: &mut Rng) -> Case {
    let tape = tapes::any_for_a_program(rng);
    Case::JudgingProgram(Input::new(tape, rng))
}

fn walking_program(rng: &mut Rng) -> Case {
    let tables = mostly_sound_tables(rng);
    let tape = match (rng.below(12), Mesh::from_tables(&tables)) {
        (0, _) => None,
        (3.., Some(mesh)) => Some(tapes::of_mesh(&mesh)),
        _ => Some(tapes::any_for_a_program(rng)),
    };
    let words = words::any(rng, tables.points.len() / 3);
    Case::WalkingProgram {
        tape,
        input: Input::new(words, rng),
    }
}

/// A start, a direction and a trail's length for the tables, sound or not.
pub fn walk_input(tables: &Tables, rng: &mut Rng) -> (u32, [i32; 3], usize) {
    let vertices = tables.points.len() / 3;
    let start = match rng.below(12) {
        0 => rng.pick(&[
            vertices as u32,
            vertices as u32 + 1,
            65_535,
            65_536,
            u32::MAX,
        ]),
        _ => rng.below(vertices.max(1)) as u32,
    };
    let mut direction = match rng.below(5) {
        0 => [0; 3].map(|_: i32| rng.between(-1, 1)),
        1 => [0; 3].map(|_: i32| rng.pick(&[-32767, 32767, 0])),
        2 => [0; 3].map(|_: i32| rng.between(-32767, 32767)),
        3 => rng.pick(&[
            [1, 0, 0],
            [-1, 0, 0],
            [0, 1, 0],
            [0, -1, 0],
            [0, 0, 1],
            [0, 0, -1],
        ]),
        _ => [0; 3].map(|_: i32| rng.between(-9, 9)),
    };
    if rng.one_in(10) {
        let far = [32768, -32768, i32::MIN, i32::MAX, 65_536];
        direction[rng.below(3)] = rng.pick(&far);
    }
    let length = match rng.below(10) {
        0 => rng.pick(&[0, vertices / 2, vertices.saturating_sub(1)]),
        1 => vertices + rng.below(9),
        2 if rng.one_in(10) => (1 << 16) + rng.below(2),
        _ => vertices,
    };
    (start, direction, length)
}

#[cfg(test)]
mod tests {
    use super::*;
    use crate::number::*;
    use crate::{judge, judging_line, outline, read_tape, walk, walking_line, write_tape};

    fn number_of(case: Case) -> i64 {
        let of_line = |line: String| line.split(' ').next().unwrap().parse().unwrap();
        match case {
            Case::Judge(t) => judge(&t.points, &t.corners, &t.begins)[0],
            Case::Walk {
                tables: t,
                start,
                direction,
                mut trail,
            } => {
                let before = trail.clone();
                let ([number, ..], _, _, moves) = walk(
                    &t.points, &t.corners, &t.begins, direction, start, &mut trail,
                );
                let kept = if number == ACCEPTED {
                    moves as usize + 1
                } else {
                    0
                };
                assert_eq!(before[kept..], trail[kept..]);
                number
            }
            Case::Outline(points) => outline(&points).0,
            Case::Read { tape, rooms, .. } => {
                let [p, c, b] = rooms;
                read_tape(&tape, &mut vec![0; p], &mut vec![0; c], &mut vec![0; b]).0
            }
            Case::Write {
                tables: t, room, ..
            } => write_tape(&t.points, &t.corners, &t.begins, &mut vec![0; room]).0,
            Case::LookUp { .. } => ACCEPTED,
            Case::JudgingProgram(input) => of_line(judging_line(&input.bytes)),
            Case::WalkingProgram { tape, input } => {
                of_line(walking_line(&tape.unwrap_or_default(), &input.bytes))
            }
        }
    }

    /// How often each number is the answer to a case drawn so.
    fn counts(seed: u64, cases: usize, draw: fn(&mut Rng) -> Case) -> [usize; COUNT_OF_NUMBERS] {
        let mut rng = Rng::new(seed);
        let mut counts = [0; COUNT_OF_NUMBERS];
        for _ in 0..cases {
            counts[number_of(draw(&mut rng)) as usize] += 1;
        }
        counts
    }

    #[test]
    fn every_number_occurs() {
        let counts = counts(6, 3000, any_case);
        assert!(counts.iter().all(|&n| n > 5), "{counts:?}");
    }

    #[test]
    fn programs_print_each_number_they_can() {
        let judging = counts(9, 1000, judging_program);
        let walking = counts(9, 1500, walking_program);
        for number in (ACCEPTED..=OUTSIDE).chain(KIND..=TAIL) {
            let number = number as usize;
            assert!(judging[number] > 5, "{judging:?}");
            assert!(walking[number] > 5, "{walking:?}");
        }
        assert!(walking[START as usize] > 100, "{walking:?}");
        assert!(walking[DIRECTION as usize] > 100, "{walking:?}");
    }

    #[test]
    fn look_ups_meet_all_there_is() {
        let mut rng = Rng::new(10);
        // By SIZE, other rules and sound tables: the first facet, others, the last, F, up to 65,535, above.
        let mut counts = [[0; 6]; 3];
        for _ in 0..3000 {
            let Case::LookUp { tables: t, facet } = super::look_up(&mut rng) else {
                panic!("not a look-up");
            };
            let table = match judge(&t.points, &t.corners, &t.begins)[0] {
                SIZE => 0,
                ACCEPTED => 2,
                _ => 1,
            };
            let facets = t.begins.len().saturating_sub(1) as u32;
            let number = match facet {
                65_536.. => 5,
                _ if facet > facets => 4,
                _ if facet == facets => 3,
                _ if facet == facets - 1 => 2,
                0 => 0,
                _ => 1,
            };
            counts[table][number] += 1;
        }
        assert!(counts.iter().flatten().all(|&n| n > 10), "{counts:?}");
    }

    #[test]
    fn size_limits_are_met() {
        let mut rng = Rng::new(7);
        let sizes = (0..30).filter(|_| {
            let t = at_a_size_limit(&mut rng);
            judge(&t.points, &t.corners, &t.begins)[0] == SIZE
        });
        assert!((5..25).contains(&sizes.count()));
    }

    #[test]
    fn tapes_read_and_written_again_are_the_same() {
        let mut rng = Rng::new(8);
        let mut same = 0;
        for _ in 0..300 {
            let tape = tapes::any_small(&mut rng);
            let (mut points, mut corners, mut begins) =
                (vec![0; 3072], vec![0; 6144], vec![0; 2049]);
            let (number, sizes) = read_tape(&tape, &mut points, &mut corners, &mut begins);
            if number != ACCEPTED {
                continue;
            }
            let [v, f, c] = sizes.map(|n| n as usize);
            let mut buffer = vec![0; tape.len()];
            let written = write_tape(
                &points[..3 * v],
                &corners[..c],
                &begins[..f + 1],
                &mut buffer,
            );
            if written.0 == ACCEPTED {
                assert_eq!((written.1[0] as usize, &buffer), (tape.len(), &tape));
                same += 1;
            }
        }
        assert!(same > 30);
    }
}
