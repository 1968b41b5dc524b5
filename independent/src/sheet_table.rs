//! The rule sheet's table of sixteen, cases A to P.

use crate::number::*;
use crate::{judge, judging_line, look_up, outline, read_tape, walk, walking_line, write_tape};

const POINTS: [i32; 12] = [0, 0, 0, 1, 0, 0, 0, 1, 0, 0, 0, 1];
const CORNERS: [u16; 12] = [0, 2, 1, 0, 1, 3, 0, 3, 2, 1, 2, 3];
const BEGINS: [u16; 5] = [0, 3, 6, 9, 12];

const STAR_POINTS: [i32; 21] = [
    4, 0, 0, -3, 2, 0, 1, -4, 0, 1, 4, 0, -3, -2, 0, 0, 0, 3, 0, 0, -3,
];
const STAR_CORNERS: [u16; 30] = [
    0, 1, 5, 1, 2, 5, 2, 3, 5, 3, 4, 5, 4, 0, 5, 1, 0, 6, 2, 1, 6, 3, 2, 6, 4, 3, 6, 0, 4, 6,
];
const STAR_BEGINS: [u16; 11] = [0, 3, 6, 9, 12, 15, 18, 21, 24, 27, 30];

fn with_coordinate(entry: usize, value: i32) -> [i64; 4] {
    let mut points = POINTS;
    points[entry] = value;
    judge(&points, &CORNERS, &BEGINS)
}

fn with_last_facet(last: [u16; 3]) -> [i64; 4] {
    let mut corners = CORNERS;
    corners[9..].copy_from_slice(&last);
    judge(&POINTS, &corners, &BEGINS)
}

fn tape_of(points: &[i32], corners: &[u16], begins: &[u16]) -> Vec<u8> {
    let mut buffer = vec![0; 21_509];
    let (number, [length, ..]) = write_tape(points, corners, begins, &mut buffer);
    assert_eq!(number, ACCEPTED);
    buffer.truncate(length as usize);
    buffer
}

#[test]
fn case_a() {
    assert_eq!(judge(&POINTS, &CORNERS, &BEGINS), [ACCEPTED, 4, 6, 4]);
    let tape = tape_of(&POINTS, &CORNERS, &BEGINS);
    assert_eq!(judging_line(&tape), "0 4 6 4\n");
}

#[test]
fn case_b() {
    assert_eq!(judge(&POINTS, &CORNERS[..9], &BEGINS[..4]), [SIZE, 0, 0, 0]);
}

#[test]
fn case_c() {
    assert_eq!(with_coordinate(3, 8191), [ACCEPTED, 4, 6, 4]);
    assert_eq!(with_coordinate(3, 8192), [RANGE, 1, 0, 0]);
    assert_eq!(with_coordinate(3, i32::MIN), [RANGE, 1, 0, 0]);
}

#[test]
fn case_d() {
    assert_eq!(with_last_facet([1, 2, 4]), [INDEX, 3, 2, 0]);
}

#[test]
fn case_e() {
    assert_eq!(with_last_facet([1, 2, 2]), [REPEAT, 3, 2, 0]);
}

#[test]
fn case_f() {
    let points = [&POINTS[..], &[1, 1, 1]].concat();
    assert_eq!(judge(&points, &CORNERS, &BEGINS), [UNUSED, 4, 0, 0]);
}

#[test]
fn case_g() {
    assert_eq!(with_last_facet([1, 3, 2]), [PAIR, 0, 1, 0]);
}

#[test]
fn case_h() {
    assert_eq!(with_coordinate(11, 0), [BENT, 1, 2, 0]);
    assert_eq!(with_coordinate(11, -1), [REFLEX, 0, 0, 0]);
}

#[test]
fn case_i() {
    let answer = judge(&STAR_POINTS, &STAR_CORNERS, &STAR_BEGINS);
    assert_eq!(answer, [OUTSIDE, 0, 3, 0]);
    let tape = tape_of(&STAR_POINTS, &STAR_CORNERS, &STAR_BEGINS);
    assert_eq!(judging_line(&tape), "12 0 3 0\n");
}

fn walked(direction: [i32; 3], start: u32) -> (([i64; 4], i64, i64, i64), [u16; 6]) {
    let mut trail = [77; 6];
    let answer = walk(&POINTS, &CORNERS, &BEGINS, direction, start, &mut trail);
    (answer, trail)
}

#[test]
fn case_j() {
    let (answer, trail) = walked([1, 1, 1], 0);
    assert_eq!(answer, ([ACCEPTED, 0, 0, 0], 1, 1, 1));
    assert_eq!(trail, [0, 1, 77, 77, 77, 77]);
    let tape = tape_of(&POINTS, &CORNERS, &BEGINS);
    assert_eq!(walking_line(&tape, b"0 1 1 1"), "0 1 1 1\n");
}

#[test]
fn case_k() {
    let (answer, trail) = walked([0, 0, 0], 3);
    assert_eq!(answer, ([ACCEPTED, 0, 0, 0], 3, 0, 0));
    assert_eq!(trail, [3, 77, 77, 77, 77, 77]);
}

#[test]
fn case_l() {
    let (answer, trail) = walked([0, 0, -1], 3);
    assert_eq!(answer, ([ACCEPTED, 0, 0, 0], 0, 0, 1));
    assert_eq!(trail, [3, 0, 77, 77, 77, 77]);
}

#[test]
fn case_m() {
    assert_eq!(outline(&[0, 0, 2, 0, 2, 2, 0, 2]), (ACCEPTED, 4));
}

#[test]
fn case_n() {
    assert_eq!(outline(&[0, 0, 1, 0, 2, 0, 2, 2, 0, 2]), (LEFT, 1));
}

#[test]
fn case_o() {
    assert_eq!(outline(&[4, 0, -3, 2, 1, -4, 1, 4, -3, -2]), (WOUND, 3));
}

#[test]
fn case_p() {
    let tape = tape_of(&POINTS, &CORNERS, &BEGINS);
    assert_eq!(tape.len(), 61);
    assert_eq!(tape[56..], [0, 4, 0, 4, 0]);
    assert_eq!(judging_line(&tape[..60]), "20 56 0 0\n");
    assert_eq!(walking_line(&tape[..60], b"0 1 1 1"), "20 0 0 0\n");
}

#[test]
fn walk_refusals_leave_the_trail() {
    let refused = |number| ([number, 0, 0, 0], 0, 0, 0);
    assert_eq!(walked([0, 32768, 0], 4), (refused(START), [77; 6]));
    assert_eq!(walked([0, 32768, 0], 3), (refused(DIRECTION), [77; 6]));
    let mut trail = [77; 3];
    let answer = walk(&POINTS, &CORNERS, &BEGINS, [0; 3], 0, &mut trail);
    assert_eq!((answer, trail), (refused(TRAIL), [77; 3]));
}

#[test]
fn facet_look_up() {
    let look = |facet| look_up(&POINTS, &CORNERS, &BEGINS, facet);
    assert_eq!([0, 1, 2, 3].map(look), [[0, 3], [3, 3], [6, 3], [9, 3]]);
    assert_eq!(CORNERS[9..], [1, 2, 3]);
    assert_eq!([4, u32::MAX].map(look), [[0, 0]; 2]);
    let without_last = look_up(&POINTS, &CORNERS[..9], &BEGINS[..4], 0);
    assert_eq!(without_last, [0, 0]);
    let star = look_up(&STAR_POINTS, &STAR_CORNERS, &STAR_BEGINS, 9);
    assert_eq!(star, [27, 3]);
}

#[test]
fn reader_and_writer() {
    let mut points = [5; 3072];
    let mut corners = [5; 6144];
    let mut begins = [5; 2049];
    let mut read = |tape: &[u8]| read_tape(tape, &mut points, &mut corners, &mut begins);
    assert_eq!(read(&[]), (CUT, [0, 0, 0]));
    assert_eq!(read(&[2]), (KIND, [0, 0, 0]));
    assert_eq!(read(&[0, 0, 0, 0, 1]), (COUNT, [0, 0, 0]));
    assert_eq!(read(&[0, 0, 0, 0, 0, 9]), (TAIL, [5, 0, 0]));
    assert_eq!(read(&[3, 0, 0, 1, 0, 2, 0, 1]), (ORDER, [7, 0, 0]));
    assert_eq!(read(&[1; 7 * 1024 + 1]), (LIMIT, [7168, 0, 0]));
    assert_eq!(read(&[0, 0, 0, 0, 0]), (ACCEPTED, [0, 0, 0]));
    assert_eq!(
        read(&tape_of(&POINTS, &CORNERS, &BEGINS)),
        (ACCEPTED, [4, 4, 12])
    );
    assert_eq!((&points[..12], points[12]), (&POINTS[..], 5));
    assert_eq!((&corners[..12], corners[12]), (&CORNERS[..], 5));
    assert_eq!((&begins[..5], begins[5]), (&BEGINS[..], 5));
    let short = read_tape(&[], &mut points, &mut corners, &mut begins[..2048]);
    assert_eq!(short, (ROOM, [0, 0, 0]));

    let mut buffer = [7; 60];
    let answer = write_tape(&POINTS, &CORNERS, &BEGINS, &mut buffer);
    assert_eq!((answer, buffer), ((SPACE, [0, 0, 0]), [7; 60]));
}
