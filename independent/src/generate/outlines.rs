//! Outlines, sound and damaged.

use super::polygon::{along, many, opposite_edges, ring, sort_by_angle, Flat};
use super::Rng;

const FARTHEST: i32 = 8191;

/// Any outline, as the numbers lent to the outline judge.
pub fn any(rng: &mut Rng) -> Vec<i32> {
    let (rounds, bound) = if rng.one_in(12) { (3, 2200) } else { (2, 20) };
    of_size(rng, rounds, bound)
}

/// Any outline of few points, but for the counts past the upper limit.
pub fn any_small(rng: &mut Rng) -> Vec<i32> {
    of_size(rng, 2, 12)
}

fn of_size(rng: &mut Rng, rounds: usize, bound: usize) -> Vec<i32> {
    let mut points = match rng.below(10) {
        0..=3 => convex(rng, bound),
        4 | 5 => {
            let once = convex(rng, bound / rounds);
            let times = 2 + rng.below(rounds);
            let mut wound = once.repeat(times);
            wound.truncate(4096);
            wound
        }
        6 => star(rng),
        7 => wound_edges(rng),
        8 => boxed(rng),
        _ => {
            let reach = rng.pick(&[1, 3, FARTHEST]);
            (0..rng.between(3, 8))
                .map(|_| [0; 2].map(|_: i32| rng.between(-reach, reach)))
                .collect()
        }
    };
    transform(rng, &mut points);
    if rng.one_in(2) {
        damage(rng, &mut points);
    }
    let mut numbers = points.concat();
    match rng.below(40) {
        0 => {
            numbers.pop();
        }
        1 => numbers.push(0),
        2 => numbers.truncate(rng.below(6)),
        _ => {}
    }
    numbers
}

/// Points at the upper limit of the count or just past it.
pub fn at_the_count_limit(rng: &mut Rng) -> Vec<i32> {
    let mut points = many(rng, 2048).repeat(2);
    let turn = rng.below(points.len());
    points.rotate_left(turn);
    match rng.below(8) {
        0..=2 => points.push([rng.between(-9000, 9000), 0]),
        // A count that would pass if it were cut down to 16 bits.
        3 => points.resize((1 << 16) + 4, [0, 0]),
        _ => {}
    }
    points.concat()
}

fn convex(rng: &mut Rng, bound: usize) -> Vec<Flat> {
    let count = 3 + rng.below(bound.saturating_sub(2).max(1));
    if count > 40 {
        many(rng, count)
    } else {
        let reach = rng.pick(&[2, 5, 30, 1000, FARTHEST]);
        ring(rng, count, reach)
    }
}

fn star(rng: &mut Rng) -> Vec<Flat> {
    let count = rng.pick(&[5, 7, 8, 9, 11]);
    let step = rng.pick(&[2, 3, 4]);
    let reach = rng.between(5, 300);
    let convex = ring(rng, count, reach);
    (0..count).map(|i| convex[i * step % count]).collect()
}

/// Edge vectors dealt to two or three rounds, each sorted by angle.
fn wound_edges(rng: &mut Rng) -> Vec<Flat> {
    let rounds = rng.pick(&[2, 3]);
    let pairs = rng.between(4, 12) as usize;
    let edges = opposite_edges(rng, pairs, true);
    let mut dealt = vec![Vec::new(); rounds];
    for edge in edges {
        dealt[rng.below(rounds)].push(edge);
    }
    for round in &mut dealt {
        sort_by_angle(round);
    }
    along(&dealt.concat())
}

/// Boxes with corners cut off or not: ties in x and in y.
fn boxed(rng: &mut Rng) -> Vec<Flat> {
    let (w, h) = (rng.between(2, 9), rng.between(2, 9));
    let mut points = Vec::new();
    for [x, y, dx, dy] in [[-w, -h, 0, 1], [w, -h, -1, 0], [w, h, 0, -1], [-w, h, 1, 0]] {
        if rng.one_in(2) {
            points.push([x + dx, y + dy]);
            points.push([x - dy, y + dx]);
        } else {
            points.push([x, y]);
        }
    }
    points
}

/// Quarter turns, shifts to the limits and another first point: the answer's kind stays.
fn transform(rng: &mut Rng, points: &mut [Flat]) {
    for _ in 0..rng.below(4) {
        for p in points.iter_mut() {
            *p = [-p[1], p[0]];
        }
    }
    if rng.one_in(4) {
        for axis in 0..2 {
            let high = points.iter().map(|p| p[axis]).max().unwrap_or(0);
            let low = points.iter().map(|p| p[axis]).min().unwrap_or(0);
            let shift = if rng.one_in(2) {
                FARTHEST - high
            } else {
                -FARTHEST - low
            };
            for p in points.iter_mut() {
                p[axis] += shift;
            }
        }
    }
    let turn = rng.below(points.len());
    points.rotate_left(turn);
}

fn damage(rng: &mut Rng, points: &mut Vec<Flat>) {
    let count = points.len();
    let i = rng.below(count);
    let j = rng.below(count);
    let axis = rng.below(2);
    match rng.below(9) {
        0 => points[i][axis] += rng.pick(&[-1, 1]),
        1 => points.swap(i, j),
        2 => points[i] = points[j],
        3 => points.reverse(),
        4 => {
            let next = points[(i + 1) % count];
            let middle = [0, 1].map(|k| (points[i][k] + next[k]) / 2);
            points.insert(i + 1, middle);
        }
        5 => points.insert(i, points[j]),
        6 => {
            points[i][axis] = rng.pick(&[8192, -8192, i32::MIN, i32::MAX, 8191, -8191]);
            if rng.one_in(2) {
                points[j][1 - axis] = rng.pick(&[8192, -8192, i32::MIN, 32768]);
            }
        }
        7 => {
            points.remove(i);
        }
        _ => points[i] = [0; 2].map(|_: i32| rng.between(-FARTHEST, FARTHEST)),
    }
}
