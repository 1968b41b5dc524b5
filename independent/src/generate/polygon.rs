//! Strictly convex polygons with whole coordinates, counterclockwise.

use super::Rng;

pub type Flat = [i32; 2];

pub fn turn(a: Flat, b: Flat, c: Flat) -> i64 {
    let [ax, ay] = a.map(i64::from);
    let [bx, by] = b.map(i64::from);
    let [cx, cy] = c.map(i64::from);
    (bx - ax) * (cy - ay) - (by - ay) * (cx - ax)
}

/// The strict hull of flat points, as places in the list, counterclockwise.
pub fn hull_places(points: &[Flat]) -> Vec<usize> {
    let mut order: Vec<usize> = (0..points.len()).collect();
    order.sort_by_key(|&i| points[i]);
    order.dedup_by_key(|i| points[*i]);
    let mut hull: Vec<usize> = Vec::new();
    let mut chain = |places: &mut dyn Iterator<Item = usize>| {
        let first = hull.len();
        for i in places {
            while hull.len() >= first + 2
                && turn(
                    points[hull[hull.len() - 2]],
                    points[hull[hull.len() - 1]],
                    points[i],
                ) <= 0
            {
                hull.pop();
            }
            hull.push(i);
        }
        hull.pop();
    };
    chain(&mut order.iter().copied());
    chain(&mut order.iter().rev().copied());
    hull
}

/// A direction on the unit circle; only correctly rounded operations, so equal on every machine.
fn unit(rng: &mut Rng) -> [f64; 2] {
    loop {
        let x = f64::from(rng.between(-100_000, 100_000));
        let y = f64::from(rng.between(-100_000, 100_000));
        let length = (x * x + y * y).sqrt();
        if (1000.0..=100_000.0).contains(&length) {
            return [x / length, y / length];
        }
    }
}

/// A strictly convex polygon of exactly `count` points near a circle of radius `reach`.
pub fn ring(rng: &mut Rng, count: usize, reach: i32) -> Vec<Flat> {
    let mut reach = reach.max(2);
    loop {
        let mut points: Vec<Flat> = Vec::new();
        for _ in 0..4 {
            for _ in 0..count + 2 {
                points.push(unit(rng).map(|u| (u * f64::from(reach)).round() as i32));
            }
            let mut hull = hull_places(&points);
            if hull.len() >= count {
                while hull.len() > count {
                    hull.remove(rng.below(hull.len()));
                }
                return hull.into_iter().map(|i| points[i]).collect();
            }
        }
        reach += reach / 2;
    }
}

/// The polygon made three times as wide, and shifted so that the origin is strictly inside it.
pub fn centred(rng: &mut Rng, polygon: &[Flat]) -> Vec<Flat> {
    let mut places: Vec<usize> = (0..polygon.len()).collect();
    rng.shuffle(&mut places);
    let sum = |axis: usize| places[..3].iter().map(|&i| polygon[i][axis]).sum::<i32>();
    let centre = [sum(0), sum(1)];
    polygon
        .iter()
        .map(|p| [3 * p[0] - centre[0], 3 * p[1] - centre[1]])
        .collect()
}

fn gcd(a: i32, b: i32) -> i32 {
    if b == 0 {
        a.abs()
    } else {
        gcd(b, a % b)
    }
}

fn upper(v: Flat) -> bool {
    v[1] > 0 || (v[1] == 0 && v[0] > 0)
}

/// Sorts edge vectors by angle from the positive x axis.
pub fn sort_by_angle(vectors: &mut [Flat]) {
    vectors.sort_by(|&a, &b| {
        upper(b)
            .cmp(&upper(a))
            .then_with(|| turn([0, 0], b, a).cmp(&0))
    });
}

/// Pairs of opposite primitive edge vectors, shortest first or drawn from a wider pool.
pub fn opposite_edges(rng: &mut Rng, pairs: usize, wide: bool) -> Vec<Flat> {
    let mut pool = Vec::new();
    let mut bound = 2;
    while pool.len() < pairs * if wide { 2 } else { 1 } {
        bound += 1;
        pool.clear();
        for x in -bound..=bound {
            for y in 0..=bound {
                if upper([x, y]) && gcd(x, y) == 1 && x * x + y * y <= bound * bound {
                    pool.push([x, y]);
                }
            }
        }
    }
    if wide {
        rng.shuffle(&mut pool);
    } else {
        pool.sort_by_key(|v| v[0] * v[0] + v[1] * v[1]);
    }
    pool.truncate(pairs);
    let opposite: Vec<Flat> = pool.iter().map(|v| [-v[0], -v[1]]).collect();
    pool.extend(opposite);
    pool
}

/// The points met along the edges, shifted so that the origin is about the middle.
pub fn along(edges: &[Flat]) -> Vec<Flat> {
    let mut points = Vec::with_capacity(edges.len());
    let mut at = [0, 0];
    for edge in edges {
        points.push(at);
        at = [at[0] + edge[0], at[1] + edge[1]];
    }
    for axis in 0..2 {
        let low = points.iter().map(|p| p[axis]).min().unwrap_or(0);
        let high = points.iter().map(|p| p[axis]).max().unwrap_or(0);
        for point in &mut points {
            point[axis] -= (low + high) / 2;
        }
    }
    points
}

/// A strictly convex polygon of many points; up to about 2,200 fit the coordinate limits.
pub fn many(rng: &mut Rng, count: usize) -> Vec<Flat> {
    let mut edges = opposite_edges(rng, count.div_ceil(2), count < 400);
    sort_by_angle(&mut edges);
    let mut points = along(&edges);
    while points.len() > count {
        points.remove(rng.below(points.len()));
    }
    points
}
