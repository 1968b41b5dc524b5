//! Exact hulls of points in space.

use super::polygon::hull_places;
use super::{Mesh, Rng};
use std::collections::HashSet;

type Point = [i32; 3];

pub fn cross(u: [i64; 3], v: [i64; 3]) -> [i64; 3] {
    [
        u[1] * v[2] - u[2] * v[1],
        u[2] * v[0] - u[0] * v[2],
        u[0] * v[1] - u[1] * v[0],
    ]
}

pub fn dot(u: [i64; 3], v: [i64; 3]) -> i64 {
    u[0] * v[0] + u[1] * v[1] + u[2] * v[2]
}

pub fn minus(a: Point, b: Point) -> [i64; 3] {
    [0, 1, 2].map(|k| i64::from(a[k]) - i64::from(b[k]))
}

/// Positive when d is on the side from which a, b, c run counterclockwise.
pub fn volume(a: Point, b: Point, c: Point, d: Point) -> i64 {
    dot(cross(minus(b, a), minus(c, a)), minus(d, a))
}

/// The hull of a few points with coplanar parts as one facet; none if flat or past 12 corners.
pub fn hull(points: &[Point]) -> Option<Mesh> {
    let mut points = points.to_vec();
    points.sort_unstable();
    points.dedup();
    let count = points.len();
    let mut seen = HashSet::new();
    let mut facets = Vec::new();
    for i in 0..count {
        for j in i + 1..count {
            for k in j + 1..count {
                let (a, b, c) = (points[i], points[j], points[k]);
                let mut normal = cross(minus(b, a), minus(c, a));
                if normal == [0; 3] {
                    continue;
                }
                let sides: Vec<i64> = points.iter().map(|&d| dot(normal, minus(d, a))).collect();
                let above = sides.iter().any(|&s| s > 0);
                let below = sides.iter().any(|&s| s < 0);
                if above == below {
                    continue;
                }
                if above {
                    normal = normal.map(|n| -n);
                }
                let on: Vec<usize> = (0..count).filter(|&v| sides[v] == 0).collect();
                if seen.insert(on.clone()) {
                    let facet = around(&points, &on, normal);
                    if facet.len() > 12 {
                        return None;
                    }
                    facets.push(facet);
                }
            }
        }
    }
    if facets.len() < 4 {
        return None;
    }
    let mut mesh = Mesh { points, facets };
    mesh.compact();
    Some(mesh)
}

/// The strict hull of points on one plane, counterclockwise about the normal.
fn around(points: &[Point], on: &[usize], normal: [i64; 3]) -> Vec<u16> {
    let axis = (0..3).max_by_key(|&k| normal[k].abs()).unwrap_or(0);
    let (u, v) = ((axis + 1) % 3, (axis + 2) % 3);
    let flat: Vec<[i32; 2]> = on.iter().map(|&i| [points[i][u], points[i][v]]).collect();
    let mut facet: Vec<u16> = hull_places(&flat)
        .into_iter()
        .map(|i| on[i] as u16)
        .collect();
    if normal[axis] < 0 {
        facet.reverse();
    }
    facet
}

/// A hull in triangles of points near a sphere, with `count` vertices wherever so many fit.
pub fn ball(rng: &mut Rng, count: usize, radius: i32) -> Mesh {
    let mut points: Vec<Point> = Vec::new();
    let mut facets: Vec<[usize; 3]> = Vec::new();
    let mut vertices = 0;
    for _ in 0..40 * count {
        if vertices == count {
            break;
        }
        points.push(on_sphere(rng, radius));
        if facets.is_empty() {
            if points.len() == 4 {
                match tetrahedron(&points) {
                    Some(first) => {
                        facets = first;
                        vertices = 4;
                    }
                    None => points.clear(),
                }
            }
            continue;
        }
        match grow(&points, &facets) {
            Some(grown) => {
                facets = grown;
                vertices = facets.iter().flatten().collect::<HashSet<_>>().len();
            }
            None => {
                points.pop();
            }
        }
    }
    let mut used = vec![None; points.len()];
    let mut mesh = Mesh::default();
    for facet in &facets {
        let named = facet.map(|v| *used[v].get_or_insert_with(|| mesh.add_point(points[v])));
        mesh.facets.push(named.to_vec());
    }
    mesh
}

fn tetrahedron(p: &[Point]) -> Option<Vec<[usize; 3]>> {
    match volume(p[0], p[1], p[2], p[3]) {
        0 => None,
        v if v < 0 => Some(vec![[0, 1, 2], [0, 3, 1], [1, 3, 2], [2, 3, 0]]),
        _ => Some(vec![[0, 2, 1], [0, 1, 3], [1, 2, 3], [2, 0, 3]]),
    }
}

/// The hull with the last point added; none if it is inside or lies on a plane of the hull.
fn grow(points: &[Point], facets: &[[usize; 3]]) -> Option<Vec<[usize; 3]>> {
    let new = points.len() - 1;
    let mut visible = Vec::new();
    let mut kept = Vec::with_capacity(facets.len() + 4);
    for &[a, b, c] in facets {
        match volume(points[a], points[b], points[c], points[new]) {
            0 => return None,
            v if v > 0 => visible.push([a, b, c]),
            _ => kept.push([a, b, c]),
        }
    }
    let edges: HashSet<(usize, usize)> = visible
        .iter()
        .flat_map(|&[a, b, c]| [(a, b), (b, c), (c, a)])
        .collect();
    let mut rim = Vec::new();
    for &[a, b, c] in &visible {
        for (from, to) in [(a, b), (b, c), (c, a)] {
            if !edges.contains(&(to, from)) {
                rim.push((from, to));
            }
        }
    }
    for &(from, to) in &rim {
        let &(_, after) = rim.iter().find(|next| next.0 == to)?;
        // Two new facets in one plane would have to be merged.
        if volume(points[from], points[to], points[new], points[after]) == 0 {
            return None;
        }
        kept.push([from, to, new]);
    }
    (!rim.is_empty()).then_some(kept)
}

/// A point near the sphere; only correctly rounded operations, so equal on every machine.
pub fn on_sphere(rng: &mut Rng, radius: i32) -> Point {
    loop {
        let p = [0; 3].map(|_: i32| f64::from(rng.between(-100_000, 100_000)));
        let length = (p[0] * p[0] + p[1] * p[1] + p[2] * p[2]).sqrt();
        if (1000.0..=100_000.0).contains(&length) {
            return p.map(|c| (c / length * f64::from(radius)).round() as i32);
        }
    }
}
