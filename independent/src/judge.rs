//! The solid judge: one search of the whole tables for each answer number, lowest number first.

use crate::number::*;
use std::collections::HashMap;

/// Two places; the third is used by acceptance only.
type Places = [usize; 2];
type Search = fn(&Solid) -> Option<Places>;

const SEARCHES: [(i64, Search); 11] = [
    (RANGE, Solid::range),
    (INDEX, Solid::index),
    (REPEAT, Solid::repeat),
    (UNUSED, Solid::unused),
    (PAIR, Solid::pair),
    (RING, Solid::ring),
    (APART, Solid::apart),
    (BENT, Solid::bent),
    (TURN, Solid::turn),
    (REFLEX, Solid::reflex),
    (OUTSIDE, Solid::outside),
];

/// The answer number and its three places.
pub fn judge(points: &[i32], corners: &[u16], begins: &[u16]) -> [i64; 4] {
    first_refusal(points, corners, begins, OUTSIDE).unwrap_or([
        ACCEPTED,
        (points.len() / 3) as i64,
        (corners.len() / 2) as i64,
        begins.len() as i64 - 1,
    ])
}

/// The judge's refusal among the numbers up to `last`.
pub(crate) fn first_refusal(
    points: &[i32],
    corners: &[u16],
    begins: &[u16],
    last: i64,
) -> Option<[i64; 4]> {
    if !sizes_in_order(points, corners, begins) {
        return Some([SIZE, 0, 0, 0]);
    }
    let solid = Solid::new(points, corners, begins);
    for (number, search) in SEARCHES {
        if number > last {
            break;
        }
        if let Some([a, b]) = search(&solid) {
            return Some([number, a as i64, b as i64, 0]);
        }
    }
    None
}

/// Whether SIZE does not apply.
pub(crate) fn sizes_in_order(points: &[i32], corners: &[u16], begins: &[u16]) -> bool {
    if !points.len().is_multiple_of(3) || begins.is_empty() {
        return false;
    }
    let vertices = points.len() / 3;
    let facets = begins.len() - 1;
    if !(4..=1024).contains(&vertices) || !(4..=2048).contains(&facets) || corners.len() > 6144 {
        return false;
    }
    if begins[0] != 0 || usize::from(begins[facets]) != corners.len() {
        return false;
    }
    begins.windows(2).all(|pair| {
        let count = i32::from(pair[1]) - i32::from(pair[0]);
        (3..=12).contains(&count)
    })
}

/// Tables that passed SIZE, with the places at which each directed edge occurs.
struct Solid {
    points: Vec<[i128; 3]>,
    facets: Vec<Vec<u16>>,
    edges: HashMap<(u16, u16), Vec<(usize, usize)>>,
}

impl Solid {
    fn new(points: &[i32], corners: &[u16], begins: &[u16]) -> Self {
        let points = points
            .chunks_exact(3)
            .map(|p| [i128::from(p[0]), i128::from(p[1]), i128::from(p[2])])
            .collect();
        let facets: Vec<Vec<u16>> = begins
            .windows(2)
            .map(|pair| corners[usize::from(pair[0])..usize::from(pair[1])].to_vec())
            .collect();
        let mut edges: HashMap<_, Vec<_>> = HashMap::new();
        for (f, facet) in facets.iter().enumerate() {
            for p in 0..facet.len() {
                edges.entry(edge(facet, p)).or_default().push((f, p));
            }
        }
        Solid {
            points,
            facets,
            edges,
        }
    }

    fn occurrences(&self, from: u16, to: u16) -> usize {
        self.edges.get(&(from, to)).map_or(0, Vec::len)
    }

    /// The facet that holds the reverse of the edge; asked only once PAIR has passed.
    fn across(&self, (a, b): (u16, u16)) -> usize {
        self.edges[&(b, a)][0].0
    }

    /// The six-fold volume of the facet's first three corners and the vertex.
    fn side(&self, facet: &[u16], vertex: u16) -> i128 {
        let a = self.at(facet[0]);
        determinant([
            minus(self.at(facet[1]), a),
            minus(self.at(facet[2]), a),
            minus(self.at(vertex), a),
        ])
    }

    fn normal(&self, facet: &[u16]) -> [i128; 3] {
        let a = self.at(facet[0]);
        cross(minus(self.at(facet[1]), a), minus(self.at(facet[2]), a))
    }

    fn at(&self, vertex: u16) -> [i128; 3] {
        self.points[usize::from(vertex)]
    }

    fn range(&self) -> Option<Places> {
        let outside = |point: &[i128; 3]| point.iter().any(|c| !(-8191..=8191).contains(c));
        self.points.iter().position(outside).map(|v| [v, 0])
    }

    fn index(&self) -> Option<Places> {
        self.first_position(|facet, p| usize::from(facet[p]) >= self.points.len())
    }

    fn repeat(&self) -> Option<Places> {
        self.first_position(|facet, p| facet[..p].contains(&facet[p]))
    }

    fn unused(&self) -> Option<Places> {
        (0..self.points.len())
            .find(|&v| !self.facets.iter().any(|facet| names(facet, v)))
            .map(|v| [v, 0])
    }

    fn pair(&self) -> Option<Places> {
        self.first_position(|facet, p| {
            let (a, b) = edge(facet, p);
            self.occurrences(a, b) > 1 || self.occurrences(b, a) != 1
        })
    }

    fn ring(&self) -> Option<Places> {
        for v in 0..self.points.len() {
            let around: Vec<usize> = (0..self.facets.len())
                .filter(|&f| names(&self.facets[f], v))
                .collect();
            let mut ring = vec![around[0]];
            loop {
                let facet = &self.facets[*ring.last().unwrap()];
                let p = facet.iter().position(|&c| usize::from(c) == v).unwrap();
                let next = self.across(edge(facet, p));
                if next == ring[0] {
                    break;
                }
                ring.push(next);
            }
            if around.iter().any(|f| !ring.contains(f)) {
                return Some([v, 0]);
            }
        }
        None
    }

    fn apart(&self) -> Option<Places> {
        let mut reached = vec![false; self.facets.len()];
        reached[0] = true;
        let mut waiting = vec![0];
        while let Some(f) = waiting.pop() {
            for p in 0..self.facets[f].len() {
                let next = self.across(edge(&self.facets[f], p));
                if !reached[next] {
                    reached[next] = true;
                    waiting.push(next);
                }
            }
        }
        reached.iter().position(|r| !r).map(|f| [f, 0])
    }

    fn bent(&self) -> Option<Places> {
        self.first_position(|facet, p| match p {
            0 | 1 => false,
            2 => self.normal(facet) == [0; 3],
            _ => self.side(facet, facet[p]) != 0,
        })
    }

    fn turn(&self) -> Option<Places> {
        self.first_position(|facet, p| {
            let n = self.normal(facet);
            let (a, b) = edge(facet, p);
            facet.iter().any(|&c| {
                let to_b = minus(self.at(b), self.at(a));
                let to_c = minus(self.at(c), self.at(a));
                c != a && c != b && dot(n, cross(to_b, to_c)) <= 0
            })
        })
    }

    fn reflex(&self) -> Option<Places> {
        self.first_position(|facet, p| {
            let (a, b) = edge(facet, p);
            self.facets[self.across((a, b))]
                .iter()
                .any(|&c| c != a && c != b && self.side(facet, c) >= 0)
        })
    }

    fn outside(&self) -> Option<Places> {
        for (f, facet) in self.facets.iter().enumerate() {
            for v in 0..self.points.len() {
                if !names(facet, v) && self.side(facet, v as u16) >= 0 {
                    return Some([f, v]);
                }
            }
        }
        None
    }

    fn first_position(&self, bad: impl Fn(&[u16], usize) -> bool) -> Option<Places> {
        for (f, facet) in self.facets.iter().enumerate() {
            for p in 0..facet.len() {
                if bad(facet, p) {
                    return Some([f, p]);
                }
            }
        }
        None
    }
}

fn edge(facet: &[u16], position: usize) -> (u16, u16) {
    (facet[position], facet[(position + 1) % facet.len()])
}

fn names(facet: &[u16], vertex: usize) -> bool {
    facet.iter().any(|&c| usize::from(c) == vertex)
}

fn minus(a: [i128; 3], b: [i128; 3]) -> [i128; 3] {
    [a[0] - b[0], a[1] - b[1], a[2] - b[2]]
}

fn dot(a: [i128; 3], b: [i128; 3]) -> i128 {
    a[0] * b[0] + a[1] * b[1] + a[2] * b[2]
}

fn cross(a: [i128; 3], b: [i128; 3]) -> [i128; 3] {
    [
        a[1] * b[2] - a[2] * b[1],
        a[2] * b[0] - a[0] * b[2],
        a[0] * b[1] - a[1] * b[0],
    ]
}

fn determinant([[a, b, c], [d, e, f], [g, h, i]]: [[i128; 3]; 3]) -> i128 {
    a * (e * i - f * h) - b * (d * i - f * g) + c * (d * h - e * g)
}

#[cfg(test)]
mod tests {
    use super::*;
    use crate::generate::{damage, hull_of, Mesh, Rng};

    /// The facets by the places of their corners, each from its least corner on, in sorted order.
    fn facets_in_space(mesh: &Mesh) -> Vec<Vec<[i32; 3]>> {
        let mut facets: Vec<Vec<[i32; 3]>> = Vec::new();
        for facet in &mesh.facets {
            let mut placed: Vec<_> = facet.iter().map(|&c| mesh.points[usize::from(c)]).collect();
            let least = (0..placed.len()).min_by_key(|&p| placed[p]).unwrap();
            placed.rotate_left(least);
            facets.push(placed);
        }
        facets.sort();
        facets
    }

    #[test]
    fn acceptance_equals_being_the_hull_of_the_points() {
        let mut rng = Rng::new(9);
        let mut counts = [0; 2];
        while counts[0] + counts[1] < 1500 {
            let tables = damage::any_tables(&mut rng);
            let answer = judge(&tables.points, &tables.corners, &tables.begins);
            if (SIZE..=INDEX).contains(&answer[0]) || tables.points.len() > 60 {
                continue;
            }
            let mesh = Mesh::from_tables(&tables).unwrap();
            let is_hull = hull_of(&mesh.points).is_some_and(|hull| {
                hull.points.len() == mesh.points.len()
                    && facets_in_space(&hull) == facets_in_space(&mesh)
            });
            assert_eq!(answer[0] == ACCEPTED, is_hull, "{mesh:?}");
            counts[usize::from(is_hull)] += 1;
        }
        assert!(counts[1] > 50, "{counts:?}");
    }
}
