//! Sound solids, and shapes that are closed but not sound.

use super::hull::{ball, cross, dot, hull, minus, on_sphere};
use super::polygon::{along, centred, many, opposite_edges, ring, sort_by_angle, turn, Flat};
use super::{Mesh, Rng};
use std::collections::HashMap;

pub const FARTHEST: i32 = 8191;

/// How large a solid is wanted.
#[derive(Clone, Copy, Debug, PartialEq, Eq)]
pub enum Extent {
    /// Up to about twenty vertices.
    Small,
    /// Up to about three hundred vertices.
    Medium,
    /// Up to the limits of the sheet.
    Large,
}

/// A sound solid of some family, reshaped, renumbered and with its facets turned.
pub fn sound(rng: &mut Rng, extent: Extent) -> Mesh {
    let draw = match extent {
        Extent::Small => small,
        Extent::Medium => medium,
        Extent::Large => large,
    };
    let mut mesh = loop {
        if let Some(mesh) = draw(rng) {
            break mesh;
        }
    };
    if mesh.points.len() < 500 {
        reshape(&mut mesh, rng);
    }
    mesh.scramble(rng);
    mesh
}

fn small(rng: &mut Rng) -> Option<Mesh> {
    let mesh = match rng.below(12) {
        0 => tetrahedron(rng)?,
        1 => parallelepiped(rng)?,
        2 => {
            let base = ring_of(rng, 3, 10);
            prism(&base, rng.between(1, 9))
        }
        3 => antiprism(rng)?,
        4 => {
            let waist = ring_of(rng, 3, 12);
            let waist = centred(rng, &waist);
            bipyramid(&waist, rng.between(1, 20), rng.between(1, 20))
        }
        5 | 6 => {
            let base = ring_of(rng, 3, 12);
            let apex = [
                rng.between(-40, 40),
                rng.between(-40, 40),
                rng.between(1, 30),
            ];
            pyramid(&base, apex)
        }
        7 => {
            let count = rng.between(6, 14) as usize;
            let radius = rng.between(3, 60);
            let points: Vec<_> = (0..count).map(|_| on_sphere(rng, radius)).collect();
            hull(&points)?
        }
        8 => {
            let count = rng.between(5, 12) as usize;
            let on_bowl = |rng: &mut Rng| {
                let (x, y) = (rng.between(-5, 5), rng.between(-5, 5));
                [x, y, x * x + y * y]
            };
            let points: Vec<_> = (0..count).map(|_| on_bowl(rng)).collect();
            hull(&points)?
        }
        9 => {
            let count = rng.between(5, 16) as usize;
            let side = rng.between(1, 4);
            let points: Vec<_> = (0..count)
                .map(|_| [0; 3].map(|_: i32| rng.between(-side, side)))
                .collect();
            hull(&points)?
        }
        10 => zonotope_of(rng, 3, 4)?,
        _ => {
            let base = ring_of(rng, 3, 6);
            tower_of(rng, &base, 1, 3)?
        }
    };
    (mesh.points.len() <= 24).then_some(mesh)
}

fn medium(rng: &mut Rng) -> Option<Mesh> {
    match rng.below(5) {
        0 => zonotope_of(rng, 5, 16),
        1 => {
            let base = ring_of(rng, 6, 12);
            tower_of(rng, &base, 5, 20)
        }
        2 => {
            let count = rng.between(13, 150) as usize;
            let waist = many(rng, count);
            let waist = centred(rng, &waist);
            Some(bipyramid(&waist, rng.between(1, 500), rng.between(1, 500)))
        }
        _ => {
            let count = rng.between(25, 250) as usize;
            let radius = rng.between(1000, FARTHEST);
            Some(ball(rng, count, radius))
        }
    }
}

fn large(rng: &mut Rng) -> Option<Mesh> {
    match rng.below(5) {
        0 => zonotope_of(rng, 26, 32),
        1 => {
            let base = ring(rng, 12, 12);
            tower_of(rng, &base, 40, 60)
        }
        2 => Some(ball(rng, 1024, FARTHEST)),
        _ => {
            let count = rng.between(600, 1024) as usize;
            Some(ball(rng, count, FARTHEST))
        }
    }
}

fn zonotope_of(rng: &mut Rng, low: i32, high: i32) -> Option<Mesh> {
    let generators = rng.between(low, high) as usize;
    zonotope(rng, generators)
}

fn tower_of(rng: &mut Rng, base: &[Flat], low: i32, high: i32) -> Option<Mesh> {
    let base = centred(rng, base);
    let steps = rng.between(low, high) as usize;
    tower(rng, &base, steps)
}

fn ring_of(rng: &mut Rng, low: i32, high: i32) -> Vec<Flat> {
    let count = rng.between(low, high) as usize;
    let reach = rng.between(2, 40);
    ring(rng, count, reach)
}

fn tetrahedron(rng: &mut Rng) -> Option<Mesh> {
    let reach = rng.pick(&[1, 3, 50, FARTHEST]);
    let points = [0; 4].map(|_: i32| [0; 3].map(|_: i32| rng.between(-reach, reach)));
    hull(&points)
}

fn parallelepiped(rng: &mut Rng) -> Option<Mesh> {
    let reach = rng.pick(&[1, 4, 900]);
    let mut arms = [0; 3].map(|_: i32| [0; 3].map(|_: i32| rng.between(-reach, reach)));
    if rng.one_in(3) {
        let side = [0; 3].map(|_: i32| rng.between(1, reach));
        arms = [[side[0], 0, 0], [0, side[1], 0], [0, 0, side[2]]];
    }
    let sums: Vec<[i32; 3]> = (0..8)
        .map(|choice| {
            let taken = |arm: usize, k: usize| {
                if choice >> arm & 1 == 1 {
                    arms[arm][k]
                } else {
                    0
                }
            };
            [0, 1, 2].map(|k| taken(0, k) + taken(1, k) + taken(2, k))
        })
        .collect();
    hull(&sums)
}

/// The outline lifted from height 0 to `height`; sound when the outline is convex.
pub fn prism(outline: &[Flat], height: i32) -> Mesh {
    let count = outline.len() as u16;
    let mut mesh = Mesh::default();
    for z in [0, height] {
        mesh.points.extend(outline.iter().map(|p| [p[0], p[1], z]));
    }
    mesh.facets.push((0..count).rev().collect());
    mesh.facets.push((count..2 * count).collect());
    for i in 0..count {
        let j = (i + 1) % count;
        mesh.facets.push(vec![i, j, j + count, i + count]);
    }
    mesh
}

/// The outline at height 0 joined to an apex above; sound when the outline is convex.
pub fn pyramid(outline: &[Flat], apex: [i32; 3]) -> Mesh {
    let count = outline.len() as u16;
    let mut mesh = Mesh::default();
    mesh.points.extend(outline.iter().map(|p| [p[0], p[1], 0]));
    mesh.points.push(apex);
    mesh.facets.push((0..count).rev().collect());
    for i in 0..count {
        mesh.facets.push(vec![i, (i + 1) % count, count]);
    }
    mesh
}

/// The waist joined to two apexes on the z axis; sound when the waist is convex about the origin.
pub fn bipyramid(waist: &[Flat], above: i32, below: i32) -> Mesh {
    let count = waist.len() as u16;
    let mut mesh = Mesh::default();
    mesh.points.extend(waist.iter().map(|p| [p[0], p[1], 0]));
    mesh.points.extend([[0, 0, above], [0, 0, -below]]);
    for i in 0..count {
        let j = (i + 1) % count;
        mesh.facets.push(vec![i, j, count]);
        mesh.facets.push(vec![j, i, count + 1]);
    }
    mesh
}

fn antiprism(rng: &mut Rng) -> Option<Mesh> {
    let base = ring_of(rng, 3, 9);
    let height = rng.between(1, 12);
    let low = base.iter().map(|p| [p[0], p[1], -height]);
    let high = base.iter().map(|p| [-p[0], -p[1], height]);
    hull(&low.chain(high).collect::<Vec<_>>())
}

/// Similar polygons stacked along a concave profile, closed by caps or by an apex.
fn tower(rng: &mut Rng, base: &[Flat], steps: usize) -> Option<Mesh> {
    let slopes = slopes(rng, steps);
    let lift = rng.between(0, 1);
    stack(base, slopes, lift)
}

/// Similar waists stacked between two apexes.
fn spindle(rng: &mut Rng, waist: &[Flat]) -> Option<Mesh> {
    let steps = rng.between(1, 3) as usize;
    let mut slopes = slopes(rng, steps);
    for slope in &mut slopes {
        slope.0 = slope.0.abs() + 1;
    }
    slopes.dedup_by(|a, b| a.0 * b.1 == b.0 * a.1);
    let down: Vec<(i32, i32)> = slopes.iter().map(|s| (-s.0, s.1)).collect();
    slopes.extend(down);
    stack(waist, slopes, 0)
}

/// Steps of scale and height, no two of one slope.
fn slopes(rng: &mut Rng, steps: usize) -> Vec<(i32, i32)> {
    let mut slopes: Vec<(i32, i32)> = Vec::new();
    while slopes.len() < steps {
        let (spread, tall) = (2 + steps as i32 / 12, 3 + steps as i32 / 4);
        let (scale, height) = (rng.between(-spread, spread), rng.between(1, tall));
        // Equal slopes would leave two side facets in one plane.
        if slopes.iter().all(|s| s.0 * height != scale * s.1) {
            slopes.push((scale, height));
        }
    }
    slopes
}

/// Stacks scaled outlines with the steepest widening first; the least scale is `least`.
fn stack(base: &[Flat], mut slopes: Vec<(i32, i32)>, least: i32) -> Option<Mesh> {
    slopes.sort_by(|a, b| (b.0 * a.1).cmp(&(a.0 * b.1)));
    let mut profile = vec![(0, 0)];
    for (scale, height) in slopes {
        let (s, z) = profile[profile.len() - 1];
        profile.push((s + scale, z + height));
    }
    let lift = least - profile.iter().map(|p| p.0).min()?;

    let count = base.len() as u16;
    let mut mesh = Mesh::default();
    let mut rings: Vec<Vec<u16>> = Vec::new();
    for &(s, z) in &profile {
        let scale = s + lift;
        let placed: Vec<u16> = match scale {
            0 => vec![mesh.add_point([0, 0, z])],
            _ => base
                .iter()
                .map(|p| mesh.add_point([p[0] * scale, p[1] * scale, z]))
                .collect(),
        };
        rings.push(placed);
    }
    let reach = mesh.reach();
    if reach.iter().any(|&r| r > i64::from(FARTHEST)) || mesh.points.len() > 1024 {
        return None;
    }
    let (first, last) = (&rings[0], &rings[rings.len() - 1]);
    for (cap, from_below) in [(first, true), (last, false)] {
        if cap.len() > 12 {
            return None;
        }
        if cap.len() > 1 {
            let mut facet = cap.clone();
            if from_below {
                facet.reverse();
            }
            mesh.facets.push(facet);
        }
    }
    for pair in rings.windows(2) {
        for i in 0..usize::from(count) {
            let j = (i + 1) % usize::from(count);
            let facet = match (pair[0].len(), pair[1].len()) {
                (1, 1) => return None,
                (1, _) => vec![pair[0][0], pair[1][j], pair[1][i]],
                (_, 1) => vec![pair[0][i], pair[0][j], pair[1][0]],
                _ => vec![pair[0][i], pair[0][j], pair[1][j], pair[1][i]],
            };
            mesh.facets.push(facet);
        }
    }
    Some(mesh)
}

/// The sum of segments: a solid of parallelograms; none if three of the segments lie in a plane.
fn zonotope(rng: &mut Rng, generators: usize) -> Option<Mesh> {
    let reach = rng.pick(&[3, 20, 2 * FARTHEST / generators as i32 / 3]);
    let reach = reach.max(generators as i32);
    let arms: Vec<[i32; 3]> = (0..generators)
        .map(|_| [0; 3].map(|_: i32| rng.between(-reach, reach)))
        .collect();
    let wide = arms.iter().map(|a| minus(*a, [0; 3]));
    let wide: Vec<[i64; 3]> = wide.collect();
    let mut mesh = Mesh::default();
    let mut numbers: HashMap<[i32; 3], u16> = HashMap::new();
    for i in 0..generators {
        for j in 0..i {
            let normal = cross(wide[i], wide[j]);
            for side in [1, -1] {
                let mut base = [0; 3];
                for k in (0..generators).filter(|&k| k != i && k != j) {
                    let sign = dot(normal, wide[k]).signum() * side;
                    if sign == 0 {
                        return None;
                    }
                    if sign > 0 {
                        base = [0, 1, 2].map(|x| base[x] + arms[k][x]);
                    }
                }
                let (first, second) = if side > 0 { (i, j) } else { (j, i) };
                let step = |p: [i32; 3], k: usize| [0, 1, 2].map(|x| p[x] + arms[k][x]);
                let far = step(step(base, first), second);
                let around = [base, step(base, first), far, step(base, second)];
                let facet = around.map(|p| *numbers.entry(p).or_insert_with(|| mesh.add_point(p)));
                mesh.facets.push(facet.to_vec());
            }
        }
    }
    let reach = mesh.reach();
    let fits = reach.iter().all(|&r| r <= i64::from(FARTHEST));
    (fits && mesh.points.len() <= 1024).then_some(mesh)
}

/// Applies affine maps that keep a sound solid sound and inside the limits.
pub fn reshape(mesh: &mut Mesh, rng: &mut Rng) {
    let limit = i64::from(FARTHEST);
    for _ in 0..rng.below(3) {
        let before = mesh.clone();
        match rng.below(6) {
            0 => {
                let slope = i64::from(rng.between(-3, 3));
                let (to, from) = rng.pick(&[(0, 1), (1, 2), (2, 0), (1, 0)]);
                mesh.map(|mut p| {
                    p[to] += slope * p[from];
                    p
                });
            }
            1 => {
                let axis = rng.below(3);
                mesh.map(|mut p| {
                    p[axis] = -p[axis];
                    p
                });
                mesh.reverse_all();
            }
            2 => mesh.map(|[x, y, z]| [y, z, x]),
            3 => {
                // Wide along two axes and thin along the third.
                let thin = rng.below(3);
                let reach = mesh.reach();
                let factor = |k: usize| {
                    if k == thin {
                        1
                    } else {
                        (limit / reach[k].max(1)).max(1)
                    }
                };
                let factors = [factor(0), factor(1), factor(2)];
                mesh.map(|p| [0, 1, 2].map(|k| p[k] * factors[k]));
            }
            4 => {
                let reach = mesh.reach();
                let factors = reach.map(|r| (limit / r.max(1)).max(1));
                mesh.map(|p| [0, 1, 2].map(|k| p[k] * factors[k]));
            }
            _ => to_the_limits(mesh, rng),
        }
        if mesh.reach().iter().any(|&r| r > limit) {
            *mesh = before;
        }
    }
}

/// Shifts the solid until it touches the coordinate limits.
fn to_the_limits(mesh: &mut Mesh, rng: &mut Rng) {
    let limit = i64::from(FARTHEST);
    for axis in 0..3 {
        let along = mesh.points.iter().map(|p| i64::from(p[axis]));
        let (low, high) = (along.clone().min(), along.max());
        let (Some(low), Some(high)) = (low, high) else {
            return;
        };
        let shift = if rng.one_in(2) {
            limit - high
        } else {
            -limit - low
        };
        mesh.map(|mut p| {
            p[axis] += shift;
            p
        });
    }
}

/// A waist that winds twice about the origin; no edge is reflex, yet it is not convex.
pub fn star_bipyramid(rng: &mut Rng) -> Mesh {
    let count: usize = rng.pick(&[5, 7, 9, 11]);
    let step = if count >= 7 && rng.one_in(3) { 3 } else { 2 };
    let step = if count.is_multiple_of(step) { 2 } else { step };
    let reach = rng.between(20, 400);
    let convex = ring(rng, count, reach);
    let waist: Vec<Flat> = (0..count).map(|i| convex[i * step % count]).collect();
    bipyramid(&waist, rng.between(1, 50), rng.between(1, 50))
}

/// A waist that winds once wide and once narrow, so that only some facets have a vertex outside.
pub fn spiral(rng: &mut Rng) -> Option<Mesh> {
    let mut rounds = [(3, 5), (1, 2)].map(|(low, high)| {
        let pairs = rng.between(2, 6) as usize;
        let scale = rng.between(low, high);
        let edges = opposite_edges(rng, pairs, true);
        edges
            .iter()
            .map(|e| [e[0] * scale, e[1] * scale])
            .collect::<Vec<_>>()
    });
    for _ in 0..rng.below(3) {
        let edge = rounds[0].remove(rng.below(rounds[0].len()));
        rounds[1].push(edge);
    }
    for round in &mut rounds {
        sort_by_angle(round);
    }
    let waist: Vec<Flat> = along(&rounds.concat())
        .iter()
        .map(|p| [2 * p[0], 2 * p[1]])
        .collect();
    let reach = waist.iter().flatten().map(|c| c.abs()).max()?;
    let count = waist.len();
    let is_left_of_all =
        |c: &Flat| (0..count).all(|i| turn(waist[i], waist[(i + 1) % count], *c) > 0);
    let mut tries = (0..400).map(|_| [0; 2].map(|_: i32| rng.between(-reach, reach)));
    let centre = tries.find(is_left_of_all)?;
    let waist: Vec<Flat> = waist
        .iter()
        .map(|p| [p[0] - centre[0], p[1] - centre[1]])
        .collect();
    if rng.one_in(3) {
        spindle(rng, &waist)
    } else {
        Some(bipyramid(&waist, rng.between(1, 50), rng.between(1, 50)))
    }
}

/// Two sheets over a closed solid, joined crosswise along a path between vertices no edge joins.
pub fn double_cover(mesh: &Mesh, rng: &mut Rng) -> Option<Mesh> {
    let mut twins = HashMap::new();
    for (f, facet) in mesh.facets.iter().enumerate() {
        for p in 0..facet.len() {
            twins.insert((facet[p], facet[(p + 1) % facet.len()]), (f, p));
        }
    }
    let path = path_between_strangers(mesh, rng)?;
    let cut = |a: u16, b: u16| path.windows(2).any(|w| w == [a, b] || w == [b, a]);

    // The corners of both sheets, numbered, fall into classes that become the cover's vertices.
    let mut first = Vec::new();
    let mut total = 0;
    for facet in &mesh.facets {
        first.push(total);
        total += facet.len();
    }
    let mut class: Vec<usize> = (0..2 * total).collect();
    fn root(class: &[usize], mut i: usize) -> usize {
        while class[i] != i {
            i = class[i];
        }
        i
    }
    for (f, facet) in mesh.facets.iter().enumerate() {
        for p in 0..facet.len() {
            let q = (p + 1) % facet.len();
            let (a, b) = (facet[p], facet[q]);
            let Some(&(g, r)) = twins.get(&(b, a)) else {
                continue;
            };
            let s = (r + 1) % mesh.facets[g].len();
            for sheet in 0..2 {
                let other = if cut(a, b) { 1 - sheet } else { sheet };
                for (mine, theirs) in [(p, s), (q, r)] {
                    let x = root(&class, sheet * total + first[f] + mine);
                    let y = root(&class, other * total + first[g] + theirs);
                    class[x.max(y)] = x.min(y);
                }
            }
        }
    }
    let mut numbers = HashMap::new();
    let mut cover = Mesh::default();
    for sheet in 0..2 {
        for (f, facet) in mesh.facets.iter().enumerate() {
            let mut named = Vec::new();
            for (p, &corner) in facet.iter().enumerate() {
                let key = root(&class, sheet * total + first[f] + p);
                let point = mesh.points[usize::from(corner)];
                named.push(*numbers.entry(key).or_insert_with(|| cover.add_point(point)));
            }
            cover.facets.push(named);
        }
    }
    Some(cover)
}

fn path_between_strangers(mesh: &Mesh, rng: &mut Rng) -> Option<Vec<u16>> {
    let mut neighbours = vec![Vec::new(); mesh.points.len()];
    for facet in &mesh.facets {
        for p in 0..facet.len() {
            let next = facet[(p + 1) % facet.len()];
            neighbours.get_mut(usize::from(facet[p]))?.push(next);
        }
    }
    let start = rng.below(mesh.points.len()) as u16;
    let mut came_from = HashMap::from([(start, start)]);
    let mut reached = vec![start];
    let mut done = 0;
    while done < reached.len() {
        let here = reached[done];
        done += 1;
        for &next in &neighbours[usize::from(here)] {
            came_from.entry(next).or_insert_with(|| {
                reached.push(next);
                here
            });
        }
    }
    reached.retain(|v| *v != start && !neighbours[usize::from(start)].contains(v));
    if reached.is_empty() {
        return None;
    }
    let mut path = vec![rng.pick(&reached)];
    while path[path.len() - 1] != start {
        path.push(came_from[&path[path.len() - 1]]);
    }
    Some(path)
}

/// A closed surface with a hole through it, in triangles, with points drawn at random.
pub fn torus(rng: &mut Rng, rows: usize, columns: usize) -> Mesh {
    let mut mesh = Mesh::default();
    for _ in 0..rows * columns {
        mesh.points
            .push([0; 3].map(|_: i32| rng.between(-FARTHEST, FARTHEST)));
    }
    let at = |r: usize, c: usize| (r % rows * columns + c % columns) as u16;
    for r in 0..rows {
        for c in 0..columns {
            mesh.facets
                .push(vec![at(r, c), at(r + 1, c), at(r + 1, c + 1)]);
            mesh.facets
                .push(vec![at(r, c), at(r + 1, c + 1), at(r, c + 1)]);
        }
    }
    mesh
}

/// An outline with one dent, one point in line, or one crossing, counterclockwise apart from that.
pub fn faulty_outline(rng: &mut Rng) -> Vec<Flat> {
    let count = rng.between(4, 11) as usize;
    let reach = rng.between(6, 60);
    let mut outline = ring(rng, count, reach);
    let at = rng.below(count);
    let next = (at + 1) % count;
    match rng.below(4) {
        0 => {
            let other = outline[(at + count / 2) % count];
            outline[at] = [0, 1].map(|k| (2 * outline[at][k] + 3 * other[k]) / 5);
        }
        1 => {
            outline = outline.iter().map(|p| [2 * p[0], 2 * p[1]]).collect();
            let middle = [0, 1].map(|k| (outline[at][k] + outline[next][k]) / 2);
            outline.insert(at + 1, middle);
        }
        2 => outline.swap(at, next),
        _ => {
            let step = if count % 2 == 1 { 2 } else { 1 };
            outline = (0..count).map(|i| outline[i * step % count]).collect();
            let nudge = rng.between(-1, 1);
            outline[at][0] += nudge;
        }
    }
    outline
}

/// A solid over a faulty outline: flat facets that do not turn left all round.
pub fn faulty_base(rng: &mut Rng) -> Mesh {
    let outline = faulty_outline(rng);
    let height = rng.between(1, 20);
    let mut mesh = if rng.one_in(2) {
        prism(&outline, height)
    } else {
        pyramid(&outline, [rng.between(-9, 9), rng.between(-9, 9), height])
    };
    reshape(&mut mesh, rng);
    mesh.scramble(rng);
    mesh
}

#[cfg(test)]
mod tests {
    use super::*;
    use crate::judge;
    use crate::number::*;

    fn answer(mesh: &Mesh) -> [i64; 4] {
        let tables = mesh.tables();
        judge(&tables.points, &tables.corners, &tables.begins)
    }

    #[test]
    fn sound_solids_are_accepted() {
        let mut rng = Rng::new(1);
        for extent in [Extent::Small; 400].into_iter().chain([Extent::Medium; 12]) {
            let mesh = sound(&mut rng, extent);
            let [number, v, e, f] = answer(&mesh);
            assert_eq!(number, ACCEPTED, "{mesh:?}");
            assert_eq!(v + f - e, 2);
        }
    }

    #[test]
    fn high_towers_and_wide_zonotopes_are_accepted() {
        let mut rng = Rng::new(12);
        for _ in 0..2 {
            let base = ring(&mut rng, 12, 12);
            let base = centred(&mut rng, &base);
            let high = (0..50).find_map(|_| tower(&mut rng, &base, 60)).unwrap();
            assert!(high.points.len() > 700);
            assert_eq!(answer(&high)[0], ACCEPTED);
            let wide = (0..50).find_map(|_| zonotope(&mut rng, 32)).unwrap();
            assert_eq!(answer(&wide), [ACCEPTED, 994, 1984, 992]);
        }
    }

    #[test]
    fn the_largest_ball_is_accepted() {
        let mesh = ball(&mut Rng::new(2), 1024, FARTHEST);
        assert_eq!(answer(&mesh), [ACCEPTED, 1024, 3066, 2044]);
    }

    #[test]
    fn covers_and_stars_are_outside() {
        let mut rng = Rng::new(3);
        let mut stars = 0;
        for _ in 0..100 {
            let base = sound(&mut rng, Extent::Small);
            if let Some(cover) = double_cover(&base, &mut rng) {
                assert_eq!(answer(&cover)[0], OUTSIDE, "{base:?} {cover:?}");
            }
            stars += i32::from(answer(&star_bipyramid(&mut rng))[0] == OUTSIDE);
        }
        assert!(stars > 20);
    }

    #[test]
    fn spirals_are_outside_at_some_facets_only() {
        let mut rng = Rng::new(10);
        let (mut first, mut later) = (0, 0);
        for _ in 0..400 {
            if let Some(mut mesh) = spiral(&mut rng) {
                mesh.scramble(&mut rng);
                match answer(&mesh) {
                    [OUTSIDE, 0, ..] => first += 1,
                    [OUTSIDE, ..] => later += 1,
                    _ => {}
                }
            }
        }
        assert!(first > 40 && later > 40, "{first} {later}");
    }

    #[test]
    fn faulty_bases_often_turn_wrong() {
        let mut rng = Rng::new(4);
        let turns = (0..200)
            .filter(|_| answer(&faulty_base(&mut rng))[0] == TURN)
            .count();
        assert!(turns > 80, "{turns}");
    }

    #[test]
    fn a_torus_is_closed() {
        let mut rng = Rng::new(5);
        let mesh = torus(&mut rng, 32, 32);
        assert_eq!((mesh.points.len(), mesh.facets.len()), (1024, 2048));
        assert!(answer(&mesh)[0] >= BENT);
    }
}
