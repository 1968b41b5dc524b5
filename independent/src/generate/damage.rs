//! Damage to solids, by lists and by raw tables, and solids aimed at one answer number.

use super::solids::{
    double_cover, faulty_base, reshape, sound, spiral, star_bipyramid, torus, Extent, FARTHEST,
};
use super::{ball_of, Mesh, Rng, Tables};
use crate::number::*;

type Blow = fn(&mut Mesh, &mut Rng);

const BLOWS: [Blow; 27] = [
    nudge_vertex,
    throw_vertex,
    swap_points,
    glue_points,
    swap_corners,
    swap_corners_across,
    reverse_facet,
    drop_facet,
    double_facet,
    replace_corner,
    repeat_corner,
    name_past_the_last,
    coordinate_past_the_limit,
    add_unused,
    identify_vertices,
    join_at_vertex,
    join_at_edge,
    put_beside,
    add_pillow,
    subdivide_edge,
    split_facet,
    fan_facet,
    flip_edge,
    turn_inside_out,
    mirror,
    drop_vertex,
    cover_twice,
];

/// One random blow.
pub fn strike(mesh: &mut Mesh, rng: &mut Rng) {
    if mesh.facets.iter().any(Vec::is_empty) || mesh.facets.is_empty() || mesh.points.is_empty() {
        return;
    }
    let blow = rng.pick(&BLOWS);
    blow(mesh, rng);
}

fn any_vertex(mesh: &Mesh, rng: &mut Rng) -> u16 {
    rng.below(mesh.points.len()) as u16
}

/// A random facet and a random position in it.
fn any_place(mesh: &Mesh, rng: &mut Rng) -> (usize, usize) {
    let f = rng.below(mesh.facets.len());
    (f, rng.below(mesh.facets[f].len()))
}

fn nudge_vertex(mesh: &mut Mesh, rng: &mut Rng) {
    let v = rng.below(mesh.points.len());
    let coordinate = &mut mesh.points[v][rng.below(3)];
    *coordinate = coordinate.wrapping_add(rng.pick(&[-1, 1]));
}

fn throw_vertex(mesh: &mut Mesh, rng: &mut Rng) {
    let v = rng.below(mesh.points.len());
    let reach = rng.pick(&[1, 10, FARTHEST]);
    mesh.points[v] = [0; 3].map(|_: i32| rng.between(-reach, reach));
}

fn swap_points(mesh: &mut Mesh, rng: &mut Rng) {
    let (u, v) = (rng.below(mesh.points.len()), rng.below(mesh.points.len()));
    mesh.points.swap(u, v);
}

fn glue_points(mesh: &mut Mesh, rng: &mut Rng) {
    let (u, v) = (rng.below(mesh.points.len()), rng.below(mesh.points.len()));
    mesh.points[u] = mesh.points[v];
}

fn swap_corners(mesh: &mut Mesh, rng: &mut Rng) {
    let (f, p) = any_place(mesh, rng);
    let q = rng.below(mesh.facets[f].len());
    mesh.facets[f].swap(p, q);
}

fn swap_corners_across(mesh: &mut Mesh, rng: &mut Rng) {
    let (f, p) = any_place(mesh, rng);
    let (g, q) = any_place(mesh, rng);
    let corner = mesh.facets[f][p];
    mesh.facets[f][p] = mesh.facets[g][q];
    mesh.facets[g][q] = corner;
}

fn reverse_facet(mesh: &mut Mesh, rng: &mut Rng) {
    let f = rng.below(mesh.facets.len());
    mesh.facets[f].reverse();
}

fn drop_facet(mesh: &mut Mesh, rng: &mut Rng) {
    let f = rng.below(mesh.facets.len());
    mesh.facets.remove(f);
}

fn double_facet(mesh: &mut Mesh, rng: &mut Rng) {
    let mut facet = mesh.facets[rng.below(mesh.facets.len())].clone();
    if rng.one_in(3) {
        facet.reverse();
    }
    let turn = rng.below(facet.len());
    facet.rotate_left(turn);
    let at = rng.below(mesh.facets.len() + 1);
    mesh.facets.insert(at, facet);
}

fn replace_corner(mesh: &mut Mesh, rng: &mut Rng) {
    let (f, p) = any_place(mesh, rng);
    mesh.facets[f][p] = any_vertex(mesh, rng);
}

fn repeat_corner(mesh: &mut Mesh, rng: &mut Rng) {
    let (f, p) = any_place(mesh, rng);
    let facet = &mut mesh.facets[f];
    let corner = facet[rng.below(facet.len())];
    if rng.one_in(2) && facet.len() < 12 {
        facet.insert(p, corner);
    } else {
        facet[p] = corner;
    }
}

fn name_past_the_last(mesh: &mut Mesh, rng: &mut Rng) {
    let vertices = mesh.points.len() as u16;
    for _ in 0..1 + rng.below(2) {
        let (f, p) = any_place(mesh, rng);
        mesh.facets[f][p] = rng.pick(&[vertices, vertices.wrapping_add(1), 1024, 32768, 65535]);
    }
}

fn coordinate_past_the_limit(mesh: &mut Mesh, rng: &mut Rng) {
    for _ in 0..1 + rng.below(2) {
        let v = rng.below(mesh.points.len());
        let far = [8192, -8192, 8191, -8191, 32767, 65536, i32::MIN, i32::MAX];
        mesh.points[v][rng.below(3)] = rng.pick(&far);
    }
}

fn add_unused(mesh: &mut Mesh, rng: &mut Rng) {
    let point = match rng.below(3) {
        0 => mesh.points[rng.below(mesh.points.len())],
        1 => [0, 0, 0],
        _ => [0; 3].map(|_: i32| rng.between(-FARTHEST, FARTHEST)),
    };
    let at = rng.below(mesh.points.len() + 1);
    mesh.points.insert(at, point);
    for corner in mesh.facets.iter_mut().flatten() {
        if usize::from(*corner) >= at && *corner < u16::MAX {
            *corner += 1;
        }
    }
}

/// One vertex takes the place of another in every facet; its point goes or stays unused.
fn identify_vertices(mesh: &mut Mesh, rng: &mut Rng) {
    let (u, v) = (any_vertex(mesh, rng), any_vertex(mesh, rng));
    if u == v {
        return;
    }
    mesh.rename(u, v);
    if !rng.one_in(6) {
        mesh.remove_point(u);
    }
}

fn partner(mesh: &Mesh, rng: &mut Rng) -> Mesh {
    if rng.one_in(3) {
        mesh.clone()
    } else {
        sound(rng, Extent::Small)
    }
}

fn join_at_vertex(mesh: &mut Mesh, rng: &mut Rng) {
    let other = partner(mesh, rng);
    let mine = any_vertex(mesh, rng);
    let theirs = any_vertex(&other, rng);
    let theirs = theirs + mesh.append(&other);
    mesh.rename(theirs, mine);
    mesh.remove_point(theirs);
    rng.shuffle(&mut mesh.facets);
}

fn join_at_edge(mesh: &mut Mesh, rng: &mut Rng) {
    let other = partner(mesh, rng);
    let (f, p) = any_place(mesh, rng);
    let (g, q) = any_place(&other, rng);
    let mine = [
        mesh.facets[f][p],
        mesh.facets[f][(p + 1) % mesh.facets[f].len()],
    ];
    let theirs = [
        other.facets[g][q],
        other.facets[g][(q + 1) % other.facets[g].len()],
    ];
    let shift = mesh.append(&other);
    let mut gone = theirs.map(|c| c.wrapping_add(shift));
    for k in 0..2 {
        mesh.rename(gone[k], mine[k]);
    }
    gone.sort_unstable();
    for vertex in gone.into_iter().rev() {
        if usize::from(vertex) < mesh.points.len() {
            mesh.remove_point(vertex);
        }
    }
}

fn put_beside(mesh: &mut Mesh, rng: &mut Rng) {
    let other = partner(mesh, rng);
    mesh.append(&other);
    if rng.one_in(2) {
        rng.shuffle(&mut mesh.facets);
    }
}

/// Two facets back to back, alone or hung on one or two vertices of the solid.
fn add_pillow(mesh: &mut Mesh, rng: &mut Rng) {
    let mut facet = Vec::new();
    for _ in 0..rng.pick(&[3, 3, 4]) {
        facet.push(mesh.add_point([0; 3].map(|_: i32| rng.between(-20, 20))));
    }
    for k in 0..rng.below(3) {
        let at = any_vertex(mesh, rng);
        let gone = facet[k];
        if !facet.contains(&at) {
            facet[k] = at;
            mesh.remove_point(gone);
            for corner in &mut facet {
                if *corner > gone {
                    *corner -= 1;
                }
            }
        }
    }
    let back = facet.iter().rev().copied().collect();
    let at = rng.below(mesh.facets.len() + 1);
    mesh.facets.insert(at, facet);
    mesh.facets.push(back);
}

/// A new vertex on an edge, in both facets that hold it.
fn subdivide_edge(mesh: &mut Mesh, rng: &mut Rng) {
    let (f, p) = any_place(mesh, rng);
    let a = mesh.facets[f][p];
    let b = mesh.facets[f][(p + 1) % mesh.facets[f].len()];
    let (Some(&from), Some(&to)) = (
        mesh.points.get(usize::from(a)),
        mesh.points.get(usize::from(b)),
    ) else {
        return;
    };
    let middle = [0, 1, 2]
        .map(|k| (i64::from(from[k]) + i64::from(to[k])) / 2)
        .map(|c| c as i32);
    let new = mesh.add_point(middle);
    for facet in &mut mesh.facets {
        for q in 0..facet.len() {
            let next = facet[(q + 1) % facet.len()];
            if (facet[q], next) == (a, b) || (facet[q], next) == (b, a) {
                facet.insert(q + 1, new);
                break;
            }
        }
    }
}

/// A facet of four or more corners cut along a diagonal: neighbours in one plane.
fn split_facet(mesh: &mut Mesh, rng: &mut Rng) {
    let wide: Vec<usize> = (0..mesh.facets.len())
        .filter(|&f| mesh.facets[f].len() >= 4)
        .collect();
    if wide.is_empty() {
        return;
    }
    let f = rng.pick(&wide);
    let mut facet = mesh.facets[f].clone();
    let turn = rng.below(facet.len());
    facet.rotate_left(turn);
    let at = rng.between(2, facet.len() as i32 - 2) as usize;
    let mut other = facet[at..].to_vec();
    other.push(facet[0]);
    facet.truncate(at + 1);
    mesh.facets[f] = facet;
    mesh.facets.push(other);
}

/// A facet replaced by triangles about a new vertex near its middle.
fn fan_facet(mesh: &mut Mesh, rng: &mut Rng) {
    let f = rng.below(mesh.facets.len());
    let facet = mesh.facets.remove(f);
    let mut sum = [0_i64; 3];
    for &c in &facet {
        let Some(point) = mesh.points.get(usize::from(c)) else {
            return;
        };
        for k in 0..3 {
            sum[k] += i64::from(point[k]);
        }
    }
    let mut middle = sum.map(|s| (s / facet.len() as i64) as i32);
    middle[rng.below(3)] += rng.between(-1, 1);
    let new = mesh.add_point(middle);
    for p in 0..facet.len() {
        mesh.facets
            .push(vec![facet[p], facet[(p + 1) % facet.len()], new]);
    }
}

/// Two triangles on an edge exchanged for the two on the other diagonal: stays closed.
fn flip_edge(mesh: &mut Mesh, rng: &mut Rng) {
    let (f, p) = any_place(mesh, rng);
    let facet = mesh.facets[f].clone();
    if facet.len() != 3 {
        return;
    }
    let (a, b, c) = (facet[p], facet[(p + 1) % 3], facet[(p + 2) % 3]);
    for g in 0..mesh.facets.len() {
        let other = &mesh.facets[g];
        let reverse =
            (0..other.len()).find(|&q| other[q] == b && other[(q + 1) % other.len()] == a);
        if let (3, Some(q)) = (other.len(), reverse) {
            let d = other[(q + 2) % 3];
            mesh.facets[f] = vec![a, d, c];
            mesh.facets[g] = vec![d, b, c];
            return;
        }
    }
}

fn turn_inside_out(mesh: &mut Mesh, _: &mut Rng) {
    mesh.reverse_all();
}

fn mirror(mesh: &mut Mesh, rng: &mut Rng) {
    let axis = rng.below(3);
    for point in &mut mesh.points {
        point[axis] = point[axis].saturating_neg();
    }
}

fn drop_vertex(mesh: &mut Mesh, rng: &mut Rng) {
    let v = any_vertex(mesh, rng);
    for facet in &mut mesh.facets {
        facet.retain(|&c| c != v);
    }
    mesh.facets.retain(|facet| facet.len() >= 3);
    mesh.remove_point(v);
}

fn cover_twice(mesh: &mut Mesh, rng: &mut Rng) {
    let limit = mesh.points.len() as u16;
    if mesh.facets.iter().flatten().all(|&c| c < limit) && limit <= 513 {
        if let Some(cover) = double_cover(mesh, rng) {
            *mesh = cover;
        }
    }
}

/// Damage that only the raw tables can carry.
pub fn strike_tables(tables: &mut Tables, rng: &mut Rng) {
    let Tables {
        points,
        corners,
        begins,
    } = tables;
    match rng.below(16) {
        0 => points.push(rng.between(-9, 9)),
        1 => {
            points.pop();
        }
        2 => corners.push(rng.below(20) as u16),
        3 => {
            corners.pop();
        }
        4 => begins.push(corners.len() as u16),
        5 => {
            begins.pop();
        }
        6..=8 if !begins.is_empty() => {
            let i = rng.below(begins.len());
            begins[i] = begins[i].wrapping_add(rng.pick(&[1, 2, 65535, 65534, 3, 9]));
        }
        9 if !begins.is_empty() => {
            let i = rng.below(begins.len());
            begins[i] = rng.pick(&[0, 65535, 32768, 3]);
        }
        10 => rng.shuffle(begins),
        11 => points.clear(),
        12 => corners.clear(),
        13 => begins.clear(),
        14 => begins.truncate(1),
        _ => points.truncate(rng.below(15)),
    }
}

/// Tables at a size limit or one past it.
pub fn at_a_size_limit(rng: &mut Rng) -> Tables {
    let mut mesh = Mesh::default();
    let (vertices, facets, length) = match rng.below(6) {
        0 => (1024, 4, 3),
        1 => (1025, 4, 3),
        2 => (4, 2048, 3),
        3 => (4, 2049, 3),
        4 => (20, 512, 12),
        _ => (20, 513, 12),
    };
    for _ in 0..vertices {
        mesh.points.push([0; 3].map(|_: i32| rng.between(-9, 9)));
    }
    for _ in 0..facets {
        mesh.facets
            .push((0..length).map(|_| rng.below(vertices) as u16).collect());
    }
    mesh.tables()
}

/// A few vertices, facets or corners too few or too many.
fn odd_sizes(rng: &mut Rng) -> Mesh {
    let mut mesh = sound(rng, Extent::Small);
    match rng.below(5) {
        0 => mesh.points.truncate(3),
        1 => mesh.facets.truncate(3),
        2 => {
            let f = rng.below(mesh.facets.len());
            mesh.facets[f].truncate(rng.below(3));
        }
        3 => {
            let f = rng.below(mesh.facets.len());
            let vertices = mesh.points.len();
            let length = rng.pick(&[13, 14, 20]);
            mesh.facets[f] = (0..length).map(|c| (c % vertices) as u16).collect();
        }
        _ => mesh.facets.clear(),
    }
    mesh
}

fn of_some_extent(rng: &mut Rng) -> Extent {
    match rng.below(100) {
        0 => Extent::Large,
        1..=4 => Extent::Medium,
        _ => Extent::Small,
    }
}

/// Tables that mostly get the given answer of the solid judge, and sometimes a neighbouring one.
pub fn aimed_at(number: i64, extent: Extent, rng: &mut Rng) -> Tables {
    let mut mesh = sound(rng, extent);
    let one = |rng: &mut Rng, mesh: &mut Mesh, blows: &[Blow]| rng.pick(blows)(mesh, rng);
    match number {
        ACCEPTED => return mesh.tables(),
        SIZE => {
            if rng.one_in(3) {
                return odd_sizes(rng).tables();
            }
            let mut tables = mesh.tables();
            strike_tables(&mut tables, rng);
            return tables;
        }
        RANGE => coordinate_past_the_limit(&mut mesh, rng),
        INDEX => name_past_the_last(&mut mesh, rng),
        REPEAT => repeat_corner(&mut mesh, rng),
        UNUSED => add_unused(&mut mesh, rng),
        PAIR => {
            let blows: [Blow; 8] = [
                reverse_facet,
                double_facet,
                drop_facet,
                join_at_edge,
                swap_corners,
                replace_corner,
                swap_corners_across,
                identify_vertices,
            ];
            one(rng, &mut mesh, &blows);
        }
        RING => one(
            rng,
            &mut mesh,
            &[join_at_vertex, join_at_vertex, identify_vertices],
        ),
        APART => one(rng, &mut mesh, &[put_beside, put_beside, add_pillow]),
        BENT => one(
            rng,
            &mut mesh,
            &[glue_points, nudge_vertex, subdivide_edge, swap_points],
        ),
        TURN => mesh = faulty_base(rng),
        REFLEX => {
            let blows: [Blow; 6] = [
                split_facet,
                fan_facet,
                flip_edge,
                turn_inside_out,
                mirror,
                throw_vertex,
            ];
            one(rng, &mut mesh, &blows);
        }
        _ => {
            let choice = if extent == Extent::Small {
                rng.below(6)
            } else {
                0
            };
            match choice {
                0 | 1 => {
                    if mesh.points.len() > 513 {
                        mesh = ball_of(rng, 513, FARTHEST);
                    }
                    cover_twice(&mut mesh, rng);
                }
                2 => mesh = star_bipyramid(rng),
                _ => mesh = (0..20).find_map(|_| spiral(rng)).unwrap_or(mesh),
            }
            if choice >= 2 {
                reshape(&mut mesh, rng);
            }
            mesh.scramble(rng);
        }
    }
    mesh.tables()
}

/// Sizes that would pass if they were cut down to 16 bits.
pub fn wrapped_sizes(rng: &mut Rng) -> Tables {
    let mut tables = sound(rng, Extent::Small).tables();
    let past = 1 << 16;
    match rng.below(3) {
        0 => tables.points.resize(tables.points.len() + 3 * past, 0),
        1 => tables.corners.resize(tables.corners.len() + past, 0),
        _ => {
            let last = tables.corners.len() as u16;
            tables.begins.resize(tables.begins.len() + past, last);
        }
    }
    tables
}

/// Any tables for the judge: aimed at a number, struck at random, or odd in size.
pub fn any_tables(rng: &mut Rng) -> Tables {
    let extent = of_some_extent(rng);
    match rng.below(40) {
        0..=22 => {
            let number = rng.between(0, 12);
            aimed_at(i64::from(number), extent, rng)
        }
        23 if rng.one_in(4) => {
            let (rows, columns) = rng.pick(&[(3, 3), (4, 5), (3, 7)]);
            torus(rng, rows, columns).tables()
        }
        23 if rng.one_in(8) => torus(rng, 32, 32).tables(),
        24 if rng.one_in(3) => at_a_size_limit(rng),
        24 if rng.one_in(20) => wrapped_sizes(rng),
        _ => {
            let mut mesh = if rng.one_in(6) {
                faulty_base(rng)
            } else {
                sound(rng, extent)
            };
            for _ in 0..rng.pick(&[1, 1, 1, 2, 3]) {
                strike(&mut mesh, rng);
            }
            let mut tables = mesh.tables();
            if rng.one_in(20) {
                strike_tables(&mut tables, rng);
            }
            tables
        }
    }
}
