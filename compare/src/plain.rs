//! The same rules as a straightforward Rust library would hold them, for timing.

use crate::library::{put, Lent, Library, Room, Way};
use crate::programs::Programs;
use independent::generate::{Input, Tables};
use std::io;
use std::ops::Range;

/// A refusal's number and places.
type Refusal = (u16, [i64; 3]);

fn refuse<T>(number: u16, a: usize, b: usize) -> Result<T, Refusal> {
    Err((number, [a as i64, b as i64, 0]))
}

fn sub(a: [i64; 3], b: [i64; 3]) -> [i64; 3] {
    [a[0] - b[0], a[1] - b[1], a[2] - b[2]]
}

fn dot(a: [i64; 3], b: [i64; 3]) -> i64 {
    a[0] * b[0] + a[1] * b[1] + a[2] * b[2]
}

fn cross(a: [i64; 3], b: [i64; 3]) -> [i64; 3] {
    [
        a[1] * b[2] - a[2] * b[1],
        a[2] * b[0] - a[0] * b[2],
        a[0] * b[1] - a[1] * b[0],
    ]
}

/// Whether the sizes are in order.
fn sized(t: Lent) -> bool {
    let vertices = t.points.len() / 3;
    let facets = t.begins.len().wrapping_sub(1);
    t.points.len().is_multiple_of(3)
        && (4..=1024).contains(&vertices)
        && (4..=2048).contains(&facets)
        && t.corners.len() <= 6144
        && t.begins[0] == 0
        && usize::from(t.begins[facets]) == t.corners.len()
        && t.begins
            .windows(2)
            .all(|w| (3..=12).contains(&(i32::from(w[1]) - i32::from(w[0]))))
}

/// Tables whose sizes, ranges and corner numbers are in order.
struct Solid<'a> {
    points: Vec<[i64; 3]>,
    corners: &'a [u16],
    begins: &'a [u16],
}

impl<'a> Solid<'a> {
    fn new(t: Lent<'a>) -> Result<Self, Refusal> {
        if !sized(t) {
            return refuse(1, 0, 0);
        }
        let vertices = t.points.len() / 3;
        if let Some(i) = t.points.iter().position(|c| c.unsigned_abs() > 8191) {
            return refuse(2, i / 3, 0);
        }
        let solid = Solid {
            points: t
                .points
                .chunks_exact(3)
                .map(|p| [p[0].into(), p[1].into(), p[2].into()])
                .collect(),
            corners: t.corners,
            begins: t.begins,
        };
        if let Some(slot) = t.corners.iter().position(|&c| usize::from(c) >= vertices) {
            let (f, p) = solid.place(slot);
            return refuse(3, f, p);
        }
        Ok(solid)
    }

    fn facets(&self) -> impl Iterator<Item = &'a [u16]> + '_ {
        self.begins
            .windows(2)
            .map(|w| &self.corners[usize::from(w[0])..usize::from(w[1])])
    }

    /// The facet and position of a slot of the run.
    fn place(&self, slot: usize) -> (usize, usize) {
        let f = self.begins.partition_point(|&b| usize::from(b) <= slot) - 1;
        (f, slot - usize::from(self.begins[f]))
    }

    fn point(&self, vertex: u16) -> [i64; 3] {
        self.points[usize::from(vertex)]
    }

    fn judge(&self) -> Result<(), Refusal> {
        self.names_once()?;
        self.names_all()?;
        let next = self.next_slots();
        let twin = self.twins(&next)?;
        self.single_rings(&next, &twin)?;
        let facet_of = self.facet_of_slots();
        self.connected(&facet_of, &twin)?;
        let planes = self.planes()?;
        self.left_turns(&planes)?;
        self.no_reflex(&facet_of, &twin, &planes)?;
        self.all_inside(&planes)
    }

    fn names_once(&self) -> Result<(), Refusal> {
        for (f, facet) in self.facets().enumerate() {
            for p in 1..facet.len() {
                if facet[..p].contains(&facet[p]) {
                    return refuse(4, f, p);
                }
            }
        }
        Ok(())
    }

    fn names_all(&self) -> Result<(), Refusal> {
        let mut used = vec![false; self.points.len()];
        for &c in self.corners {
            used[usize::from(c)] = true;
        }
        match used.iter().position(|&u| !u) {
            Some(v) => refuse(5, v, 0),
            None => Ok(()),
        }
    }

    /// For each slot the next one round its facet.
    fn next_slots(&self) -> Vec<usize> {
        let mut next: Vec<usize> = (1..=self.corners.len()).collect();
        for w in self.begins.windows(2) {
            next[usize::from(w[1]) - 1] = w[0].into();
        }
        next
    }

    fn facet_of_slots(&self) -> Vec<usize> {
        let mut facet_of = Vec::with_capacity(self.corners.len());
        for (f, facet) in self.facets().enumerate() {
            facet_of.resize(facet_of.len() + facet.len(), f);
        }
        facet_of
    }

    /// For each slot the slot of the reverse edge.
    fn twins(&self, next: &[usize]) -> Result<Vec<usize>, Refusal> {
        // Edges sorted without regard to direction, so that both directions stand together.
        let mut edges: Vec<(u16, u16, bool, usize)> = (0..self.corners.len())
            .map(|slot| {
                let (a, b) = (self.corners[slot], self.corners[next[slot]]);
                (a.min(b), a.max(b), a < b, slot)
            })
            .collect();
        edges.sort_unstable();
        let mut twin = vec![0; self.corners.len()];
        let mut bad = usize::MAX;
        for group in edges.chunk_by(|x, y| (x.0, x.1) == (y.0, y.1)) {
            match *group {
                [(_, _, false, back), (_, _, true, forth)] => {
                    twin[back] = forth;
                    twin[forth] = back;
                }
                _ => bad = group.iter().map(|e| e.3).fold(bad, usize::min),
            }
        }
        if bad < usize::MAX {
            let (f, p) = self.place(bad);
            return refuse(6, f, p);
        }
        Ok(twin)
    }

    fn single_rings(&self, next: &[usize], twin: &[usize]) -> Result<(), Refusal> {
        let mut visited = vec![false; self.corners.len()];
        let mut ringed = vec![false; self.points.len()];
        let mut bad = usize::MAX;
        for first in 0..self.corners.len() {
            if visited[first] {
                continue;
            }
            let mut slot = first;
            while !visited[slot] {
                visited[slot] = true;
                slot = next[twin[slot]];
            }
            let v = usize::from(self.corners[first]);
            if ringed[v] {
                bad = bad.min(v);
            }
            ringed[v] = true;
        }
        if bad < usize::MAX {
            return refuse(7, bad, 0);
        }
        Ok(())
    }

    fn connected(&self, facet_of: &[usize], twin: &[usize]) -> Result<(), Refusal> {
        let mut reached = vec![false; self.begins.len() - 1];
        reached[0] = true;
        let mut stack = vec![0];
        while let Some(f) = stack.pop() {
            for &other in &twin[usize::from(self.begins[f])..usize::from(self.begins[f + 1])] {
                let g = facet_of[other];
                if !reached[g] {
                    reached[g] = true;
                    stack.push(g);
                }
            }
        }
        match reached.iter().position(|&r| !r) {
            Some(f) => refuse(8, f, 0),
            None => Ok(()),
        }
    }

    /// Each facet's normal and the value of its plane.
    fn planes(&self) -> Result<Vec<([i64; 3], i64)>, Refusal> {
        let mut planes = Vec::with_capacity(self.begins.len() - 1);
        for (f, facet) in self.facets().enumerate() {
            let a = self.point(facet[0]);
            let normal = cross(sub(self.point(facet[1]), a), sub(self.point(facet[2]), a));
            if normal == [0; 3] {
                return refuse(9, f, 2);
            }
            let value = dot(normal, a);
            for (p, &c) in facet.iter().enumerate().skip(3) {
                if dot(normal, self.point(c)) != value {
                    return refuse(9, f, p);
                }
            }
            planes.push((normal, value));
        }
        Ok(planes)
    }

    fn left_turns(&self, planes: &[([i64; 3], i64)]) -> Result<(), Refusal> {
        for (f, facet) in self.facets().enumerate() {
            let (normal, _) = planes[f];
            for p in 0..facet.len() {
                let q = (p + 1) % facet.len();
                let a = self.point(facet[p]);
                // The edge's inward direction in the plane leaves one product a corner.
                let inward = cross(normal, sub(self.point(facet[q]), a));
                for (r, &c) in facet.iter().enumerate() {
                    if r != p && r != q && dot(inward, sub(self.point(c), a)) <= 0 {
                        return refuse(10, f, p);
                    }
                }
            }
        }
        Ok(())
    }

    fn no_reflex(
        &self,
        facet_of: &[usize],
        twin: &[usize],
        planes: &[([i64; 3], i64)],
    ) -> Result<(), Refusal> {
        for (slot, &other) in twin.iter().enumerate() {
            let f = facet_of[slot];
            let (normal, value) = planes[f];
            let (a, b) = (self.corners[slot], self.corners[other]);
            let g = facet_of[other];
            let across =
                &self.corners[usize::from(self.begins[g])..usize::from(self.begins[g + 1])];
            let reflex = |&c: &u16| c != a && c != b && dot(normal, self.point(c)) >= value;
            if across.iter().any(reflex) {
                return refuse(11, f, slot - usize::from(self.begins[f]));
            }
        }
        Ok(())
    }

    fn all_inside(&self, planes: &[([i64; 3], i64)]) -> Result<(), Refusal> {
        for ((f, facet), &(normal, value)) in self.facets().enumerate().zip(planes) {
            for (v, &point) in self.points.iter().enumerate() {
                if dot(normal, point) >= value && !facet.contains(&(v as u16)) {
                    return refuse(12, f, v);
                }
            }
        }
        Ok(())
    }

    /// The neighbours of every vertex, as parts of one list.
    fn neighbours(&self) -> (Vec<usize>, Vec<u16>) {
        let mut first = vec![0; self.points.len() + 1];
        for &c in self.corners {
            first[usize::from(c) + 1] += 1;
        }
        for v in 0..self.points.len() {
            first[v + 1] += first[v];
        }
        let mut fill = first.clone();
        let mut list = vec![0; self.corners.len()];
        for facet in self.facets() {
            for (p, &c) in facet.iter().enumerate() {
                let at = &mut fill[usize::from(c)];
                list[*at] = facet[(p + 1) % facet.len()];
                *at += 1;
            }
        }
        (first, list)
    }
}

fn walk(t: Lent, way: Way, trail: &mut [u16]) -> Result<[i64; 3], Refusal> {
    let Way { start, direction } = way;
    let solid = Solid::new(t)?;
    solid.judge()?;
    if start as usize >= solid.points.len() {
        return refuse(13, 0, 0);
    }
    if direction.iter().any(|d| d.unsigned_abs() > 32767) {
        return refuse(14, 0, 0);
    }
    if trail.len() < solid.points.len() {
        return refuse(15, 0, 0);
    }
    let direction = direction.map(i64::from);
    let height = |v: u16| dot(solid.point(v), direction);
    let (first, list) = solid.neighbours();
    let mut here = start as u16;
    let mut moves = 0;
    trail[0] = here;
    loop {
        let around = &list[first[usize::from(here)]..first[usize::from(here) + 1]];
        let best = around
            .iter()
            .copied()
            .max_by_key(|&v| (height(v), std::cmp::Reverse(v)));
        match best {
            Some(v) if height(v) > height(here) => here = v,
            _ => return Ok([here.into(), height(here), moves as i64]),
        }
        moves += 1;
        trail[moves] = here;
    }
}

fn outline(numbers: &[i32]) -> (u16, usize) {
    let count = numbers.len() / 2;
    if !numbers.len().is_multiple_of(2) || !(3..=4096).contains(&count) {
        return (24, 0);
    }
    if let Some(i) = numbers.iter().position(|c| c.unsigned_abs() > 8191) {
        return (2, i / 2);
    }
    let points: Vec<(i64, i64)> = numbers
        .chunks_exact(2)
        .map(|p| (p[0].into(), p[1].into()))
        .collect();
    let mut far = 0;
    let mut second_far = None;
    let mut before = points[count - 1];
    for (i, &at) in points.iter().enumerate() {
        let after = points[if i + 1 == count { 0 } else { i + 1 }];
        let turn = (at.0 - before.0) * (after.1 - at.1) - (at.1 - before.1) * (after.0 - at.0);
        if turn <= 0 {
            return (25, i);
        }
        if at > before && at > after {
            far += 1;
            if far == 2 {
                second_far = Some(i);
            }
        }
        before = at;
    }
    match second_far {
        Some(i) => (26, i),
        None => (0, count),
    }
}

/// The sizes of a good tape, or the number and offset of its first bad record.
fn scan(tape: &[u8]) -> Result<[usize; 3], (u16, usize)> {
    let (mut vertices, mut facets, mut corners) = (0, 0, 0);
    let mut offset = 0;
    loop {
        let Some((&kind, rest)) = tape[offset..].split_first() else {
            return Err((20, offset));
        };
        let length = match kind {
            0 => 4,
            1 if facets > 0 => return Err((18, offset)),
            1 => {
                vertices += 1;
                6
            }
            3..=12 => {
                facets += 1;
                corners += usize::from(kind);
                2 * usize::from(kind)
            }
            _ => return Err((17, offset)),
        };
        if vertices > 1024 || facets > 2048 || corners > 6144 {
            return Err((19, offset));
        }
        if rest.len() < length {
            return Err((20, offset));
        }
        if kind == 0 {
            let counts = [
                u16::from_le_bytes([rest[0], rest[1]]),
                u16::from_le_bytes([rest[2], rest[3]]),
            ];
            if counts.map(usize::from) != [vertices, facets] {
                return Err((21, offset));
            }
            if rest.len() > length {
                return Err((22, offset + 1 + length));
            }
            return Ok([vertices, facets, corners]);
        }
        offset += 1 + length;
    }
}

fn read_tape(tape: &[u8], room: &mut Room) -> Result<[usize; 3], (u16, usize)> {
    let Room {
        points,
        corners,
        begins,
    } = room;
    if points.len() < 3072 || corners.len() < 6144 || begins.len() < 2049 {
        return Err((16, 0));
    }
    let sizes @ [vertices, facets, _] = scan(tape)?;
    let (point_part, facet_part) = tape.split_at(7 * vertices);
    for (point, record) in points.chunks_exact_mut(3).zip(point_part.chunks_exact(7)) {
        for (c, bytes) in point.iter_mut().zip(record[1..].chunks_exact(2)) {
            *c = i16::from_le_bytes([bytes[0], bytes[1]]).into();
        }
    }
    let mut rest = facet_part;
    let mut run = 0;
    begins[0] = 0;
    for begin in &mut begins[1..=facets] {
        let count = usize::from(rest[0]);
        let (body, after) = rest[1..].split_at(2 * count);
        for (c, bytes) in corners[run..].iter_mut().zip(body.chunks_exact(2)) {
            *c = u16::from_le_bytes([bytes[0], bytes[1]]);
        }
        run += count;
        *begin = run as u16;
        rest = after;
    }
    Ok(sizes)
}

fn write_tape(t: Lent, buffer: &mut [u8]) -> Result<usize, Refusal> {
    let solid = Solid::new(t)?;
    let vertices = solid.points.len();
    let facets = t.begins.len() - 1;
    let length = 7 * vertices + facets + 2 * t.corners.len() + 5;
    if buffer.len() < length {
        return refuse(23, 0, 0);
    }
    let (records, end) = buffer[..length].split_at_mut(length - 5);
    let (point_part, mut rest) = records.split_at_mut(7 * vertices);
    for (record, point) in point_part.chunks_exact_mut(7).zip(t.points.chunks_exact(3)) {
        record[0] = 1;
        for (bytes, &c) in record[1..].chunks_exact_mut(2).zip(point) {
            bytes.copy_from_slice(&(c as i16).to_le_bytes());
        }
    }
    for facet in solid.facets() {
        let (record, after) = rest.split_at_mut(1 + 2 * facet.len());
        record[0] = facet.len() as u8;
        for (bytes, c) in record[1..].chunks_exact_mut(2).zip(facet) {
            bytes.copy_from_slice(&c.to_le_bytes());
        }
        rest = after;
    }
    end[0] = 0;
    end[1..3].copy_from_slice(&(vertices as u16).to_le_bytes());
    end[3..5].copy_from_slice(&(facets as u16).to_le_bytes());
    Ok(length)
}

/// The facet's part of the run, or the empty part at its beginning.
fn facet_part(t: Lent, facet: u32) -> Range<u16> {
    let facet = facet as usize;
    if sized(t) && facet + 1 < t.begins.len() {
        t.begins[facet]..t.begins[facet + 1]
    } else {
        0..0
    }
}

/// The tables on a tape, of which at most 21,510 bytes are read.
fn tables_on(tape: &[u8]) -> Result<Tables, (u16, usize)> {
    let mut tables = Tables {
        points: vec![0; 3072],
        corners: vec![0; 6144],
        begins: vec![0; 2049],
    };
    let tape = &tape[..tape.len().min(21_510)];
    let [vertices, facets, corners] = read_tape(tape, &mut Room::from(&mut tables))?;
    tables.points.truncate(3 * vertices);
    tables.corners.truncate(corners);
    tables.begins.truncate(facets + 1);
    Ok(tables)
}

fn whole_number<T: std::str::FromStr>(word: &[u8]) -> Option<T> {
    let text = std::str::from_utf8(word).ok()?;
    if text.starts_with('+') {
        return None;
    }
    text.parse().ok()
}

fn walk_of_words(tape: &[u8], input: &[u8]) -> Result<[i64; 3], u16> {
    let tables = tables_on(tape).map_err(|(number, _)| number)?;
    let mut words = input[..input.len().min(256)]
        .split(|byte| b" \n".contains(byte))
        .filter(|word| !word.is_empty());
    // What is no number becomes one past the limits, which the walk refuses in its turn.
    let start = words.next().and_then(whole_number::<i64>);
    let start = start.and_then(|n| u32::try_from(n).ok());
    let mut direction = [(); 3].map(|()| words.next().and_then(whole_number).unwrap_or(i32::MAX));
    if words.next().is_some() || input.len() > 256 {
        direction[0] = i32::MAX;
    }
    let way = Way {
        start: start.unwrap_or(u32::MAX),
        direction,
    };
    walk(Lent::from(&tables), way, &mut [0; 1024]).map_err(|(number, _)| number)
}

/// The plain library in the common shape.
pub struct Plain;

impl Library for Plain {
    fn name(&self) -> &str {
        "plain"
    }

    fn judge(&self, t: Lent, out: &mut [i64]) -> u16 {
        let (number, places) = match Solid::new(t).and_then(|solid| solid.judge()) {
            Ok(()) => {
                let sizes = [t.points.len() / 3, t.corners.len() / 2, t.begins.len() - 1];
                (0, sizes.map(|n| n as i64))
            }
            Err(refusal) => refusal,
        };
        put(out, &places);
        number
    }

    fn walk(&self, t: Lent, way: Way, trail: &mut [u16], out: &mut [i64]) -> u16 {
        let (number, record) = match walk(t, way, trail) {
            Ok([vertex, height, moves]) => (0, [0, 0, 0, vertex, height, moves]),
            Err((number, [a, b, c])) => (number, [a, b, c, 0, 0, 0]),
        };
        put(out, &record);
        number
    }

    fn outline(&self, points: &[i32], out: &mut [i64]) -> u16 {
        let (number, place) = outline(points);
        put(out, &[place as i64]);
        number
    }

    fn read_tape(&self, tape: &[u8], room: &mut Room, out: &mut [i64]) -> u16 {
        let (number, places) = match read_tape(tape, room) {
            Ok(sizes) => (0, sizes),
            Err((number, offset)) => (number, [offset, 0, 0]),
        };
        put(out, &places.map(|n| n as i64));
        number
    }

    fn write_tape(&self, t: Lent, buffer: &mut [u8], out: &mut [i64]) -> u16 {
        let (number, places) = match write_tape(t, buffer) {
            Ok(length) => (0, [length as i64, 0, 0]),
            Err(refusal) => refusal,
        };
        put(out, &places);
        number
    }

    fn look_up(&self, t: Lent, facet: u32, out: &mut [i64]) -> u16 {
        let part = facet_part(t, facet);
        put(out, &[part.start.into(), part.len() as i64]);
        0
    }
}

impl Programs for Plain {
    fn judging(&self, input: &Input) -> io::Result<Vec<u8>> {
        let mut out = [0; 3];
        let number = match tables_on(&input.bytes) {
            Ok(tables) => self.judge(Lent::from(&tables), &mut out),
            Err((number, offset)) => {
                out[0] = offset as i64;
                number
            }
        };
        let [a, b, c] = out;
        Ok(format!("{number} {a} {b} {c}\n").into())
    }

    fn walking(&self, tape: Option<&[u8]>, input: &Input) -> io::Result<Vec<u8>> {
        let line = match walk_of_words(tape.unwrap_or(&[]), &input.bytes) {
            Ok([vertex, height, moves]) => format!("0 {vertex} {height} {moves}\n"),
            Err(number) => format!("{number} 0 0 0\n"),
        };
        Ok(line.into())
    }
}
