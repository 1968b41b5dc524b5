//! Makes a case that shows a difference as small as a bounded greedy search can.

use crate::{confront, Product};
use independent::generate::{hull_of, tapes, Case, Input, Mesh, Tables};
use std::ops::Range;

/// Tries at most `bound` smaller cases, keeping each that still shows a difference.
pub fn shrink(ours: Product, theirs: Product, case: &Case, bound: usize) -> Case {
    let mut search = Search {
        ours,
        theirs,
        best: case.clone(),
        left: bound,
    };
    loop {
        let before = search.best.clone();
        for cut in CUTS {
            search.cut(cut);
        }
        search.simplify_numbers();
        search.simplify_words();
        search.simplify_facet();
        if search.left == 0 || search.best == before {
            return search.best;
        }
    }
}

/// How much there is to a case, for telling whether it became smaller.
pub fn weight(case: &Case) -> usize {
    let tables = |t: &Tables| t.points.len() + t.corners.len() + t.begins.len();
    match case {
        Case::Judge(t) => tables(t),
        Case::Walk {
            tables: t, trail, ..
        } => tables(t) + trail.len(),
        Case::Outline(points) => points.len(),
        Case::Read { tape, .. } => tape.len(),
        Case::Write {
            tables: t, room, ..
        } => tables(t) + room,
        Case::LookUp { tables: t, .. } => tables(t),
        Case::JudgingProgram(input) => input.bytes.len(),
        Case::WalkingProgram { tape, input } => {
            tape.as_ref().map_or(0, Vec::len) + input.bytes.len()
        }
    }
}

/// Takes a range of the case's parts away, or says that it has not that many.
type Cut = fn(&Case, Range<usize>) -> Option<Case>;

const CUTS: [Cut; 15] = [
    hull_of_part,
    hull_without,
    without_facets,
    without_vertices,
    with_merged_vertices,
    without_corners,
    without_raw_entries,
    without_trail,
    without_outline_points,
    without_records,
    without_bytes,
    without_words,
    without_late,
    without_room,
    without_start,
];

struct Search<'a> {
    ours: Product<'a>,
    theirs: Product<'a>,
    best: Case,
    left: usize,
}

impl Search<'_> {
    /// Keeps the candidate if the products still differ on it.
    fn keep(&mut self, candidate: Case) -> bool {
        if self.left == 0 || candidate == self.best {
            return false;
        }
        self.left -= 1;
        let differs = confront(self.ours, self.theirs, &candidate).is_err();
        if differs {
            self.best = candidate;
        }
        differs
    }

    /// Cuts away runs of parts, long ones first.
    fn cut(&mut self, cut: Cut) {
        let mut length = weight(&self.best).max(1).next_power_of_two() / 2;
        while length > 0 && self.left > 0 {
            let mut at = 0;
            while let Some(candidate) = cut(&self.best, at..at + length) {
                if self.left == 0 {
                    return;
                }
                let moved = with_facet_moved(&self.best, &candidate);
                if !self.keep(candidate) && !moved.is_some_and(|moved| self.keep(moved)) {
                    at += length;
                }
            }
            length /= 2;
        }
    }

    fn simplify_numbers(&mut self) {
        let simpler: [fn(i32) -> i32; 3] = [|_| 0, |n| n / 2, |n| n - n.signum()];
        let mut at = 0;
        while with_number(&self.best, at, |n| n).is_some() {
            for change in simpler {
                let candidate = with_number(&self.best, at, change);
                if candidate.is_some_and(|candidate| self.keep(candidate)) {
                    break;
                }
            }
            at += 1;
        }
    }

    /// Makes the digits of the words zeros and their other bytes blanks.
    fn simplify_words(&mut self) {
        for at in 0.. {
            let mut candidate = self.best.clone();
            let Some(byte) = words_of(&mut candidate).and_then(|words| words.get_mut(at)) else {
                return;
            };
            *byte = if byte.is_ascii_digit() { b'0' } else { b' ' };
            self.keep(candidate);
        }
    }

    /// Makes the number of the facet asked for smaller.
    fn simplify_facet(&mut self) {
        while let Case::LookUp { tables, facet } = &self.best {
            let smaller = [0, facet / 2, facet.saturating_sub(1)].map(|facet| Case::LookUp {
                tables: tables.clone(),
                facet,
            });
            if !smaller.into_iter().any(|candidate| self.keep(candidate)) {
                return;
            }
        }
    }
}

/// The cut case with the facet asked for as far from the end of the begins as it was before the cut.
fn with_facet_moved(before: &Case, cut: &Case) -> Option<Case> {
    let (
        Case::LookUp { tables, .. },
        Case::LookUp {
            tables: left,
            facet,
        },
    ) = (before, cut)
    else {
        return None;
    };
    let gone = tables.begins.len().checked_sub(left.begins.len())?;
    Some(Case::LookUp {
        tables: left.clone(),
        facet: facet.checked_sub(gone as u32)?,
    })
}

/// The case with one of its coordinates or direction parts changed.
fn with_number(case: &Case, at: usize, change: impl FnOnce(i32) -> i32) -> Option<Case> {
    let mut changed = case.clone();
    if tape_of(&mut changed).is_some() {
        return on_mesh(case, |mesh| {
            let number = mesh.points.as_flattened_mut().get_mut(at)?;
            *number = change(*number);
            Some(())
        });
    }
    let number = number_at(&mut changed, at)?;
    *number = change(*number);
    Some(changed)
}

/// The coordinates and direction parts of a case, one after the other.
fn number_at(case: &mut Case, at: usize) -> Option<&mut i32> {
    match case {
        Case::Outline(points) => points.get_mut(at),
        Case::Walk {
            tables, direction, ..
        } => match at.checked_sub(3) {
            None => direction.get_mut(at),
            Some(at) => tables.points.get_mut(at),
        },
        _ => tables_of(case)?.points.get_mut(at),
    }
}

fn tables_of(case: &mut Case) -> Option<&mut Tables> {
    match case {
        Case::Judge(t)
        | Case::Walk { tables: t, .. }
        | Case::Write { tables: t, .. }
        | Case::LookUp { tables: t, .. } => Some(t),
        _ => None,
    }
}

fn tape_of(case: &mut Case) -> Option<&mut Vec<u8>> {
    match case {
        Case::Read { tape, .. } => Some(tape),
        Case::JudgingProgram(input) => Some(&mut input.bytes),
        Case::WalkingProgram { tape, .. } => tape.as_mut(),
        _ => None,
    }
}

fn words_of(case: &mut Case) -> Option<&mut Vec<u8>> {
    match case {
        Case::WalkingProgram { input, .. } => Some(&mut input.bytes),
        _ => None,
    }
}

/// Changes the solid of the case, in its tables or on its tape.
fn on_mesh(case: &Case, change: impl FnOnce(&mut Mesh) -> Option<()>) -> Option<Case> {
    let mut changed = case.clone();
    if let Some(tables) = tables_of(&mut changed) {
        let mut mesh = Mesh::from_tables(tables)?;
        change(&mut mesh)?;
        *tables = mesh.tables();
    } else {
        let tape = tape_of(&mut changed)?;
        let mut mesh = tapes::to_mesh(tape)?;
        change(&mut mesh)?;
        *tape = tapes::of_mesh(&mesh);
    }
    Some(changed)
}

/// The part of the range that a list of this length has.
fn within(range: Range<usize>, length: usize) -> Option<Range<usize>> {
    (range.start < length).then(|| range.start..range.end.min(length))
}

fn without_facets(case: &Case, range: Range<usize>) -> Option<Case> {
    on_mesh(case, |mesh| {
        let range = within(range, mesh.facets.len())?;
        mesh.facets.drain(range);
        Some(())
    })
}

fn without_vertices(case: &Case, range: Range<usize>) -> Option<Case> {
    on_mesh(case, |mesh| {
        for vertex in within(range, mesh.points.len())?.rev() {
            let vertex = vertex as u16;
            for facet in &mut mesh.facets {
                facet.retain(|&c| c != vertex);
            }
            mesh.facets.retain(|facet| facet.len() >= 3);
            mesh.remove_point(vertex);
        }
        Some(())
    })
}

/// Draws a corner together with the next one of its facet: a closed surface stays closed.
fn with_merged_vertices(case: &Case, range: Range<usize>) -> Option<Case> {
    if range.len() > 1 {
        return None;
    }
    on_mesh(case, |mesh| {
        let mut slots = mesh.facets.iter().flat_map(|facet| {
            let next = facet.iter().cycle().skip(1);
            facet.iter().copied().zip(next.copied())
        });
        let (gone, kept) = slots.nth(range.start)?;
        mesh.rename(gone, kept);
        for facet in &mut mesh.facets {
            facet.dedup();
            if facet.len() > 1 && facet.first() == facet.last() {
                facet.pop();
            }
        }
        mesh.facets.retain(|facet| facet.len() >= 3);
        if usize::from(gone) < mesh.points.len() {
            mesh.remove_point(gone);
        }
        Some(())
    })
}

/// The hull of all points but the range: a sound solid stays sound.
fn hull_without(case: &Case, range: Range<usize>) -> Option<Case> {
    on_mesh(case, |mesh| {
        let range = within(range, mesh.points.len())?;
        let mut points = mesh.points.clone();
        points.drain(range);
        make_hull(mesh, &points);
        Some(())
    })
}

/// The hull of the points in the range alone.
fn hull_of_part(case: &Case, range: Range<usize>) -> Option<Case> {
    on_mesh(case, |mesh| {
        let range = within(range, mesh.points.len())?;
        let points = mesh.points[range].to_vec();
        make_hull(mesh, &points);
        Some(())
    })
}

/// Puts the hull in place of the solid where it is quickly made and smaller.
fn make_hull(mesh: &mut Mesh, points: &[[i32; 3]]) {
    let in_limits = points.iter().flatten().all(|c| c.unsigned_abs() <= 8191);
    if points.len() <= 32 && in_limits {
        if let Some(hull) = hull_of(points) {
            if hull.points.len() < mesh.points.len() {
                *mesh = hull;
            }
        }
    }
}

fn without_corners(case: &Case, range: Range<usize>) -> Option<Case> {
    on_mesh(case, |mesh| {
        let total = mesh.facets.iter().map(Vec::len).sum();
        let range = within(range, total)?;
        let mut slot = 0;
        for facet in &mut mesh.facets {
            facet.retain(|_| {
                slot += 1;
                !range.contains(&(slot - 1))
            });
        }
        Some(())
    })
}

/// Entries of the three tables as one list, whatever they mean.
fn without_raw_entries(case: &Case, range: Range<usize>) -> Option<Case> {
    let mut changed = case.clone();
    let tables = tables_of(&mut changed)?;
    let (p, c) = (tables.points.len(), tables.corners.len());
    let range = within(range, p + c + tables.begins.len())?;
    let part = |from: usize, length: usize| {
        let start = range.start.clamp(from, from + length) - from;
        let end = range.end.clamp(from, from + length) - from;
        start..end
    };
    let begins = part(p + c, tables.begins.len());
    tables.points.drain(part(0, p));
    tables.corners.drain(part(p, c));
    tables.begins.drain(begins);
    Some(changed)
}

fn without_outline_points(case: &Case, range: Range<usize>) -> Option<Case> {
    match case {
        Case::Outline(points) => {
            let range = within(range, points.len().div_ceil(2))?;
            let mut kept = points.clone();
            kept.drain(2 * range.start..(2 * range.end).min(points.len()));
            Some(Case::Outline(kept))
        }
        _ => None,
    }
}

/// Takes whole records away and sets the end record's counts right again.
fn without_records(case: &Case, range: Range<usize>) -> Option<Case> {
    let mut changed = case.clone();
    let tape = tape_of(&mut changed)?;
    let mut records = Vec::new();
    let mut rest = tape.as_slice();
    while let Some(&kind) = rest.first() {
        let length = match kind {
            0 => 5,
            1 => 7,
            _ => 1 + 2 * usize::from(kind),
        };
        let (record, after) = rest.split_at(length.min(rest.len()));
        records.push(record.to_vec());
        rest = after;
    }
    let end = records.iter().position(|record| record[0] == 0)?;
    let range = within(range, end)?;
    records.drain(range.clone());
    let end = end - range.len();
    let points = records[..end]
        .iter()
        .filter(|record| record[0] == 1)
        .count();
    if let [_, low_v, high_v, low_f, high_f] = records[end].as_mut_slice() {
        [*low_v, *high_v] = (points as u16).to_le_bytes();
        [*low_f, *high_f] = ((end - points) as u16).to_le_bytes();
    }
    *tape = records.concat();
    Some(changed)
}

/// Cuts the range out of a list of the case.
fn drained<T>(
    case: &Case,
    range: Range<usize>,
    list: fn(&mut Case) -> Option<&mut Vec<T>>,
) -> Option<Case> {
    let mut changed = case.clone();
    let list = list(&mut changed)?;
    let range = within(range, list.len())?;
    list.drain(range);
    Some(changed)
}

fn without_trail(case: &Case, range: Range<usize>) -> Option<Case> {
    drained(case, range, |case| match case {
        Case::Walk { trail, .. } => Some(trail),
        _ => None,
    })
}

fn without_bytes(case: &Case, range: Range<usize>) -> Option<Case> {
    drained(case, range, tape_of)
}

fn without_words(case: &Case, range: Range<usize>) -> Option<Case> {
    drained(case, range, words_of)
}

/// Lessens a count of the case by the range's length.
fn lessened(
    case: &Case,
    range: Range<usize>,
    count: fn(&mut Case) -> Option<&mut usize>,
) -> Option<Case> {
    let mut changed = case.clone();
    let count = count(&mut changed)?;
    *count -= within(range, *count)?.len();
    Some(changed)
}

fn without_late(case: &Case, range: Range<usize>) -> Option<Case> {
    lessened(case, range, |case| match case {
        Case::JudgingProgram(Input { late, .. })
        | Case::WalkingProgram {
            input: Input { late, .. },
            ..
        } => Some(late),
        _ => None,
    })
}

fn without_room(case: &Case, range: Range<usize>) -> Option<Case> {
    lessened(case, range, |case| match case {
        Case::Write { room, .. } => Some(room),
        _ => None,
    })
}

fn without_start(case: &Case, range: Range<usize>) -> Option<Case> {
    let mut changed = case.clone();
    match &mut changed {
        Case::Walk { start, .. } => {
            *start -= within(range, *start as usize)?.len() as u32;
            Some(changed)
        }
        _ => None,
    }
}
