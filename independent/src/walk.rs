//! The walk along edges to a farthest corner.

use crate::judge::judge;
use crate::number::*;
use std::collections::BTreeSet;

/// The record of number and judge's places, then last vertex, its height and the moves.
pub fn walk(
    points: &[i32],
    corners: &[u16],
    begins: &[u16],
    direction: [i32; 3],
    start: u32,
    trail: &mut [u16],
) -> ([i64; 4], i64, i64, i64) {
    let judged = judge(points, corners, begins);
    if judged[0] != ACCEPTED {
        return (judged, 0, 0, 0);
    }
    let refuse = |number| ([number, 0, 0, 0], 0, 0, 0);
    let vertices = points.len() / 3;
    if start as usize >= vertices {
        return refuse(START);
    }
    if direction
        .iter()
        .any(|part| !(-32767..=32767).contains(part))
    {
        return refuse(DIRECTION);
    }
    if trail.len() < vertices {
        return refuse(TRAIL);
    }

    let heights: Vec<i64> = points
        .chunks_exact(3)
        .map(|point| {
            (0..3)
                .map(|k| i64::from(point[k]) * i64::from(direction[k]))
                .sum()
        })
        .collect();
    let neighbours = neighbours(vertices, corners, begins);

    let mut stood = vec![start as usize];
    loop {
        let here = *stood.last().unwrap();
        let mut highest = here;
        for &n in &neighbours[here] {
            // Numbers come in rising order, so the lowest among equals is kept.
            if heights[n] > heights[highest] {
                highest = n;
            }
        }
        if highest == here {
            break;
        }
        stood.push(highest);
    }

    for (entry, &vertex) in trail.iter_mut().zip(&stood) {
        *entry = vertex as u16;
    }
    let last = *stood.last().unwrap();
    let moves = stood.len() as i64 - 1;
    ([ACCEPTED, 0, 0, 0], last as i64, heights[last], moves)
}

fn neighbours(vertices: usize, corners: &[u16], begins: &[u16]) -> Vec<BTreeSet<usize>> {
    let mut neighbours = vec![BTreeSet::new(); vertices];
    for pair in begins.windows(2) {
        let facet = &corners[usize::from(pair[0])..usize::from(pair[1])];
        for p in 0..facet.len() {
            let a = usize::from(facet[p]);
            let b = usize::from(facet[(p + 1) % facet.len()]);
            neighbours[a].insert(b);
            neighbours[b].insert(a);
        }
    }
    neighbours
}
