//! The judge of flat outlines.

use crate::number::*;

/// The answer number, then the count of points or the place.
pub fn outline(points: &[i32]) -> (i64, i64) {
    let count = points.len() / 2;
    if !points.len().is_multiple_of(2) || !(3..=4096).contains(&count) {
        return (FEW, 0);
    }
    let at = |i: usize| {
        let i = i % count;
        (i64::from(points[2 * i]), i64::from(points[2 * i + 1]))
    };
    let before = |i: usize| at(i + count - 1);
    let after = |i: usize| at(i + 1);

    let limits = -8191..=8191;
    let out_of_range = |&i: &usize| !limits.contains(&at(i).0) || !limits.contains(&at(i).1);
    if let Some(i) = (0..count).find(out_of_range) {
        return (RANGE, i as i64);
    }
    if let Some(i) = (0..count).find(|&i| turn(before(i), at(i), after(i)) <= 0) {
        return (LEFT, i as i64);
    }
    // Pairs compare by x, then by y.
    let mut far_points = (0..count).filter(|&i| at(i) > before(i) && at(i) > after(i));
    match far_points.nth(1) {
        Some(i) => (WOUND, i as i64),
        None => (ACCEPTED, count as i64),
    }
}

fn turn(a: (i64, i64), b: (i64, i64), c: (i64, i64)) -> i64 {
    (b.0 - a.0) * (c.1 - a.1) - (b.1 - a.1) * (c.0 - a.0)
}

#[cfg(test)]
mod tests {
    use super::*;
    use crate::generate::{outlines, Rng};

    /// The meaning: every point other than an edge's ends lies strictly left of it.
    fn strictly_convex(points: &[i32]) -> bool {
        let at: Vec<(i64, i64)> = points
            .chunks_exact(2)
            .map(|p| (i64::from(p[0]), i64::from(p[1])))
            .collect();
        let count = at.len();
        (0..count).all(|i| {
            let j = (i + 1) % count;
            (0..count).all(|k| k == i || k == j || turn(at[i], at[j], at[k]) > 0)
        })
    }

    #[test]
    fn acceptance_equals_the_meaning() {
        let mut rng = Rng::new(11);
        let mut accepted = 0;
        for _ in 0..3000 {
            let points = outlines::any(&mut rng);
            let (number, place) = outline(&points);
            if number == FEW || number == RANGE || points.len() > 400 {
                continue;
            }
            assert_eq!(number == ACCEPTED, strictly_convex(&points), "{points:?}");
            if number == ACCEPTED {
                assert_eq!(place as usize, points.len() / 2);
                accepted += 1;
            }
        }
        assert!(accepted > 100);
    }
}
