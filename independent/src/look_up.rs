//! The facet look-up: which part of the lent run a facet's corners are.

use crate::judge::sizes_in_order;

/// The part's first place in the run and its length; the empty part at the run's beginning where refused.
pub fn look_up(points: &[i32], corners: &[u16], begins: &[u16], facet: u32) -> [i64; 2] {
    if !sizes_in_order(points, corners, begins) {
        return [0, 0];
    }
    // Each facet below F has its pair of begins, and no other number has one.
    match begins.windows(2).nth(facet as usize) {
        Some(pair) => [pair[0], pair[1] - pair[0]].map(i64::from),
        None => [0, 0],
    }
}

#[cfg(test)]
mod tests {
    use super::*;
    use crate::generate::solids::Extent;
    use crate::generate::{damage, Mesh, Rng, Tables};
    use crate::judge;
    use crate::number::*;

    const REFUSED: [i64; 2] = [0, 0];

    fn asked(t: &Tables, facet: u32) -> [i64; 2] {
        look_up(&t.points, &t.corners, &t.begins, facet)
    }

    fn number(t: &Tables) -> i64 {
        judge(&t.points, &t.corners, &t.begins)[0]
    }

    /// Facets of these lengths over this many vertices; only the sizes mean something.
    fn sized(vertices: usize, lengths: &[usize]) -> Tables {
        let facet = |&length: &usize| (0..length).map(|c| (c % vertices) as u16).collect();
        let mesh = Mesh {
            points: vec![[1, 2, 3]; vertices],
            facets: lengths.iter().map(facet).collect(),
        };
        mesh.tables()
    }

    #[test]
    fn every_length_has_its_part() {
        let t = sized(12, &[3, 4, 5, 6, 7, 8, 9, 10, 11, 12]);
        let mut first = 0;
        for (facet, length) in (3..=12).enumerate() {
            assert_eq!(asked(&t, facet as u32), [first, length]);
            first += length;
        }
        assert_eq!(first as usize, t.corners.len());
    }

    #[test]
    fn facet_numbers_end_below_f() {
        let t = sized(4, &[3, 3, 4, 5]);
        assert_eq!(asked(&t, 3), [10, 5]);
        // The last three would name a facet if they were cut down to 16 bits or fewer.
        for facet in [4, 5, u32::MAX, 1 << 31, 1 << 16, (1 << 16) + 3, 1 << 8] {
            assert_eq!(asked(&t, facet), REFUSED, "{facet}");
        }
    }

    #[test]
    fn each_way_of_size_refuses() {
        let sound = sized(4, &[3, 3, 4, 5]);
        let changed = |change: fn(&mut Tables)| {
            let mut t = sound.clone();
            change(&mut t);
            t
        };
        let ways = [
            Tables::default(),
            changed(|t| t.points.truncate(11)),
            changed(|t| t.points.push(0)),
            changed(|t| t.points.clear()),
            changed(|t| t.corners.clear()),
            changed(|t| t.begins.clear()),
            changed(|t| t.begins.truncate(1)),
            changed(|t| t.begins[0] = 1),
            changed(|t| t.begins[4] = 14),
            changed(|t| t.begins[4] = 16),
            changed(|t| t.begins[4] = u16::MAX),
            changed(|t| t.begins.swap(2, 3)),
            changed(|t| t.corners.push(0)),
            changed(|t| t.corners.truncate(14)),
            sized(3, &[3, 3, 4, 5]),
            sized(1025, &[3, 3, 4, 5]),
            sized(4, &[3, 4, 5]),
            sized(4, &[3; 2049]),
            sized(4, &[12; 513]),
            sized(4, &[3, 3, 3, 2]),
            sized(4, &[3, 3, 0, 3]),
            sized(4, &[3, 3, 3, 13]),
        ];
        for t in ways {
            assert_eq!(number(&t), SIZE);
            for facet in 0..t.begins.len() as u32 + 1 {
                assert_eq!(asked(&t, facet), REFUSED, "{facet} {t:?}");
            }
            assert_eq!(asked(&t, u32::MAX), REFUSED);
        }
    }

    #[test]
    fn the_limits_themselves_pass() {
        assert_eq!(asked(&sized(1024, &[3, 3, 4, 5]), 3), [10, 5]);
        assert_eq!(asked(&sized(4, &[3; 2048]), 2047), [6141, 3]);
        assert_eq!(asked(&sized(4, &[12; 512]), 511), [6132, 12]);
        assert_eq!(asked(&sized(4, &[12; 512]), 512), REFUSED);
    }

    #[test]
    fn later_rules_do_not_matter() {
        let mut t = sized(4, &[3, 3, 4, 5]);
        t.points[0] = i32::MIN;
        assert_eq!((number(&t), asked(&t, 0)), (RANGE, [0, 3]));
        t.points[0] = 0;
        t.corners[1] = 4;
        assert_eq!((number(&t), asked(&t, 0)), (INDEX, [0, 3]));
        t.corners[14] = u16::MAX;
        assert_eq!((number(&t), asked(&t, 3)), (INDEX, [10, 5]));
        let mut rng = Rng::new(11);
        for _ in 0..400 {
            let t = damage::any_tables(&mut rng);
            let answers = number(&t) != SIZE;
            for facet in 0..t.begins.len().saturating_sub(1) {
                assert_eq!(asked(&t, facet as u32)[1] > 0, answers);
            }
        }
    }

    #[test]
    fn the_parts_in_turn_are_the_run() {
        let mut rng = Rng::new(12);
        for _ in 0..200 {
            let t = damage::aimed_at(ACCEPTED, Extent::Small, &mut rng);
            let mut run: Vec<u16> = Vec::new();
            for facet in 0..t.begins.len() as u32 {
                let [first, length] = asked(&t, facet).map(|n| n as usize);
                run.extend(&t.corners[first..first + length]);
            }
            assert_eq!(run, t.corners);
        }
    }
}
