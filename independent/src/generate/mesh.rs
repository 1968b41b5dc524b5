use super::Rng;

/// The three tables as they are lent.
#[derive(Clone, Debug, Default, PartialEq, Eq)]
pub struct Tables {
    pub points: Vec<i32>,
    pub corners: Vec<u16>,
    pub begins: Vec<u16>,
}

/// A solid as lists of points and facets, easier to build and to damage than the tables.
#[derive(Clone, Debug, Default, PartialEq, Eq)]
pub struct Mesh {
    pub points: Vec<[i32; 3]>,
    pub facets: Vec<Vec<u16>>,
}

impl Mesh {
    pub fn tables(&self) -> Tables {
        let mut tables = Tables {
            points: self.points.concat(),
            corners: Vec::new(),
            begins: vec![0],
        };
        for facet in &self.facets {
            tables.corners.extend(facet);
            tables.begins.push(tables.corners.len() as u16);
        }
        tables
    }

    /// The lists behind tables whose begins rise from 0 to the run's length.
    pub fn from_tables(tables: &Tables) -> Option<Mesh> {
        let last = usize::from(*tables.begins.last()?);
        let rising = tables.begins.windows(2).all(|pair| pair[0] <= pair[1]);
        let whole = tables.points.len().is_multiple_of(3);
        if tables.begins[0] != 0 || last != tables.corners.len() || !rising || !whole {
            return None;
        }
        Some(Mesh {
            points: tables
                .points
                .chunks_exact(3)
                .map(|p| [p[0], p[1], p[2]])
                .collect(),
            facets: tables
                .begins
                .windows(2)
                .map(|pair| tables.corners[usize::from(pair[0])..usize::from(pair[1])].to_vec())
                .collect(),
        })
    }

    /// The number of the vertex added.
    pub fn add_point(&mut self, point: [i32; 3]) -> u16 {
        self.points.push(point);
        (self.points.len() - 1) as u16
    }

    /// Puts another solid beside this one; its vertex numbers move up by the count returned.
    pub fn append(&mut self, other: &Mesh) -> u16 {
        let shift = self.points.len() as u16;
        self.points.extend(&other.points);
        let moved = |facet: &Vec<u16>| facet.iter().map(|&c| c.wrapping_add(shift)).collect();
        self.facets.extend(other.facets.iter().map(moved));
        shift
    }

    /// Calls every corner `from` by the number `to`.
    pub fn rename(&mut self, from: u16, to: u16) {
        for corner in self.facets.iter_mut().flatten() {
            if *corner == from {
                *corner = to;
            }
        }
    }

    /// Takes a vertex out of the points; corners that name it are left alone.
    pub fn remove_point(&mut self, vertex: u16) {
        self.points.remove(usize::from(vertex));
        for corner in self.facets.iter_mut().flatten() {
            if *corner > vertex {
                *corner -= 1;
            }
        }
    }

    /// Drops the points no facet names.
    pub fn compact(&mut self) {
        for vertex in (0..self.points.len() as u16).rev() {
            if !self.facets.iter().any(|facet| facet.contains(&vertex)) {
                self.remove_point(vertex);
            }
        }
    }

    pub fn reverse_all(&mut self) {
        for facet in &mut self.facets {
            facet.reverse();
        }
    }

    /// Renumbers the vertices, reorders the facets and turns each to a random first corner.
    pub fn scramble(&mut self, rng: &mut Rng) {
        let mut places: Vec<u16> = (0..self.points.len() as u16).collect();
        rng.shuffle(&mut places);
        let old = self.points.clone();
        for (point, &place) in old.iter().zip(&places) {
            self.points[usize::from(place)] = *point;
        }
        for corner in self.facets.iter_mut().flatten() {
            if let Some(&place) = places.get(usize::from(*corner)) {
                *corner = place;
            }
        }
        rng.shuffle(&mut self.facets);
        for facet in &mut self.facets {
            if !facet.is_empty() {
                let turn = rng.below(facet.len());
                facet.rotate_left(turn);
            }
        }
    }

    /// Maps every coordinate; convexity stays under an affine map, facets turn over under a mirror.
    pub fn map(&mut self, map: impl Fn([i64; 3]) -> [i64; 3]) {
        for point in &mut self.points {
            *point = map(point.map(i64::from)).map(|c| c as i32);
        }
    }

    /// The greatest absolute value along each axis.
    pub fn reach(&self) -> [i64; 3] {
        let mut reach = [0; 3];
        for point in &self.points {
            for (r, &c) in reach.iter_mut().zip(point) {
                *r = i64::from(c).abs().max(*r);
            }
        }
        reach
    }
}
