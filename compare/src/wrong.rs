//! Libraries and programs wrong in one point each, to see that the comparison finds such errors.

use crate::library::{put, Independent, Lent, Library, Room, Way};
use crate::programs::Programs;
use independent::generate::{Input, Mesh, Tables};
use independent::{judging_line, walking_line, LONGEST_INPUT, LONGEST_WORDS};
use std::io;

macro_rules! wrongs {
    ($($variant:ident $name:literal,)*) => {
        #[derive(Clone, Copy, Debug, PartialEq, Eq)]
        pub enum Wrong { $($variant,)* }

        impl Wrong {
            pub const ALL: &'static [Wrong] = &[$(Wrong::$variant,)*];

            pub fn of_name(name: &str) -> Option<Wrong> {
                match name {
                    $($name => Some(Wrong::$variant),)*
                    _ => None,
                }
            }

            fn label(self) -> &'static str {
                match self { $(Wrong::$variant => $name,)* }
            }
        }
    };
}

wrongs! {
    NeverOutside "never-outside",
    OutsideFirstFacetOnly "outside-first-facet-only",
    NeverRing "never-ring",
    NeverTurn "never-turn",
    SizesIn16Bits "sizes-in-16-bits",
    SwappedPlaces "swapped-places",
    OneMove "one-move",
    HighestOfEquals "highest-of-equals",
    TrailOnRefusal "trail-on-refusal",
    TrailBeyond "trail-beyond",
    FarByX "far-by-x",
    FirstFar "first-far",
    ReadsEarly "reads-early",
    ReadsBeyond "reads-beyond",
    ReadsNothing "reads-nothing",
    WriterJudges "writer-judges",
    WritesBeyond "writes-beyond",
    PartOneLate "part-one-late",
    PartOneShort "part-one-short",
    EmptyAtTheEnd "empty-at-the-end",
    LastFacetRefused "last-facet-refused",
    FacetIn16Bits "facet-in-16-bits",
    OwnBeginsOnly "own-begins-only",
    LookUpJudges "look-up-judges",
    LookUpNumbered "look-up-numbered",
    LookUpCrowds "look-up-crowds",
    ReadsOnce "reads-once",
    TailUnread "tail-unread",
    NeedsAFile "needs-a-file",
    TabsPartWords "tabs-part-words",
    DirectionFirst "direction-first",
    NumbersWrap "numbers-wrap",
    RestForgotten "rest-forgotten",
}

impl Library for Wrong {
    fn name(&self) -> &str {
        self.label()
    }

    fn judge(&self, t: Lent, out: &mut [i64]) -> u16 {
        let mut t = t;
        if *self == Wrong::SizesIn16Bits {
            t.corners = &t.corners[..t.corners.len() % (1 << 16)];
            t.begins = &t.begins[..t.begins.len() % (1 << 16)];
        }
        let number = Independent.judge(t, out);
        let forgotten = match self {
            Wrong::NeverOutside => number == 12,
            Wrong::OutsideFirstFacetOnly => number == 12 && out.first().is_some_and(|&f| f > 0),
            Wrong::NeverRing => number == 7,
            Wrong::NeverTurn => number == 10,
            _ => false,
        };
        if forgotten {
            let sizes = [t.points.len() / 3, t.corners.len() / 2, t.begins.len() - 1];
            put(out, &sizes.map(|n| n as i64));
            return 0;
        }
        if *self == Wrong::SwappedPlaces && number == 9 && out.len() >= 3 {
            out.swap(0, 1);
        }
        number
    }

    fn walk(&self, t: Lent, way: Way, trail: &mut [u16], out: &mut [i64]) -> u16 {
        let Way { start, direction } = way;
        let height = |v: u16| -> i64 {
            let point = &t.points[3 * usize::from(v)..][..3];
            point
                .iter()
                .zip(direction)
                .map(|(&c, d)| i64::from(c) * i64::from(d))
                .sum()
        };
        match self {
            Wrong::HighestOfEquals => {
                // Numbering the vertices backward turns the choice among equals round.
                let turned = backward(t);
                let last = (t.points.len() / 3) as u32;
                let start = if start < last {
                    last - 1 - start
                } else {
                    start
                };
                let mut whole = [0; 6];
                let before = trail.to_vec();
                let turned_way = Way { start, direction };
                let number = Independent.walk((&turned).into(), turned_way, trail, &mut whole);
                if number != 0 {
                    trail.copy_from_slice(&before);
                    return Independent.walk(t, way, trail, out);
                }
                let back = |v: u16| (last - 1) as u16 - v;
                let stood = whole[5] as usize + 1;
                trail[..stood].iter_mut().for_each(|v| *v = back(*v));
                whole[3] = back(whole[3] as u16).into();
                put(out, &whole);
                0
            }
            _ => {
                let number = Independent.walk(t, way, trail, out);
                if *self == Wrong::TrailOnRefusal && number == 14 {
                    trail.iter_mut().take(1).for_each(|v| *v = start as u16);
                }
                if *self == Wrong::TrailBeyond && number == 0 && out.len() >= 6 {
                    trail
                        .iter_mut()
                        .skip(out[5] as usize + 1)
                        .for_each(|v| *v = 0);
                }
                if *self == Wrong::OneMove && number == 0 && out.len() >= 6 && out[5] > 1 {
                    put(out, &[0, 0, 0, trail[1].into(), height(trail[1]), 1]);
                }
                number
            }
        }
    }

    fn outline(&self, points: &[i32], out: &mut [i64]) -> u16 {
        let number = Independent.outline(points, out);
        if number != 0 && number != 26 {
            return number;
        }
        let count = points.len() / 2;
        let at = |i: usize| {
            let i = i % count;
            (points[2 * i], points[2 * i + 1])
        };
        let far = |i: usize| {
            let (before, here, after) = (at(i + count - 1), at(i), at(i + 1));
            match self {
                Wrong::FarByX => here.0 > before.0 && here.0 > after.0,
                _ => here > before && here > after,
            }
        };
        let nth = usize::from(*self != Wrong::FirstFar || number == 0);
        match (0..count).filter(|&i| far(i)).nth(nth) {
            Some(i) => {
                put(out, &[i as i64]);
                26
            }
            None => {
                put(out, &[count as i64]);
                0
            }
        }
    }

    fn read_tape(&self, tape: &[u8], room: &mut Room, out: &mut [i64]) -> u16 {
        if *self == Wrong::ReadsNothing {
            let mut elsewhere = Tables {
                points: room.points.to_vec(),
                corners: room.corners.to_vec(),
                begins: room.begins.to_vec(),
            };
            return Independent.read_tape(tape, &mut Room::from(&mut elsewhere), out);
        }
        let number = Independent.read_tape(tape, room, out);
        if *self == Wrong::ReadsEarly && number == 21 {
            room.begins[..2].copy_from_slice(&[0, 3]);
        }
        if *self == Wrong::ReadsBeyond && number == 0 {
            room.begins[2048] = 0;
        }
        number
    }

    fn write_tape(&self, t: Lent, buffer: &mut [u8], out: &mut [i64]) -> u16 {
        if *self == Wrong::WriterJudges {
            let number = self.judge(t, out);
            if number != 0 {
                return number;
            }
        }
        let number = Independent.write_tape(t, buffer, out);
        if *self == Wrong::WritesBeyond && number == 0 && out.len() >= 3 {
            if let Some(byte) = buffer.get_mut(out[0] as usize) {
                *byte = !*byte;
            }
        }
        number
    }

    fn look_up(&self, t: Lent, facet: u32, out: &mut [i64]) -> u16 {
        let mut part = [0; 2];
        Independent.look_up(t, facet, &mut part);
        let refused = part == [0, 0];
        match self {
            Wrong::PartOneLate if !refused => part[0] += 1,
            Wrong::PartOneShort if !refused => part[1] -= 1,
            Wrong::EmptyAtTheEnd if refused => part[0] = t.corners.len() as i64,
            Wrong::LastFacetRefused if facet as usize + 2 == t.begins.len() => part = [0, 0],
            Wrong::FacetIn16Bits => {
                Independent.look_up(t, facet % (1 << 16), &mut part);
            }
            Wrong::OwnBeginsOnly => {
                if let Some(&[first, end]) = t.begins.windows(2).nth(facet as usize) {
                    if first < end && usize::from(end) <= t.corners.len() {
                        part = [first.into(), (end - first).into()];
                    }
                }
            }
            Wrong::LookUpJudges if Independent.judge(t, &mut []) != 0 => part = [0, 0],
            _ => {}
        }
        if *self == Wrong::LookUpCrowds {
            let room = out.len().min(2);
            out[..room].copy_from_slice(&part[..room]);
        } else {
            put(out, &part);
        }
        u16::from(*self == Wrong::LookUpNumbered && refused)
    }
}

impl Programs for Wrong {
    fn judging(&self, input: &Input) -> io::Result<Vec<u8>> {
        let bytes = &input.bytes;
        let line = match self {
            Wrong::ReadsOnce => judging_line(input.parts().0),
            Wrong::TailUnread => judging_line(&bytes[..bytes.len().min(LONGEST_INPUT - 1)]),
            _ => judging_line(bytes),
        };
        Ok(line.into())
    }

    fn walking(&self, tape: Option<&[u8]>, input: &Input) -> io::Result<Vec<u8>> {
        if *self == Wrong::NeedsAFile && tape.is_none() {
            return Ok(Vec::new());
        }
        let tape = tape.unwrap_or_default();
        let bytes = match self {
            Wrong::ReadsOnce => input.parts().0,
            _ => &input.bytes,
        };
        let right = walking_line(tape, bytes);
        let line = match self {
            Wrong::TabsPartWords => {
                let blank = |&byte| if byte == b'\t' { b' ' } else { byte };
                walking_line(tape, &bytes.iter().map(blank).collect::<Vec<u8>>())
            }
            Wrong::DirectionFirst if right.starts_with("13 ") => {
                let mut words = words(bytes);
                words.splice(..words.len().min(1), [&b"0"[..]]);
                let line = walking_line(tape, &words.join(&b' '));
                if line.starts_with("14 ") {
                    line
                } else {
                    right
                }
            }
            Wrong::NumbersWrap if bytes.len() <= LONGEST_WORDS => {
                let words: Vec<_> = words(bytes).into_iter().map(wrapped).collect();
                walking_line(tape, &words.join(&b' '))
            }
            Wrong::RestForgotten => walking_line(tape, &bytes[..bytes.len().min(LONGEST_WORDS)]),
            _ => right,
        };
        Ok(line.into())
    }
}

fn words(input: &[u8]) -> Vec<&[u8]> {
    let words = input.split(|byte| b" \n".contains(byte));
    words.filter(|word| !word.is_empty()).collect()
}

/// A number with what is above 64 bits dropped; any other word as it is.
fn wrapped(word: &[u8]) -> Vec<u8> {
    let digits = word.strip_prefix(b"-").unwrap_or(word);
    if digits.is_empty() || !digits.iter().all(u8::is_ascii_digit) {
        return word.to_vec();
    }
    let value = digits.iter().fold(0_i64, |value, digit| {
        value.wrapping_mul(10).wrapping_add((digit - b'0').into())
    });
    let value = if digits.len() < word.len() {
        value.wrapping_neg()
    } else {
        value
    };
    value.to_string().into()
}

fn backward(t: Lent) -> Tables {
    let tables = Tables {
        points: t.points.to_vec(),
        corners: t.corners.to_vec(),
        begins: t.begins.to_vec(),
    };
    let Some(mut mesh) = Mesh::from_tables(&tables) else {
        return tables;
    };
    let count = mesh.points.len() as u16;
    mesh.points.reverse();
    for corner in mesh.facets.iter_mut().flatten().filter(|c| **c < count) {
        *corner = count - 1 - *corner;
    }
    mesh.tables()
}

#[cfg(test)]
mod tests {
    use super::*;
    use crate::plain::Plain;
    use crate::shrink::{shrink, weight};
    use crate::{case_of, confront, Product};
    use independent::generate::Case;

    const RIGHT: Product = Product::INDEPENDENT;

    /// The first case that shows the wrong product, and what it shrinks to.
    fn found_and_shrunk(wrong: &Wrong) -> (Case, Case) {
        let other = Product::of(wrong);
        let found = (0..20_000)
            .map(|i| case_of(5, i))
            .find(|case| confront(RIGHT, other, case).is_err());
        let case = found.unwrap_or_else(|| panic!("{} is not found", wrong.label()));
        let least = shrink(RIGHT, other, &case, 3000);
        assert!(confront(RIGHT, other, &least).is_err());
        (case, least)
    }

    #[test]
    fn every_wrong_product_is_found_and_shrunk() {
        for wrong in Wrong::ALL {
            let (case, least) = found_and_shrunk(wrong);
            assert!(weight(&least) <= weight(&case));
        }
    }

    #[test]
    fn a_look_up_shrinks_with_its_facet() {
        let least_of = |wrong| match found_and_shrunk(&wrong).1 {
            Case::LookUp { tables, facet } => (tables.begins, facet),
            other => panic!("{other:?}"),
        };
        let begins = vec![0, 3, 6, 9, 12];
        assert_eq!(least_of(Wrong::PartOneLate), (begins.clone(), 0));
        assert_eq!(least_of(Wrong::LastFacetRefused), (begins.clone(), 3));
        assert_eq!(least_of(Wrong::FacetIn16Bits), (begins, 1 << 16));
    }

    #[test]
    fn right_products_agree() {
        for i in 0..300 {
            let case = case_of(6, i);
            assert!(confront(RIGHT, RIGHT, &case).is_ok());
            assert!(
                confront(RIGHT, Product::of(&Plain), &case).is_ok(),
                "{case:?}"
            );
        }
    }
}
