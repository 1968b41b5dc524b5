//! The proved library behind its C ABI.

use crate::library::{Lent, Library, Room, Way};

/// Exported functions: slices to read; numbers; slices to write. A slice is a pointer and a length.
macro_rules! exported {
    ($(fn $name:ident(
        $($read:ident: [$r:ty]),*; $($number:ident: $n:ty),*; $($written:ident: [$w:ty]),*
    );)*) => {
        mod abi {
            extern "C" {
                $(pub fn $name(
                    $($read: *const $r, _: usize,)*
                    $($number: $n,)*
                    $($written: *mut $w, _: usize,)*
                ) -> u16;)*
            }
        }

        $(#[allow(clippy::too_many_arguments)]
        fn $name($($read: &[$r],)* $($number: $n,)* $($written: &mut [$w],)*) -> u16 {
            // SAFETY: each pointer and length come from one live slice, and none is kept.
            unsafe {
                abi::$name(
                    $($read.as_ptr(), $read.len(),)*
                    $($number,)*
                    $($written.as_mut_ptr(), $written.len(),)*
                )
            }
        })*
    };
}

exported! {
    fn solid_judge(points: [i32], corners: [u16], begins: [u16]; ; out: [i64]);
    fn solid_walk(
        points: [i32], corners: [u16], begins: [u16];
        start: u32, dx: i32, dy: i32, dz: i32;
        trail: [u16], out: [i64]
    );
    fn solid_outline(points: [i32]; ; out: [i64]);
    fn solid_read_tape(tape: [u8]; ; points: [i32], corners: [u16], begins: [u16], out: [i64]);
    fn solid_write_tape(points: [i32], corners: [u16], begins: [u16]; ; buffer: [u8], out: [i64]);
    fn solid_facet(points: [i32], corners: [u16], begins: [u16]; facet: u32; out: [i64]);
}

pub struct Proved;

impl Library for Proved {
    fn name(&self) -> &str {
        "proved"
    }

    fn judge(&self, t: Lent, out: &mut [i64]) -> u16 {
        solid_judge(t.points, t.corners, t.begins, out)
    }

    fn walk(&self, t: Lent, way: Way, trail: &mut [u16], out: &mut [i64]) -> u16 {
        let [dx, dy, dz] = way.direction;
        solid_walk(
            t.points, t.corners, t.begins, way.start, dx, dy, dz, trail, out,
        )
    }

    fn outline(&self, points: &[i32], out: &mut [i64]) -> u16 {
        solid_outline(points, out)
    }

    fn read_tape(&self, tape: &[u8], room: &mut Room, out: &mut [i64]) -> u16 {
        solid_read_tape(tape, room.points, room.corners, room.begins, out)
    }

    fn write_tape(&self, t: Lent, buffer: &mut [u8], out: &mut [i64]) -> u16 {
        solid_write_tape(t.points, t.corners, t.begins, buffer, out)
    }

    fn look_up(&self, t: Lent, facet: u32, out: &mut [i64]) -> u16 {
        solid_facet(t.points, t.corners, t.begins, facet, out)
    }
}
