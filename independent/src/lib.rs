//! A literal judge of convex solids, written from the rule sheet alone.

pub mod generate;
pub mod number;

mod judge;
mod look_up;
mod outline;
mod programs;
mod tape;
mod walk;

#[cfg(test)]
mod sheet_table;

pub use judge::judge;
pub use look_up::look_up;
pub use outline::outline;
pub use programs::{judging_line, walking_line, LONGEST_INPUT, LONGEST_WORDS};
pub use tape::{read_tape, write_tape, BEGIN_ROOM, CORNER_ROOM, POINT_ROOM};
pub use walk::walk;
