//! Seeded generators of solids, outlines, tapes and words, sound and damaged.

pub mod damage;
pub mod outlines;
pub mod polygon;
pub mod solids;
pub mod tapes;
pub mod words;

mod case;
mod hull;
mod mesh;
mod rng;

pub use case::{any_case, pattern, walk_input, writer_room, Case, Input};
pub use hull::{ball as ball_of, hull as hull_of};
pub use mesh::{Mesh, Tables};
pub use rng::Rng;
