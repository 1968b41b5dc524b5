//! Runs the same cases through two libraries and their programs and tells where they differ.

pub mod library;
pub mod outcome;
pub mod plain;
pub mod programs;
#[cfg(proved)]
pub mod proved;
pub mod shrink;
pub mod wrong;

use independent::generate::{any_case, Case, Rng};
use library::{Independent, Library};
use outcome::{run, Outcome};
use programs::Programs;

/// A library and the two programs that go with it.
#[derive(Clone, Copy)]
pub struct Product<'a> {
    pub library: &'a dyn Library,
    pub programs: &'a dyn Programs,
}

impl<'a> Product<'a> {
    pub const INDEPENDENT: Product<'static> = Product::of(&Independent);

    pub const fn of<T: Library + Programs>(both: &'a T) -> Self {
        Product {
            library: both,
            programs: both,
        }
    }

    pub fn name(&self) -> &'a str {
        self.library.name()
    }
}

/// The case of this number under this seed; every case has its own stream.
pub fn case_of(seed: u64, number: u64) -> Case {
    let mut mixed = Rng::new(seed);
    let first = mixed.draw();
    any_case(&mut Rng::new(
        first ^ number.wrapping_mul(0xd134_2543_de82_ef95),
    ))
}

/// What both products did with a case, and what is wrong with it.
pub struct Difference {
    pub reason: String,
    pub ours: Outcome,
    pub theirs: Outcome,
}

/// Runs the case on both sides; the outcome of the first where nothing is wrong.
pub fn confront(ours: Product, theirs: Product, case: &Case) -> Result<Outcome, Box<Difference>> {
    let first = run(ours, case);
    let second = run(theirs, case);
    let reason = if let Some(fault) = &first.fault {
        format!("{}: {fault}", ours.name())
    } else if let Some(fault) = &second.fault {
        format!("{}: {fault}", theirs.name())
    } else if first.number != second.number || first.places != second.places {
        "the answers differ".to_string()
    } else if first.lent != second.lent {
        "the lent entries differ".to_string()
    } else if first.printed != second.printed {
        "the printed bytes differ".to_string()
    } else {
        return Ok(first);
    };
    Err(Box::new(Difference {
        reason,
        ours: first,
        theirs: second,
    }))
}
