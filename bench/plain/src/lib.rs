//! Derivative, read and run of a list of records, from bytes to bytes, as
//! document 01 has them, and the value of a sum: plain Rust over fixed arrays,
//! without unsafe code, without dependencies and without an allocation in a call. It is what bench/
//! measures the proved library against and nothing else: what it answers is
//! held against the proved library's answers.
//!
//! Every entry has two forms. One has its room on its own stack and clears it
//! at each call; the other is lent its room, which nobody clears. And reading
//! goes two ways: with short cuts for sums of one power of x, and without.
#![forbid(unsafe_code)]

mod arithmetic;
mod derive;
mod read;
mod records;
mod run;
mod sum;
mod value;
mod write;

#[cfg(test)]
mod tests;

pub use records::Refusal;
pub use run::{Run, RunRoom, run, run_in};
pub use value::{ValueRoom, value, value_in};

use records::Ends;
use sum::Term;

/// The most entries of a sum, insides counted.
const SUM_ENTRIES: usize = 64;
/// The most entries on the stack and held.
const STACK_ENTRIES: usize = 1024;
/// In front of the stack are two places in which sums are formed.
const WORKING: usize = 2 * SUM_ENTRIES;
/// Where stack and held sums end. A sum that is added to in place may grow
/// past it before it is refused.
const STACK_END: usize = WORKING + STACK_ENTRIES;
const PLACES: usize = STACK_END + SUM_ENTRIES;

/// The room of reading and deriving.
pub struct Room {
    terms: [Term; PLACES],
    /// How many terms a sum has, where its last term lies.
    sizes: [u8; PLACES],
    ends: Ends,
}

impl Room {
    const CLEARED: Room = Room {
        terms: [Term::ZERO; PLACES],
        sizes: [0; PLACES],
        ends: records::NO_ENDS,
    };

    #[must_use]
    pub fn new() -> Room {
        Room::CLEARED
    }
}

impl Default for Room {
    fn default() -> Room {
        Room::new()
    }
}

/// A refusal and the record that it is told of.
#[derive(Debug, Clone, Copy, PartialEq, Eq)]
pub struct Refused {
    pub number: Refusal,
    pub place: usize,
}

impl Refused {
    fn at(place: usize) -> impl Fn(Refusal) -> Refused {
        move |number| Refused { number, place }
    }
}

fn derive_list<const SHORT: bool>(
    room: &mut Room,
    list: &[u8],
    out: &mut [u8],
) -> Result<usize, Refused> {
    let (sum, complex) = read::read::<SHORT>(room, list)?;
    let n = derive::derivative(&mut room.terms, sum, 0).map_err(Refused::at(0))?;
    write::write(&room.terms[..n], complex, out).map_err(Refused::at(0))
}

fn read_list<const SHORT: bool>(
    room: &mut Room,
    list: &[u8],
    out: &mut [u8],
) -> Result<(usize, bool), Refused> {
    let (sum, complex) = read::read::<SHORT>(room, list)?;
    sum::put_out(sum.of(&room.terms), out).map_err(Refused::at(0))?;
    Ok((sum.len, complex))
}

macro_rules! entries {
    ($short:literal) => {
        use crate::{Refused, Room};

        /// The list of the derivative of a list, written to `out`: how many records.
        pub fn derivative(list: &[u8], out: &mut [u8]) -> Result<usize, Refused> {
            let mut room = Room::CLEARED;
            derivative_in(&mut room, list, out)
        }

        /// The same with lent room.
        pub fn derivative_in(
            room: &mut Room,
            list: &[u8],
            out: &mut [u8],
        ) -> Result<usize, Refused> {
            crate::derive_list::<$short>(room, list, out)
        }

        /// The sum of a list, written to `out`: how many entries, and the complex flag.
        pub fn read(list: &[u8], out: &mut [u8]) -> Result<(usize, bool), Refused> {
            let mut room = Room::CLEARED;
            read_in(&mut room, list, out)
        }

        /// The same with lent room.
        pub fn read_in(
            room: &mut Room,
            list: &[u8],
            out: &mut [u8],
        ) -> Result<(usize, bool), Refused> {
            crate::read_list::<$short>(room, list, out)
        }
    };
}

/// With short cuts: one power of x times another, and one to a whole number.
pub mod short {
    entries!(true);
}

/// Without: these go the way of all sums.
pub mod general {
    entries!(false);
}
