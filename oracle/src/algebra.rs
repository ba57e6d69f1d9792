//! The Rust under judgement, from where it lies. Its items are private to this
//! module, so what looks into them lies in modules below it.

/// What the Rust takes from `std`, all as it is but the map, whose loops count.
mod std {
    pub use ::std::{array, cmp, f64, fmt, mem, ops};
    pub mod collections {
        pub use crate::stand_ins::pairs::BTreeMap;
    }
}

include!("../../docs/src/src/compile/algebra.rs");

pub mod arms;
mod faithful;
mod forming;
mod guard;
pub mod judge;
pub mod random_sums;
mod shapes;
pub mod sums;
pub mod values;

pub use forming::with_one_number;
pub use guard::{MOST_STACKED, MOST_STEPS};
