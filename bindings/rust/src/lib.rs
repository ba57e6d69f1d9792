#![doc = include_str!("../README.md")]
#![deny(unsafe_code, missing_debug_implementations)]

pub mod bytes;
mod entry;
mod fault;
#[allow(unsafe_code)]
mod ffi;
mod record;
mod refusal;
mod typed;

pub use bytes::{Ran, MOST_STEPS, STEPS_RECOMMENDED};
pub use entry::{
    decode_sum, encode_sum, Entry, Term, ENTRY_BYTES, MOST_ENTRIES, MOST_NESTING, SUM_BYTES,
};
pub use fault::{list_fault, Fault};
pub use record::{
    decode_list, encode_list, modified, Modifier, Primitive, Record, LIST_BYTES, MOST_LEVELS,
    MOST_RECORDS, RECORD_BYTES,
};
pub use refusal::{Refusal, Refused};
pub use typed::{
    cost, derivative, derivative_faithful, derive, integral, integral_faithful, integrate, inverse,
    read, run, value, write, write_faithful, Sum,
};
