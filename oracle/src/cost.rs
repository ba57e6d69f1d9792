//! What reading a list costs, reckoned from the request's words and apart from
//! the proved `cost`: how often each record runs, from the outermost ones
//! inwards, and all of it added up.

use crate::{
    answer::Refusal,
    records::{self, Fault, Record, kind},
};

/// A record whose inside is being walked.
struct Open {
    end: usize,
    /// How often each record straight inside it runs.
    runs: u128,
}

/// The steps of reading a list that isn't refused on the way, at most 2^64 - 1.
pub fn cost(list: &[u8]) -> Result<u64, Refusal> {
    let records = records::check(list).map_err(Fault::refusal)?;
    Ok(u64::try_from(steps(&records)).unwrap_or(u64::MAX))
}

/// 2,048 records that run 2^64 times at most: 128 bits hold it.
fn steps(records: &[Record]) -> u128 {
    let mut open: Vec<Open> = Vec::new();
    let mut steps = 0;
    for at in 0..records.len() {
        while open.last().is_some_and(|outer| outer.end == at) {
            open.pop();
        }
        let runs = open.last().map_or(1, |outer| outer.runs);
        steps += runs;
        open.push(Open {
            end: end_of(records, at),
            runs: runs * times_inside(records, at),
        });
    }
    steps
}

fn end_of(records: &[Record], at: usize) -> usize {
    at + 1 + records[at].inside as usize
}

/// How often a record that runs once runs what is inside it.
fn times_inside(records: &[Record], at: usize) -> u128 {
    match records[at].kind {
        kind::BODY | kind::RUN | kind::CUSTOM_INVERSE => 1,
        kind::MODIFIER => match (records[at].code, bodies(records, at)) {
            // Dip, Gap, On, By; Both; Bracket; Fork
            (1..=4, 1) => 1,
            (5, 1) => 2,
            (6, 2) => 1,
            (7, _) => 1,
            // refused before a body runs
            _ => 0,
        },
        _ => 0,
    }
}

/// How many bodies a modifier has.
fn bodies(records: &[Record], modifier: usize) -> usize {
    let mut count = 0;
    let mut at = modifier + 1;
    while at < end_of(records, modifier) {
        count += 1;
        at = end_of(records, at);
    }
    count
}
