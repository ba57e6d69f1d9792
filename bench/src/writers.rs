//! The second writer beside the first, over the same lists.

use backlog::Group;
use oracle::{
    judge,
    records::{MOST_RECORDS, RECORD},
};

use crate::measure::{Measured, Side, Turns, by_turns};

/// One line of the table of writers.
pub struct WriterLine {
    pub what: String,
    pub lists: usize,
    pub first: Measured,
    pub second: Measured,
}

/// The derivative of the same lists by both writers.
pub fn writers(what: &str, group: &Group, rounds: usize) -> WriterLine {
    let lists: Vec<&[u8]> = group.lists.iter().map(Vec::as_slice).collect();
    let room = || vec![0; MOST_RECORDS * RECORD];
    for list in &lists {
        check(list, &mut room());
    }
    let (mut out, mut other) = (room(), room());
    let mut sides = [
        Side::new("derivative", |list| proved::derivative(list, &mut out)),
        Side::new("derivative_faithful", |list| {
            proved::derivative_faithful(list, &mut other)
        }),
    ];
    let measured = by_turns(Turns::over(&lists, rounds), &lists, &mut sides);
    WriterLine {
        what: what.into(),
        lists: lists.len(),
        first: measured[0],
        second: measured[1],
    }
}

/// What the second writer writes is what the plain second writer of oracle/ does.
fn check(list: &[u8], out: &mut [u8]) {
    let owed = judge::derivative_faithful(list)
        .done()
        .expect("a derivative");
    let told = proved::derivative_faithful(list, out);
    assert_eq!((told.number, &out[..owed.len()]), (0, &owed[..]));
    assert_eq!(told.answer[1] as usize * RECORD, owed.len());
}
