//! Counts the steps that the Rust takes: it asks each node for its span, once,
//! as it comes to it, and asks nowhere else.

use std::{
    cell::Cell,
    panic::{AssertUnwindSafe, catch_unwind, resume_unwind},
};

use super::Node;

thread_local! {
    /// How many more steps this thread may take.
    static LEFT: Cell<u64> = const { Cell::new(u64::MAX) };
}

/// What a reading that is stopped unwinds with.
struct Stopped;

/// The Rust comes to a node.
#[inline]
pub(super) fn come_to(node: &Node) {
    if is_record(node) {
        let left = LEFT.get();
        if left == 0 {
            resume_unwind(Box::new(Stopped));
        }
        LEFT.set(left - 1);
    }
}

/// A custom inverse with a normal form is two nodes, itself and the run of its
/// inside, and one record: the run is counted.
fn is_record(node: &Node) -> bool {
    !matches!(node, Node::CustomInverse(custom, _) if !custom.is_obverse && custom.normal.is_ok())
}

/// Do something in which the Rust takes at most so many steps: what it comes
/// to, unless it is stopped as it begins one more, and the steps it took.
pub fn counted<T>(most: u64, action: impl FnOnce() -> T) -> (Option<T>, u64) {
    let before = LEFT.replace(most);
    let done = catch_unwind(AssertUnwindSafe(action));
    let taken = most - LEFT.replace(before);
    match done {
        Ok(done) => (Some(done), taken),
        Err(payload) if payload.is::<Stopped>() => (None, taken),
        Err(payload) => resume_unwind(payload),
    }
}
