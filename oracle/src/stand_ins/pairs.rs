//! Counts the pairs of terms that the Rust multiplies. It goes through a sum's
//! map by reference in its product alone: a loop over the terms of one factor
//! and, within it, a loop over those of the other, so what the second loop is
//! handed is a pair. The product of what two Div terms hold is formed within
//! these two, so its own loops are a third and a fourth.

use std::{
    cell::Cell,
    collections::btree_map::{BTreeMap as Terms, IntoIter, Iter},
    ops::{Deref, DerefMut},
};

use super::{Node, Primitive};

thread_local! {
    /// The pairs of a reading that is counted.
    static PAIRS: Cell<Option<u64>> = const { Cell::new(None) };
    /// Whether the Rust came last to a record whose products are counted.
    static IS_COUNTED: Cell<bool> = const { Cell::new(false) };
    /// How many loops by reference are under way, one within the other.
    static LOOPS: Cell<u32> = const { Cell::new(0) };
}

/// Which loop goes through pairs of outermost terms.
const SECOND: u32 = 2;

/// The Rust comes to a node.
#[inline]
pub(super) fn come_to(node: &Node) {
    let is_counted = matches!(node, Node::Prim(Primitive::Mul | Primitive::Pow, _));
    IS_COUNTED.set(is_counted);
}

/// A pair of outermost terms is tried.
fn tried() {
    if let (Some(pairs), true) = (PAIRS.get(), IS_COUNTED.get()) {
        PAIRS.set(Some(pairs.saturating_add(1)));
    }
}

/// Do something, and count the pairs of outermost terms that the Rust tries in
/// records of Mul and Pow meanwhile, from this number up.
pub fn counted<T>(from: u64, action: impl FnOnce() -> T) -> (T, u64) {
    struct Restore(Option<u64>);
    impl Drop for Restore {
        fn drop(&mut self) {
            PAIRS.set(self.0);
        }
    }
    let _restore = Restore(PAIRS.replace(Some(from)));
    IS_COUNTED.set(false);
    let done = action();
    (done, PAIRS.get().unwrap_or(from))
}

/// The standard map, but for its loops by reference, which count.
#[derive(Clone)]
pub struct BTreeMap<K, V>(Terms<K, V>);

impl<K, V> Default for BTreeMap<K, V> {
    fn default() -> Self {
        BTreeMap(Terms::new())
    }
}

impl<K, V> Deref for BTreeMap<K, V> {
    type Target = Terms<K, V>;
    fn deref(&self) -> &Self::Target {
        &self.0
    }
}

impl<K, V> DerefMut for BTreeMap<K, V> {
    fn deref_mut(&mut self) -> &mut Self::Target {
        &mut self.0
    }
}

impl<K, V> IntoIterator for BTreeMap<K, V> {
    type Item = (K, V);
    type IntoIter = IntoIter<K, V>;
    fn into_iter(self) -> Self::IntoIter {
        self.0.into_iter()
    }
}

impl<'a, K, V> IntoIterator for &'a BTreeMap<K, V> {
    type Item = (&'a K, &'a V);
    type IntoIter = Loop<'a, K, V>;
    fn into_iter(self) -> Self::IntoIter {
        let depth = LOOPS.get() + 1;
        LOOPS.set(depth);
        let terms = self.0.iter();
        Loop { terms, depth }
    }
}

/// A loop by reference over a map.
pub struct Loop<'a, K, V> {
    terms: Iter<'a, K, V>,
    depth: u32,
}

impl<'a, K, V> Iterator for Loop<'a, K, V> {
    type Item = (&'a K, &'a V);
    #[inline]
    fn next(&mut self) -> Option<Self::Item> {
        let term = self.terms.next()?;
        if self.depth == SECOND {
            tried();
        }
        Some(term)
    }
}

impl<K, V> Drop for Loop<'_, K, V> {
    fn drop(&mut self) {
        LOOPS.set(self.depth - 1);
    }
}
