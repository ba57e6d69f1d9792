//! Which lists or sums were met already, by a hash of their bytes. Two that
//! differ share a hash of 64 bits about once in a million runs of ten million.

use std::{
    collections::HashSet,
    hash::{BuildHasherDefault, DefaultHasher, Hasher},
    sync::Mutex,
};

const SHARDS: usize = 64;

/// Takes a hash as its own hash.
#[derive(Default)]
pub struct Same(u64);

impl Hasher for Same {
    fn finish(&self) -> u64 {
        self.0
    }
    fn write(&mut self, _bytes: &[u8]) {
        unreachable!("only whole hashes are put in")
    }
    fn write_u64(&mut self, hash: u64) {
        self.0 = hash;
    }
}

type Hashes = HashSet<u64, BuildHasherDefault<Same>>;

pub struct Seen(Vec<Mutex<Hashes>>);

impl Default for Seen {
    fn default() -> Self {
        Seen((0..SHARDS).map(|_| Mutex::default()).collect())
    }
}

impl Seen {
    /// Whether these bytes are met for the first time.
    pub fn is_new(&self, bytes: &[u8]) -> bool {
        let mut hasher = DefaultHasher::new();
        hasher.write(bytes);
        let hash = hasher.finish();
        let shard = &self.0[hash as usize % SHARDS];
        shard.lock().expect("no thread panics here").insert(hash)
    }
}
