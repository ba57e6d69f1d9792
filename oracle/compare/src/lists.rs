//! Blocks of random lists and sums: the same ones for the same seed, however
//! many threads there are.

use oracle::{
    algebra::random_sums::random_sum, generate, judge, multiplied, power_sums::random_power_sum,
    random::Random, records::RECORD, sums::ENTRY,
};

/// How many lists a block has.
pub const BLOCK: usize = 256;

/// The seed of a block, or of a list in a stretch of lists.
pub fn seed_of(seed: u64, index: u64) -> u64 {
    Random::new(seed ^ index.wrapping_mul(0xd134_2543_de82_ef95)).bits()
}

/// The lists of one block, one after the other.
pub struct Block<'a> {
    random: Random,
    near_limits: &'a [Vec<u8>],
    last: Vec<u8>,
    last_sum: Vec<u8>,
}

impl<'a> Block<'a> {
    pub fn new(seed: u64, near_limits: &'a [Vec<u8>]) -> Self {
        Block {
            random: Random::new(seed),
            near_limits,
            last: Vec::new(),
            last_sum: Vec::new(),
        }
    }

    /// The seed for what else goes with the next list.
    pub fn seed(&mut self) -> u64 {
        self.random.bits()
    }

    /// Random ones, of which many are refused; ones that mostly read to a sum;
    /// ones for the runner; products; damaged copies; what was written, with more
    /// after it; damaged ones near the limits.
    pub fn list(&mut self) -> Vec<u8> {
        let size = 2 + self.random.below(40);
        let list = match self.random.below(400) {
            0 => self.near_a_limit(),
            1 => self.random_bytes(),
            2..=29 => self.after_what_was_written(),
            30..=59 => generate::list_to_run(&mut self.random, size),
            60..=129 => self.damaged(size),
            130..=239 => generate::good_list(&mut self.random, size),
            240..=249 => multiplied::random_list(&mut self.random, 1 + size % 8),
            _ => generate::random_list(&mut self.random, size),
        };
        self.last.clone_from(&list);
        list
    }

    fn near_a_limit(&mut self) -> Vec<u8> {
        let list = self.random.choose(self.near_limits);
        generate::damaged(&mut self.random, list, &self.last, RECORD)
    }

    fn random_bytes(&mut self) -> Vec<u8> {
        let length = self.random.below(4 * RECORD);
        (0..length).map(|_| self.random.bits() as u8).collect()
    }

    /// The derivative of the last list, and up to some records after it.
    fn after_what_was_written(&mut self) -> Vec<u8> {
        let mut list = judge::derivative(&self.last).done().unwrap_or_default();
        let size = self.random.below(6);
        if size > 0 {
            list.extend(generate::random_list(&mut self.random, size));
        }
        list
    }

    fn damaged(&mut self, size: usize) -> Vec<u8> {
        let list = generate::random_list(&mut self.random, size);
        generate::damaged(&mut self.random, &list, &self.last, RECORD)
    }

    /// A random sum and a damaged one, at times; so of powers of x.
    pub fn sums(&mut self) -> Vec<Vec<u8>> {
        let sum = match self.random.below(8) {
            0 | 1 => random_sum(&mut self.random),
            2 | 3 => random_power_sum(&mut self.random),
            _ => return Vec::new(),
        };
        let damaged = generate::damaged(&mut self.random, &sum, &self.last_sum, ENTRY);
        self.last_sum.clone_from(&sum);
        vec![sum, damaged]
    }
}
