//! The lists that are measured: ten thousand such as a collector derives after
//! a night in range, and lists of growing size. They are the same ones each
//! time, on every computer, and each has a derivative that isn't refused. So
//! are the sums whose values are measured.

mod formulas;

use oracle::{judge, random::Random, text};

/// What a list of the set looks like.
#[derive(Debug, Clone, Copy, PartialEq, Eq)]
pub enum Kind {
    /// Sums of 1 to 12 whole powers, as `write` writes them.
    Written,
    /// Such sums term by term.
    Terms,
    Horner,
    /// Such as (x - a)(x - b)².
    Products,
    Roots,
    Functions,
}

impl Kind {
    pub const ALL: [Kind; 6] = [
        Kind::Written,
        Kind::Terms,
        Kind::Horner,
        Kind::Products,
        Kind::Roots,
        Kind::Functions,
    ];

    pub fn name(self) -> &'static str {
        match self {
            Kind::Written => "sums as written",
            Kind::Terms => "sums term by term",
            Kind::Horner => "Horner forms",
            Kind::Products => "products",
            Kind::Roots => "with Sqrt",
            Kind::Functions => "with functions",
        }
    }

    /// How many lists of the set are of this kind.
    pub fn count(self) -> usize {
        match self {
            Kind::Written | Kind::Terms => 3000,
            Kind::Horner => 1000,
            Kind::Products => 1500,
            Kind::Roots | Kind::Functions => 750,
        }
    }

    fn list(self, random: &mut Random) -> Vec<u8> {
        match self {
            Kind::Written => formulas::written(&formulas::fit(random)),
            Kind::Terms => text::list(&formulas::term_by_term(&formulas::fit(random))),
            Kind::Horner => text::list(&formulas::horner(&formulas::polynomial(random))),
            Kind::Products => text::list(&formulas::product(random)),
            Kind::Roots => text::list(&formulas::with_roots(random)),
            Kind::Functions => text::list(&formulas::with_functions(random)),
        }
    }
}

/// Some lists, with what the judge writes as their derivatives.
#[derive(Debug, Clone, Default, PartialEq, Eq)]
pub struct Group {
    pub lists: Vec<Vec<u8>>,
    pub derivatives: Vec<Vec<u8>>,
}

impl Group {
    fn of(lists: impl Iterator<Item = Vec<u8>>) -> Group {
        let mut group = Group::default();
        for list in lists {
            let derivative = judge::derivative(&list).done();
            group.derivatives.push(derivative.expect("a derivative"));
            group.lists.push(list);
        }
        group
    }

    /// The lists of some groups in random order.
    fn mixed(groups: &[Group], random: &mut Random) -> Group {
        let mut all: Vec<_> = groups
            .iter()
            .flat_map(|group| group.lists.iter().cloned().zip(group.derivatives.clone()))
            .collect();
        for at in (1..all.len()).rev() {
            all.swap(at, random.below(at + 1));
        }
        let (lists, derivatives) = all.into_iter().unzip();
        Group { lists, derivatives }
    }

    /// Tells these lists from others.
    pub fn fingerprint(&self) -> u64 {
        let mut mark = 0xcbf2_9ce4_8422_2325;
        for list in &self.lists {
            let length = (list.len() as u64).to_le_bytes();
            for byte in length.iter().chain(list) {
                mark = (mark ^ u64::from(*byte)).wrapping_mul(0x0100_0000_01b3);
            }
        }
        mark
    }
}

/// That of the set: whoever changes a list changes it.
pub const FINGERPRINT: u64 = 0x885b_b973_7f72_b9db;

/// The set.
pub struct Backlog {
    /// All lists, with kinds mixed.
    pub all: Group,
    /// The lists of each kind, in the order of [`Kind::ALL`].
    pub kinds: [Group; 6],
}

impl Backlog {
    #[must_use]
    pub fn new() -> Backlog {
        let kinds = Kind::ALL.map(|kind| {
            let mut random = Random::new(kind as u64);
            Group::of((0..kind.count()).map(|_| kind.list(&mut random)))
        });
        let mut random = Random::new(kinds.len() as u64);
        Backlog {
            all: Group::mixed(&kinds, &mut random),
            kinds,
        }
    }
}

impl Default for Backlog {
    fn default() -> Backlog {
        Backlog::new()
    }
}

/// How a list of growing size is put together.
#[derive(Debug, Clone, Copy, PartialEq, Eq)]
pub enum Shape {
    Terms,
    Horner,
}

impl Shape {
    pub const ALL: [Shape; 2] = [Shape::Terms, Shape::Horner];

    pub fn name(self) -> &'static str {
        match self {
            Shape::Terms => "term by term",
            Shape::Horner => "Horner",
        }
    }
}

/// How many terms lists of growing size have.
pub const SIZES: [usize; 7] = [1, 2, 4, 8, 16, 32, 63];

/// How many lists there are of each size.
const OF_A_SIZE: usize = 50;

/// Lists of the powers from 1 up to `terms`.
pub fn grown(shape: Shape, terms: usize) -> Group {
    let mut random = Random::new(terms as u64);
    let words = |sum: Vec<formulas::Power>| match shape {
        Shape::Terms => formulas::term_by_term(&sum),
        Shape::Horner => formulas::horner(&sum),
    };
    Group::of((0..OF_A_SIZE).map(|_| {
        let sum = formulas::dense(&mut random, 1, terms);
        text::list(&words(sum))
    }))
}

/// How many powers the sums have whose values are measured.
pub const POWERS: [usize; 9] = [1, 2, 3, 4, 5, 6, 7, 8, 64];

/// Sums of whole powers, and the list that is written of each.
#[derive(Debug, Clone, Default, PartialEq, Eq)]
pub struct Sums {
    pub sums: Vec<Vec<u8>>,
    pub lists: Vec<Vec<u8>>,
}

/// Sums of so many powers, with coefficients as a fit has them.
pub fn sums_of(powers: usize) -> Sums {
    let mut random = Random::new(powers as u64);
    let formulas: Vec<_> = (0..OF_A_SIZE)
        .map(|_| formulas::fit_of(&mut random, powers))
        .collect();
    Sums {
        sums: formulas.iter().map(|sum| formulas::entries(sum)).collect(),
        lists: formulas.iter().map(|sum| formulas::written(sum)).collect(),
    }
}

const DRAG_FORMULAS: usize = 1000;

/// Sums with x to the power 1.5 beside them, as a dive against drag has it.
pub fn drag() -> Group {
    let mut random = Random::new(0);
    Group::of((0..DRAG_FORMULAS).map(|_| text::list(&formulas::with_drag(&mut random))))
}

#[cfg(test)]
mod tests {
    use oracle::{records::RECORD, sums::ENTRY};

    use super::*;

    #[test]
    fn the_set_is_the_one_that_was_measured() {
        let set = Backlog::new();
        assert_eq!(set.all.lists.len(), 10_000);
        assert_eq!(set.all.fingerprint(), FINGERPRINT);
    }

    #[test]
    fn all_has_the_lists_of_every_kind() {
        let set = Backlog::new();
        let mut kinds = set.kinds.map(|group| group.lists).concat();
        let mut all = set.all.lists;
        assert_ne!(all, kinds);
        kinds.sort();
        all.sort();
        assert_eq!(all, kinds);
    }

    #[test]
    fn lists_grow_with_their_terms() {
        for shape in Shape::ALL {
            let mut last = 0;
            for size in SIZES {
                let records = grown(shape, size).lists[0].len() / RECORD;
                assert!(records > last, "{shape:?} {size}");
                last = records;
            }
        }
    }

    #[test]
    fn sums_have_so_many_powers() {
        for powers in POWERS {
            let Sums { sums, lists } = sums_of(powers);
            assert_eq!((sums.len(), lists.len()), (OF_A_SIZE, OF_A_SIZE));
            for (sum, list) in sums.iter().zip(&lists) {
                assert_eq!(sum.len(), powers * ENTRY);
                assert_eq!(judge::write(sum, false).done().as_ref(), Some(list));
            }
        }
    }

    #[test]
    fn a_fingerprint_sees_where_a_list_ends() {
        let group = |lists: &[&[u8]]| Group {
            lists: lists.iter().map(|list| list.to_vec()).collect(),
            derivatives: Vec::new(),
        };
        let groups = [&[&[1, 2][..], &[3]][..], &[&[1], &[2, 3]], &[&[1, 2, 3]]];
        let [a, b, c] = groups.map(|lists| group(lists).fingerprint());
        assert!(a != b && b != c && a != c);
    }
}
