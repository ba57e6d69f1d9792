//! Holds the plain program against the proved library: number, place, counts,
//! flag and value of every form's answers, and every byte of the room that is
//! lent for them. Lists are derived, read and run, sums have their values.

use std::{fmt, fs, path::Path};

use backlog::{Backlog, POWERS, SIZES, Shape};
use compare::{
    difference::{Difference, Input, whole_hex},
    lists::{BLOCK, Block, seed_of},
    room::Room,
    seen::Seen,
};
use oracle::{
    cost, costly, crowded, functions, generate,
    power_sums::{self, NUMBERS, some_number},
    random::Random,
    records::{MOST_RECORDS, RECORD},
    stored::{self, RUN_AT},
    sums::ENTRY,
};
use proved::Told;

use crate::{
    forms::{self, FromBytes, Lent, Named, ValueAt},
    sides::X,
};

/// Of the random lists, which are the same ones each time.
const SEED: u64 = 24;

/// Lists that cost more steps to read aren't read: nested Both takes forever.
const MOST_STEPS: u64 = 100_000;

#[derive(Default)]
pub struct Held {
    lists: usize,
    random_lists: usize,
    sums: usize,
    answers: usize,
    differences: Vec<String>,
}

impl Held {
    pub fn is_same(&self) -> bool {
        self.differences.is_empty()
    }
}

impl fmt::Display for Held {
    fn fmt(&self, f: &mut fmt::Formatter<'_>) -> fmt::Result {
        for difference in self.differences.iter().take(3) {
            writeln!(f, "{difference}")?;
        }
        write!(
            f,
            "plain program: {} lists, {} of them random, and {} sums, {} answers held against the proved library's, {} differ",
            self.lists,
            self.random_lists,
            self.sums,
            self.answers,
            self.differences.len()
        )
    }
}

/// Every stored list and sum, those near limits, those that are measured, and so
/// many random lists, with random sums among them.
pub fn hold(random_lists: usize) -> Held {
    let near_limits = [
        generate::near_limits(),
        generate::near_limits_of_the_run(),
        costly::near_limits(),
    ]
    .concat();
    let mut holder = Holder::new();
    for input in stored_inputs() {
        match input {
            stored::Input::List(list) => holder.list(&list, &RUN_AT),
            stored::Input::Sum(sum) => holder.sum(&sum),
        }
    }
    for list in near_limits.iter().chain(&crowded::near_limits()) {
        holder.some_run(list);
    }
    for list in measured_lists() {
        holder.list(&list, &[X]);
    }
    let measured_sums = POWERS.map(|powers| backlog::sums_of(powers).sums).concat();
    for sums in [functions::sums(), power_sums::at_limits(), measured_sums] {
        sums.iter().for_each(|sum| holder.sum(sum));
    }
    holder.random(random_lists, &near_limits);
    holder.held
}

fn stored_inputs() -> Vec<stored::Input> {
    let vectors = Path::new(env!("CARGO_MANIFEST_DIR")).join("../vectors");
    let mut inputs = Vec::new();
    for name in [
        "lists.txt",
        "sums.txt",
        "limits.txt",
        "faithful.txt",
        "values.txt",
        "runs.txt",
    ] {
        let text = fs::read_to_string(vectors.join(name)).expect("stored answers");
        inputs.extend(text.lines().filter_map(stored::Input::parse));
    }
    inputs
}

fn measured_lists() -> Vec<Vec<u8>> {
    let grown = Shape::ALL.map(|shape| SIZES.map(|size| backlog::grown(shape, size)));
    let groups = grown.into_iter().flatten();
    let groups = groups.chain([Backlog::new().all, backlog::drag()]);
    groups
        .flat_map(|group| [group.lists, group.derivatives].concat())
        .collect()
}

/// An entry from bytes to bytes.
struct Entry<const N: usize> {
    name: &'static str,
    /// Bytes of a record or of an entry of a sum.
    size: usize,
    library: fn(&[u8], &mut [u8]) -> Told<N>,
    forms: [Named<FromBytes<N>>; 4],
}

const DERIVATIVE: Entry<2> = Entry {
    name: "derivative",
    size: RECORD,
    library: proved::derivative,
    forms: forms::DERIVATIVE,
};

const READ: Entry<3> = Entry {
    name: "read",
    size: ENTRY,
    library: forms::library_read,
    forms: forms::READ,
};

struct Holder {
    held: Held,
    seen: Seen,
    seen_sums: Seen,
    random: Random,
    lent: Lent,
    room: Room,
    plain_room: Room,
}

impl Holder {
    fn new() -> Holder {
        Holder {
            held: Held::default(),
            seen: Seen::default(),
            seen_sums: Seen::default(),
            random: Random::new(SEED),
            lent: Lent::default(),
            room: Room::default(),
            plain_room: Room::default(),
        }
    }

    fn random(&mut self, count: usize, near_limits: &[Vec<u8>]) {
        let mut index = 0;
        while self.held.random_lists < count {
            let mut block = Block::new(seed_of(SEED, index), near_limits);
            for _ in 0..BLOCK.min(count - self.held.random_lists) {
                let before = self.held.lists;
                self.some_run(&block.list());
                self.held.random_lists += self.held.lists - before;
                block.sums().iter().for_each(|sum| self.sum(sum));
            }
            index += 1;
        }
    }

    /// A list, run at one number.
    fn some_run(&mut self, list: &[u8]) {
        let x = *self.random.choose(&RUN_AT);
        self.list(list, &[x]);
    }

    /// A list that wasn't met before, run at some numbers.
    fn list(&mut self, list: &[u8], run_at: &[f64]) {
        if !self.seen.is_new(list) {
            return;
        }
        self.held.lists += 1;
        for &x in run_at {
            self.run(list, x);
        }
        if cost::cost(list).is_ok_and(|steps| steps > MOST_STEPS) {
            return;
        }
        self.bytes(list, &DERIVATIVE);
        self.bytes(list, &READ);
    }

    fn run(&mut self, list: &[u8], x: f64) {
        let owed = proved::run(list, x);
        for (form, run) in forms::RUN {
            let given = run(&mut self.lent, list, x);
            self.held.answers += 1;
            if given != owed {
                let call = format!("run at {x:?}, {form}");
                let (owed, given) = (format!("{owed:?}"), format!("{given:?}"));
                let difference = Difference::new(call, Input::List(list), owed, given);
                self.held.differences.push(difference.to_string());
            }
        }
    }

    /// The values of a sum that wasn't met before, at numbers of every sort.
    fn sum(&mut self, sum: &[u8]) {
        if !self.seen_sums.is_new(sum) {
            return;
        }
        self.held.sums += 1;
        let random = some_number(&mut self.random);
        for x in NUMBERS.into_iter().chain([X, random]) {
            self.value(sum, x, &forms::VALUE);
        }
    }

    fn value(&mut self, sum: &[u8], x: f64, forms: &[Named<ValueAt>]) {
        let owed = proved::value(sum, x);
        for (form, value) in forms {
            let given = value(&mut self.lent, sum, x);
            self.held.answers += 1;
            if given != owed {
                let call = format!("value at {x:?}, {form}");
                let (owed, given) = (format!("{owed:?}"), format!("{given:?}"));
                let difference = Difference::new(call, Input::Sum(sum), owed, given);
                self.held.differences.push(difference.to_string());
            }
        }
    }

    /// An entry from bytes to bytes: in room with some to spare, and in what it
    /// needs or less.
    fn bytes<const N: usize>(&mut self, list: &[u8], entry: &Entry<N>) {
        let all = self.room.lend(MOST_RECORDS * RECORD, 0);
        let needed = (entry.library)(list, all).answer[1] as usize * entry.size;
        self.room.clear(needed);
        let more = self.random.below(2 * entry.size);
        let less = self.random.below(2) * self.random.below(needed + 1);
        self.bytes_in(needed + more, list, entry);
        self.bytes_in(needed - less, list, entry);
    }

    /// The same in room of so many bytes.
    fn bytes_in<const N: usize>(&mut self, length: usize, list: &[u8], entry: &Entry<N>) {
        let odd = self.random.below(8);
        let owed = (entry.library)(list, self.room.lend(length, odd));
        let written = &self.room.lent()[..owed.answer[1] as usize * entry.size];
        for (form, plain) in entry.forms {
            let given = plain(&mut self.lent, list, self.plain_room.lend(length, odd));
            self.held.answers += 1;
            if given != owed || !self.plain_room.holds_just(written) {
                let call = format!("{} into {length} bytes, {form}", entry.name);
                let owed = format!("{owed:?} {}", whole_hex(written, entry.size));
                let lent = self.plain_room.lent();
                let given = format!("{given:?}, room {}", whole_hex(lent, entry.size));
                let difference = Difference::new(call, Input::List(list), owed, given);
                self.held.differences.push(difference.to_string());
            }
            self.plain_room.clear(length);
        }
        self.room.clear(length);
    }
}

#[cfg(test)]
mod tests {
    use oracle::text;

    use super::*;

    fn found(entry: &Entry<2>) -> usize {
        let mut holder = Holder::new();
        holder.bytes(&text::list("3 Pow"), entry);
        holder.bytes(&text::list("Sin Dup Mul"), entry);
        holder.held.differences.len()
    }

    /// The derivative with one form replaced.
    fn with(form: FromBytes<2>) -> Entry<2> {
        let mut forms = forms::DERIVATIVE;
        forms[1].1 = form;
        Entry {
            forms,
            ..DERIVATIVE
        }
    }

    fn found_in_values(value: ValueAt) -> usize {
        let mut holder = Holder::new();
        let sum = functions::powers(&[(1.0, 2.0), (64.0, 3.0)]);
        for sum in [&sum[..], &sum[1..]] {
            for x in NUMBERS {
                holder.value(sum, x, &[("one", value)]);
            }
        }
        holder.held.differences.len()
    }

    #[test]
    fn wrong_values_are_found() {
        let right = forms::VALUE[1].1;
        assert_eq!(found_in_values(right), 0);
        let wrong: [ValueAt; 3] = [
            |lent, sum, x| {
                let mut valued = forms::VALUE[1].1(lent, sum, x);
                valued.value ^= u64::from(x == 0.7);
                valued
            },
            |lent, sum, x| {
                let mut valued = forms::VALUE[1].1(lent, sum, x);
                valued.told.number = valued.told.number.min(14);
                valued
            },
            |lent, sum, x| {
                let mut valued = forms::VALUE[1].1(lent, sum, x);
                valued.told.answer[0] += u64::from(valued.told.number == 11);
                valued
            },
        ];
        for value in wrong {
            assert!(found_in_values(value) > 0);
        }
    }

    #[test]
    fn wrong_forms_are_found() {
        assert_eq!(found(&DERIVATIVE), 0);
        assert!(
            found(&with(|_, _, _| Told {
                number: 7,
                answer: [2, 0]
            })) > 0
        );
        assert!(
            found(&with(|lent, list, out| {
                let told = forms::DERIVATIVE[1].1(lent, list, out);
                Told {
                    answer: [0, told.answer[1]],
                    ..told
                }
            })) > 0
        );
        assert!(
            found(&with(|lent, list, out| {
                let told = forms::DERIVATIVE[1].1(lent, list, out);
                if let Some(last) = out.last_mut() {
                    *last ^= 1;
                }
                told
            })) > 0
        );
    }
}
