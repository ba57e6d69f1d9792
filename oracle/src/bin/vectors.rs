//! Writes the stored answers in `vectors/` anew: inputs are gone through in a
//! fixed order, and one is kept if it reaches an arm that none before it did.

use std::{collections::BTreeSet, fs, io, path::Path};

use oracle::{
    algebra::{arms, random_sums::random_sum},
    features::Features,
    functions, generate, judge, multiplied, power_sums,
    random::Random,
    records::RECORD,
    stored::{Decider, Input},
    sums::ENTRY,
    text, value,
};

/// The lists of the paper.
const LISTS_TO_TRY: [&str; 14] = [
    "",
    "Dup Mul",
    "3 Pow",
    "Dup 3 Pow Add",
    "0 Pow",
    "5 Add",
    "2 Mul 5 Add",
    "Dup Sub Neg",
    "Reciprocal",
    "Pop",
    "Dup",
    "Flip",
    "2 Mul Sin",
    "1 Add 28 Pow",
];

/// Lists whose derivative or integral has a function behind another term.
const FAITHFUL_TO_TRY: [&str; 4] = [
    "Dup Dup Mul Flip Sin Add",
    "Dup Sin Add",
    "Cos Not",
    "Dup Dup Sub Sin Add",
];

const LONG_SUM: usize = 6 * ENTRY;

struct Selection {
    arms_of: fn(&Input) -> BTreeSet<String>,
    reached: BTreeSet<String>,
    inputs: Vec<Input>,
}

/// What the Rust's own entries reach.
fn arms_of(input: &Input) -> BTreeSet<String> {
    let mut features = Features::on();
    match input {
        Input::List(list) => arms::note_list(list, &mut features),
        Input::Sum(sum) => arms::note_sum(sum, &mut features),
    }
    features.into_names()
}

/// What the entries with the second writer reach.
fn faithful_arms_of(input: &Input) -> BTreeSet<String> {
    let mut features = Features::on();
    match input {
        Input::List(list) => arms::note_faithful_list(list, &mut features),
        Input::Sum(sum) => arms::note_faithful_sum(sum, &mut features),
    }
    features.into_names()
}

/// What the values of a sum meet.
fn value_arms_of(input: &Input) -> BTreeSet<String> {
    let mut features = Features::on();
    if let Input::Sum(sum) = input {
        value::note(sum, &mut features);
    }
    features.into_names()
}

impl Selection {
    fn new(arms_of: fn(&Input) -> BTreeSet<String>) -> Self {
        Selection {
            arms_of,
            reached: BTreeSet::new(),
            inputs: Vec::new(),
        }
    }

    fn keep(&mut self, input: Input) {
        self.reached.extend((self.arms_of)(&input));
        self.inputs.push(input);
    }

    /// Keep an input if it isn't there yet.
    fn keep_once(&mut self, input: Input) {
        if !self.inputs.contains(&input) {
            self.keep(input);
        }
    }

    /// Keep an input if it reaches something new.
    fn consider(&mut self, input: Input) {
        if !(self.arms_of)(&input).is_subset(&self.reached) {
            self.keep(input);
        }
    }

    /// Short inputs are met first, so that the files stay small.
    fn consider_shortest_first(&mut self, mut inputs: Vec<Vec<u8>>, make: fn(Vec<u8>) -> Input) {
        inputs.sort_by_key(Vec::len);
        inputs
            .into_iter()
            .for_each(|input| self.consider(make(input)));
    }
}

fn select_lists() -> Selection {
    let mut selection = Selection::new(arms_of);
    let to_try = LISTS_TO_TRY.map(text::list).into_iter();
    for list in to_try.chain(generate::at_odds()) {
        selection.keep(Input::List(list));
    }
    for list in generate::exhaustive(2) {
        selection.consider(Input::List(list));
    }
    for list in generate::near_limits() {
        selection.consider(Input::List(list));
    }
    for list in generate::exhaustive(3) {
        selection.consider(Input::List(list));
    }
    selection.consider_shortest_first(random_lists(), Input::List);
    for list in generate::at_limits() {
        selection.keep_once(Input::List(list));
    }
    selection
}

fn random_lists() -> Vec<Vec<u8>> {
    let mut random = Random::new(20);
    let mut lists = Vec::new();
    let mut other = Vec::new();
    for round in 0..5_000 {
        let size = 3 + round % 16;
        let good = generate::good_list(&mut random, size);
        let damaged = generate::damaged(&mut random, &good, &other, RECORD);
        other = good.clone();
        lists.extend([good, generate::random_list(&mut random, size), damaged]);
    }
    // A list that isn't whole records can't be spelt in the file.
    lists.retain(|list| list.len().is_multiple_of(RECORD));
    lists
}

fn select_sums() -> Selection {
    let mut random = Random::new(21);
    let mut sums: Vec<Vec<u8>> = (0..30_000).map(|_| random_sum(&mut random)).collect();
    // Long sums reach little that short ones don't: some of them are enough.
    sums.retain(|sum| sum.len() <= LONG_SUM || random.once_in(100));
    let damaged: Vec<Vec<u8>> = sums
        .windows(2)
        .map(|two| generate::damaged(&mut random, &two[0], &two[1], ENTRY))
        .filter(|sum| sum.len().is_multiple_of(ENTRY))
        .collect();
    sums.extend(damaged);
    let read = |list: Vec<u8>| judge::read(&list).done().map(|read| read.entries);
    sums.extend(generate::near_limits().into_iter().filter_map(read));
    let mut selection = Selection::new(arms_of);
    selection.consider_shortest_first(sums, Input::Sum);
    selection
}

/// Of the inputs that are stored, and of sums with functions of every argument.
fn select_faithful(lists: &Selection, sums: &Selection) -> Selection {
    let mut selection = Selection::new(faithful_arms_of);
    for words in LISTS_TO_TRY.iter().chain(&FAITHFUL_TO_TRY) {
        selection.keep(Input::List(text::list(words)));
    }
    for input in lists.inputs.iter().chain(&sums.inputs) {
        selection.consider(input.clone());
    }
    selection.consider_shortest_first(functions::sums(), Input::Sum);
    for sum in functions::at_limits() {
        selection.keep_once(Input::Sum(sum));
    }
    selection
}

/// Of sums at limits, of the sums that are stored, and of random powers of x.
fn select_values(sums: &Selection) -> Selection {
    let mut selection = Selection::new(value_arms_of);
    for sum in power_sums::at_limits() {
        selection.keep_once(Input::Sum(sum));
    }
    for input in &sums.inputs {
        selection.consider(input.clone());
    }
    let mut random = Random::new(23);
    let random_sums = (0..5_000).map(|_| power_sums::random_power_sum(&mut random));
    selection.consider_shortest_first(random_sums.collect(), Input::Sum);
    selection
}

/// The text of all items of one decider, and how many there are.
fn items<'a>(inputs: impl IntoIterator<Item = &'a Input>, decider: Decider) -> (String, usize) {
    let items: Vec<String> = inputs
        .into_iter()
        .filter_map(|input| input.item(decider))
        .collect();
    (items.concat(), items.len())
}

fn faithful_items(inputs: &[Input]) -> (String, usize) {
    let items: Vec<String> = inputs.iter().map(Input::faithful_item).collect();
    (items.concat(), items.len())
}

fn value_items(inputs: &[Input]) -> (String, usize) {
    let items: Vec<String> = inputs.iter().filter_map(Input::value_item).collect();
    (items.concat(), items.len())
}

fn main() -> io::Result<()> {
    let folder = Path::new(env!("CARGO_MANIFEST_DIR")).join("../vectors");
    let (mut lists, sums) = (select_lists(), select_sums());
    let faithful = select_faithful(&lists, &sums);
    for list in multiplied::stored() {
        lists.keep_once(Input::List(list));
    }
    let values = select_values(&sums);
    let both = || lists.inputs.iter().chain(&sums.inputs);
    for (name, (text, count)) in [
        ("lists.txt", items(&lists.inputs, Decider::Rust)),
        ("sums.txt", items(&sums.inputs, Decider::Rust)),
        ("limits.txt", items(both(), Decider::Paper)),
        ("faithful.txt", faithful_items(&faithful.inputs)),
        ("values.txt", value_items(&values.inputs)),
    ] {
        println!("{name}: {count} items, {} bytes", text.len());
        fs::write(folder.join(name), text)?;
    }
    let rust: BTreeSet<&String> = lists.reached.union(&sums.reached).collect();
    println!("{} arms reached", rust.len());
    println!(
        "{} arms reached by the second writer",
        faithful.reached.len()
    );
    println!("{} names met by values", values.reached.len());
    if std::env::args().any(|argument| argument == "--arms") {
        let others = faithful.reached.iter().chain(&values.reached);
        let all = rust.into_iter().chain(others);
        all.for_each(|name| println!("{name}"));
    }
    Ok(())
}
