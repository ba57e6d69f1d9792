//! How many answers of each entry were compared, by number.

/// The entries, in the order of the report.
#[derive(Debug, Clone, Copy, PartialEq, Eq)]
pub enum Entry {
    Read,
    Derivative,
    Integral,
    Inverse,
    Derive,
    Integrate,
    Write,
    DerivativeFaithful,
    IntegralFaithful,
    WriteFaithful,
    Run,
    Value,
    Cost,
}

pub const ENTRIES: [Entry; 13] = [
    Entry::Read,
    Entry::Derivative,
    Entry::Integral,
    Entry::Inverse,
    Entry::Derive,
    Entry::Integrate,
    Entry::Write,
    Entry::DerivativeFaithful,
    Entry::IntegralFaithful,
    Entry::WriteFaithful,
    Entry::Run,
    Entry::Value,
    Entry::Cost,
];

impl Entry {
    pub fn name(self) -> &'static str {
        match self {
            Entry::Read => "read",
            Entry::Derivative => "derivative",
            Entry::Integral => "integral",
            Entry::Inverse => "inverse",
            Entry::Derive => "derive",
            Entry::Integrate => "integrate",
            Entry::Write => "write",
            Entry::DerivativeFaithful => "derivative_faithful",
            Entry::IntegralFaithful => "integral_faithful",
            Entry::WriteFaithful => "write_faithful",
            Entry::Run => "run",
            Entry::Value => "value",
            Entry::Cost => "cost",
        }
    }
}

/// Where lists come from.
#[derive(Debug, Clone, Copy, PartialEq, Eq)]
pub enum Origin {
    Short,
    Modifiers,
    Crowded,
    Limits,
    Random,
}

pub const ORIGINS: [Origin; 5] = [
    Origin::Short,
    Origin::Modifiers,
    Origin::Crowded,
    Origin::Limits,
    Origin::Random,
];

/// Numbers that come back: 0 and eighteen refusals.
pub const NUMBERS: usize = 19;

/// Answers that a comparison of random lists has to meet: the refusals of a
/// power and of another number that isn't finite; every number of the cost, of
/// the value and of the entries with the second writer.
const TO_BE_MET: [(Entry, &[usize]); 7] = [
    (Entry::Read, &[15, 18]),
    (Entry::Derive, &[15, 18]),
    (Entry::Cost, &[0, 11, 13]),
    (Entry::Value, &[0, 11, 13, 14, 15]),
    (Entry::WriteFaithful, &[0, 11, 13, 15, 17]),
    (Entry::DerivativeFaithful, &FROM_LIST_TO_LIST),
    (Entry::IntegralFaithful, &FROM_LIST_TO_LIST),
];

/// All numbers but 10, which is the inverse's.
const FROM_LIST_TO_LIST: [usize; 18] =
    [0, 1, 2, 3, 4, 5, 6, 7, 8, 9, 11, 12, 13, 14, 15, 16, 17, 18];

/// What was compared for one entry, and what couldn't be.
#[derive(Debug, Clone, Copy, Default, PartialEq, Eq)]
pub struct Row {
    pub numbers: [u64; NUMBERS],
    /// The Rust panics.
    pub panics: u64,
    /// The list costs over 100,000 steps.
    pub too_long: u64,
}

impl Row {
    pub fn compared(&self) -> u64 {
        self.numbers.iter().sum()
    }
    fn add(&mut self, other: &Row) {
        for (number, more) in self.numbers.iter_mut().zip(other.numbers) {
            *number += more;
        }
        self.panics += other.panics;
        self.too_long += other.too_long;
    }
}

/// Values that were held against the run of the list that `write` gives with
/// the flag false, by how that ends.
#[derive(Debug, Clone, Copy, Default, PartialEq, Eq)]
pub struct AgainstLists {
    pub done: u64,
    /// 15 of `write`.
    pub not_written: u64,
    /// 15 of `run`, at a number that is finite.
    pub not_run: u64,
    /// 11 and 13, and numbers that aren't finite.
    pub other: u64,
}

impl AgainstLists {
    pub fn all(&self) -> u64 {
        self.done + self.not_written + self.not_run + self.other
    }
    fn add(&mut self, other: &AgainstLists) {
        self.done += other.done;
        self.not_written += other.not_written;
        self.not_run += other.not_run;
        self.other += other.other;
    }
    fn missing(&self) -> impl Iterator<Item = String> {
        let met = [
            (self.done, "value never is that of a list's run"),
            (self.not_written, "value never is 15 where write is"),
            (self.not_run, "value never is 15 where the run is"),
        ];
        let missing = met.into_iter().filter(|(count, _)| *count == 0);
        missing.map(|(_, name)| name.into())
    }
}

/// Sums that were read with the pairs that it takes to multiply them.
#[derive(Debug, Clone, Copy, Default, PartialEq, Eq)]
pub struct Pairs {
    /// Sums with any pairs.
    pub told: u64,
    /// The most pairs of one of them.
    pub most: u64,
}

/// More than any product has that isn't a power of terms which fall together.
const MANY_PAIRS: u64 = 90_000;

impl Pairs {
    pub fn count(&mut self, pairs: u64) {
        self.told += u64::from(pairs > 0);
        self.most = self.most.max(pairs);
    }
    fn add(&mut self, other: &Pairs) {
        self.told += other.told;
        self.most = self.most.max(other.most);
    }
    fn missing(&self) -> impl Iterator<Item = String> {
        let none = (self.told == 0).then(|| "read never tells pairs".into());
        let few = (self.most <= MANY_PAIRS)
            .then(|| format!("read never tells more than {MANY_PAIRS} pairs"));
        none.into_iter().chain(few)
    }
}

/// Everything that is counted.
#[derive(Debug, Clone, Copy, Default, PartialEq, Eq)]
pub struct Tally {
    rows: [Row; ENTRIES.len()],
    /// Lists compared, no two the same, by where they come from.
    pub lists: [u64; ORIGINS.len()],
    /// Lists met again, which aren't compared again.
    pub lists_again: u64,
    /// Sums compared, no two the same.
    pub sums: u64,
    pub sums_again: u64,
    /// Runs in which something was raised to the power nought.
    pub noughts: u64,
    /// Costs that are told as 2^64 - 1.
    pub capped: u64,
    /// Sums, each with either flag, that the two writers write as different lists.
    pub apart: u64,
    pub against_lists: AgainstLists,
    pub pairs: Pairs,
    /// Calls with room for exactly what is written, and with more.
    pub exact: u64,
    pub ample: u64,
}

impl Tally {
    pub fn row(&self, entry: Entry) -> &Row {
        &self.rows[entry as usize]
    }
    pub fn row_mut(&mut self, entry: Entry) -> &mut Row {
        &mut self.rows[entry as usize]
    }
    pub fn count(&mut self, entry: Entry, number: u64) {
        self.rows[entry as usize].numbers[number as usize] += 1;
    }
    pub fn all_lists(&self) -> u64 {
        self.lists.iter().sum()
    }
    pub fn compared(&self) -> u64 {
        self.rows.iter().map(Row::compared).sum()
    }
    /// Answers that were to be met and weren't.
    pub fn missing(&self) -> Vec<String> {
        let capped = (self.capped == 0).then(|| "cost never tells 2^64 - 1".into());
        let alike = (self.apart == 0).then(|| "the two writers never differ".into());
        TO_BE_MET
            .into_iter()
            .flat_map(|(entry, numbers)| numbers.iter().map(move |&number| (entry, number)))
            .filter(|&(entry, number)| self.row(entry).numbers[number] == 0)
            .map(|(entry, number)| format!("{} never answers {number}", entry.name()))
            .chain(capped)
            .chain(alike)
            .chain(self.against_lists.missing())
            .chain(self.pairs.missing())
            .collect()
    }
    pub fn add(&mut self, other: &Tally) {
        for (row, more) in self.rows.iter_mut().zip(&other.rows) {
            row.add(more);
        }
        for (lists, more) in self.lists.iter_mut().zip(other.lists) {
            *lists += more;
        }
        self.lists_again += other.lists_again;
        self.sums += other.sums;
        self.sums_again += other.sums_again;
        self.noughts += other.noughts;
        self.capped += other.capped;
        self.apart += other.apart;
        self.against_lists.add(&other.against_lists);
        self.pairs.add(&other.pairs);
        self.exact += other.exact;
        self.ample += other.ample;
    }
}
