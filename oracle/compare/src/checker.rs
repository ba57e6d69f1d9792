//! One list or sum, asked of the proved library and of the judge.

use oracle::{
    Answer, ReadSum, Refusal,
    algebra::MOST_STEPS,
    cost, judge,
    random::Random,
    records::{MOST_RECORDS, RECORD},
    runner::{self, Met, Ran},
    sums::ENTRY,
};
use proved::{Library, Told};

use crate::{
    difference::{Difference, Input, whole_hex},
    room::Room,
    seen::Seen,
    tally::{Entry, Tally},
};

pub type Outcome = Result<(), Box<Difference>>;

/// Fewer whole output records lent than needed.
const OUTPUT_ROOM: u64 = 17;

/// Number, place and count; for `read` the complex flag and the pairs as well.
#[derive(Debug, Clone, Copy, PartialEq, Eq)]
struct Numbers {
    number: u64,
    place: u64,
    count: u64,
    read: Option<OfRead>,
}

/// What `read` alone tells.
#[derive(Debug, Clone, Copy, PartialEq, Eq)]
struct OfRead {
    flag: u64,
    pairs: u64,
}

impl Numbers {
    fn plain(told: Told<2>) -> Self {
        let [place, count] = told.answer;
        Numbers {
            number: told.number,
            place,
            count,
            read: None,
        }
    }
    fn of_read(told: Told<4>) -> Self {
        let [place, count, flag, pairs] = told.answer;
        Numbers {
            number: told.number,
            place,
            count,
            read: Some(OfRead { flag, pairs }),
        }
    }
    fn text(self) -> String {
        let read = self.read.map_or(String::new(), |read| {
            format!(", flag {}, pairs {}", read.flag, read.pairs)
        });
        format!(
            "number {}, place {}, count {}{read}",
            self.number, self.place, self.count
        )
    }
}

/// An entry that writes bytes, and what it is asked about.
#[derive(Debug, Clone, Copy)]
struct Call<'a> {
    entry: Entry,
    input: &'a [u8],
    /// For the writers.
    complex: u8,
}

impl<'a> Call<'a> {
    fn new(entry: Entry, input: &'a [u8]) -> Self {
        Call {
            entry,
            input,
            complex: 0,
        }
    }
    /// The bytes of a record, or of an entry where the result is a sum.
    fn size(self) -> usize {
        match self.entry {
            Entry::Read | Entry::Derive | Entry::Integrate => ENTRY,
            _ => RECORD,
        }
    }
    fn shown(self) -> Input<'a> {
        match self.entry {
            Entry::Derive | Entry::Integrate | Entry::Write | Entry::WriteFaithful => {
                Input::Sum(self.input)
            }
            _ => Input::List(self.input),
        }
    }
    fn ask(self, library: &Library, out: &mut [u8]) -> Numbers {
        let plain = |function: fn(&[u8], &mut [u8]) -> Told<2>, out: &mut [u8]| {
            Numbers::plain(function(self.input, out))
        };
        match self.entry {
            Entry::Read => Numbers::of_read((library.read)(self.input, out)),
            Entry::Derivative => plain(library.derivative, out),
            Entry::Integral => plain(library.integral, out),
            Entry::Inverse => plain(library.inverse, out),
            Entry::Derive => plain(library.derive, out),
            Entry::Integrate => plain(library.integrate, out),
            Entry::Write => self.ask_writer(library.write, out),
            Entry::WriteFaithful => self.ask_writer(library.write_faithful, out),
            Entry::DerivativeFaithful => plain(library.derivative_faithful, out),
            Entry::IntegralFaithful => plain(library.integral_faithful, out),
            Entry::Run | Entry::Value | Entry::Cost => {
                unreachable!("run, value and cost write no bytes")
            }
        }
    }
    fn ask_writer(self, writer: fn(&[u8], u8, &mut [u8]) -> Told<2>, out: &mut [u8]) -> Numbers {
        Numbers::plain(writer(self.input, self.complex, out))
    }
    fn refused(self, number: u64, place: u64) -> Numbers {
        Numbers {
            number,
            place,
            count: 0,
            read: self.of_read(Beside::default()),
        }
    }
    fn done(self, bytes: &[u8], beside: Beside) -> Numbers {
        Numbers {
            number: 0,
            place: 0,
            count: (bytes.len() / self.size()) as u64,
            read: self.of_read(beside),
        }
    }
    fn of_read(self, beside: Beside) -> Option<OfRead> {
        let told = OfRead {
            flag: u64::from(beside.complex),
            pairs: beside.pairs,
        };
        (self.entry == Entry::Read).then_some(told)
    }
}

/// What the judge says of a sum that is read, its bytes aside; nothing for all
/// other entries.
#[derive(Debug, Clone, Copy, Default)]
struct Beside {
    complex: bool,
    pairs: u64,
}

/// What the judge says that an entry owes.
enum Owed<'a> {
    Done(&'a [u8], Beside),
    Refused(Refusal),
    Panic,
    TooLong,
}

impl<'a> Owed<'a> {
    fn new<T>(answer: &'a Answer<T>, done: impl FnOnce(&'a T) -> (&'a [u8], Beside)) -> Self {
        match answer {
            Answer::Rust(Ok(result)) => {
                let (bytes, beside) = done(result);
                Owed::Done(bytes, beside)
            }
            Answer::Rust(Err(refusal)) | Answer::Form(refusal) | Answer::Limit(refusal) => {
                Owed::Refused(*refusal)
            }
            Answer::Panic => Owed::Panic,
            Answer::TooLong => Owed::TooLong,
        }
    }
}

impl<'a> From<&'a Answer<Vec<u8>>> for Owed<'a> {
    fn from(answer: &'a Answer<Vec<u8>>) -> Self {
        Owed::new(answer, |bytes| (bytes, Beside::default()))
    }
}

impl<'a> From<&'a Answer<ReadSum>> for Owed<'a> {
    fn from(answer: &'a Answer<ReadSum>) -> Self {
        Owed::new(answer, |read| {
            let (complex, pairs) = (read.complex, read.pairs);
            (&read.entries, Beside { complex, pairs })
        })
    }
}

/// Compares, and counts what it compared.
pub struct Checker<'a> {
    pub(crate) library: Library,
    seen_sums: &'a Seen,
    pub(crate) random: Random,
    room: Room,
    /// Room for a list that the library writes and then runs.
    pub(crate) list: Vec<u8>,
    pub tally: Tally,
}

impl<'a> Checker<'a> {
    pub fn new(library: Library, seen_sums: &'a Seen) -> Self {
        Checker {
            library,
            seen_sums,
            random: Random::new(0),
            room: Room::default(),
            list: vec![0; MOST_RECORDS * RECORD],
            tally: Tally::default(),
        }
    }

    /// Rooms and numbers x follow from this seed, up to the next one.
    pub fn reseed(&mut self, seed: u64) {
        self.random = Random::new(seed);
    }

    /// The cost of a list and its run; unless it costs too much to be read,
    /// every other entry as well.
    pub fn list(&mut self, list: &[u8]) -> Outcome {
        let steps = self.cost(list)?;
        let x = self.some_x();
        self.run(list, x)?;
        if steps > MOST_STEPS as u64 {
            self.skip_reading();
            return Ok(());
        }
        self.reading(list, x)
    }

    /// Every entry that reads the list, those on the sum it reads to, and the
    /// run of its derivative.
    fn reading(&mut self, list: &[u8], x: f64) -> Outcome {
        let read = judge::read(list);
        let derivative = judge::derivative(list);
        self.compare(Call::new(Entry::Read, list), (&read).into())?;
        self.compare(Call::new(Entry::Derivative, list), (&derivative).into())?;
        for (entry, answer) in [
            (Entry::Integral, judge::integral(list)),
            (Entry::Inverse, judge::inverse(list)),
            (Entry::DerivativeFaithful, judge::derivative_faithful(list)),
            (Entry::IntegralFaithful, judge::integral_faithful(list)),
        ] {
            self.compare(Call::new(entry, list), (&answer).into())?;
        }
        if let Some(derivative) = derivative.done() {
            self.run(&derivative, x)?;
        }
        if let Some(read) = read.done() {
            self.sum(&read.entries)?;
        }
        Ok(())
    }

    /// Every entry on a sum, if it wasn't met before; at times on its
    /// derivative and its integral as well.
    pub fn sum(&mut self, sum: &[u8]) -> Outcome {
        if !self.seen_sums.is_new(sum) {
            self.tally.sums_again += 1;
            return Ok(());
        }
        self.tally.sums += 1;
        let derived = judge::derive(sum);
        let integrated = judge::integrate(sum);
        self.compare(Call::new(Entry::Derive, sum), (&derived).into())?;
        self.compare(Call::new(Entry::Integrate, sum), (&integrated).into())?;
        for complex in [0, 1 + self.random.below(255) as u8] {
            self.written(sum, complex)?;
        }
        self.values(sum)?;
        for formed in [derived, integrated].into_iter().filter_map(Answer::done) {
            if self.random.once_in(4) {
                self.sum(&formed)?;
            }
        }
        Ok(())
    }

    /// A sum as a list, by both writers.
    fn written(&mut self, sum: &[u8], complex: u8) -> Outcome {
        let first = judge::write(sum, complex != 0);
        let second = judge::write_faithful(sum, complex != 0);
        self.tally.apart += u64::from(first != second);
        for (entry, answer) in [(Entry::Write, first), (Entry::WriteFaithful, second)] {
            let call = Call {
                complex,
                ..Call::new(entry, sum)
            };
            self.compare(call, (&answer).into())?;
        }
        Ok(())
    }

    /// Nobody waits for the end of it.
    fn skip_reading(&mut self) {
        for entry in [
            Entry::Read,
            Entry::Derivative,
            Entry::Integral,
            Entry::Inverse,
            Entry::DerivativeFaithful,
            Entry::IntegralFaithful,
        ] {
            self.tally.row_mut(entry).too_long += 1;
        }
    }

    fn some_x(&mut self) -> f64 {
        match self.random.below(4) {
            0 => self.random.any_number(),
            1 => self.random.number(),
            _ => self.random.below(2000) as f64 / 64.0,
        }
    }

    pub fn run(&mut self, list: &[u8], x: f64) -> Outcome {
        let mut met = Met::default();
        let ran = runner::run_meeting(list, x, &mut met);
        self.tally.noughts += u64::from(met.noughts > 0);
        let owed = match ran {
            Ok(Ran { value, steps, peak }) => proved::Ran {
                value: value.to_bits(),
                told: Told {
                    number: 0,
                    answer: [0, steps as u64, peak as u64],
                },
            },
            Err(Refusal { number, place }) => proved::Ran {
                value: 0,
                told: Told {
                    number: number.into(),
                    answer: [place as u64, 0, 0],
                },
            },
        };
        let given = (self.library.run)(list, x);
        if given != owed {
            let call = format!("run at {x:?} (bits {:016x})", x.to_bits());
            let input = Input::List(list);
            return Err(Difference::new(
                call,
                input,
                run_text(owed),
                run_text(given),
            ));
        }
        self.tally.count(Entry::Run, owed.told.number);
        Ok(())
    }

    /// What a list costs, against the oracle's own reckoning; the steps, which
    /// are 0 where it is refused.
    fn cost(&mut self, list: &[u8]) -> Result<u64, Box<Difference>> {
        let owed = match cost::cost(list) {
            Ok(steps) => Told {
                number: 0,
                answer: [0, steps],
            },
            Err(Refusal { number, place }) => Told {
                number: number.into(),
                answer: [place as u64, 0],
            },
        };
        let given = (self.library.cost)(list);
        if given != owed {
            let input = Input::List(list);
            return Err(Difference::new(
                "cost".into(),
                input,
                cost_text(owed),
                cost_text(given),
            ));
        }
        let [_, steps] = owed.answer;
        self.tally.count(Entry::Cost, owed.number);
        self.tally.capped += u64::from(steps == u64::MAX);
        Ok(steps)
    }

    fn compare(&mut self, call: Call, owed: Owed) -> Outcome {
        match owed {
            Owed::Done(bytes, beside) => {
                let more = if self.random.once_in(2) {
                    self.tally.exact += 1;
                    0
                } else {
                    self.tally.ample += 1;
                    1 + self.random.below(5 * call.size())
                };
                self.ask(call, bytes.len() + more, call.done(bytes, beside), bytes)?;
                self.tally.pairs.count(beside.pairs);
                if !bytes.is_empty() && self.random.once_in(8) {
                    let short = bytes.len() - self.too_little(call.size());
                    self.ask(call, short, call.refused(OUTPUT_ROOM, 0), &[])?;
                }
            }
            Owed::Refused(Refusal { number, place }) => {
                let room = self.room_for_a_refusal();
                let owed = call.refused(number.into(), place as u64);
                self.ask(call, room, owed, &[])?;
            }
            Owed::Panic => self.tally.row_mut(call.entry).panics += 1,
            Owed::TooLong => self.tally.row_mut(call.entry).too_long += 1,
        }
        Ok(())
    }

    /// How many bytes the room is short: one, those of a record or an entry, or something between.
    fn too_little(&mut self, size: usize) -> usize {
        match self.random.below(4) {
            0 => 1,
            1 => size,
            _ => 1 + self.random.below(size),
        }
    }

    /// A refusal is the same whatever the room.
    fn room_for_a_refusal(&mut self) -> usize {
        match self.random.below(32) {
            0 => MOST_RECORDS * RECORD,
            1..=9 => 0,
            _ => self.random.below(8 * ENTRY),
        }
    }

    fn ask(&mut self, call: Call, room: usize, owed: Numbers, bytes: &[u8]) -> Outcome {
        let odd = self.random.below(8);
        let given = call.ask(&self.library, self.room.lend(room, odd));
        if given != owed || !self.room.holds_just(bytes) {
            return Err(self.difference(call, owed, bytes, given));
        }
        self.room.clear(bytes.len());
        self.tally.count(call.entry, owed.number);
        Ok(())
    }

    fn difference(
        &self,
        call: Call,
        owed: Numbers,
        bytes: &[u8],
        given: Numbers,
    ) -> Box<Difference> {
        let size = call.size();
        let lent = self.room.lent();
        let flag = match call.entry {
            Entry::Write | Entry::WriteFaithful => format!(" with flag {}", call.complex),
            _ => String::new(),
        };
        let asked = format!("{}{flag}, room of {} bytes", call.entry.name(), lent.len());
        let owed = format!("{}: {}", owed.text(), whole_hex(bytes, size));
        let given = if given.number == 0 {
            let written = (given.count as usize).saturating_mul(size).min(lent.len());
            format!("{}: {}", given.text(), whole_hex(&lent[..written], size))
        } else {
            given.text()
        };
        let changed = if self.room.holds_just(bytes) {
            ""
        } else {
            "; the bytes lent, or bytes around them, aren't as they should be"
        };
        Difference::new(asked, call.shown(), owed, given + changed)
    }
}

fn run_text(ran: proved::Ran) -> String {
    let [place, steps, peak] = ran.told.answer;
    let value = f64::from_bits(ran.value);
    format!(
        "number {}, place {place}, value {value:?} (bits {:016x}), steps {steps}, peak {peak}",
        ran.told.number, ran.value
    )
}

fn cost_text(told: Told<2>) -> String {
    let [place, steps] = told.answer;
    format!("number {}, place {place}, steps {steps}", told.number)
}
