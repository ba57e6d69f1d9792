//! The value of a sum at a number, against two others: the run of the list that
//! the library itself writes of the sum with the flag false, and the oracle's
//! plain engine.

use oracle::{
    Refusal,
    power_sums::{NUMBERS, some_number},
    records::RECORD,
    value,
};
use proved::{Told, Valued};

use crate::{
    checker::{Checker, Outcome},
    difference::{Difference, Input},
    tally::{AgainstLists, Entry},
};

const NEEDS_MATH: u64 = 14;
const NOT_FINITE: u64 = 15;

impl Checker<'_> {
    /// The values of a sum at numbers of every sort, and at a random one.
    pub(crate) fn values(&mut self, sum: &[u8]) -> Outcome {
        let wrote = (self.library.write)(sum, 0, &mut self.list);
        let random = some_number(&mut self.random);
        for x in NUMBERS.into_iter().chain([random]) {
            let given = (self.library.value)(sum, x);
            self.against_the_engine(sum, x, given)?;
            if given.told.number != NEEDS_MATH {
                self.against_the_list(sum, x, given, wrote)?;
            }
        }
        Ok(())
    }

    fn against_the_engine(&mut self, sum: &[u8], x: f64, given: Valued) -> Outcome {
        let owed = match value::value(sum, x) {
            Ok(value) => valued(0, value.to_bits()),
            Err(Refusal { number, .. }) => valued(number.into(), 0),
        };
        same(sum, x, "the plain engine", owed, given)?;
        self.tally.count(Entry::Value, owed.told.number);
        Ok(())
    }

    /// 15 is owed exactly where the writing or the run gives it.
    fn against_the_list(&mut self, sum: &[u8], x: f64, given: Valued, wrote: Told<2>) -> Outcome {
        let AgainstLists {
            done,
            not_written,
            not_run,
            other,
        } = &mut self.tally.against_lists;
        let [_, records] = wrote.answer;
        let (owed, count) = match wrote.number {
            0 => {
                let bytes = records as usize * RECORD;
                let ran = (self.library.run)(&self.list[..bytes], x);
                let count = match ran.told.number {
                    0 => done,
                    NOT_FINITE if x.is_finite() => not_run,
                    _ => other,
                };
                (valued(ran.told.number, ran.value), count)
            }
            NOT_FINITE => (valued(NOT_FINITE, 0), not_written),
            number => (valued(number, 0), other),
        };
        same(sum, x, "the run of its list", owed, given)?;
        *count += 1;
        Ok(())
    }
}

/// Place and count are 0 whatever comes of it.
fn valued(number: u64, value: u64) -> Valued {
    let told = Told {
        number,
        answer: [0, 0],
    };
    Valued { value, told }
}

fn same(sum: &[u8], x: f64, by: &str, owed: Valued, given: Valued) -> Outcome {
    if given == owed {
        return Ok(());
    }
    let call = format!("value at {x:?} (bits {:016x}), by {by}", x.to_bits());
    let (owed, given) = (text(owed), text(given));
    Err(Difference::new(call, Input::Sum(sum), owed, given))
}

fn text(valued: Valued) -> String {
    let [place, count] = valued.told.answer;
    let value = f64::from_bits(valued.value);
    format!(
        "number {}, value {value:?} (bits {:016x}), place {place}, count {count}",
        valued.told.number, valued.value
    )
}
