//! The run of a list: its value at x, with steps and peak.

use crate::{
    Refused,
    arithmetic::whole,
    records::{
        self, Bytes, Ends, NO_ENDS, Record, Refusal, check, decode, modifier::ON, primitive::*,
    },
};

const MOST_VALUES: usize = 256;
/// An Over pushes one value past the most before it is refused, and an On puts
/// back what it holds.
const PLACES: usize = MOST_VALUES + 3;

/// The room of `run_in`.
pub struct RunRoom {
    values: [f64; PLACES],
    ends: Ends,
}

impl RunRoom {
    const CLEARED: RunRoom = RunRoom {
        values: [0.0; PLACES],
        ends: NO_ENDS,
    };

    #[must_use]
    pub fn new() -> RunRoom {
        RunRoom::CLEARED
    }
}

impl Default for RunRoom {
    fn default() -> RunRoom {
        RunRoom::new()
    }
}

#[derive(Debug, Clone, Copy, PartialEq)]
pub struct Run {
    pub value: f64,
    pub steps: usize,
    pub peak: usize,
}

struct Runner<'a> {
    records: &'a [Bytes],
    values: &'a mut [f64; PLACES],
    n: usize,
    steps: usize,
    peak: usize,
}

/// The value of a list at x.
pub fn run(list: &[u8], x: f64) -> Result<Run, Refused> {
    let mut room = RunRoom::CLEARED;
    run_in(&mut room, list, x)
}

/// The same with lent room.
pub fn run_in(room: &mut RunRoom, list: &[u8], x: f64) -> Result<Run, Refused> {
    let records = check(list, &mut room.ends).map_err(Refused::at(0))?;
    let mut runner = Runner {
        records,
        values: &mut room.values,
        n: 0,
        steps: 0,
        peak: 1,
    };
    runner.push(x).map_err(Refused::at(0))?;
    runner.walk(0, records.len(), 0)?;
    let Runner { n, steps, peak, .. } = runner;
    match n {
        0 => Err(Refused::at(0)(Refusal::NoOutput)),
        1 => Ok(Run {
            value: room.values[0],
            steps,
            peak,
        }),
        _ => Err(Refused::at(0)(Refusal::TooManyOutputs)),
    }
}

impl Runner<'_> {
    fn walk(&mut self, from: usize, to: usize, held: usize) -> Result<(), Refused> {
        let mut at = from;
        while at < to {
            let record = decode(&self.records[at]);
            let next = at + 1 + record.inside;
            match record.kind {
                records::RUN | records::BODY => {
                    self.steps += 1;
                    self.walk(at + 1, next, held)?;
                }
                records::MODIFIER => self.modifier(at, &record, held)?,
                _ => self.leaf(&record, held).map_err(Refused::at(at))?,
            }
            at = next;
        }
        Ok(())
    }

    fn leaf(&mut self, record: &Record, held: usize) -> Result<(), Refusal> {
        match record.kind {
            records::REAL_PUSH => self.push(record.re),
            records::PRIMITIVE => self.primitive(record.code),
            records::ARRAY_PUSH => Err(Refusal::NonScalar),
            records::COMPLEX_PUSH | records::OTHER_PUSH => Err(Refusal::NonReal),
            _ => Err(Refusal::NotSupported),
        }?;
        self.settle(self.n + held)
    }

    /// A step that leaves so many values.
    fn settle(&mut self, values: usize) -> Result<(), Refusal> {
        if values > MOST_VALUES {
            return Err(Refusal::NoRoom);
        }
        self.steps += 1;
        self.peak = self.peak.max(values);
        Ok(())
    }

    fn modifier(&mut self, at: usize, record: &Record, held: usize) -> Result<(), Refused> {
        let top = self.before_on(at, record, held).map_err(Refused::at(at))?;
        self.walk(at + 1, at + 1 + record.inside, held + 1)?;
        self.values[self.n] = top;
        self.n += 1;
        Ok(())
    }

    /// The value that an On holds.
    fn before_on(&mut self, at: usize, record: &Record, held: usize) -> Result<f64, Refusal> {
        if record.code != ON {
            return Err(Refusal::NotSupported);
        }
        if record.inside == 0 || 1 + decode(&self.records[at + 1]).inside != record.inside {
            return Err(Refusal::InterpreterBug);
        }
        let top = self.pop()?;
        self.n += 1;
        self.settle(self.n + held + 1)?;
        Ok(top)
    }

    fn pop(&mut self) -> Result<f64, Refusal> {
        if self.n == 0 {
            return Err(Refusal::TooManyVariables);
        }
        self.n -= 1;
        Ok(self.values[self.n])
    }

    fn push(&mut self, value: f64) -> Result<(), Refusal> {
        if !value.is_finite() {
            return Err(Refusal::NotFinite);
        }
        self.values[self.n] = value;
        self.n += 1;
        Ok(())
    }

    fn primitive(&mut self, code: u8) -> Result<(), Refusal> {
        match code {
            IDENTITY..=DUP | NEG..=SQRT | RECIPROCAL => {
                let a = self.pop()?;
                self.of_one(code, a)
            }
            FLIP | ADD..=POW | OVER => {
                if self.n < 2 {
                    return Err(Refusal::TooManyVariables);
                }
                let a = self.pop()?;
                let b = self.pop()?;
                self.of_two(code, b, a)
            }
            COMPLEX => Err(Refusal::NonReal),
            EXP..=COS | MAX..=COS_H | EXP_2..=LOG_10 | ROOT => Err(Refusal::NeedsMath),
            _ => Err(Refusal::NotSupported),
        }
    }

    fn of_one(&mut self, code: u8, a: f64) -> Result<(), Refusal> {
        match code {
            IDENTITY => self.push(a),
            POP => Ok(()),
            DUP => {
                self.push(a)?;
                self.push(a)
            }
            NEG => self.push(-a),
            NOT => self.push(1.0 - a),
            SQRT if a < 0.0 => Err(Refusal::NeedsMath),
            SQRT => self.push(a.sqrt()),
            _ => self.push(1.0 / a),
        }
    }

    fn of_two(&mut self, code: u8, b: f64, a: f64) -> Result<(), Refusal> {
        match code {
            FLIP => {
                self.push(a)?;
                self.push(b)
            }
            OVER => {
                self.push(b)?;
                self.push(a)?;
                self.push(b)
            }
            ADD => self.push(b + a),
            SUB => self.push(b - a),
            MUL => self.push(b * a),
            DIV => self.push(b / a),
            _ => self.power(b, a),
        }
    }

    fn power(&mut self, base: f64, exponent: f64) -> Result<(), Refusal> {
        let exponent = whole(exponent).ok_or(Refusal::NeedsMath)?;
        if exponent == 0 {
            return self.push(1.0);
        }
        let mut product = base;
        for _ in 1..exponent {
            product *= base;
        }
        self.push(product)
    }
}
