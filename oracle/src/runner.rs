//! The runner, straight from the paper's text and apart from the proved one:
//! a list run at a number, with its value, steps and peak. The Rust has none,
//! so this is no part of the judging by the Rust.

use crate::{
    answer::{Refusal, number::*},
    features::Features,
    records::{self, Record, kind},
};

/// How many values the stack and On may hold together.
pub const MOST_VALUES: usize = 256;
/// The largest exponent that a value is multiplied out for.
const MOST_POWER: f64 = 64.0;
/// The code of the modifier On.
const ON: u8 = 3;

/// A list's value, the records run, and the most values there were at once.
#[derive(Debug, Clone, Copy, PartialEq)]
pub struct Ran {
    pub value: f64,
    pub steps: usize,
    pub peak: usize,
}

/// What runs meet on their way, for those who ask.
#[derive(Debug, Default)]
pub struct Met {
    /// Names for what each record does.
    pub features: Features,
    /// How often something was raised to the power nought.
    pub noughts: u64,
}

/// The value of a list at `x`.
pub fn run(list: &[u8], x: f64) -> Result<Ran, Refusal> {
    run_meeting(list, x, &mut Met::default())
}

/// The value of a list at `x`, and what the run meets.
pub fn run_meeting(list: &[u8], x: f64, met: &mut Met) -> Result<Ran, Refusal> {
    let result = run_checked(list, x, met);
    met.features.note(|| match result {
        Ok(ran) => format!("the whole: {}, at most {}", sort(ran.value), few(ran.peak)),
        Err(refusal) => format!("the whole: {}", refusal.number),
    });
    result
}

fn run_checked(list: &[u8], x: f64, met: &mut Met) -> Result<Ran, Refusal> {
    let records = records::check(list).map_err(|fault| {
        met.features.note(|| format!("no list: {fault:?}"));
        fault.refusal()
    })?;
    if !x.is_finite() {
        return Err(Refusal::whole(NOT_FINITE));
    }
    let mut runner = Runner {
        met,
        records: &records,
        stack: vec![x],
        held: 0,
        steps: 0,
        peak: 1,
    };
    runner.stretch(0, records.len())?;
    match runner.stack[..] {
        [] => Err(Refusal::whole(NO_OUTPUT)),
        [value] => Ok(Ran {
            value,
            steps: runner.steps,
            peak: runner.peak,
        }),
        _ => Err(Refusal::whole(TOO_MANY_OUTPUTS)),
    }
}

struct Runner<'a> {
    met: &'a mut Met,
    records: &'a [Record],
    stack: Vec<f64>,
    held: usize,
    steps: usize,
    peak: usize,
}

impl Runner<'_> {
    /// The records from one place to another, each with its inside.
    fn stretch(&mut self, mut at: usize, end: usize) -> Result<(), Refusal> {
        while at < end {
            let next = self.end_of(at);
            self.record(at, next)?;
            at = next;
        }
        Ok(())
    }

    fn end_of(&self, at: usize) -> usize {
        at + 1 + self.records[at].inside as usize
    }

    fn record(&mut self, at: usize, end: usize) -> Result<(), Refusal> {
        let meets = self.met.features.is_on().then(|| self.meets(at));
        let result = self.run_record(at, end);
        if let Some(meets) = meets {
            self.note(meets, at, result);
        }
        result
    }

    /// A record's name, with the sorts of what an arithmetic primitive takes.
    fn meets(&self, at: usize) -> String {
        let record = self.records[at];
        let top = |count: usize| -> Vec<&str> {
            let values = self.stack.iter().rev().take(count);
            values.map(|&value| sort(value)).collect()
        };
        match (record.kind, record.code) {
            (kind::REAL, _) => format!("push {}", sort(f64::from_bits(record.re))),
            (kind::PRIMITIVE, 8..=12) => format!("primitive {} {:?}", record.code, top(2)),
            (kind::PRIMITIVE, 5..=7 | 16) => format!("primitive {} {:?}", record.code, top(1)),
            (kind, code) => format!("{kind} {code}"),
        }
    }

    /// What came of a record, unless one inside it refused.
    fn note(&mut self, meets: String, at: usize, result: Result<(), Refusal>) {
        let comes_to = match result {
            Ok(()) => "done".into(),
            Err(refusal) if refusal.place == at => refusal.number.to_string(),
            Err(_) => return,
        };
        let record = self.records[at];
        let held = if self.held > 0 {
            "held"
        } else {
            "nothing held"
        };
        let values = few(self.stack.len() + self.held);
        let features = &mut self.met.features;
        features.note(|| format!("{meets}: {comes_to}"));
        features.note(|| format!("{} {} {held}: {comes_to}", record.kind, record.code));
        features.note(|| format!("{values} values: {comes_to}"));
    }

    fn run_record(&mut self, at: usize, end: usize) -> Result<(), Refusal> {
        self.steps += 1;
        let record = self.records[at];
        let refuse = |number| Refusal::new(number, at);
        match record.kind {
            kind::REAL => self.leave(f64::from_bits(record.re)).map_err(refuse)?,
            kind::COMPLEX | kind::OTHER_PUSH => return Err(refuse(NON_REAL)),
            kind::ARRAY => return Err(refuse(NON_SCALAR)),
            kind::PRIMITIVE => self.primitive(record.code).map_err(refuse)?,
            kind::BODY | kind::RUN => self.stretch(at + 1, end)?,
            kind::MODIFIER if record.code == ON => self.on(at, end)?,
            _ => return Err(refuse(NOT_SUPPORTED)),
        }
        self.count().map_err(refuse)
    }

    /// The body runs on a copy of the top value, which is held and put back on
    /// what the body leaves.
    fn on(&mut self, at: usize, end: usize) -> Result<(), Refusal> {
        let refuse = |number| Refusal::new(number, at);
        if at + 1 == end || self.end_of(at + 1) != end {
            return Err(refuse(INTERPRETER_BUG));
        }
        let value = self.pop().map_err(refuse)?;
        self.held += 1;
        self.stack.push(value);
        self.count().map_err(refuse)?;
        self.record(at + 1, end)?;
        self.held -= 1;
        self.stack.push(value);
        Ok(())
    }

    fn pop(&mut self) -> Result<f64, u8> {
        self.stack.pop().ok_or(TOO_MANY_VARIABLES)
    }

    /// The top value and the one below it.
    fn pop_two(&mut self) -> Result<(f64, f64), u8> {
        Ok((self.pop()?, self.pop()?))
    }

    /// Push a value that is new.
    fn leave(&mut self, value: f64) -> Result<(), u8> {
        if !value.is_finite() {
            return Err(NOT_FINITE);
        }
        self.stack.push(value);
        Ok(())
    }

    fn count(&mut self) -> Result<(), u8> {
        let values = self.stack.len() + self.held;
        if values > MOST_VALUES {
            return Err(NO_ROOM);
        }
        self.peak = self.peak.max(values);
        Ok(())
    }

    fn unary(&mut self, form: impl FnOnce(f64) -> f64) -> Result<(), u8> {
        let a = self.pop()?;
        self.leave(form(a))
    }

    /// `form` gets the lower value first.
    fn binary(&mut self, form: impl FnOnce(f64, f64) -> f64) -> Result<(), u8> {
        let (a, b) = self.pop_two()?;
        self.leave(form(b, a))
    }

    fn primitive(&mut self, code: u8) -> Result<(), u8> {
        match code {
            1 => self.unary(|a| a),
            2 => self.pop().map(drop),
            3 => {
                let a = self.pop()?;
                self.stack.extend([a, a]);
                Ok(())
            }
            4 => {
                let (a, b) = self.pop_two()?;
                self.stack.extend([a, b]);
                Ok(())
            }
            5 => self.unary(|a| -a),
            6 => self.unary(|a| 1.0 - a),
            7 => {
                let a = self.pop()?;
                // the processor's root, which is the nearest number; -0 isn't below zero
                if a < 0.0 {
                    return Err(NEEDS_MATH);
                }
                self.leave(a.sqrt())
            }
            8 => self.binary(|b, a| b + a),
            9 => self.binary(|b, a| b - a),
            10 => self.binary(|b, a| b * a),
            11 => self.binary(|b, a| b / a),
            12 => {
                let (power, base) = self.pop_two()?;
                self.met.noughts += u64::from(power == 0.0);
                self.leave(whole_power(base, power)?)
            }
            16 => self.unary(|a| 1.0 / a),
            17 => Err(NON_REAL),
            38 => {
                let (a, b) = self.pop_two()?;
                self.stack.extend([b, a, b]);
                Ok(())
            }
            // Listed, and not run: Exp, Sin, Cos, Max, SinH, CosH, Exp2 to Log10, Root.
            13..=15 | 18..=20 | 32..=37 | 39 => Err(NEEDS_MATH),
            _ => Err(NOT_SUPPORTED),
        }
    }
}

/// The base multiplied from the left; power 0 gives 1 for every base.
fn whole_power(base: f64, power: f64) -> Result<f64, u8> {
    if power.fract() != 0.0 || !(0.0..=MOST_POWER).contains(&power) {
        return Err(NEEDS_MATH);
    }
    if power == 0.0 {
        return Ok(1.0);
    }
    Ok((1..power as usize).fold(base, |product, _| product * base))
}

/// What sort of number it is, for the names of what a run meets.
fn sort(number: f64) -> &'static str {
    match (number.is_sign_negative(), number.abs()) {
        (false, 0.0) => "0",
        (true, 0.0) => "-0",
        (_, size) if size < f64::MIN_POSITIVE => "subnormal",
        (_, size) if size > 1e150 => "large",
        (_, size) if size > MOST_POWER || size.fract() != 0.0 => "not multiplied out",
        (false, _) => "whole",
        (true, _) => "-whole",
    }
}

/// How many values there are: some, or a number near the limit.
fn few(values: usize) -> String {
    match values {
        0..=3 | 254.. => values.to_string(),
        _ => "some".into(),
    }
}
