//! A list read on a stack of sums that starts with x. What modifiers hold lies
//! at the end of the stack's places, from `held` on.

use std::f64::consts::E;

use crate::{
    PLACES, Refused, Room, STACK_END, WORKING, arithmetic as sums,
    records::{self, Bytes, Record, Refusal, check, decode, modifier::*, primitive::*},
    sum::{self, Complex, Stretch, Term},
};

struct Reader<'a, const SHORT: bool> {
    records: &'a [Bytes],
    terms: &'a mut [Term; PLACES],
    sizes: &'a mut [u8; PLACES],
    /// Where the stack ends.
    used: usize,
    complex: bool,
}

/// The sum of a list, which lies behind the working places, and the complex flag.
pub fn read<const SHORT: bool>(room: &mut Room, list: &[u8]) -> Result<(Stretch, bool), Refused> {
    let records = check(list, &mut room.ends).map_err(Refused::at(0))?;
    let mut reader = Reader::<SHORT> {
        records,
        terms: &mut room.terms,
        sizes: &mut room.sizes,
        used: WORKING,
        complex: false,
    };
    reader.lay(Term::power(1.0, Complex::ONE));
    reader.walk(0, records.len(), STACK_END)?;
    let sum = reader.only_sum().map_err(Refused::at(0))?;
    Ok((sum, reader.complex))
}

impl<const SHORT: bool> Reader<'_, SHORT> {
    fn walk(&mut self, from: usize, to: usize, held: usize) -> Result<(), Refused> {
        let mut at = from;
        while at < to {
            let record = decode(&self.records[at]);
            let next = at + 1 + record.inside;
            match record.kind {
                records::MODIFIER => self.modifier(at, &record, held)?,
                records::BODY | records::RUN | records::CUSTOM_INVERSE => {
                    self.walk(at + 1, next, held)?;
                }
                _ => self.leaf(&record, held).map_err(Refused::at(at))?,
            }
            at = next;
        }
        Ok(())
    }

    fn leaf(&mut self, record: &Record, held: usize) -> Result<(), Refusal> {
        match record.kind {
            records::REAL_PUSH => self.push(record.re, 0.0, held),
            records::COMPLEX_PUSH => {
                self.push(record.re, record.im, held)?;
                self.complex = true;
                Ok(())
            }
            records::PRIMITIVE => self.primitive(record.code, held),
            records::UNDER_MARKER => Ok(()),
            records::ARRAY_PUSH => Err(Refusal::NonScalar),
            records::OTHER_PUSH => Err(Refusal::NonReal),
            records::NO_NORMAL => Err(Refusal::NoInverse),
            _ => Err(Refusal::NotSupported),
        }
    }

    fn push(&mut self, re: f64, im: f64, held: usize) -> Result<(), Refusal> {
        let c = Complex { re, im };
        if !c.is_finite() {
            return Err(Refusal::NotFinite);
        }
        if self.used == held {
            return Err(Refusal::NoRoom);
        }
        self.lay(Term::power(0.0, c));
        Ok(())
    }

    /// A sum of one term goes on the stack, where there is room for it.
    fn lay(&mut self, term: Term) {
        self.terms[self.used] = term;
        self.sizes[self.used] = 1;
        self.used += 1;
    }

    /// A copy of a sum goes on the stack.
    fn push_sum(&mut self, sum: Stretch, held: usize) -> Result<(), Refusal> {
        if held < self.used + sum.len {
            return Err(Refusal::NoRoom);
        }
        self.terms.copy_within(sum.at..sum.end(), self.used);
        self.laid(self.used, sum.len, held)
    }

    /// A sum that lies where the stack ended is its top.
    fn laid(&mut self, at: usize, len: usize, held: usize) -> Result<(), Refusal> {
        if held < at + len {
            return Err(Refusal::NoRoom);
        }
        self.used = at + len;
        self.sizes[self.used - 1] = len as u8;
        Ok(())
    }

    /// The top sum of a stack that ends there.
    fn top(&self, end: usize) -> Result<Stretch, Refusal> {
        if end == WORKING {
            return Err(Refusal::TooManyVariables);
        }
        let len = self.sizes[end - 1] as usize;
        Ok(Stretch { at: end - len, len })
    }

    fn only_sum(&self) -> Result<Stretch, Refusal> {
        let sum = self.top(self.used).map_err(|_| Refusal::NoOutput)?;
        if sum.at == WORKING {
            Ok(sum)
        } else {
            Err(Refusal::TooManyOutputs)
        }
    }

    fn primitive(&mut self, code: u8, held: usize) -> Result<(), Refusal> {
        match code {
            IDENTITY..=DUP | NEG..=SQRT | EXP..=RECIPROCAL | EXP_2 | EXP_10 | LN..=LOG_10 => {
                let top = self.top(self.used)?;
                self.of_one(code, top, held)
            }
            FLIP | ADD..=POW | COMPLEX | LOG | OVER => {
                let top = self.top(self.used)?;
                let below = self.top(top.at)?;
                self.of_two(code, below, top, held)
            }
            _ => Err(Refusal::NotSupported),
        }
    }

    fn of_one(&mut self, code: u8, top: Stretch, held: usize) -> Result<(), Refusal> {
        let terms = &mut self.terms[..];
        let len = match code {
            IDENTITY => return Ok(()),
            POP => {
                self.used = top.at;
                return Ok(());
            }
            DUP => return self.push_sum(top, held),
            NEG => {
                sums::neg(terms, top);
                return Ok(());
            }
            NOT => sums::not(terms, top, 0),
            SQRT => sums::power_by(terms, 0.5, top, 0),
            EXP => sums::exponential(terms, E, top, 0),
            SIN => sums::function(terms, sum::SIN, top, 0),
            COS => sums::function(terms, sum::COS, top, 0),
            RECIPROCAL => sums::reciprocal(terms, top, 0),
            EXP_2 => sums::exponential(terms, 2.0, top, 0),
            EXP_10 => sums::exponential(terms, 10.0, top, 0),
            LN => sums::log_by(terms, E, top, 0),
            LOG_2 => sums::log_by(terms, 2.0, top, 0),
            _ => sums::log_by(terms, 10.0, top, 0),
        }?;
        self.used = top.at;
        self.push_sum(Stretch { at: 0, len }, held)
    }

    fn of_two(
        &mut self,
        code: u8,
        below: Stretch,
        top: Stretch,
        held: usize,
    ) -> Result<(), Refusal> {
        if SHORT && let Some(term) = self.short_cut(code, below, top) {
            self.used = below.at;
            self.lay(term?);
            return Ok(());
        }
        let terms = &mut self.terms[..];
        let len = match code {
            FLIP => {
                terms[below.at..top.end()].rotate_left(below.len);
                self.sizes[below.at + top.len - 1] = top.len as u8;
                self.sizes[top.end() - 1] = below.len as u8;
                return Ok(());
            }
            OVER => return self.push_sum(below, held),
            ADD => return self.add(|c| c, below, top, held),
            SUB => return self.add(Complex::neg, below, top, held),
            MUL => sums::mul(terms, below, top, 0),
            DIV => sums::div(terms, below, top, 0),
            POW => sums::pow(terms, below, top, 0),
            LOG => sums::log(terms, below, top, 0),
            _ => sums::complex(terms, below, top, 0),
        }?;
        self.used = below.at;
        self.push_sum(Stretch { at: 0, len }, held)?;
        self.complex |= code == COMPLEX;
        Ok(())
    }

    fn short_cut(&self, code: u8, below: Stretch, top: Stretch) -> Option<Result<Term, Refusal>> {
        let (below, top) = (below.of(self.terms), top.of(self.terms));
        match code {
            MUL => sums::short::mul(below, top),
            POW => sums::short::pow(below, top),
            _ => None,
        }
    }

    /// The top sum, out of the way in a working place, is added to the one below it.
    fn add(
        &mut self,
        change: impl Fn(Complex) -> Complex,
        below: Stretch,
        top: Stretch,
        held: usize,
    ) -> Result<(), Refusal> {
        self.terms.copy_within(top.at..top.end(), 0);
        let aside = Stretch { at: 0, ..top };
        let len = sums::add_each(&mut self.terms[..], change, aside, below)?;
        self.laid(below.at, len, held)
    }

    /// Where the top sums of a stack that ends there begin, so many of them.
    fn below(&self, count: usize, bottom: usize, end: usize) -> Option<usize> {
        let mut at = end;
        for _ in 0..count {
            if at <= bottom {
                return None;
            }
            at -= self.sizes[at - 1] as usize;
        }
        Some(at)
    }

    fn copy_block(&mut self, from: usize, to: usize, len: usize) {
        self.terms.copy_within(from..from + len, to);
        self.sizes.copy_within(from..from + len, to);
    }

    /// The top sums are held, so many of them: where they lie then.
    fn hold(&mut self, count: usize, held: usize) -> Result<usize, Refusal> {
        let from = self.below(count, WORKING, self.used);
        let from = from.ok_or(Refusal::TooManyVariables)?;
        let len = self.used - from;
        self.copy_block(from, held - len, len);
        self.used = from;
        Ok(held - len)
    }

    /// Copies of the deepest of some held sums go on the stack.
    fn lend(&mut self, count: usize, of: usize, low: usize, high: usize) -> Result<(), Refusal> {
        let end = self.below(of.saturating_sub(count), low, high);
        let len = end.ok_or(Refusal::NoRoom)? - low;
        if low < self.used + len {
            return Err(Refusal::NoRoom);
        }
        self.put_back(low, low + len);
        Ok(())
    }

    fn put_back(&mut self, low: usize, high: usize) {
        self.copy_block(low, self.used, high - low);
        self.used += high - low;
    }

    /// Of some top sums the deepest is copied below all of them.
    fn copy_under(&mut self, count: usize, held: usize) -> Result<(), Refusal> {
        let from = self.below(count, WORKING, self.used);
        let from = from.ok_or(Refusal::TooManyVariables)?;
        let end = self.below(count.saturating_sub(1), from, self.used);
        let len = end.ok_or(Refusal::TooManyVariables)? - from;
        if held < self.used + len {
            return Err(Refusal::NoRoom);
        }
        self.copy_block(from, from + len, self.used - from);
        self.used += len;
        Ok(())
    }

    fn modifier(&mut self, at: usize, record: &Record, held: usize) -> Result<(), Refused> {
        let (from, to) = (at + 1, at + 1 + record.inside);
        let bodies = match record.code {
            FORK => return self.fork(at, from, to, held),
            DIP..=BOTH => 1,
            BRACKET => 2,
            _ => return Err(Refused::at(at)(Refusal::NotSupported)),
        };
        if self.count_bodies(from, to) != bodies {
            return Err(Refused::at(at)(Refusal::InterpreterBug));
        }
        let first = decode(&self.records[from]);
        let (args, mid) = (first.args as usize, from + 1 + first.inside);
        match record.code {
            GAP => {
                self.used = self.top(self.used).map_err(Refused::at(at))?.at;
                self.walk(from, to, held)
            }
            BY => {
                self.copy_under(args, held).map_err(Refused::at(at))?;
                self.walk(from, to, held)
            }
            DIP | ON => {
                let low = self.hold(1, held).map_err(Refused::at(at))?;
                if record.code == ON {
                    self.lend(1, 1, low, held).map_err(Refused::at(at))?;
                }
                self.walk(from, to, low)?;
                self.put_back(low, held);
                Ok(())
            }
            _ => {
                let low = self.hold(args, held).map_err(Refused::at(at))?;
                let (begin, end) = if record.code == BOTH {
                    (from, to)
                } else {
                    (mid, to)
                };
                self.walk(begin, end, low)?;
                self.put_back(low, held);
                self.walk(from, mid, held)
            }
        }
    }

    fn count_bodies(&self, from: usize, to: usize) -> usize {
        let (mut at, mut count) = (from, 0);
        while at < to {
            at += 1 + decode(&self.records[at]).inside;
            count += 1;
        }
        count
    }

    /// Each body of a Fork, the last of them first, gets copies of the deepest
    /// of the sums that are held.
    fn fork(&mut self, at: usize, from: usize, to: usize, held: usize) -> Result<(), Refused> {
        let (mut place, mut most) = (from, 0);
        while place < to {
            let body = decode(&self.records[place]);
            most = most.max(body.args as usize);
            place += 1 + body.inside;
        }
        let low = self.hold(most, held).map_err(Refused::at(at))?;
        for index in (0..self.count_bodies(from, to)).rev() {
            let mut place = from;
            for _ in 0..index {
                place += 1 + decode(&self.records[place]).inside;
            }
            let body = decode(&self.records[place]);
            let lent = self.lend(body.args as usize, most, low, held);
            lent.map_err(Refused::at(at))?;
            self.walk(place, place + 1 + body.inside, low)?;
        }
        Ok(())
    }
}
