//! A sum as a list of records, as the Rust writes it: the argument of a
//! function continues the list so far.

use crate::{
    records::{BODY, Bytes, COMPLEX_PUSH, MODIFIER, PRIMITIVE, REAL_PUSH, Record, Refusal, encode},
    records::{modifier::ON, primitive::*},
    sum::{self, Complex, Term, X, each},
};

/// A list that grows at both ends.
trait List {
    fn is_empty(&self) -> bool;
    fn add(&mut self, record: Record);
    /// What is written so far becomes the body of an On.
    fn wrap(&mut self);
}

/// How many records are added, and how often they are wrapped.
#[derive(Default)]
struct Counted {
    records: usize,
    wraps: usize,
}

impl List for Counted {
    fn is_empty(&self) -> bool {
        self.records == 0
    }

    fn add(&mut self, _record: Record) {
        self.records += 1;
    }

    fn wrap(&mut self) {
        self.wraps += 1;
    }
}

/// Records between two places of the output.
struct Written<'a> {
    out: &'a mut [Bytes],
    from: usize,
    end: usize,
}

impl List for Written<'_> {
    fn is_empty(&self) -> bool {
        self.from == self.end
    }

    fn add(&mut self, record: Record) {
        self.out[self.end] = encode(&record);
        self.end += 1;
    }

    fn wrap(&mut self) {
        let n = self.end - self.from;
        self.from -= 2;
        let on = record(MODIFIER, ON);
        self.out[self.from] = encode(&Record {
            inside: n + 1,
            ..on
        });
        self.out[self.from + 1] = encode(&Record {
            args: 1,
            inside: n,
            ..record(BODY, 0)
        });
    }
}

fn record(kind: u8, code: u8) -> Record {
    Record {
        kind,
        code,
        args: 0,
        inside: 0,
        re: 0.0,
        im: 0.0,
    }
}

struct Writer<L> {
    list: L,
    complex: bool,
}

impl<L: List> Writer<L> {
    fn say(&mut self, code: u8) {
        self.list.add(record(PRIMITIVE, code));
    }

    fn push(&mut self, re: f64) {
        self.list.add(Record {
            re,
            ..record(REAL_PUSH, 0)
        });
    }

    fn number(&mut self, c: Complex) -> Result<(), Refusal> {
        if self.complex {
            self.list.add(Record {
                re: c.re,
                im: c.im,
                ..record(COMPLEX_PUSH, 0)
            });
        } else if c.is_real() {
            self.push(c.re);
        } else {
            return Err(Refusal::NotFinite);
        }
        Ok(())
    }

    fn power(&mut self, x: &Term) -> Result<(), Refusal> {
        match x.num {
            0.0 => {
                self.push(0.0);
                self.say(MUL);
                self.number(x.coef)?;
                self.say(ADD);
            }
            0.5 => self.say(SQRT),
            1.0 => {}
            2.0 => {
                self.say(DUP);
                self.say(MUL);
            }
            power => {
                self.push(power);
                self.say(POW);
            }
        }
        Ok(())
    }

    fn function(&mut self, x: &Term) {
        match x.kind {
            sum::DIV if x.coef == Complex::ONE => self.say(RECIPROCAL),
            sum::DIV => {
                self.push(1.0);
                self.say(FLIP);
                self.say(DIV);
            }
            sum::LOG => {
                self.push(x.num);
                self.say(LOG);
            }
            sum::EXP => self.say(EXP),
            sum::SIN => self.say(SIN),
            sum::COS => self.say(COS),
            sum::SIN_H => self.say(SIN_H),
            _ => self.say(COS_H),
        }
    }

    fn term(&mut self, x: &Term, inside: &[Term]) -> Result<(), Refusal> {
        if x.kind == X {
            self.power(x)?;
        } else {
            self.sum(inside)?;
            self.function(x);
        }
        if x.coef != Complex::ONE && !x.is_one() {
            self.number(x.coef)?;
            self.say(MUL);
        }
        Ok(())
    }

    fn sum(&mut self, sum: &[Term]) -> Result<(), Refusal> {
        let mut has_x = false;
        for (x, inside) in each(sum).filter(|(x, _)| x.coef != Complex::ZERO) {
            let is_first = !has_x && self.list.is_empty();
            if self.list.is_empty() && has_x {
                self.say(DUP);
            } else if !is_first {
                self.list.wrap();
            }
            self.term(x, inside)?;
            if !is_first {
                self.say(ADD);
            }
            has_x |= x.kind == X && x.num == 1.0;
        }
        if self.list.is_empty() {
            if has_x {
                self.say(IDENTITY);
            } else {
                self.push(0.0);
                self.say(MUL);
            }
        }
        Ok(())
    }
}

/// How many records the list has, which is written to `out` where there is
/// room for all of it.
pub fn write(sum: &[Term], complex: bool, out: &mut [u8]) -> Result<usize, Refusal> {
    let list = Counted::default();
    let mut counter = Writer { list, complex };
    counter.sum(sum)?;
    let front = 2 * counter.list.wraps;
    let n = front + counter.list.records;
    let (out, _) = out.as_chunks_mut();
    if out.len() < n {
        return Err(Refusal::OutputRoom);
    }
    let list = Written {
        out,
        from: front,
        end: front,
    };
    Writer { list, complex }.sum(sum)?;
    Ok(n)
}
