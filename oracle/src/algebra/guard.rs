//! A walk over a list that finds the paper's limits where the Rust has none.
//!
//! It takes the steps of the Rust's `AlgebraEnv`, with sums formed under the
//! limits, and tells with which number and at which place a list is refused
//! first. A number up to 9 is the Rust's own refusal; from 12 up a limit's.

use super::{E, Expr, Term, forming, forming::Formed, shapes, sums};
use crate::{
    ImplPrimitive, Node, Primitive, SigNode, Value,
    answer::{Refusal, number::*},
    features::Features,
};

/// How many entries the stack and what is held may have together.
pub const MOST_STACKED: usize = 1024;
/// Nested Both doubles the steps at each level, so some lists never end.
pub const MOST_STEPS: usize = 100_000;

/// A list read to its end.
pub(super) struct Read {
    pub sum: Expr,
    pub complex: bool,
    pub pairs: u64,
    pub handled: bool,
}

/// Why a list isn't read to its end.
pub(super) enum Stop {
    Refused { refusal: Refusal, handled: bool },
    TooLong,
}

/// Read a list under the paper's limits.
pub(super) fn walk(nodes: &[Node], features: &mut Features) -> Result<Read, Stop> {
    let mut env = Env::new(features);
    let end = env.nodes(nodes).and_then(|()| env.result());
    let handled = env.handled >= 2 || env.stack.iter().any(Expr::is_complex);
    match end {
        Ok(sum) => Ok(Read {
            handled: handled || sum.is_complex(),
            sum,
            complex: env.any_complex,
            pairs: env.pairs,
        }),
        Err(Halt::Refused(refusal)) => Err(Stop::Refused { refusal, handled }),
        Err(Halt::TooLong) => Err(Stop::TooLong),
    }
}

/// How many steps a reading under the paper's limits takes, up to its refusal
/// or its end.
pub(super) fn steps(nodes: &[Node]) -> u64 {
    let mut features = Features::off();
    let mut env = Env::new(&mut features);
    env.nodes(nodes).ok();
    env.steps as u64
}

enum Halt {
    Refused(Refusal),
    TooLong,
}

struct Env<'a> {
    stack: Vec<Expr>,
    /// Entries of the sums that modifiers hold while their bodies run.
    held: usize,
    handled: usize,
    any_complex: bool,
    /// Pairs of outermost terms in records of Mul and Pow.
    pairs: u64,
    steps: usize,
    features: &'a mut Features,
}

impl<'a> Env<'a> {
    fn new(features: &'a mut Features) -> Self {
        Env {
            stack: vec![Expr::from(Term::X(1.0))],
            held: 0,
            handled: 0,
            any_complex: false,
            pairs: 0,
            steps: 0,
            features,
        }
    }

    fn result(&mut self) -> Result<Expr, Halt> {
        match self.stack.len() {
            0 => Err(Halt::Refused(Refusal::whole(NO_OUTPUT))),
            1 => Ok(self.stack.pop().expect("one sum")),
            _ => Err(Halt::Refused(Refusal::whole(TOO_MANY_OUTPUTS))),
        }
    }

    fn nodes(&mut self, nodes: &[Node]) -> Result<(), Halt> {
        nodes.iter().try_for_each(|node| self.node(node))
    }

    fn node(&mut self, node: &Node) -> Result<(), Halt> {
        self.steps += 1;
        if self.steps > MOST_STEPS {
            return Err(Halt::TooLong);
        }
        match node {
            Node::Run(nodes) => self.nodes(nodes),
            Node::Push(value, at) => self.push_value(value).map_err(refuse_at(*at)),
            Node::Prim(prim, at) => self.primitive(*prim).map_err(refuse_at(*at)),
            Node::ImplPrim(prim, at) => self.impl_primitive(*prim).map_err(refuse_at(*at)),
            Node::Mod(modifier, bodies, at) => self.modifier(*modifier, bodies, *at),
            Node::CustomInverse(custom, at) => match &custom.normal {
                _ if custom.is_obverse => Err(refuse_at(*at)(NOT_SUPPORTED)),
                // one record, and so one step, with its inside
                Ok(normal) => self.nodes(normal.node.as_slice()),
                Err(_) => Err(refuse_at(*at)(NO_INVERSE)),
            },
            Node::PushUnder(..) | Node::CopyToUnder(..) | Node::PopUnder(..) => Ok(()),
            Node::Call(_, at) | Node::ImplMod(_, _, at) | Node::Label(_, at) => {
                Err(refuse_at(*at)(NOT_SUPPORTED))
            }
        }
    }

    fn pop(&mut self) -> Result<Expr, u8> {
        self.stack.pop().ok_or(TOO_MANY_VARIABLES)
    }

    fn pop_two(&mut self) -> Result<(Expr, Expr), u8> {
        Ok((self.pop()?, self.pop()?))
    }

    fn push(&mut self, sum: Expr) -> Result<(), u8> {
        self.stack.push(sum);
        let stacked: usize = self.stack.iter().map(sums::count).sum();
        if stacked + self.held > MOST_STACKED {
            return Err(NO_ROOM);
        }
        Ok(())
    }

    fn push_value(&mut self, value: &Value) -> Result<(), u8> {
        if value.rank() > 0 {
            return Err(NON_SCALAR);
        }
        let number = match value {
            Value::Num(array) => array.data[0].into(),
            Value::Byte(array) => f64::from(array.data[0]).into(),
            Value::Complex(array) => array.data[0],
            Value::Char(_) => return Err(NON_REAL),
        };
        self.push(forming::constant(number)?)?;
        if matches!(value, Value::Complex(_)) {
            self.any_complex = true;
        }
        Ok(())
    }

    /// Push what a step forms of one sum, and count it as handled.
    fn unary(&mut self, name: &str, form: impl FnOnce(Expr) -> Formed) -> Result<(), u8> {
        let a = self.pop()?;
        let shape = self.features.is_on().then(|| shapes::sum(&a));
        let formed = form(a);
        if let Some(shape) = shape {
            self.features
                .note(|| format!("{name} {shape} -> {}", shapes::formed(&formed)));
        }
        self.push(formed?)?;
        self.handled += 1;
        Ok(())
    }

    /// Push what a step forms of two sums, the lower one first, and count it as handled.
    fn binary(&mut self, name: &str, form: impl FnOnce(Expr, Expr) -> Formed) -> Result<(), u8> {
        let (a, b) = self.pop_two()?;
        let shapes = self
            .features
            .is_on()
            .then(|| format!("{}, {}", shapes::coarse(&b), shapes::coarse(&a)));
        let formed = form(b, a);
        if let Some(shapes) = shapes {
            self.features
                .note(|| format!("{name} {shapes} -> {}", shapes::formed(&formed)));
        }
        self.push(formed?)?;
        self.handled += 1;
        Ok(())
    }

    /// [`Self::binary`] of a step whose pairs are counted.
    fn counting(
        &mut self,
        name: &str,
        form: impl FnOnce(Expr, Expr, &mut u64) -> Formed,
    ) -> Result<(), u8> {
        let mut pairs = 0;
        self.binary(name, |b, a| form(b, a, &mut pairs))?;
        self.pairs += pairs;
        Ok(())
    }

    fn primitive(&mut self, prim: Primitive) -> Result<(), u8> {
        match prim {
            Primitive::Identity => {
                let a = self.pop()?;
                self.push(a)
            }
            Primitive::Pop => self.pop().map(drop),
            Primitive::Dup => {
                let a = self.pop()?;
                self.push(a.clone())?;
                self.push(a)
            }
            Primitive::Flip => {
                let (a, b) = self.pop_two()?;
                self.push(a)?;
                self.push(b)
            }
            Primitive::Neg => self.unary("Neg", |a| Ok(-a)),
            Primitive::Not => self.unary("Not", |a| forming::sub(1.0.into(), a)),
            Primitive::Sqrt => self.unary("Sqrt", |a| forming::pow(&a, &0.5.into())),
            Primitive::Add => self.binary("Add", forming::add),
            Primitive::Sub => self.binary("Sub", forming::sub),
            Primitive::Mul => self.counting("Mul", |b, a, pairs| {
                *pairs = forming::pairs_of(&b, &a);
                forming::mul(&b, &a)
            }),
            Primitive::Div => self.binary("Div", |b, a| forming::div(&b, &a)),
            Primitive::Pow => {
                self.counting("Pow", |b, a, pairs| forming::pow_and_pairs(&b, &a, pairs))
            }
            Primitive::Exp => self.unary("Exp", |a| forming::pow(&E.into(), &a)),
            Primitive::Sin => self.unary("Sin", |a| forming::single(Term::Sin(a))),
            Primitive::Cos => self.unary("Cos", |a| forming::single(Term::Cos(a))),
            Primitive::Reciprocal => self.unary("Reciprocal", |a| forming::div(&1.0.into(), &a)),
            Primitive::Complex => {
                self.binary("Complex", |b, a| forming::complex(&a, b))?;
                // It sets the flag, and isn't counted as handled.
                self.handled -= 1;
                self.any_complex = true;
                Ok(())
            }
            _ => Err(NOT_SUPPORTED),
        }
    }

    fn impl_primitive(&mut self, prim: ImplPrimitive) -> Result<(), u8> {
        match prim {
            ImplPrimitive::Exp2 => self.unary("Exp2", |a| forming::pow(&2.0.into(), &a)),
            ImplPrimitive::Exp10 => self.unary("Exp10", |a| forming::pow(&10.0.into(), &a)),
            ImplPrimitive::Log => self.binary("Log", |b, a| forming::log(b, &a)),
            ImplPrimitive::Ln => self.unary("Ln", |a| forming::log(a, &E.into())),
            ImplPrimitive::Log2 => self.unary("Log2", |a| forming::log(a, &2.0.into())),
            ImplPrimitive::Log10 => self.unary("Log10", |a| forming::log(a, &10.0.into())),
            ImplPrimitive::Over => {
                let (a, b) = self.pop_two()?;
                self.push(b.clone())?;
                self.push(a)?;
                self.push(b)
            }
            _ => Err(NOT_SUPPORTED),
        }
    }

    fn modifier(&mut self, modifier: Primitive, bodies: &[SigNode], at: usize) -> Result<(), Halt> {
        let refuse = refuse_at(at);
        let counts = match modifier {
            Primitive::Fork => bodies.len(),
            Primitive::Bracket => 2,
            Primitive::Dip | Primitive::Gap | Primitive::On | Primitive::By | Primitive::Both => 1,
            _ => return Err(refuse(NOT_SUPPORTED)),
        };
        if bodies.len() != counts {
            return Err(refuse(INTERPRETER_BUG));
        }
        if self.features.is_on() {
            let arguments: Vec<usize> = bodies.iter().map(|body| body.sig.args()).collect();
            self.features
                .note(|| format!("{modifier:?} of bodies with arguments {arguments:?}"));
        }
        match modifier {
            Primitive::Dip => {
                let a = self.pop().map_err(&refuse)?;
                self.holding(&[&a], |env| env.node(&bodies[0].node))?;
                self.stack.push(a);
            }
            Primitive::Gap => {
                self.pop().map_err(&refuse)?;
                self.node(&bodies[0].node)?;
            }
            Primitive::On => {
                let a = self.pop().map_err(&refuse)?;
                self.holding(&[&a], |env| {
                    env.push(a.clone()).map_err(&refuse)?;
                    env.node(&bodies[0].node)
                })?;
                self.stack.push(a);
            }
            Primitive::By => {
                let args = self.pop_many(bodies[0].sig.args()).map_err(&refuse)?;
                let pushed = args.last().into_iter().chain(args.iter().rev());
                for sum in pushed {
                    self.push(sum.clone()).map_err(&refuse)?;
                }
                self.node(&bodies[0].node)?;
            }
            Primitive::Both => self.one_then_other(&bodies[0], &bodies[0], at)?,
            Primitive::Bracket => self.one_then_other(&bodies[0], &bodies[1], at)?,
            _ => self.fork(bodies, at)?,
        }
        Ok(())
    }

    /// Hold `first`'s arguments while `second` runs, then run `first` on them.
    fn one_then_other(&mut self, first: &SigNode, second: &SigNode, at: usize) -> Result<(), Halt> {
        let args = self.pop_many(first.sig.args()).map_err(refuse_at(at))?;
        let held: Vec<&Expr> = args.iter().collect();
        self.holding(&held, |env| env.node(&second.node))?;
        self.stack.extend(args.into_iter().rev());
        self.node(&first.node)
    }

    /// Every body gets copies of the lowest of the arguments, as many as it takes.
    fn fork(&mut self, bodies: &[SigNode], at: usize) -> Result<(), Halt> {
        let most = bodies.iter().map(|body| body.sig.args()).max();
        let mut args = self.pop_many(most.unwrap_or(0)).map_err(refuse_at(at))?;
        args.reverse();
        let held: Vec<&Expr> = args.iter().collect();
        self.holding(&held, |env| {
            for body in bodies.iter().rev() {
                for arg in args.iter().take(body.sig.args()) {
                    env.push(arg.clone()).map_err(refuse_at(at))?;
                }
                env.node(&body.node)?;
            }
            Ok(())
        })
    }

    fn pop_many(&mut self, count: usize) -> Result<Vec<Expr>, u8> {
        (0..count).map(|_| self.pop()).collect()
    }

    /// Do something while some sums count as held.
    fn holding<T>(
        &mut self,
        sums: &[&Expr],
        action: impl FnOnce(&mut Self) -> Result<T, Halt>,
    ) -> Result<T, Halt> {
        let entries: usize = sums.iter().map(|sum| sums::count(sum)).sum();
        self.held += entries;
        let result = action(self)?;
        self.held -= entries;
        Ok(result)
    }
}

fn refuse_at(place: usize) -> impl Fn(u8) -> Halt {
    move |number| Halt::Refused(Refusal::new(number, place))
}
