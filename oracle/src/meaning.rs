//! What a written list gives at a number, in real numbers with the machine's
//! own functions or in complex ones with the Rust's: for holding it, bit for
//! bit, against what the sum says that it was written from
//! ([`said`](crate::algebra::values::said)).

use std::ops::{Add, Div, Mul};

use crate::{Complex, ImplPrimitive, Node, Primitive, SigNode, Value, records};

/// Numbers with the functions that are written.
pub trait Number:
    Copy + From<f64> + Add<Output = Self> + Mul<Output = Self> + Div<Output = Self>
{
    /// A coefficient; real numbers have its real part.
    fn coefficient(coef: Complex) -> Self;
    fn sqrt(self) -> Self;
    fn power(self, power: Self) -> Self;
    fn log(self, base: Self) -> Self;
    fn exp(self) -> Self;
    fn sin(self) -> Self;
    fn cos(self) -> Self;
    fn sinh(self) -> Self;
    fn cosh(self) -> Self;
}

macro_rules! with_functions {
    ($type:ty, $coefficient:expr, $power:ident) => {
        impl Number for $type {
            fn coefficient(coef: Complex) -> Self {
                $coefficient(coef)
            }
            fn power(self, power: Self) -> Self {
                self.$power(power)
            }
            with_functions!(@named $type, log, base);
            with_functions!(@named $type, sqrt exp sin cos sinh cosh);
        }
    };
    (@named $type:ty, $name:ident, $with:ident) => {
        fn $name(self, $with: Self) -> Self {
            <$type>::$name(self, $with)
        }
    };
    (@named $type:ty, $($name:ident)*) => {$(
        fn $name(self) -> Self {
            <$type>::$name(self)
        }
    )*};
}

with_functions!(f64, |coef: Complex| coef.re, powf);
with_functions!(Complex, |coef| coef, powc);

/// What a written list leaves of a stack that starts with `x`, if it leaves one value.
pub fn given<N: Number>(list: &[u8], x: N) -> Option<N> {
    let records = records::check(list).ok()?;
    let mut stack = vec![x];
    run(&records::nodes(&records), &mut stack)?;
    match stack[..] {
        [value] => Some(value),
        _ => None,
    }
}

fn run<N: Number>(nodes: &[Node], stack: &mut Vec<N>) -> Option<()> {
    nodes.iter().try_for_each(|node| step(node, stack))
}

fn step<N: Number>(node: &Node, stack: &mut Vec<N>) -> Option<()> {
    match node {
        Node::Run(nodes) => return run(nodes, stack),
        Node::Push(Value::Num(array), _) => stack.push(array.data[0].into()),
        Node::Push(Value::Complex(array), _) => stack.push(N::coefficient(array.data[0])),
        Node::Prim(Primitive::Identity, _) => {
            stack.last()?;
        }
        Node::Prim(Primitive::Dup, _) => stack.push(*stack.last()?),
        Node::Prim(Primitive::Flip, _) => {
            let (a, b) = (stack.pop()?, stack.pop()?);
            stack.extend([a, b]);
        }
        Node::Prim(prim, _) => primitive(*prim, stack)?,
        Node::ImplPrim(ImplPrimitive::Log, _) => {
            let (base, a) = (stack.pop()?, stack.pop()?);
            stack.push(a.log(base));
        }
        Node::Mod(Primitive::On, bodies, _) => on(bodies, stack)?,
        _ => return None,
    }
    Some(())
}

/// The top value goes on top of what the body leaves.
fn on<N: Number>(bodies: &[SigNode], stack: &mut Vec<N>) -> Option<()> {
    let [body] = bodies else { return None };
    let held = *stack.last()?;
    step(&body.node, stack)?;
    stack.push(held);
    Some(())
}

fn primitive<N: Number>(prim: Primitive, stack: &mut Vec<N>) -> Option<()> {
    let a = stack.pop()?;
    let value = match prim {
        Primitive::Sqrt => a.sqrt(),
        Primitive::Exp => a.exp(),
        Primitive::Sin => a.sin(),
        Primitive::Cos => a.cos(),
        Primitive::SinH => a.sinh(),
        Primitive::CosH => a.cosh(),
        Primitive::Reciprocal => N::from(1.0) / a,
        Primitive::Add => stack.pop()? + a,
        Primitive::Mul => stack.pop()? * a,
        Primitive::Div => stack.pop()? / a,
        Primitive::Pow => stack.pop()?.power(a),
        _ => return None,
    };
    stack.push(value);
    Some(())
}
