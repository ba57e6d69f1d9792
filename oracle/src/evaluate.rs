//! The value of a list at a number: the program as a calculator runs it, with
//! no algebra. It is no part of the judging; it shows where the algebra departs
//! from calculus.

use crate::{Complex, ImplPrimitive, Node, Primitive, SigNode, Value, records};

/// What a list leaves of a stack that starts with `x`, if it runs and leaves one value.
pub fn list_value(list: &[u8], x: Complex) -> Option<Complex> {
    let records = records::check(list).ok()?;
    let mut stack = vec![x];
    run(&records::nodes(&records), &mut stack)?;
    match stack[..] {
        [value] => Some(value),
        _ => None,
    }
}

fn run(nodes: &[Node], stack: &mut Vec<Complex>) -> Option<()> {
    nodes.iter().try_for_each(|node| step(node, stack))
}

fn step(node: &Node, stack: &mut Vec<Complex>) -> Option<()> {
    match node {
        Node::Run(nodes) => run(nodes, stack),
        Node::Push(Value::Num(array), _) => {
            stack.push(array.data[0].into());
            Some(())
        }
        Node::Push(Value::Complex(array), _) => {
            stack.push(array.data[0]);
            Some(())
        }
        Node::Prim(prim, _) => primitive(*prim, stack),
        Node::ImplPrim(prim, _) => impl_primitive(*prim, stack),
        Node::Mod(prim, bodies, _) => modifier(*prim, bodies, stack),
        Node::CustomInverse(custom, _) if !custom.is_obverse => {
            step(&custom.normal.as_ref().ok()?.node, stack)
        }
        Node::PushUnder(..) => Some(()),
        _ => None,
    }
}

fn primitive(prim: Primitive, stack: &mut Vec<Complex>) -> Option<()> {
    let a = stack.pop()?;
    let result = match prim {
        Primitive::Identity => a,
        Primitive::Pop => return Some(()),
        Primitive::Dup => {
            stack.push(a);
            a
        }
        Primitive::Neg => -a,
        Primitive::Not => 1.0 - a,
        Primitive::Sqrt => a.sqrt(),
        Primitive::Exp => a.exp(),
        Primitive::Sin => a.sin(),
        Primitive::Cos => a.cos(),
        Primitive::SinH => a.sinh(),
        Primitive::CosH => a.cosh(),
        Primitive::Reciprocal => Complex::ONE / a,
        binary => {
            let b = stack.pop()?;
            match binary {
                Primitive::Flip => {
                    stack.push(a);
                    b
                }
                Primitive::Add => b + a,
                Primitive::Sub => b - a,
                Primitive::Mul => b * a,
                Primitive::Div => b / a,
                Primitive::Pow => b.powc(a),
                Primitive::Complex => b + a * Complex::I,
                Primitive::Max => b.max(a),
                _ => return None,
            }
        }
    };
    stack.push(result);
    Some(())
}

fn impl_primitive(prim: ImplPrimitive, stack: &mut Vec<Complex>) -> Option<()> {
    let a = stack.pop()?;
    let result = match prim {
        ImplPrimitive::Exp2 => Complex::from(2.0).powc(a),
        ImplPrimitive::Exp10 => Complex::from(10.0).powc(a),
        ImplPrimitive::Ln => a.ln(),
        ImplPrimitive::Log2 => a.log(2.0),
        ImplPrimitive::Log10 => a.log(10.0),
        ImplPrimitive::Log => stack.pop()?.log(a),
        ImplPrimitive::Root => stack.pop()?.powc(1.0 / a),
        ImplPrimitive::Over => {
            let b = stack.pop()?;
            stack.extend([b, a]);
            b
        }
        ImplPrimitive::Unlisted(_) => return None,
    };
    stack.push(result);
    Some(())
}

fn modifier(prim: Primitive, bodies: &[SigNode], stack: &mut Vec<Complex>) -> Option<()> {
    let first = bodies.first();
    let mut take = |count: usize| {
        let at = stack.len().checked_sub(count)?;
        Some(stack.split_off(at))
    };
    match prim {
        Primitive::Dip => {
            let held = take(1)?;
            step(&first?.node, stack)?;
            stack.extend(held);
        }
        Primitive::Gap => {
            take(1)?;
            step(&first?.node, stack)?;
        }
        Primitive::On => {
            let copy = *stack.last()?;
            step(&first?.node, stack)?;
            stack.push(copy);
        }
        Primitive::By => {
            let args = take(first?.sig.args())?;
            stack.extend(args.first().copied());
            stack.extend(args);
            step(&first?.node, stack)?;
        }
        Primitive::Both | Primitive::Bracket => {
            let held = take(first?.sig.args())?;
            step(&bodies.last()?.node, stack)?;
            stack.extend(held);
            step(&first?.node, stack)?;
        }
        Primitive::Fork => {
            let most = bodies.iter().map(|body| body.sig.args()).max().unwrap_or(0);
            let args = take(most)?;
            for body in bodies.iter().rev() {
                // A body that takes fewer values works on the top ones.
                stack.extend(&args[most - body.sig.args()..]);
                step(&body.node, stack)?;
            }
        }
        _ => return None,
    }
    Some(())
}
