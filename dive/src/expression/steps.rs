//! From a formula's tree to its steps.

use uplink::{Primitive, Record};

use super::parse::{Part, Tree};
use crate::notation::{Parsed, Span};

/// What is still to be done, the next at the end.
enum ToDo {
    /// A part in the place of the x on top.
    Take(usize),
    /// A part above the x on top.
    Keep(usize),
    Put(Record, Span),
}

/// The list of a formula, and where in the text each of its records comes from.
pub fn steps(tree: &Tree) -> Parsed {
    let mut parsed = Parsed {
        list: Vec::new(),
        spans: Vec::new(),
    };
    let mut work = whole(tree);
    while let Some(next) = work.pop() {
        match next {
            ToDo::Put(record, span) => {
                parsed.list.push(record);
                parsed.spans.push(span);
            }
            ToDo::Take(node) => work.extend(part(tree, node, true).into_iter().rev()),
            ToDo::Keep(node) => work.extend(part(tree, node, false).into_iter().rev()),
        }
    }
    parsed
}

fn whole(tree: &Tree) -> Vec<ToDo> {
    let last = tree.nodes.len() - 1;
    if tree.nodes[last].has_x {
        return vec![ToDo::Take(last)];
    }
    let pop = ToDo::Put(Primitive::Pop.into(), tree.start);
    vec![ToDo::Keep(last), pop]
}

/// What is to be done for a part, in order.
fn part(tree: &Tree, node: usize, takes_x: bool) -> Vec<ToDo> {
    let span = tree.nodes[node].span;
    let step = |primitive: Primitive| ToDo::Put(primitive.into(), span);
    match tree.nodes[node].part {
        Part::Number(number) => vec![ToDo::Put(number.into(), span)],
        Part::X if takes_x => Vec::new(),
        Part::X => vec![step(Primitive::Dup)],
        Part::Of(primitive, inner) => vec![alike(inner, takes_x), step(primitive)],
        Part::Both(primitive, left, right) if !tree.nodes[right].has_x => {
            vec![alike(left, takes_x), ToDo::Keep(right), step(primitive)]
        }
        Part::Both(primitive @ (Primitive::Add | Primitive::Mul), left, right)
            if !tree.nodes[left].has_x =>
        {
            vec![alike(right, takes_x), ToDo::Keep(left), step(primitive)]
        }
        Part::Both(primitive, left, right) => {
            let mut all = vec![ToDo::Keep(left)];
            all.extend(x_again(tree, left, takes_x).map(step));
            all.extend([ToDo::Take(right), step(primitive)]);
            all
        }
    }
}

const fn alike(node: usize, takes_x: bool) -> ToDo {
    if takes_x {
        ToDo::Take(node)
    } else {
        ToDo::Keep(node)
    }
}

/// The step that brings x above a part that was kept; none is needed where that is x too.
fn x_again(tree: &Tree, left: usize, takes_x: bool) -> Option<Primitive> {
    match tree.nodes[left].part {
        _ if !takes_x => Some(Primitive::Over),
        Part::X => None,
        _ => Some(Primitive::Flip),
    }
}
