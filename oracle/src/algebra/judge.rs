//! The entries: what the Rust answers, and where the paper's limits cut in.

use std::panic::{AssertUnwindSafe, catch_unwind};

use super::{
    AlgebraEnv, AlgebraError, Expr, algebraic_inverse, derivative as rust_derivative, expr_deriv,
    expr_integral, expr_to_node, faithful, forming, guard, guard::Stop, integral as rust_integral,
    nodes_expr, sums,
};
use crate::{
    Assembly, Node,
    answer::{Answer, ReadSum, Refusal, number::*},
    features::Features,
    quiet::quietly,
    records,
    records::bytes_of,
    stand_ins::{pairs, steps::counted},
};

fn number_of(error: &AlgebraError) -> u8 {
    match error {
        AlgebraError::TooManyVariables => TOO_MANY_VARIABLES,
        AlgebraError::NotSupported(_) => NOT_SUPPORTED,
        AlgebraError::NoOutput => NO_OUTPUT,
        AlgebraError::TooManyOutputs => TOO_MANY_OUTPUTS,
        AlgebraError::NonScalar => NON_SCALAR,
        AlgebraError::NonReal => NON_REAL,
        AlgebraError::TooComplex => TOO_COMPLEX,
        AlgebraError::InterpreterBug => INTERPRETER_BUG,
        AlgebraError::NoInverse => NO_INVERSE,
    }
}

/// What the Rust alone answers, whatever the limits: the entries without a guard.
pub mod rust {
    use super::*;

    /// The Rust's answer, or `None` where it panics.
    pub type Outcome<T> = Option<Result<T, Refusal>>;

    /// What makes a list of a sum, with the complex flag.
    pub(super) type Writer = fn(Expr, bool, &Assembly) -> Node;

    fn catch<T>(action: impl FnOnce() -> Result<T, Refusal>) -> Outcome<T> {
        quietly(|| catch_unwind(AssertUnwindSafe(action)).ok())
    }

    /// Where the Rust refuses while reading: its call stack keeps the span of
    /// every node that it is in, and a span is a record's index.
    fn place_of_refusal(nodes: &[Node], asm: &Assembly) -> usize {
        let mut env = AlgebraEnv::new(asm);
        let refused = nodes.iter().any(|node| env.node(node).is_err());
        match env.call_stack.last() {
            Some(&place) if refused => place,
            _ => 0,
        }
    }

    fn refusal_in(nodes: &[Node], asm: &Assembly, error: &AlgebraError) -> Refusal {
        Refusal::new(number_of(error), place_of_refusal(nodes, asm))
    }

    pub(in super::super) fn read_nodes(nodes: &[Node]) -> Outcome<ReadSum> {
        let asm = Assembly::default();
        catch(|| {
            let (data, pairs) = pairs::counted(0, || nodes_expr(nodes, &asm));
            match data.expr {
                Ok(sum) => Ok(ReadSum {
                    complex: data.any_complex,
                    pairs,
                    entries: sums::written(&sum),
                }),
                Err(error) => Err(refusal_in(nodes, &asm, &error)),
            }
        })
    }

    /// The pairs of a list that the Rust reads, counted from this number up.
    pub fn pairs_from(from: u64, list: &[u8]) -> Option<u64> {
        let nodes = parse(list).ok()?;
        let asm = Assembly::default();
        let (data, pairs) = pairs::counted(from, || nodes_expr(&nodes, &asm));
        data.expr.is_ok().then_some(pairs)
    }

    /// How far the Rust comes in reading a list.
    #[derive(Debug, Clone, Copy, PartialEq, Eq)]
    pub enum End {
        /// No record is refused; none or several sums may be left.
        Whole,
        Refused,
        /// It was stopped as it began one step more than it may take.
        Stopped,
    }

    /// How many steps the Rust takes in reading a list, of which it may take so many.
    pub fn steps(list: &[u8], most: u64) -> Result<(u64, End), Refusal> {
        let nodes = parse(list)?;
        let asm = Assembly::default();
        let (read, taken) = counted(most, || nodes_expr(&nodes, &asm).expr);
        let end = match read {
            None => End::Stopped,
            Some(Ok(_) | Err(AlgebraError::NoOutput | AlgebraError::TooManyOutputs)) => End::Whole,
            Some(Err(_)) => End::Refused,
        };
        Ok((taken, end))
    }

    /// A refusal after the reading has place 0.
    fn refusal_of(nodes: &[Node], asm: &Assembly, error: &AlgebraError) -> Refusal {
        match nodes_expr(nodes, asm).expr {
            Ok(_) => Refusal::whole(number_of(error)),
            Err(_) => refusal_in(nodes, asm, error),
        }
    }

    pub(super) fn to_list(
        nodes: &[Node],
        entry: fn(&Node, &Assembly) -> Result<Node, AlgebraError>,
    ) -> Outcome<Vec<u8>> {
        let asm = Assembly::default();
        catch(|| match entry(&Node::Run(nodes.to_vec()), &asm) {
            Ok(node) => Ok(bytes_of(&records::written(&node))),
            Err(error) => Err(refusal_of(nodes, &asm, &error)),
        })
    }

    pub(in super::super) fn derivative_nodes(nodes: &[Node]) -> Outcome<Vec<u8>> {
        to_list(nodes, rust_derivative)
    }

    pub(in super::super) fn integral_nodes(nodes: &[Node]) -> Outcome<Vec<u8>> {
        to_list(nodes, rust_integral)
    }

    pub(in super::super) fn inverse_nodes(nodes: &[Node]) -> Outcome<Vec<u8>> {
        let asm = Assembly::default();
        catch(|| match algebraic_inverse(nodes, &asm) {
            Ok(node) => Ok(bytes_of(&records::written(&node))),
            Err(None) => Err(Refusal::whole(NOT_HANDLED)),
            Err(Some(error)) => Err(refusal_of(nodes, &asm, &error)),
        })
    }

    pub(in super::super) fn derive_sum(sum: &Expr) -> Outcome<Vec<u8>> {
        calculus(sum, expr_deriv)
    }

    pub(in super::super) fn integrate_sum(sum: &Expr) -> Outcome<Vec<u8>> {
        calculus(sum, expr_integral)
    }

    fn calculus(sum: &Expr, entry: fn(Expr) -> Option<Expr>) -> Outcome<Vec<u8>> {
        catch(|| match entry(sum.clone()) {
            Some(sum) => Ok(sums::written(&sum)),
            None => Err(Refusal::whole(TOO_COMPLEX)),
        })
    }

    pub(in super::super) fn write_sum(sum: &Expr, complex: bool) -> Outcome<Vec<u8>> {
        write_by(expr_to_node, sum, complex)
    }

    /// A sum as a list, by this writer.
    pub(super) fn write_by(writer: Writer, sum: &Expr, complex: bool) -> Outcome<Vec<u8>> {
        let asm = Assembly::default();
        catch(|| {
            let node = writer(sum.clone(), complex, &asm);
            Ok(bytes_of(&records::written(&node)))
        })
    }

    macro_rules! over_bytes {
        ($($(#[$attr:meta])* $name:ident, $parse:expr, $entry:ident -> $type:ty;)*) => {$(
            $(#[$attr])*
            pub fn $name(bytes: &[u8]) -> Outcome<$type> {
                match $parse(bytes) {
                    Ok(parsed) => $entry(&parsed),
                    Err(refusal) => Some(Err(refusal)),
                }
            }
        )*};
    }

    over_bytes! {
        /// List to sum and complex flag.
        read, parse, read_nodes -> ReadSum;
        /// List to list.
        derivative, parse, derivative_nodes -> Vec<u8>;
        /// List to list.
        integral, parse, integral_nodes -> Vec<u8>;
        /// List to list.
        inverse, parse, inverse_nodes -> Vec<u8>;
        /// Sum to sum.
        derive, sums::read, derive_sum -> Vec<u8>;
        /// Sum to sum.
        integrate, sums::read, integrate_sum -> Vec<u8>;
    }

    /// Sum and complex flag to list.
    pub fn write(bytes: &[u8], complex: bool) -> Outcome<Vec<u8>> {
        match sums::read(bytes) {
            Ok(sum) => write_sum(&sum, complex),
            Err(refusal) => Some(Err(refusal)),
        }
    }
}

/// The Rust with the second writer in the place of its own.
mod second {
    use super::*;

    fn calculated(
        node: &Node,
        asm: &Assembly,
        calculus: fn(Expr) -> Option<Expr>,
    ) -> Result<Node, AlgebraError> {
        let data = nodes_expr(node, asm);
        let made = calculus(data.expr?).ok_or(AlgebraError::TooComplex)?;
        Ok(faithful::expr_to_node(made, data.any_complex, asm))
    }

    pub fn derivative_nodes(nodes: &[Node]) -> rust::Outcome<Vec<u8>> {
        rust::to_list(nodes, |node, asm| calculated(node, asm, expr_deriv))
    }

    pub fn integral_nodes(nodes: &[Node]) -> rust::Outcome<Vec<u8>> {
        rust::to_list(nodes, |node, asm| calculated(node, asm, expr_integral))
    }

    pub fn write_sum(sum: &Expr, complex: bool) -> rust::Outcome<Vec<u8>> {
        rust::write_by(faithful::expr_to_node, sum, complex)
    }
}

fn parse(list: &[u8]) -> Result<Vec<Node>, Refusal> {
    let records = records::check(list).map_err(records::Fault::refusal)?;
    Ok(records::nodes(&records))
}

fn from_rust<T>(outcome: rust::Outcome<T>) -> Answer<T> {
    outcome.map_or(Answer::Panic, Answer::Rust)
}

/// A written list, or the paper's 15 where the Rust writes a number that isn't finite.
fn finite_list(outcome: rust::Outcome<Vec<u8>>) -> Answer<Vec<u8>> {
    if let Some(Ok(list)) = &outcome {
        let records = records::split(list).expect("whole records");
        if records::any_not_finite(&records) {
            return Answer::Limit(Refusal::whole(NOT_FINITE));
        }
    }
    from_rust(outcome)
}

/// What stands instead of the Rust's answer, if anything does.
fn cut<T>(stop: &Stop) -> Option<Answer<T>> {
    match stop {
        Stop::TooLong => Some(Answer::TooLong),
        Stop::Refused { refusal, .. } if refusal.number >= NO_ROOM => Some(Answer::Limit(*refusal)),
        Stop::Refused { .. } => None,
    }
}

/// List to sum and complex flag.
pub fn read(list: &[u8]) -> Answer<ReadSum> {
    read_noting(list, &mut Features::off())
}

/// [`read`], noting which arms are reached on the way.
pub fn read_noting(list: &[u8], features: &mut Features) -> Answer<ReadSum> {
    let nodes = match parse(list) {
        Ok(nodes) => nodes,
        Err(refusal) => return Answer::Form(refusal),
    };
    match guard::walk(&nodes, features) {
        Err(stop) => cut(&stop).unwrap_or_else(|| from_rust(rust::read_nodes(&nodes))),
        Ok(_) => from_rust(rust::read_nodes(&nodes)),
    }
}

fn list_to_list(
    list: &[u8],
    form: fn(&Expr) -> Result<Expr, u8>,
    entry: fn(&[Node]) -> rust::Outcome<Vec<u8>>,
) -> Answer<Vec<u8>> {
    let nodes = match parse(list) {
        Ok(nodes) => nodes,
        Err(refusal) => return Answer::Form(refusal),
    };
    match guard::walk(&nodes, &mut Features::off()) {
        Err(stop) => cut(&stop).unwrap_or_else(|| from_rust(entry(&nodes))),
        Ok(read) => match form(&read.sum) {
            Err(number) if number >= NO_ROOM => Answer::Limit(Refusal::whole(number)),
            _ => finite_list(entry(&nodes)),
        },
    }
}

/// List to list.
pub fn derivative(list: &[u8]) -> Answer<Vec<u8>> {
    list_to_list(list, forming::derive, rust::derivative_nodes)
}

/// List to list.
pub fn integral(list: &[u8]) -> Answer<Vec<u8>> {
    list_to_list(list, forming::integrate, rust::integral_nodes)
}

/// List to list, written by the second writer.
pub fn derivative_faithful(list: &[u8]) -> Answer<Vec<u8>> {
    list_to_list(list, forming::derive, second::derivative_nodes)
}

/// List to list, written by the second writer.
pub fn integral_faithful(list: &[u8]) -> Answer<Vec<u8>> {
    list_to_list(list, forming::integrate, second::integral_nodes)
}

/// List to list.
pub fn inverse(list: &[u8]) -> Answer<Vec<u8>> {
    let nodes = match parse(list) {
        Ok(nodes) => nodes,
        Err(refusal) => return Answer::Form(refusal),
    };
    let walked = guard::walk(&nodes, &mut Features::off());
    if let Some(answer) = walked.as_ref().err().and_then(cut) {
        return answer;
    }
    let outcome = rust::inverse_nodes(&nodes);
    match (walked, &outcome) {
        (Ok(read), Some(Ok(_))) if forming::inverse_needs_math(&read.sum) => {
            Answer::Limit(Refusal::whole(NEEDS_MATH))
        }
        _ => finite_list(outcome),
    }
}

fn sum_to_sum(
    bytes: &[u8],
    form: fn(&Expr) -> Result<Expr, u8>,
    entry: fn(&Expr) -> rust::Outcome<Vec<u8>>,
) -> Answer<Vec<u8>> {
    let sum = match sums::read(bytes) {
        Ok(sum) => sum,
        Err(refusal) => return Answer::Form(refusal),
    };
    match form(&sum) {
        Err(number) if number >= NO_ROOM => Answer::Limit(Refusal::whole(number)),
        _ => from_rust(entry(&sum)),
    }
}

/// Sum to sum.
pub fn derive(bytes: &[u8]) -> Answer<Vec<u8>> {
    sum_to_sum(bytes, forming::derive, rust::derive_sum)
}

/// Sum to sum.
pub fn integrate(bytes: &[u8]) -> Answer<Vec<u8>> {
    sum_to_sum(bytes, forming::integrate, rust::integrate_sum)
}

/// Sum and complex flag to list.
pub fn write(bytes: &[u8], complex: bool) -> Answer<Vec<u8>> {
    sum_to_list(bytes, complex, rust::write_sum)
}

/// Sum and complex flag to list, by the second writer.
pub fn write_faithful(bytes: &[u8], complex: bool) -> Answer<Vec<u8>> {
    sum_to_list(bytes, complex, second::write_sum)
}

fn sum_to_list(
    bytes: &[u8],
    complex: bool,
    entry: fn(&Expr, bool) -> rust::Outcome<Vec<u8>>,
) -> Answer<Vec<u8>> {
    match sums::read(bytes) {
        Ok(sum) => finite_list(entry(&sum, complex)),
        Err(refusal) => Answer::Form(refusal),
    }
}

/// What the guard's own walk comes to, for holding it against the Rust: the
/// sum it forms and the flag, or the refusal.
pub fn guard_read(list: &[u8]) -> Option<Result<ReadSum, Refusal>> {
    let nodes = parse(list).ok()?;
    match guard::walk(&nodes, &mut Features::off()) {
        Ok(read) => Some(Ok(ReadSum {
            complex: read.complex,
            pairs: read.pairs,
            entries: sums::written(&read.sum),
        })),
        Err(Stop::Refused { refusal, .. }) => Some(Err(refusal)),
        Err(Stop::TooLong) => None,
    }
}

/// Whether the guard's own walk counts a list as handled, for holding it
/// against the Rust's 10.
pub fn guard_handled(list: &[u8]) -> Option<bool> {
    let nodes = parse(list).ok()?;
    match guard::walk(&nodes, &mut Features::off()) {
        Ok(read) => Some(read.handled),
        Err(Stop::Refused { handled, .. }) => Some(handled),
        Err(Stop::TooLong) => None,
    }
}

/// How many steps the guard's own walk takes, for holding it against the Rust.
pub fn guard_steps(list: &[u8]) -> Option<u64> {
    Some(guard::steps(&parse(list).ok()?))
}

/// What the guard's own steps come to for [`derive`].
pub fn guard_derive(bytes: &[u8]) -> Option<Result<Vec<u8>, Refusal>> {
    guard_formed(bytes, forming::derive)
}

/// What the guard's own steps come to for [`integrate`].
pub fn guard_integrate(bytes: &[u8]) -> Option<Result<Vec<u8>, Refusal>> {
    guard_formed(bytes, forming::integrate)
}

fn guard_formed(
    bytes: &[u8],
    form: fn(&Expr) -> Result<Expr, u8>,
) -> Option<Result<Vec<u8>, Refusal>> {
    let sum = sums::read(bytes).ok()?;
    Some(match form(&sum) {
        Ok(sum) => Ok(sums::written(&sum)),
        Err(number) => Err(Refusal::whole(number)),
    })
}
