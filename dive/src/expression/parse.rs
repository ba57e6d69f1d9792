//! From a formula's text to its tree.

use uplink::{Primitive, MOST_RECORDS};

use super::{
    fault::{too_deep, too_long, Fault, Kind},
    tokens::{Token, Tokens},
};
use crate::notation::Span;

/// So many parentheses, powers and minus signs may be open at once.
pub const MOST_OPEN: usize = 100;

/// A formula's parts, each behind those that it is made of; the last is the whole.
#[derive(Debug, Clone, PartialEq)]
pub struct Tree {
    pub nodes: Vec<Node>,
    /// Where the formula starts.
    pub start: Span,
}

#[derive(Debug, Clone, Copy, PartialEq)]
pub struct Node {
    pub part: Part,
    pub span: Span,
    pub has_x: bool,
}

#[derive(Debug, Clone, Copy, PartialEq)]
pub enum Part {
    Number(f64),
    X,
    /// A step on one part.
    Of(Primitive, usize),
    /// A step on two parts, in the order written.
    Both(Primitive, usize, usize),
}

/// The tree of a formula.
pub fn tree(text: &str) -> Result<Tree, Fault> {
    let mut tokens = Tokens::of(text);
    let (first, start) = tokens.peek()?;
    if first == Token::End {
        let message = "there is no formula here; one looks like 60 x - 6 x^2";
        return Err(Fault::new(Kind::Empty, start, message));
    }
    let tree = Tree {
        nodes: Vec::new(),
        start,
    };
    let mut parser = Parser {
        tokens,
        tree,
        open: 0,
        steps: 0,
    };
    parser.sum()?;
    match parser.tokens.peek()? {
        (Token::End, _) => Ok(parser.tree),
        (_, span) => {
            let message = "this parenthesis closes nothing: no ( stands before it";
            Err(Fault::new(Kind::Close, span, message))
        }
    }
}

struct Parser<'a> {
    tokens: Tokens<'a>,
    tree: Tree,
    /// How many parentheses, powers and minus signs are open.
    open: usize,
    /// How many parts make a step of their own.
    steps: usize,
}

type Parsed = Result<usize, Fault>;

impl Parser<'_> {
    fn sum(&mut self) -> Parsed {
        let mut left = self.product()?;
        loop {
            let (token, span) = self.tokens.peek()?;
            let step = match token {
                Token::Plus => Primitive::Add,
                Token::Minus => Primitive::Sub,
                _ => return Ok(left),
            };
            self.tokens.take()?;
            let right = self.product()?;
            left = self.both(step, left, right, span)?;
        }
    }

    fn product(&mut self) -> Parsed {
        let mut left = self.signed()?;
        let mut is_divided = false;
        loop {
            let (token, span) = self.tokens.peek()?;
            let (step, right) = match token {
                Token::Times | Token::Over => {
                    self.tokens.take()?;
                    is_divided = token == Token::Over;
                    (product_step(token), self.signed()?)
                }
                Token::X | Token::Function(..) | Token::Open if is_divided => {
                    return Err(either(span, BEHIND_DIVISION));
                }
                Token::X | Token::Function(..) | Token::Open => (Primitive::Mul, self.power()?),
                Token::Number(_) => return Err(either(span, NUMBER_BEHIND)),
                _ => return Ok(left),
            };
            left = self.both(step, left, right, span)?;
        }
    }

    /// A power, with any minus signs before it.
    fn signed(&mut self) -> Parsed {
        let (token, span) = self.tokens.peek()?;
        if token != Token::Minus {
            return self.power();
        }
        self.enter(span)?;
        self.tokens.take()?;
        let is_number = matches!(self.tokens.peek()?, (Token::Number(_), _));
        let inner = self.signed()?;
        self.open -= 1;
        match &mut self.tree.nodes[inner].part {
            Part::Number(number) if is_number => {
                *number = -*number;
                Ok(inner)
            }
            _ => self.of(Primitive::Neg, inner, span),
        }
    }

    fn power(&mut self) -> Parsed {
        let (base, is_bare) = self.primary()?;
        let (token, span) = self.tokens.peek()?;
        match token {
            Token::X | Token::Open | Token::Power | Token::Superscript(_) if is_bare => {
                Err(either(span, BEHIND_FUNCTION))
            }
            Token::Power => {
                self.enter(span)?;
                self.tokens.take()?;
                let exponent = self.signed()?;
                self.open -= 1;
                self.both(Primitive::Pow, base, exponent, span)
            }
            Token::Superscript(power) => self.raised(base, power),
            _ => Ok(base),
        }
    }

    /// A part with ² or ³ behind it.
    fn raised(&mut self, base: usize, power: f64) -> Parsed {
        let (_, span) = self.tokens.take()?;
        let exponent = self.number(power, span)?;
        let power = self.both(Primitive::Pow, base, exponent, span)?;
        match self.tokens.peek()? {
            (Token::Power | Token::Superscript(_), span) => Err(either(span, BEHIND_SUPERSCRIPT)),
            _ => Ok(power),
        }
    }

    /// The smallest part, and whether it is a function without parentheses.
    fn primary(&mut self) -> Result<(usize, bool), Fault> {
        let (token, span) = self.tokens.peek()?;
        match token {
            Token::Number(_) | Token::X => Ok((self.leaf()?, false)),
            Token::Open => Ok((self.parenthesis()?, false)),
            Token::Function(name, step) => {
                self.tokens.take()?;
                let (inside, is_bare) = self.argument(name)?;
                Ok((self.of(step, inside, span)?, is_bare))
            }
            _ => Err(Fault::new(Kind::Operand, span, missing(token))),
        }
    }

    /// What a function is of, and whether that stands without parentheses.
    fn argument(&mut self, name: &str) -> Result<(usize, bool), Fault> {
        match self.tokens.peek()? {
            (Token::Open, _) => Ok((self.parenthesis()?, false)),
            (Token::Number(_) | Token::X, _) => Ok((self.leaf()?, true)),
            (token, span) => Err(Fault::new(
                Kind::Operand,
                span,
                missing_argument(name, token),
            )),
        }
    }

    fn leaf(&mut self) -> Parsed {
        match self.tokens.take()? {
            (Token::Number(number), span) => self.number(number, span),
            (_, span) => self.put(Part::X, span, true),
        }
    }

    fn parenthesis(&mut self) -> Parsed {
        let (_, opened) = self.tokens.peek()?;
        self.enter(opened)?;
        self.tokens.take()?;
        let inside = self.sum()?;
        self.open -= 1;
        match self.tokens.take()? {
            (Token::Close, _) => Ok(inside),
            _ => {
                let message = "what starts here is never closed: a ) is missing";
                Err(Fault::new(Kind::Open, opened, message))
            }
        }
    }

    fn enter(&mut self, span: Span) -> Result<(), Fault> {
        if self.open == MOST_OPEN {
            return Err(too_deep(span));
        }
        self.open += 1;
        Ok(())
    }

    fn number(&mut self, number: f64, span: Span) -> Parsed {
        self.put(Part::Number(number), span, false)
    }

    fn of(&mut self, step: Primitive, inner: usize, span: Span) -> Parsed {
        let has_x = self.tree.nodes[inner].has_x;
        self.put(Part::Of(step, inner), span, has_x)
    }

    fn both(&mut self, step: Primitive, left: usize, right: usize, span: Span) -> Parsed {
        let has_x = self.tree.nodes[left].has_x || self.tree.nodes[right].has_x;
        self.put(Part::Both(step, left, right), span, has_x)
    }

    /// A part goes behind those that it is made of.
    fn put(&mut self, part: Part, span: Span, has_x: bool) -> Parsed {
        self.steps += usize::from(part != Part::X);
        if self.steps > MOST_RECORDS {
            return Err(too_long(self.tree.start));
        }
        self.tree.nodes.push(Node { part, span, has_x });
        Ok(self.tree.nodes.len() - 1)
    }
}

const BEHIND_DIVISION: &str =
    "this could be divided by as well or not: 1/2 x is (1/2) x or 1/(2 x); write a * or parentheses";

const NUMBER_BEHIND: &str =
    "a number stands straight behind something: write what is meant, x*2, x^2 or x + 2; a number has no blank in it";

const BEHIND_FUNCTION: &str =
    "the function could be of this as well or not: sin 2 x is sin(2) x or sin(2 x), sin x^2 is sin(x)^2 or sin(x^2); write parentheses";

const BEHIND_SUPERSCRIPT: &str =
    "this could raise the whole or the power: write (x^2)^3, x^(2^3) or x^23";

fn either(span: Span, message: &str) -> Fault {
    Fault::new(Kind::Either, span, message)
}

const fn product_step(token: Token) -> Primitive {
    match token {
        Token::Over => Primitive::Div,
        _ => Primitive::Mul,
    }
}

/// What is said where a number, x, a function or a parenthesis must stand.
fn missing(token: Token) -> String {
    let wanted = "a number, x, a function or (";
    match token {
        Token::End => format!("something is missing here: {wanted}"),
        Token::Close => format!("before this ) something is missing: {wanted}"),
        Token::Plus => {
            format!("before this + something is missing: {wanted}; a number has no + before it")
        }
        Token::Times => format!("before this something is missing: {wanted}; a power is written ^"),
        _ => format!("before this something is missing: {wanted}"),
    }
}

/// What is said where a function's argument must stand.
fn missing_argument(name: &str, token: Token) -> String {
    let meant = match token {
        Token::Power | Token::Superscript(_) => format!("; a power of it is written {name}(x)^2"),
        Token::Function(other, _) => format!(", as in {name}({other}(x))"),
        _ => String::new(),
    };
    format!("behind {name} comes x, a number or parentheses{meant}")
}
