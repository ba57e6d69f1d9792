//! The tokens of a formula, each with where it stands.

use uplink::Primitive;

use super::{
    fault::{Fault, Kind},
    hints, FUNCTIONS,
};
use crate::notation::Span;

#[derive(Debug, Clone, Copy, PartialEq)]
pub enum Token {
    Number(f64),
    X,
    /// A function's name and step.
    Function(&'static str, Primitive),
    Plus,
    Minus,
    Times,
    Over,
    Power,
    /// ² or ³, as the power that it stands for.
    Superscript(f64),
    Open,
    Close,
    End,
}

/// Goes through a formula token by token.
#[derive(Debug, Clone)]
pub struct Tokens<'a> {
    rest: &'a str,
    line: usize,
    column: usize,
    /// Just behind the last token.
    end: Span,
    ahead: Option<(Token, Span)>,
}

const START: Span = Span {
    line: 1,
    column: 1,
    width: 1,
};

impl<'a> Tokens<'a> {
    pub fn of(text: &'a str) -> Self {
        Tokens {
            rest: text.strip_prefix('\u{feff}').unwrap_or(text),
            line: 1,
            column: 1,
            end: START,
            ahead: None,
        }
    }

    /// The next token, which stays.
    pub fn peek(&mut self) -> Result<(Token, Span), Fault> {
        match self.ahead {
            Some(ahead) => Ok(ahead),
            None => {
                let next = self.next()?;
                self.ahead = Some(next);
                Ok(next)
            }
        }
    }

    /// The next token, which is taken.
    pub fn take(&mut self) -> Result<(Token, Span), Fault> {
        let next = self.peek()?;
        self.ahead = None;
        Ok(next)
    }

    fn next(&mut self) -> Result<(Token, Span), Fault> {
        self.skip_blank();
        let Some(first) = self.rest.chars().next() else {
            return Ok((Token::End, self.end));
        };
        let length = match first {
            '0'..='9' | '.' => number_length(self.rest),
            'a'..='z' | 'A'..='Z' => word_length(self.rest),
            _ => first.len_utf8(),
        };
        let word = &self.rest[..length];
        let span = Span {
            line: self.line,
            column: self.column,
            width: word.chars().count(),
        };
        self.step(length);
        self.end = Span {
            line: self.line,
            column: self.column,
            width: 1,
        };
        let token = match first {
            '0'..='9' | '.' => number(word).map_err(|said| Fault::new(Kind::Number, span, said)),
            'a'..='z' | 'A'..='Z' => {
                named(word).ok_or_else(|| Fault::new(Kind::Name, span, hints::of_name(word)))
            }
            _ => sign(first).ok_or_else(|| Fault::new(Kind::Sign, span, hints::of_sign(first))),
        };
        Ok((token?, span))
    }

    fn skip_blank(&mut self) {
        while let Some(first) = self.rest.chars().next() {
            match first {
                '#' => self.step(self.rest.find('\n').unwrap_or(self.rest.len())),
                _ if BLANK.contains(&first) => self.step(first.len_utf8()),
                _ => return,
            }
        }
    }

    /// Goes on by so many bytes.
    fn step(&mut self, bytes: usize) {
        let (taken, rest) = self.rest.split_at(bytes);
        for character in taken.chars() {
            if character == '\n' {
                (self.line, self.column) = (self.line + 1, 1);
            } else {
                self.column += 1;
            }
        }
        self.rest = rest;
    }
}

const BLANK: [char; 7] = [' ', '\t', '\n', '\r', '\u{a0}', '\u{2009}', '\u{202f}'];

fn sign(character: char) -> Option<Token> {
    Some(match character {
        '+' => Token::Plus,
        '-' | '−' => Token::Minus,
        '*' | '×' | '·' => Token::Times,
        '/' => Token::Over,
        '^' => Token::Power,
        '²' => Token::Superscript(2.0),
        '³' => Token::Superscript(3.0),
        '(' => Token::Open,
        ')' => Token::Close,
        _ => return None,
    })
}

fn named(word: &str) -> Option<Token> {
    if word == "x" {
        return Some(Token::X);
    }
    let (name, step) = FUNCTIONS.iter().find(|(name, _)| *name == word)?;
    Some(Token::Function(name, *step))
}

fn word_length(text: &str) -> usize {
    let is_of_word = |byte: &u8| byte.is_ascii_alphanumeric() || *byte == b'_';
    text.bytes().take_while(is_of_word).count()
}

/// How many bytes are digits and points.
fn digits_length(text: &str) -> usize {
    let is_of_number = |byte: &u8| byte.is_ascii_digit() || *byte == b'.';
    text.bytes().take_while(is_of_number).count()
}

/// A number with its exponent, and with digits and points straight behind that, which don't belong there.
fn number_length(text: &str) -> usize {
    let mantissa = digits_length(text);
    let exponent = exponent_length(&text[mantissa..]);
    match exponent {
        0 => mantissa,
        _ => mantissa + exponent + digits_length(&text[mantissa + exponent..]),
    }
}

/// How many bytes an exponent has, 0 where there is none.
fn exponent_length(text: &str) -> usize {
    let Some(behind) = text.strip_prefix(['e', 'E']) else {
        return 0;
    };
    let unsigned = behind.strip_prefix(['+', '-', '−']).unwrap_or(behind);
    match unsigned.bytes().take_while(u8::is_ascii_digit).count() {
        0 => 0,
        digits => text.len() - unsigned.len() + digits,
    }
}

/// The number that digits stand for, or what is wrong with them.
fn number(word: &str) -> Result<Token, String> {
    let mantissa = &word[..digits_length(word)];
    let is_zero = mantissa.bytes().all(|byte| matches!(byte, b'0' | b'.'));
    let shown = hints::short(word);
    match word.replace('−', "-").parse::<f64>() {
        Err(_) => Err(format!(
            "`{shown}` is no number; numbers look like 3, 0.5 or 2.5e-3"
        )),
        Ok(number) if !number.is_finite() => {
            Err(format!("{shown} is too large for a binary64 number"))
        }
        Ok(0.0) if !is_zero => Err(format!(
            "{shown} is too small for a binary64 number; write 0 if that is meant"
        )),
        Ok(number) => Ok(Token::Number(number)),
    }
}
