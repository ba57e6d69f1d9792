//! The words of a text, each with where it stands.

use super::Span;

#[derive(Debug, Clone, Copy, PartialEq, Eq)]
pub enum Token<'a> {
    Open,
    Close,
    Word(&'a str),
    End,
}

/// Goes through a text word by word.
#[derive(Debug, Clone)]
pub struct Tokens<'a> {
    rest: &'a str,
    line: usize,
    column: usize,
}

impl<'a> Tokens<'a> {
    pub fn of(text: &'a str) -> Self {
        Tokens {
            rest: text.strip_prefix('\u{feff}').unwrap_or(text),
            line: 1,
            column: 1,
        }
    }

    /// The next token, which stays.
    pub fn peek(&self) -> (Token<'a>, Span) {
        self.clone().take()
    }

    /// The next token, which is taken.
    pub fn take(&mut self) -> (Token<'a>, Span) {
        self.skip_blank();
        let word = match self.rest.chars().next() {
            None => "",
            Some('{' | '}') => &self.rest[..1],
            Some(_) => first_word(self.rest),
        };
        let span = Span {
            line: self.line,
            column: self.column,
            width: word.chars().count(),
        };
        self.step(word.len());
        let token = match word {
            "" => Token::End,
            "{" => Token::Open,
            "}" => Token::Close,
            word => Token::Word(word),
        };
        (token, span)
    }

    fn skip_blank(&mut self) {
        while let Some(first) = self.rest.chars().next() {
            match first {
                '#' => self.step(self.rest.find('\n').unwrap_or(self.rest.len())),
                _ if is_blank(first) => self.step(first.len_utf8()),
                _ => return,
            }
        }
    }

    /// Goes on by so many bytes.
    fn step(&mut self, bytes: usize) {
        let (taken, rest) = self.rest.split_at(bytes);
        for character in taken.chars() {
            if character == '\n' {
                (self.line, self.column) = (self.line + 1, 1);
            } else {
                self.column += 1;
            }
        }
        self.rest = rest;
    }
}

/// The words of a text, braces among them.
pub fn words(text: &str) -> Vec<&str> {
    let mut tokens = Tokens::of(text);
    std::iter::from_fn(|| match tokens.take().0 {
        Token::End => None,
        Token::Open => Some("{"),
        Token::Close => Some("}"),
        Token::Word(word) => Some(word),
    })
    .collect()
}

/// The word at the front of a text; digits with a colon behind them are a word by themselves.
fn first_word(text: &str) -> &str {
    let word = &text[..text.find(ends_word).unwrap_or(text.len())];
    let digits = word.bytes().take_while(u8::is_ascii_digit).count();
    match word.as_bytes().get(digits) {
        Some(b':') if digits > 0 => &word[..=digits],
        _ => word,
    }
}

fn is_blank(character: char) -> bool {
    character.is_whitespace() || character == ','
}

fn ends_word(character: char) -> bool {
    is_blank(character) || matches!(character, '{' | '}' | '#')
}

#[cfg(test)]
mod tests {
    use super::*;

    #[test]
    fn words_have_their_places() {
        let mut tokens = Tokens::of("push 3,Pow # x³\n  On{2:é}");
        let mut found = Vec::new();
        loop {
            let (token, span) = tokens.take();
            found.push((token, span.line, span.column, span.width));
            if token == Token::End {
                break;
            }
        }
        let expected = [
            (Token::Word("push"), 1, 1, 4),
            (Token::Word("3"), 1, 6, 1),
            (Token::Word("Pow"), 1, 8, 3),
            (Token::Word("On"), 2, 3, 2),
            (Token::Open, 2, 5, 1),
            (Token::Word("2:"), 2, 6, 2),
            (Token::Word("é"), 2, 8, 1),
            (Token::Close, 2, 9, 1),
            (Token::End, 2, 10, 0),
        ];
        assert_eq!(found, expected);
    }
}
