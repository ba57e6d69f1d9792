//! The lines of the stored answers (vectors/).

use std::{fs, path::Path};

/// A line of stored answers: a keyword, then words.
pub struct Line<'a> {
    pub keyword: &'a str,
    pub words: Vec<&'a str>,
}

impl Line<'_> {
    #[allow(dead_code)] // not every test asks for one
    pub fn number(&self, at: usize) -> u64 {
        self.words[at].parse().expect("a number")
    }

    /// Records or entries in hex, zero bytes at their ends left off.
    pub fn bytes(&self, from: usize, each: usize) -> Vec<u8> {
        let mut bytes = Vec::new();
        for word in &self.words[from..] {
            let digits = (0..word.len() / 2).map(|at| &word[2 * at..2 * at + 2]);
            bytes.extend(digits.map(|digits| u8::from_str_radix(digits, 16).expect("hex")));
            bytes.resize(bytes.len().next_multiple_of(each), 0);
        }
        bytes
    }
}

pub fn file(name: &str) -> String {
    let folder = Path::new(env!("CARGO_MANIFEST_DIR")).join("../../vectors");
    fs::read_to_string(folder.join(name)).expect("stored answers")
}

pub fn lines(text: &str) -> impl Iterator<Item = Line<'_>> {
    text.lines().map(|line| {
        let mut words = line.split(' ');
        Line {
            keyword: words.next().unwrap_or(""),
            words: words.collect(),
        }
    })
}
