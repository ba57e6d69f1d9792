//! Strange texts: each is a formula or has a mistake in it, and none brings the program down.

use super::parse;
use crate::notation::Mistake;

/// Numbers that look random, the same ones each time.
pub struct Random(pub u64);

impl Random {
    pub fn below(&mut self, most: usize) -> usize {
        self.0 = self.0.wrapping_add(0x9e37_79b9_7f4a_7c15);
        let mixed = (self.0 ^ self.0 >> 30).wrapping_mul(0xbf58_476d_1ce4_e5b9);
        let mixed = (mixed ^ mixed >> 27).wrapping_mul(0x94d0_49bb_1331_11eb);
        ((mixed ^ mixed >> 31) % most as u64) as usize
    }
}

/// Looks at what comes of a text: a list, or a mistake inside the text that is shown.
fn look(text: &str) -> bool {
    match parse(text) {
        Ok(parsed) => {
            assert!(parsed.list.len() <= 2048 && parsed.list.len() == parsed.spans.len());
            true
        }
        Err(fault) => {
            let span = fault.span;
            let lines: Vec<&str> = text.split('\n').collect();
            let line = lines.get(span.line - 1).expect("a line of the text");
            assert!(
                span.width >= 1 && span.column <= line.chars().count() + 1,
                "{text:?}"
            );
            let shown = Mistake::from(fault).shown("formula", text);
            assert!(
                shown.lines().count() >= 3 && shown.chars().count() < 1000,
                "{shown}"
            );
            false
        }
    }
}

/// What random texts are made of, the usual first.
const PIECES: [&str; 37] = [
    "x",
    "2",
    ".5",
    "1e3",
    "+",
    "-",
    "*",
    "/",
    "^",
    "(",
    ")",
    "²",
    "³",
    "·",
    "×",
    "−",
    " ",
    "\n",
    "sin",
    "sqrt ",
    "log2",
    "e",
    "#",
    "π",
    "\u{0}",
    "\u{1f980}",
    ".",
    "1e",
    "\u{feff}",
    "\t",
    "_",
    "{",
    "\\",
    "e\u{301}",
    "\r\n",
    "9e999",
    ",",
];

#[test]
fn random_texts() {
    let mut random = Random(3);
    let mut good = 0;
    for _ in 0..50_000 {
        let kinds = [11, 18, PIECES.len()][random.below(3)];
        let count = 1 + random.below(9);
        let text: String = (0..count).map(|_| PIECES[random.below(kinds)]).collect();
        good += usize::from(look(&text));
    }
    assert!(good > 1000, "{good} formulas");
}

#[test]
fn random_characters() {
    let mut random = Random(4);
    for _ in 0..20_000 {
        let count = random.below(12);
        let character = |_| {
            char::from_u32(random.below([0x80, 0x300, 0x3000, 0x11_0000][count % 4]) as u32)
                .unwrap_or('x')
        };
        look(&(0..count).map(character).collect::<String>());
    }
}

#[test]
fn long_and_deep_texts() {
    let many = 100_000;
    for piece in [
        "(", ")", "-", "x^", "x^-", "sin(", "x+", "x-(", "x ", "x*", "2 ", "2*", "sqrt ", "²",
        "x²", "1", ".", "1e", "+", "\n", "# ", "é", "x\n+", "((x)",
    ] {
        look(&piece.repeat(many));
        look(&(piece.repeat(many) + "x"));
        look(&(piece.repeat(99) + "x"));
    }
    look(&("(".repeat(many) + "x" + &")".repeat(many)));
    assert!(look(&("x".to_string() + &" ".repeat(many))));
    assert!(look(&("#".to_string() + &"(".repeat(many) + "\nx")));
    assert!(look(&("0.".to_string() + &"1".repeat(many))));
}
