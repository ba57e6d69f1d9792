//! What is measured of a list, and the sides that do it: the proved library
//! first, then the plain program in its forms, then the Rust module.

use backlog::Group;
use oracle::{
    Assembly, Node, algebra,
    records::{self, MOST_RECORDS, RECORD, bytes_of},
    runner,
    sums::{ENTRY, MOST_ENTRIES},
};

use crate::{
    forms::{self, FromBytes, Lent, Named},
    measure::{Measured, Side, Turns, by_turns},
};

/// Where lists are run.
pub const X: f64 = 1.5;

pub const PROVED: &str = "proved";
pub const MODULE: &str = "Rust module";

/// What is measured.
#[derive(Debug, Clone, Copy, PartialEq, Eq)]
pub enum Entry {
    Derivative,
    Read,
    /// Of a list's derivative, where it has a value.
    Run,
}

impl Entry {
    pub const ALL: [Entry; 3] = [Entry::Derivative, Entry::Read, Entry::Run];

    pub fn title(self) -> &'static str {
        match self {
            Entry::Derivative => "Derivative",
            Entry::Read => "Read",
            Entry::Run => "Run of the derivative",
        }
    }

    /// The lists of a group that this is measured over.
    fn lists(self, group: &Group) -> Vec<&[u8]> {
        let has_value = |list: &&[u8]| runner::run(list, X).is_ok();
        match self {
            Entry::Derivative | Entry::Read => group.lists.iter().map(Vec::as_slice).collect(),
            Entry::Run => {
                let derivatives = group.derivatives.iter().map(Vec::as_slice);
                derivatives.filter(has_value).collect()
            }
        }
    }

    fn sides(self) -> Vec<Side<'static>> {
        match self {
            Entry::Derivative => {
                let mut sides = from_bytes(proved::derivative, forms::DERIVATIVE);
                let asm = Assembly::default();
                sides.push(Side::new(MODULE, move |list| module_derivative(list, &asm)));
                sides
            }
            Entry::Read => from_bytes(forms::library_read, forms::READ),
            Entry::Run => {
                let mut sides = vec![Side::new(PROVED, |list| proved::run(list, X))];
                for (name, run) in forms::RUN {
                    let mut lent = Lent::default();
                    sides.push(Side::new(name, move |list| run(&mut lent, list, X)));
                }
                sides
            }
        }
    }

    /// Whether every side has the same answers.
    fn check(self, lists: &[&[u8]]) {
        let mut checker = Checker::default();
        for list in lists {
            match self {
                Entry::Derivative => checker.derivative(list),
                Entry::Read => checker.read(list),
                Entry::Run => checker.run(list),
            }
        }
    }
}

#[derive(Default)]
struct Checker {
    asm: Assembly,
    lent: Lent,
}

impl Checker {
    fn derivative(&mut self, list: &[u8]) {
        let owed = module_derivative(list, &self.asm);
        let mut out = vec![0; owed.len()];
        let told = proved::derivative(list, &mut out);
        assert_eq!((told.number, &out), (0, &owed));
        for (_, derivative) in forms::DERIVATIVE {
            out.fill(0);
            let given = derivative(&mut self.lent, list, &mut out);
            assert_eq!((given, &out), (told, &owed));
        }
    }

    fn read(&mut self, list: &[u8]) {
        let mut owed = [0; MOST_ENTRIES * ENTRY];
        let told = forms::library_read(list, &mut owed);
        for (_, read) in forms::READ {
            let mut out = [0; MOST_ENTRIES * ENTRY];
            let given = read(&mut self.lent, list, &mut out);
            assert_eq!((given, out), (told, owed));
        }
    }

    fn run(&mut self, list: &[u8]) {
        let ran = proved::run(list, X);
        let value = runner::run(list, X).expect("a value").value;
        assert_eq!(ran.value, value.to_bits());
        for (_, run) in forms::RUN {
            assert_eq!(run(&mut self.lent, list, X), ran);
        }
    }
}

/// The library and the plain program's forms, each with room for a result of its own.
fn from_bytes<const N: usize>(
    library: fn(&[u8], &mut [u8]) -> proved::Told<N>,
    forms: [Named<FromBytes<N>>; 4],
) -> Vec<Side<'static>> {
    let room = || vec![0; MOST_RECORDS * RECORD];
    let mut out = room();
    let mut sides = vec![Side::new(PROVED, move |list| library(list, &mut out))];
    for (name, form) in forms {
        let (mut lent, mut out) = (Lent::default(), room());
        sides.push(Side::new(name, move |list| form(&mut lent, list, &mut out)));
    }
    sides
}

/// From bytes to bytes by way of the Rust module.
fn module_derivative(list: &[u8], asm: &Assembly) -> Vec<u8> {
    let records = records::check(list).expect("a good list");
    let node = Node::Run(records::nodes(&records));
    let derivative = algebra::derivative(&node, asm).expect("a derivative");
    bytes_of(&records::written(&derivative))
}

/// One line of a table.
pub struct Line {
    pub what: String,
    pub lists: usize,
    pub sides: Vec<Measured>,
}

/// What the sides of an entry took over some groups of lists.
pub struct Table {
    pub names: Vec<&'static str>,
    pub lines: Vec<Line>,
}

impl Table {
    /// Answers are compared, then all is timed.
    pub fn measure(entry: Entry, groups: &[(&str, &Group)], rounds: usize) -> Table {
        let mut sides = entry.sides();
        let mut lines = Vec::new();
        for (what, group) in groups {
            let lists = entry.lists(group);
            entry.check(&lists);
            lines.push(Line {
                what: what.to_string(),
                lists: lists.len(),
                sides: by_turns(Turns::over(&lists, rounds), &lists, &mut sides),
            });
        }
        Table {
            names: sides.iter().map(|side| side.name).collect(),
            lines,
        }
    }

    /// How many times as long as a side of this name the proved library took.
    pub fn ratio(&self, line: &Line, name: &str) -> f64 {
        let side = self.names.iter().position(|side| *side == name);
        line.sides[0].to(&line.sides[side.expect("a side")])
    }
}
