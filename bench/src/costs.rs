//! What asking for a list's cost takes beside its derivative, and what reading
//! takes a step, for lists that are dear to read.

use backlog::Group;
use oracle::{
    cost,
    records::{self, RECORD},
    text,
};

use crate::measure::{Measured, Side, Turns, by_turns};

/// One line of the table of costs.
pub struct CostLine {
    pub what: String,
    pub lists: usize,
    pub records: usize,
    pub cost: Measured,
    pub derivative: Measured,
}

/// The cost and the derivative of the same lists.
pub fn cost(what: &str, group: &Group, rounds: usize) -> CostLine {
    let lists: Vec<&[u8]> = group.lists.iter().map(Vec::as_slice).collect();
    for list in &lists {
        assert_eq!(proved::cost(list).answer, [0, reckoned(list)]);
    }
    let mut out = vec![0; records::MOST_RECORDS * RECORD];
    let mut sides = [
        Side::new("cost", proved::cost),
        Side::new("derivative", |list| proved::derivative(list, &mut out)),
    ];
    let measured = by_turns(Turns::over(&lists, rounds), &lists, &mut sides);
    CostLine {
        what: what.into(),
        lists: lists.len(),
        records: lists.iter().map(|list| list.len() / RECORD).sum(),
        cost: measured[0],
        derivative: measured[1],
    }
}

fn reckoned(list: &[u8]) -> u64 {
    cost::cost(list).expect("a good list")
}

/// Records that are read once, and a body that Both runs after them.
struct Dear {
    what: &'static str,
    before: String,
    body: String,
}

/// One line of the table of readings.
pub struct ReadingLine {
    pub what: &'static str,
    /// The steps of the body, as often as it runs.
    pub steps: u64,
    /// Of a step of the body, in nanoseconds.
    pub step: Measured,
}

/// How often something that takes long is measured.
const FEW_TURNS: Turns = Turns {
    rounds: 2,
    times_a_turn: 1,
};

/// Readings from cheap to dear, by what a step of them takes.
pub fn readings() -> Vec<ReadingLine> {
    dear_lists().iter().map(reading).collect()
}

/// From cheap ones to the dearest that were found.
fn dear_lists() -> Vec<Dear> {
    let many = |words: &str, count: usize| format!("{words} ").repeat(count);
    let kept = |words: String| format!("Dup {words} Pop");
    vec![
        Dear {
            what: "Neg of x",
            before: String::new(),
            body: many("Neg", 1000),
        },
        Dear {
            what: "64 terms copied and dropped",
            before: powers(64, FOR_CHAINS),
            body: many("Dup Pop", 500),
        },
        Dear {
            what: "x + 1 to the power 63",
            before: "1 Add".into(),
            body: many("Dup 63 Pow Pop", 100),
        },
        Dear {
            what: "64 terms times 64 terms",
            before: powers(64, FOR_CHAINS),
            body: kept(many("Over Mul", 62)),
        },
        Dear {
            what: "1 over 62 terms to the power 64, that to the power 64, and so on",
            before: powers(62, FOR_FRACTIONS) + "Reciprocal",
            body: kept(many("64 Pow", 40)),
        },
        Dear {
            what: "64 terms to the power 64, that to the power 64, and so on",
            before: powers(64, FOR_CHAINS),
            body: kept(many("64 Pow", 40)),
        },
        Dear {
            what: "64 terms to the power 63, in every body of a Fork",
            before: powers(64, FOR_ONE_POWER),
            body: format!("Dup 63 Fork{}", "(2: Pow Pop)".repeat(40)),
        },
    ]
}

/// First powers for which all sums of neighbours round to few numbers, as the
/// distance of neighbouring numbers grows with them, so that a power of 64
/// terms has no more than 64: found by trying.
const FOR_CHAINS: f64 = 1.9988839363969788;
const FOR_ONE_POWER: f64 = 1.9585064765097164;
const FOR_FRACTIONS: f64 = 1.9817669914129685;

/// A sum of so many neighbouring powers of x, with coefficients that come to 1
/// at most, so that powers of it stay finite.
fn powers(count: u64, first: f64) -> String {
    let term = |above: u64| format!("{:?} Pow ", f64::from_bits(first.to_bits() + above));
    let others = (1..count).map(|above| format!("Over {}Add ", term(above)));
    format!(
        "Dup {}{}Flip Pop 2^-6 Mul ",
        term(0),
        others.collect::<String>()
    )
}

fn reading(dear: &Dear) -> ReadingLine {
    let before = text::list(&dear.before);
    let whole = text::list(&format!("{} Both(0: {})", dear.before, dear.body));
    let mut sum = vec![0; 64 * 32];
    let steps = reckoned(&whole) - reckoned(&before);
    for list in [&before, &whole] {
        let told = proved::read(list, &mut sum);
        assert_eq!(
            told.number, 0,
            "{} is refused at {:?}",
            dear.what, told.answer
        );
    }
    let mut sides = [Side::new("read", |list| proved::read(list, &mut sum))];
    let mut read = |list: &[u8]| by_turns(FEW_TURNS, &[list], &mut sides)[0];
    let (whole, before) = (read(&whole), read(&before));
    ReadingLine {
        what: dear.what,
        steps,
        step: whole.less(before.median, steps),
    }
}
