//! The value of a sum beside the run of the list that is written of it, and
//! beside the plain program.

use backlog::{POWERS, Sums};
use oracle::{runner, value};

use crate::{
    forms::{self, Lent},
    measure::{Side, Turns, by_turns},
    sides::{Line, PROVED, Table, X},
};

pub const RUN_OF_LIST: &str = "run of the list";

/// The first line is of all sums of up to so many powers, the lines after it are
/// of each number of powers up to there, the last one is of many.
pub const FEW_POWERS: usize = 8;

pub fn values(rounds: usize) -> Table {
    let groups = POWERS.map(|powers| (name(powers), backlog::sums_of(powers)));
    let few: Vec<&Sums> = groups[..FEW_POWERS].iter().map(|(_, sums)| sums).collect();
    let few = together(&few);
    let mut lines = vec![line(&format!("1 to {FEW_POWERS} powers"), &few, rounds)];
    lines.extend(groups.iter().map(|(name, sums)| line(name, sums, rounds)));
    let names = sides(&few).iter().map(|side| side.name).collect();
    Table { names, lines }
}

fn name(powers: usize) -> String {
    format!("{powers} power{}", if powers == 1 { "" } else { "s" })
}

/// Sums of several groups by turns.
fn together(groups: &[&Sums]) -> Sums {
    let mut all = Sums::default();
    for at in 0..groups[0].sums.len() {
        for group in groups {
            all.sums.push(group.sums[at].clone());
            all.lists.push(group.lists[at].clone());
        }
    }
    all
}

fn line(what: &str, sums: &Sums, rounds: usize) -> Line {
    check(sums);
    let inputs: Vec<&[u8]> = sums.sums.iter().map(Vec::as_slice).collect();
    Line {
        what: what.into(),
        lists: inputs.len(),
        sides: by_turns(Turns::over(&inputs, rounds), &inputs, &mut sides(sums)),
    }
}

fn sides(sums: &Sums) -> Vec<Side<'_>> {
    let mut sides = vec![Side::new(PROVED, |sum| proved::value(sum, X))];
    for (name, value) in forms::VALUE {
        let mut lent = Lent::default();
        sides.push(Side::new(name, move |sum| value(&mut lent, sum, X)));
    }
    let run = |list: &[u8]| proved::run(list, X);
    sides.push(Side::over_own(RUN_OF_LIST, &sums.lists, run));
    sides
}

/// Every side has the value of the plain engine of oracle/, to the bit.
fn check(sums: &Sums) {
    let mut lent = Lent::default();
    for (sum, list) in sums.sums.iter().zip(&sums.lists) {
        let owed = value::value(sum, X).expect("a value").to_bits();
        let ran = runner::run(list, X).expect("a value").value;
        assert_eq!(ran.to_bits(), owed);
        assert_eq!(proved::run(list, X).value, owed);
        let given = proved::value(sum, X);
        assert_eq!((given.told.number, given.value), (0, owed));
        for (_, value) in forms::VALUE {
            assert_eq!(value(&mut lent, sum, X), given);
        }
    }
}
