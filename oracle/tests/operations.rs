//! The stored answers of arithmetic on sums are what the judge gives.

use std::{collections::BTreeSet, fs, path::Path};

use oracle::operations::{Case, codes, select};

#[test]
fn stored_cases_are_the_judges() {
    let file = Path::new(env!("CARGO_MANIFEST_DIR")).join("../crates/replay_arithmetic/stdin");
    let stored = fs::read_to_string(file).expect("the stored cases");
    let text: String = select().iter().map(Case::line).collect();
    assert!(
        stored == text,
        "write them anew: cargo run --release --offline --bin operations"
    );
}

#[test]
fn every_primitive_and_limit_is_met() {
    let cases = select();
    let met: BTreeSet<u8> = cases.iter().map(|case| case.code).collect();
    assert_eq!(met, codes().into_iter().collect());
    let numbers: BTreeSet<u8> = cases
        .iter()
        .filter_map(|case| case.result.as_ref().err().copied())
        .collect();
    assert_eq!(numbers, BTreeSet::from([7, 12, 13, 14, 15, 16, 18]));
}
