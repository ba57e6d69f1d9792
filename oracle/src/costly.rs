//! Lists whose costs tell a right reckoning from wrong ones: modifiers with
//! every number of bodies, nested Both up to and past 2^64 - 1, and lists that
//! break a rule.

use crate::{
    records::{MOST_LEVELS, MOST_RECORDS, RECORD},
    text,
};

/// All of them.
pub fn near_limits() -> Vec<Vec<u8>> {
    let words = [
        modifiers_with_bodies(),
        few_boths(),
        many_boths(),
        next_to_most_steps(),
        at_limits_of_lists(),
    ];
    let mut lists: Vec<Vec<u8>> = words
        .concat()
        .iter()
        .map(|words| text::list(words))
        .collect();
    lists.extend(broken());
    lists
}

/// What a list stands in: nothing, something that runs it once, twice or more,
/// and modifiers that are refused before it runs.
const CONTEXTS: [&str; 11] = [
    "W",
    "Run(W)",
    "Custom(W)",
    "Both(0: W)",
    "Both(0: Both(0: W) Under)",
    "Dip(0: W)",
    "Bracket(0: W)(0:)",
    "Fork(0: W)(0: Under)(0: W)",
    "Fork(0: Both(0: W))",
    "Both(0: W)(0: W)",
    "Bracket(0: Both(0: W))",
];

/// The modifiers, and two codes that are none.
const MODIFIERS: [&str; 9] = [
    "Dip",
    "Gap",
    "On",
    "By",
    "Both",
    "Bracket",
    "Fork",
    "Modifier0",
    "Modifier8",
];

/// Every modifier with 0 to 3 bodies of 0 to 2 arguments, over numbers enough
/// for all of them.
pub fn modifiers_with_bodies() -> Vec<String> {
    let mut lists = Vec::new();
    for modifier in MODIFIERS {
        for bodies in 0..=3 {
            for arguments in 0..=2 {
                let bodies: String = (0..bodies).map(|longer| body(arguments, longer)).collect();
                let modified = format!("{modifier}{bodies}");
                lists.extend(
                    CONTEXTS.map(|context| "1 ".repeat(24) + &context.replace('W', &modified)),
                );
            }
        }
    }
    lists
}

/// A body that leaves the stack as it is, longer by so many records.
fn body(arguments: usize, longer: usize) -> String {
    let more = " Under".repeat(longer);
    format!("({arguments}: Run(Dup Pop) Custom(Under){more})")
}

/// So many Boths around some records: 2^k times what they cost and 3, less 3.
pub fn boths(count: usize, inside: &str) -> String {
    "Both(0: ".repeat(count) + inside + &")".repeat(count)
}

/// Nested Both that is read to its end, and some that is just too long for it.
fn few_boths() -> Vec<String> {
    let mut lists = Vec::new();
    for count in 0..=15 {
        for inside in [
            "",
            "Neg",
            "Neg Neg",
            "Run(Custom(Neg))",
            "Fork(1: Neg)(1: Pop)",
        ] {
            lists.push(boths(count, inside));
        }
    }
    lists
}

/// Nested Both that nobody reads to its end.
fn many_boths() -> Vec<String> {
    let mut lists = Vec::new();
    for count in [31, 32, 60, 61, 62, 63, 64] {
        for inside in ["", "Neg", "Neg Neg", "Neg Neg Neg Neg Neg"] {
            lists.push(boths(count, inside));
        }
    }
    for count in [9, 33, 63] {
        // twice at each level, and nothing at the lowest
        lists.push(boths(count, "Both"));
        lists.push(boths(count, "Both(0: Neg)(0: Neg)"));
        lists.push(boths(count, "On(1: Neg)(1: Neg)"));
    }
    lists
}

/// Sums and doubled sums that come to 2^63 and 2^64, and to a few less and more.
fn next_to_most_steps() -> Vec<String> {
    let mut lists = Vec::new();
    for more in 0..=5 {
        let more = "Neg ".repeat(more);
        // 2^64 - 3 and 2^63 - 3 for themselves
        let (whole, half) = (boths(62, "Neg"), boths(61, "Neg"));
        lists.extend([
            format!("{more}{whole}"),
            format!("{whole} {more}"),
            format!("Run({whole} {more})"),
            format!("Both(0: {half} {more})"),
            format!("{more}{half} {half}"),
            format!("Fork(0: {half})(0: {half} {more})"),
            format!("Fork(0: {half} {more})(0: {half})"),
            format!("Fork(0: {half})(0: {more})(0: {half})"),
            format!("Bracket(0: {half} {more})(0: {half})"),
            format!("Both(0: {more}) {whole}"),
            // refused before a body runs, whatever would be in it
            format!("{more} On(0: {whole})(0: {whole})"),
            format!("{more} Modifier9(0: {whole} {whole})"),
        ]);
    }
    lists
}

/// Records inside 127, 128 and 129 others; 2,047 to 2,049 records.
fn at_limits_of_lists() -> Vec<String> {
    let mut lists = Vec::new();
    for levels in [MOST_LEVELS - 1, MOST_LEVELS, MOST_LEVELS + 1] {
        for run in ["Run(", "Custom("] {
            lists.push(run.repeat(levels) + "Neg" + &")".repeat(levels));
        }
        for both in [1, 5, 31, MOST_LEVELS / 2 - 1] {
            let runs = levels - 2 * both;
            lists.push(boths(
                both,
                &("Run(".repeat(runs) + "Neg" + &")".repeat(runs)),
            ));
        }
    }
    for count in [MOST_RECORDS - 1, MOST_RECORDS, MOST_RECORDS + 1] {
        lists.push("Neg ".repeat(count));
        lists.push("Run() ".repeat(count));
        lists.push(boths(63, &"Neg ".repeat(count - 126)));
        lists.push("Fork".to_owned() + &"(0:)".repeat(count - 1));
    }
    lists
}

/// A list whose rules are broken one at a time.
const WHOLE: &str = "1 1;2 Array Other Neg Both(1: Run(Custom(Neg))) Obverse NoNormal Under Else";

/// A byte at a time set to other values; cut off at each byte; too deep and
/// broken at once, which is 11.
fn broken() -> Vec<Vec<u8>> {
    let whole = text::list(WHOLE);
    let mut lists: Vec<Vec<u8>> = (0..whole.len()).map(|end| whole[..end].to_vec()).collect();
    for at in 0..whole.len() {
        for byte in [0, 1, 6, 7, 8, 13, 14, 255] {
            let mut list = whole.clone();
            list[at] = byte;
            lists.push(list);
        }
    }
    let mut deep = text::list(&boths(65, "Neg"));
    lists.push(deep.clone());
    let last = deep.len() - RECORD;
    deep[last] = 0;
    lists.push(deep);
    lists
}
