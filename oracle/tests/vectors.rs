//! The stored answers in `vectors/` are what the oracle answers.

use std::{fs, path::Path};

use oracle::{
    features::Features,
    functions, generate, multiplied, power_sums,
    runner::{self, Met},
    stored::{Decider, Input, RUN_AT, VALUE_AT},
};

fn stored(name: &str) -> String {
    let folder = Path::new(env!("CARGO_MANIFEST_DIR")).join("../vectors");
    fs::read_to_string(folder.join(name)).expect("stored answers")
}

/// Split a file into items: an input's line and the lines of its answers.
fn items(text: &str) -> Vec<(Input, String)> {
    let mut items: Vec<(Input, String)> = Vec::new();
    for line in text.lines() {
        if let Some(input) = Input::parse(line) {
            items.push((input, String::new()));
        }
        let (_, item) = items.last_mut().expect("an input first");
        item.push_str(line);
        item.push('\n');
    }
    items
}

fn check(name: &str, decider: Decider, least: usize) {
    let text = stored(name);
    let items = items(&text);
    assert!(items.len() >= least, "{name} has {} items", items.len());
    for (input, item) in items {
        assert_eq!(input.item(decider).as_deref(), Some(&item[..]), "{name}");
    }
}

#[test]
fn lists() {
    check("lists.txt", Decider::Rust, 3000);
}

#[test]
fn sums() {
    check("sums.txt", Decider::Rust, 1000);
}

#[test]
fn limits() {
    check("limits.txt", Decider::Paper, 1000);
}

#[test]
fn faithful() {
    let items = items(&stored("faithful.txt"));
    assert!(items.len() >= 400, "{} items", items.len());
    for (input, item) in &items {
        assert_eq!(input.faithful_item(), *item);
    }
    for sum in functions::at_limits().into_iter().map(Input::Sum) {
        assert!(items.iter().any(|(input, _)| *input == sum), "{sum:?}");
    }
}

/// Every number that the entries with the second writer answer where there is room.
#[test]
fn faithful_answers_have_every_number() {
    let text = stored("faithful.txt");
    let from_lists = [0, 1, 2, 3, 4, 5, 6, 7, 8, 9, 11, 12, 13, 14, 15, 16, 18];
    for (entry, numbers) in [
        ("derivative_faithful", &from_lists[..]),
        ("integral_faithful", &from_lists),
        ("write_faithful 0", &[0, 11, 13, 15]),
        ("write_faithful 1", &[0, 11, 13]),
    ] {
        for number in numbers {
            let start = format!("{entry} {number} ");
            assert!(text.lines().any(|line| line.starts_with(&start)), "{start}");
        }
    }
}

#[test]
fn values() {
    let items = items(&stored("values.txt"));
    assert!(items.len() >= 300, "{} items", items.len());
    for (input, item) in &items {
        assert_eq!(input.value_item().as_ref(), Some(item));
    }
    for sum in power_sums::at_limits().into_iter().map(Input::Sum) {
        assert!(items.iter().any(|(input, _)| *input == sum), "{sum:?}");
    }
}

/// Every number that a value answers, at a number that is finite and at one that isn't.
#[test]
fn values_have_every_number() {
    let text = stored("values.txt");
    for (x, numbers) in [
        (VALUE_AT[0], &[0, 11, 13, 14, 15][..]),
        (f64::INFINITY, &[11, 13, 15]),
    ] {
        let mut met: Vec<u8> = Vec::new();
        let start = format!("value {:016x} ", x.to_bits());
        for rest in text.lines().filter_map(|line| line.strip_prefix(&start)) {
            let number = rest.split(' ').next().expect("a number");
            met.push(number.parse().expect("a number"));
        }
        met.sort_unstable();
        met.dedup();
        assert_eq!(met, numbers, "at {x}");
    }
}

#[test]
fn runs() {
    let items = items(&stored("runs.txt"));
    assert!(items.len() >= 450, "{} lists", items.len());
    for (input, item) in items {
        assert_eq!(input.run_item().as_deref(), Some(&item[..]));
    }
}

/// The stored files.
const FILES: [&str; 6] = [
    "lists.txt",
    "sums.txt",
    "limits.txt",
    "faithful.txt",
    "values.txt",
    "runs.txt",
];

/// Every number that the run answers, powers of nought, and the most values
/// and steps there can be.
#[test]
fn runs_reach_what_a_run_can() {
    let text = stored("runs.txt");
    for number in [0, 1, 2, 3, 4, 5, 6, 8, 11, 12, 13, 14, 15] {
        let is_given = |line: &str| line.split(' ').nth(2) == Some(&number.to_string());
        assert!(text.lines().any(is_given), "{number}");
    }
    let mut met = Met {
        features: Features::on(),
        ..Met::default()
    };
    for (input, _) in items(&text) {
        let Input::List(list) = input else { continue };
        for x in RUN_AT {
            let _ = runner::run_meeting(&list, x, &mut met);
        }
    }
    assert!(met.noughts > 100, "{} powers of nought", met.noughts);
    let names = met.features.into_names();
    for base in ["0", "-0", "subnormal", "whole", "-whole", "large"] {
        for power in ["0", "-0"] {
            let name = format!("primitive 12 {:?}: done", [power, base]);
            assert!(names.contains(&name), "{name}");
        }
    }
    for ends in [" 0 0 4000000000000000 0 1", " 2048 1", " 256"] {
        assert!(text.lines().any(|line| line.ends_with(ends)), "{ends}");
    }
}

#[test]
fn inputs_stand_once() {
    for name in FILES {
        let items = items(&stored(name));
        let mut inputs: Vec<&Input> = items.iter().map(|(input, _)| input).collect();
        inputs.sort();
        let count = inputs.len();
        inputs.dedup();
        assert_eq!(inputs.len(), count, "{name}");
    }
}

#[test]
fn lists_at_limits_are_there() {
    let files = ["lists.txt", "limits.txt"].map(stored);
    for list in generate::at_limits()
        .into_iter()
        .chain(multiplied::stored())
    {
        let answers = [Decider::Rust, Decider::Paper].map(|decider| {
            let item = Input::List(list.clone()).item(decider);
            item.unwrap_or_default()
        });
        let mut reads = 0;
        for (file, item) in files.iter().zip(&answers) {
            assert!(file.contains(item), "{item}");
            reads += usize::from(item.contains("\nread "));
        }
        assert_eq!(reads, 1, "{answers:?}");
    }
}

/// Sums with and without pairs, the most of one Mul and over 90,000 in one Pow;
/// refusals without.
#[test]
fn lists_with_every_count_of_pairs_are_there() {
    let files = ["lists.txt", "limits.txt"].map(stored).concat();
    let reads = files.lines().filter_map(|line| line.strip_prefix("read "));
    let numbers = reads.map(|read| {
        let mut words = read.split(' ');
        let mut number = || words.next().and_then(|word| word.parse::<u64>().ok());
        [(); 4].map(|()| number().expect("four numbers"))
    });
    let (done, refused): (Vec<_>, Vec<_>) = numbers.partition(|[number, ..]| *number == 0);
    for pairs in [0, 1, 2, 10, 63, 4030, 4030 + 64, 4096, 98_703] {
        assert!(done.iter().any(|read| read[3] == pairs), "{pairs}");
    }
    assert!(
        refused
            .iter()
            .all(|[_, _, flag, pairs]| [flag, pairs] == [&0; 2])
    );
}

#[test]
fn small_enough_to_read_in_a_diff() {
    let size: usize = FILES.map(|name| stored(name).len()).iter().sum();
    assert!(size < 3_450_000, "{size} bytes");
}
