//! The guard's walk and the Rust, held against each other: where no limit cuts
//! in, they give the same sum, flag, number and place.

use oracle::{
    Answer,
    algebra::random_sums::random_sum,
    generate, judge,
    random::Random,
    records::{self, RECORD},
    sums::ENTRY,
    text,
};

/// `ORACLE_ROUNDS=100 cargo test --release` compares a hundred times as many.
fn rounds(usual: usize) -> usize {
    let times = std::env::var("ORACLE_ROUNDS").ok();
    usual * times.map_or(1, |times| times.parse().expect("a number of rounds"))
}

#[derive(Default, Debug)]
struct Tally {
    done: usize,
    refused: usize,
    limits: usize,
    malformed: usize,
    too_long: usize,
}

impl Tally {
    fn count<T>(&mut self, answer: &Answer<T>) {
        match answer {
            Answer::Rust(Ok(_)) => self.done += 1,
            Answer::Rust(Err(_)) => self.refused += 1,
            Answer::Limit(_) => self.limits += 1,
            Answer::Form(_) => self.malformed += 1,
            Answer::TooLong => self.too_long += 1,
            Answer::Panic => {}
        }
    }
}

fn check_list(list: &[u8], tally: &mut Tally) {
    let shown = || text::hex(list, RECORD);
    let answer = judge::read(list);
    tally.count(&answer);
    match &answer {
        Answer::Rust(result) => {
            assert_eq!(
                judge::guard_read(list).as_ref(),
                Some(result),
                "{}",
                shown()
            );
        }
        Answer::Panic => panic!("the Rust panics on {}", shown()),
        _ => return,
    }
    let inverse = judge::inverse(list);
    if let Answer::Rust(Ok(written)) = &inverse {
        check_written(written);
    }
    let is_10 = inverse == Answer::Rust(Err(oracle::Refusal::whole(10)));
    assert_eq!(judge::guard_handled(list), Some(!is_10), "{}", shown());
    // Lists are read, derived and written as the sums by themselves are.
    if let Answer::Rust(Ok(read)) = answer {
        check_sum(&read.entries, &mut Tally::default());
        for (whole, half) in [
            (judge::derivative(list), judge::derive(&read.entries)),
            (judge::integral(list), judge::integrate(&read.entries)),
        ] {
            let parts = match half {
                Answer::Rust(Ok(sum)) => judge::write(&sum, read.complex),
                other => other,
            };
            assert_eq!(whole, parts, "{}", shown());
        }
    }
}

fn check_sum(sum: &[u8], tally: &mut Tally) {
    let shown = || text::hex(sum, ENTRY);
    for (answer, guard) in [
        (judge::derive(sum), judge::guard_derive(sum)),
        (judge::integrate(sum), judge::guard_integrate(sum)),
    ] {
        tally.count(&answer);
        match answer {
            Answer::Rust(result) => assert_eq!(guard, Some(result), "{}", shown()),
            Answer::Panic => panic!("the Rust panics on {}", shown()),
            _ => {}
        }
    }
    for complex in [false, true] {
        match judge::write(sum, complex) {
            Answer::Rust(Ok(list)) => check_written(&list),
            Answer::Panic => panic!("the Rust panics on {}", shown()),
            _ => {}
        }
    }
}

/// What the Rust writes is a list in good form, at most 126 deep, and every
/// body in it has 1 argument.
fn check_written(list: &[u8]) {
    let shown = || text::hex(list, RECORD);
    let records = records::check(list).unwrap_or_else(|fault| panic!("{fault:?}: {}", shown()));
    let mut ends: Vec<usize> = Vec::new();
    for (at, record) in records.iter().enumerate() {
        ends.retain(|&end| end > at);
        assert!(ends.len() <= 126, "{}", shown());
        ends.push(at + 1 + record.inside as usize);
        if record.kind == records::kind::BODY {
            assert_eq!(record.arguments, 1, "{}", shown());
        }
    }
}

#[test]
fn short_lists() {
    let mut tally = Tally::default();
    for list in generate::exhaustive(3) {
        check_list(&list, &mut tally);
    }
    println!("{tally:?}");
    assert!(tally.done > 1000 && tally.refused > 1000 && tally.limits > 100);
}

#[test]
fn lists_near_limits() {
    let mut tally = Tally::default();
    for list in generate::near_limits() {
        check_list(&list, &mut tally);
    }
    println!("{tally:?}");
    assert!(tally.done > 100 && tally.limits > 100 && tally.malformed > 4);
}

#[test]
fn random_lists() {
    let mut random = Random::new(1);
    let mut tally = Tally::default();
    for round in 0..rounds(30_000) {
        let size = 2 + round % 30;
        check_list(&generate::random_list(&mut random, size), &mut tally);
        if round % 4 == 0 {
            check_list(&generate::good_list(&mut random, size), &mut tally);
        }
    }
    println!("{tally:?}");
    assert!(tally.done > 10_000 && tally.limits > 1000);
}

#[test]
fn damaged_lists() {
    let mut random = Random::new(2);
    let mut tally = Tally::default();
    let mut other = Vec::new();
    for round in 0..rounds(40_000) {
        let list = generate::random_list(&mut random, 2 + round % 20);
        let damaged = generate::damaged(&mut random, &list, &other, RECORD);
        check_list(&damaged, &mut tally);
        other = list;
    }
    println!("{tally:?}");
    assert!(tally.malformed > 1000 && tally.done > 1000 && tally.refused > 1000);
}

#[test]
fn random_sums() {
    let mut random = Random::new(3);
    let mut tally = Tally::default();
    let mut other = Vec::new();
    for _ in 0..rounds(30_000) {
        let sum = random_sum(&mut random);
        check_sum(&sum, &mut tally);
        let damaged = generate::damaged(&mut random, &sum, &other, ENTRY);
        check_sum(&damaged, &mut tally);
        other = sum;
    }
    println!("{tally:?}");
    assert!(tally.done > 10_000 && tally.refused > 10_000 && tally.limits > 1000);
    assert!(tally.malformed > 10_000);
}
