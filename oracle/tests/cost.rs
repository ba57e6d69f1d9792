//! What a list costs, and the steps that the Rust takes in reading it.

use oracle::{
    Answer, algebra::MOST_STEPS, cost::cost, costly, generate, judge, random::Random,
    records::RECORD, runner, rust, rust::End, text,
};

const MOST: u64 = MOST_STEPS as u64;

/// How many lists came to each end.
#[derive(Debug, Default)]
struct Tally {
    whole: usize,
    refused: usize,
    limits: usize,
    malformed: usize,
    too_long: usize,
}

/// The Rust takes as many steps as the list costs where it refuses none of
/// them, and not more where it does. The guard takes the Rust's steps.
fn check(list: &[u8], tally: &mut Tally) {
    let shown = || text::hex(list, RECORD);
    let read = judge::read(list);
    let Ok(cost) = cost(list) else {
        tally.malformed += 1;
        assert_eq!(read, Answer::Form(cost(list).unwrap_err()), "{}", shown());
        return;
    };
    let guard = judge::guard_steps(list).expect("a good list");
    let steps = |most| rust::steps(list, most).expect("a good list");
    match read {
        Answer::Rust(_) => match steps(MOST) {
            (taken, End::Whole) => {
                tally.whole += 1;
                assert_eq!((taken, guard), (cost, cost), "{}", shown());
            }
            (taken, End::Refused) => {
                tally.refused += 1;
                assert!(taken == guard && taken <= cost, "{}", shown());
            }
            (_, End::Stopped) => panic!("the guard isn't stopped on {}", shown()),
        },
        // The Rust has no such limit, and isn't asked what it would come to.
        Answer::Limit(_) => {
            tally.limits += 1;
            assert_eq!(steps(guard - 1), (guard - 1, End::Stopped), "{}", shown());
            assert!(guard <= cost, "{}", shown());
        }
        Answer::TooLong => {
            tally.too_long += 1;
            assert_eq!(steps(MOST), (MOST, End::Stopped), "{}", shown());
            assert!(guard > MOST && cost > MOST, "{}", shown());
        }
        Answer::Panic | Answer::Form(_) => panic!("{read:?} on {}", shown()),
    }
    if let Ok(ran) = runner::run(list, 1.5) {
        assert_eq!(ran.steps as u64, cost, "{}", shown());
    }
}

#[test]
fn short_lists() {
    let mut tally = Tally::default();
    for list in generate::exhaustive(3) {
        check(&list, &mut tally);
    }
    println!("{tally:?}");
    assert!(tally.whole > 10_000 && tally.refused > 1000 && tally.limits > 100);
}

#[test]
fn one_modifier_with_short_bodies() {
    let mut tally = Tally::default();
    for list in generate::exhaustive_modifiers().step_by(23) {
        check(&list, &mut tally);
    }
    println!("{tally:?}");
    assert!(tally.whole > 10_000 && tally.refused > 10_000 && tally.limits > 1000);
}

#[test]
fn lists_near_limits() {
    let mut tally = Tally::default();
    for list in generate::near_limits() {
        check(&list, &mut tally);
    }
    println!("{tally:?}");
    assert!(tally.whole > 100 && tally.refused > 100 && tally.limits > 100);
}

#[test]
fn costly_lists() {
    let mut tally = Tally::default();
    for list in costly::near_limits() {
        check(&list, &mut tally);
    }
    println!("{tally:?}");
    assert!(tally.whole > 100 && tally.refused > 100 && tally.malformed > 100);
    assert!(tally.too_long > 50);
}

#[test]
fn random_and_damaged_lists() {
    let mut random = Random::new(50);
    let mut tally = Tally::default();
    let costly = costly::near_limits();
    let mut other = Vec::new();
    for round in 0..20_000 {
        let size = 2 + round % 40;
        let list = generate::random_list(&mut random, size);
        check(&list, &mut tally);
        check(
            &generate::damaged(&mut random, &list, &other, RECORD),
            &mut tally,
        );
        if round % 8 == 0 {
            check(&generate::good_list(&mut random, size), &mut tally);
        }
        if round % 64 == 0 {
            let list = random.choose(&costly);
            check(
                &generate::damaged(&mut random, list, &other, RECORD),
                &mut tally,
            );
        }
        other = list;
    }
    println!("{tally:?}");
    assert!(tally.whole > 10_000 && tally.refused > 5000 && tally.malformed > 1000);
}

/// A modifier that isn't refused runs what it costs, also where the Rust ends
/// with sums left over.
#[test]
fn modifiers_that_are_read_to_the_end() {
    for (words, steps) in [
        ("Both(0: Neg)", 5),
        ("1 Both(1: Neg)", 6),
        ("1 Bracket(1: Neg)(1: Neg Neg)", 7),
        ("Fork(1: Neg)(1:)(1: Neg Neg)", 7),
        ("Fork", 1),
        ("1 Dip(1: Neg)", 4),
        ("Gap(1: 2 Neg)", 4),
        ("On(1: Neg)", 3),
        ("By(1: Neg)", 3),
        ("Run(Run(Neg) Custom(Neg Neg))", 6),
        ("Both(0: Run(Custom(Both(0: Neg))))", 17),
    ] {
        let list = text::list(words);
        assert_eq!(cost(&list), Ok(steps), "{words}");
        assert_eq!(rust::steps(&list, MOST), Ok((steps, End::Whole)), "{words}");
    }
}

#[test]
fn examples() {
    let boths = |count, inside| cost(&text::list(&costly::boths(count, inside)));
    assert_eq!(cost(&[]), Ok(0));
    assert_eq!(cost(&text::list("Dup Mul")), Ok(2));
    assert_eq!(boths(1, "Neg"), Ok(5));
    assert_eq!(boths(9, "Neg"), Ok(2045));
    assert_eq!(boths(62, "Neg"), Ok(u64::MAX - 2));
    assert_eq!(boths(63, "Neg"), Ok(u64::MAX));
    assert_eq!(boths(64, "Neg"), Ok(u64::MAX));
    assert_eq!(boths(62, ""), Ok(3 * (1 << 62) - 3));
    assert_eq!(cost(&text::list("On(1: Neg)(1: Neg)")), Ok(1));
    assert_eq!(cost(&text::list("Bracket(1: Neg)")), Ok(1));
    assert_eq!(cost(&text::list("Modifier9(1: Neg)")), Ok(1));
}

/// 2^64 - 2 and 2^64 - 1 are told as they are, and all above as 2^64 - 1.
#[test]
fn next_to_the_most_steps() {
    let whole = costly::boths(62, "Neg");
    let half = costly::boths(61, "Neg");
    for (more, steps) in [
        (0, u64::MAX - 2),
        (1, u64::MAX - 1),
        (2, u64::MAX),
        (3, u64::MAX),
    ] {
        let more = " Neg".repeat(more);
        for words in [
            format!("{whole}{more}"),
            format!("{more} {whole}"),
            format!("Fork(0: {half})(0: {half}{more})"),
        ] {
            assert_eq!(cost(&text::list(&words)), Ok(steps), "{words}");
        }
    }
    assert_eq!(
        cost(&text::list(&format!("{half} {half} Neg Neg Neg Neg"))),
        Ok(u64::MAX - 1)
    );
    assert_eq!(
        cost(&text::list(&format!("Both(0: {half} Neg)"))),
        Ok(u64::MAX)
    );
}

#[test]
fn numbers_of_lists() {
    let number = |list: &[u8]| cost(list).map_err(|refusal| (refusal.number, refusal.place));
    assert_eq!(number(&[0; 23]), Err((11, 0)));
    assert_eq!(number(&[0; 24]), Err((11, 0)));
    assert_eq!(number(&text::list(&"Neg ".repeat(2049))), Err((11, 0)));
    assert_eq!(number(&text::list(&"Neg ".repeat(2048))), Ok(2048));
    assert_eq!(number(&text::list(&costly::boths(65, "Neg"))), Err((13, 0)));
}

/// Every short reading is stopped where it is told to stop.
#[test]
fn the_rust_is_stopped() {
    let list = text::list("1 Both(1: Neg Run(Custom(Neg)))");
    assert_eq!(rust::steps(&list, MOST), Ok((12, End::Whole)));
    assert_eq!(rust::steps(&list, 12), Ok((12, End::Whole)));
    for most in 0..12 {
        assert_eq!(rust::steps(&list, most), Ok((most, End::Stopped)));
    }
    // and what follows is read as ever
    assert!(rust::read(&list).is_some());
    let list = text::list("1 Both(1: Neg Pop Pop Pop Neg)");
    assert_eq!(rust::steps(&list, MOST), Ok((6, End::Refused)));
}
