//! How many pairs of outermost terms the Rust multiplies in records of Mul and
//! Pow, counted in its own loops.

use oracle::{
    Answer, algebra::MOST_STEPS, cost::cost, generate, judge, multiplied, random::Random,
    records::RECORD, stand_ins::pairs, text,
};

/// The pairs of a list that is read, or the number that refuses it.
fn read(list: &[u8]) -> Result<u64, u8> {
    let owed = judge::read(list).owed().expect("an answer that is owed");
    owed.map(|read| read.pairs)
        .map_err(|refusal| refusal.number)
}

#[test]
fn examples() {
    for case in multiplied::cases() {
        assert_eq!(read(&text::list(&case.words)), case.read, "{}", case.words);
    }
}

/// One record of Pow, and over 90,000 pairs.
#[test]
fn terms_that_fall_together() {
    let counts = [33, 32, 16].map(|count| {
        let words = format!("{} 64 Pow", multiplied::neighbours(count));
        read(&text::list(&words)).expect("a sum")
    });
    println!("{counts:?}");
    assert!(counts[0] > 90_000, "{counts:?}");
    for (count, pairs) in [33, 32, 16].into_iter().zip(counts) {
        let base = multiplied::neighbouring_powers(count);
        assert_eq!(pairs, multiplied::raised_pairs(&base, 64));
    }
}

/// The guard counts by the factors' lengths; a record of Mul has at most 4,096
/// pairs and one of Pow 258,048.
fn check(list: &[u8], counted: &mut usize) {
    if let Answer::Rust(Ok(sum)) = judge::read(list) {
        let shown = || text::hex(list, RECORD);
        assert_eq!(
            judge::guard_read(list),
            Some(Ok(sum.clone())),
            "{}",
            shown()
        );
        let steps = cost(list).expect("a good list");
        assert!(sum.pairs <= 258_048 * steps, "{}", shown());
        *counted += usize::from(sum.pairs > 0);
    }
}

#[test]
fn by_the_lengths_of_the_factors() {
    let mut counted = 0;
    for list in multiplied::near_limits() {
        check(&list, &mut counted);
    }
    let mut random = Random::new(31);
    for round in 0..4000 {
        check(
            &multiplied::random_list(&mut random, 1 + round % 8),
            &mut counted,
        );
        check(
            &generate::good_list(&mut random, 3 + round % 16),
            &mut counted,
        );
    }
    println!("{counted} lists with pairs");
    assert!(counted > 3000, "{counted}");
}

/// What is read after a refusal, a panic that is caught or a list that is
/// stopped is counted as if nothing had been before it.
#[test]
fn a_count_starts_anew() {
    let square = text::list("1 Add Dup Mul");
    for words in [
        "Sin Dup Mul",
        "1 Add Reciprocal 1 Add Dup Mul",
        "1 Add 64 Pow",
        "1 Add 63 Pow",
    ] {
        judge::read(&text::list(words));
        judge::derivative(&text::list(words));
        assert_eq!(read(&square), Ok(4), "{words}");
    }
    let doubled = "Both(0: ".repeat(20) + "1 Pow" + &")".repeat(20);
    assert!(cost(&text::list(&doubled)).expect("a good list") > MOST_STEPS as u64);
    assert_eq!(judge::read(&text::list(&doubled)), Answer::TooLong);
    assert_eq!(read(&square), Ok(4));
}

/// Beyond 2^64 - 1 the count stays there.
#[test]
fn the_largest_count() {
    let square = text::list("1 Add Dup Mul");
    for (from, to) in [
        (0, 4),
        (u64::MAX - 5, u64::MAX - 1),
        (u64::MAX - 4, u64::MAX),
        (u64::MAX - 3, u64::MAX),
    ] {
        assert_eq!(oracle::rust::pairs_from(from, &square), Some(to));
    }
    assert_eq!(pairs::counted(7, || ()).1, 7);
}
