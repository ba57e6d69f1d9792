//! What the Rust wrote, the Rust reads back as the formula that it was.

use std::{fs, path::Path};

use oracle::{
    Refusal, back,
    back::Entry,
    judge,
    random::Random,
    rust,
    stand_ins::{RELEASE_DEPTH, with_depth_limit},
    stored::Input,
};

/// Written and read by the Rust alone.
fn comes_back(sum: &[u8], complex: bool) -> Result<(), String> {
    let terms = back::terms(sum).ok_or("no formula that comes back")?;
    let list = rust::write(sum, complex).ok_or("a panic")?;
    let list = list.map_err(|refusal| format!("{refusal:?}"))?;
    let read = rust::read(&list).ok_or("a panic")?;
    let read = read.map_err(|refusal| format!("{refusal:?}"))?;
    if let Some(fault) = back::fault(&terms, complex, &read) {
        return Err(fault);
    }
    if !complex && rust::write(&read.entries, false) != Some(Ok(list)) {
        return Err("written again it is another list".into());
    }
    Ok(())
}

#[test]
fn random_formulas_come_back() {
    let mut random = Random::new(40);
    for round in 0..20_000 {
        // the check of signatures, which panics from 28 terms on, has no limit here
        let most = if round % 4 == 0 { back::MOST_TERMS } else { 8 };
        let sum = back::random_formula(&mut random, most);
        for complex in [false, true] {
            assert_eq!(
                comes_back(&sum, complex),
                Ok(()),
                "{complex} {:?}",
                back::outermost(&sum)
            );
        }
    }
}

#[test]
fn up_to_27_terms_as_the_rust_is_released() {
    let powers = |count: usize| -> Vec<u8> {
        let entries: Vec<Entry> = (0..count)
            .map(|power| Entry::power(power as f64, 2.0, 0.0))
            .collect();
        back::bytes_of(&entries)
    };
    with_depth_limit(Some(RELEASE_DEPTH), || {
        assert_eq!(comes_back(&powers(27), false), Ok(()));
        assert!(rust::write(&powers(28), false).is_none());
        let mut random = Random::new(41);
        for _ in 0..2_000 {
            let sum = back::random_formula(&mut random, 27);
            assert_eq!(comes_back(&sum, false), Ok(()));
            assert_eq!(comes_back(&sum, true), Ok(()));
        }
    });
}

/// Each stored sum that the theorem speaks of has its two lines, and no other has one.
#[test]
fn stored_formulas_come_back() {
    let file = Path::new(env!("CARGO_MANIFEST_DIR")).join("../vectors/sums.txt");
    let text = fs::read_to_string(file).expect("stored answers");
    let mut formulas = 0;
    for line in text.lines() {
        let Some(Input::Sum(sum)) = Input::parse(line) else {
            continue;
        };
        if back::terms(&sum).is_some() {
            formulas += 1;
            assert_eq!(comes_back(&sum, false), Ok(()), "{line}");
            assert_eq!(comes_back(&sum, true), Ok(()), "{line}");
        }
    }
    let lines = text.lines().filter(|line| line.starts_with("back "));
    assert_eq!((formulas, lines.count()), (261, 522));
}

/// Why each of the conditions is there.
#[test]
fn what_does_not_come_back() {
    // 64 terms with a constant and no x make 65 entries
    let entries: Vec<Entry> = (0..65)
        .filter(|power| *power != 1)
        .map(|power| Entry::power(f64::from(power), 2.0, 0.0))
        .collect();
    let list = judge::write(&back::bytes_of(&entries), false)
        .done()
        .expect("a list");
    let refused = judge::read(&list).owed().expect("owed").unwrap_err();
    assert_eq!(refused.number, 12);
    // a whole power above 64 is 16 at its Pow
    let list = judge::write(&back::bytes_of(&[Entry::power(65.0, 1.0, 0.0)]), false).done();
    let refused = judge::read(&list.expect("a list"))
        .owed()
        .expect("owed")
        .unwrap_err();
    assert_eq!(refused, Refusal::new(16, 1));
    // an imaginary part of 2^-52 isn't written as real
    let sum = back::bytes_of(&[Entry::power(2.0, 3.0, 2.220446049250313e-16)]);
    assert_eq!(
        judge::write(&sum, false).owed().expect("owed"),
        Err(Refusal::whole(15))
    );
}
