//! The Rust's signature check of written bodies, and its limit on depth.

use oracle::{
    judge,
    records::{self, kind},
    rust,
    stand_ins::{DEBUG_DEPTH, RELEASE_DEPTH, with_depth_limit},
    text,
};

/// The derivative of (x + 1)^n, which has n terms.
fn derivative_terms(terms: usize) -> Vec<u8> {
    text::list(&format!("push 1, Add, push {terms}, Pow"))
}

/// A sum of x^first and the powers after it.
fn power_sum(first: usize, terms: usize) -> Vec<u8> {
    let mut bytes = Vec::new();
    for power in first..first + terms {
        bytes.extend([1, 0, 0, 0, 0, 0, 0, 0]);
        bytes.extend((power as f64).to_le_bytes());
        bytes.extend(1f64.to_le_bytes());
        bytes.extend(0f64.to_le_bytes());
    }
    bytes
}

/// The least number of terms whose writing panics under a limit.
fn least_panicking(limit: usize, writes: impl Fn(usize) -> bool) -> usize {
    with_depth_limit(Some(limit), || {
        (1..64).find(|&terms| !writes(terms)).expect("a panic")
    })
}

fn writes_from(first: usize) -> impl Fn(usize) -> bool {
    move |terms| rust::write(&power_sum(first, terms), false).is_some()
}

#[test]
fn a_release_build_panics_from_28_terms() {
    let least = least_panicking(RELEASE_DEPTH, |terms| {
        rust::derivative(&derivative_terms(terms)).is_some()
    });
    assert_eq!(least, 28);
    assert_eq!(least_panicking(RELEASE_DEPTH, writes_from(0)), 28);
    assert_eq!(least_panicking(RELEASE_DEPTH, writes_from(2)), 28);
}

#[test]
fn bare_x_first_lets_one_more_term_through() {
    assert_eq!(least_panicking(RELEASE_DEPTH, writes_from(1)), 29);
}

#[test]
fn a_debug_build_panics_from_16_terms() {
    assert_eq!(least_panicking(DEBUG_DEPTH, writes_from(0)), 16);
    assert_eq!(least_panicking(DEBUG_DEPTH, writes_from(1)), 17);
}

#[test]
fn the_limit_is_lifted_unless_asked_for() {
    let list = derivative_terms(28);
    with_depth_limit(Some(RELEASE_DEPTH), || {
        assert_eq!(judge::derivative(&list), oracle::Answer::Panic);
    });
    assert!(judge::derivative(&list).done().is_some());
    assert!(judge::write(&power_sum(0, 64), false).done().is_some());
}

/// Every body in a written list has 1 argument.
fn bodies_of_one(list: &[u8]) -> usize {
    let records = records::check(list).expect("a list");
    let bodies = records.iter().filter(|record| record.kind == kind::BODY);
    bodies.inspect(|body| assert_eq!(body.arguments, 1)).count()
}

#[test]
fn long_sums_have_bodies_of_one_argument() {
    for first in 0..3 {
        let list = judge::write(&power_sum(first, 64), false).done();
        let bodies = bodies_of_one(&list.expect("written"));
        // Bare x is written by the Dup that follows it, not by a body.
        assert_eq!(bodies, if first == 1 { 62 } else { 63 });
    }
}
