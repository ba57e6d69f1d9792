//! Where the Rust departs from calculus, from its language, or from the
//! paper's domain: each shown by running it.
//!
//! `rust::` is the Rust alone; `judge::` is what the port owes.

use oracle::{
    Answer, Complex, Refusal,
    algebra::values::{sum_text, sum_value},
    back,
    evaluate::list_value,
    judge, records, runner, rust,
    stand_ins::{RELEASE_DEPTH, with_depth_limit},
    text,
};

fn in_words(list: &[u8]) -> String {
    text::words(&records::split(list).expect("whole records"))
}

/// What the Rust reads, in its own spelling.
fn reads(words: &str) -> String {
    let sum = rust::read(&text::list(words)).expect("no panic");
    let sum = sum.expect("read").entries;
    sum_text(&sum).expect("a sum of finite numbers")
}

type Outcome = Option<Result<Vec<u8>, Refusal>>;

#[track_caller]
fn written(outcome: Outcome) -> String {
    in_words(&outcome.expect("no panic").expect("done"))
}

fn derivative(words: &str) -> String {
    written(rust::derivative(&text::list(words)))
}

fn integral(words: &str) -> String {
    written(rust::integral(&text::list(words)))
}

fn inverse(words: &str) -> String {
    written(rust::inverse(&text::list(words)))
}

/// The value of a list in words at a real number.
fn value(words: &str, x: f64) -> f64 {
    let value = list_value(&text::list(words), x.into()).expect("a value");
    assert!(value.im.abs() < 1e-9);
    value.re
}

#[track_caller]
fn close(a: f64, b: f64) {
    assert!((a - b).abs() < 1e-9, "{a} and {b}");
}

#[track_caller]
fn apart(a: f64, b: f64) {
    assert!((a - b).abs() > 1e-3, "{a} and {b}");
}

/// The port refuses where the Rust goes on.
#[track_caller]
fn refused<T: std::fmt::Debug + PartialEq>(answer: Answer<T>, number: u8, place: usize) {
    assert_eq!(answer, Answer::Limit(Refusal { number, place }));
}

/// The Rust gives up.
#[track_caller]
fn gives_up<T: std::fmt::Debug + PartialEq>(answer: Answer<T>) {
    match answer {
        Answer::Rust(Err(refusal)) => assert_eq!(refusal.number, 7),
        other => panic!("{other:?}"),
    }
}

mod reading {
    use super::*;

    #[test]
    fn power_0_is_0() {
        assert_eq!(reads("push 0, Pow"), "(01)");
        close(value("push 0, Pow", 0.7), 1.0);
        assert_eq!(reads("Pop, push 0, Exp"), "(01)");
        assert_eq!(reads("Pop, push 0, Exp2"), "(01)");
        assert_eq!(reads("Pop, push 0, Exp10"), "(01)");
    }

    #[test]
    fn a_function_over_itself_is_x() {
        for function in ["Sin", "Cos", "Ln", "Exp", "push 1, Add, Reciprocal"] {
            assert_eq!(reads(&format!("{function}, Dup, Div")), "(x)");
        }
    }

    #[test]
    fn functions_of_equal_powers_count_as_the_same() {
        let words = "Dup, Sin, Flip, push 2, Mul, Sin, Div";
        assert_eq!(reads(words), "(x)");
        apart(value(words, 0.7), 0.7);
    }

    #[test]
    fn root_of_a_square_is_x() {
        assert_eq!(reads("Dup, Mul, Sqrt"), "(x)");
        close(value("Dup, Mul, Sqrt", -3.0), 3.0);
    }

    #[test]
    fn values_where_calculus_has_none() {
        assert_eq!(reads("Sqrt, Dup, Mul"), "(x)");
        assert!(value("Sqrt, Dup, Mul", 9.0) == 9.0);
        assert_eq!(reads("Dup, Div"), "(1)");
        close(value("Dup, Div", 0.7), 1.0);
    }

    #[test]
    fn zero_terms_stay() {
        assert_eq!(reads("Dup, Sub"), "(0x)");
        gives_up(judge::read(&text::list("Dup, Dup, Sub, Pow")));
    }

    #[test]
    fn quotients_round_twice_and_more() {
        assert_eq!(reads("push 0.1, Div"), "(9.999999999999998x)");
        assert_eq!(1.0 / 0.1, 10.0);
    }

    #[test]
    fn quotients_by_large_numbers_vanish() {
        assert_eq!(reads("push 1e200, Div"), "(0x)");
        assert_eq!(1.0 / 1e200, 1e-200);
        // And by small ones they overflow.
        let words = "push 1e-200, Div";
        assert_eq!(derivative(words), "push 0, Mul, push NaN, Add");
        refused(judge::read(&text::list(words)), 15, 1);
    }

    #[test]
    fn powers_round() {
        assert_eq!(
            reads("Dup, push 0.1, Pow, Flip, push 0.2, Pow, Mul"),
            "(x^0.30000000000000004)"
        );
        assert_eq!(
            reads("Dup, push -2^53, Pow, Flip, Div"),
            "(x^-9007199254740992)"
        );
    }

    #[test]
    fn small_imaginary_parts_are_dropped_from_powers_and_bases() {
        assert_eq!(reads("push 2;2^-53, Pow"), "(x^2)");
        assert_eq!(reads("push 2;2^-53, Log"), "(log_2(x))");
    }

    #[test]
    fn fork_hands_out_the_lowest_values() {
        let words = "push 3, Fork(2: Add)(1: Neg), Add";
        assert_eq!(reads(words), "(31 + 0x)");
        close(value(words, 0.7), 0.7);
    }

    #[test]
    fn logarithms_to_any_base() {
        assert_eq!(reads("push 1, Log"), "(log_1(x))");
        assert_eq!(reads("push 0, Log"), "(log_0(x))");
        assert_eq!(reads("push -2, Log"), "(log_-2(x))");
    }

    #[test]
    fn gives_up_where_calculus_goes_on() {
        for words in [
            "Sin, push 2, Mul",
            "Sin, push 2, Div",
            "Sin, Dup, Mul",
            "push 1, Add, push 2, Flip, Div",
            "Dup, push 1, Add, Div",
            "push 1, Add, push -1, Pow",
            "push 1, Add, Sqrt",
            "push 1, Add, Exp",
            "Exp2",
            "Exp, Dup, Mul",
            "Dup, Pow",
        ] {
            gives_up(judge::read(&text::list(words)));
        }
    }

    #[test]
    fn nested_both_doubles_at_each_level() {
        let nested = |levels: usize| "Both(0: ".repeat(levels) + "Neg" + &")".repeat(levels);
        assert!(judge::read(&text::list(&nested(12))).done().is_some());
        let list = text::list(&nested(63));
        assert!(list.len() <= 128 * records::RECORD);
        assert_eq!(judge::read(&list), Answer::TooLong);
    }
}

mod reading_and_running {
    use super::*;

    fn runs(words: &str, x: f64) -> f64 {
        let ran = runner::run(&text::list(words), x);
        ran.expect("a value").value
    }

    #[test]
    fn power_nought() {
        for words in ["push 0, Pow", "push -0, Pow"] {
            assert_eq!(reads(words), "(01)");
            assert_eq!(runs(words, 2.0), 1.0);
            close(value(words, 2.0), 1.0);
        }
    }

    #[test]
    fn roots() {
        let words = "Dup, Mul, Sqrt";
        assert_eq!(reads(words), "(x)");
        assert_eq!((runs(words, 2.0), runs(words, -3.0)), (2.0, 3.0));
        let words = "Sqrt, Dup, Mul";
        assert_eq!(reads(words), "(x)");
        assert_eq!(runs(words, 2.0), 2.0000000000000004);
        let below = runner::run(&text::list(words), -2.0);
        assert_eq!(below, Err(Refusal::new(14, 0)));
    }

    #[test]
    fn times_a_power_nought() {
        let words = "Dup, push 0, Pow, Mul";
        assert_eq!(reads(words), "(0x)");
        assert_eq!(derivative(words), "push 0, Mul");
        assert_eq!(runs(words, 2.0), 2.0);
        close(value(words, 2.0), 2.0);
    }
}

mod deriving {
    use super::*;

    #[test]
    fn of_a_reciprocal_lacks_sign_and_inner_factor() {
        let rust = "On(1: On(1: push 0, Mul, push 1, Add), push 2, Mul, Add), \
                    Dup, Mul, Add, Reciprocal";
        assert_eq!(derivative("push 1, Add, Reciprocal"), rust);
        close(value(rust, 0.7), 1.0 / (1.7 * 1.7));
        let inner = derivative("push 2, Mul, push 1, Add, Reciprocal");
        close(value(&inner, 0.7), 1.0 / (2.4 * 2.4));
    }

    #[test]
    fn of_a_constant_reciprocal_is_not_0() {
        let rust = derivative("Dup, Sub, push 2, Add, Reciprocal");
        assert_eq!(rust, "push 0, Mul, push 4, Add, Reciprocal");
        close(value(&rust, 0.7), 0.25);
    }

    #[test]
    fn large_powers_fall_together() {
        assert_eq!(
            derivative("push -2^53, Pow"),
            "push -2^53, Pow, push -2^53, Mul"
        );
        let words = "Dup, push -2^53, Pow, Flip, push -9007199254740991, Pow, Add";
        assert_eq!(reads(words), "(x^-9007199254740992 + x^-9007199254740991)");
        assert_eq!(derivative(words), "push -2^53, Pow, push -2^54, Mul");
        let words = "Dup, push -9007199254740996, Pow, Reciprocal, \
                     Flip, push -9007199254740998, Pow, Reciprocal, Add";
        assert_eq!(reads(words), "(x^9007199254740996 + x^9007199254740998)");
        assert_eq!(
            derivative(words),
            "push 9.007199254740996e15, Pow, push 1.801439850948199e16, Mul"
        );
    }

    #[test]
    fn small_powers_round_away() {
        assert_eq!(
            derivative("push 2^-60, Pow"),
            "push -1, Pow, push 2^-60, Mul"
        );
    }

    #[test]
    fn small_coefficients_vanish() {
        assert_eq!(derivative("Sqrt, push 5e-324, Mul"), "push 0, Mul");
        assert_eq!(derivative("Sqrt, push 5e-324, Mul, Sin"), "push 0, Mul");
        gives_up(judge::derivative(&text::list(
            "Sqrt, push 1e-323, Mul, Sin",
        )));
    }

    #[test]
    fn of_log_10_rounds_twice() {
        assert_eq!(
            derivative("Log10"),
            "Identity, push 1, Flip, Div, push 0.43429448190325176, Mul"
        );
    }

    #[test]
    fn of_logarithms_to_odd_bases() {
        for (base, rust) in [
            (1.0, "Identity, push 1, Flip, Div, push NaN, Mul"),
            (0.0, "push 0, Mul"),
            (-2.0, "Identity, push 1, Flip, Div, push NaN, Mul"),
        ] {
            let words = format!("push {base}, Log");
            assert_eq!(derivative(&words), rust);
            refused(judge::derivative(&text::list(&words)), 14, 0);
        }
        let base_3 = text::list("push 3, Log");
        close(value(&derivative("push 3, Log"), 2.0), 0.5 / 3f64.ln());
        refused(judge::derivative(&base_3), 14, 0);
    }

    #[test]
    fn gives_up_where_calculus_goes_on() {
        for words in [
            "Sin, Sin",
            "Dup, Mul, Sin",
            "Dup, Mul, Ln",
            "Sin, Reciprocal",
        ] {
            gives_up(judge::derivative(&text::list(words)));
        }
    }
}

mod integrating {
    use super::*;

    #[test]
    fn sin_2x_counts_as_sin_x() {
        assert_eq!(integral("push 2, Mul, Sin"), "Identity, Cos, push -1, Mul");
        assert_eq!(integral("push 2, Mul, Cos"), "Identity, Sin");
        // The sine of 0, which is 0, as well.
        assert_eq!(integral("Dup, Sub, Sin"), "Identity, Cos, push -1, Mul");
    }

    #[test]
    fn sinh_and_cosh_of_2x_count_as_those_of_x() {
        // A list is never read as these: the sum is handed over, sinh 2x and then cosh 2x.
        for (kind, other) in [(7, 8), (8, 7)] {
            let sum = |kind: u8, inner: f64| {
                let mut bytes = vec![0; 64];
                bytes[0] = kind;
                bytes[4] = 1;
                bytes[16..24].copy_from_slice(&1f64.to_le_bytes());
                bytes[32] = 1;
                bytes[40..48].copy_from_slice(&1f64.to_le_bytes());
                bytes[48..56].copy_from_slice(&inner.to_le_bytes());
                bytes
            };
            assert_eq!(
                judge::integrate(&sum(kind, 2.0)),
                Answer::Rust(Ok(sum(other, 1.0)))
            );
        }
    }

    #[test]
    fn what_falls_together_is_stored_not_added() {
        assert_eq!(
            integral("Dup, Sin, Flip, push 2, Mul, Sin, Add"),
            "Identity, Cos, push -1, Mul"
        );
        // 2 + x^(2^-60): both powers come to 1, and the later coefficient stays.
        assert_eq!(integral("push 2^-60, Pow, push 2, Add"), "Identity");
    }

    #[test]
    fn large_powers_fall_together() {
        assert_eq!(
            integral("push -9007199254740996, Pow"),
            "push -9.007199254740996e15, Pow, push -1.110223024625156e-16, Mul"
        );
        let words = "Dup, push -9007199254740996, Pow, Flip, push -9007199254740998, Pow, Add";
        assert_eq!(reads(words), "(x^-9007199254740998 + x^-9007199254740996)");
        assert_eq!(
            integral(words),
            "push -9.007199254740996e15, Pow, push -1.110223024625156e-16, Mul"
        );
    }

    #[test]
    fn a_small_coefficient_vanishes_and_its_term_stays() {
        assert_eq!(integral("push 5e-324, Mul"), "push 0, Mul");
        let sum = judge::read(&text::list("push 5e-324, Mul")).done().unwrap();
        let integrated = judge::integrate(&sum.entries).done().unwrap();
        assert_eq!(integrated.len(), 32);
    }

    #[test]
    fn reciprocal_is_ln_x_for_every_x() {
        assert_eq!(integral("Reciprocal"), "Identity, push E, Log");
    }

    #[test]
    fn gives_up_where_calculus_goes_on() {
        for words in [
            "Exp",
            "Ln",
            "push 1, Add, Reciprocal",
            "push 1, Add, Sin",
            "Pop, push 2, Sin",
        ] {
            gives_up(judge::integral(&text::list(words)));
        }
    }
}

mod writing {
    use super::*;

    #[test]
    fn a_later_functions_argument_gains_x() {
        let rust = derivative("Dup, Sin, Add");
        assert_eq!(
            rust,
            "On(1: On(1: push 0, Mul, push 1, Add)), Add, Cos, Add"
        );
        close(value(&rust, 0.7), 1.0 + 1.4f64.cos());
        let rust = integral("Cos, Not");
        assert_eq!(rust, "On(1: Dup), Add, Sin, push -1, Mul, Add");
        close(value(&rust, 0.7), 0.7 - 1.4f64.sin());
        let sum = judge::read(&text::list("Dup, Sin, Add")).done().unwrap();
        let rust = written(rust::write(&sum.entries, false));
        assert_eq!(rust, "On(1: Dup), Add, Sin, Add");
        close(value(&rust, 0.7), 0.7 + 1.4f64.sin());
        let list = text::list("Dup, Dup, Mul, Flip, Sin, Add");
        let rust = written(rust::derivative(&list));
        close(value(&rust, 0.7), 1.4 + 1.4f64.cos());
    }

    /// The second writer's lists of the same sums.
    #[test]
    fn the_second_writers_arguments_are_their_own() {
        let faithful = |answer: Answer<Vec<u8>>| in_words(&answer.done().expect("a list"));
        let derivative = |words: &str| faithful(judge::derivative_faithful(&text::list(words)));
        assert_eq!(
            derivative("Dup, Sin, Add"),
            "On(1: push 0, Mul, push 1, Add), Identity, Cos, Add"
        );
        assert_eq!(
            derivative("Dup, Dup, Mul, Flip, Sin, Add"),
            "On(1: push 2, Mul), Identity, Cos, Add"
        );
        assert_eq!(
            faithful(judge::integral_faithful(&text::list("Cos, Not"))),
            "Dup, Identity, Sin, push -1, Mul, Add"
        );
        let sum = judge::read(&text::list("Dup, Dup, Sub, Sin, Add"));
        let list = faithful(judge::write_faithful(&sum.done().unwrap().entries, false));
        assert_eq!(list, "Dup, push 0, Mul, Sin, Add");
        close(value(&list, 0.7), 0.7);
    }

    #[test]
    fn a_later_functions_zero_argument_is_x() {
        let sum = judge::read(&text::list("Dup, Dup, Sub, Sin, Add"));
        let sum = sum.done().unwrap().entries;
        assert_eq!(sum_text(&sum).unwrap(), "(x + sin(0x))");
        assert_eq!(written(rust::write(&sum, false)), "Dup, Sin, Add");
    }

    #[test]
    fn panics_from_28_terms() {
        let list = text::list("push 1, Add, push 28, Pow");
        with_depth_limit(Some(RELEASE_DEPTH), || {
            assert_eq!(rust::derivative(&list), None);
        });
        assert!(judge::derivative(&list).done().is_some());
    }

    #[test]
    fn complex_numbers_written_as_real_are_nan() {
        let sum = judge::read(&text::list("push 0;1, Mul")).done().unwrap();
        assert_eq!(written(rust::write(&sum.entries, false)), "push NaN, Mul");
        refused(judge::write(&sum.entries, false), 15, 0);
        let sum = judge::read(&text::list("push 2;2^-53, Mul"))
            .done()
            .unwrap();
        assert_eq!(written(rust::write(&sum.entries, false)), "push 2, Mul");
    }

    #[test]
    fn constants_read_back_with_a_zero_term() {
        let constant = derivative("push 3, Mul");
        assert_eq!(constant, "push 0, Mul, push 3, Add");
        assert_eq!(reads(&constant), "(31 + 0x)");
    }

    /// The sum of a list, the list that it is written as, and the sum of that;
    /// each sum as the bits of its powers and imaginary parts.
    fn there_and_back(words: &str, complex: bool) -> (Vec<[u64; 2]>, String, Vec<[u64; 2]>) {
        let sum = |list: &[u8]| rust::read(list).expect("no panic").expect("read").entries;
        let bits = |sum: &[u8]| {
            let entries = back::outermost(sum).into_iter();
            entries
                .map(|entry| [entry.number, entry.im].map(f64::to_bits))
                .collect()
        };
        let before = sum(&text::list(words));
        let list = written(rust::write(&before, complex));
        let after = sum(&text::list(&list));
        (bits(&before), list, bits(&after))
    }

    #[test]
    fn signs_of_zeros_are_not_kept() {
        let entry = |power: f64, im: f64| [power, im].map(f64::to_bits);
        assert_eq!(
            there_and_back("Dup, Div, Reciprocal", false),
            (
                vec![entry(-0.0, 0.0)],
                "push 0, Mul, push 1, Add".into(),
                vec![entry(0.0, 0.0), entry(1.0, 0.0)]
            )
        );
        for (complex, list) in [(false, "push -1, Mul"), (true, "push -1;-0, Mul")] {
            assert_eq!(
                there_and_back("Neg", complex),
                (vec![entry(1.0, -0.0)], list.into(), vec![entry(1.0, 0.0)])
            );
        }
        let (_, list, _) = there_and_back("push -1;-0, Mul", true);
        assert_eq!(list, "push -1;0, Mul");
        for (power, words) in [
            (-0.5, "Sqrt, Reciprocal"),
            (-1.5, "push 1.5, Pow, Reciprocal"),
        ] {
            assert_eq!(
                there_and_back(words, false),
                (
                    vec![entry(power, 0.0)],
                    format!("push {power}, Pow"),
                    vec![entry(power, -0.0)]
                )
            );
        }
    }

    #[test]
    fn some_written_lists_are_not_read() {
        let big = derivative("push 64, Pow, Dup, Mul");
        assert_eq!(big, "push 127, Pow, push 128, Mul");
        assert_eq!(reads(&big), "(128x^127)");
        refused(judge::read(&text::list(&big)), 16, 1);
        let root = inverse("push 3, Pow");
        assert_eq!(root, "push 3, Root");
        let refusal = Refusal::new(2, 1);
        assert_eq!(judge::read(&text::list(&root)), Answer::Rust(Err(refusal)));
    }
}

mod inverting {
    use super::*;

    #[test]
    fn gives_one_of_several() {
        assert_eq!(inverse("Dup, Mul"), "push 0, Sub, push 1, Div, Sqrt");
        assert_eq!(inverse("push 4, Pow"), "push 4, Root");
        let quadratic = inverse("Dup, push 1, Add, Mul");
        assert_eq!(
            quadratic,
            "push 0, Flip, Sub, push -4, Mul, push 1, Add, Sqrt, Dup, push 1, Sub, \
             Flip, Neg, push 1, Sub, Max, push 2, Div"
        );
        // x² + x is 6 at -3 and at 2.
        close(value(&quadratic, 6.0), 2.0);
    }

    #[test]
    fn answers_outside_of_the_range() {
        let rust = inverse("Sqrt, Not");
        assert_eq!(rust, "push 1, Sub, push -1, Div, Dup, Mul");
        // 1 - √x is never 3, yet the inverse says at 4.
        close(value(&rust, 3.0), 4.0);
        close(value("Sqrt, Not", 4.0), -1.0);
    }

    #[test]
    fn of_a_constant_is_the_constant() {
        assert_eq!(inverse("Dup, Sub, push 5, Add"), "Pop, push 5");
    }

    #[test]
    fn of_a_vanished_power_divides_by_0() {
        assert_eq!(
            inverse("push 3, Pow, Dup, Sub"),
            "push 0, Div, push 3, Root"
        );
    }

    #[test]
    fn a_zero_term_makes_it_give_up() {
        gives_up(judge::inverse(&text::list(
            "Dup, push 3, Pow, Dup, Sub, Add",
        )));
    }

    #[test]
    fn one_operation_is_not_handled() {
        let not_handled = Answer::Rust(Err(Refusal::whole(10)));
        assert_eq!(judge::inverse(&text::list("push 5, Add")), not_handled);
        assert_eq!(
            inverse("push 5, Add, push 0, Add"),
            "push 5, Sub, push 1, Div"
        );
    }

    #[test]
    fn reciprocals_round_and_overflow() {
        assert_eq!(
            inverse("push 0.1, Mul, push 0, Add"),
            "push 9.999999999999998, Mul"
        );
        let words = "push 1e-200, Mul, push 0, Add";
        assert_eq!(inverse(words), "push NaN, Mul");
        refused(judge::inverse(&text::list(words)), 15, 0);
    }

    #[test]
    fn complex_quadratics_mix_their_roots() {
        let list = text::list("push 2, Complex, Dup, Mul");
        let sum = judge::read(&list).done().unwrap().entries;
        let inverse = judge::inverse(&list).done().unwrap();
        // (x + 2i)² at -0.6, and what the inverse makes of it.
        let y = sum_value(&sum, Complex::new(-0.6, 0.0)).unwrap();
        let back = list_value(&inverse, y).unwrap();
        close(back.re, 0.6);
        let again = sum_value(&sum, back).unwrap();
        apart(y.im, again.im);
    }

    #[test]
    fn roots_of_other_than_whole_factors() {
        let words = "push 3, Pow, push 0.5, Mul";
        // The number comes from the machine's own mathematics library.
        let rust = inverse(words);
        assert!(
            rust.starts_with("push 3, Root, push 0.79370052598"),
            "{rust}"
        );
        assert!(rust.ends_with(", Div"), "{rust}");
        refused(judge::inverse(&text::list(words)), 14, 0);
    }

    #[test]
    fn gives_up_where_calculus_goes_on() {
        for words in ["Sin, Neg", "push 2, Mul, Exp", "push 1, Add, Reciprocal"] {
            gives_up(judge::inverse(&text::list(words)));
        }
    }
}

mod domain {
    use super::*;

    #[test]
    fn roots_of_coefficients() {
        assert_eq!(reads("push 4, Mul, Sqrt"), "(2x^0.5)");
        refused(judge::read(&text::list("push 4, Mul, Sqrt")), 14, 2);
        assert_eq!(reads("Pop, push 4, Sqrt"), "(21)");
        refused(judge::read(&text::list("Pop, push 4, Sqrt")), 14, 2);
        assert_eq!(derivative("Neg, Sqrt"), "push -0.5, Pow, push NaN, Mul");
        refused(judge::read(&text::list("Neg, Sqrt")), 14, 1);
        assert!(reads("Pop, push 0.5, Exp").starts_with("(1.64872127070"));
        refused(judge::read(&text::list("Pop, push 0.5, Exp")), 14, 2);
    }

    #[test]
    fn numbers_that_are_not_finite() {
        assert_eq!(
            derivative("push inf, Add"),
            "On(1: push -1, Pow, push NaN, Mul), push 0, Mul, push 1, Add, Add"
        );
        refused(judge::read(&text::list("push inf, Add")), 15, 0);
        assert_eq!(
            derivative("push 1e308, Mul, push 10, Mul"),
            "push 0, Mul, push inf, Add"
        );
        refused(
            judge::read(&text::list("push 1e308, Mul, push 10, Mul")),
            15,
            3,
        );
    }

    /// A power of x that isn't finite has a number of its own.
    #[test]
    fn powers_that_overflow() {
        let words = "push -1e308, Pow, Dup, Mul";
        assert_eq!(derivative(words), "push -inf, Pow, push NaN, Mul");
        refused(judge::read(&text::list(words)), 18, 3);
        let words = "push -1e308, Pow, push 1e200, Mul, Dup, Mul";
        assert_eq!(derivative(words), "push -inf, Pow, push NaN, Mul");
        refused(judge::read(&text::list(words)), 18, 5);
        let words = "push -1e308, Pow, push 1, Add, Reciprocal";
        assert!(derivative(words).contains("push -inf, Pow"));
        refused(judge::derivative(&text::list(words)), 18, 0);
        let words = "push 1e308, push 10, Mul, Pow";
        refused(judge::read(&text::list(words)), 15, 2);
    }

    #[test]
    fn overflows_after_reading() {
        for words in ["Dup, Mul, push 1e308, Mul"] {
            assert!(derivative(words).contains("push inf"));
            refused(judge::derivative(&text::list(words)), 15, 0);
        }
        let words = "push -0.9, Pow, push 1e308, Mul";
        assert!(integral(words).contains("push inf"));
        refused(judge::integral(&text::list(words)), 15, 0);
        let words = "Dup, push 1e200, Mul, Flip, Dup, Mul, Add";
        assert!(inverse(words).contains("push inf"));
        refused(judge::inverse(&text::list(words)), 15, 0);
    }

    #[test]
    fn a_square_of_over_64_entries() {
        let words = "push 1, Add, push 32, Pow, Reciprocal";
        refused(judge::derivative(&text::list(words)), 12, 0);
    }

    #[test]
    fn a_base_that_is_no_number_panics() {
        let list = text::list("Dup, push nan, Log, Flip, push nan, Log, Add");
        assert_eq!(rust::read(&list), None);
        refused(judge::read(&list), 15, 1);
    }

    #[test]
    fn large_powers() {
        assert_eq!(reads("push 65, Pow"), "(x^65)");
        refused(judge::read(&text::list("push 65, Pow")), 16, 1);
    }

    #[test]
    fn large_sums() {
        let words = "push 1, Add, push 64, Pow";
        let sum = rust::read(&text::list(words)).unwrap().unwrap();
        assert_eq!(sum.entries.len(), 65 * 32);
        refused(judge::read(&text::list(words)), 12, 3);
    }

    #[test]
    fn deep_sums() {
        let list = text::list("Sin, Sin, Sin, Sin");
        assert!(rust::read(&list).unwrap().is_ok());
        refused(judge::read(&list), 13, 3);
    }

    #[test]
    fn large_stacks() {
        // 1,024 numbers over x, taken off again.
        let list = |levels: usize| {
            let nest = |record: &str| "Both(0: ".repeat(levels) + record + &")".repeat(levels);
            text::list(&(nest("1") + &nest("Pop")))
        };
        assert!(judge::read(&list(9)).done().is_some());
        assert!(rust::read(&list(10)).unwrap().is_ok());
        refused(judge::read(&list(10)), 12, 20);
    }
}
