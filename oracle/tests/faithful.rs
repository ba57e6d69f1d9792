//! The second writer: the Rust's text with one change, and lists that give the
//! value of the sum that they are written from.

use std::{fs, path::Path};

use oracle::{
    Answer, Complex, Refusal,
    algebra::{
        random_sums::random_sum,
        values::{said, sum_text},
    },
    functions,
    functions::{FUNCTIONS, function, power, powers},
    generate, judge,
    meaning::given,
    random::Random,
    records,
    records::RECORD,
    sums::{self, ENTRY, kind},
    text,
};

/// Points at which lists are held against sums.
const POINTS: [f64; 9] = [0.0, -0.0, 0.5, 1.0, 0.7, 2.0, -1.3, 31.0, 1e-9];

const SIN: (u8, f64) = (kind::SIN, 0.0);

fn in_words(list: &[u8]) -> String {
    text::words(&records::split(list).expect("whole records"))
}

#[track_caller]
fn written(answer: Answer<Vec<u8>>) -> String {
    in_words(&answer.done().expect("a list"))
}

#[track_caller]
fn writes(sum: &[u8], words: &str) {
    assert_eq!(written(judge::write_faithful(sum, false)), words);
}

fn sin_of(inside: &[u8]) -> Vec<u8> {
    function(SIN, Complex::ONE, inside)
}

/// From `fn expr_to_node` to its end.
fn writer_in(file: &str) -> String {
    let path = Path::new(env!("CARGO_MANIFEST_DIR")).join(file);
    let text = fs::read_to_string(path).expect("a source");
    let from = text.find("fn expr_to_node(").expect("a writer");
    let end = text[from..].find("\n}\n").expect("its end");
    text[from..from + end].into()
}

#[test]
fn the_text_is_the_rusts_but_for_its_arguments() {
    let rust = writer_in("../docs/src/src/compile/algebra.rs");
    let second = writer_in("src/algebra/faithful.rs");
    let from = second.find("    fn argument(").expect("its own");
    let end = second.find("    fn recur(").expect("the loop");
    let own = &second[from..end];
    let lines: Vec<&str> = own.lines().map(str::trim).collect();
    assert_eq!(
        lines,
        [
            "fn argument(node: &mut Node, expr: Expr, any_complex: bool, span: usize) {",
            "let mut apart = Node::empty();",
            "recur(&mut apart, expr, any_complex, span);",
            "node.push(apart);",
            "}",
        ]
    );
    let call = "recur(node, expr, any_complex, span);";
    assert_eq!(rust.matches(call).count(), 8);
    let changed = rust.replace(call, "argument(node, expr, any_complex, span);");
    assert_eq!(second.replacen(own, "", 1), changed);
}

#[test]
fn examples() {
    let derivative = judge::derivative_faithful(&text::list("Dup, Dup, Mul, Flip, Sin, Add"));
    assert_eq!(
        written(derivative),
        "On(1: push 2, Mul), Identity, Cos, Add"
    );
    let zeros = [power(2.0, 1.0), sin_of(&power(1.0, 0.0))].concat();
    writes(&zeros, "On(1: Dup, Mul), push 0, Mul, Sin, Add");
    let behind_x = [power(1.0, 1.0), sin_of(&power(1.0, 1.0))].concat();
    writes(&behind_x, "Dup, Identity, Sin, Add");
    let integral = judge::integral_faithful(&text::list("Cos, Not"));
    assert_eq!(written(integral), "Dup, Identity, Sin, push -1, Mul, Add");
}

#[test]
fn bare_x_first_and_several_terms_inside() {
    let bare_x_first = sin_of(&powers(&[(1.0, 1.0), (2.0, 1.0)]));
    writes(&bare_x_first, "Dup, Dup, Mul, Add, Sin");
    writes(
        &[power(2.0, 1.0), bare_x_first].concat(),
        "On(1: Dup, Mul), Dup, Dup, Mul, Add, Sin, Add",
    );
    let several = sin_of(&powers(&[(0.0, 1.0), (2.0, 1.0)]));
    writes(
        &several,
        "On(1: push 0, Mul, push 1, Add), Dup, Mul, Add, Sin",
    );
    writes(
        &[power(1.0, 1.0), several].concat(),
        "Dup, On(1: push 0, Mul, push 1, Add), Dup, Mul, Add, Sin, Add",
    );
}

#[test]
fn nests_of_three() {
    let inner = sin_of(&sin_of(&sin_of(&power(1.0, 1.0))));
    writes(&inner, "Identity, Sin, Sin, Sin");
    let zeros = sin_of(&sin_of(&sin_of(&power(1.0, 0.0))));
    writes(
        &[power(1.0, 1.0), zeros].concat(),
        "Dup, push 0, Mul, Sin, Sin, Sin, Add",
    );
    let x = power(1.0, 1.0);
    let nested = |inside: Vec<u8>| [&x[..], &sin_of(&inside)].concat();
    writes(
        &nested(nested(nested(x.clone()))),
        "Dup, Dup, Dup, Identity, Sin, Add, Sin, Add, Sin, Add",
    );
    let deep = sin_of(&sin_of(&sin_of(&sin_of(&x))));
    let refused = Answer::Form(Refusal::whole(13));
    assert_eq!(judge::write_faithful(&deep, false), refused);
}

/// A term whose coefficient is zero is as good as not there, at every level.
#[test]
fn zero_terms_between() {
    let without = powers(&[(1.0, 1.0), (3.0, 2.0)]);
    let with = powers(&[(0.0, 0.0), (1.0, 1.0), (2.0, -0.0), (3.0, 2.0), (4.0, 0.0)]);
    for (coef, inside) in [(1.0, &without), (-2.5, &without), (1.0, &with)] {
        for kind in FUNCTIONS {
            let term = function(kind, coef.into(), inside);
            let plain = function(kind, coef.into(), &without);
            let zero = function((kind::DIV, 0.0), Complex::ZERO, &power(5.0, 3.0));
            let zero = if kind.0 == kind::DIV {
                Vec::new()
            } else {
                zero
            };
            for complex in [false, true] {
                let between = [&with[..], &zero, &term].concat();
                let expected = [&without[..], &plain].concat();
                assert_eq!(
                    judge::write_faithful(&between, complex),
                    judge::write_faithful(&expected, complex)
                );
            }
        }
    }
}

fn same_bits(a: f64, b: f64) -> bool {
    a.to_bits() == b.to_bits() || (a.is_nan() && b.is_nan())
}

/// The list of a sum, written with the flag, if it isn't refused.
fn list_of(sum: &[u8], complex: bool) -> Option<Vec<u8>> {
    judge::write_faithful(sum, complex).done()
}

fn about(sum: &[u8], list: &[u8]) -> String {
    format!("{:?} as {}", sum_text(sum), in_words(list))
}

/// Written as real, the list gives what the sum says at every point, to the bit.
#[track_caller]
fn gives_what_is_said(sum: &[u8]) {
    let list = list_of(sum, false).expect("a list");
    for x in POINTS {
        let given: f64 = given(&list, x).expect("a value");
        let said = said(sum, x).expect("a value");
        assert!(
            same_bits(given, said),
            "{given} for {said} at {x}: {}",
            about(sum, &list)
        );
    }
}

/// Written in pairs, it does so in complex numbers.
#[track_caller]
fn gives_what_is_said_in_pairs(sum: &[u8]) {
    let list = list_of(sum, true).expect("a list");
    for (re, im) in POINTS.into_iter().zip([0.0, 0.3, -2.0].into_iter().cycle()) {
        let x = Complex::new(re, im);
        let given: Complex = given(&list, x).expect("a value");
        let said = said(sum, x).expect("a value");
        assert!(
            same_bits(given.re, said.re) && same_bits(given.im, said.im),
            "{given} for {said} at {x}: {}",
            about(sum, &list)
        );
    }
}

#[test]
fn every_function_of_every_argument() {
    let sums = functions::sums();
    assert_eq!(sums.len(), 7 * 12 * 8 * 2 + 6 * 12 * 2);
    for sum in &sums {
        assert_eq!(sums::fault(sum), None);
        gives_what_is_said(sum);
        gives_what_is_said_in_pairs(sum);
    }
}

#[test]
fn random_sums_give_what_they_say() {
    let mut random = Random::new(60);
    let mut counts = [0; 2];
    for _ in 0..20_000 {
        let sum = random_sum(&mut random);
        if list_of(&sum, false).is_some() {
            gives_what_is_said(&sum);
            counts[0] += 1;
        }
        if list_of(&sum, true).is_some() {
            gives_what_is_said_in_pairs(&sum);
            counts[1] += 1;
        }
    }
    assert!(counts[0] > 10_000 && counts[1] > 15_000, "{counts:?}");
}

/// The first writer's list of x² + sin x gives the sine of 2x, and of x + sin(0·x) that of x.
#[test]
fn the_first_writers_lists_give_something_else() {
    let x = power(1.0, 1.0);
    let square = [power(2.0, 1.0), sin_of(&x)].concat();
    let zeros = [x, sin_of(&power(1.0, 0.0))].concat();
    let at = |list: Answer<Vec<u8>>| given(&list.done().expect("a list"), 0.7).expect("a value");
    for (sum, first) in [
        (square, 0.7 * 0.7 + (0.7f64 + 0.7).sin()),
        (zeros, 0.7 + 0.7f64.sin()),
    ] {
        gives_what_is_said(&sum);
        assert!(same_bits(at(judge::write(&sum, false)), first));
        assert!((first - said(&sum, 0.7).expect("a value")).abs() > 0.1);
    }
    let list = text::list("Dup, Dup, Mul, Flip, Sin, Add");
    let derivatives = [judge::derivative, judge::derivative_faithful];
    let [first, second] = derivatives.map(|derivative| at(derivative(&list)));
    assert!(same_bits(first, 0.7 * 2.0 + (0.7f64 + 0.7).cos()));
    assert!(same_bits(second, 0.7 * 2.0 + 0.7f64.cos()));
}

/// The same numbers are written, so the same sums are refused.
#[test]
fn refused_alike() {
    let mut random = Random::new(61);
    let mut refused = 0;
    for _ in 0..20_000 {
        let sum = random_sum(&mut random);
        let sum = generate::damaged(&mut random, &sum, &sum, ENTRY);
        for complex in [false, true] {
            let both = [judge::write, judge::write_faithful];
            match both.map(|write| write(&sum, complex)) {
                [Answer::Rust(Ok(_)), Answer::Rust(Ok(_))] => {}
                [first, second] => {
                    assert_eq!(first, second);
                    refused += 1;
                }
            }
        }
    }
    assert!(refused > 5_000, "{refused}");
}

fn is_power(bytes: &[u8]) -> bool {
    bytes[0] == kind::X || bytes[16..ENTRY].iter().all(|&byte| byte == 0)
}

/// Of powers of x alone both write the same bytes.
#[test]
fn powers_of_x_are_written_alike() {
    let mut random = Random::new(62);
    let mut alike = 0;
    for _ in 0..20_000 {
        let sum = random_sum(&mut random);
        if sum.chunks(ENTRY).all(is_power) {
            for complex in [false, true] {
                let both = [judge::write, judge::write_faithful];
                let [first, second] = both.map(|write| write(&sum, complex));
                assert_eq!(first, second);
            }
            alike += 1;
        }
    }
    assert!(alike > 3_000, "{alike}");
}

/// An imaginary part below 2^-52 is dropped in a real write, one of 2^-52 is 15; pairs keep both.
#[test]
fn small_imaginary_parts_inside_an_argument() {
    let small = f64::EPSILON / 2.0;
    let sum = functions::with_imaginary_part;
    writes(&sum(small), "On(1: Dup, Mul), push 2, Mul, Sin, Add");
    let refused = Answer::Limit(Refusal::whole(15));
    assert_eq!(judge::write_faithful(&sum(f64::EPSILON), false), refused);
    for (im, words) in [(small, "2^-53"), (f64::EPSILON, "2^-52")] {
        assert_eq!(
            written(judge::write_faithful(&sum(im), true)),
            format!("On(1: Dup, Mul), push 2;{words}, Mul, Sin, Add")
        );
    }
}

/// 63 entries in one argument, which an On goes round for each of them but the first.
#[test]
fn sixty_three_entries_in_one_argument() {
    let terms: Vec<(f64, f64)> = (0..63).map(|power| (f64::from(power), 2.0)).collect();
    let inside = powers(&terms);
    for (before, more) in [(Vec::new(), 0), (power(1.0, 1.0), 2)] {
        let inside = &inside[before.len()..];
        let sum = [&before[..], &sin_of(inside)].concat();
        assert_eq!(sum.len(), 64 * ENTRY);
        let argument = judge::write(inside, false).done().expect("a list");
        let list = judge::write_faithful(&sum, false).done().expect("a list");
        assert_eq!(list.len(), argument.len() + (1 + more) * RECORD);
        assert!(records::check(&list).is_ok());
        gives_what_is_said(&sum);
    }
}

/// What the second writer writes of a good sum is a good list.
#[test]
fn good_lists() {
    let mut random = Random::new(63);
    let sums = (0..20_000).map(|_| random_sum(&mut random));
    let lists = sums.chain(functions::sums());
    for list in lists.filter_map(|sum| list_of(&sum, true)) {
        assert!(records::check(&list).is_ok());
    }
}
