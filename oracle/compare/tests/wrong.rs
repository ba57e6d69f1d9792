//! The proved library has no difference on some thousand lists, and each wrong
//! library has one.

use compare::{
    arguments::{self, Settings},
    work::{self, Compared},
};
use proved::{LIBRARY, Library, Ran, Told};

fn settings() -> Settings {
    let words = "--exhaustive 2 --lists 2000 --seed 1";
    arguments::parse(words.split(' ').map(String::from)).expect("good words")
}

fn compared(library: Library) -> Compared {
    work::compare(&settings(), library)
}

#[track_caller]
fn is_found(entry: &str, library: Library) {
    is_found_as(&[&format!(": {entry}")], library);
}

/// A difference that is told in one of these words.
#[track_caller]
fn is_found_as(words: &[&str], library: Library) {
    let differences = compared(library).differences;
    let first = differences.first().expect("a difference");
    assert!(words.iter().any(|words| first.contains(words)), "{first}");
}

#[test]
fn the_proved_library_has_no_difference() {
    let compared = compared(LIBRARY);
    assert_eq!(compared.differences, Vec::<String>::new());
    assert!(compared.tally.all_lists() > 4000 && compared.tally.compared() > 30_000);
    assert!(!compared.cut_short);
    assert_eq!(compared.tally.missing(), Vec::<String>::new());
    assert!(compared.tally.noughts > 10);
}

fn flag_never_set(list: &[u8], sum: &mut [u8]) -> Told<4> {
    let mut told = proved::read(list, sum);
    told.answer[2] = 0;
    told
}

fn places_all_0(list: &[u8], sum: &mut [u8]) -> Told<4> {
    let mut told = proved::read(list, sum);
    told.answer[0] = 0;
    told
}

fn power_told_as_15(list: &[u8], sum: &mut [u8]) -> Told<4> {
    let mut told = proved::read(list, sum);
    if told.number == 18 {
        told.number = 15;
    }
    told
}

fn square_told_as_15(sum: &[u8], out: &mut [u8]) -> Told<2> {
    let mut told = proved::derive(sum, out);
    if told.number == 18 {
        told.number = 15;
    }
    told
}

/// 0 for the run of push 0, Pow.
fn nought_is_0(list: &[u8], x: f64) -> Ran {
    let mut ran = proved::run(list, x);
    let nought: Vec<u8> = [[1, 0], [5, 12]]
        .into_iter()
        .flat_map(|start| start.into_iter().chain([0; 22]))
        .collect();
    if list == nought {
        ran.value = 0;
    }
    ran
}

/// The root rounded down where it should be rounded up, at times.
fn root_rounded_down(list: &[u8], x: f64) -> Ran {
    let mut ran = proved::run(list, x);
    let root = f64::from_bits(ran.value);
    if list.len() == 24 && list[1] == 7 && root.mul_add(root, -x) > 0.0 {
        ran.value -= 1;
    }
    ran
}

#[test]
fn wrong_roots_are_found() {
    let right = compare::roots::compare(LIBRARY, 70_000, 1);
    assert_eq!((right.compared, right.differences), (70_000, Vec::new()));
    let run = root_rounded_down;
    let wrong = compare::roots::compare(Library { run, ..LIBRARY }, 70_000, 1);
    assert_eq!(wrong.differences.len(), 10);
}

fn last_bit_wrong(list: &[u8], out: &mut [u8]) -> Told<2> {
    let told = proved::derivative(list, out);
    if told.number == 0 && told.answer[1] == 6 {
        out[6 * 24 - 16] ^= 1;
    }
    told
}

fn one_more_counted(list: &[u8], out: &mut [u8]) -> Told<2> {
    let mut told = proved::derivative(list, out);
    told.answer[1] += u64::from(told.answer[1] > 10);
    told
}

fn written_past_the_count(list: &[u8], out: &mut [u8]) -> Told<2> {
    let told = proved::integral(list, out);
    if let Some(byte) = out.get_mut(24 * told.answer[1] as usize) {
        *byte = 0;
    }
    told
}

fn written_though_refused(list: &[u8], out: &mut [u8]) -> Told<2> {
    let told = proved::inverse(list, out);
    if let Some(byte) = out.first_mut().filter(|_| told.number == 7) {
        *byte = 0;
    }
    told
}

fn always_room(sum: &[u8], out: &mut [u8]) -> Told<2> {
    let told = proved::derive(sum, out);
    match told.number {
        17 => Told { number: 0, ..told },
        _ => told,
    }
}

fn all_refused(_sum: &[u8], _out: &mut [u8]) -> Told<2> {
    Told {
        number: 7,
        answer: [0, 0],
    }
}

fn flag_not_asked(sum: &[u8], _complex: u8, out: &mut [u8]) -> Told<2> {
    proved::write(sum, 0, out)
}

fn only_1_is_complex(sum: &[u8], complex: u8, out: &mut [u8]) -> Told<2> {
    proved::write(sum, u8::from(complex == 1), out)
}

/// The first writer in the place of the second.
fn not_faithful(library: Library) -> [(&'static str, Library); 3] {
    let write_faithful = library.write;
    let derivative_faithful = library.derivative;
    let integral_faithful = library.integral;
    [
        (
            "write_faithful",
            Library {
                write_faithful,
                ..library
            },
        ),
        (
            "derivative_faithful",
            Library {
                derivative_faithful,
                ..library
            },
        ),
        (
            "integral_faithful",
            Library {
                integral_faithful,
                ..library
            },
        ),
    ]
}

fn faithful_flag_not_asked(sum: &[u8], _complex: u8, out: &mut [u8]) -> Told<2> {
    proved::write_faithful(sum, 0, out)
}

/// 17 for room that is exact.
fn exact_room_refused(sum: &[u8], complex: u8, out: &mut [u8]) -> Told<2> {
    let short = out.len().saturating_sub(1);
    proved::write_faithful(sum, complex, &mut out[..short])
}

/// A record too few where the room is one byte short.
fn cut_to_the_room(sum: &[u8], complex: u8, out: &mut [u8]) -> Told<2> {
    let mut room = vec![0; 2048 * 24];
    let mut told = proved::write_faithful(sum, complex, &mut room);
    let records = (out.len() / 24).min(told.answer[1] as usize);
    out[..24 * records].copy_from_slice(&room[..24 * records]);
    told.answer[1] = records as u64;
    told
}

/// An argument that is left where it was first written, one record further on.
fn argument_a_record_further(list: &[u8], out: &mut [u8]) -> Told<2> {
    let told = proved::derivative_faithful(list, out);
    let cos = out
        .chunks_exact(24)
        .position(|record| record[..2] == [5, 15]);
    if let Some(at) = cos.filter(|&at| told.number == 0 && at >= 2) {
        out.copy_within(24 * (at - 2)..24 * (at - 1), 24 * (at - 1));
    }
    told
}

fn no_minus_zero(list: &[u8], x: f64) -> Ran {
    let ran = proved::run(list, x);
    let value = f64::from_bits(ran.value) + 0.0;
    Ran {
        value: value.to_bits(),
        ..ran
    }
}

fn one_step_more(list: &[u8], x: f64) -> Ran {
    let mut ran = proved::run(list, x);
    ran.told.answer[1] += u64::from(ran.told.answer[1] > 10);
    ran
}

fn peak_at_most_3(list: &[u8], x: f64) -> Ran {
    let mut ran = proved::run(list, x);
    ran.told.answer[2] = ran.told.answer[2].min(3);
    ran
}

#[test]
fn wrong_reading_is_found() {
    for read in [flag_never_set, places_all_0, power_told_as_15] {
        is_found("read", Library { read, ..LIBRARY });
    }
}

#[test]
fn wrong_lists_are_found() {
    for derivative in [last_bit_wrong, one_more_counted] {
        let library = Library {
            derivative,
            ..LIBRARY
        };
        is_found("derivative", library);
    }
    let integral = written_past_the_count;
    is_found(
        "integral",
        Library {
            integral,
            ..LIBRARY
        },
    );
    let inverse = written_though_refused;
    is_found("inverse", Library { inverse, ..LIBRARY });
}

#[test]
fn wrong_sums_are_found() {
    for derive in [always_room, square_told_as_15] {
        is_found("derive", Library { derive, ..LIBRARY });
    }
    let integrate = all_refused;
    let library = Library {
        integrate,
        ..LIBRARY
    };
    is_found("integrate", library);
    for write in [flag_not_asked, only_1_is_complex] {
        is_found("write", Library { write, ..LIBRARY });
    }
}

#[test]
fn wrong_writers_are_found() {
    for (entry, library) in not_faithful(LIBRARY) {
        is_found(entry, library);
    }
    for write_faithful in [faithful_flag_not_asked, exact_room_refused, cut_to_the_room] {
        let library = Library {
            write_faithful,
            ..LIBRARY
        };
        is_found("write_faithful", library);
    }
    let derivative_faithful = argument_a_record_further;
    let library = Library {
        derivative_faithful,
        ..LIBRARY
    };
    is_found("derivative_faithful", library);
}

#[test]
fn wrong_runs_are_found() {
    for run in [one_step_more, peak_at_most_3, nought_is_0] {
        is_found("run", Library { run, ..LIBRARY });
    }
    // values are held against runs as well, and may show it first
    let run = no_minus_zero;
    is_found_as(
        &[": run", "by the run of its list"],
        Library { run, ..LIBRARY },
    );
}

/// The cost of a list whose modifiers have other codes.
fn cost_with_codes(list: &[u8], code: fn(u8) -> u8) -> Told<2> {
    let mut list = list.to_vec();
    for record in list.chunks_exact_mut(24).filter(|record| record[0] == 6) {
        record[1] = code(record[1]);
    }
    proved::cost(&list)
}

fn both_counted_once(list: &[u8]) -> Told<2> {
    cost_with_codes(list, |code| if code == 5 { 1 } else { code })
}

/// Fork asks for no number of bodies.
fn bodies_of_a_refused_one_counted(list: &[u8]) -> Told<2> {
    cost_with_codes(list, |code| if code == 5 { 5 } else { 7 })
}

fn unlisted_counted(list: &[u8]) -> Told<2> {
    cost_with_codes(list, |code| if code < 8 { code } else { 7 })
}

fn fork_of_one_body_only(list: &[u8]) -> Told<2> {
    cost_with_codes(list, |code| if code == 7 { 1 } else { code })
}

fn modifier_not_counted(list: &[u8]) -> Told<2> {
    let mut told = proved::cost(list);
    told.answer[1] -= u64::from(told.number == 0 && list.first() == Some(&6));
    told
}

fn capped_at_2_63(list: &[u8]) -> Told<2> {
    let mut told = proved::cost(list);
    told.answer[1] = told.answer[1].min(1 << 63);
    told
}

fn wrapped(list: &[u8]) -> Told<2> {
    let mut told = proved::cost(list);
    if told.answer[1] == u64::MAX {
        told.answer[1] = 1;
    }
    told
}

fn capped_one_too_early(list: &[u8]) -> Told<2> {
    let mut told = proved::cost(list);
    if told.answer[1] == u64::MAX - 1 {
        told.answer[1] = u64::MAX;
    }
    told
}

fn deep_told_as_11(list: &[u8]) -> Told<2> {
    let mut told = proved::cost(list);
    if told.number == 13 {
        told.number = 11;
    }
    told
}

fn refused_with_steps(list: &[u8]) -> Told<2> {
    let mut told = proved::cost(list);
    if told.number == 11 {
        told.answer[1] = (list.len() / 24) as u64;
    }
    told
}

#[test]
fn wrong_costs_are_found() {
    for cost in [
        both_counted_once,
        bodies_of_a_refused_one_counted,
        unlisted_counted,
        fork_of_one_body_only,
        modifier_not_counted,
        capped_at_2_63,
        wrapped,
        capped_one_too_early,
        deep_told_as_11,
        refused_with_steps,
    ] {
        is_found("cost", Library { cost, ..LIBRARY });
    }
}

/// 12 told of the record before the one that is refused.
fn refused_too_early(list: &[u8], sum: &mut [u8]) -> Told<4> {
    let mut told = proved::read(list, sum);
    told.answer[0] -= u64::from(told.number == 12);
    told
}

/// The lowest coefficient wrong by a bit where another sum was formed before.
fn old_cells_left(list: &[u8], sum: &mut [u8]) -> Told<4> {
    let told = proved::read(list, sum);
    if told.number == 0 && told.answer[1] > 20 {
        sum[16] ^= 1;
    }
    told
}

fn last_product_told_as_12(list: &[u8], sum: &mut [u8]) -> Told<4> {
    let mut told = proved::read(list, sum);
    if told.number == 15 {
        told.number = 12;
    }
    told
}

#[test]
fn wrong_crowds_are_found() {
    let words = ["--crowded".to_owned(), "--seed".into(), "1".into()];
    let settings = arguments::parse(words).expect("good words");
    for read in [refused_too_early, old_cells_left, last_product_told_as_12] {
        let differences = work::compare(&settings, Library { read, ..LIBRARY }).differences;
        let first = differences.first().expect("a difference");
        assert!(first.contains("Crowded lists: read"), "{first}");
    }
}

/// What wasn't met is said.
#[test]
fn answers_that_are_missing() {
    let words = "--exhaustive 1".split(' ').map(String::from);
    let settings = arguments::parse(words).expect("good words");
    let missing = work::compare(&settings, LIBRARY).tally.missing();
    for answer in [
        "cost never answers 11",
        "cost never answers 13",
        "cost never tells 2^64 - 1",
        "value never answers 13",
        "value never is 15 where write is",
        "write_faithful never answers 13",
        "derivative_faithful never answers 12",
        "integral_faithful never answers 18",
    ] {
        assert!(missing.iter().any(|missing| missing == answer), "{answer}");
    }
}
