//! Every stored answer (vectors/) holds of this crate's functions: number, place, flag, pairs and every byte.

mod common;

use common::{file, lines, Line};
use uplink::{
    bytes, decode_list, decode_sum, encode_list, encode_sum, list_fault, Refusal, Refused,
    ENTRY_BYTES, LIST_BYTES, RECORD_BYTES, SUM_BYTES,
};

impl Line<'_> {
    /// The answer that starts at a word: a refusal with its place, or bytes behind so many more words.
    fn answer(&self, at: usize, skipped: usize, each: usize) -> Result<Vec<u8>, Refused> {
        let place = self.number(at + 1) as usize;
        match Refusal::from_number(self.number(at)) {
            Some(refusal) => Err(Refused { refusal, place }),
            None => Ok(self.bytes(at + 2 + skipped, each)),
        }
    }
}

/// What the library answers to a line about a list or a sum, and what is stored.
fn answers(line: &Line<'_>, given: &[u8]) -> [Result<Vec<u8>, Refused>; 2] {
    let mut room = vec![0; LIST_BYTES];
    let answer = match line.keyword {
        "read" => return read_answers(line, given),
        "derivative" => bytes::derivative(given, &mut room),
        "integral" => bytes::integral(given, &mut room),
        "inverse" => bytes::inverse(given, &mut room),
        "derive" => bytes::derive(given, &mut room),
        "integrate" => bytes::integrate(given, &mut room),
        "write" => bytes::write(given, line.number(0) == 1, &mut room),
        "derivative_faithful" => bytes::derivative_faithful(given, &mut room),
        "integral_faithful" => bytes::integral_faithful(given, &mut room),
        "write_faithful" => bytes::write_faithful(given, line.number(0) == 1, &mut room),
        "back" => return back_answers(line, given),
        other => panic!("no entry is called {other}"),
    };
    let each = if matches!(line.keyword, "derive" | "integrate") {
        ENTRY_BYTES
    } else {
        RECORD_BYTES
    };
    let at = usize::from(matches!(line.keyword, "write" | "write_faithful"));
    [answer.map(<[u8]>::to_vec), line.answer(at, 0, each)]
}

/// What is read of the list that a sum is written as.
fn back_answers(line: &Line<'_>, sum: &[u8]) -> [Result<Vec<u8>, Refused>; 2] {
    let (mut room, mut list) = ([0; SUM_BYTES], vec![0; LIST_BYTES]);
    let wrote = bytes::write(sum, line.number(0) == 1, &mut list).expect("a list");
    let read = bytes::read(wrote, &mut room).expect("a sum");
    assert_eq!(u64::from(read.is_complex), line.number(3));
    assert_eq!(read.pairs, line.number(4));
    [Ok(read.sum.to_vec()), line.answer(1, 2, ENTRY_BYTES)]
}

fn read_answers(line: &Line<'_>, given: &[u8]) -> [Result<Vec<u8>, Refused>; 2] {
    let mut room = [0; SUM_BYTES];
    let answer = bytes::read(given, &mut room);
    let [flag, pairs] = answer.map_or([0, 0], |read| [u64::from(read.is_complex), read.pairs]);
    assert_eq!([flag, pairs], [line.number(2), line.number(3)]);
    [
        answer.map(|read| read.sum.to_vec()),
        line.answer(0, 2, ENTRY_BYTES),
    ]
}

/// How many answers of a file hold; all of them do.
fn replayed(name: &str) -> usize {
    let text = file(name);
    let (mut given, mut count) = (Vec::new(), 0);
    for line in lines(&text) {
        match line.keyword {
            "list" => given = line.bytes(0, RECORD_BYTES),
            "sum" => given = line.bytes(0, ENTRY_BYTES),
            keyword => {
                let [found, stored] = answers(&line, &given);
                assert_eq!(found, stored, "{keyword} of {given:?}");
                count += 1;
            }
        }
    }
    count
}

#[test]
fn stored_answers_of_lists_hold() {
    assert_eq!(replayed("lists.txt"), 4389 + 4316 + 4387 + 4336);
}

#[test]
fn stored_answers_of_sums_hold() {
    assert_eq!(replayed("sums.txt"), 1548 + 1648 + 2612 + 522);
}

#[test]
fn stored_answers_at_the_limits_hold() {
    assert_eq!(
        replayed("limits.txt"),
        450 + 523 + 452 + 503 + 193 + 93 + 870
    );
}

#[test]
fn stored_answers_of_the_second_writer_hold() {
    assert_eq!(replayed("faithful.txt"), 78 + 78 + 646);
}

/// What the library answers to a line about a run, and what is stored; values as their bits.
fn runs(line: &Line<'_>, list: &[u8]) -> [Result<[u64; 3], Refused>; 2] {
    let bits = |at: usize| u64::from_str_radix(line.words[at], 16).expect("16 digits");
    let found = bytes::run(list, f64::from_bits(bits(0)));
    let stored = match Refusal::from_number(line.number(1)) {
        Some(refusal) => Err(Refused {
            refusal,
            place: line.number(2) as usize,
        }),
        None => Ok([bits(3), line.number(4), line.number(5)]),
    };
    let found = found.map(|ran| [ran.value.to_bits(), ran.steps, ran.peak]);
    [found, stored]
}

#[test]
fn stored_answers_of_the_run_hold() {
    let text = file("runs.txt");
    let (mut list, mut count) = (Vec::new(), 0);
    for line in lines(&text) {
        match line.keyword {
            "list" => list = line.bytes(0, RECORD_BYTES),
            keyword => {
                assert_eq!(keyword, "run");
                let [found, stored] = runs(&line, &list);
                assert_eq!(found, stored, "{:?} of {list:?}", line.words);
                count += 1;
            }
        }
    }
    assert_eq!(count, 505 * 8);
}

/// What the library answers to a line about a value, and what is stored; values as their bits.
fn values(line: &Line<'_>, sum: &[u8]) -> [Result<u64, Refused>; 2] {
    let bits = |at: usize| u64::from_str_radix(line.words[at], 16).expect("16 digits");
    let stored = match Refusal::from_number(line.number(1)) {
        Some(refusal) => Err(Refused { refusal, place: 0 }),
        None => Ok(bits(2)),
    };
    let found = bytes::value(sum, f64::from_bits(bits(0)));
    [found.map(f64::to_bits), stored]
}

#[test]
fn stored_answers_of_the_value_hold() {
    let text = file("values.txt");
    let (mut sum, mut sums, mut count) = (Vec::new(), 0, 0);
    for line in lines(&text) {
        match line.keyword {
            "sum" => {
                sum = line.bytes(0, ENTRY_BYTES);
                sums += 1;
            }
            keyword => {
                assert_eq!(keyword, "value");
                let [found, stored] = values(&line, &sum);
                assert_eq!(found, stored, "{:?} of {sum:?}", line.words);
                count += 1;
            }
        }
    }
    assert!(sums > 250 && count == 8 * sums, "{sums} {count}");
}

#[test]
fn faults_are_found_exactly_where_lists_are_refused_as_a_whole() {
    for name in ["lists.txt", "limits.txt"] {
        let text = file(name);
        for line in lines(&text).filter(|line| line.keyword == "list") {
            let list = line.bytes(0, RECORD_BYTES);
            let refusal = list_fault(&list).map(uplink::Fault::refusal);
            let answer = bytes::run(&list, f64::NAN)
                .expect_err("no value at NaN")
                .refusal;
            // In the run, an x that isn't finite is refused straight after lists that are none.
            assert_eq!(refusal.unwrap_or(Refusal::NotFinite), answer);
        }
    }
}

#[test]
fn typed_lists_and_sums_have_the_stored_bytes() {
    let text = file("lists.txt");
    for line in lines(&text).filter(|line| line.keyword == "list") {
        let list = line.bytes(0, RECORD_BYTES);
        assert_eq!(encode_list(&decode_list(&list).expect("a list")), list);
    }
    let text = file("sums.txt");
    for line in lines(&text).filter(|line| line.keyword == "sum") {
        let sum = line.bytes(0, ENTRY_BYTES);
        assert_eq!(encode_sum(&decode_sum(&sum).expect("a sum")), sum);
    }
}

#[test]
fn a_refusal_changes_no_byte_and_a_result_none_behind_it() {
    let mut room = [0xa5; LIST_BYTES];
    let squared = encode_list(&[uplink::Primitive::Dup.into(), uplink::Primitive::Mul.into()]);
    let refused = bytes::derivative(&squared, &mut room[..47]).expect_err("no room");
    assert_eq!((refused.refusal, refused.place), (Refusal::OutputRoom, 0));
    assert!(room.iter().all(|&byte| byte == 0xa5));
    assert_eq!(
        bytes::derivative(&squared, &mut room).map(<[u8]>::len),
        Ok(48)
    );
    assert!(room[48..].iter().all(|&byte| byte == 0xa5));
}

#[test]
fn empty_slices_are_taken() {
    assert_eq!(bytes::run(&[], 2.5).map(|ran| ran.value), Ok(2.5));
    let no_room = bytes::derivative(&[], &mut []).expect_err("no room");
    assert_eq!(no_room.refusal, Refusal::OutputRoom);
    let no_sum = bytes::derive(&[], &mut []).expect_err("no sum");
    assert_eq!(no_sum.refusal, Refusal::BadRecord);
    let no_sum = bytes::value(&[], 2.5).expect_err("no sum");
    assert_eq!(no_sum.refusal, Refusal::BadRecord);
}
