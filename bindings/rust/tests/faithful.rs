//! The entries whose lists mean what the sum says, through the C functions: what they write, beside what the Rust's writer does, and in how much room.

mod common;

use common::{file, lines};
use uplink::{
    bytes, derivative_faithful, encode_list, encode_sum, integral_faithful, modified, read, write,
    write_faithful, Entry, Modifier, Primitive::*, Record, Record::RealPush, Refusal, Refused,
    Term, ENTRY_BYTES, LIST_BYTES, RECORD_BYTES,
};

const KINDS: [Term; 7] = [
    Term::Div,
    Term::Log(2.0),
    Term::Exp,
    Term::Sin,
    Term::Cos,
    Term::SinH,
    Term::CosH,
];

fn x(power: f64, re: f64) -> Entry {
    Entry::power(power, re)
}

/// A function of a sum, as entries.
fn of(term: Term, re: f64, inside: &[Entry]) -> Vec<Entry> {
    let entry = Entry {
        term,
        inside: inside.len() as u32,
        re,
        im: 0.0,
    };
    [&[entry], inside].concat()
}

fn on(body: &[Record]) -> Vec<Record> {
    modified(Modifier::On, &[(1, body)])
}

#[track_caller]
fn writes(sum: &[Entry], parts: &[&[Record]]) {
    assert_eq!(write_faithful(sum, false), Ok(parts.concat()), "{sum:?}");
}

#[test]
fn examples() {
    let cos = [Identity.into(), Cos.into(), Add.into()];
    let list = [
        Dup.into(),
        Dup.into(),
        Mul.into(),
        Flip.into(),
        Sin.into(),
        Add.into(),
    ];
    let double = on(&[RealPush(2.0), Mul.into()]);
    assert_eq!(
        derivative_faithful(&list),
        Ok([double, cos.to_vec()].concat())
    );
    let square = on(&[Dup.into(), Mul.into()]);
    let zeros = [RealPush(0.0), Mul.into(), Sin.into(), Add.into()];
    writes(
        &[vec![x(2.0, 1.0)], of(Term::Sin, 1.0, &[x(1.0, 0.0)])].concat(),
        &[&square, &zeros],
    );
    let sum = [vec![x(1.0, 1.0)], of(Term::Sin, 1.0, &[x(1.0, 1.0)])].concat();
    writes(
        &sum,
        &[&[Dup.into(), Identity.into(), Sin.into(), Add.into()]],
    );
    let integral = integral_faithful(&[Cos.into(), Not.into()]).expect("an integral");
    assert_eq!(integral[..3], [Dup.into(), Identity.into(), Sin.into()]);
}

/// Behind other terms an argument is written as it is written alone.
#[test]
fn an_argument_is_written_as_it_is_alone() {
    let arguments = [
        vec![x(1.0, 1.0)],
        vec![x(1.0, 2.0)],
        vec![x(0.0, 3.0), x(1.0, 2.0)],
        vec![x(1.0, 0.0)],
        vec![x(1.0, 1.0), x(2.0, 1.0)],
        of(Term::Sin, 1.0, &of(Term::Exp, 1.0, &[x(1.0, 1.0)])),
    ];
    let before = [
        (vec![x(1.0, 1.0)], vec![Dup.into()]),
        (vec![x(2.0, 1.0)], on(&[Dup.into(), Mul.into()])),
        (
            vec![x(0.0, 5.0)],
            on(&[RealPush(0.0), Mul.into(), RealPush(5.0), Add.into()]),
        ),
        (vec![x(1.0, 1.0), x(2.0, 0.0)], vec![Dup.into()]),
    ];
    for term in KINDS {
        for argument in &arguments {
            let alone = of(term, -2.0, argument);
            let list = write_faithful(&alone, false).expect("a list");
            let inside = write_faithful(argument, false).expect("a list");
            assert_eq!(list[..inside.len()], inside, "{alone:?}");
            for (terms, front) in &before {
                let sum = [&terms[..], &alone].concat();
                writes(&sum, &[front, &list, &[Add.into()]]);
            }
        }
    }
}

/// What the Rust's writer and the second one make of a sum.
fn both(sum: &[u8], is_complex: bool) -> [Result<Vec<u8>, Refused>; 2] {
    let (mut one, mut other) = (vec![0; LIST_BYTES], vec![0; LIST_BYTES]);
    [
        bytes::write(sum, is_complex, &mut one).map(<[u8]>::to_vec),
        bytes::write_faithful(sum, is_complex, &mut other).map(<[u8]>::to_vec),
    ]
}

/// The sums of the stored files.
fn stored_sums() -> Vec<Vec<u8>> {
    let texts = ["sums.txt", "limits.txt", "faithful.txt"].map(file);
    let all = texts.iter().flat_map(|text| lines(text));
    all.filter(|line| line.keyword == "sum")
        .map(|line| line.bytes(0, ENTRY_BYTES))
        .collect()
}

/// Powers of x have the same bytes, and what one writer refuses the other does.
#[test]
fn beside_the_other_writer() {
    let (mut alike, mut apart, mut refused) = (0, 0, 0);
    for sum in stored_sums() {
        let has_functions = sum.chunks(ENTRY_BYTES).any(|entry| entry[0] != 1);
        for is_complex in [false, true] {
            let [first, second] = both(&sum, is_complex);
            if first.is_err() || second.is_err() {
                refused += 1;
                assert_eq!(first, second, "{sum:?}");
            } else if first == second {
                alike += 1;
            } else {
                apart += 1;
                assert!(has_functions, "{sum:?}");
            }
        }
    }
    assert!(alike > 1000 && apart > 1000 && refused > 500);
}

/// Exact room is enough; a byte less and a record less are refused, and change nothing.
#[track_caller]
fn needs_exactly(length: usize, call: impl for<'a> Fn(&'a mut [u8]) -> Result<&'a [u8], Refused>) {
    let mut room = vec![7; length];
    assert_eq!(call(&mut room).map(<[u8]>::len), Ok(length));
    for less in [1, RECORD_BYTES] {
        let mut room = vec![7; length - less];
        let refused = Refused {
            refusal: Refusal::OutputRoom,
            place: 0,
        };
        assert_eq!(call(&mut room), Err(refused));
        assert_eq!(room, vec![7; length - less]);
    }
}

#[test]
fn room() {
    let list = encode_list(&[Dup.into(), Sin.into(), Add.into()]);
    needs_exactly(9 * RECORD_BYTES, |room| {
        bytes::derivative_faithful(&list, room)
    });
    let list = encode_list(&[Cos.into(), Not.into()]);
    needs_exactly(6 * RECORD_BYTES, |room| {
        bytes::integral_faithful(&list, room)
    });
    for (sum, records) in [
        (
            [vec![x(2.0, 1.0)], of(Term::Sin, 1.0, &[x(1.0, 1.0)])].concat(),
            7,
        ),
        (vec![x(1.0, 1.0)], 1),
        (many(), argument_of_many() + 1),
    ] {
        let sum = encode_sum(&sum);
        for is_complex in [false, true] {
            needs_exactly(records * RECORD_BYTES, |room| {
                bytes::write_faithful(&sum, is_complex, room)
            });
        }
    }
}

/// sin of 63 powers of x, which is 64 entries.
fn many() -> Vec<Entry> {
    of(Term::Sin, 1.0, &powers())
}

fn powers() -> Vec<Entry> {
    (0..63).map(|power| x(f64::from(power), 2.0)).collect()
}

/// How many records its argument is written in.
fn argument_of_many() -> usize {
    write(&powers(), false).expect("a list").len()
}

#[test]
fn sixty_three_entries_in_one_argument() {
    let list = write_faithful(&many(), false).expect("a list");
    let argument = write(&powers(), false).expect("a list");
    assert_eq!(list, [argument, vec![Sin.into()]].concat());
}

/// In a real write an imaginary part below 2^-52 is dropped, and one of 2^-52 refused, inside an argument too.
#[test]
fn imaginary_parts_inside_an_argument() {
    let small = f64::EPSILON / 2.0;
    let sum = |im| {
        let inside = Entry { im, ..x(1.0, 2.0) };
        [vec![x(2.0, 1.0)], of(Term::Sin, 1.0, &[inside])].concat()
    };
    let is_there = |list: &[Record], number: Record| list.contains(&number);
    let list = write_faithful(&sum(small), false).expect("a list");
    assert!(is_there(&list, RealPush(2.0)));
    let refused = write_faithful(&sum(f64::EPSILON), false).expect_err("no real number");
    assert_eq!((refused.refusal, refused.place), (Refusal::NotFinite, 0));
    for im in [small, f64::EPSILON] {
        let list = write_faithful(&sum(im), true).expect("a list");
        assert!(is_there(&list, Record::ComplexPush { re: 2.0, im }));
    }
}

#[test]
fn no_sums() {
    let good = encode_sum(&[vec![x(2.0, 1.0)], of(Term::Sin, 1.0, &[x(1.0, 1.0)])].concat());
    let mut room = vec![7; LIST_BYTES];
    let mut refused = |sum: &[u8]| {
        let refused = bytes::write_faithful(sum, false, &mut room).expect_err("no sum");
        assert_eq!(refused.place, 0);
        assert!(room.iter().all(|&byte| byte == 7));
        refused.refusal
    };
    assert_eq!(refused(&[]), Refusal::BadRecord);
    assert_eq!(refused(&good[..good.len() - 1]), Refusal::BadRecord);
    assert_eq!(refused(&good[..2 * ENTRY_BYTES]), Refusal::BadRecord);
    for (at, byte) in [(0, 9), (1, 1), (36, 2), (64, 5), (ENTRY_BYTES, 1)] {
        let mut damaged = good.clone();
        damaged[at] = byte;
        assert_eq!(refused(&damaged), Refusal::BadRecord, "{at}");
    }
    let deep = (0..4).fold(vec![x(1.0, 1.0)], |inside, _| of(Term::Sin, 1.0, &inside));
    assert_eq!(refused(&encode_sum(&deep)), Refusal::TooDeep);
    assert!(write_faithful(&deep[1..], false).is_ok());
}

/// What is refused in reading has the same place as for the namesakes.
#[test]
fn refusals_of_reading() {
    let list = encode_list(&[RealPush(2.0), Add.into(), Add.into()]);
    let mut room = vec![0; LIST_BYTES];
    let refused = Refused {
        refusal: Refusal::TooManyVariables,
        place: 2,
    };
    assert_eq!(bytes::derivative_faithful(&list, &mut room), Err(refused));
    assert_eq!(bytes::integral_faithful(&list, &mut room), Err(refused));
}

/// Read again, a list of functions of powers of x is the formula that it was written from.
#[test]
fn lists_are_read_as_what_they_were_written_from() {
    for term in [Term::Div, Term::Sin, Term::Cos, Term::Log(2.0)] {
        for argument in [
            vec![x(1.0, 2.0), x(2.0, 3.0)],
            vec![x(1.0, 1.0), x(3.0, 1.0)],
        ] {
            let sum = [vec![x(1.0, 3.0), x(2.0, 1.0)], of(term, 1.0, &argument)].concat();
            let list = write_faithful(&sum, false).expect("a list");
            assert_eq!(read(&list).expect("a sum").entries, sum);
        }
    }
}
