//! What a list costs, held against a reckoning of the test's own: every record has a weight, which is how often it runs.

mod common;

use common::{file, lines};
use uplink::{
    bytes, cost, decode_list, encode_list, list_fault, modified, run, Fault, Modifier, Primitive,
    Record, Refusal, Refused, MOST_RECORDS, MOST_STEPS, RECORD_BYTES, STEPS_RECOMMENDED,
};

const NEG: Record = Record::Primitive(Primitive::Neg);

/// How many records lie straight inside the one at a place.
fn straight_inside(list: &[Record], place: usize) -> usize {
    let end = place + 1 + list[place].inside() as usize;
    let (mut at, mut count) = (place + 1, 0);
    while at < end {
        at += 1 + list[at].inside() as usize;
        count += 1;
    }
    count
}

/// How often the record at a place runs what is inside it.
fn times(list: &[Record], place: usize) -> u128 {
    use Modifier::{Both, Bracket, By, Dip, Fork, Gap, On};
    let Record::Modifier { modifier, .. } = list[place] else {
        return 1;
    };
    match (modifier, straight_inside(list, place)) {
        (Both, 1) => 2,
        (Dip | Gap | On | By, 1) | (Bracket, 2) | (Fork, _) => 1,
        _ => 0,
    }
}

/// The steps of a list, exactly. They are below 2^80, having 64 doublings of 2,048 records at most.
fn reckoned(list: &[Record]) -> u128 {
    let mut open: Vec<(usize, u128)> = Vec::new();
    let mut steps = 0;
    for (place, record) in list.iter().enumerate() {
        while open.last().is_some_and(|&(end, _)| end == place) {
            open.pop();
        }
        let weight = open.last().map_or(1, |&(_, weight)| weight);
        steps += weight;
        let end = place + 1 + record.inside() as usize;
        open.push((end, weight * times(list, place)));
    }
    steps
}

/// A number of steps as it is told.
fn told(steps: u128) -> u64 {
    u64::try_from(steps).unwrap_or(MOST_STEPS)
}

#[track_caller]
fn costs(list: &[Record], steps: u128) {
    assert_eq!(reckoned(list), steps);
    assert_eq!(cost(list), Ok(told(steps)));
    assert_eq!(bytes::cost(&encode_list(list)), Ok(told(steps)));
}

#[track_caller]
fn is_refused(list: &[u8], refusal: Refusal) {
    assert_eq!(list_fault(list).map(Fault::refusal), Some(refusal));
    assert_eq!(bytes::cost(list), Err(Refused { refusal, place: 0 }));
}

/// So many Boths, each in the body of the one before, around these records.
fn boths(levels: usize, around: &[Record]) -> Vec<Record> {
    let nest = |list: Vec<Record>, _| modified(Modifier::Both, &[(0, &list)]);
    (0..levels).fold(around.to_vec(), nest)
}

/// So many runs, each inside the one before, around these records.
fn runs(levels: usize, around: &[Record]) -> Vec<Record> {
    let inside = |level: usize| (level + around.len()) as u32;
    let runs = (0..levels).rev().map(|level| Record::Run {
        inside: inside(level),
    });
    runs.chain(around.iter().copied()).collect()
}

fn two_to(power: u32) -> u128 {
    1 << power
}

#[test]
fn examples() {
    costs(&[], 0);
    costs(&[Primitive::Dup.into(), Primitive::Mul.into()], 2);
    costs(&boths(1, &[NEG]), 5);
    costs(&boths(9, &[NEG]), 2045);
    costs(&modified(Modifier::On, &[(1, &[NEG]), (1, &[NEG])]), 1);
}

/// How often each modifier runs its bodies, by their number, 0 to 3.
const TIMES: [(Modifier, [u128; 4]); 9] = [
    (Modifier::Dip, [0, 1, 0, 0]),
    (Modifier::Gap, [0, 1, 0, 0]),
    (Modifier::On, [0, 1, 0, 0]),
    (Modifier::By, [0, 1, 0, 0]),
    (Modifier::Both, [0, 2, 0, 0]),
    (Modifier::Bracket, [0, 0, 1, 0]),
    (Modifier::Fork, [1, 1, 1, 1]),
    (Modifier::Unlisted(0), [0; 4]),
    (Modifier::Unlisted(8), [0; 4]),
];

#[test]
fn modifiers_with_every_number_of_bodies() {
    for (modifier, by_bodies) in TIMES {
        for (bodies, times) in by_bodies.into_iter().enumerate() {
            for arguments in [0, 1, 255] {
                let list = modified(modifier, &vec![(arguments, &[NEG; 2][..]); bodies]);
                let steps = 1 + times * 3 * bodies as u128;
                costs(&list, steps);
                costs(&boths(1, &list), 3 + 2 * steps);
                costs(&boths(2, &list), 9 + 4 * steps);
                costs(&runs(1, &[list, vec![NEG]].concat()), 2 + steps);
            }
        }
    }
}

#[test]
fn bodies_and_other_records_that_hold_nothing() {
    costs(&modified(Modifier::Both, &[(2, &[])]), 3);
    costs(
        &modified(Modifier::Fork, &[(1, &[]), (1, &[NEG]), (0, &[])]),
        5,
    );
    costs(&[Record::Run { inside: 0 }], 1);
    costs(&[Record::CustomInverse { inside: 1 }, NEG], 2);
    let others = [
        Record::RealPush(f64::NAN),
        Record::ComplexPush { re: 1.0, im: 2.0 },
        Record::ArrayPush,
        Record::OtherPush,
        Record::Obverse,
        Record::NoNormal,
        Record::UnderMarker,
        Record::AnythingElse,
        Record::Primitive(Primitive::Unlisted(99)),
    ];
    costs(&others, 9);
}

/// A modifier that is refused hides what is inside it, however much that is.
#[test]
fn what_never_runs_is_not_counted() {
    let much = boths(62, &[NEG]);
    costs(&modified(Modifier::On, &[(1, &much), (1, &much)]), 1);
    costs(&modified(Modifier::Bracket, &[(1, &much)]), 1);
    costs(&modified(Modifier::Unlisted(8), &[(1, &much)]), 1);
    let hidden = modified(Modifier::Both, &[(1, &much), (1, &[])]);
    costs(&boths(1, &[hidden, vec![NEG]].concat()), 7);
}

#[test]
fn nested_boths() {
    for levels in 0..=64 {
        for around in 0..=2 {
            let steps = (3 + around as u128) * two_to(levels) - 3;
            costs(&boths(levels as usize, &vec![NEG; around]), steps);
        }
    }
    assert_eq!(cost(&boths(61, &[NEG])), Ok(u64::MAX / 2 - 2));
    assert_eq!(cost(&boths(62, &[NEG])), Ok(u64::MAX - 2));
    assert_eq!(cost(&boths(62, &[NEG; 2])), Ok(MOST_STEPS));
    assert_eq!(cost(&boths(63, &[])), Ok(MOST_STEPS));
}

/// Lists whose steps are 2^64 - 3 and so many more.
fn near_the_most(more: usize) -> [Vec<Record>; 7] {
    let (whole, half) = (boths(62, &[NEG]), boths(61, &[NEG]));
    let extra = vec![NEG; more];
    let beside = [half.clone(), vec![NEG; 3], half.clone()].concat();
    let forked = modified(Modifier::Fork, &[(1, &half), (1, &half)]);
    let bracketed = modified(Modifier::Bracket, &[(1, &half), (2, &half)]);
    let (two, rest) = (vec![NEG; more / 2], vec![NEG; more % 2]);
    let doubled = boths(1, &[half.clone(), two].concat());
    [
        [whole.clone(), extra.clone()].concat(),
        [extra.clone(), whole].concat(),
        [beside, extra.clone()].concat(),
        [forked, extra.clone()].concat(),
        [extra.clone(), bracketed].concat(),
        [rest, doubled].concat(),
        modified(
            Modifier::Fork,
            &[(1, &half), (1, &[half.clone(), extra].concat())],
        ),
    ]
}

#[test]
fn sums_about_the_most_that_is_told() {
    for more in 0..=6 {
        for list in near_the_most(more) {
            costs(&list, two_to(64) - 3 + more as u128);
        }
    }
    let last = |more: usize| near_the_most(more).map(|list| cost(&list));
    assert_eq!(last(1), [Ok(u64::MAX - 1); 7]);
    assert_eq!(last(2), [Ok(u64::MAX); 7]);
    assert_eq!(last(3), [Ok(u64::MAX); 7]);
}

#[test]
fn one_more_around_the_most_that_is_told() {
    for more in 0..=3 {
        let inner = [boths(62, &[NEG]), vec![NEG; more]].concat();
        let steps = two_to(64) - 3 + more as u128;
        costs(&runs(1, &inner), 1 + steps);
        costs(&modified(Modifier::On, &[(1, &inner)]), 2 + steps);
        costs(&boths(1, &inner), 3 + 2 * steps);
    }
}

#[test]
fn large_halves_in_a_fork() {
    for (one, other) in [(61, 61), (61, 62), (62, 61), (62, 62), (60, 63), (63, 63)] {
        let list = modified(
            Modifier::Fork,
            &[(1, &boths(one, &[NEG])), (1, &boths(other, &[NEG]))],
        );
        let steps = 4 * two_to(one as u32) + 4 * two_to(other as u32) - 3;
        costs(&list, steps);
    }
}

#[test]
fn levels() {
    for levels in [127, 128] {
        costs(&runs(levels, &[NEG]), levels as u128 + 1);
    }
    is_refused(&encode_list(&runs(129, &[NEG])), Refusal::TooDeep);
    costs(&runs(1, &boths(63, &[NEG])), 4 * two_to(63) - 2);
    costs(&boths(64, &[NEG]), 4 * two_to(64) - 3);
    is_refused(&encode_list(&runs(1, &boths(64, &[NEG]))), Refusal::TooDeep);
    is_refused(&encode_list(&boths(65, &[NEG])), Refusal::TooDeep);
}

#[test]
fn the_most_records() {
    costs(&[NEG; MOST_RECORDS], 2048);
    is_refused(&encode_list(&[NEG; MOST_RECORDS + 1]), Refusal::BadRecord);
    let wide = |inside| modified(Modifier::Both, &[(0, &vec![NEG; inside])]);
    costs(&wide(MOST_RECORDS - 2), 1 + 2 * 2047);
    is_refused(&encode_list(&wide(MOST_RECORDS - 1)), Refusal::BadRecord);
    let fork = modified(Modifier::Fork, &vec![(0, &[][..]); MOST_RECORDS - 1]);
    costs(&fork, 2048);
}

/// One record of each kind, all of which are good where they stand.
fn one_of_each_kind() -> Vec<Record> {
    let mut list = vec![
        1.0.into(),
        Record::ComplexPush { re: 1.0, im: 2.0 },
        Record::ArrayPush,
        Record::OtherPush,
        NEG,
        Record::Run { inside: 0 },
        Record::CustomInverse { inside: 0 },
        Record::Obverse,
        Record::NoNormal,
        Record::UnderMarker,
        Record::AnythingElse,
    ];
    list.extend(modified(Modifier::Both, &[(1, &[])]));
    list
}

/// The bytes that a kind uses, its own among them.
fn is_used(kind: u8, byte: usize) -> bool {
    match byte {
        0 => true,
        1 => matches!(kind, 5 | 6),
        2 => kind == 7,
        3 => false,
        4..8 => matches!(kind, 6..=9),
        8..16 => matches!(kind, 1 | 2),
        _ => kind == 2,
    }
}

#[test]
fn an_unused_byte_that_is_not_zero() {
    let list = one_of_each_kind();
    let good = encode_list(&list);
    costs(&list, 11 + 3);
    for (place, record) in list.iter().enumerate() {
        for byte in (0..RECORD_BYTES).filter(|&byte| !is_used(record.kind(), byte)) {
            for wrong in [1, 0x80] {
                let mut bytes = good.clone();
                bytes[place * RECORD_BYTES + byte] = wrong;
                is_refused(&bytes, Refusal::BadRecord);
            }
        }
    }
}

#[test]
fn lengths_and_kinds_that_are_none() {
    let good = encode_list(&[NEG; 2]);
    for length in (0..good.len()).filter(|length| length % RECORD_BYTES != 0) {
        is_refused(&good[..length], Refusal::BadRecord);
    }
    for kind in [0, 14, 255] {
        let mut bytes = good.clone();
        bytes[RECORD_BYTES] = kind;
        bytes[RECORD_BYTES + 1] = 0;
        is_refused(&bytes, Refusal::BadRecord);
    }
}

#[test]
fn insides_and_bodies_that_are_wrong() {
    let body = |inside| Record::Body {
        arguments: 1,
        inside,
    };
    let both = |inside| Record::Modifier {
        modifier: Modifier::Both,
        inside,
    };
    let wrong: [&[Record]; 9] = [
        &[Record::Run { inside: 1 }],
        &[Record::CustomInverse { inside: u32::MAX }, NEG],
        &[both(1)],
        &[both(1), body(1), NEG],
        &[Record::Run { inside: 1 }, Record::Run { inside: 1 }, NEG],
        &[body(0)],
        &[Record::Run { inside: 1 }, body(0)],
        &[both(2), body(1), body(0)],
        &[both(1), NEG],
    ];
    for list in wrong {
        is_refused(&encode_list(list), Refusal::BadRecord);
    }
}

#[test]
fn a_bad_record_comes_before_depth() {
    let mut list = runs(200, &[NEG]);
    is_refused(&encode_list(&list), Refusal::TooDeep);
    list.push(Record::Body {
        arguments: 0,
        inside: 0,
    });
    is_refused(&encode_list(&list), Refusal::BadRecord);
}

/// Held against the reckoning where it is a list, and against the fault where it is none.
#[track_caller]
fn is_right(list: &[u8]) {
    let expected = match list_fault(list) {
        Some(fault) => Err(Refused {
            refusal: fault.refusal(),
            place: 0,
        }),
        None => Ok(told(reckoned(&decode_list(list).expect("a list")))),
    };
    assert_eq!(bytes::cost(list), expected, "{list:?}");
}

#[test]
fn stored_lists() {
    for (name, count) in [("lists.txt", 4389), ("limits.txt", 577), ("runs.txt", 505)] {
        let text = file(name);
        let lists = lines(&text).filter(|line| line.keyword == "list");
        let checked = lists.map(|line| is_right(&line.bytes(0, RECORD_BYTES)));
        assert_eq!(checked.count(), count);
    }
}

/// Where a stored run has a value, its steps are the cost.
#[test]
fn stored_steps_of_the_run() {
    let text = file("runs.txt");
    let (mut list, mut values) = (Vec::new(), 0);
    for line in lines(&text) {
        match line.keyword {
            "list" => list = line.bytes(0, RECORD_BYTES),
            _ if line.number(1) == 0 => {
                assert_eq!(bytes::cost(&list), Ok(line.number(4)), "{list:?}");
                values += 1;
            }
            _ => {}
        }
    }
    assert_eq!(values, 962);
}

/// Numbers that only seem random.
struct Chance(u64);

impl Chance {
    fn below(&mut self, limit: u64) -> u64 {
        self.0 = self.0.wrapping_mul(6_364_136_223_846_793_005);
        self.0 = self.0.wrapping_add(1_442_695_040_888_963_407);
        (self.0 >> 33) % limit
    }
}

/// A list of all sorts of records, of at most so many levels; more often than not Both.
fn random(chance: &mut Chance, levels: usize) -> Vec<Record> {
    let mut list = Vec::new();
    for _ in 0..chance.below(4) {
        match chance.below(if levels < 2 { 3 } else { 8 }) {
            0..3 => list.push(NEG),
            3 => {
                let inner = random(chance, levels - 1);
                list.extend(runs(1, &inner));
            }
            4 => list.extend(random_modifier(chance, levels)),
            _ => list.extend(boths(1, &random(chance, levels - 2))),
        }
    }
    list
}

fn random_modifier(chance: &mut Chance, levels: usize) -> Vec<Record> {
    let modifier = Modifier::from_code(chance.below(9) as u8);
    let count = chance.below(4);
    let bodies: Vec<_> = (0..count).map(|_| random(chance, levels - 2)).collect();
    let bodies: Vec<_> = bodies.iter().map(|body| (1, &body[..])).collect();
    modified(modifier, &bodies)
}

#[test]
fn random_lists() {
    let mut chance = Chance(19);
    let mut met = [0; 3];
    for _ in 0..1000 {
        // many Boths around what is random bring it near the most that is told
        let around = chance.below(64) as usize;
        let list = boths(around, &random(&mut chance, 128 - 2 * around));
        is_right(&encode_list(&list));
        let found = cost(&list);
        met[usize::from(found.is_err())] += 1;
        met[2] += usize::from(found == Ok(MOST_STEPS));
    }
    assert!(met[0] > 700 && met[2] > 10, "{met:?}");
}

#[test]
fn the_limit_that_is_recommended() {
    let is_let_in = |list: &[Record]| cost(list).is_ok_and(|steps| steps <= STEPS_RECOMMENDED);
    assert!(is_let_in(&[NEG; MOST_RECORDS]));
    assert!(is_let_in(&boths(17, &[NEG])));
    assert!(!is_let_in(&boths(18, &[NEG])));
    assert!(!is_let_in(&[NEG; MOST_RECORDS + 1]));
}

#[test]
fn a_run_takes_as_many_steps_as_the_cost_says() {
    let list = modified(Modifier::On, &[(1, &runs(2, &[NEG]))]);
    let list = [list, vec![Primitive::Add.into()]].concat();
    let ran = run(&list, 2.0).expect("a value");
    assert_eq!(cost(&list), Ok(ran.steps));
    costs(&list, 6);
}
