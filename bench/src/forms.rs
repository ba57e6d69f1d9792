//! The plain program's forms, with answers as the library gives them.

use plain::{Refused, Room, Run, RunRoom, ValueRoom, general, short};
use proved::{Ran, Told, Valued};

/// The room that is lent to the plain program, and that nobody clears.
pub struct Lent {
    room: Box<Room>,
    run_room: Box<RunRoom>,
    value_room: Box<ValueRoom>,
}

impl Default for Lent {
    fn default() -> Lent {
        Lent {
            room: Box::new(Room::new()),
            run_room: Box::new(RunRoom::new()),
            value_room: Box::new(ValueRoom::new()),
        }
    }
}

/// A form by its name.
pub type Named<F> = (&'static str, F);
/// From bytes to bytes, with N numbers to tell.
pub type FromBytes<const N: usize> = fn(&mut Lent, &[u8], &mut [u8]) -> Told<N>;
pub type RunAt = fn(&mut Lent, &[u8], f64) -> Ran;
pub type ValueAt = fn(&mut Lent, &[u8], f64) -> Valued;

pub const DERIVATIVE: [Named<FromBytes<2>>; 4] = [
    ("cleared room", |_, list, out| {
        derived(short::derivative(list, out))
    }),
    ("lent room", |lent, list, out| {
        derived(short::derivative_in(&mut lent.room, list, out))
    }),
    ("cleared room, without short cuts", |_, list, out| {
        derived(general::derivative(list, out))
    }),
    ("lent room, without short cuts", |lent, list, out| {
        derived(general::derivative_in(&mut lent.room, list, out))
    }),
];

pub const READ: [Named<FromBytes<3>>; 4] = [
    ("cleared room", |_, list, out| read(short::read(list, out))),
    ("lent room", |lent, list, out| {
        read(short::read_in(&mut lent.room, list, out))
    }),
    ("cleared room, without short cuts", |_, list, out| {
        read(general::read(list, out))
    }),
    ("lent room, without short cuts", |lent, list, out| {
        read(general::read_in(&mut lent.room, list, out))
    }),
];

pub const RUN: [Named<RunAt>; 2] = [
    ("cleared room", |_, list, x| ran(plain::run(list, x))),
    ("lent room", |lent, list, x| {
        ran(plain::run_in(&mut lent.run_room, list, x))
    }),
];

pub const VALUE: [Named<ValueAt>; 2] = [
    ("cleared room", |_, sum, x| valued(plain::value(sum, x))),
    ("lent room", |lent, sum, x| {
        valued(plain::value_in(&mut lent.value_room, sum, x))
    }),
];

fn told<const N: usize>(answer: Result<[u64; N], Refused>) -> Told<N> {
    match answer {
        Ok(answer) => Told { number: 0, answer },
        Err(refused) => {
            let mut answer = [0; N];
            answer[0] = refused.place as u64;
            Told {
                number: refused.number as u64,
                answer,
            }
        }
    }
}

fn derived(answer: Result<usize, Refused>) -> Told<2> {
    told(answer.map(|count| [0, count as u64]))
}

/// The library's reading without the pairs, which the plain program doesn't count.
pub fn library_read(list: &[u8], out: &mut [u8]) -> Told<3> {
    let Told { number, answer } = proved::read(list, out);
    let [place, count, flag, _] = answer;
    Told {
        number,
        answer: [place, count, flag],
    }
}

fn read(answer: Result<(usize, bool), Refused>) -> Told<3> {
    told(answer.map(|(count, complex)| [0, count as u64, u64::from(complex)]))
}

fn ran(answer: Result<Run, Refused>) -> Ran {
    Ran {
        value: answer.map_or(0, |run| run.value.to_bits()),
        told: told(answer.map(|run| [0, run.steps as u64, run.peak as u64])),
    }
}

fn valued(answer: Result<f64, Refused>) -> Valued {
    Valued {
        value: answer.map_or(0, f64::to_bits),
        told: told(answer.map(|_| [0, 0])),
    }
}
