//! Time of this thread, and several sides of a comparison by turns.

use std::{
    ffi::{c_int, c_long},
    hint::black_box,
};

#[repr(C)]
struct Timespec {
    seconds: i64,
    nanoseconds: c_long,
}

unsafe extern "C" {
    fn clock_gettime(clock: c_int, time: *mut Timespec) -> c_int;
}

/// On Linux, the processor time of the calling thread.
const CLOCK_THREAD_CPUTIME_ID: c_int = 3;

/// Processor time of this thread in nanoseconds: what other programs take
/// meanwhile doesn't count.
pub fn now() -> u64 {
    let mut time = Timespec {
        seconds: 0,
        nanoseconds: 0,
    };
    // SAFETY: the time is live and laid out as Linux has it on 64 bits.
    let status = unsafe { clock_gettime(CLOCK_THREAD_CPUTIME_ID, &mut time) };
    assert_eq!(status, 0, "this computer has no clock of a thread's time");
    time.seconds as u64 * 1_000_000_000 + time.nanoseconds as u64
}

/// What one side took, in nanoseconds a list.
#[derive(Debug, Clone, Copy)]
pub struct Measured {
    pub median: f64,
    pub least: f64,
    pub most: f64,
}

impl Measured {
    /// What is left of it, shared out to so many.
    pub fn less(self, taken: f64, shares: u64) -> Measured {
        let share = |time: f64| (time - taken) / shares as f64;
        Measured {
            median: share(self.median),
            least: share(self.least),
            most: share(self.most),
        }
    }

    /// How many times as long as the other it took.
    pub fn to(&self, other: &Measured) -> f64 {
        self.median / other.median
    }
}

type OverLists<'a> = Box<dyn FnMut(&[&[u8]]) + 'a>;

/// A side of a comparison, which does with each list what is measured.
pub struct Side<'a> {
    pub name: &'static str,
    over: OverLists<'a>,
}

impl<'a> Side<'a> {
    pub fn new<A>(name: &'static str, mut ask: impl FnMut(&[u8]) -> A + 'a) -> Side<'a> {
        let over = move |lists: &[&[u8]]| {
            for list in lists {
                drop(black_box(ask(black_box(list))));
            }
        };
        Side {
            name,
            over: Box::new(over),
        }
    }

    /// A side that goes over inputs of its own, as many as the others have.
    pub fn over_own<A>(
        name: &'static str,
        own: &'a [Vec<u8>],
        mut ask: impl FnMut(&[u8]) -> A + 'a,
    ) -> Side<'a> {
        let over = move |lists: &[&[u8]]| {
            for input in &own[..lists.len()] {
                drop(black_box(ask(black_box(input))));
            }
        };
        Side {
            name,
            over: Box::new(over),
        }
    }
}

/// How often rounds are gone, and how often each side goes over the lists in one.
#[derive(Debug, Clone, Copy)]
pub struct Turns {
    pub rounds: usize,
    pub times_a_turn: usize,
}

impl Turns {
    /// Over few lists a turn goes several times, so that the clock is fine enough.
    pub fn over(lists: &[&[u8]], rounds: usize) -> Turns {
        const LISTS_A_TURN: usize = 1000;
        Turns {
            rounds,
            times_a_turn: LISTS_A_TURN.div_ceil(lists.len()),
        }
    }
}

/// Go over all lists with each side, by turns and in changing order; the first
/// round isn't counted.
pub fn by_turns(turns: Turns, lists: &[&[u8]], sides: &mut [Side]) -> Vec<Measured> {
    let Turns {
        rounds,
        times_a_turn,
    } = turns;
    let mut times = vec![Vec::new(); sides.len()];
    for round in 0..=rounds {
        for turn in 0..sides.len() {
            let side = (round + turn) % sides.len();
            let start = now();
            for _ in 0..times_a_turn {
                (sides[side].over)(lists);
            }
            let time = now() - start;
            if round > 0 {
                times[side].push(time as f64 / (times_a_turn * lists.len()) as f64);
            }
        }
    }
    times.into_iter().map(measured).collect()
}

fn measured(mut times: Vec<f64>) -> Measured {
    times.sort_by(f64::total_cmp);
    Measured {
        median: times[times.len() / 2],
        least: times[0],
        most: times[times.len() - 1],
    }
}

#[cfg(test)]
mod tests {
    use super::*;

    #[test]
    fn the_middle_and_both_ends() {
        let measured = measured(vec![3.0, 9.0, 1.0]);
        assert_eq!(
            (measured.least, measured.median, measured.most),
            (1.0, 3.0, 9.0)
        );
    }

    #[test]
    fn shares_of_what_is_left() {
        let measured = measured(vec![30.0, 50.0, 20.0]).less(10.0, 2);
        assert_eq!(
            (measured.least, measured.median, measured.most),
            (5.0, 10.0, 20.0)
        );
    }

    #[test]
    fn every_side_has_its_turns() {
        let (mut a, mut b) = (0, 0);
        let lists = [&[][..]; 500];
        let mut sides = [Side::new("a", |_| a += 1), Side::new("b", |_| b += 1)];
        let measured = by_turns(Turns::over(&lists, 4), &lists, &mut sides);
        drop(sides);
        assert_eq!((measured.len(), a, b), (2, 5000, 5000));
    }

    #[test]
    fn a_side_with_inputs_of_its_own() {
        let own = [vec![1], vec![2, 3]];
        let mut bytes = 0;
        let mut sides = [Side::over_own("a", &own, |input| bytes += input.len())];
        let turns = Turns {
            rounds: 1,
            times_a_turn: 1,
        };
        by_turns(turns, &[&[], &[]], &mut sides);
        drop(sides);
        assert_eq!(bytes, 6);
    }
}
