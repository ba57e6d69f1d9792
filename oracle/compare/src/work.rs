//! The work, shared out to threads a block at a time.

use std::{
    sync::{
        Mutex,
        atomic::{AtomicBool, AtomicU64, Ordering::Relaxed},
    },
    thread,
    time::{Duration, Instant},
};

use oracle::{
    costly, crowded, functions, generate, multiplied, power_sums, random::Random, sums::ENTRY,
};
use proved::Library;

use crate::{
    arguments::Settings,
    checker::{Checker, Outcome},
    lists::{BLOCK, Block, seed_of},
    seen::Seen,
    tally::{Origin, Tally},
};

/// The judge calls itself for every level of a list.
const STACK: usize = 64 << 20;
/// How many are taken at a time of lists that take long.
const FEW: usize = 8;
/// How often a long comparison says how far it is.
const EVERY: Duration = Duration::from_secs(60);

/// What was compared, and how it ended.
#[derive(Debug)]
pub struct Compared {
    pub tally: Tally,
    pub differences: Vec<String>,
    /// Whether time ran out before all lists were compared that were asked for by number.
    pub cut_short: bool,
    pub time: Duration,
}

/// What a thread is handed next.
enum Work {
    Lists {
        origin: Origin,
        lists: Vec<Vec<u8>>,
        seed: u64,
    },
    Sums {
        sums: Vec<Vec<u8>>,
        seed: u64,
    },
    Block(u64),
}

type Lists<'a> = Box<dyn Iterator<Item = Vec<u8>> + Send + 'a>;

/// Lists that are gone through once, in order; then, where random lists are
/// asked for, sums with functions and of powers, and blocks of random lists, by
/// turns with a few of those near limits, which take long.
struct Source<'a> {
    stretches: Vec<(Origin, Lists<'a>)>,
    sums: Option<Lists<'a>>,
    near_limits: Option<Lists<'a>>,
    taken: u64,
    next_block: u64,
    end_block: u64,
}

impl<'a> Source<'a> {
    fn new(settings: &Settings, near_limits: &'a [Vec<u8>]) -> Self {
        let mut stretches: Vec<(Origin, Lists)> = Vec::new();
        if let Some(length) = settings.exhaustive {
            stretches.push((Origin::Short, Box::new(generate::exhaustive(length))));
        }
        if settings.modifiers {
            stretches.push((
                Origin::Modifiers,
                Box::new(generate::exhaustive_modifiers()),
            ));
        }
        if settings.crowded {
            let lists = crowded::near_limits().into_iter();
            stretches.push((Origin::Crowded, Box::new(lists)));
        }
        stretches.reverse();
        let sums = (settings.is_random()).then(|| -> Lists {
            let sums = [functions::sums(), power_sums::at_limits()];
            Box::new(sums.into_iter().flatten())
        });
        let near_limits =
            (settings.is_random()).then(|| -> Lists { Box::new(near_limits.iter().cloned()) });
        let (next_block, end_block) = match settings.block {
            Some(block) => (block, block + 1),
            None if settings.is_random() => (0, u64::MAX),
            None => (0, 0),
        };
        Source {
            stretches,
            sums,
            near_limits,
            taken: 0,
            next_block,
            end_block,
        }
    }

    fn take(&mut self, seed: u64, wants_random: bool) -> Option<Work> {
        self.taken += 1;
        let seed = seed_of(!seed, self.taken);
        while let Some((origin, lists)) = self.stretches.last_mut() {
            let most = if *origin == Origin::Crowded {
                FEW
            } else {
                BLOCK
            };
            if let Some(work) = some_lists(*origin, lists, most, seed) {
                return Some(work);
            }
            self.stretches.pop();
        }
        if let Some(left) = &mut self.sums {
            let sums: Vec<Vec<u8>> = left.take(BLOCK).collect();
            if !sums.is_empty() {
                return Some(Work::Sums { sums, seed });
            }
            self.sums = None;
        }
        let is_their_turn = self.taken.is_multiple_of(2) || !wants_random;
        if let Some(lists) = self.near_limits.as_mut().filter(|_| is_their_turn) {
            if let Some(work) = some_lists(Origin::Limits, lists, FEW, seed) {
                return Some(work);
            }
            self.near_limits = None;
        }
        let block = self.next_block;
        (wants_random && block < self.end_block).then(|| {
            self.next_block += 1;
            Work::Block(block)
        })
    }
}

/// Up to so many of some lists, if any are left.
fn some_lists(origin: Origin, lists: &mut Lists, most: usize, seed: u64) -> Option<Work> {
    let lists: Vec<Vec<u8>> = lists.take(most).collect();
    (!lists.is_empty()).then_some(Work::Lists {
        origin,
        lists,
        seed,
    })
}

/// Each of some sums, and a damaged copy of it.
fn with_damaged(checker: &mut Checker, sums: &[Vec<u8>], seed: u64) -> Outcome {
    let mut random = Random::new(seed);
    for (sum, other) in sums.iter().zip(sums.iter().rev()) {
        checker.reseed(random.bits());
        checker.sum(sum)?;
        checker.sum(&generate::damaged(&mut random, sum, other, ENTRY))?;
    }
    Ok(())
}

/// What the threads share.
struct Shared<'a> {
    settings: &'a Settings,
    library: Library,
    near_limits: &'a [Vec<u8>],
    source: Mutex<Source<'a>>,
    seen_lists: Seen,
    seen_sums: Seen,
    random_lists: AtomicU64,
    all_lists: AtomicU64,
    out_of_time: AtomicBool,
    differences: Mutex<Vec<String>>,
    start: Instant,
}

impl Shared<'_> {
    fn next(&self) -> Option<Work> {
        let is_over = |time| self.start.elapsed() >= time;
        if self.settings.time().is_some_and(is_over) {
            self.out_of_time.store(true, Relaxed);
            return None;
        }
        if !self.differences.lock().expect("no panic").is_empty() {
            return None;
        }
        let is_missing = |lists| self.random_lists.load(Relaxed) < lists;
        let wants_random = self.settings.lists.is_none_or(is_missing);
        let mut source = self.source.lock().expect("no panic");
        source.take(self.settings.seed, wants_random)
    }

    fn work(&self) -> Tally {
        let mut checker = Checker::new(self.library, &self.seen_sums);
        while let Some(work) = self.next() {
            let (name, outcome) = match work {
                Work::Lists {
                    origin,
                    lists,
                    seed,
                } => (
                    format!("{origin:?} lists"),
                    self.lists(&mut checker, origin, &lists, seed),
                ),
                Work::Sums { sums, seed } => (
                    "sums with functions and of powers".into(),
                    with_damaged(&mut checker, &sums, seed),
                ),
                Work::Block(block) => (format!("block {block}"), self.block(&mut checker, block)),
            };
            if let Err(difference) = outcome {
                let found = format!("seed {}, {name}: {difference}", self.settings.seed);
                self.differences.lock().expect("no panic").push(found);
            }
        }
        checker.tally
    }

    fn lists(
        &self,
        checker: &mut Checker,
        origin: Origin,
        lists: &[Vec<u8>],
        seed: u64,
    ) -> Outcome {
        for (index, list) in lists.iter().enumerate() {
            checker.reseed(seed_of(seed, index as u64));
            self.list(checker, origin, list)?;
        }
        Ok(())
    }

    fn block(&self, checker: &mut Checker, block: u64) -> Outcome {
        let mut block = Block::new(seed_of(self.settings.seed, block), self.near_limits);
        for _ in 0..BLOCK {
            let list = block.list();
            checker.reseed(block.seed());
            self.list(checker, Origin::Random, &list)?;
            for sum in block.sums() {
                checker.sum(&sum)?;
            }
        }
        Ok(())
    }

    fn list(&self, checker: &mut Checker, origin: Origin, list: &[u8]) -> Outcome {
        if !self.seen_lists.is_new(list) {
            checker.tally.lists_again += 1;
            return Ok(());
        }
        checker.tally.lists[origin as usize] += 1;
        self.all_lists.fetch_add(1, Relaxed);
        if origin == Origin::Random {
            self.random_lists.fetch_add(1, Relaxed);
        }
        checker.list(list)
    }

    fn say_how_far(&self) {
        let lists = self.all_lists.load(Relaxed);
        eprintln!("{lists} lists in {} s ..", self.start.elapsed().as_secs());
    }
}

/// Compare what the settings ask for.
pub fn compare(settings: &Settings, library: Library) -> Compared {
    let near_limits = [
        multiplied::near_limits(),
        costly::near_limits(),
        generate::near_limits(),
        generate::near_limits_of_the_run(),
    ]
    .concat();
    let shared = Shared {
        settings,
        library,
        near_limits: &near_limits,
        source: Mutex::new(Source::new(settings, &near_limits)),
        seen_lists: Seen::default(),
        seen_sums: Seen::default(),
        random_lists: AtomicU64::new(0),
        all_lists: AtomicU64::new(0),
        out_of_time: AtomicBool::new(false),
        differences: Mutex::default(),
        start: Instant::now(),
    };
    let tally = with_threads(&shared);
    let is_asked_by_number = settings.lists.is_some() || settings.is_directed();
    Compared {
        tally,
        cut_short: shared.out_of_time.into_inner() && is_asked_by_number,
        differences: shared.differences.into_inner().expect("no panic"),
        time: shared.start.elapsed(),
    }
}

fn with_threads(shared: &Shared) -> Tally {
    let mut tally = Tally::default();
    thread::scope(|scope| {
        let start = || {
            let builder = thread::Builder::new().stack_size(STACK);
            builder
                .spawn_scoped(scope, || shared.work())
                .expect("a thread")
        };
        let threads: Vec<_> = (0..shared.settings.threads).map(|_| start()).collect();
        let mut said = Instant::now();
        while threads.iter().any(|thread| !thread.is_finished()) {
            thread::sleep(Duration::from_millis(20));
            if said.elapsed() >= EVERY {
                said = Instant::now();
                shared.say_how_far();
            }
        }
        for thread in threads {
            tally.add(&thread.join().expect("no thread panics"));
        }
    });
    tally
}
