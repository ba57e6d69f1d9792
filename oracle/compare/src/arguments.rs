//! What the program is asked to do.

use std::{
    path::PathBuf,
    process,
    time::{Duration, SystemTime, UNIX_EPOCH},
};

pub const USAGE: &str = "\
compare: the proved library against the judge, in one process

    compare [--exhaustive LENGTH] [--modifiers] [--crowded] [--lists N] [--seconds S]
            [--roots N] [--seed SEED] [--block B] [--threads T] [--record FILE]

--exhaustive LENGTH  all lists of up to LENGTH records of an alphabet of 31
--modifiers          all short lists of one modifier with bodies of up to one record
--crowded            lists over a stack of 1,024 entries, a few less and one more; powers after powers
--lists N            N random lists, no two the same, after those near every limit
--seconds S          random lists until S seconds have passed in all
--roots N            a list of one Sqrt at N numbers, against the processor's root
--seed SEED          what random lists start from; otherwise the clock decides, and it is printed
--block B            only this block of random lists, to see a difference again
--threads T          otherwise as many as there are cores
--record FILE        write what was compared to this file too

It ends with 0 where there is no difference, with 1 where there is one or where random lists never met a refusal of a power and of
another number that isn't finite (18 and 15), a cost of each number (0, 11 and 13) and one told as 2^64 - 1, or a value of each number
(0, 11, 13, 14 and 15, both where the writing gives 15 and where the run does), or pairs that were multiplied, more than 90,000 in one
list, and with 2 where it can't start.";

#[derive(Debug, Clone, PartialEq, Eq)]
pub struct Settings {
    pub exhaustive: Option<usize>,
    pub modifiers: bool,
    pub crowded: bool,
    pub lists: Option<u64>,
    pub seconds: Option<u64>,
    pub roots: u64,
    pub seed: u64,
    pub block: Option<u64>,
    pub threads: usize,
    pub record: Option<PathBuf>,
}

impl Settings {
    /// Whether random lists are asked for, or those near limits.
    pub fn is_random(&self) -> bool {
        self.block.is_none() && (self.lists.is_some() || self.seconds.is_some())
    }
    /// Whether lists are asked for that are gone through in order.
    pub fn is_directed(&self) -> bool {
        self.exhaustive.is_some() || self.modifiers || self.crowded
    }
    pub fn time(&self) -> Option<Duration> {
        self.seconds.map(Duration::from_secs)
    }
}

/// The settings of a command line, without the program's name.
pub fn parse(words: impl IntoIterator<Item = String>) -> Result<Settings, String> {
    let mut settings = Settings {
        exhaustive: None,
        modifiers: false,
        crowded: false,
        lists: None,
        seconds: None,
        roots: 0,
        seed: fresh_seed(),
        block: None,
        threads: std::thread::available_parallelism().map_or(1, usize::from),
        record: None,
    };
    let mut words = words.into_iter();
    while let Some(word) = words.next() {
        let mut value = || words.next().ok_or(format!("{word} needs a value"));
        match word.as_str() {
            "--exhaustive" => settings.exhaustive = Some(number(&word, value()?)? as usize),
            "--modifiers" => settings.modifiers = true,
            "--crowded" => settings.crowded = true,
            "--lists" => settings.lists = Some(number(&word, value()?)?),
            "--seconds" => settings.seconds = Some(number(&word, value()?)?),
            "--roots" => settings.roots = number(&word, value()?)?,
            "--seed" => settings.seed = number(&word, value()?)?,
            "--block" => settings.block = Some(number(&word, value()?)?),
            "--threads" => settings.threads = number(&word, value()?)?.clamp(1, 256) as usize,
            "--record" => settings.record = Some(value()?.into()),
            _ => return Err(format!("no such argument: {word}")),
        }
    }
    let is_asked = settings.is_directed() || settings.block.is_some();
    if !is_asked && !settings.is_random() && settings.roots == 0 {
        return Err("nothing to compare".into());
    }
    Ok(settings)
}

fn number(word: &str, value: String) -> Result<u64, String> {
    value
        .parse()
        .map_err(|_| format!("{word} needs a whole number from 0 up, not {value}"))
}

fn fresh_seed() -> u64 {
    let since = SystemTime::now().duration_since(UNIX_EPOCH);
    let nanoseconds = since.map_or(0, |since| since.as_nanos() as u64);
    nanoseconds ^ u64::from(process::id()) << 40
}

#[cfg(test)]
mod tests {
    use super::*;

    fn settings(words: &str) -> Result<Settings, String> {
        parse(words.split_whitespace().map(String::from))
    }

    #[test]
    fn arguments() {
        let all = settings("--exhaustive 3 --lists 10 --seconds 5 --seed 7 --threads 2").unwrap();
        assert_eq!(
            (all.exhaustive, all.lists, all.seconds),
            (Some(3), Some(10), Some(5))
        );
        assert_eq!((all.seed, all.threads), (7, 2));
        assert!(all.is_random() && !settings("--exhaustive 3").unwrap().is_random());
        let crowded = settings("--crowded").unwrap();
        assert!(crowded.crowded && crowded.is_directed() && !crowded.is_random());
        for wrong in [
            "",
            "--seed 3",
            "--lists",
            "--lists many",
            "--list 3",
            "--lists -1",
        ] {
            assert!(settings(wrong).is_err(), "{wrong}");
        }
    }
}
