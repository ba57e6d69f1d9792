//! Writes the stored answers of the run, `vectors/runs.txt`, anew: lists are
//! gone through in a fixed order, and one is kept if its runs meet something
//! that none before it met.

use std::{collections::BTreeSet, fs, io, path::Path};

use oracle::{
    features::Features,
    generate,
    random::Random,
    records::RECORD,
    runner::{self, Met},
    stored::{Input, RUN_AT},
};

#[derive(Default)]
struct Selection {
    met: BTreeSet<String>,
    lists: BTreeSet<Vec<u8>>,
    text: String,
}

fn met_by(list: &[u8]) -> BTreeSet<String> {
    let mut met = Met {
        features: Features::on(),
        ..Met::default()
    };
    for x in RUN_AT {
        // the answer is noted, and written once the list is kept
        let _ = runner::run_meeting(list, x, &mut met);
    }
    met.features.into_names()
}

impl Selection {
    fn keep(&mut self, list: Vec<u8>) {
        self.met.extend(met_by(&list));
        if self.lists.insert(list.clone()) {
            self.text += &Input::List(list).run_item().expect("a list");
        }
    }

    fn consider(&mut self, list: Vec<u8>) {
        if !met_by(&list).is_subset(&self.met) {
            self.keep(list);
        }
    }
}

fn random_lists() -> Vec<Vec<u8>> {
    let mut random = Random::new(22);
    let mut lists = Vec::new();
    let mut other = Vec::new();
    for round in 0..5_000 {
        let list = generate::list_to_run(&mut random, 3 + round % 16);
        let damaged = generate::damaged(&mut random, &list, &other, RECORD);
        other = list.clone();
        lists.extend([list, damaged]);
    }
    // A list that isn't whole records can't be spelt in the file.
    lists.retain(|list| list.len().is_multiple_of(RECORD));
    lists.sort_by_key(Vec::len);
    lists
}

fn main() -> io::Result<()> {
    let mut selection = Selection::default();
    for list in generate::runs_to_store() {
        selection.keep(list);
    }
    for list in generate::exhaustive(2) {
        selection.consider(list);
    }
    for list in generate::near_limits_of_the_run() {
        selection.consider(list);
    }
    for list in random_lists() {
        selection.consider(list);
    }
    let (lists, bytes) = (selection.lists.len(), selection.text.len());
    let answers = lists * RUN_AT.len();
    println!(
        "runs.txt: {lists} lists, {answers} runs, {bytes} bytes; {} names",
        selection.met.len()
    );
    let folder = Path::new(env!("CARGO_MANIFEST_DIR")).join("../vectors");
    fs::write(folder.join("runs.txt"), selection.text)?;
    Ok(())
}
