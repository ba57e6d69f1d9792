//! All that is measured, in the order of the report.

use backlog::{Backlog, Group, Kind, SIZES, Shape};
use oracle::text;

use crate::{
    bars::Shown,
    costs::{self, CostLine, ReadingLine},
    report::{self, Setting},
    sides::{Entry, Table},
    values,
    writers::{self, WriterLine},
};

type Named<'a> = (&'a str, &'a Group);

pub struct Measurements {
    setting: Setting,
    /// Of all lists, of each kind, and of lists besides, for each entry.
    tables: [Table; 3],
    /// Of lists that grow, for each entry and shape.
    growth: [[Table; 2]; 3],
    /// Of sums.
    values: Table,
    writers: Vec<WriterLine>,
    costs: Vec<CostLine>,
    readings: Vec<ReadingLine>,
}

impl Measurements {
    pub fn take(rounds: usize, command: String) -> Measurements {
        let set = Backlog::new();
        let setting = Setting {
            command,
            rounds,
            lists: set.all.lists.len(),
            fingerprint: set.all.fingerprint(),
            load: report::load(),
        };
        let drag = backlog::drag();
        let mut groups: Vec<Named> = vec![("all lists", &set.all)];
        groups.extend(Kind::ALL.map(Kind::name).into_iter().zip(&set.kinds));
        groups.push(("drag formulas", &drag));
        let writer = |&(name, group): &Named| writers::writers(name, group, rounds);
        let cost = |&(name, group): &Named| costs::cost(name, group, rounds);
        Measurements {
            setting,
            tables: Entry::ALL.map(|entry| of_groups(entry, &groups, rounds)),
            growth: Entry::ALL.map(|entry| Shape::ALL.map(|shape| grown(entry, shape, rounds))),
            values: values::values(rounds),
            writers: groups.iter().map(writer).collect(),
            costs: groups.iter().map(cost).collect(),
            readings: costs::readings(),
        }
    }

    pub fn report(&self) -> String {
        report::head(&self.setting)
            + &report::bars(&self.shown().bars())
            + &self.tables()
            + &report::values(&self.values)
            + &report::writers(&self.writers)
            + &report::costs(&self.costs, &self.readings)
    }

    fn shown(&self) -> Shown<'_> {
        let [derivative, read, run] = &self.tables;
        Shown {
            derivative,
            read,
            run,
            kinds: Kind::ALL.len(),
            growth: &self.growth[0],
            values: &self.values,
        }
    }

    fn tables(&self) -> String {
        let entries = Entry::ALL.iter().zip(&self.tables);
        let main = entries.map(|(entry, table)| (entry.title().to_string(), table));
        let shapes = Entry::ALL
            .iter()
            .zip(&self.growth)
            .flat_map(|(entry, tables)| {
                let title = |shape: &Shape| format!("{}, {}", entry.title(), shape.name());
                Shape::ALL.iter().map(title).zip(tables)
            });
        let (main, grown): (Vec<_>, Vec<_>) = (main.collect(), shapes.collect());
        report::with_short_cuts("##", &main)
            + "\n## Lists that grow\n"
            + &report::with_short_cuts("###", &grown)
            + "\n## The plain program without short cuts\n"
            + &report::without_short_cuts("###", &[main, grown].concat())
    }
}

fn of_groups(entry: Entry, groups: &[Named], rounds: usize) -> Table {
    if entry != Entry::Run {
        return Table::measure(entry, groups, rounds);
    }
    let steps = [
        ("an empty list", ""),
        ("one Neg", "Neg"),
        ("one Sqrt", "Sqrt"),
    ]
    .map(|(name, words)| (name, one_list(words)));
    let steps = steps.iter().map(|(name, group)| (*name, group));
    let groups: Vec<Named> = groups.iter().copied().chain(steps).collect();
    Table::measure(entry, &groups, rounds)
}

/// The same list many times, to be run.
fn one_list(words: &str) -> Group {
    Group {
        lists: Vec::new(),
        derivatives: vec![text::list(words); 1000],
    }
}

fn grown(entry: Entry, shape: Shape, rounds: usize) -> Table {
    let name = |size: usize| format!("{size} term{}", if size == 1 { "" } else { "s" });
    let groups = SIZES.map(|size| (name(size), backlog::grown(shape, size)));
    let groups: Vec<Named> = groups
        .iter()
        .map(|(name, group)| (name.as_str(), group))
        .collect();
    Table::measure(entry, &groups, rounds)
}
