//! What the measurement must show, beside what it shows.

use backlog::Shape;

use crate::{
    sides::{Line, MODULE, Table},
    values::{FEW_POWERS, RUN_OF_LIST},
};

pub struct Bar {
    pub what: String,
    pub bar: String,
    pub measured: f64,
    pub is_met: bool,
}

/// At most so many times the other's time.
fn at_most(what: String, bar: f64, measured: f64) -> Bar {
    Bar {
        what,
        bar: format!("at most {bar}"),
        measured,
        is_met: measured <= bar,
    }
}

/// The tables that bars are about; the first line is of all lists, the lines
/// after it of single kinds, as many as there are.
pub struct Shown<'a> {
    pub derivative: &'a Table,
    pub read: &'a Table,
    pub run: &'a Table,
    pub kinds: usize,
    /// Of the derivative, for each shape; the last line is of the longest lists.
    pub growth: &'a [Table],
    /// Of sums: all of few powers, each number of few powers, many powers.
    pub values: &'a Table,
}

const CLEARED: &str = "cleared room";
const LENT: &str = "lent room";

impl Shown<'_> {
    pub fn bars(&self) -> Vec<Bar> {
        let derivative = self.derivative;
        let all = &derivative.lines[0];
        let mut bars = Vec::new();
        for (room, bar) in [(CLEARED, 1.2), (LENT, 1.5)] {
            let what = format!("derivative, all lists, to the plain program with {room}");
            bars.push(at_most(what, bar, derivative.ratio(all, room)));
        }
        let (kind, ratio) = self.dearest_kind();
        let what =
            format!("derivative, the dearest kind ({kind}), to the plain program with {CLEARED}");
        bars.push(at_most(what, 1.5, ratio));
        let times = 1.0 / derivative.ratio(all, MODULE);
        bars.push(Bar {
            what: "derivative, all lists, how many times as fast as the Rust module".into(),
            bar: "at least 5".into(),
            measured: times,
            is_met: times >= 5.0,
        });
        for (shape, table) in Shape::ALL.iter().zip(self.growth) {
            let last = &table.lines[table.lines.len() - 1];
            let what = format!(
                "derivative, {}, {}, to the plain program with {CLEARED}",
                last.what,
                shape.name()
            );
            bars.push(at_most(what, 1.5, table.ratio(last, CLEARED)));
        }
        for (entry, table) in [("read", self.read), ("run", self.run)] {
            let what = format!("{entry}, all lists, to the plain program with {CLEARED}");
            bars.push(at_most(what, 1.2, table.ratio(&table.lines[0], CLEARED)));
        }
        bars.extend(self.bars_of_values());
        bars
    }

    fn bars_of_values(&self) -> Vec<Bar> {
        let lines = &self.values.lines;
        let few = &lines[1..=FEW_POWERS];
        let plain = format!("the plain program with {CLEARED}");
        let mut bars = Vec::new();
        for (side, name, bar) in [
            (RUN_OF_LIST, "the run of its list", 0.5),
            (CLEARED, plain.as_str(), 1.2),
        ] {
            let ratio = |line: &Line| self.values.ratio(line, side);
            let (dearest, dearest_ratio) = dearest(few, ratio);
            let all = &lines[0];
            let many = &lines[lines.len() - 1];
            for (what, measured) in [
                (all.what.clone(), ratio(all)),
                (format!("the dearest of these ({dearest})"), dearest_ratio),
                (many.what.clone(), ratio(many)),
            ] {
                bars.push(at_most(format!("value, {what}, to {name}"), bar, measured));
            }
        }
        bars
    }

    fn dearest_kind(&self) -> (&str, f64) {
        let kinds = &self.derivative.lines[1..=self.kinds];
        dearest(kinds, |line| self.derivative.ratio(line, CLEARED))
    }
}

/// The line with the highest ratio.
fn dearest(lines: &[Line], ratio: impl Fn(&Line) -> f64) -> (&str, f64) {
    let ratios = lines.iter().map(|line| (line.what.as_str(), ratio(line)));
    ratios.max_by(|a, b| a.1.total_cmp(&b.1)).expect("a line")
}

#[cfg(test)]
mod tests {
    use super::*;
    use crate::{
        measure::Measured,
        sides::{Line, PROVED},
    };

    fn table(proved: &[f64]) -> Table {
        let took = |median| Measured {
            median,
            least: median,
            most: median,
        };
        let line = |proved: &f64| Line {
            what: format!("{proved}"),
            lists: 1,
            sides: [*proved, 100.0, 80.0, 600.0].map(took).to_vec(),
        };
        Table {
            names: vec![PROVED, CLEARED, LENT, MODULE],
            lines: proved.iter().map(line).collect(),
        }
    }

    /// The other sides take 100, 80 and 600.
    fn values(proved: &[f64]) -> Table {
        Table {
            names: vec![PROVED, CLEARED, LENT, RUN_OF_LIST],
            ..table(proved)
        }
    }

    const NO_VALUES: [f64; 10] = [1.0; 10];

    #[test]
    fn each_bar_is_held_against_its_lines() {
        let derivative = table(&[120.0, 90.0, 151.0, 140.0, 999.0]);
        let (read, run) = (table(&[119.0, 999.0]), table(&[121.0]));
        let shown = Shown {
            derivative: &derivative,
            read: &read,
            run: &run,
            kinds: 3,
            growth: &[table(&[999.0, 150.0]), table(&[1.0, 160.0])],
            values: &values(&NO_VALUES),
        };
        let bars = shown.bars();
        let (bars, of_values) = bars.split_at(8);
        let measured: Vec<f64> = bars.iter().map(|bar| bar.measured).collect();
        assert_eq!(measured, [1.2, 1.5, 1.51, 5.0, 1.5, 1.6, 1.19, 1.21]);
        let is_met: Vec<bool> = bars.iter().map(|bar| bar.is_met).collect();
        assert_eq!(is_met, [true, true, false, true, true, false, true, false]);
        assert!(bars[2].what.contains("151"));
        assert!(of_values.len() == 6 && of_values.iter().all(|bar| bar.is_met));
    }

    #[test]
    fn bars_of_values_are_held_against_their_lines() {
        let one = table(&[1.0, 1.0]);
        let times = [120.0, 1.0, 2.0, 3.0, 306.0, 5.0, 6.0, 7.0, 8.0, 300.0];
        let shown = Shown {
            derivative: &one,
            read: &one,
            run: &one,
            kinds: 1,
            growth: &[],
            values: &values(&times),
        };
        let bars = shown.bars_of_values();
        let measured: Vec<f64> = bars.iter().map(|bar| bar.measured).collect();
        assert_eq!(measured, [0.2, 0.51, 0.5, 1.2, 3.06, 3.0]);
        let is_met: Vec<bool> = bars.iter().map(|bar| bar.is_met).collect();
        assert_eq!(is_met, [true, false, true, true, false, false]);
        assert!(bars[1].what.contains("306") && bars[1].what.contains("run"));
        assert!(bars[4].what.contains("306") && bars[4].what.contains("plain"));
    }
}
