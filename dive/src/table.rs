//! Depth and speed at minutes from one number to another.

use uplink::{bytes, Refusal, Refused, LIST_BYTES};

use crate::{
    explain::{explained, Asked},
    failure::Failure,
    numbers,
    source::Source,
    writer::Writer,
};

/// The most rows of a table.
const MOST_ROWS: f64 = 100_000.0;

/// Minutes from one number up to another.
#[derive(Debug, Clone, Copy, PartialEq)]
pub struct Minutes {
    pub from: f64,
    pub to: f64,
    step: f64,
    /// How many digits stand behind the decimal point, where the numbers were given in decimals.
    digits: Option<usize>,
}

impl Minutes {
    /// From three words: FROM, TO and STEP.
    pub fn parse([from, to, step]: [&str; 3]) -> Result<Self, Failure> {
        let number = |name: &str, word: &str| match numbers::parse(word) {
            Ok(number) if number.is_finite() => Ok(number),
            Ok(_) => Err(Failure::Usage(format!(
                "{name} must be a finite number, and {word} is not"
            ))),
            Err(message) => Err(Failure::Usage(format!("{name}: {message}"))),
        };
        let digits = [from, to, step].map(digits_behind_point);
        let digits = digits
            .into_iter()
            .collect::<Option<Vec<_>>>()
            .and_then(|digits| digits.into_iter().max());
        let minutes = Minutes {
            from: number("FROM", from)?,
            to: number("TO", to)?,
            step: number("STEP", step)?,
            digits,
        };
        minutes.checked()
    }

    fn checked(self) -> Result<Self, Failure> {
        let Minutes { from, to, step, .. } = self;
        if from > to {
            return Err(Failure::Usage(format!(
                "FROM ({from}) must not be above TO ({to})"
            )));
        }
        if step <= 0.0 {
            return Err(Failure::Usage(format!("STEP ({step}) must be above 0")));
        }
        if self.intervals() >= MOST_ROWS {
            return Err(Failure::Usage(format!(
                "that makes more than {MOST_ROWS} rows: take a larger STEP"
            )));
        }
        Ok(self)
    }

    /// How many whole steps there are; a step that ends at TO but for rounding is whole.
    fn intervals(self) -> f64 {
        ((self.to - self.from) / self.step + 1e-9).floor()
    }

    pub fn each(self) -> impl Iterator<Item = f64> {
        (0..=self.intervals() as u32)
            .map(move |row| self.rounded(self.from + f64::from(row) * self.step))
    }

    /// The number nearest to the decimal number that is meant: 3 steps of 0.1 are 0.3.
    fn rounded(self, minute: f64) -> f64 {
        match self.digits {
            Some(digits) => format!("{minute:.digits$}").parse().unwrap_or(minute),
            None => minute,
        }
    }

    fn text(self, minute: f64) -> String {
        match self.digits {
            Some(digits) => format!("{minute:.digits$}"),
            None => numbers::decimal(minute),
        }
    }
}

fn digits_behind_point(word: &str) -> Option<usize> {
    let is_plain = word
        .bytes()
        .all(|byte| byte.is_ascii_digit() || matches!(byte, b'.' | b'+' | b'-'));
    let digits = word.split_once('.').map_or(0, |(_, digits)| digits.len());
    (is_plain && digits <= 15).then_some(digits)
}

/// Depth and speed at a minute; none where the run is refused.
#[derive(Debug, Clone, Copy, PartialEq)]
pub struct Row {
    pub minute: f64,
    pub depth: Option<f64>,
    pub speed: Option<f64>,
}

/// The rows of a list and its derivative, and why values are left out.
#[derive(Debug, Clone, PartialEq)]
pub struct Table {
    pub rows: Vec<Row>,
    pub gaps: Vec<String>,
}

/// The table of a list.
///
/// # Errors
/// Where there is no derivative, or no value at any minute.
pub fn table(source: &Source, minutes: Minutes) -> Result<Table, Failure> {
    let derived = derivative(source)?;
    let run = |source: &Source| -> Vec<Value> {
        minutes.each().map(|minute| value(source, minute)).collect()
    };
    let (depths, speeds) = (run(source), run(&derived));
    let of = [("depth", source, &depths), ("speed", &derived, &speeds)];
    let gaps = of.map(|(name, source, values)| gap(name, source, values));
    let gaps: Vec<String> = gaps.into_iter().flatten().collect();
    if depths.iter().chain(&speeds).all(Result::is_err) {
        return Err(Failure::Refused(gaps.join("\n")));
    }
    let rows = minutes.each().zip(depths.into_iter().zip(speeds));
    let rows = rows.map(|(minute, (depth, speed))| Row {
        minute,
        depth: depth.ok(),
        speed: speed.ok(),
    });
    Ok(Table {
        rows: rows.collect(),
        gaps,
    })
}

/// A list's value, or at which minute it was refused.
type Value = Result<f64, (f64, Refused)>;

fn value(source: &Source, minute: f64) -> Value {
    bytes::run(&source.bytes, minute)
        .map(|ran| ran.value)
        .map_err(|refused| (minute, refused))
}

/// Why values are left out, if any are: by the first of them.
fn gap(name: &str, source: &Source, values: &[Value]) -> Option<String> {
    let mut refused = values.iter().filter_map(|value| value.as_ref().err());
    let (minute, first) = refused.next()?;
    let count = 1 + refused.count();
    let all = values.len();
    let left_out = format!("the {name} is left out at {count} of {all} minutes");
    Some(match first.refusal {
        Refusal::NotFinite => format!("{left_out}, where it isn't finite (NotFinite)"),
        _ => format!(
            "{left_out}. {}",
            explained(Asked::Run(*minute), source, *first)
        ),
    })
}

/// The list of the speed, which means what the derivative says.
fn derivative(source: &Source) -> Result<Source, Failure> {
    let mut room = vec![0; LIST_BYTES];
    match Writer::Faithful.derivative(&source.bytes, &mut room) {
        Ok(list) => Ok(Source::of_records(
            format!("the derivative of {}", source.name),
            list,
        )),
        Err(refused) => Err(Failure::Refused(explained(
            Asked::Derivative,
            source,
            refused,
        ))),
    }
}

/// The rows for reading: metres to two digits.
pub fn text(rows: &[Row], minutes: Minutes) -> String {
    let mut text = format!(
        "{:>10}  {:>12}  {:>14}\n",
        "minutes", "depth (m)", "speed (m/min)"
    );
    for row in rows {
        let cells = [
            minutes.text(row.minute),
            metres(row.depth),
            metres(row.speed),
        ];
        text.push_str(&format!(
            "{:>10}  {:>12}  {:>14}\n",
            cells[0], cells[1], cells[2]
        ));
    }
    text
}

fn metres(value: Option<f64>) -> String {
    match value {
        None => "-".into(),
        Some(value) if value.abs() >= 1e9 => format!("{value:.3e}"),
        Some(value) => {
            let text = format!("{value:.2}");
            if text == "-0.00" {
                "0.00".into()
            } else {
                text
            }
        }
    }
}

/// The rows for programs: every number in full.
pub fn csv(rows: &[Row]) -> String {
    let cell = |value: Option<f64>| value.map_or_else(String::new, numbers::decimal);
    let mut text = String::from("minutes,depth_m,speed_m_per_min\n");
    for row in rows {
        text.push_str(&format!(
            "{},{},{}\n",
            numbers::decimal(row.minute),
            cell(row.depth),
            cell(row.speed)
        ));
    }
    text
}

#[cfg(test)]
mod tests {
    use super::*;

    fn minutes(words: [&str; 3]) -> Minutes {
        Minutes::parse(words).expect("good minutes")
    }

    fn refused(words: [&str; 3]) -> String {
        Minutes::parse(words).unwrap_err().to_string()
    }

    #[test]
    fn minutes_are_the_decimal_ones() {
        let all: Vec<f64> = minutes(["0", "0.5", "0.1"]).each().collect();
        assert_eq!(all, [0.0, 0.1, 0.2, 0.3, 0.4, 0.5]);
        let all: Vec<f64> = minutes(["-1", "1", "0.75"]).each().collect();
        assert_eq!(all, [-1.0, -0.25, 0.5]);
        assert_eq!(minutes(["2", "2", "1"]).each().count(), 1);
        assert_eq!(minutes(["0", "1e1", "1"]).each().count(), 11);
    }

    #[test]
    fn wrong_minutes_are_said() {
        assert!(refused(["1", "0", "1"]).contains("must not be above"));
        assert!(refused(["0", "1", "0"]).contains("above 0"));
        assert!(refused(["0", "1", "-1"]).contains("above 0"));
        assert!(refused(["0", "inf", "1"]).contains("finite"));
        assert!(refused(["0", "x", "1"]).contains("TO: `x` is no number"));
        assert!(refused(["0", "1", "1e-9"]).contains("rows"));
        assert!(refused(["-1e308", "1e308", "1"]).contains("rows"));
    }

    #[test]
    fn gaps_say_why() {
        let of = |text: &[u8], words| table(&Source::of_records("a".into(), text), minutes(words));
        let root = uplink::encode_list(&[uplink::Primitive::Sqrt.into()]);
        let found = of(&root, ["-1", "1", "1"]).expect("a table");
        assert_eq!(found.rows[0].depth, None);
        assert_eq!(found.rows[2].depth, Some(1.0));
        assert!(found.gaps[0].starts_with(
            "the depth is left out at 1 of 3 minutes. a: its run at x = -1 is refused: NeedsMath"
        ));
        // the derivative, 0.5 x^-0.5, has a power that isn't run
        assert!(found.gaps[1].starts_with("the speed is left out at 3 of 3 minutes"));
        assert!(of(&root, ["-2", "-1", "1"]).is_err());
        let square =
            uplink::encode_list(&[uplink::Primitive::Dup.into(), uplink::Primitive::Mul.into()]);
        let found = of(&square, ["0", "1e200", "1e200"]).expect("a table");
        assert_eq!(
            found.gaps,
            ["the depth is left out at 1 of 2 minutes, where it isn't finite (NotFinite)"]
        );
    }

    #[test]
    fn tables_are_aligned() {
        let rows = [
            Row {
                minute: 0.0,
                depth: Some(-0.001),
                speed: None,
            },
            Row {
                minute: 0.5,
                depth: Some(1234.567),
                speed: Some(-1e12),
            },
        ];
        let expected = "   minutes     depth (m)   speed (m/min)\n       0.0          0.00               -\n       0.5       1234.57       -1.000e12\n";
        assert_eq!(text(&rows, minutes(["0", "1", "0.5"])), expected);
        assert_eq!(
            csv(&rows),
            "minutes,depth_m,speed_m_per_min\n0,-0.001,\n0.5,1234.567,-1000000000000\n"
        );
    }
}
