//! Axes: round numbers to mark, and their labels.

/// The stretch of numbers that an axis shows, with the marks on it.
#[derive(Debug, Clone, PartialEq)]
pub struct Axis {
    pub low: f64,
    pub high: f64,
    pub marks: Vec<Mark>,
}

#[derive(Debug, Clone, PartialEq)]
pub struct Mark {
    pub at: f64,
    pub label: String,
}

/// A number that lies less than this share of a step past a mark asks for no further mark.
const SLACK: f64 = 0.02;

impl Axis {
    /// An axis from one number to another, with about so many round numbers marked.
    pub fn exact(low: f64, high: f64, about: f64) -> Self {
        Axis {
            low,
            high,
            marks: marks(low, high, round_step((high - low) / about)),
        }
    }

    /// An axis that shows 0 and all of the numbers, and starts and ends at a mark; none where the numbers lie too far apart to draw.
    pub fn around(numbers: impl Iterator<Item = f64>, about: f64) -> Option<Self> {
        let (low, high) = numbers.fold((0.0_f64, 0.0_f64), |(low, high), number| {
            (low.min(number), high.max(number))
        });
        let high = if low == high { 1.0 } else { high };
        let step = round_step((high - low) / about);
        let low = (low / step + SLACK).floor() * step;
        let high = (high / step - SLACK).ceil() * step;
        (step > 0.0 && (high - low).is_finite()).then(|| Axis {
            low,
            high,
            marks: marks(low, high, step),
        })
    }

    /// How far along the axis a number lies, from 0 to 1.
    pub fn share(&self, number: f64) -> f64 {
        (number - self.low) / (self.high - self.low)
    }

    /// How many characters the longest label has.
    pub fn label_width(&self) -> usize {
        self.marks
            .iter()
            .map(|mark| mark.label.len())
            .max()
            .unwrap_or(0)
    }
}

/// The number of the form 1, 2 or 5 times a power of 10 that is the least from this one up.
fn round_step(least: f64) -> f64 {
    let size = 10_f64.powf(least.log10().floor());
    let first = [1.0, 2.0, 5.0]
        .into_iter()
        .find(|first| first * size >= least * (1.0 - 1e-9));
    first.unwrap_or(10.0) * size
}

/// The multiples of a step from one number to another.
fn marks(low: f64, high: f64, step: f64) -> Vec<Mark> {
    let slack = step * 1e-6;
    let first = ((low - slack) / step).ceil();
    let count = ((high + slack) / step).floor() - first;
    (0..=count.clamp(0.0, 100.0) as u32)
        .map(|mark| (first + f64::from(mark)) * step)
        .map(|at| Mark {
            at,
            label: label(at, step),
        })
        .collect()
}

/// A multiple of a step, with as many digits as tell it from its neighbours.
fn label(number: f64, step: f64) -> String {
    let text = if (1e-6..1e7).contains(&step) && number.abs() < 1e10 {
        let digits = (-step.log10().floor()).max(0.0) as usize;
        format!("{number:.digits$}")
    } else {
        short(&format!("{number:.3e}"))
    };
    let is_zero = text.bytes().all(|byte| !(b'1'..=b'9').contains(&byte));
    if is_zero {
        "0".into()
    } else {
        text
    }
}

/// A number with an exponent, without zeros at the end of its digits.
fn short(text: &str) -> String {
    match text.split_once('e') {
        Some((digits, exponent)) => format!(
            "{}e{exponent}",
            digits.trim_end_matches('0').trim_end_matches('.')
        ),
        None => text.into(),
    }
}

#[cfg(test)]
mod tests {
    use super::*;

    fn labels(axis: &Axis) -> Vec<&str> {
        axis.marks.iter().map(|mark| mark.label.as_str()).collect()
    }

    #[test]
    fn steps_are_round() {
        for (least, step) in [
            (0.7, 1.0),
            (1.0, 1.0),
            (1.3, 2.0),
            (2.1, 5.0),
            (7.0, 10.0),
            (0.03, 0.05),
        ] {
            assert!(
                (round_step(least) / step - 1.0_f64).abs() < 1e-12,
                "{least}"
            );
        }
    }

    #[test]
    fn axes_show_zero_and_all_numbers() {
        let axis = Axis::around([3.0, 148.0].into_iter(), 5.0).expect("an axis");
        assert_eq!((axis.low, axis.high), (0.0, 150.0));
        assert_eq!(labels(&axis), ["0", "50", "100", "150"]);
        let axis = Axis::around([-61.0, 59.0].into_iter(), 5.0).expect("an axis");
        assert_eq!(labels(&axis), ["-100", "-50", "0", "50", "100"]);
        let axis = Axis::around([-0.01, 149.0].into_iter(), 5.0).expect("an axis");
        assert_eq!((axis.low, axis.high), (0.0, 150.0));
        let axis = Axis::around([0.0].into_iter(), 5.0).expect("an axis");
        assert_eq!((axis.low, axis.high), (0.0, 1.0));
    }

    #[test]
    fn ends_stay_where_they_are() {
        let axis = Axis::exact(0.3, 2.4, 8.0);
        assert_eq!((axis.low, axis.high), (0.3, 2.4));
        assert_eq!(labels(&axis), ["0.5", "1.0", "1.5", "2.0"]);
        assert!((axis.share(2.4) - 1.0).abs() < 1e-12);
    }

    #[test]
    fn labels_are_short_for_every_size() {
        for exponent in -300..=300 {
            let size = 10_f64.powi(exponent);
            let axis = Axis::around([-3.3 * size, 7.7 * size].into_iter(), 5.0).expect("an axis");
            assert!((3..=12).contains(&axis.marks.len()), "{axis:?}");
            assert!(axis.label_width() <= 10, "{axis:?}");
            assert!(
                axis.marks
                    .windows(2)
                    .all(|pair| pair[0].label != pair[1].label),
                "{axis:?}"
            );
        }
    }

    #[test]
    fn numbers_too_far_apart_have_no_axis() {
        assert_eq!(Axis::around([f64::MAX, f64::MIN].into_iter(), 5.0), None);
    }
}
