//! Depth and speed as a picture: two panels over the same minutes, depth growing downward.

use crate::{
    axis::{Axis, Mark},
    svg::{Anchor, Place, Svg},
    table::{Minutes, Row},
};

const WIDTH: f64 = 900.0;
const HEIGHT: f64 = 640.0;
const DEPTH: (f64, f64) = (108.0, 348.0);
const SPEED: (f64, f64) = (388.0, 568.0);
/// About how wide a digit of a label is.
const DIGIT: f64 = 7.6;
/// Points are marked where there are at most so many.
const MOST_DOTS: usize = 80;

const DEPTH_COLOUR: &str = "#1f5a99";
const SPEED_COLOUR: &str = "#c2410c";
const GRID: &str = "#e4e4e4";
const ZERO: &str = "#777777";
const FRAME: &str = "#444444";
const PLAIN: &str = "font-size=\"13\" fill=\"#222222\"";

/// What stands above the picture.
#[derive(Debug, Clone, Copy)]
pub struct Heading<'a> {
    pub title: &'a str,
    pub subtitle: &'a str,
}

/// One of the two panels.
struct Panel {
    top: f64,
    bottom: f64,
    axis: Axis,
    grows_down: bool,
    name: &'static str,
    colour: &'static str,
    points: Vec<(f64, Option<f64>)>,
}

/// Where things stand from left to right.
struct Across {
    left: f64,
    right: f64,
    axis: Axis,
}

impl Across {
    /// From one minute to another, with room for so many characters at the left.
    fn new(minutes: Minutes, characters: usize) -> Self {
        let marked = |about| Axis::exact(minutes.from, minutes.to, about);
        let axis = if marked(10.0).label_width() > 7 {
            marked(5.0)
        } else {
            marked(10.0)
        };
        let left = 52.0 + characters as f64 * DIGIT;
        let right = WIDTH - 8.0 - (axis.label_width().max(5) as f64 * DIGIT) / 2.0;
        Across { left, right, axis }
    }

    fn x(&self, minute: f64) -> f64 {
        self.left + self.axis.share(minute) * (self.right - self.left)
    }
}

impl Panel {
    fn y(&self, value: f64) -> f64 {
        let share = self.axis.share(value);
        let from_top = if self.grows_down { share } else { 1.0 - share };
        self.top + from_top * (self.bottom - self.top)
    }
}

/// The picture of some rows; none where the values lie too far apart to draw.
pub fn svg(heading: Heading<'_>, rows: &[Row], minutes: Minutes) -> Option<String> {
    let depth = Panel {
        top: DEPTH.0,
        bottom: DEPTH.1,
        axis: Axis::around(rows.iter().filter_map(|row| row.depth), 5.0)?,
        grows_down: true,
        name: "depth (metres)",
        colour: DEPTH_COLOUR,
        points: rows.iter().map(|row| (row.minute, row.depth)).collect(),
    };
    let speed = Panel {
        top: SPEED.0,
        bottom: SPEED.1,
        axis: Axis::around(rows.iter().filter_map(|row| row.speed), 4.0)?,
        grows_down: false,
        name: "speed (metres per minute)",
        colour: SPEED_COLOUR,
        points: rows.iter().map(|row| (row.minute, row.speed)).collect(),
    };
    let across = Across::new(
        minutes,
        depth.axis.label_width().max(speed.axis.label_width()),
    );
    Some(drawn(heading, &across, &[depth, speed]))
}

fn drawn(heading: Heading<'_>, across: &Across, panels: &[Panel; 2]) -> String {
    let about = format!(
        "Depth in metres, growing downward, and speed in metres per minute, over minutes. {}",
        heading.subtitle
    );
    let mut svg = Svg::new((WIDTH, HEIGHT), heading.title, &about);
    put_heading(&mut svg, heading, across);
    for panel in panels {
        put_minutes(&mut svg, across, panel);
        put_values(&mut svg, across, panel);
        put_curve(&mut svg, across, panel);
    }
    let middle = (across.left + across.right) / 2.0;
    svg.text(
        (middle, SPEED.1 + 46.0),
        Anchor::Middle,
        PLAIN,
        "time (minutes)",
    );
    svg.finish()
}

/// Title, formulas and legend.
fn put_heading(svg: &mut Svg, heading: Heading<'_>, across: &Across) {
    let left = across.left;
    let bold = "font-size=\"18\" font-weight=\"bold\" fill=\"#222222\"";
    svg.text((left, 32.0), Anchor::Start, bold, heading.title);
    svg.text(
        (left, 54.0),
        Anchor::Start,
        "font-size=\"13\" fill=\"#555555\"",
        heading.subtitle,
    );
    let legend = [
        (left, DEPTH_COLOUR, "depth, downward from the surface"),
        (left + 290.0, SPEED_COLOUR, "speed, above 0 on the way down"),
    ];
    for (x, colour, text) in legend {
        svg.line((x, 80.0), (x + 28.0, 80.0), colour, 2.5);
        svg.text((x + 36.0, 84.5), Anchor::Start, PLAIN, text);
    }
}

/// The marks of the minutes, from top to bottom, with their labels.
fn put_minutes(svg: &mut Svg, across: &Across, panel: &Panel) {
    let (top, bottom) = (panel.top, panel.bottom);
    for Mark { at, label } in &across.axis.marks {
        let x = across.x(*at);
        svg.line((x, top), (x, bottom), GRID, 1.0);
        svg.line((x, bottom), (x, bottom + 5.0), FRAME, 1.0);
        svg.text((x, bottom + 22.0), Anchor::Middle, PLAIN, label);
    }
}

/// The marks of the values, from left to right, with their labels; the frame and the panel's name.
fn put_values(svg: &mut Svg, across: &Across, panel: &Panel) {
    let (left, right) = (across.left, across.right);
    for Mark { at, label } in &panel.axis.marks {
        let y = panel.y(*at);
        svg.line(
            (left, y),
            (right, y),
            if *at == 0.0 { ZERO } else { GRID },
            1.0,
        );
        svg.line((left - 5.0, y), (left, y), FRAME, 1.0);
        svg.text((left - 9.0, y + 4.5), Anchor::End, PLAIN, label);
    }
    svg.frame((left, panel.top), (right, panel.bottom), FRAME);
    let style = format!("font-size=\"13\" fill=\"{}\"", panel.colour);
    svg.text(
        (20.0, (panel.top + panel.bottom) / 2.0),
        Anchor::Upright,
        &style,
        panel.name,
    );
}

/// The curve: points in a row are joined, and marked if they are few or stand alone.
fn put_curve(svg: &mut Svg, across: &Across, panel: &Panel) {
    let place = |&(minute, value): &(f64, Option<f64>)| Some((across.x(minute), panel.y(value?)));
    for stretch in panel.points.split(|(_, value)| value.is_none()) {
        let places: Vec<Place> = stretch.iter().filter_map(place).collect();
        if places.len() > 1 {
            svg.curve(&places, panel.colour);
        }
        if panel.points.len() <= MOST_DOTS || places.len() == 1 {
            places
                .iter()
                .for_each(|&place| svg.dot(place, panel.colour));
        }
    }
}

#[cfg(test)]
mod tests {
    use super::*;

    fn picture(depth: impl Fn(f64) -> Option<f64>, words: [&str; 3]) -> Option<String> {
        let minutes = Minutes::parse(words).expect("good minutes");
        let row = |minute| Row {
            minute,
            depth: depth(minute),
            speed: Some(minute),
        };
        let rows: Vec<Row> = minutes.each().map(row).collect();
        svg(
            Heading {
                title: "a dive",
                subtitle: "depth = x",
            },
            &rows,
            minutes,
        )
    }

    fn depth_curves(svg: &str) -> Vec<&str> {
        svg.lines()
            .filter(|line| line.contains("polyline") && line.contains(DEPTH_COLOUR))
            .collect()
    }

    #[test]
    fn depth_grows_downward() {
        let svg = picture(|minute| Some(10.0 * minute), ["0", "10", "10"]).expect("a picture");
        let points = depth_curves(&svg)[0].split('"').nth(1).expect("points");
        let ys: Vec<f64> = points
            .split(' ')
            .filter_map(|point| point.split_once(',')?.1.parse().ok())
            .collect();
        assert_eq!(ys, [DEPTH.0, DEPTH.1]);
    }

    #[test]
    fn units_are_said() {
        let svg = picture(Some, ["0", "1", "1"]).expect("a picture");
        for unit in [
            "depth (metres)",
            "speed (metres per minute)",
            "time (minutes)",
        ] {
            assert!(svg.contains(unit), "{unit}");
        }
    }

    #[test]
    fn gaps_part_the_curve() {
        let svg = picture(|minute| (minute != 2.0).then_some(minute), ["0", "4", "1"])
            .expect("a picture");
        assert_eq!(depth_curves(&svg).len(), 2);
    }

    #[test]
    fn what_is_too_large_to_draw_is_told() {
        let far = |minute| Some(if minute == 0.0 { f64::MAX } else { f64::MIN });
        assert_eq!(picture(far, ["0", "1", "1"]), None);
    }
}
