//! The parts of a picture in SVG.

/// A picture that is being drawn. Places and sizes are in pixels, from the top left.
#[derive(Debug)]
pub struct Svg(String);

/// A place in the picture.
pub type Place = (f64, f64);

/// How a text stands at its place.
#[derive(Debug, Clone, Copy)]
pub enum Anchor {
    Start,
    Middle,
    End,
    /// Around its middle, read from below.
    Upright,
}

impl Svg {
    /// An empty white picture, with words for those who can't see it.
    pub fn new((width, height): (f64, f64), title: &str, about: &str) -> Self {
        let fonts = "Helvetica, Arial, 'DejaVu Sans', sans-serif";
        let mut svg = Svg(String::new());
        svg.put(format!(
            "<svg xmlns=\"http://www.w3.org/2000/svg\" width=\"{width}\" height=\"{height}\" \
             viewBox=\"0 0 {width} {height}\" role=\"img\" font-family=\"{fonts}\">"
        ));
        svg.put(format!("<title>{}</title>", escaped(title)));
        svg.put(format!("<desc>{}</desc>", escaped(about)));
        svg.put("<rect width=\"100%\" height=\"100%\" fill=\"white\"/>".into());
        svg
    }

    /// The picture's file.
    pub fn finish(mut self) -> String {
        self.put("</svg>".into());
        self.0
    }

    fn put(&mut self, element: String) {
        self.0.push_str(&element);
        self.0.push('\n');
    }

    pub fn line(&mut self, (x1, y1): Place, (x2, y2): Place, colour: &str, width: f64) {
        self.put(format!(
            "<line x1=\"{x1:.2}\" y1=\"{y1:.2}\" x2=\"{x2:.2}\" y2=\"{y2:.2}\" stroke=\"{colour}\" stroke-width=\"{width}\"/>"
        ));
    }

    pub fn frame(&mut self, (left, top): Place, (right, bottom): Place, colour: &str) {
        let (width, height) = (right - left, bottom - top);
        self.put(format!(
            "<rect x=\"{left:.2}\" y=\"{top:.2}\" width=\"{width:.2}\" height=\"{height:.2}\" fill=\"none\" stroke=\"{colour}\"/>"
        ));
    }

    pub fn text(&mut self, (x, y): Place, anchor: Anchor, style: &str, text: &str) {
        let (anchor, turn) = match anchor {
            Anchor::Start => ("start", String::new()),
            Anchor::Middle => ("middle", String::new()),
            Anchor::End => ("end", String::new()),
            Anchor::Upright => (
                "middle",
                format!(" transform=\"rotate(-90 {x:.2} {y:.2})\""),
            ),
        };
        let text = escaped(text);
        self.put(format!(
            "<text x=\"{x:.2}\" y=\"{y:.2}\" text-anchor=\"{anchor}\"{turn} {style}>{text}</text>"
        ));
    }

    /// Points joined in a row.
    pub fn curve(&mut self, points: &[Place], colour: &str) {
        let points: Vec<String> = points
            .iter()
            .map(|(x, y)| format!("{x:.2},{y:.2}"))
            .collect();
        let points = points.join(" ");
        self.put(format!(
            "<polyline points=\"{points}\" fill=\"none\" stroke=\"{colour}\" stroke-width=\"2.5\" stroke-linejoin=\"round\"/>"
        ));
    }

    pub fn dot(&mut self, (x, y): Place, colour: &str) {
        self.put(format!(
            "<circle cx=\"{x:.2}\" cy=\"{y:.2}\" r=\"2.6\" fill=\"{colour}\"/>"
        ));
    }
}

/// Text as it stands in a picture's file.
fn escaped(text: &str) -> String {
    let mut out = String::new();
    for character in text.chars() {
        match character {
            '&' => out.push_str("&amp;"),
            '<' => out.push_str("&lt;"),
            '>' => out.push_str("&gt;"),
            character if character.is_control() => out.push(' '),
            character => out.push(character),
        }
    }
    out
}

#[cfg(test)]
mod tests {
    use super::*;

    #[test]
    fn text_is_escaped() {
        assert_eq!(escaped("a <b> & c\n"), "a &lt;b&gt; &amp; c ");
    }

    #[test]
    fn upright_text_is_turned() {
        let mut svg = Svg::new((10.0, 10.0), "t", "a");
        svg.text((1.0, 2.0), Anchor::Upright, "fill=\"red\"", "x");
        assert!(svg.finish().contains(
            "text-anchor=\"middle\" transform=\"rotate(-90 1.00 2.00)\" fill=\"red\">x<"
        ));
    }
}
