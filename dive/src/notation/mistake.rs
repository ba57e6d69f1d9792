//! Mistakes in the text notation, shown where they stand.

/// A stretch of a text: its line and column, from 1, and how many characters it has.
#[derive(Debug, Clone, Copy, PartialEq, Eq)]
pub struct Span {
    pub line: usize,
    pub column: usize,
    pub width: usize,
}

impl Span {
    /// The line that it stands on, with the stretch marked below it. Of a long line only what is near is shown.
    pub fn shown(self, text: &str) -> String {
        let first = self.column.saturating_sub(1).saturating_sub(NEAR);
        let shown = |c: char| if c.is_control() { ' ' } else { c };
        let mut line: String = self
            .line_of(text)
            .skip(first)
            .map(shown)
            .take(2 * NEAR)
            .collect();
        line.truncate(line.trim_end().len());
        let number = self.line.to_string();
        let blank = " ".repeat(number.len());
        let before = " ".repeat(self.column - 1 - first);
        let mark = "^".repeat(self.width.clamp(1, NEAR));
        format!("  {number} | {line}\n  {blank} | {before}{mark}\n")
    }

    /// The stretch itself.
    pub fn of(self, text: &str) -> String {
        let line = self.line_of(text);
        line.skip(self.column - 1).take(self.width).collect()
    }

    /// The characters of the line that it stands on, those that aren't counted left out.
    fn line_of(self, text: &str) -> impl Iterator<Item = char> + '_ {
        let text = text.strip_prefix('\u{feff}').unwrap_or(text);
        text.lines().nth(self.line - 1).unwrap_or("").chars()
    }
}

/// So many characters of a line are shown before a place, and up to as many behind.
const NEAR: usize = 100;

/// What is wrong with a text, and where.
#[derive(Debug, Clone, PartialEq, Eq)]
pub struct Mistake {
    pub span: Span,
    pub message: String,
}

impl Mistake {
    pub fn new(span: Span, message: impl Into<String>) -> Self {
        Mistake {
            span,
            message: message.into(),
        }
    }

    /// The mistake for a reader: file, line, column, sentence, and the line itself.
    pub fn shown(&self, file: &str, text: &str) -> String {
        let Span { line, column, .. } = self.span;
        format!(
            "{file}:{line}:{column}: {}\n{}",
            self.message,
            self.span.shown(text)
        )
    }
}

#[cfg(test)]
mod tests {
    use super::*;

    #[test]
    fn the_line_is_shown_with_a_mark() {
        let mistake = Mistake::new(
            Span {
                line: 2,
                column: 3,
                width: 4,
            },
            "no such step",
        );
        let shown = mistake.shown("a.txt", "Dup\n\tAPoww \r\nMul");
        assert_eq!(
            shown,
            "a.txt:2:3: no such step\n  2 |  APoww\n    |   ^^^^\n"
        );
    }

    #[test]
    fn an_end_past_the_last_line_is_shown_too() {
        let mistake = Mistake::new(
            Span {
                line: 1,
                column: 4,
                width: 0,
            },
            "more is needed",
        );
        assert_eq!(
            mistake.shown("a", "On {"),
            "a:1:4: more is needed\n  1 | On {\n    |    ^\n"
        );
    }
}
