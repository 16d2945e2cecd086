//! SVG as text.

use std::fmt::{Arguments, Display, Write};

/// A picture being written.
pub struct Svg {
    text: String,
}

/// Dark, for words, arrows and walls.
pub const INK: &str = "#22303c";
/// For words that matter less, and contours.
pub const GREY: &str = "#66737f";

impl Svg {
    /// An empty page of a light colour, whatever is behind it.
    pub fn new(width: f64, height: f64) -> Self {
        let mut svg = Svg {
            text: String::new(),
        };
        svg.put(format_args!(
            "<svg xmlns=\"http://www.w3.org/2000/svg\" width=\"{width}\" height=\"{height}\" \
             viewBox=\"0 0 {width} {height}\" font-family=\"system-ui, 'Segoe UI', Helvetica, \
             Arial, sans-serif\">\n<path d=\"M0 0H{width}V{height}H0Z\" fill=\"#fdfdfb\"/>\n"
        ));
        svg
    }

    /// Adds to the text.
    pub fn put(&mut self, text: Arguments) {
        // A String takes any text.
        let _ = self.text.write_fmt(text);
    }

    /// Words that begin at a place, end there or are about it.
    pub fn words(
        &mut self,
        at: (f64, f64),
        size: f64,
        colour: &str,
        anchor: &str,
        words: impl Display,
    ) {
        let (x, y) = at;
        self.put(format_args!(
            "<text x=\"{x:.1}\" y=\"{y:.1}\" font-size=\"{size}\" fill=\"{colour}\" \
             text-anchor=\"{anchor}\">{words}</text>\n"
        ));
    }

    /// A line drawn along a path; an empty one is left out.
    pub fn line(&mut self, path: &str, colour: &str, width: f64, more: &str) {
        if !path.is_empty() {
            self.put(format_args!(
                "<path d=\"{path}\" fill=\"none\" stroke=\"{colour}\" stroke-width=\"{width}\"{more}/>\n"
            ));
        }
    }

    pub fn end(mut self) -> String {
        self.text.push_str("</svg>\n");
        self.text
    }
}

/// A number with its thousands apart: 6,148,800.
pub fn grouped(number: i64) -> String {
    let digits = number.unsigned_abs().to_string();
    let mut text = String::new();
    if number < 0 {
        text.push('-');
    }
    for (place, digit) in digits.chars().enumerate() {
        if place > 0 && (digits.len() - place).is_multiple_of(3) {
            text.push(',');
        }
        text.push(digit);
    }
    text
}

#[cfg(test)]
mod tests {
    use super::grouped;

    #[test]
    fn thousands_apart() {
        let numbers = [0, -7, 999, 1000, -123_456, 6_148_800];
        let texts = ["0", "-7", "999", "1,000", "-123,456", "6,148,800"];
        assert_eq!(numbers.map(grouped), texts);
    }
}
