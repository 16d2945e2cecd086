//! JSON as text that may stand inside a page.

use std::fmt::{Display, Write};

/// Numbers in brackets.
pub fn numbers<T: Display>(numbers: &[T]) -> String {
    let mut text = String::from("[");
    for (place, number) in numbers.iter().enumerate() {
        let comma = if place == 0 { "" } else { "," };
        let _ = write!(text, "{comma}{number}");
    }
    text.push(']');
    text
}

/// Things in brackets that are JSON already.
pub fn list(things: impl Iterator<Item = String>) -> String {
    let things: Vec<String> = things.collect();
    format!("[{}]", things.join(",\n"))
}

/// A text in quotes. What could end the script that it stands in, or what an old
/// reader takes for the end of a line, is written by its number.
pub fn quoted(text: &str) -> String {
    let mut quoted = String::from("\"");
    for letter in text.chars() {
        match letter {
            '"' | '\\' => {
                quoted.push('\\');
                quoted.push(letter);
            }
            '<' | '>' | '&' | '\u{2028}' | '\u{2029}' | '\0'..='\u{1f}' | '\u{7f}' => {
                let _ = write!(quoted, "\\u{:04x}", u32::from(letter));
            }
            _ => quoted.push(letter),
        }
    }
    quoted.push('"');
    quoted
}

/// A number, or `null` where there is none.
pub fn number_or_null(number: Option<u64>) -> String {
    number.map_or("null".to_owned(), |number| number.to_string())
}

/// A text in quotes, or `null` where there is none.
pub fn quoted_or_null(text: Option<String>) -> String {
    text.map_or("null".to_owned(), |text| quoted(&text))
}

#[cfg(test)]
mod tests {
    use super::*;

    #[test]
    fn texts_that_are_hard_to_write() {
        for (text, written) in [
            ("gate", "\"gate\""),
            ("", "\"\""),
            ("</script>", "\"\\u003c/script\\u003e\""),
            ("a \"b\" \\", "\"a \\\"b\\\" \\\\\""),
            ("\n\u{2028}\0", "\"\\u000a\\u2028\\u0000\""),
            ("Schleuse ä 🚢", "\"Schleuse ä 🚢\""),
        ] {
            assert_eq!(quoted(text), written);
        }
    }

    #[test]
    fn lists_and_nothing() {
        assert_eq!(numbers(&[1, -2, 3]), "[1,-2,3]");
        assert_eq!(numbers::<i64>(&[]), "[]");
        assert_eq!(list(["1".to_owned()].into_iter()), "[1]");
        assert_eq!(number_or_null(None), "null");
        assert_eq!(quoted_or_null(Some("a".to_owned())), "\"a\"");
    }
}
