//! A state as a text description, which [`crate::text`] reads as the same
//! state again.

use std::fmt::Display;

use crate::date::to_date;
use crate::state::State;
use crate::text::BOUNDARIES;

/// The text description of a state.
pub fn to_text(state: &State) -> String {
    let p = &state.parameters;
    let boundary = BOUNDARIES.get(usize::from(p.kind)).unwrap_or(&"unknown");
    let mut text = format!(
        "grid {} {}\nboundary {boundary}\ngravity {}\ncoriolis {}\nspacing-per-step {}\ntime {}\n",
        p.w,
        p.n,
        p.g,
        p.c,
        p.r,
        to_date(state.timestamp)
    );
    let fields = [
        ("bottom", &state.b),
        ("depth", &state.h),
        ("u", &state.u),
        ("v", &state.v),
    ];
    for (word, field) in fields {
        text.push_str(&field_text(word, field, p.w));
    }
    if state.has_barriers() {
        text.push_str(&field_text("barriers", &state.barriers, p.w));
    }
    text
}

/// A field in the shortest form that gives it whole: one number, a number for
/// each column, or all rows.
fn field_text<T: Display + PartialEq>(word: &str, field: &[T], w: usize) -> String {
    let Some(first) = field.first() else {
        return String::new();
    };
    let rows: Vec<&[T]> = field.chunks(w.max(1)).collect();
    if field.iter().all(|value| value == first) {
        format!("{word} {first}\n")
    } else if rows.iter().all(|row| row == &rows[0]) {
        format!("{word} columns {}\n", joined(rows[0]))
    } else {
        format!("{word} rows\n{}", table(field, w))
    }
}

fn joined<T: Display>(values: &[T]) -> String {
    let words: Vec<String> = values.iter().map(T::to_string).collect();
    words.join(" ")
}

/// A line for each row, north first, the numbers of a column one below the
/// other.
pub fn table<T: Display>(field: &[T], w: usize) -> String {
    let width = field.iter().map(|value| value.to_string().len()).max();
    let width = width.unwrap_or(0) + 1;
    let mut text = String::new();
    for row in field.chunks(w.max(1)).rev() {
        for value in row {
            text.push_str(&format!("{value:>width$}"));
        }
        text.push('\n');
    }
    text
}
