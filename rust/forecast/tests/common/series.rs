//! A series of an example with a clock and gates, and the same states by single
//! calls of the core.

use basin::Ran;
use forecast::clock::Clock;
use forecast::draw::Series;
use forecast::gates::Gate;
use forecast::run::{run, step};
use forecast::State;

use super::state;

/// Names that are hard to write into a page.
pub const HARD_NAMES: [&str; 6] = [
    "</script><script>throw 'gate'</script>",
    "<!-- \"north\" & 'south' \\ {{data}}",
    "Überlaufschütz ñ ł",
    "lock 🚢 gate",
    "two\u{2028}lines\nand a tab\t",
    "",
];

/// Gates with these names, each in another cell of the lowest row.
pub fn gates(names: &[&str]) -> Vec<Gate> {
    let gate = |(i, name): (usize, &&str)| Gate {
        name: name.to_string(),
        cell: (5 * i, 0),
    };
    names.iter().enumerate().map(gate).collect()
}

pub fn clock(state: &State, step_ms: Option<u64>) -> Clock {
    Clock {
        start: state.timestamp,
        step_ms,
    }
}

/// A series of a state, without inflow.
pub fn series(
    mut state: State,
    step_ms: Option<u64>,
    gates: Vec<Gate>,
    steps: u64,
    every: u64,
) -> (Series, Ran) {
    let clock = clock(&state, step_ms);
    let inflow = vec![0; state.h.len()];
    let advance = |state: &mut State, next| run(state, &inflow, next, next, |_| ());
    Series::run(&mut state, clock, gates, steps, every, advance).unwrap()
}

/// The states after these many steps, by single steps.
pub fn states_after(name: &str, steps: &[u64]) -> Vec<State> {
    let mut state = state(name);
    let inflow = vec![0; state.h.len()];
    let mut done = 0;
    let mut after = |steps: u64| {
        while done < steps {
            done += step(&mut state, &inflow).unwrap().steps;
        }
        state.clone()
    };
    steps.iter().map(|&steps| after(steps)).collect()
}

/// A number with its thousands apart.
pub fn grouped(number: i64) -> String {
    let digits = number.to_string();
    let (sign, digits) = match digits.strip_prefix('-') {
        Some(digits) => ("-", digits),
        None => ("", &digits[..]),
    };
    let parts: Vec<&str> = digits
        .as_bytes()
        .rchunks(3)
        .rev()
        .map(|part| std::str::from_utf8(part).unwrap())
        .collect();
    format!("{sign}{}", parts.join(","))
}
