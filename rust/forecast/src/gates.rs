//! Gates: cells with a name, whose level and current are told over a run.

use basin::Parameters;

use crate::clock::Clock;
use crate::date::to_date_ms;
use crate::failure::Failure;
use crate::place::Place;
use crate::state::State;

/// A cell with a name, such as a lock gate.
#[derive(Clone, Debug, PartialEq, Eq)]
pub struct Gate {
    pub name: String,
    /// Column and row.
    pub cell: (usize, usize),
}

/// Current at the centre of a cell, mm/s east and north: the mean over its two edges
/// either way, so a multiple of a half. The grid wraps.
pub fn current(p: &Parameters, u: &[i64], v: &[i64], (i, j): (usize, usize)) -> (f64, f64) {
    let at = |i: usize, j: usize| (j % p.n) * p.w + i % p.w;
    let mean = |a: i64, b: i64| (a + b) as f64 / 2.0;
    (
        mean(u[at(i, j)], u[at(i + 1, j)]),
        mean(v[at(i, j)], v[at(i, j + 1)]),
    )
}

/// A table of a run, as CSV: a line for a moment, three columns for each gate.
pub struct Table<'a> {
    place: Place,
    clock: Clock,
    gates: &'a [Gate],
    /// What is not yet written.
    pending: String,
}

/// So many bytes are written at once.
const AT_ONCE: usize = 1 << 16;

impl<'a> Table<'a> {
    /// A table in a place, with its head.
    pub fn new(place: Place, clock: Clock, gates: &'a [Gate]) -> Self {
        let mut pending = "step,time_utc,total_depth_mm".to_owned();
        for gate in gates {
            for column in ["level_mm", "east_mm_s", "north_mm_s"] {
                pending.push(',');
                pending += &quoted(&format!("{}_{column}", gate.name));
            }
        }
        pending.push('\n');
        Table {
            place,
            clock,
            gates,
            pending,
        }
    }

    /// Adds the line of a state after so many steps.
    pub fn line(&mut self, state: &State, steps: u64, total: i64) -> Result<(), Failure> {
        let time = self.clock.at(steps).map_or(String::new(), to_date_ms);
        self.pending += &format!("{steps},{time},{total}");
        for gate in self.gates {
            let p = &state.parameters;
            let cell = gate.cell.1 * p.w + gate.cell.0;
            let level = state.h[cell] + state.b[cell];
            let (east, north) = current(p, &state.u, &state.v, gate.cell);
            self.pending += &format!(",{level},{east:.1},{north:.1}");
        }
        self.pending.push('\n');
        match self.pending.len() {
            length if length >= AT_ONCE => self.flush(),
            _ => Ok(()),
        }
    }

    fn flush(&mut self) -> Result<(), Failure> {
        let written = self.place.write(self.pending.as_bytes());
        self.pending.clear();
        written
    }

    /// The place, with all lines written.
    pub fn end(mut self) -> Result<Place, Failure> {
        self.flush()?;
        Ok(self.place)
    }
}

/// A name as CSV has it: in quotes where it would be taken for more than one.
fn quoted(name: &str) -> String {
    if name.contains([',', '"', '\n', '\r']) {
        format!("\"{}\"", name.replace('"', "\"\""))
    } else {
        name.to_owned()
    }
}

#[cfg(test)]
mod tests {
    use super::quoted;

    #[test]
    fn names_in_a_table() {
        assert_eq!(quoted("lock west"), "lock west");
        assert_eq!(quoted("a,b"), "\"a,b\"");
        assert_eq!(quoted("the \"old\" gate"), "\"the \"\"old\"\" gate\"");
    }
}
