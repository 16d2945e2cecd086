//! What a record says, for a person.

use basin::{Parameters, Probe, Refusal, Trust};

use crate::date::to_date;
use crate::describe::table;
use crate::failure::cell_name;
use crate::state::State;

/// Grids up to this many columns and rows are shown cell by cell.
const SMALL: (usize, usize) = (16, 24);

/// Grid, boundary, constants, timestamp, totals by the core, the range of each
/// field, and of a small grid level and velocities of each cell; barriers where
/// there are some.
pub fn shown(state: &State) -> Result<String, Refusal> {
    let p = &state.parameters;
    let mut text = format!("grid {} columns, {} rows\n", p.w, p.n);
    text += &format!("boundary {}\n", boundary(p.kind));
    text += &format!("gravity {} mm/s²\n", p.g);
    text += &format!("Coriolis parameter times spacing {} mm/s\n", p.c);
    text += &format!("spacing over time step {} mm/s\n", p.r);
    text += &format!("timestamp {}\n", to_date(state.timestamp));
    text += &format!("total depth {} mm\n", state.total_depth()?);
    text += &format!("four times total energy {}\n", state.total_energy()?);
    let level = state.level();
    text += &range("depth", &state.h, "mm", p.w);
    text += &range("bottom", &state.b, "mm", p.w);
    text += &range("level", &level, "mm", p.w);
    text += &range("u", &state.u, "mm/s", p.w);
    text += &range("v", &state.v, "mm/s", p.w);
    text += &step_reach(state);
    if state.has_barriers() {
        let on = |bit: u8| state.barriers.iter().filter(|&z| z & bit != 0).count();
        let (west, south) = (on(1), on(2));
        text += &format!("barriers: {west} on west edges, {south} on south edges\n");
    }
    if p.w <= SMALL.0 && p.n <= SMALL.1 {
        let of_cells = [
            ("level, mm", &level),
            ("u through west edges, mm/s", &state.u),
            ("v through south edges, mm/s", &state.v),
        ];
        for (name, field) in of_cells {
            text += &format!("\n{name}, north first\n{}", table(field, p.w));
        }
        if state.has_barriers() {
            let name = "barriers, 1 on the west edge, 2 on the south edge, 3 on both";
            text += &format!("\n{name}, north first\n{}", table(&state.barriers, p.w));
        }
    }
    Ok(text)
}

/// The tendencies of some cells in double precision, a line each, with the state's own
/// potential vorticity. A double is printed to its last digit.
pub fn probed(state: &State, cells: &[(usize, usize)]) -> Result<String, Refusal> {
    let w = state.parameters.w;
    let q = state.potential_vorticity()?;
    let line = |&(i, j): &(usize, usize)| {
        let cell = j * w + i;
        let Probe { dh, du, dv, trust } = state.probe(&q, cell)?;
        let word = match trust {
            Trust::Exact => "exact",
            Trust::Near => "near",
        };
        let name = cell_name(cell, Some(w));
        Ok(format!("{name}, {word}: -D {dh} Tu {du} Tv {dv}\n"))
    };
    cells.iter().map(line).collect()
}

/// What a step can do: how far a wave goes in it, and what is too little to be moved
/// by it. Velocities are whole mm/s and flows whole mm a step, so less than a half of
/// one is nothing.
fn step_reach(state: &State) -> String {
    let Parameters { g, r, .. } = state.parameters;
    let h = state.h.iter().copied().max().unwrap_or(0);
    // √(G·h)/R in thousandths, rounded up.
    let wave = (0..).find(|wave| wave * wave * r * r >= 1_000_000 * g * h);
    let wave = wave.unwrap_or(0);
    let advice = match wave {
        ..=350 => "to be kept below 0.35",
        _ => "above 0.35, where refusal 6 may stop a run",
    };
    let half = |of: i64| (r + 2 * of - 1) / (2 * of);
    let (slope, current) = (half(g), half(h));
    let (whole, part) = (wave / 1000, wave % 1000);
    format!(
        "wave speed over spacing-per-step {whole}.{part:03} ({advice})\n\
         smallest slope that moves still water {slope} mm a cell\n\
         smallest current that carries water {current} mm/s, where it is deepest\n"
    )
}

/// A boundary's name, and what it closes.
fn boundary(kind: u8) -> &'static str {
    match kind {
        0 => "periodic: open on all sides, each side leads to the opposite one",
        1 => "channel: walls in the south and north, west and east lead to each other",
        2 => "basin: walls on all sides",
        _ => "unknown",
    }
}

/// The least and the greatest number of a field and the first cell of each.
fn range(name: &str, field: &[i64], unit: &str, w: usize) -> String {
    let place = |sought: i64| {
        let cell = field.iter().position(|&value| value == sought);
        cell_name(cell.unwrap_or(0), Some(w))
    };
    match (field.iter().min(), field.iter().max()) {
        (Some(&least), Some(&most)) if least < most => {
            let (from, to) = (place(least), place(most));
            format!("{name} {least} ({from}) to {most} ({to}) {unit}\n")
        }
        (Some(least), _) => format!("{name} {least} {unit} everywhere\n"),
        _ => String::new(),
    }
}
