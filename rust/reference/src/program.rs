//! The step program: a record in, one step without inflow, text out.

use std::fmt::Write;

use crate::record::read;
use crate::refusal::{ReadAnswer, StepAnswer, TotalAnswer};
use crate::state::WORK_PER_CELL;
use crate::stepping::{step, total_depth};

/// An input of this many bytes or more is refused with 7.
pub const INPUT_LIMIT: usize = 65_536;
/// Cells that the program has room for.
const CELLS: usize = 1_024;

/// What the program prints for this input.
pub fn step_program(input: &[u8]) -> String {
    step_text(input).unwrap_or_else(|number| format!("refused {number}\n"))
}

/// The text, or the number of the refusal.
fn step_text(input: &[u8]) -> Result<String, i128> {
    if input.len() >= INPUT_LIMIT {
        return Err(7);
    }
    let mut h = [0; CELLS];
    let mut b = [0; CELLS];
    let mut u = [0; CELLS];
    let mut v = [0; CELLS];
    let mut barriers = [0; CELLS];
    // The whole arrays are lent, so that a larger grid meets refusal 8.
    let p = match read(input, &mut h, &mut b, &mut u, &mut v, &mut barriers) {
        ReadAnswer::Read { parameters, .. } => parameters,
        refused => return Err(refused.told()[0]),
    };
    let cells = p.w * p.n;
    let (h, b, u, v, barriers) = (
        &mut h[..cells],
        &b[..cells],
        &mut u[..cells],
        &mut v[..cells],
        &barriers[..cells],
    );
    let inflow = [0; CELLS];
    let mut work = [0; WORK_PER_CELL * CELLS];
    match step(&p, h, b, u, v, barriers, &inflow[..cells], &mut work) {
        StepAnswer::Done => {}
        refused => return Err(refused.told()[0]),
    }
    let total = match total_depth(&p, h, b, u, v, barriers) {
        TotalAnswer::Total(total) => total,
        refused => return Err(refused.told()[0]),
    };
    let mut text = format!("total {total}\n");
    for k in 0..cells {
        let (i, j) = (k % p.w, k / p.w);
        writeln!(text, "{i} {j} {} {} {}", h[k], u[k], v[k]).expect("a String takes any text");
    }
    Ok(text)
}
