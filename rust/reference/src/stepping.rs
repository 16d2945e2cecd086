//! The two-pass time step, runs of it, and the totals.

use crate::refusal::{Field, RunAnswer, StepAnswer, TotalAnswer};
use crate::scheme::{
    fill_bernoulli, fill_fluxes, fill_vorticity, momentum_tendencies, round_div, TENDENCY_SCALE,
};
use crate::state::{first_outside, test_room, test_state, test_values, Fields, Grid, Parameters};

/// Where a pass left a bound: the values of refusal 6.
struct OutOfBounds {
    pass: u8,
    field: Field,
    cell: usize,
}

/// Takes one step with the given inflow.
pub fn step(
    p: &Parameters,
    h: &mut [i64],
    b: &[i64],
    u: &mut [i64],
    v: &mut [i64],
    barriers: &[u8],
    inflow: &[i64],
    work: &mut [i64],
) -> StepAnswer {
    match run(p, h, b, u, v, barriers, inflow, 1, work) {
        RunAnswer::Finished { .. } => StepAnswer::Done,
        RunAnswer::Stopped {
            pass, field, cell, ..
        } => StepAnswer::OutOfBounds { pass, field, cell },
        RunAnswer::Refused(refusal) => StepAnswer::Refused(refusal),
    }
}

/// Takes up to `steps` steps with the same inflow; stops before a step that
/// meets refusal 6.
pub fn run(
    p: &Parameters,
    h: &mut [i64],
    b: &[i64],
    u: &mut [i64],
    v: &mut [i64],
    barriers: &[u8],
    inflow: &[i64],
    steps: u64,
    work: &mut [i64],
) -> RunAnswer {
    let fields = Fields {
        h,
        b,
        u,
        v,
        barriers,
    };
    let grid = match test_room(p, fields, inflow, steps, work.len()) {
        Ok(grid) => grid,
        Err(refusal) => return RunAnswer::Refused(refusal),
    };
    let work = &mut work[..grid.work()];
    // From here on the work space is left clear, whatever the answer.
    let extra = Some((Field::Inflow, inflow));
    let answer = match test_values(p, grid, fields, extra) {
        Ok(()) => {
            let (work, left) = work.split_at_mut(Stage::PARTS * grid.cells());
            let mut narrow;
            let q = if grid.corners() <= left.len() {
                left
            } else {
                narrow = [0; NARROW_CORNERS];
                &mut narrow
            };
            let q = &mut q[..grid.corners()];
            let mut stage = Stage::in_work_space(work, grid.cells(), q);
            advance(p, grid, h, b, u, v, barriers, inflow, steps, &mut stage)
        }
        Err(refusal) => RunAnswer::Refused(refusal),
    };
    work.fill(0);
    answer
}

fn advance(
    p: &Parameters,
    grid: Grid,
    h: &mut [i64],
    b: &[i64],
    u: &mut [i64],
    v: &mut [i64],
    barriers: &[u8],
    inflow: &[i64],
    steps: u64,
    stage: &mut Stage,
) -> RunAnswer {
    for done in 0..steps {
        let base = Fields {
            h,
            b,
            u,
            v,
            barriers,
        };
        if let Err(OutOfBounds { pass, field, cell }) = two_passes(p, grid, base, inflow, stage) {
            return RunAnswer::Stopped {
                steps: done,
                pass,
                field,
                cell,
            };
        }
        h.copy_from_slice(stage.h);
        u.copy_from_slice(stage.u);
        v.copy_from_slice(stage.v);
    }
    RunAnswer::Finished { steps }
}

/// Leaves the result of a step in the stage. Both passes start from the same
/// base; the second takes its tendencies from the result of the first.
fn two_passes(
    p: &Parameters,
    grid: Grid,
    base: Fields,
    inflow: &[i64],
    stage: &mut Stage,
) -> Result<(), OutOfBounds> {
    stage.h.copy_from_slice(base.h);
    stage.u.copy_from_slice(base.u);
    stage.v.copy_from_slice(base.v);
    for pass in 1..=2 {
        stage.pass(p, grid, base, inflow);
        let results = [
            (Field::Depth, &*stage.h),
            (Field::VelocityU, &*stage.u),
            (Field::VelocityV, &*stage.v),
        ];
        for (field, values) in results {
            if let Some(cell) = first_outside(field, values) {
                return Err(OutOfBounds { pass, field, cell });
            }
        }
    }
    Ok(())
}

/// The most corners for which the work space has no room: those of 64 cells in one
/// row or column between walls. A basin of w by n cells has w + n + 1 corners more
/// than cells, and room for twice its cells unless it is that narrow, or has 2 by 2.
const NARROW_CORNERS: usize = 2 * 65;

/// The work space of a step, a number per cell in each part but q, which has a number
/// per corner. h, u and v are the state that a pass takes its tendencies from, and
/// then its result.
struct Stage<'a> {
    h: &'a mut [i64],
    u: &'a mut [i64],
    v: &'a mut [i64],
    flux_u: &'a mut [i64],
    flux_v: &'a mut [i64],
    bernoulli: &'a mut [i64],
    q: &'a mut [i64],
}

impl<'a> Stage<'a> {
    /// The parts of a number per cell. They leave two of eight numbers per cell for q.
    const PARTS: usize = 6;

    fn in_work_space(work: &'a mut [i64], cells: usize, q: &'a mut [i64]) -> Self {
        let (h, work) = work.split_at_mut(cells);
        let (u, work) = work.split_at_mut(cells);
        let (v, work) = work.split_at_mut(cells);
        let (flux_u, work) = work.split_at_mut(cells);
        let (flux_v, work) = work.split_at_mut(cells);
        let (bernoulli, _) = work.split_at_mut(cells);
        Stage {
            h,
            u,
            v,
            flux_u,
            flux_v,
            bernoulli,
            q,
        }
    }

    /// One pass from `base`, with the tendencies of the state in the stage.
    fn pass(&mut self, p: &Parameters, grid: Grid, base: Fields, inflow: &[i64]) {
        let Stage {
            h,
            u,
            v,
            flux_u,
            flux_v,
            bernoulli,
            q,
        } = self;
        // Everything the tendencies need, so that h, u and v are free.
        fill_vorticity(grid, p.c, h, u, v, q);
        fill_fluxes(grid, h, u, v, flux_u, flux_v);
        let given = Fields { h, u, v, ..base };
        fill_bernoulli(grid, p.g, given, bernoulli);

        // The flow through an edge is rounded once, leaves one cell and enters
        // the other: the total keeps exactly.
        for ((new, old), entering) in h.iter_mut().zip(base.h).zip(inflow) {
            *new = old + entering;
        }
        grid.for_each(|at| {
            let x = round_div(flux_u[at.here], 2 * p.r);
            h[at.here] += x;
            h[at.west] -= x;
            let y = round_div(flux_v[at.here], 2 * p.r);
            h[at.here] += y;
            h[at.south] -= y;
        });

        let divisor = TENDENCY_SCALE * p.r;
        momentum_tendencies(grid, q, flux_u, flux_v, bernoulli, |cell, tu, tv| {
            u[cell] = base.u[cell] + round_div(tu, divisor);
            v[cell] = base.v[cell] + round_div(tv, divisor);
        });
        // The base has 0 there and the tendency is 0.
        grid.close_edges(base.barriers, u, v);
    }
}

/// Total depth: the sum of h.
pub fn total_depth(
    p: &Parameters,
    h: &[i64],
    b: &[i64],
    u: &[i64],
    v: &[i64],
    barriers: &[u8],
) -> TotalAnswer {
    let fields = Fields {
        h,
        b,
        u,
        v,
        barriers,
    };
    test_state(p, fields, None).map(|_| h.iter().sum()).into()
}

/// Four times total energy.
pub fn total_energy(
    p: &Parameters,
    h: &[i64],
    b: &[i64],
    u: &[i64],
    v: &[i64],
    barriers: &[u8],
) -> TotalAnswer {
    let fields = Fields {
        h,
        b,
        u,
        v,
        barriers,
    };
    test_state(p, fields, None)
        .map(|grid| {
            let mut total = 0;
            grid.for_each(|at| {
                let k = at.here;
                total += (h[at.west] + h[k]) * u[k] * u[k]
                    + (h[at.south] + h[k]) * v[k] * v[k]
                    + 2 * p.g * h[k] * (h[k] + 2 * b[k]);
            });
            total
        })
        .into()
}
