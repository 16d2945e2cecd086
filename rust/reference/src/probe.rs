//! The tendencies in double precision, and how far to trust them (request U3 of
//! 02).
//!
//! These are 01's formulas once more. Each number of the state, of q and of the
//! weights becomes a double first. A product comes before the sum that it is in,
//! and a sum goes from left to right, as 01 writes it: each operation rounds, so
//! another order would give other doubles.

use crate::refusal::{Field, ProbeAnswer, ProbeGridAnswer, Refusal};
use crate::scheme::WEIGHTS;
use crate::state::{
    test_cell, test_destinations, test_state, Corners, Fields, Grid, Parameters, Stencil,
};

/// The scale of the gradient of B.
const BERNOULLI_SCALE: f64 = 786_432.0;

/// The greatest size of a number of a narrow grid: h and b, u and v, q.
const NARROW_HEIGHT: u64 = 10_000;
const NARROW_VELOCITY: u64 = 500;
const NARROW_VORTICITY: u64 = 1_000_000;

/// -D, Tu and Tv of one cell, by its index, for any lent q within its bound.
pub fn probe(
    p: &Parameters,
    h: &[i64],
    b: &[i64],
    u: &[i64],
    v: &[i64],
    barriers: &[u8],
    q: &[i64],
    cell: usize,
) -> ProbeAnswer {
    let fields = Fields {
        h,
        b,
        u,
        v,
        barriers,
    };
    match try_probe(p, fields, q, cell) {
        Ok(doubles) if is_narrow(fields, q) => ProbeAnswer::Exact(doubles),
        Ok(doubles) => ProbeAnswer::Near(doubles),
        Err(refusal) => ProbeAnswer::Refused(refusal),
    }
}

fn try_probe(p: &Parameters, fields: Fields, q: &[i64], cell: usize) -> Result<[f64; 3], Refusal> {
    let grid = test_state(p, fields, Some((Field::Vorticity, q)))?;
    test_cell(grid, cell)?;
    let [mut dh, mut du, mut dv] = [(); 3].map(|()| vec![0.0; grid.cells()]);
    fill_doubles(grid, p.g, fields, q, &mut dh, &mut du, &mut dv);
    Ok([dh[cell], du[cell], dv[cell]])
}

/// Fills `dh`, `du` and `dv` with -D, Tu and Tv of every cell.
pub fn probe_grid(
    p: &Parameters,
    h: &[i64],
    b: &[i64],
    u: &[i64],
    v: &[i64],
    barriers: &[u8],
    q: &[i64],
    dh: &mut [f64],
    du: &mut [f64],
    dv: &mut [f64],
) -> ProbeGridAnswer {
    let fields = Fields {
        h,
        b,
        u,
        v,
        barriers,
    };
    match try_probe_grid(p, fields, q, dh, du, dv) {
        Ok(()) if is_narrow(fields, q) => ProbeGridAnswer::Exact,
        Ok(()) => ProbeGridAnswer::Near,
        Err(refusal) => ProbeGridAnswer::Refused(refusal),
    }
}

fn try_probe_grid(
    p: &Parameters,
    fields: Fields,
    q: &[i64],
    dh: &mut [f64],
    du: &mut [f64],
    dv: &mut [f64],
) -> Result<(), Refusal> {
    let grid = test_state(p, fields, Some((Field::Vorticity, q)))?;
    test_destinations(grid.cells(), [dh.len(), du.len(), dv.len()])?;
    fill_doubles(grid, p.g, fields, q, dh, du, dv);
    Ok(())
}

/// Whether a grid is narrow, all of it and all corners of the lent q, wherever the
/// probed cell is: the doubles are the whole numbers then.
fn is_narrow(fields: Fields, q: &[i64]) -> bool {
    let within = |field: &[i64], most: u64| field.iter().all(|x| x.unsigned_abs() <= most);
    within(fields.h, NARROW_HEIGHT)
        && within(fields.b, NARROW_HEIGHT)
        && within(fields.u, NARROW_VELOCITY)
        && within(fields.v, NARROW_VELOCITY)
        && within(q, NARROW_VORTICITY)
}

/// Works out -D, Tu and Tv of every cell; 0 on closed edges.
fn fill_doubles(
    grid: Grid,
    g: i64,
    fields: Fields,
    q: &[i64],
    dh: &mut [f64],
    du: &mut [f64],
    dv: &mut [f64],
) {
    let Fields { h, b, u, v, .. } = fields;
    let [h, b, u, v] = [h, b, u, v].map(|field| |cell: usize| field[cell] as f64);
    let cells = grid.cells();
    let mut space = vec![0.0; 3 * cells];
    let (flux_u, rest) = space.split_at_mut(cells);
    let (flux_v, bernoulli) = rest.split_at_mut(cells);
    let mut weights = vec![[0.0; 4]; cells];
    let four_g = 4.0 * g as f64;
    let square = |x: f64| x * x;
    grid.for_each(|at| {
        flux_u[at.here] = u(at.here) * (h(at.west) + h(at.here));
        flux_v[at.here] = v(at.here) * (h(at.south) + h(at.here));
        bernoulli[at.here] = square(u(at.here))
            + square(u(at.east))
            + square(v(at.here))
            + square(v(at.north))
            + four_g * (h(at.here) + b(at.here));
        weights[at.here] = weights_at(q, at);
    });

    grid.for_each(|at| {
        let [p, m, e, f] = weights[at.here];
        let [p_west, m_west, e_west, _] = weights[at.west];
        let [p_south, m_south, _, f_south] = weights[at.south];
        let divergence = flux_u[at.east] - flux_u[at.here] + flux_v[at.north] - flux_v[at.here];
        // -0.0 where D is 0.0
        dh[at.here] = -divergence;
        du[at.here] = p * flux_v[at.north]
            + m_west * flux_v[at.northwest]
            + p_west * flux_v[at.west]
            + m * flux_v[at.here]
            - e * flux_u[at.east]
            + e_west * flux_u[at.west]
            - BERNOULLI_SCALE * (bernoulli[at.here] - bernoulli[at.west]);
        dv[at.here] = -(p * flux_u[at.east])
            - m * flux_u[at.here]
            - p_south * flux_u[at.south]
            - m_south * flux_u[at.southeast]
            - f * flux_v[at.north]
            + f_south * flux_v[at.south]
            - BERNOULLI_SCALE * (bernoulli[at.here] - bernoulli[at.south]);
    });
    grid.close_edges(fields.barriers, &mut du[..cells], &mut dv[..cells]);
}

/// The weights P, M, E, F of the cell at `at`.
fn weights_at(q: &[i64], at: Stencil) -> [f64; 4] {
    let double = |x: i64| x as f64;
    let Corners { ne, nw, sw, se } = at.corners;
    let [ne, nw, sw, se] = [q[ne], q[nw], q[sw], q[se]].map(double);
    WEIGHTS.map(|row| {
        let row = row.map(double);
        row[0] * ne + row[1] * nw + row[2] * sw + row[3] * se
    })
}
