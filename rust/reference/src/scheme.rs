//! The space scheme: potential vorticity, mass fluxes, Bernoulli function,
//! momentum tendencies, and the scaled rates of energy and enstrophy.
//!
//! Short names are 01's: u is held at a cell's west edge, v at its south
//! edge, q at corners, row by row. A wall has corners of its own (request U5 of
//! 02): without walls the corners are the southwest ones of the cells. Within the
//! bounds of 01 every value fits an `i64`; the rates need an `i128`.

use crate::refusal::{Field, FillAnswer, Refusal};
use crate::state::{
    test_destinations, test_grid, test_state, Corners, Fields, Grid, Inside, Parameters, State,
    Stencil,
};

/// Tu and Tv are rates times spacing times this: 65,536 of q, 24 of the
/// weights and 2 of the fluxes.
pub const TENDENCY_SCALE: i64 = 3_145_728;
/// The scale of the gradient of B, which is four times the energy it stands
/// for.
const BERNOULLI_SCALE: i64 = TENDENCY_SCALE / 4;
/// 65,536, times the four depths of which H is the sum.
const VORTICITY_SCALE: i64 = 4 * 65_536;

/// The corner weights, times 24: rows P, M, E, F over a cell's corners ne,
/// nw, sw, se.
pub const WEIGHTS: [[i64; 4]; 4] = [[2, 1, 2, 1], [1, 2, 1, 2], [1, 1, -1, -1], [-1, 1, 1, -1]];

/// 01's rnd(a/b): the nearest whole number, halves away from zero; b must be
/// above 0.
///
/// It divides sizes, and takes which way to round as a number: an unsigned
/// division is quicker, and neither a sign nor a rest can be predicted.
#[inline]
pub fn round_div(a: i64, b: i64) -> i64 {
    let (size, b) = (a.unsigned_abs(), b.unsigned_abs());
    let (quotient, rest) = (size / b, size % b);
    // 2·rest >= b, put so that it cannot overflow.
    let up = u64::from(rest >= b - rest);
    // 2^63, which only i64::MIN gives, wraps to that number twice.
    a.signum().wrapping_mul((quotient + up) as i64)
}

/// Fills `out` with the potential vorticity of a state, a number a corner.
pub fn potential_vorticity(
    p: &Parameters,
    h: &[i64],
    b: &[i64],
    u: &[i64],
    v: &[i64],
    barriers: &[u8],
    out: &mut [i64],
) -> FillAnswer {
    let fields = Fields {
        h,
        b,
        u,
        v,
        barriers,
    };
    try_potential_vorticity(p, fields, out).into()
}

fn try_potential_vorticity(p: &Parameters, fields: Fields, out: &mut [i64]) -> Result<(), Refusal> {
    let grid = test_state(p, fields, None)?;
    test_destinations(grid.corners(), [out.len()])?;
    fill_vorticity(grid, p.c, fields.h, fields.u, fields.v, out);
    Ok(())
}

/// Fills `dh` with -D and `du`, `dv` with Tu, Tv, for any lent q within its
/// bound.
pub fn tendencies(
    p: &Parameters,
    h: &[i64],
    b: &[i64],
    u: &[i64],
    v: &[i64],
    barriers: &[u8],
    q: &[i64],
    dh: &mut [i64],
    du: &mut [i64],
    dv: &mut [i64],
) -> FillAnswer {
    let fields = Fields {
        h,
        b,
        u,
        v,
        barriers,
    };
    try_tendencies(p, fields, q, dh, du, dv).into()
}

fn try_tendencies(
    p: &Parameters,
    fields: Fields,
    q: &[i64],
    dh: &mut [i64],
    du: &mut [i64],
    dv: &mut [i64],
) -> Result<(), Refusal> {
    let grid = test_state(p, fields, Some((Field::Vorticity, q)))?;
    let cells = grid.cells();
    test_destinations(cells, [dh.len(), du.len(), dv.len()])?;

    let mut space = vec![0; 3 * cells];
    let (x, rest) = space.split_at_mut(cells);
    let (y, bernoulli) = rest.split_at_mut(cells);
    fill_fluxes(grid, fields.h, fields.u, fields.v, x, y);
    fill_bernoulli(grid, p.g, fields, bernoulli);

    grid.for_each(|at| dh[at.here] = -divergence(x, y, at));
    momentum_tendencies(grid, q, x, y, bernoulli, |cell, tu, tv| {
        du[cell] = tu;
        dv[cell] = tv;
    });
    grid.close_edges(fields.barriers, &mut du[..cells], &mut dv[..cells]);
    Ok(())
}

/// q = rnd(262,144·Z/H). On a wall Z is c, and H counts the cells inside alone, as
/// often as makes four.
pub(crate) fn fill_vorticity(grid: Grid, c: i64, h: &[i64], u: &[i64], v: &[i64], out: &mut [i64]) {
    let open = |at: Stencil| {
        let z = c + v[at.here] - v[at.west] + u[at.south] - u[at.here];
        let depths = h[at.here] + h[at.west] + h[at.south] + h[at.southwest];
        round_div(VORTICITY_SCALE * z, depths)
    };
    let on_wall = |inside: Inside| {
        let depths = match inside {
            Inside::Two(one, other) => 2 * (h[one] + h[other]),
            Inside::One(cell) => 4 * h[cell],
        };
        round_div(VORTICITY_SCALE * c, depths)
    };
    grid.fill_corners(&mut out[..grid.corners()], open, on_wall);
}

/// The mass fluxes U and V: velocity times the sum of the two depths beside
/// the edge.
pub(crate) fn fill_fluxes(
    grid: Grid,
    h: &[i64],
    u: &[i64],
    v: &[i64],
    flux_u: &mut [i64],
    flux_v: &mut [i64],
) {
    grid.for_each(|at| {
        flux_u[at.here] = u[at.here] * (h[at.west] + h[at.here]);
        flux_v[at.here] = v[at.here] * (h[at.south] + h[at.here]);
    });
}

/// The Bernoulli function B, times 4.
pub(crate) fn fill_bernoulli(grid: Grid, g: i64, fields: Fields, out: &mut [i64]) {
    let Fields { h, b, u, v, .. } = fields;
    let square = |x: i64| x * x;
    grid.for_each(|at| {
        out[at.here] = square(u[at.here])
            + square(u[at.east])
            + square(v[at.here])
            + square(v[at.north])
            + 4 * g * (h[at.here] + b[at.here]);
    });
}

/// D, the net flux out of a cell.
#[inline]
fn divergence(flux_u: &[i64], flux_v: &[i64], at: Stencil) -> i64 {
    flux_u[at.east] - flux_u[at.here] + flux_v[at.north] - flux_v[at.here]
}

/// The weights P, M, E, F of the cell at `at`.
#[inline]
fn weights(q: &[i64], at: Stencil) -> [i64; 4] {
    let Corners { ne, nw, sw, se } = at.corners;
    let [ne, nw, sw, se] = [q[ne], q[nw], q[sw], q[se]];
    WEIGHTS.map(|row| row[0] * ne + row[1] * nw + row[2] * sw + row[3] * se)
}

/// Works out Tu and Tv of every cell's own edges, as if no edge were closed,
/// and hands them on in index order.
#[inline]
pub(crate) fn momentum_tendencies(
    grid: Grid,
    q: &[i64],
    flux_u: &[i64],
    flux_v: &[i64],
    bernoulli: &[i64],
    mut put: impl FnMut(usize, i64, i64),
) {
    for j in 0..grid.n {
        let row_south = grid.row_south(j);
        // The weights of the cell to the west are those of the cell before.
        let mut west = weights(q, grid.stencil(grid.w - 1, j));
        for i in 0..grid.w {
            let at = grid.stencil(i, j);
            let own = weights(q, at);
            let south = weights(q, grid.stencil(i, row_south));
            let [p, m, e, f] = own;
            let [p_west, m_west, e_west, _] = west;
            let [p_south, m_south, _, f_south] = south;
            let tu = p * flux_v[at.north]
                + m_west * flux_v[at.northwest]
                + p_west * flux_v[at.west]
                + m * flux_v[at.here]
                - e * flux_u[at.east]
                + e_west * flux_u[at.west]
                - BERNOULLI_SCALE * (bernoulli[at.here] - bernoulli[at.west]);
            let tv = -p * flux_u[at.east]
                - m * flux_u[at.here]
                - p_south * flux_u[at.south]
                - m_south * flux_u[at.southeast]
                - f * flux_v[at.north]
                + f_south * flux_v[at.south]
                - BERNOULLI_SCALE * (bernoulli[at.here] - bernoulli[at.south]);
            put(at.here, tu, tv);
            west = own;
        }
    }
}

/// 01's scaled energy rate of a state whose tendencies are `dh`, `du`, `dv`:
/// the sum of 2U·Tu + 2V·Tv - 1,572,864·B·D.
///
/// A measure for tests, not one of the calls: it panics unless the state is
/// within the limits and each list has w·n numbers at least.
pub fn energy_rate(state: &State, dh: &[i64], du: &[i64], dv: &[i64]) -> i128 {
    let fields = state.fields();
    let grid = test_state(&state.parameters, fields, None).expect("a state within the limits");
    let cells = grid.cells();
    let (mut x, mut y, mut bernoulli) = (vec![0; cells], vec![0; cells], vec![0; cells]);
    fill_fluxes(grid, fields.h, fields.u, fields.v, &mut x, &mut y);
    fill_bernoulli(grid, state.parameters.g, fields, &mut bernoulli);
    let wide = i128::from;
    (0..cells)
        .map(|k| {
            2 * wide(x[k]) * wide(du[k])
                + 2 * wide(y[k]) * wide(dv[k])
                + wide(TENDENCY_SCALE / 2) * wide(bernoulli[k]) * wide(dh[k])
        })
        .sum()
}

/// 01's scaled enstrophy rate of the vorticity `q` under the tendencies
/// `dh`, `du`, `dv`: the sum of q·η' + 3q²·D4, by 01's formulas at the southwest
/// corners of the cells. It is claimed where no edge is closed, and there these are
/// all corners.
///
/// A measure for tests, not one of the calls: it panics unless the grid is
/// within the limits, q has a number a corner and each other list w·n at least.
pub fn enstrophy_rate(p: &Parameters, q: &[i64], dh: &[i64], du: &[i64], dv: &[i64]) -> i128 {
    let grid = test_grid(p).expect("a grid within the limits");
    let wide = i128::from;
    let mut rate = 0;
    grid.for_each(|at| {
        let eta = wide(dv[at.here]) - wide(dv[at.west]) + wide(du[at.south]) - wide(du[at.here]);
        let d4 =
            -wide(dh[at.here]) - wide(dh[at.west]) - wide(dh[at.south]) - wide(dh[at.southwest]);
        let q = wide(q[at.corners.sw]);
        rate += q * eta + 3 * q * q * d4;
    });
    rate
}
