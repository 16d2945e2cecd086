//! 01's formulas taken literally: every quantity a function of (i,j) that is
//! worked out afresh where it is used, wrapped by remainders, in `i128`. In `f64`
//! the same formulas are those of 02's probe, with one rounding an operation. A
//! corner (x,y) is asked which of the four cells around it are on its side of the
//! walls (02, request U5).
//!
//! `Variant` holds the ways in which copies of the scheme go astray, so that
//! the tests can show that they would notice.

use std::ops::{Add, Mul, Neg, Sub};

use reference::{Parameters, State};

/// What the formulas are worked out in.
pub trait Number:
    Copy + Add<Output = Self> + Sub<Output = Self> + Mul<Output = Self> + Neg<Output = Self>
{
    fn of(number: i64) -> Self;
}

impl Number for i128 {
    fn of(number: i64) -> Self {
        number.into()
    }
}

impl Number for f64 {
    fn of(number: i64) -> Self {
        number as f64
    }
}

/// The sum from left to right.
fn sum_of<N: Number>(terms: [N; 7]) -> N {
    let [first, rest @ ..] = terms;
    rest.into_iter().fold(first, |sum, term| sum + term)
}

#[derive(Clone, Copy, Debug, PartialEq)]
pub struct Variant {
    /// Rows P, M, E, F over ne, nw, sw, se.
    pub table: [[i64; 4]; 4],
    /// The weights beside V(i-1,j+1) from the edge's own cell.
    pub beta_from_own_cell: bool,
    /// Depth by a net divergence that is rounded per cell.
    pub net_divergence: bool,
    /// The second pass starts from the result of the first.
    pub second_pass_on_first: bool,
    /// The second pass keeps the vorticity of the start.
    pub vorticity_of_start: bool,
    /// The result of the first pass is returned.
    pub one_pass: bool,
    /// Halves are rounded up.
    pub halves_up: bool,
    /// Barriers are not looked at.
    pub boundary_alone: bool,
    /// The bits of a barrier change places.
    pub bits_swapped: bool,
    /// An edge is closed by the barrier of the cell on its other side.
    pub barrier_beyond: bool,
    /// Corners on a wall take the cells across it, as in 01.
    pub across_walls: bool,
    /// Velocities count in Z on a wall too.
    pub moving_walls: bool,
    /// Where two walls meet, the cell counts as one of two.
    pub half_of_a_cell: bool,
    /// Cells at the far wall use the corners of the near one, as in 01.
    pub near_corners: bool,
    /// A barrier makes its ends corners on a wall.
    pub walls_of_barriers: bool,
}

/// As 01 has it.
pub const PAPER: Variant = Variant {
    table: [[2, 1, 2, 1], [1, 2, 1, 2], [1, 1, -1, -1], [-1, 1, 1, -1]],
    beta_from_own_cell: false,
    net_divergence: false,
    second_pass_on_first: false,
    vorticity_of_start: false,
    one_pass: false,
    halves_up: false,
    boundary_alone: false,
    bits_swapped: false,
    barrier_beyond: false,
    across_walls: false,
    moving_walls: false,
    half_of_a_cell: false,
    near_corners: false,
    walls_of_barriers: false,
};

/// Without E and F.
pub const NO_E_F: Variant = Variant {
    table: [[2, 1, 2, 1], [1, 2, 1, 2], [0; 4], [0; 4]],
    ..PAPER
};

/// Tendencies -D, Tu, Tv, or a new h, u, v.
#[derive(Clone, Debug, PartialEq)]
pub struct Three {
    pub h: Vec<i64>,
    pub u: Vec<i64>,
    pub v: Vec<i64>,
}

impl Variant {
    pub fn rnd(&self, a: i128, b: i128) -> i128 {
        if self.halves_up {
            return (2 * a + b).div_euclid(2 * b);
        }
        let nearest = (2 * a.abs() + b) / (2 * b);
        if a < 0 {
            -nearest
        } else {
            nearest
        }
    }

    pub fn vorticity(&self, state: &State) -> Vec<i64> {
        let l = Literal::<i128>::new(state, &[], self);
        let q = l.each_corner(|x, y| {
            let mut z = l.c + l.v(x, y) - l.v(x - 1, y) + l.u(x, y - 1) - l.u(x, y);
            if l.on_wall(x, y) && !self.moving_walls {
                z = l.c;
            }
            self.rnd(262_144 * z, l.depths(x, y))
        });
        q.into_iter().map(number).collect()
    }

    pub fn tendencies(&self, state: &State, q: &[i64]) -> Three {
        let l = Literal::new(state, q, self);
        Three {
            h: l.whole(|i, j| -l.divergence(i, j)),
            u: l.whole(|i, j| l.tendency_u(i, j)),
            v: l.whole(|i, j| l.tendency_v(i, j)),
        }
    }

    /// -D, Tu and Tv in double precision.
    pub fn doubles(&self, state: &State, q: &[i64]) -> [Vec<f64>; 3] {
        let l = Literal::<f64>::new(state, q, self);
        [
            l.each(|i, j| -l.divergence(i, j)),
            l.each(|i, j| l.tendency_u(i, j)),
            l.each(|i, j| l.tendency_v(i, j)),
        ]
    }

    /// The step, or pass, field and cell of refusal 6.
    pub fn step(&self, start: &State, inflow: &[i64]) -> Result<State, (i128, i128, i128)> {
        let first_q = self.vorticity(start);
        let first = self.pass(start, start, &first_q, inflow);
        test_bounds(1, &first)?;
        if self.one_pass {
            return Ok(first);
        }
        let q = if self.vorticity_of_start {
            first_q
        } else {
            self.vorticity(&first)
        };
        let base = if self.second_pass_on_first {
            &first
        } else {
            start
        };
        let second = self.pass(base, &first, &q, inflow);
        test_bounds(2, &second)?;
        Ok(second)
    }

    fn pass(&self, base: &State, given: &State, q: &[i64], inflow: &[i64]) -> State {
        let r = i128::from(base.parameters.r);
        let l = Literal::<i128>::new(given, q, self);
        let x = |i, j| self.rnd(l.flux_u(i, j), 2 * r);
        let y = |i, j| self.rnd(l.flux_v(i, j), 2 * r);
        let flow = l.whole(|i, j| {
            if self.net_divergence {
                self.rnd(l.divergence(i, j), 2 * r)
            } else {
                x(i + 1, j) - x(i, j) + y(i, j + 1) - y(i, j)
            }
        });
        let du = l.whole(|i, j| self.rnd(l.tendency_u(i, j), 3_145_728 * r));
        let dv = l.whole(|i, j| self.rnd(l.tendency_v(i, j), 3_145_728 * r));
        let cells = 0..base.h.len();
        State {
            parameters: base.parameters,
            h: cells
                .clone()
                .map(|k| base.h[k] - flow[k] + inflow[k])
                .collect(),
            b: base.b.clone(),
            u: cells.clone().map(|k| base.u[k] + du[k]).collect(),
            v: cells.map(|k| base.v[k] + dv[k]).collect(),
            barriers: base.barriers.clone(),
        }
    }
}

fn test_bounds(pass: i128, state: &State) -> Result<(), (i128, i128, i128)> {
    let fields = [
        (0, &state.h, 1_000..=100_000),
        (2, &state.u, -5_000..=5_000),
        (3, &state.v, -5_000..=5_000),
    ];
    for (field, values, bound) in fields {
        for (cell, value) in values.iter().enumerate() {
            if !bound.contains(value) {
                return Err((pass, field, cell as i128));
            }
        }
    }
    Ok(())
}

/// The seven doubles that Tu is the sum of, and Tv, of each cell: with their signs,
/// in 01's order, and as if no edge were closed.
pub fn terms(state: &State, q: &[i64]) -> [Vec<[f64; 7]>; 2] {
    let l = Literal::new(state, q, &PAPER);
    [
        l.each(|i, j| l.terms_u(i, j)),
        l.each(|i, j| l.terms_v(i, j)),
    ]
}

struct Literal<'a, N> {
    p: Parameters,
    g: N,
    c: N,
    state: &'a State,
    q: &'a [i64],
    variant: &'a Variant,
}

impl<'a, N: Number> Literal<'a, N> {
    fn new(state: &'a State, q: &'a [i64], variant: &'a Variant) -> Self {
        let p = state.parameters;
        Literal {
            p,
            g: N::of(p.g),
            c: N::of(p.c),
            state,
            q,
            variant,
        }
    }

    /// Something of each cell.
    fn each<T>(&self, f: impl Fn(i64, i64) -> T) -> Vec<T> {
        (0..self.p.n as i64)
            .flat_map(|j| (0..self.p.w as i64).map(move |i| (i, j)))
            .map(|(i, j)| f(i, j))
            .collect()
    }

    fn place(&self, i: i64, j: i64) -> usize {
        let (w, n) = (self.p.w as i64, self.p.n as i64);
        (j.rem_euclid(n) * w + i.rem_euclid(w)) as usize
    }

    fn at(&self, field: &[i64], i: i64, j: i64) -> N {
        N::of(field[self.place(i, j)])
    }

    /// Whether the barrier of a cell closes an edge: 0 its west edge, 1 its south
    /// edge.
    fn barred(&self, edge: u32, i: i64, j: i64) -> bool {
        let (mut bit, mut place) = (edge, (i, j));
        if self.variant.bits_swapped {
            bit = 1 - edge;
        }
        if self.variant.barrier_beyond {
            place = [(i - 1, j), (i, j - 1)][edge as usize];
        }
        let barrier = self.state.barriers[self.place(place.0, place.1)];
        !self.variant.boundary_alone && barrier / 2u8.pow(bit) % 2 == 1
    }

    fn h(&self, i: i64, j: i64) -> N {
        self.at(&self.state.h, i, j)
    }

    fn u(&self, i: i64, j: i64) -> N {
        self.at(&self.state.u, i, j)
    }

    fn v(&self, i: i64, j: i64) -> N {
        self.at(&self.state.v, i, j)
    }

    fn flux_u(&self, i: i64, j: i64) -> N {
        self.u(i, j) * (self.h(i - 1, j) + self.h(i, j))
    }

    fn flux_v(&self, i: i64, j: i64) -> N {
        self.v(i, j) * (self.h(i, j - 1) + self.h(i, j))
    }

    fn divergence(&self, i: i64, j: i64) -> N {
        self.flux_u(i + 1, j) - self.flux_u(i, j) + self.flux_v(i, j + 1) - self.flux_v(i, j)
    }

    fn weight(&self, row: usize, i: i64, j: i64) -> N {
        let [ne, nw, sw, se] = self.variant.table[row].map(N::of);
        // The cell wraps, its corners only where there is no wall.
        let (i, j) = (i.rem_euclid(self.p.w as i64), j.rem_euclid(self.p.n as i64));
        ne * self.corner(i + 1, j + 1)
            + nw * self.corner(i, j + 1)
            + sw * self.corner(i, j)
            + se * self.corner(i + 1, j)
    }

    /// Columns and rows of corners.
    fn corner_sides(&self) -> [i64; 2] {
        corner_sides(&self.p).map(|side| side as i64)
    }

    /// What q has at a corner.
    fn corner(&self, x: i64, y: i64) -> N {
        let [columns, rows] = self.corner_sides();
        let (mut x, mut y) = (x.rem_euclid(columns), y.rem_euclid(rows));
        if self.variant.near_corners {
            x %= self.p.w as i64;
            y %= self.p.n as i64;
        }
        N::of(self.q[(y * columns + x) as usize])
    }

    /// Something of each corner.
    fn each_corner<T>(&self, f: impl Fn(i64, i64) -> T) -> Vec<T> {
        let [columns, rows] = self.corner_sides();
        (0..rows)
            .flat_map(|y| (0..columns).map(move |x| (x, y)))
            .map(|(x, y)| f(x, y))
            .collect()
    }

    /// Those of the four cells around a corner that are on its side of the walls.
    fn around(&self, x: i64, y: i64) -> Vec<(i64, i64)> {
        let inside = |cell: i64, side: usize, walled: bool| {
            !walled || self.variant.across_walls || (0..side as i64).contains(&cell)
        };
        [(x, y), (x - 1, y), (x, y - 1), (x - 1, y - 1)]
            .into_iter()
            .filter(|&(i, _)| inside(i, self.p.w, self.p.kind == 2))
            .filter(|&(_, j)| inside(j, self.p.n, self.p.kind != 0))
            .collect()
    }

    fn on_wall(&self, x: i64, y: i64) -> bool {
        let barred = self.variant.walls_of_barriers
            && (self.barred(0, x, y)
                || self.barred(0, x, y - 1)
                || self.barred(1, x, y)
                || self.barred(1, x - 1, y));
        self.around(x, y).len() < 4 || barred
    }

    fn bernoulli(&self, i: i64, j: i64) -> N {
        let square = |x: N| x * x;
        square(self.u(i, j))
            + square(self.u(i + 1, j))
            + square(self.v(i, j))
            + square(self.v(i, j + 1))
            + N::of(4) * self.g * (self.h(i, j) + self.at(&self.state.b, i, j))
    }

    fn tendency_u(&self, i: i64, j: i64) -> N {
        if self.p.kind == 2 && i == 0 || self.barred(0, i, j) {
            return N::of(0);
        }
        sum_of(self.terms_u(i, j))
    }

    fn tendency_v(&self, i: i64, j: i64) -> N {
        if self.p.kind != 0 && j == 0 || self.barred(1, i, j) {
            return N::of(0);
        }
        sum_of(self.terms_v(i, j))
    }

    fn terms_u(&self, i: i64, j: i64) -> [N; 7] {
        let p = |i, j| self.weight(0, i, j);
        let m = |i, j| self.weight(1, i, j);
        let e = |i, j| self.weight(2, i, j);
        let beta = if self.variant.beta_from_own_cell {
            m(i, j)
        } else {
            m(i - 1, j)
        };
        [
            p(i, j) * self.flux_v(i, j + 1),
            beta * self.flux_v(i - 1, j + 1),
            p(i - 1, j) * self.flux_v(i - 1, j),
            m(i, j) * self.flux_v(i, j),
            -(e(i, j) * self.flux_u(i + 1, j)),
            e(i - 1, j) * self.flux_u(i - 1, j),
            -(N::of(786_432) * (self.bernoulli(i, j) - self.bernoulli(i - 1, j))),
        ]
    }

    fn terms_v(&self, i: i64, j: i64) -> [N; 7] {
        let p = |i, j| self.weight(0, i, j);
        let m = |i, j| self.weight(1, i, j);
        let f = |i, j| self.weight(3, i, j);
        [
            -(p(i, j) * self.flux_u(i + 1, j)),
            -(m(i, j) * self.flux_u(i, j)),
            -(p(i, j - 1) * self.flux_u(i, j - 1)),
            -(m(i, j - 1) * self.flux_u(i + 1, j - 1)),
            -(f(i, j) * self.flux_v(i, j + 1)),
            f(i, j - 1) * self.flux_v(i, j - 1),
            -(N::of(786_432) * (self.bernoulli(i, j) - self.bernoulli(i, j - 1))),
        ]
    }
}

impl Literal<'_, i128> {
    /// A whole number of each cell.
    fn whole(&self, f: impl Fn(i64, i64) -> i128) -> Vec<i64> {
        self.each(|i, j| number(f(i, j)))
    }

    /// H: the cells around a corner count as often as makes four.
    fn depths(&self, x: i64, y: i64) -> i128 {
        let cells = self.around(x, y);
        let times = match cells.len() {
            1 if self.variant.half_of_a_cell => 2,
            count => 4 / count as i128,
        };
        times * cells.into_iter().map(|(i, j)| self.h(i, j)).sum::<i128>()
    }
}

fn number(x: i128) -> i64 {
    i64::try_from(x).expect("fits 64 bits")
}

/// Potential vorticity as 01 has it, a number a cell: that of its southwest corner,
/// with the cells across the seam like any others.
pub fn vorticity_of_01(state: &State) -> Vec<i64> {
    let State {
        parameters,
        h,
        u,
        v,
        ..
    } = state;
    let (w, n) = (parameters.w, parameters.n);
    let of_cell = |cell: usize| {
        let (i, j) = (cell % w, cell / w);
        let (west, south) = ((i + w - 1) % w, (j + n - 1) % n);
        let [here, at_west, at_south, beyond] =
            [(i, j), (west, j), (i, south), (west, south)].map(|(i, j)| j * w + i);
        let z = parameters.c + v[here] - v[at_west] + u[at_south] - u[here];
        let depths = h[here] + h[at_west] + h[at_south] + h[beyond];
        let nearest = (2 * 262_144 * z.abs() + depths) / (2 * depths);
        nearest * z.signum()
    };
    (0..w * n).map(of_cell).collect()
}

/// Columns and rows of corners, by the words of 02. Sides that no call knows may be
/// of any size.
pub fn corner_sides(p: &Parameters) -> [usize; 2] {
    let more = |side: usize| side.saturating_add(1);
    match p.kind {
        1 => [p.w, more(p.n)],
        2 => [more(p.w), more(p.n)],
        _ => [p.w, p.n],
    }
}

/// Four times total energy.
pub fn energy(state: &State) -> i128 {
    let l = Literal::new(state, &[], &PAPER);
    sum(&l, |i, j| {
        let (h, b) = (l.h(i, j), l.at(&state.b, i, j));
        (l.h(i - 1, j) + h) * l.u(i, j).pow(2)
            + (l.h(i, j - 1) + h) * l.v(i, j).pow(2)
            + 2 * l.g * h * (h + 2 * b)
    })
}

/// The scaled energy rate under these tendencies.
pub fn energy_rate(state: &State, rates: &Three) -> i128 {
    let l = Literal::new(state, &[], &PAPER);
    sum(&l, |i, j| {
        2 * l.flux_u(i, j) * l.at(&rates.u, i, j) + 2 * l.flux_v(i, j) * l.at(&rates.v, i, j)
            - 1_572_864 * l.bernoulli(i, j) * -l.at(&rates.h, i, j)
    })
}

/// The scaled enstrophy rate of this q under these tendencies, at the southwest
/// corners of the cells.
pub fn enstrophy_rate(state: &State, q: &[i64], rates: &Three) -> i128 {
    let l = Literal::<i128>::new(state, q, &PAPER);
    let (d, tu, tv) = (
        |i, j| -l.at(&rates.h, i, j),
        |i, j| l.at(&rates.u, i, j),
        |i, j| l.at(&rates.v, i, j),
    );
    sum(&l, |i, j| {
        let eta = tv(i, j) - tv(i - 1, j) + tu(i, j - 1) - tu(i, j);
        let d4 = d(i, j) + d(i - 1, j) + d(i, j - 1) + d(i - 1, j - 1);
        let q = l.corner(i, j);
        q * eta + 3 * q * q * d4
    })
}

fn sum(l: &Literal<i128>, f: impl Fn(i64, i64) -> i128) -> i128 {
    l.each(f).into_iter().sum()
}
